# A stencil of three points over a line of a million ints, twenty times.
n = 1000000
a = [i % 1000 if 1 <= i <= n else 0 for i in range(n + 2)]
b = [0] * (n + 2)
for step in range(1, 21):
    a[step] = -step
    for i in range(1, n + 1):
        b[i] = a[i - 1] + a[i] + a[i + 1]
print(b[1], b[n], b[n // 2])
