# Twice each of a million ints and one, put into another list, twenty times.
n = 1000000
a = [i % 1000 for i in range(1, n + 1)]
for k in range(1, 21):
    a[k - 1] = -k
    b = [x * 2 + 1 for x in a]
print(b[0], b[19], b[n - 1])
