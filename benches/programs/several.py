# Bodies of several statements over a million ints, twenty times.
n = 1000000
A = [i * 7 % 1000 for i in range(n + 1)]
B = [0] * (n + 1)
C = [0] * (n + 1)
s = 0
for k in range(1, 21):
    for i in range(1, n + 1):
        B[i] = A[i] * 3 + k
        if B[i] % 2 == 0:
            C[i] = B[i] - k
        else:
            C[i] = B[i] * 2
        s += C[i] * i
print(s, B[n], C[1])
