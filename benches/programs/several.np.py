# Bodies of several statements over a million ints, twenty times.
import numpy as np

n = 1000000
i = np.arange(1, n + 1)
A = i * 7 % 1000
s = 0
for k in range(1, 21):
    B = A * 3 + k
    C = np.where(B % 2 == 0, B - k, B * 2)
    s += int((C * i).sum())
print(s, B[n - 1], C[0])
