# The mean of the four points beside each, and the copy back, over a plane of 1000 by 1000 ints, ten times.
n = 1000
a = [[(i * 7 + j * 3) % 1000 if 1 <= i <= n and 1 <= j <= n else 0 for j in range(n + 2)] for i in range(n + 2)]
b = [[0] * (n + 2) for i in range(n + 2)]
for step in range(1, 11):
    for i in range(1, n + 1):
        for j in range(1, n + 1):
            b[i][j] = (a[i - 1][j] + a[i + 1][j] + a[i][j - 1] + a[i][j + 1]) // 4
    for i in range(1, n + 1):
        for j in range(1, n + 1):
            a[i][j] = b[i][j]
print(a[1][1], a[n][n], a[5][6])
