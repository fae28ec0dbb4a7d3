# Smooths a grid, and counts what stays below the limit.
n = 1_000; limit = 0x7fff
below = 0
for i in range(2, n):
    for j in range(2, n):
        Next[i, j] = (Grid[i - 1, j] + Grid[i + 1, j] + Grid[i, j - 1] + Grid[i, j + 1]) // 4
        if Next[i, j] <= limit and i % 2 != 0: below += 1
for loc in range(locales): print("locale ", loc, ' has\t', below)
for row in range(0, n, 16):
    while Grid[row + 1, 1] > 0: Grid[row + 1, 1] -= 3
