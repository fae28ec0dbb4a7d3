# Heat on a plate of 300 by 300 inner points, in whole numbers, for twenty steps.
n = 300
heat = [[1000 if i == 0 else 0] * (n + 2) for i in range(n + 2)]
for step in range(20):
    old = [list(row) for row in heat]
    for i in range(1, n + 1):
        for j in range(1, n + 1):
            heat[i][j] = (old[i - 1][j] + old[i + 1][j] + old[i][j - 1] + old[i][j + 1]) // 4
sum = 0
for i in range(n + 2):
    for j in range(n + 2):
        sum += heat[i][j]
print(sum)
