# A million ints are printed in one line.
n = 1000000
a = [i * 7 % 100000 for i in range(1, n + 1)]
print(*a)
