# The sum of twice each of a million ints and one, twenty times.
n = 1000000
a = [i % 1000 for i in range(1, n + 1)]
sum_of_all = 0
for k in range(1, 21):
    a[k - 1] = -k
    sum_of_all += sum(x * 2 + 1 for x in a)
print(sum_of_all)
