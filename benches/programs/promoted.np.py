# The sum of twice each of a million ints and one, twenty times, by numpy.
import numpy
n = 1000000
a = numpy.arange(1, n + 1) % 1000
sum_of_all = 0
for k in range(1, 21):
    a[k - 1] = -k
    sum_of_all += int((a * 2 + 1).sum())
print(sum_of_all)
