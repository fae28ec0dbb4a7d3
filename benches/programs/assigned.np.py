# Twice each of a million ints and one, put into another array, twenty times, by numpy.
import numpy
n = 1000000
a = numpy.arange(1, n + 1) % 1000
b = numpy.zeros(n, dtype=numpy.int64)
for k in range(1, 21):
    a[k - 1] = -k
    b[:] = a * 2 + 1
print(b[0], b[19], b[n - 1])
