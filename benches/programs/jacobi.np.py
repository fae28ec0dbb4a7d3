# The mean of the four points beside each, and the copy back, over a plane of 1000 by 1000 ints, ten times, by numpy.
import numpy
n = 1000
a = numpy.zeros((n + 2, n + 2), dtype=numpy.int64)
a[1:n + 1, 1:n + 1] = (numpy.arange(1, n + 1)[:, None] * 7 + numpy.arange(1, n + 1)[None, :] * 3) % 1000
b = numpy.zeros((n + 2, n + 2), dtype=numpy.int64)
for step in range(1, 11):
    b[1:n + 1, 1:n + 1] = (a[0:n, 1:n + 1] + a[2:n + 2, 1:n + 1] + a[1:n + 1, 0:n] + a[1:n + 1, 2:n + 2]) // 4
    a[1:n + 1, 1:n + 1] = b[1:n + 1, 1:n + 1]
print(a[1, 1], a[n, n], a[5, 6])
