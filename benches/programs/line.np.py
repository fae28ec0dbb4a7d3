# A stencil of three points over a line of a million ints, twenty times, by numpy.
import numpy
n = 1000000
a = numpy.arange(n + 2) % 1000
a[0] = a[n + 1] = 0
b = numpy.zeros(n + 2, dtype=numpy.int64)
for step in range(1, 21):
    a[step] = -step
    b[1:n + 1] = a[0:n] + a[1:n + 1] + a[2:n + 2]
print(b[1], b[n], b[n // 2])
