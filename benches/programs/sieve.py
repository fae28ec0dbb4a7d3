# The primes up to two million, by a list of truth values.
n = 2000000
left = [True] * (n + 1)
p = 2
while p * p <= n:
    if left[p]:
        for m in range(p * p, n + 1, p):
            left[m] = False
    p += 1
count = 0
for k in range(2, n + 1):
    if left[k]:
        count += 1
print(count)
