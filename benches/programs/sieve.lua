-- The primes up to two million, by a table of truth values.
local n = 2000000
local left = {}
for k = 2, n do left[k] = true end
local p = 2
while p * p <= n do
  if left[p] then
    for m = p * p, n, p do left[m] = false end
  end
  p = p + 1
end
local count = 0
for k = 2, n do if left[k] then count = count + 1 end end
print(count)
