-- The sum of twice each of a million ints and one, twenty times.
local n = 1000000
local a = {}
for i = 1, n do a[i] = i % 1000 end
local sum = 0
for k = 1, 20 do
  a[k] = -k
  local all = 0
  for i = 1, n do all = all + (a[i] * 2 + 1) end
  sum = sum + all
end
print(sum)
