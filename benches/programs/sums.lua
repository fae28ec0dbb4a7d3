-- The sum of a million ints in a table, twenty times.
local n = 1000000
local a = {}
for i = 1, n do a[i] = i % 1000 end
local sum = 0
for k = 1, 20 do
  a[k] = -k
  local all = 0
  for i = 1, n do all = all + a[i] end
  sum = sum + all
end
print(sum)
