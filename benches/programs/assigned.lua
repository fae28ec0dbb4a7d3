-- Twice each of a million ints and one, put into another table, twenty times.
local n = 1000000
local a, b = {}, {}
for i = 1, n do a[i] = i % 1000; b[i] = 0 end
for k = 1, 20 do
  a[k] = -k
  for i = 1, n do b[i] = a[i] * 2 + 1 end
end
print(b[1] .. ' ' .. b[20] .. ' ' .. b[n])
