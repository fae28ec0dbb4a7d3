-- A stencil of three points over a line of a million ints, twenty times.
local n = 1000000
local a, b = {}, {}
for i = 0, n + 1 do a[i] = (i >= 1 and i <= n) and i % 1000 or 0; b[i] = 0 end
for step = 1, 20 do
  a[step] = -step
  for i = 1, n do b[i] = a[i - 1] + a[i] + a[i + 1] end
end
print(b[1] .. ' ' .. b[n] .. ' ' .. b[n // 2])
