-- A stencil of four points over a plane of 1000 by 1000 ints, ten times.
local n = 1000
local a, b = {}, {}
for i = 0, n + 1 do
  a[i], b[i] = {}, {}
  for j = 0, n + 1 do
    a[i][j] = (i >= 1 and i <= n and j >= 1 and j <= n) and i + j or 0
    b[i][j] = 0
  end
end
for step = 1, 10 do
  a[step][step] = -step
  for i = 1, n do
    for j = 1, n do
      b[i][j] = a[i - 1][j] + a[i + 1][j] + a[i][j - 1] + a[i][j + 1]
    end
  end
end
print(b[1][1] .. ' ' .. b[n][n] .. ' ' .. b[5][6])
