-- The mean of the four points beside each, and the copy back, over a plane of 1000 by 1000 ints, ten times.
local n = 1000
local a, b = {}, {}
for i = 0, n + 1 do
  a[i], b[i] = {}, {}
  for j = 0, n + 1 do
    a[i][j] = (i >= 1 and i <= n and j >= 1 and j <= n) and (i * 7 + j * 3) % 1000 or 0
    b[i][j] = 0
  end
end
for step = 1, 10 do
  for i = 1, n do
    for j = 1, n do
      b[i][j] = (a[i - 1][j] + a[i + 1][j] + a[i][j - 1] + a[i][j + 1]) // 4
    end
  end
  for i = 1, n do
    for j = 1, n do
      a[i][j] = b[i][j]
    end
  end
end
print(a[1][1] .. ' ' .. a[n][n] .. ' ' .. a[5][6])
