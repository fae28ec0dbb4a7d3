-- Smooths a grid, and counts what stays below the limit.
n = 1000; limit = 0x7fff;
(function() local below = 0
for i = 2, n - 1 do for j = 2, n - 1 do
  Next[i][j] = (Grid[i - 1][j] + Grid[i + 1][j] + Grid[i][j - 1] + Grid[i][j + 1]) // 4
  if Next[i][j] <= limit and i % 2 ~= 0 then below = below + 1 end
end end
for loc = 0, locales - 1 do io.write("locale ", loc, ' has\t', below, "\n") end
for row = 0, n - 1, 16 do while Grid[row + 1][1] > 0 do Grid[row + 1][1] = Grid[row + 1][1] - 3 end end end)();
