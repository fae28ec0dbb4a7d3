-- Heat on a plate of 300 by 300 inner points, in whole numbers, for twenty steps.
local n = 300
local heat, old = {}, {}
for i = 0, n + 1 do
  heat[i], old[i] = {}, {}
  for j = 0, n + 1 do heat[i][j], old[i][j] = i == 0 and 1000 or 0, 0 end
end
for step = 1, 20 do
  for i = 0, n + 1 do for j = 0, n + 1 do old[i][j] = heat[i][j] end end
  for i = 1, n do
    for j = 1, n do
      heat[i][j] = (old[i - 1][j] + old[i + 1][j] + old[i][j - 1] + old[i][j + 1]) // 4
    end
  end
end
local sum = 0
for i = 0, n + 1 do for j = 0, n + 1 do sum = sum + heat[i][j] end end
print(sum)
