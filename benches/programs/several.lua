-- Bodies of several statements over a million ints, twenty times.
local n = 1000000
local A, B, C, s = {}, {}, {}, 0
for i = 1, n do A[i] = i * 7 % 1000; B[i] = 0; C[i] = 0 end
for k = 1, 20 do
  for i = 1, n do
    B[i] = A[i] * 3 + k
    if B[i] % 2 == 0 then C[i] = B[i] - k else C[i] = B[i] * 2 end
    s = s + C[i] * i
  end
end
print(string.format('%d', s) .. ' ' .. B[n] .. ' ' .. C[1])
