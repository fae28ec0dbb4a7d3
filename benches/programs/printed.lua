-- A million ints are printed in one line.
local n = 1000000
local a = {}
for i = 1, n do a[i] = i * 7 % 100000 end
io.write(a[1])
for i = 2, n do io.write(' ', a[i]) end
io.write('\n')
