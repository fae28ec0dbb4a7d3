// How often each digit comes among numbers that look thrown: a column for each, as high as its count.
// Shows counting by sums over a whole array, one digit after another.
// Try n=100.
config const n = 60;
const places = {1..n};
const digits = {0..9};
var thrown: [places] int;
var seed = 1;
for i in places {
  seed = (seed * 1103515245 + 12345) % 2147483648;
  thrown[i] = seed / 65536 % 10;
}

// 1 / (1 + d * d) is 1 where d is 0, and 0 elsewhere: so the sum of these counts
var count: [digits] int;
for digit in digits do
  count[digit] = + reduce (1 / (1 + (thrown - digit) * (thrown - digit)));

for height in 1..max reduce count by -1 {
  for digit in digits do
    if count[digit] >= height then write("#"); else write(" ");
  writeln();
}
for digit in digits do write(digit);
writeln();
writeln("counts ", count);
writeln(+ reduce count, " numbers, all digits among them: ", && reduce (count > 0));
