// Numbers that look thrown: each is computed from the one before it.
// Shows whole numbers with a remainder, where other languages take bits.
// Try seed=7 n=10.
config const seed = 42;
config const n = 5;
var s = seed;
for i in 1..n {
  s = (s * 1103515245 + 12345) % 2147483648;
  writeln(s / 65536);
}
