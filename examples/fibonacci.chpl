// The numbers of Fibonacci, each the sum of the two before it.
// Shows a plain loop that has to be one, since each turn needs the last one's, and a constant of a turn.
// Try last=90.
config const last = 20;
var a = 0;
var b = 1;
for i in 1..last {
  const sum = a + b;
  a = b;
  b = sum;
  write(a, " ");
}
writeln();
