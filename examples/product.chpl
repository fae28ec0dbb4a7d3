// The powers of a matrix, by products: the numbers of Fibonacci stand in those of {1 1, 1 0}.
// Shows products of matrices by a plain loop inside a forall.
// Try last=20.
config const last = 8;
const square = {1..2, 1..2};
var step: [square] int = 1;
step[2, 2] = 0;
var power: [square] int = step;

for n in 2..last {
  var next: [square] int;
  forall (i, j) in square {
    var sum = 0;
    for k in square.dim(0) do sum += power[i, k] * step[k, j];
    next[i, j] = sum;
  }
  power = next;
}
writeln(power);
