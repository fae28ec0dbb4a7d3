// The set of Mandelbrot: a star for each point that stays near, however often it is squared and moved.
// Shows numbers with a point, counted in 1/65536, and turns of unequal length over a plane that is cut into blocks.
// Try rows=24 cols=80, or --maps cyclic, which deals the long turns of the middle out.
use BlockDist;

config const rows = 12;
config const cols = 40;
config const most = 50;
const one = 65536;
const plane = {0..#rows, 0..#cols} dmapped new blockDist({0..#rows, 0..#cols});
var steps: [plane] int;

forall (r, c) in plane {
  const re = -2 * one + 3 * one * c / cols;
  const im = -one + 2 * one * r / rows;
  var x = 0;
  var y = 0;
  var k = 0;
  while k < most && (x * x + y * y) / one < 4 * one {
    const t = (x * x - y * y) / one + re;
    y = 2 * x * y / one + im;
    x = t;
    k += 1;
  }
  steps[r, c] = k;
}

for r in plane.dim(0) {
  for c in plane.dim(1) do
    if steps[r, c] == most then write("*"); else write(".");
  writeln();
}
