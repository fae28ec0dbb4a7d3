// A picture, blurred: each point takes the weighted mean of the nine around it.
// Shows a forall that reads its neighbours in another array, with an inner loop over the weights, and a border of zeros.
// Try n=10.
config const n = 6;
const picture = {1..n, 1..n};
const bordered = picture.expand(1);
const window = {-1..1, -1..1};
var light: [bordered] int;
var blurred: [picture] int;
var weight: [window] int = 1;
weight[0, 0] = 4;
for k in -1..1 by 2 {
  weight[0, k] = 2;
  weight[k, 0] = 2;
}
forall (i, j) in picture do if (i + j) % 4 == 0 then light[i, j] = 160;

forall (i, j) in picture {
  var sum = 0;
  for (di, dj) in window do sum += weight[di, dj] * light[i + di, j + dj];
  blurred[i, j] = sum / 16;
}
writeln(blurred);
writeln("of ", + reduce weight, " parts");
