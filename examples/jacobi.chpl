// Heat on a plate until nothing moves: each inner point takes the mean of the four around it, again and again.
// Shows a while over foralls, a slice as the inside, and a reduction that says when it is done.
// Try n=12.
use BlockDist;

config const n = 6;
const plate = blockDist.createDomain({0..n + 1, 0..n + 1});
const inside = plate[1..n, 1..n];
var heat: [plate] int;
var next: [plate] int;
var change: [plate] int;
for j in plate.dim(1) do heat[n + 1, j] = 1000;

var moved = 1;
var rounds = 0;
while moved > 0 {
  forall (i, j) in inside do
    next[i, j] = (heat[i - 1, j] + heat[i + 1, j] + heat[i, j - 1] + heat[i, j + 1]) / 4;
  forall t in inside do change[t] = (heat[t] - next[t]) * (heat[t] - next[t]);
  moved = max reduce change;
  forall t in inside do heat[t] = next[t];
  rounds += 1;
}
writeln(heat);
writeln("after ", rounds, " rounds");
