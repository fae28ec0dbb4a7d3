// Heat on a plate that is dealt out by blocks: its left edge is kept hot, and each inner point takes the mean of its neighbours.
// Shows two plates that take turns, so that no forall reads what it writes; how many locales there are changes nothing of what is printed.
// Try n=3, or --locales 4 --grid2 2x2.
use BlockDist;

config const n = 6;
config const steps = 40;
const inside = {1..n, 1..n};
const plate = blockDist.createDomain(inside.expand(1));

var heat: [plate] int;
for i in plate.dim(0) do heat[i, 0] = 1000;
var next: [plate] int = heat;

for step in 1..steps {
  forall (i, j) in inside do
    next[i, j] = (heat[i - 1, j] + heat[i + 1, j] + heat[i, j - 1] + heat[i, j + 1]) / 4;
  heat = next;
}

var sum = 0;
forall t in inside with (+ reduce sum) do sum += heat[t];
writeln(heat);
writeln("after ", steps, " steps the inside has ", sum / inside.size, " on average");
