// Heat on a plate, in whole numbers: its upper edge is kept hot, and each inner point takes the mean of its neighbours.
// Shows a stencil over the inside of a plane.
// Try n=6.
config const n = 4;
config const steps = 20;
const plate = {0..n + 1, 0..n + 1};
const inside = {1..n, 1..n};

var heat: [plate] int;
for j in 0..n + 1 do heat[0, j] = 1000;

for step in 1..steps {
  const before = {0..n + 1, 0..n + 1};
  var old: [before] int;
  forall t in before do old[t] = heat[t];
  forall (i, j) in inside do
    heat[i, j] = (old[i - 1, j] + old[i + 1, j] + old[i, j - 1] + old[i, j + 1]) / 4;
}
writeln(heat);
