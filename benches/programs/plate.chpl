// Heat on a plate of 300 by 300 inner points, in whole numbers, for twenty steps.
const n = 300;
const plate = {0..n + 1, 0..n + 1};
const inside = {1..n, 1..n};
var heat: [plate] int;
var old: [plate] int;
for j in 0..n + 1 do heat[0, j] = 1000;
for step in 1..20 {
  old = heat;
  forall (i, j) in inside do
    heat[i, j] = (old[i - 1, j] + old[i + 1, j] + old[i, j - 1] + old[i, j + 1]) / 4;
}
var sum = 0;
for (i, j) in plate do sum += heat[i, j];
writeln(sum);
