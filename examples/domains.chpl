// Sets of points: a square of the plane, a disc in it, its frame, a quarter of it, and every second point.
// Shows domains as values: loops over them, slices, what is expanded, and members that are asked for.
// Try r=6.
config const r = 4;
const square = {-r..r, -r..r};

// A turn for each point, with a name for each coordinate.
var disc = 0;
forall (x, y) in square with (+ reduce disc) do
  if x * x + y * y <= r * r then disc += 1;
writeln("disc: ", disc, " of ", square.size, " points");

// What the expanded square has and the square doesn't; here one name stands for the whole point.
var frame = 0;
forall p in square.expand(1) with (+ reduce frame) do
  if !square.contains(p) then frame += 1;
writeln("frame: ", frame);

// A slice of the square, and the point of the disc in it whose coordinates have the greatest product.
const quarter = square[1..r, 1..r];
var greatest = 0;
forall (x, y) in quarter with (max reduce greatest) do
  if x * x + y * y <= r * r then greatest reduce= x * y;
writeln("quarter: ", quarter.size, ", greatest product ", greatest);

// Every second point of the disc is an o, the others are dots. The rows of a domain are its first dimension.
const second = {-r..r by 2, -r..r by 2};
for x in square.dim(0) {
  for y in square.dim(1) do
    if x * x + y * y > r * r then write(" ");
    else if second.contains(x, y) then write("o");
    else write(".");
  writeln();
}
