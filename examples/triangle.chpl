// The lower half of a table of products.
// Shows a loop over part of a square: where Chapel has an inner loop up to i, a forall over the square asks.
// Try n=9.
config const n = 5;
const square = {1..n, 1..n};
var product: [square] int;
forall (i, j) in square do if j <= i then product[i, j] = i * j;
writeln(product);
