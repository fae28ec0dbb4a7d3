// The product of two matrices: each element is the sum of a row times a column, as arrays over one line.
// Shows `+ reduce` of an expression over whole arrays.
// Try n=5.
config const n = 3;
const line = {1..n};
const square = {1..n, 1..n};
var left: [square] int;
var right: [square] int;
forall (i, j) in square {
  left[i, j] = i + j;
  right[i, j] = 2 * i - j;
}

var product: [square] int;
var row: [line] int;
var column: [line] int;
for i in line {
  forall k in line do row[k] = left[i, k];
  for j in line {
    forall k in line do column[k] = right[k, j];
    product[i, j] = + reduce (row * column);
  }
}
writeln(product);

// the elements from corner to corner, and whether the product is the same with rows and columns exchanged
forall k in line do row[k] = product[k, k];
var turned: [square] int;
forall (i, j) in square do turned[i, j] = product[j, i];
writeln("trace ", + reduce row, ", greatest ", max reduce product, ", symmetric ", && reduce (product == turned));
