// Ranges: down by four, cut by a slice, and what they know of themselves.
// Shows ranges as values, which have members in an order.
// Try other strides in the text.
const down = 1..20 by -4;
for i in down do write(i, " ");
writeln();
for i in down[5..15] do write(i, " ");
writeln();
writeln(down.size, " members from ", down.first, " to ", down.last, "; 8 is one of them: ", down.contains(8));
var product = 1;
var greatest = 0;
forall i in down with (* reduce product, max reduce greatest) {
  product *= i;
  greatest reduce= i;
}
writeln("product ", product, ", greatest ", greatest);
