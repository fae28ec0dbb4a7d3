// Numbers, but a word for each that three or five divide.
// Shows a chain of ifs, texts, and a config const.
// Try n=30.
config const n = 15;
for i in 1..n {
  if i % 15 == 0 then writeln("FizzBuzz");
  else if i % 3 == 0 then writeln("Fizz");
  else if i % 5 == 0 then writeln("Buzz");
  else writeln(i);
}
