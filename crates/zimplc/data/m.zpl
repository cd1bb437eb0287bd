var x; var y; minimize c: 2*x+3*y; subto a: x+y >= 1;
