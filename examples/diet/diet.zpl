# The diet problem of the AMPL book: the cheapest packages of eight dishes that give
# a week's need of four vitamins. Prices are in dollars a package; what a package
# gives is in percent of a day's need, of which a week needs 700. The least cost is
# 88.2, for 46 2/3 packages of macaroni.
var beef;
var chicken;
var fish;
var ham;
var macaroni;
var meatloaf;
var spaghetti;
var turkey;

minimize cost: 3.19*beef + 2.59*chicken + 2.29*fish + 2.89*ham
  + 1.89*macaroni + 1.99*meatloaf + 1.99*spaghetti + 2.49*turkey;

subto vitamin_a: 60*beef + 8*chicken + 8*fish + 40*ham
  + 15*macaroni + 70*meatloaf + 25*spaghetti + 60*turkey >= 700;
subto vitamin_c: 20*beef + 0*chicken + 10*fish + 40*ham
  + 35*macaroni + 30*meatloaf + 50*spaghetti + 20*turkey >= 700;
subto vitamin_b1: 10*beef + 20*chicken + 15*fish + 35*ham
  + 15*macaroni + 15*meatloaf + 25*spaghetti + 15*turkey >= 700;
subto vitamin_b2: 15*beef + 20*chicken + 10*fish + 10*ham
  + 15*macaroni + 15*meatloaf + 15*spaghetti + 10*turkey >= 700;
