# One month of Williams's food manufacture: five oils are refined and blended into a
# food, in tons. Prices are in pounds a ton. A year's rent of 40000 pounds is paid in
# twelve parts. The most profit is 385000/27, which is 14259 and 7/27.
var veg1;
var veg2;
var oil1;
var oil2;
var oil3;
var food;

maximize profit: 150*food
  - 110*veg1 - 120*veg2 - 130*oil1 - 110*oil2 - 115*oil3
  - 40000/12;

# what can be refined of either sort
subto vegetable: veg1 + veg2 <= 200;
subto other: oil1 + oil2 + oil3 <= 250;

# the food is from 3 to 6 hard, where hardness blends in proportion
subto hardest: 8.8*veg1 + 6.1*veg2 + 2.0*oil1 + 4.2*oil2 + 5.0*oil3 <= 6*food;
subto softest: 8.8*veg1 + 6.1*veg2 + 2.0*oil1 + 4.2*oil2 + 5.0*oil3 >= 3*food;

# all that is refined becomes food
subto all_is_food: veg1 + veg2 + oil1 + oil2 + oil3 == food;
