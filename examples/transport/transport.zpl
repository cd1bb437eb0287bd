# Dantzig's transport problem: two canneries ship cases to three markets.
# Costs are in thousandths of a dollar a case, amounts in cases. The least cost is 153675.
var seattle_newyork;
var seattle_chicago;
var seattle_topeka;
var sandiego_newyork;
var sandiego_chicago;
var sandiego_topeka;

minimize cost: 225*seattle_newyork + 153*seattle_chicago + 162*seattle_topeka
  + 225*sandiego_newyork + 162*sandiego_chicago + 126*sandiego_topeka;

# what each cannery can send
subto supply_seattle: seattle_newyork + seattle_chicago + seattle_topeka <= 350;
subto supply_sandiego: sandiego_newyork + sandiego_chicago + sandiego_topeka <= 600;

# what each market needs
subto demand_newyork: seattle_newyork + sandiego_newyork >= 325;
subto demand_chicago: seattle_chicago + sandiego_chicago >= 300;
subto demand_topeka: seattle_topeka + sandiego_topeka >= 275;
