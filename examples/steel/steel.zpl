# The steel mill of the AMPL book: how many tons of bands and of coils to roll in a
# week of 40 hours, at 200 tons of bands or 140 tons of coils an hour. The profit is
# 25 dollars for a ton of bands and 30 for one of coils. The most is 192000.
var bands;
var coils;

maximize profit: 25*bands + 30*coils;

subto hours: 1/200*bands + 1/140*coils <= 40;

include "market.zpl"    # what can be sold, which changes from week to week
