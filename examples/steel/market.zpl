# The most tons that can be sold this week.
subto most_bands: bands <= 6000;
subto most_coils: coils <= 4000;
