pipeline 3;
# Earnings over price, ranked among the liquid assets of each sector.
let liquid = AverageDollarVolume(30).top(15);
let sector = label("sector");
let earned = number("earnings");
let yield = earned / close.latest;
column sector = sector;
column earnings = earned;
column yield = yield;
column place = yield.rank(order="descending", mask=liquid, groupby=sector);
column score = yield.zscore(mask=liquid);
screen liquid;
