pipeline 1;
# Closes outside a band of two standard deviations about their average.
let lower = BollingerLower(close, 20, 2);
let upper = BollingerUpper(close, 20, 2);
column lower = lower;
column close = close.latest;
column upper = upper;
column place = (close.latest - lower) / (upper - lower);
column strength = RSI(close, 15);
screen close.latest < lower | close.latest > upper;
