pipeline 1;
# The 100 assets whose mean of 10 closes is farthest above that of 30, among those of which enough is traded.
let mean_10 = SimpleMovingAverage(close, 10);
let mean_30 = SimpleMovingAverage(close, 30);
let diff = (mean_10 - mean_30) / mean_30;
let liquid = AverageDollarVolume(30) > 2000000;
column percent_difference = diff;
column latest = close.latest;
screen liquid & diff.top(100, mask=liquid);
