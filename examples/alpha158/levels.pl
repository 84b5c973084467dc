# Features of Alpha158: the bar of the session before, and levels of windows over its close.
pipeline 4;

let body = close.latest - open.latest;
let length = high.latest - low.latest;
let upper = high.latest - open.latest.maximum(close.latest);
let lower = open.latest.minimum(close.latest) - low.latest;
let shift = 2 * close.latest - high.latest - low.latest;

# The bar by itself.
column KMID = body / open.latest;
column KLEN = length / open.latest;
column KMID2 = body / length;
column KUP = upper / open.latest;
column KUP2 = upper / length;
column KLOW = lower / open.latest;
column KLOW2 = lower / length;
column KSFT = shift / open.latest;
column KSFT2 = shift / length;
column OPEN0 = open.latest / close.latest;
column HIGH0 = high.latest / close.latest;
column LOW0 = low.latest / close.latest;

# The close of that many sessions earlier.
column ROC5 = WindowFirst(close, 6) / close.latest;
column ROC10 = WindowFirst(close, 11) / close.latest;
column ROC20 = WindowFirst(close, 21) / close.latest;
column ROC30 = WindowFirst(close, 31) / close.latest;
column ROC60 = WindowFirst(close, 61) / close.latest;

# The mean.
column MA5 = SimpleMovingAverage(close, 5) / close.latest;
column MA10 = SimpleMovingAverage(close, 10) / close.latest;
column MA20 = SimpleMovingAverage(close, 20) / close.latest;
column MA30 = SimpleMovingAverage(close, 30) / close.latest;
column MA60 = SimpleMovingAverage(close, 60) / close.latest;

# The deviation, which divides by one less than the number of values.
column STD5 = WindowStd(close, 5) * (5 / 4).sqrt() / close.latest;
column STD10 = WindowStd(close, 10) * (10 / 9).sqrt() / close.latest;
column STD20 = WindowStd(close, 20) * (20 / 19).sqrt() / close.latest;
column STD30 = WindowStd(close, 30) * (30 / 29).sqrt() / close.latest;
column STD60 = WindowStd(close, 60) * (60 / 59).sqrt() / close.latest;

# The line of least squares: its slope, what it explains, and the last close less the line.
column BETA5 = WindowSlope(close, 5) / close.latest;
column BETA10 = WindowSlope(close, 10) / close.latest;
column BETA20 = WindowSlope(close, 20) / close.latest;
column BETA30 = WindowSlope(close, 30) / close.latest;
column BETA60 = WindowSlope(close, 60) / close.latest;
column RSQR5 = WindowRSquared(close, 5);
column RSQR10 = WindowRSquared(close, 10);
column RSQR20 = WindowRSquared(close, 20);
column RSQR30 = WindowRSquared(close, 30);
column RSQR60 = WindowRSquared(close, 60);
column RESI5 = WindowResidual(close, 5) / close.latest;
column RESI10 = WindowResidual(close, 10) / close.latest;
column RESI20 = WindowResidual(close, 20) / close.latest;
column RESI30 = WindowResidual(close, 30) / close.latest;
column RESI60 = WindowResidual(close, 60) / close.latest;

# The extremes.
column MAX5 = WindowMax(high, 5) / close.latest;
column MAX10 = WindowMax(high, 10) / close.latest;
column MAX20 = WindowMax(high, 20) / close.latest;
column MAX30 = WindowMax(high, 30) / close.latest;
column MAX60 = WindowMax(high, 60) / close.latest;
column MIN5 = WindowMin(low, 5) / close.latest;
column MIN10 = WindowMin(low, 10) / close.latest;
column MIN20 = WindowMin(low, 20) / close.latest;
column MIN30 = WindowMin(low, 30) / close.latest;
column MIN60 = WindowMin(low, 60) / close.latest;

# Assets with a bar on each of the 61 sessions that the longest window reads.
screen AllPresent(close, 61);
