pipeline 1;
let big = AverageDollarVolume(2) > 1000;
column a = SimpleMovingAverage(close, 3);
column b = SimpleMovingAverage(close, 3);
column c = SimpleMovingAverage(close, 3, mask=big);
