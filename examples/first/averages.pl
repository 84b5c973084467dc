pipeline 1;
column latest = close.latest;
column mean_3 = SimpleMovingAverage(close, 3);
