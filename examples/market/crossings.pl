pipeline 1;
# The sessions on which the average of 10 sessions has just crossed that of 40.
let fast = SimpleMovingAverage(close, 10);
let slow = SimpleMovingAverage(close, 40);
let above = fast > slow;
column close = close.latest;
column fast = fast;
column slow = slow;
column upwards = above;
screen Any(above, 2) & ~All(above, 2) & AllPresent(close, 40);
