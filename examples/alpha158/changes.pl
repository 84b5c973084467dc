# Features of Alpha158: changes from session to session, and volumes.
pipeline 4;

# In percent, as a hundredth of it is rounded less finely.
let moved = RateOfChangePercentage(close, 2);
let traded = (Returns(volume, 2) + 2).log();
let rise = (moved > 0).if_else(1, 0);
let fall = (moved < 0).if_else(1, 0);

# The correlation of the changes of the close and of the volume.
column CORD5 = Correlation(moved, traded, 5);
column CORD10 = Correlation(moved, traded, 10);
column CORD20 = Correlation(moved, traded, 20);
column CORD30 = Correlation(moved, traded, 30);
column CORD60 = Correlation(moved, traded, 60);

# How many of the changes are rises, how many falls.
column CNTP5 = SimpleMovingAverage(rise, 5);
column CNTP10 = SimpleMovingAverage(rise, 10);
column CNTP20 = SimpleMovingAverage(rise, 20);
column CNTP30 = SimpleMovingAverage(rise, 30);
column CNTP60 = SimpleMovingAverage(rise, 60);
column CNTN5 = SimpleMovingAverage(fall, 5);
column CNTN10 = SimpleMovingAverage(fall, 10);
column CNTN20 = SimpleMovingAverage(fall, 20);
column CNTN30 = SimpleMovingAverage(fall, 30);
column CNTN60 = SimpleMovingAverage(fall, 60);
column CNTD5 = SimpleMovingAverage(moved.sign(), 5);
column CNTD10 = SimpleMovingAverage(moved.sign(), 10);
column CNTD20 = SimpleMovingAverage(moved.sign(), 20);
column CNTD30 = SimpleMovingAverage(moved.sign(), 30);
column CNTD60 = SimpleMovingAverage(moved.sign(), 60);

# The share of the rises, and of the falls, in all that moved.
column SUMP5 = RSI(close, 6) / 100;
column SUMP10 = RSI(close, 11) / 100;
column SUMP20 = RSI(close, 21) / 100;
column SUMP30 = RSI(close, 31) / 100;
column SUMP60 = RSI(close, 61) / 100;
column SUMN5 = 1 - RSI(close, 6) / 100;
column SUMN10 = 1 - RSI(close, 11) / 100;
column SUMN20 = 1 - RSI(close, 21) / 100;
column SUMN30 = 1 - RSI(close, 31) / 100;
column SUMN60 = 1 - RSI(close, 61) / 100;
column SUMD5 = RSI(close, 6) / 50 - 1;
column SUMD10 = RSI(close, 11) / 50 - 1;
column SUMD20 = RSI(close, 21) / 50 - 1;
column SUMD30 = RSI(close, 31) / 50 - 1;
column SUMD60 = RSI(close, 61) / 50 - 1;

# The mean and the deviation of the volume.
column VMA5 = SimpleMovingAverage(volume, 5) / volume.latest;
column VMA10 = SimpleMovingAverage(volume, 10) / volume.latest;
column VMA20 = SimpleMovingAverage(volume, 20) / volume.latest;
column VMA30 = SimpleMovingAverage(volume, 30) / volume.latest;
column VMA60 = SimpleMovingAverage(volume, 60) / volume.latest;
column VSTD5 = WindowStd(volume, 5) * (5 / 4).sqrt() / volume.latest;
column VSTD10 = WindowStd(volume, 10) * (10 / 9).sqrt() / volume.latest;
column VSTD20 = WindowStd(volume, 20) * (20 / 19).sqrt() / volume.latest;
column VSTD30 = WindowStd(volume, 30) * (30 / 29).sqrt() / volume.latest;
column VSTD60 = WindowStd(volume, 60) * (60 / 59).sqrt() / volume.latest;

# The shares of its rises and falls.
column VSUMP5 = RSI(volume, 6) / 100;
column VSUMP10 = RSI(volume, 11) / 100;
column VSUMP20 = RSI(volume, 21) / 100;
column VSUMP30 = RSI(volume, 31) / 100;
column VSUMP60 = RSI(volume, 61) / 100;
column VSUMN5 = 1 - RSI(volume, 6) / 100;
column VSUMN10 = 1 - RSI(volume, 11) / 100;
column VSUMN20 = 1 - RSI(volume, 21) / 100;
column VSUMN30 = 1 - RSI(volume, 31) / 100;
column VSUMN60 = 1 - RSI(volume, 61) / 100;
column VSUMD5 = RSI(volume, 6) / 50 - 1;
column VSUMD10 = RSI(volume, 11) / 50 - 1;
column VSUMD20 = RSI(volume, 21) / 50 - 1;
column VSUMD30 = RSI(volume, 31) / 50 - 1;
column VSUMD60 = RSI(volume, 61) / 50 - 1;

# Assets with a bar on each of the 61 sessions that the longest window reads.
screen AllPresent(close, 61);
