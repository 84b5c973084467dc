# Features of Alpha158: places within windows.
pipeline 4;

# Four fifths and one fifth of the way through the sorted closes.
column QTLU5 = WindowPercentile(close, 5, 80) / close.latest;
column QTLU10 = WindowPercentile(close, 10, 80) / close.latest;
column QTLU20 = WindowPercentile(close, 20, 80) / close.latest;
column QTLU30 = WindowPercentile(close, 30, 80) / close.latest;
column QTLU60 = WindowPercentile(close, 60, 80) / close.latest;
column QTLD5 = WindowPercentile(close, 5, 20) / close.latest;
column QTLD10 = WindowPercentile(close, 10, 20) / close.latest;
column QTLD20 = WindowPercentile(close, 20, 20) / close.latest;
column QTLD30 = WindowPercentile(close, 30, 20) / close.latest;
column QTLD60 = WindowPercentile(close, 60, 20) / close.latest;

# The rank of the last close.
column RANK5 = WindowRank(close, 5);
column RANK10 = WindowRank(close, 10);
column RANK20 = WindowRank(close, 20);
column RANK30 = WindowRank(close, 30);
column RANK60 = WindowRank(close, 60);

# Its place between the least low and the greatest high.
column RSV5 = FastStochasticOscillator(5) / 100;
column RSV10 = FastStochasticOscillator(10) / 100;
column RSV20 = FastStochasticOscillator(20) / 100;
column RSV30 = FastStochasticOscillator(30) / 100;
column RSV60 = FastStochasticOscillator(60) / 100;

# The places of the greatest high and of the least low, and what lies between them.
column IMAX5 = WindowArgMax(high, 5) / 5;
column IMAX10 = WindowArgMax(high, 10) / 10;
column IMAX20 = WindowArgMax(high, 20) / 20;
column IMAX30 = WindowArgMax(high, 30) / 30;
column IMAX60 = WindowArgMax(high, 60) / 60;
column IMIN5 = WindowArgMin(low, 5) / 5;
column IMIN10 = WindowArgMin(low, 10) / 10;
column IMIN20 = WindowArgMin(low, 20) / 20;
column IMIN30 = WindowArgMin(low, 30) / 30;
column IMIN60 = WindowArgMin(low, 60) / 60;
column IMXD5 = (WindowArgMax(high, 5) - WindowArgMin(low, 5)) / 5;
column IMXD10 = (WindowArgMax(high, 10) - WindowArgMin(low, 10)) / 10;
column IMXD20 = (WindowArgMax(high, 20) - WindowArgMin(low, 20)) / 20;
column IMXD30 = (WindowArgMax(high, 30) - WindowArgMin(low, 30)) / 30;
column IMXD60 = (WindowArgMax(high, 60) - WindowArgMin(low, 60)) / 60;

# Assets with a bar on each of the 61 sessions that the longest window reads.
screen AllPresent(close, 61);
