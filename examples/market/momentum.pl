pipeline 1;
# The return of a year without its newest month, ranked among the liquid assets of each sector.
let liquid = AverageDollarVolume(30).top(15);
let momentum = (1 + Returns(close, 252)) / (1 + Returns(close, 22)) - 1;
let sector = label("sector");
column sector = sector;
column momentum = momentum;
column place = momentum.rank(order="descending", mask=liquid, groupby=sector);
column score = momentum.zscore(mask=liquid);
screen liquid;
