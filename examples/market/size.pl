pipeline 4;
# Size by the money traded a day: its logarithm, drawn in at both ends, compared within each sector, ranked among all.
let sector = label("sector");
let size = AverageDollarVolume(60).log();
let score = size.winsorize(0.1, 0.9).zscore(groupby=sector);
column sector = sector;
column size = size;
column score = score;
column place = score.rank(order="descending");
