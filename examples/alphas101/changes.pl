# Of the 101 Formulaic Alphas: changes of prices, and the bar by itself.
pipeline 4;

# The assets that are ranked: those with a bar on each of 61 sessions, and of 251 where a window is of a year.
let universe = AllPresent(close, 61);
let long_universe = AllPresent(close, 251);
let count = close.latest.notnull_count(mask=universe);

# In percent, as a hundredth of it is rounded less finely.
let moved = RateOfChangePercentage(close, 2);
let delta_close = close.latest - WindowFirst(close, 2);

# Changes of prices, in money.
let sum_8 = WindowSum(open, 5) * WindowSum(moved, 5);
let delayed_8 = (WindowSum(open, 15) - WindowSum(open, 10)) * (WindowSum(moved, 15) - WindowSum(moved, 10));
column alpha_008 = -(sum_8 - delayed_8).rank(method="average", mask=universe) / count;
column alpha_009 = (All(moved > 0, 5) | All(moved < 0, 5)).if_else(delta_close, -delta_close);
let turned_10 = (All(moved > 0, 4) | All(moved < 0, 4)).if_else(delta_close, -delta_close);
column alpha_010 = turned_10.rank(method="average", mask=universe) / count;
column alpha_012 = -(volume.latest - WindowFirst(volume, 2)).sign() * delta_close;
let year_19 = WindowSum(moved, 250).where(long_universe);
let rank_19 = year_19.rank(method="average", mask=universe) / year_19.notnull_count(mask=universe);
column alpha_019 = -(close.latest - WindowFirst(close, 8)).sign() * (1 + rank_19);
let over_high = (open.latest - WindowFirst(high, 2)).rank(method="average", mask=universe) / count;
let over_close = (open.latest - WindowFirst(close, 2)).rank(method="average", mask=universe) / count;
let over_low = (open.latest - WindowFirst(low, 2)).rank(method="average", mask=universe) / count;
column alpha_020 = -over_high * over_close * over_low;
let middle_21 = SimpleMovingAverage(close, 8);
let spread_21 = WindowStd(close, 8) * (8 / 7).sqrt();
let newest_21 = SimpleMovingAverage(close, 2);
let busy_21 = (volume.latest >= SimpleMovingAverage(volume, 20)).if_else(1, -1);
let below_21 = (newest_21 < middle_21 - spread_21).if_else(1, busy_21);
column alpha_021 = (middle_21 + spread_21 < newest_21).if_else(-1, below_21);
let over_23 = SimpleMovingAverage(high, 20) < high.latest;
column alpha_023 = over_23.if_else(WindowFirst(high, 3) - high.latest, 0);
let before_24 = (WindowSum(close, 200) - WindowSum(close, 100)) / 100;
let slow_24 = (SimpleMovingAverage(close, 100) - before_24) / WindowFirst(close, 101) <= 0.05;
let change_24 = slow_24.if_else(WindowMin(close, 100) - close.latest, WindowFirst(close, 4) - close.latest);
column alpha_024 = change_24.where(long_universe);
let bend = (WindowFirst(close, 21) - 2 * WindowFirst(close, 11) + close.latest) / 10;
column alpha_046 = (bend > 0.25).if_else(-1, (bend < 0).if_else(1, -delta_close));
column alpha_049 = (bend < -0.1).if_else(1, -delta_close);
column alpha_051 = (bend < -0.05).if_else(1, -delta_close);

# Signs, orders, and the bar by itself.
let signs = WindowSum(moved.sign(), 3);
let signs_rank = signs.rank(method="average", mask=universe) / count;
column alpha_030 = (1 - signs_rank) * WindowSum(volume, 5) / WindowSum(volume, 20);
column alpha_033 = (open.latest * 1000 / close.latest).rank(method="average", mask=universe) / count;
let calm_34 = (WindowStd(moved, 2) * 1000 / WindowStd(moved, 5)).rank(method="average", mask=universe);
let both_34 = -calm_34 - delta_close.rank(method="average", mask=universe);
column alpha_034 = both_34.rank(method="average", mask=universe) / both_34.notnull_count(mask=universe);
let newest_38 = WindowRank(close, 10).rank(method="average", mask=universe) / count;
let rise_38 = close.latest * 1000 / open.latest;
column alpha_038 = -newest_38 * rise_38.rank(method="average", mask=universe) / count;
let shape = 2 * close.latest - low.latest - high.latest;
let shape_before = 2 * WindowFirst(close, 10) - WindowFirst(low, 10) - WindowFirst(high, 10);
let before_53 = shape_before / (WindowFirst(close, 10) - WindowFirst(low, 10));
column alpha_053 = before_53 - shape / (close.latest - low.latest);
let bar_54 = open.latest / close.latest;
let share_54 = (close.latest - low.latest) / (low.latest - high.latest);
column alpha_054 = share_54 * bar_54 * bar_54 * bar_54 * bar_54 * bar_54;
let flow = shape / (high.latest - low.latest) * volume.latest;
let flow_60 = flow.rank(method="average", mask=universe).scale(mask=universe);
let greatest_60 = WindowArgMax(close, 10).rank(method="average", mask=universe).scale(mask=universe);
column alpha_060 = greatest_60 - 2 * flow_60;
column alpha_101 = (close.latest - open.latest) / (high.latest - low.latest + 0.001);

# As in correlations.pl.
screen AllPresent(close, 90);
