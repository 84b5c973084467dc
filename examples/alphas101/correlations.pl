# Of the 101 Formulaic Alphas: correlations, covariances, orders.
pipeline 4;

# The assets that are ranked: those with a bar on each of 61 sessions.
let universe = AllPresent(close, 61);
let count = close.latest.notnull_count(mask=universe);

# In percent, as a hundredth of it is rounded less finely.
let moved = RateOfChangePercentage(close, 2);

# Ranks that stand in a window, a thousand times the share, as that is rounded a thousand times finer.
let open_rank = open.latest.rank(method="average", mask=universe) * 1000 / count;
let high_rank = high.latest.rank(method="average", mask=universe) * 1000 / count;
let low_rank = low.latest.rank(method="average", mask=universe) * 1000 / count;
let close_rank = close.latest.rank(method="average", mask=universe) * 1000 / count;
let volume_rank = volume.latest.rank(method="average", mask=universe) * 1000 / count;

# The covariances are not divided down to the millionth, so that few of them become equal.
let traded = RateOfChangePercentage(volume, 3);
let body = (close.latest - open.latest) * 1000 / open.latest;
let traded_rank = traded.rank(method="average", mask=universe) * 1000 / traded.notnull_count(mask=universe);
let body_rank = body.rank(method="average", mask=universe) * 1000 / count;
column alpha_002 = -Correlation(traded_rank, body_rank, 6);
column alpha_003 = -Correlation(open_rank, volume_rank, 10);
column alpha_004 = -WindowRank(low_rank, 9);
column alpha_006 = -Correlation(open, volume, 10);
let covariance_13 = Covariance(close_rank, volume_rank, 5) / 10000;
let count_13 = covariance_13.notnull_count(mask=universe);
column alpha_013 = -covariance_13.rank(method="average", mask=universe) / count_13;
let correlation_15 = Correlation(high_rank, volume_rank, 3);
let count_15 = correlation_15.notnull_count(mask=universe);
let rank_15 = correlation_15.rank(method="average", mask=universe) / count_15;
column alpha_015 = -WindowSum(rank_15, 3);
let covariance_16 = Covariance(high_rank, volume_rank, 5) / 10000;
let count_16 = covariance_16.notnull_count(mask=universe);
column alpha_016 = -covariance_16.rank(method="average", mask=universe) / count_16;
let jump = moved - WindowFirst(moved, 4);
let jump_rank = jump.rank(method="average", mask=universe) / jump.notnull_count(mask=universe);
column alpha_014 = -jump_rank * Correlation(open, volume, 10);
let correlation_22 = Correlation(high, volume, 5);
let spread_22 = WindowStd(close, 20).rank(method="average", mask=universe) / count;
column alpha_022 = -(correlation_22 - WindowFirst(correlation_22, 6)) * spread_22;
column alpha_026 = -WindowMax(Correlation(WindowRank(volume, 5), WindowRank(high, 5), 5), 3);
let spread_40 = WindowStd(high, 10).rank(method="average", mask=universe) / count;
column alpha_040 = -spread_40 * Correlation(high, volume, 10);
column alpha_044 = -Correlation(high, volume_rank, 5);
let middle_45 = (WindowSum(close, 25) - WindowSum(close, 5)).rank(method="average", mask=universe) / count;
let sides_45 = ((close.latest - WindowFirst(close, 6)) * (close.latest - WindowFirst(close, 21))).sign();
let same_45 = sides_45.where(sides_45 != 0);
let rank_45 = same_45.rank(method="average", mask=universe) / same_45.notnull_count(mask=universe);
column alpha_045 = -middle_45 * Correlation(close, volume, 2) * rank_45;
let place = FastStochasticOscillator(12);
let place_rank = place.rank(method="average", mask=universe) * 1000 / place.notnull_count(mask=universe);
column alpha_055 = -Correlation(place_rank, volume_rank, 6);
let dollar_rank = AverageDollarVolume(15).rank(method="average", mask=universe) * 1000 / count;
let level = close.latest * 0.518371 + low.latest * 0.481629;
let level_before = WindowFirst(close, 2) * 0.518371 + WindowFirst(low, 2) * 0.481629;
let level_rank = (level - level_before).rank(method="average", mask=universe) / count;
column alpha_068 = (WindowRank(Correlation(high_rank, dollar_rank, 8), 13) < level_rank).if_else(-1, 0);

# Those whose windows of ranks are whole.
screen AllPresent(close, 90);
