pipeline 1;
# Which assets can be traded: enough money a day, no gap in a month, neither the cheapest nor the dearest.
let money = AverageDollarVolume(21);
let traded = money > 1000000 & AllPresent(close, 21);
column money = money;
column share = money.percentile_between(50, 100, mask=traded);
column fifth = money.quantiles(5, mask=traded);
column peers = label("sector").peer_count(mask=traded);
screen traded & close.latest.percentile_between(10, 90);
