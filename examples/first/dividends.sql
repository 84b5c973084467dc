CREATE TABLE IF NOT EXISTS dividends (id INTEGER PRIMARY KEY, effective_date INTEGER NOT NULL,
  num INTEGER NOT NULL, den INTEGER NOT NULL, sid INTEGER NOT NULL) STRICT;
.mode csv
.import rows.csv payout_rows
INSERT INTO dividends SELECT (SELECT coalesce(max(id), 0) FROM dividends) + CAST(record AS INTEGER),
  CAST(effective_date AS INTEGER), CAST(num AS INTEGER), CAST(den AS INTEGER), CAST(sid AS INTEGER)
  FROM payout_rows WHERE reason = '' ORDER BY CAST(record AS INTEGER);
DROP TABLE payout_rows;
