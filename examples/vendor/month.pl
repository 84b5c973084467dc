pipeline 1;
# The return of a month, ranked within sectors.
let month = Returns(close, 22);
let sector = label("sector");
column sector = sector;
column month = month;
column place = month.rank(order="descending", groupby=sector);
