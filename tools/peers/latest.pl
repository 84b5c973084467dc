pipeline 1;
column c = close.latest;
column v = volume.latest;
