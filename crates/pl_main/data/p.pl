pipeline 1;
column c = close.latest;
