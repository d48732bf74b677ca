-- Indexes of the two tables, and how many workers a query has: the variable `workers`.
create index on left_rows using gist (geom);
create index on right_rows using gist (geom);
analyze left_rows;
analyze right_rows;
set max_parallel_workers_per_gather = :workers;
