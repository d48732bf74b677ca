-- The nearest features on PostGIS of the two tables, with the variable `most`; those that are as far away as the last
-- of them are given too.
select l.id as left, r.id as right, round(r.distance::numeric) as distance
from left_rows l cross join lateral (
    select id, number, l.geom <-> geom as distance
    from right_rows
    order by l.geom <-> geom
    fetch first :most rows with ties
) r
order by l.number, r.distance, r.number;
