-- A join on PostGIS of the two tables, with the variable `relation` (a function such as ST_Touches).
select l.id as left, r.id as right, ST_Relate(l.geom, r.geom) as matrix
from left_rows l join right_rows r on :relation (l.geom, r.geom)
order by l.number, r.number;
