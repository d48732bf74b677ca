-- The pairs of a join on PostGIS of the two tables alone, with the variable `relation` (a function such as ST_Touches).
select l.id as left, r.id as right
from left_rows l join right_rows r on :relation (l.geom, r.geom)
order by l.number, r.number;
