-- A join within a distance on PostGIS of the two tables, with the variable `distance`.
select l.id as left, r.id as right, round(ST_Distance(l.geom, r.geom)::numeric) as distance
from left_rows l join right_rows r on ST_DWithin(l.geom, r.geom, :distance)
order by l.number, r.number;
