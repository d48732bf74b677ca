-- Writes an SVG picture of two layers and their pairs: the shapes of a pair have stronger lines.
--     psql -qAtX -v left=parcels -v right=zones -v pairs=overlapping -f integrations/postgis/picture.sql >pairs.svg
-- The layers have the columns id and geom.
with shapes as (
    select id, geom, id in (select left_id from :"pairs") as found, 'left' as side from :"left"
    union all
    select id, geom, id in (select right_id from :"pairs"), 'right' from :"right"
), bounds as (
    select ST_Extent(geom) as box from shapes
)
select format('<svg xmlns="http://www.w3.org/2000/svg" viewBox="%s %s %s %s"><style>'
    'path, circle { stroke-width: 0.3; fill-opacity: 0.1; stroke: #9ab0c4; fill: #9ab0c4 }'
    '.left.found { stroke: #1f5fa0; fill: #1f5fa0; stroke-width: 0.6; fill-opacity: 0.4 }'
    '.right.found { stroke: #e07000; fill: none; stroke-width: 0.8 }</style>',
    ST_XMin(box) - 2, -ST_YMax(box) - 2, ST_XMax(box) - ST_XMin(box) + 4, ST_YMax(box) - ST_YMin(box) + 4)
from bounds
union all (
    select case when ST_Dimension(geom) = 0 then format('<circle class="%s" r="0.8" %s/>', class, ST_AsSVG(geom))
        else format('<path class="%s" d="%s"/>', class, ST_AsSVG(geom)) end
    from (select id, geom, found, side, concat(side, case when found then ' found' end) as class from shapes) classed
    order by found, side, id
)
union all
select '</svg>';
