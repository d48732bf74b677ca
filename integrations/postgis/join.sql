-- Joins two tables by rjoin in one transaction, which it leaves open. `rjoin-postgis` runs it by psql, in an empty
-- folder, with the variables left, right (tables), left_id, right_id, left_geometry, right_geometry (columns or empty),
-- left_columns, right_columns (JSON lists of columns to carry), left_prefix, right_prefix (of their names in the new
-- table), left_where, right_where (conditions of rows that take part), geography (error, cast), others (error,
-- envelope, skip), rings (valid, even-odd), decimals (0 to 15, or empty), into and skipped (new tables), append (whether
-- they may be there), keeps_left (whether left rows without a partner are in the result), command (of rjoin: join,
-- near, nearest), relation (empty for the others), distance and distance_decimals (a number and its decimals, 0 for
-- none), alone (whether pairs have no matrix), and with RJOIN, RJOIN_COMMAND, RJOIN_CONDITION (a word), RJOIN_MORE
-- (words without blanks) and RJOIN_WORKERS in the environment. At the end it writes a line `ready`.
\set ON_ERROR_STOP on
\set VERBOSITY terse
\set SHOW_CONTEXT never
\pset tuples_only on
\pset format unaligned
set client_min_messages = warning;
-- Functions with a query of their own would be compiled at each call. Servers before 11 have no such setting.
select set_config('jit', 'off', false) from pg_settings where name = 'jit' \g /dev/null
-- The text of a number is the shortest one that is read back as it, or has all its digits on servers before 12.
set extra_float_digits = 3;
begin isolation level repeatable read;

-- PostGIS may be in a schema off the search path; new tables go into the first schema of the path, as before.
select set_config('search_path', current_setting('search_path') || ', ' || quote_ident(nspname), true)
from pg_extension join pg_namespace on pg_namespace.oid = extnamespace where extname = 'postgis' \g /dev/null
do $$ begin
    if to_regtype('geometry') is null then
        raise exception 'the database has no PostGIS: create extension postgis';
    end if;
end $$;

-- The column that is named, or else the only one of the primary key.
create function pg_temp.rjoin_id(source regclass, named text) returns name language plpgsql as $$
declare found name[];
begin
    if named <> '' then
        select array_agg(attname) into found from pg_attribute
        where attrelid = source and attname = named and not attisdropped;
        if found is null then
            raise exception '% has no column %', source, named;
        end if;
    else
        select array_agg(attname) into found from pg_index join pg_attribute
            on attrelid = indrelid and attnum = any (indkey)
        where indrelid = source and indisprimary;
        if cardinality(found) is distinct from 1 then
            raise exception '% has no primary key of one column: name its id', source;
        end if;
    end if;
    return found[1];
end $$;

-- The columns of a type: the one that is named, or else all.
create function pg_temp.rjoin_columns_of(source regclass, kind regtype, named text) returns name[] language sql as $$
    select array_agg(attname) from pg_attribute
    where attrelid = source and attnum > 0 and not attisdropped and atttypid = kind and named in ('', attname) $$;

-- The column that is named, or else the only one of type geometry, or of type geography where that is to be cast.
create function pg_temp.rjoin_geometry(source regclass, named text, geography text) returns name language plpgsql as $$
declare
    found name[] := pg_temp.rjoin_columns_of(source, 'geometry', named);
    others name[] := pg_temp.rjoin_columns_of(source, to_regtype('geography'), named);
begin
    if found is null and cardinality(others) = 1 and geography = 'cast' then
        raise warning '%: the column % is of type geography, and is joined in the plane of its degrees',
            source, others[1];
        found := others;
    elsif found is null and others is not null and geography = 'error' then
        raise exception '%: the column % is of type geography: choose --geography cast', source, others[1];
    elsif found is null and named <> '' then
        raise exception '% has no column % of type geometry', source, named;
    elsif cardinality(found) is distinct from 1 then
        raise exception '% has % columns of type geometry: name one', source, coalesce(cardinality(found), 0);
    end if;
    return found[1];
end $$;

-- The columns of a JSON list, each of which is there.
create function pg_temp.rjoin_columns(source regclass, listed json) returns text[] language plpgsql as $$
declare
    names text[] := array(select json_array_elements_text(listed));
    missing text := (select name from unnest(names) name where name not in (
        select attname from pg_attribute where attrelid = source and attnum > 0 and not attisdropped) limit 1);
begin
    if missing is not null then
        raise exception '% has no column %', source, missing;
    end if;
    return names;
end $$;

-- The columns to carry, each in a form of its name (1), its name in the new table (2) and its number (3).
create function pg_temp.rjoin_listed(columns text[], form text, prefix text) returns text language sql as $$
    select coalesce(string_agg(format(form, name, prefix || name, place), '' order by place), '')
    from unnest(columns) with ordinality listed (name, place) $$;

-- Refuses names of columns of the new table that are too long or stand twice.
create function pg_temp.rjoin_check_names(names text[]) returns void language plpgsql as $$
declare
    most integer := current_setting('max_identifier_length');
    long text := (select name from unnest(names) name where octet_length(name) > most limit 1);
    taken text := (select name from unnest(names) name group by name having count(*) > 1 limit 1);
begin
    if long is not null then
        raise exception 'a column of the new table would have a name of more than % bytes: %', most, long;
    elsif taken is not null then
        raise exception 'two columns of the new table would have the name %: choose another %', taken,
            '--left-prefix or --right-prefix';
    end if;
end $$;

-- The geometry of a multiple one, or of a collection, that has one only, without those that are empty.
create function pg_temp.rjoin_unpacked(shape geometry) returns geometry language plpgsql immutable as $$
declare parts geometry[];
begin
    while ST_GeometryType(shape) like 'ST_Multi%' or ST_GeometryType(shape) = 'ST_GeometryCollection' loop
        parts := array(
            select part from generate_series(1, ST_NumGeometries(shape)) place, ST_GeometryN(shape, place) part
            where not ST_IsEmpty(part) limit 2);
        exit when cardinality(parts) <> 1;
        shape := parts[1];
    end loop;
    return shape;
end $$;

-- The most decimals, and the greatest coordinate at a number of decimals; and both of boxes, if rjoin reads the layers
-- as points, segments along an axis and rectangles.
create function pg_temp.rjoin_most_decimals() returns integer language sql immutable as $$ select 15 $$;
create function pg_temp.rjoin_limit(decimals integer) returns bigint language sql immutable as $$
    select 1000000000000000000 / (10 ^ decimals)::bigint $$;
create function pg_temp.rjoin_box_decimals() returns integer language sql immutable as $$ select 6 $$;
create function pg_temp.rjoin_box_limit(decimals integer) returns bigint language sql immutable as $$
    select pg_temp.rjoin_limit(decimals) / 1000000 $$;

-- Why the coordinates of a geometry, in two dimensions and with these bounds, can't be read at any number of decimals;
-- null if they can. Bounds are wrong where a number in their midst is none, but lengths are none then.
create function pg_temp.rjoin_coordinate_fault(shape geometry, x1 double precision, y1 double precision,
    x2 double precision, y2 double precision) returns text language sql immutable as $$
    select case
        when greatest(x2, y2) = 'NaN' then 'a coordinate is not a number'
        when least(x1, y1) < -pg_temp.rjoin_limit(0) or greatest(x2, y2) > pg_temp.rjoin_limit(0)
            then 'a coordinate is out of range: the limit is ' || pg_temp.rjoin_limit(0)
        when ST_NPoints(shape) = 1 then null
        when ST_Length(shape) + ST_Perimeter(shape) = 'NaN' then 'a coordinate is not a number'
        when ST_GeometryType(shape) in ('ST_LineString', 'ST_MultiLineString', 'ST_Polygon', 'ST_MultiPolygon')
            then null
        when ST_AsText(shape) like '%NaN%' then 'a coordinate is not a number'
    end $$;

-- Whether a line is a segment along an axis: a line along an axis goes back on its way exactly if it isn't simple.
create function pg_temp.rjoin_is_segment(line geometry) returns boolean language sql immutable as $$
    select case
        when (ST_XMin(line) = ST_XMax(line)) = (ST_YMin(line) = ST_YMax(line)) then false
        else ST_NPoints(line) = 2 or ST_IsSimple(line)
    end $$;

-- Whether a polygon is a rectangle: a valid one that covers its bounding box. Nearly all rectangles have five points,
-- and of other polygons the area excludes nearly all.
create function pg_temp.rjoin_is_rectangle(polygon geometry) returns boolean language sql immutable as $$
    select case
        when ST_NPoints(polygon) < 5 then false
        when ST_NPoints(polygon) = 5
            and ST_OrderingEquals(ST_Normalize(polygon), ST_Normalize(ST_Envelope(polygon))) then true
        when ST_NumInteriorRings(polygon) > 0 then false
        when ST_Area(polygon) < 0.99 * (ST_XMax(polygon) - ST_XMin(polygon)) * (ST_YMax(polygon) - ST_YMin(polygon))
            then false
        else ST_IsValid(polygon) and ST_Equals(polygon, ST_Envelope(polygon))
    end $$;

-- Whether a geometry, in two dimensions and unpacked if it has one part, is a point, a segment along an axis or a
-- rectangle.
create function pg_temp.rjoin_is_box(shape geometry) returns boolean language sql immutable as $$
    select case
        when shape is null or ST_IsEmpty(shape) then false
        else case ST_GeometryType(shape)
            when 'ST_Point' then true
            when 'ST_LineString' then pg_temp.rjoin_is_segment(shape)
            when 'ST_Polygon' then pg_temp.rjoin_is_rectangle(shape)
            else false
        end
    end $$;

-- Whether two numbers are equal, or will be once they are rounded, half a unit away from zero, to these decimals.
create function pg_temp.rjoin_are_equal(a double precision, b double precision, decimals integer) returns boolean
language plpgsql stable as $$
begin
    return case
        when a = b then true
        when decimals is null or abs(b - a) * 10 ^ decimals >= 2 then false
        else round(a::text::numeric, decimals) = round(b::text::numeric, decimals)
    end;
end $$;

create function pg_temp.rjoin_is_dot(shape geometry, decimals integer) returns boolean language plpgsql stable as $$
begin
    return pg_temp.rjoin_are_equal(ST_XMin(shape), ST_XMax(shape), decimals)
        and pg_temp.rjoin_are_equal(ST_YMin(shape), ST_YMax(shape), decimals);
end $$;

-- Why lines aren't read; null if they are.
create function pg_temp.rjoin_line_fault(lines geometry, decimals integer) returns text language plpgsql stable as $$
begin
    return (
        select case
            when bool_or(pg_temp.rjoin_is_dot(geom, null)) then 'a line without a length'
            when bool_or(pg_temp.rjoin_is_dot(geom, decimals))
                then 'a line that has no length once rounded to ' || decimals || ' decimals'
        end
        from ST_Dump(lines));
end $$;

-- Why polygons aren't read; null if they are. By the even-odd rule a ring may be flat, and one that is a point is no
-- part of the area.
create function pg_temp.rjoin_polygon_fault(polygons geometry, decimals integer, rings text) returns text
language plpgsql stable as $$
declare fault text;
begin
    if ST_GeometryType(polygons) <> 'ST_Polygon' or pg_temp.rjoin_is_dot(ST_ExteriorRing(polygons), decimals) then
        fault := (
            select case
                when bool_and(pg_temp.rjoin_is_dot(ring.geom, null)) then 'a polygon that is a point'
                when bool_and(pg_temp.rjoin_is_dot(ring.geom, decimals))
                    then 'a polygon that is a point once rounded to ' || decimals || ' decimals'
            end
            from ST_Dump(polygons) part, ST_DumpRings(part.geom) ring);
    end if;
    if fault is null and rings = 'valid' and not ST_IsValid(polygons) then
        fault := 'an invalid polygon: ' || ST_IsValidReason(polygons);
    end if;
    return fault;
end $$;

-- Why a geometry that is no box isn't read; null if it is.
create function pg_temp.rjoin_fault(shape geometry, decimals integer, rings text) returns text
language plpgsql stable as $$
begin
    return case
        when shape is null then 'no geometry'
        when ST_IsEmpty(shape) then 'an empty geometry'
        when ST_GeometryType(shape) = 'ST_MultiPoint' then null
        when ST_GeometryType(shape) in ('ST_LineString', 'ST_MultiLineString')
            then pg_temp.rjoin_line_fault(shape, decimals)
        when ST_GeometryType(shape) in ('ST_Polygon', 'ST_MultiPolygon')
            then pg_temp.rjoin_polygon_fault(shape, decimals, rings)
        when ST_GeometryType(shape) = 'ST_GeometryCollection' then 'a collection of several geometries'
        else 'a curve or surface'
    end;
end $$;

-- The decimals of the shortest decimal number that is read back as a number. The quotient of two whole numbers is
-- correctly rounded, so it equals the number exactly where the decimal number is read back as it; the shortest of up to
-- 15 digits is the only one.
create function pg_temp.rjoin_decimals(number double precision) returns integer language sql immutable as $$
    select case
        when round(number) = number then 0
        when round(number * 1e1) / 1e1 = number then 1
        when round(number * 1e2) / 1e2 = number then 2
        when round(number * 1e3) / 1e3 = number then 3
        when round(number * 1e4) / 1e4 = number then 4
        when round(number * 1e5) / 1e5 = number then 5
        when round(number * 1e6) / 1e6 = number then 6
        else scale(number::text::numeric)
    end $$;

-- The fewest decimals that write all coordinates of a text with all digits, or one more than the most: those that one
-- has behind its dot. A number near zero has an exponent.
create function pg_temp.rjoin_decimals(wkt text) returns integer language plpgsql immutable as $$
declare decimals integer := 0;
begin
    if strpos(wkt, 'e-') > 0 then
        decimals := (select max(scale(numbers[1]::numeric)) from regexp_matches(wkt, '[0-9.]+e-[0-9]+', 'g') numbers);
    end if;
    while decimals <= pg_temp.rjoin_most_decimals() and wkt ~ ('\.[0-9]{' || decimals + 1 || '}') loop
        decimals := decimals + 1;
    end loop;
    return decimals;
end $$;

-- The text of a box by its bounds. One that will be flat once it is rounded is a segment or a point.
create function pg_temp.rjoin_wkt(x1 double precision, y1 double precision, x2 double precision, y2 double precision,
    decimals integer) returns text language plpgsql stable as $$
begin
    return case
        when not pg_temp.rjoin_are_equal(x1, x2, decimals) and not pg_temp.rjoin_are_equal(y1, y2, decimals)
            then 'POLYGON((' || x1 || ' ' || y1 || ',' || x2 || ' ' || y1 || ','
                || x2 || ' ' || y2 || ',' || x1 || ' ' || y2 || ',' || x1 || ' ' || y1 || '))'
        when not pg_temp.rjoin_are_equal(x1, x2, decimals)
            then 'LINESTRING(' || x1 || ' ' || y1 || ',' || x2 || ' ' || y1 || ')'
        when not pg_temp.rjoin_are_equal(y1, y2, decimals)
            then 'LINESTRING(' || x1 || ' ' || y1 || ',' || x1 || ' ' || y2 || ')'
        else 'POINT(' || x1 || ' ' || y1 || ')'
    end;
end $$;

-- The text of any other geometry without its empty parts, with all digits of its numbers, which are 17 at most: numbers
-- with more than 30 decimals have an exponent.
create function pg_temp.rjoin_wkt(shape geometry) returns text language plpgsql immutable as $$
declare wkt text := ST_AsText(shape, 30);
begin
    if wkt like '%EMPTY%' then
        wkt := (select ST_AsText(ST_Collect(geom order by path), 30) from ST_Dump(shape) where not ST_IsEmpty(geom));
    end if;
    return wkt;
end $$;

-- Numbers the rows of a table into a temporary one, with id, bounds, number of decimals, the fault of those that aren't
-- read, `exact` of those that are, `has_box` of those whose bounds can be read, the text of those that are read and
-- aren't boxes, and the columns to carry as c1, c2, .. A comment at the end of the condition of rows ends with its
-- line.
create function pg_temp.rjoin_read(source regclass, id name, geometry name, target name, decimals integer, rings text,
    columns text[], condition text) returns void language plpgsql as $$
begin
    execute format('create temporary table %1$I on commit drop as
        select row_number() over () as n, id, srid, fault, fault is null as exact, has_box, x1, y1, x2, y2, wkt,
            case when not has_box then null
                when wkt is not null then pg_temp.rjoin_decimals(wkt)
                else greatest(pg_temp.rjoin_decimals(x1), pg_temp.rjoin_decimals(y1),
                              pg_temp.rjoin_decimals(x2), pg_temp.rjoin_decimals(y2)) end as decimals %7$s
        from (
            select *, case when fault is null and not is_box then pg_temp.rjoin_wkt(shape) end as wkt
            from (
                select *, coalesce(coordinate_fault, case when not is_box
                        then pg_temp.rjoin_fault(shape, %5$L, %6$L) end) as fault,
                        x1 is not null and coordinate_fault is null as has_box
                from (
                    select *, coordinate_fault is null and pg_temp.rjoin_is_box(shape) as is_box
                    from (
                        select *, pg_temp.rjoin_coordinate_fault(shape, x1, y1, x2, y2) as coordinate_fault
                        from (
                            select *, ST_SRID(shape) as srid, ST_XMin(shape) as x1, ST_YMin(shape) as y1,
                                ST_XMax(shape) as x2, ST_YMax(shape) as y2
                            from (
                                select id, ST_Force2D(case when ST_IsCollection(shape)
                                    then pg_temp.rjoin_unpacked(shape) else shape end) as shape %7$s
                                from (
                                    select t.%2$I as id, case
                                        when ST_NumGeometries(t.%3$I::geometry) = 1
                                            then ST_GeometryN(t.%3$I::geometry, 1)
                                        else t.%3$I::geometry end as shape %8$s
                                    from %4$s t
                                    where (%9$s
                                    )
                                    offset 0
                                ) one_part
                                offset 0
                            ) unpacked
                            offset 0
                        ) bounded
                        offset 0
                    ) in_range
                    offset 0
                ) sorted
                offset 0
            ) judged
            offset 0
        ) printed', target, id, geometry, source, decimals, rings,
        pg_temp.rjoin_listed(columns, ', c%3$s', ''), pg_temp.rjoin_listed(columns, ', t.%1$I as c%3$s', ''),
        condition);
end $$;

-- Ends the run at the first row that isn't read, or takes envelopes; the rows that keep a fault are left out.
create function pg_temp.rjoin_judge(target name, source regclass, others text) returns void language plpgsql as $$
declare bad record;
begin
    if others = 'error' then
        execute format('select id::text, fault from %I where fault is not null order by n limit 1', target) into bad;
        if bad.fault like 'a coordinate%' then
            raise exception '%, id %: %; choose --others skip', source, bad.id, bad.fault;
        elsif bad.fault is not null then
            raise exception '%, id %: not points, lines or polygons that rjoin reads, but %; %',
                source, bad.id, bad.fault, 'choose --others envelope or --others skip'
                || case when bad.fault like 'an invalid%' then ', or --rings even-odd' else '' end;
        end if;
    elsif others = 'envelope' then
        execute format('update %I set fault = null where fault is not null and has_box', target);
    end if;
end $$;

-- The id of the first row that takes part and fits a condition, or null.
create function pg_temp.rjoin_first(target name, condition text) returns text language plpgsql as $$
declare found text;
begin
    execute format('select coalesce(id::text, ''null'') from %I where fault is null and (%s) order by n limit 1',
        target, condition) into found;
    return found;
end $$;

-- The greatest coordinate, without its sign, of the rows that take part.
create function pg_temp.rjoin_reach() returns double precision language plpgsql as $$
begin
    return (
        select greatest(max(abs(x1)), max(abs(x2)), max(abs(y1)), max(abs(y2)))
        from (select x1, y1, x2, y2, fault from rjoin_left
              union all select x1, y1, x2, y2, fault from rjoin_right) bounds
        where fault is null);
end $$;

-- The most decimals at which a coordinate is in range.
create function pg_temp.rjoin_most(reach double precision) returns integer language sql as $$
    select max(decimals) from generate_series(0, pg_temp.rjoin_most_decimals()) decimals
    where reach <= pg_temp.rjoin_limit(decimals) $$;

-- Whether rjoin may read the layers as boxes at some decimals, with a greatest distance.
create function pg_temp.rjoin_are_boxes(decimals integer, distance double precision) returns boolean language plpgsql
as $$
begin
    return decimals <= pg_temp.rjoin_box_decimals()
        and greatest(pg_temp.rjoin_reach(), distance) <= pg_temp.rjoin_box_limit(decimals)
        and not exists (select from rjoin_left where wkt is not null)
        and not exists (select from rjoin_right where wkt is not null);
end $$;

-- To how many decimals distances are rounded at least: those of boxes, as far as the range allows them.
create function pg_temp.rjoin_finest(distance double precision) returns integer language plpgsql as $$
begin
    return case
        when pg_temp.rjoin_are_boxes(0, distance) then (
            select max(decimals) from generate_series(0, pg_temp.rjoin_box_decimals()) decimals
            where pg_temp.rjoin_are_boxes(decimals, distance))
        else least(pg_temp.rjoin_box_decimals(), pg_temp.rjoin_most(greatest(pg_temp.rjoin_reach(), distance)))
    end;
end $$;

-- The fewest decimals that write all coordinates of a layer exactly; ends the run where the most don't.
create function pg_temp.rjoin_fewest(target name, source regclass) returns integer language plpgsql as $$
declare
    most integer;
    bad text := pg_temp.rjoin_first(target, 'decimals > pg_temp.rjoin_most_decimals()');
begin
    if bad is not null then
        raise exception '%, id %: a coordinate isn''t written exactly by % decimals; %, at most %, to round',
            source, bad, pg_temp.rjoin_most_decimals(), 'give --decimals', pg_temp.rjoin_most(pg_temp.rjoin_reach());
    end if;
    execute format('select coalesce(max(decimals), 0) from %I where fault is null', target) into most;
    return most;
end $$;

-- Ends the run where two rows that take part have different reference systems.
create function pg_temp.rjoin_check_system() returns void language plpgsql as $$
declare systems record;
begin
    select min(srid) as least, max(srid) as most into systems
    from (select srid, fault from rjoin_left union all select srid, fault from rjoin_right) both_sides
    where fault is null;
    if systems.least <> systems.most then
        raise exception 'geometries have the reference systems % and %: transform one table first',
            systems.least, systems.most;
    end if;
end $$;

-- Whether bounds are out of range at a number of decimals, and how this is told.
create function pg_temp.rjoin_is_beyond(x1 double precision, y1 double precision, x2 double precision,
    y2 double precision, decimals integer) returns boolean language sql immutable as $$
    select not (least(x1, y1) >= -pg_temp.rjoin_limit(decimals) and greatest(x2, y2) <= pg_temp.rjoin_limit(decimals))
    $$;
create function pg_temp.rjoin_range_fault(decimals integer) returns text language sql immutable as $$
    select format('a coordinate is out of range: the limit at %s decimals is %s', decimals,
                  pg_temp.rjoin_limit(decimals)) $$;

-- Ends the run at a row out of range at these decimals.
create function pg_temp.rjoin_check_range(target name, source regclass, scale integer) returns void language plpgsql
as $$
declare bad text := pg_temp.rjoin_first(target, format('pg_temp.rjoin_is_beyond(x1, y1, x2, y2, %s)', scale));
begin
    if bad is not null then
        raise exception '%, id %: %; give --decimals, at most %, or --others skip', source, bad,
            pg_temp.rjoin_range_fault(scale), pg_temp.rjoin_most(pg_temp.rjoin_reach());
    end if;
end $$;

-- Leaves out the rows that are out of range at some decimals, an expression over their columns.
create function pg_temp.rjoin_leave_out(target name, scale text) returns void language plpgsql as $$
begin
    execute format('update %1$I set fault = pg_temp.rjoin_range_fault(%2$s)
        where fault is null and pg_temp.rjoin_is_beyond(x1, y1, x2, y2, %2$s)', target, scale);
end $$;

-- Makes the view of a layer file, and warns how many rows rjoin will round.
create function pg_temp.rjoin_write(target name, source regclass, scale integer, file name) returns void
language plpgsql as $$
declare rounded bigint;
begin
    execute format('select count(*) from %I where fault is null and decimals > $1', target) into rounded using scale;
    if rounded > 0 then
        raise warning '%: rows with coordinates rounded to % decimals: %', source, scale, rounded;
    end if;
    execute format('create temporary view %1$I as
        select n as id, coalesce(wkt, pg_temp.rjoin_wkt(x1, y1, x2, y2, %2$s)) as wkt
        from %3$I where fault is null order by n', file, scale, target);
end $$;

-- The ids of the rows with these numbers in the layer file, as a JSON list.
create function pg_temp.rjoin_ids(target name, rows bigint[]) returns json language plpgsql as $$
declare ids json;
begin
    execute format('select json_agg(id::text order by place)
        from (select id, row_number() over (order by n) as place from %I where fault is null) read
        where place = any ($1)', target) into ids using rows;
    return ids;
end $$;

-- A name that is yet to be created, with or without its schema, as SQL writes it.
create function pg_temp.rjoin_new_name(word text, option text) returns text language plpgsql as $$
declare
    most integer := current_setting('max_identifier_length');
    parts text[] := parse_ident(word);
    long text := (select part from unnest(parts) part where octet_length(part) > most limit 1);
begin
    if long is not null then
        raise exception '%: a name has more than % bytes: %', option, most, long;
    end if;
    return (select string_agg(quote_ident(part), '.') from unnest(parts) part);
end $$;

-- Creates a table, unless it is there and may be. Its name may also be taken by a run that ends while this one waits
-- for it. The answer is whether the table is new.
create function pg_temp.rjoin_create(name text, definition text, append boolean) returns boolean language plpgsql as $$
begin
    if append and to_regclass(name) is not null then
        return false;
    end if;
    execute format('create table %s %s', name, definition);
    return true;
exception when duplicate_table or duplicate_object or unique_violation then
    raise exception '% already exists', name;
end $$;

-- Ends the run where a row that is left out may be the partner of a left row without one.
create function pg_temp.rjoin_check_partners(source regclass) returns void language plpgsql as $$
declare left_out bigint := (select count(*) from rjoin_right where fault is not null);
begin
    if left_out > 0 then
        raise exception '%: rows left out: %, each of which may be the partner of a left row without one; %',
            source, left_out, 'correct them, or leave them out by --right-where';
    end if;
end $$;

-- The name of a table with its schema: without it a temporary table of its name would go first.
create function pg_temp.rjoin_whole_name(source regclass) returns text language sql as $$
    select format('%I.%I', nspname, relname)
    from pg_class join pg_namespace on pg_namespace.oid = relnamespace where pg_class.oid = source $$;

select :'left'::regclass as left, :'right'::regclass as right,
    :'others' <> 'error' as lists, :'others' = 'envelope' as envelopes,
    :'command' <> 'join' as by_distance, :'command' = 'nearest' as by_nearest \gset
select pg_temp.rjoin_new_name(:'into', '--into') as into,
    case when :'lists' then pg_temp.rjoin_new_name(:'skipped', '--skipped') end as skipped,
    pg_temp.rjoin_id(:'left', :'left_id') as left_id, pg_temp.rjoin_id(:'right', :'right_id') as right_id,
    pg_temp.rjoin_geometry(:'left', :'left_geometry', :'geography') as left_geometry,
    pg_temp.rjoin_geometry(:'right', :'right_geometry', :'geography') as right_geometry,
    pg_temp.rjoin_columns(:'left', :'left_columns') as left_columns,
    pg_temp.rjoin_columns(:'right', :'right_columns') as right_columns \gset
\if :by_distance
    \set measure distance
    \set measure_type 'double precision'
\else
    \set measure matrix
    \set measure_type character(9)
\endif
\if :alone
    \set measure_column ''
    \set measure_value ''
    \set measure_of_table ''
    \set measure_of_pairs ''
\else
    \set measure_column ', ' :measure
    \set measure_value ', p.measure'
    \set measure_of_table ', null::' :measure_type ' as ' :measure
    \set measure_of_pairs ', measure ' :measure_type
\endif
\if :by_nearest
    \set order 'l.n, p.measure, r.n'
\else
    \set order 'l.n, r.n'
\endif
select pg_temp.rjoin_check_names(array['left_id', 'right_id']
    || case when not :'alone' then array[:'measure'] end || case when :'envelopes' then array['exact'] end
    || array(select :'left_prefix' || name from unnest(:'left_columns'::text[]) name)
    || array(select :'right_prefix' || name from unnest(:'right_columns'::text[]) name)) \g /dev/null

-- The results first: a name that is taken ends the run before anything is read.
select pg_temp.rjoin_create(:'into', format(
    'as select l.%I as left_id, r.%I as right_id %s %s %s from %s l, %s r with no data',
    :'left_id', :'right_id', pg_temp.rjoin_listed(:'left_columns', ', l.%1$I as %2$I', :'left_prefix'),
    pg_temp.rjoin_listed(:'right_columns', ', r.%1$I as %2$I', :'right_prefix'),
    :'measure_of_table', :'left', :'right'), :'append') as is_new \gset
select pg_temp.rjoin_whole_name(:'into') as pairs, :'is_new' and :'envelopes' as is_new_with_exact \gset
\if :is_new_with_exact
    alter table :pairs add column exact boolean not null;
\endif
\if :envelopes
    \set exact_column ', exact'
\else
    \set exact_column ''
\endif
\if :lists
    select pg_temp.rjoin_create(:'skipped', '(side text not null, id text, reason text not null)', :'append')
    \g /dev/null
    select pg_temp.rjoin_whole_name(:'skipped') as left_out \gset
\endif

select pg_temp.rjoin_read(:'left', :'left_id', :'left_geometry', 'rjoin_left', given, :'rings', :'left_columns',
        :'left_where'),
    pg_temp.rjoin_read(:'right', :'right_id', :'right_geometry', 'rjoin_right', given, :'rings', :'right_columns',
        :'right_where')
from (select nullif(:'decimals', '')::integer as given) option \g /dev/null
select pg_temp.rjoin_judge('rjoin_left', :'left', :'others'),
    pg_temp.rjoin_judge('rjoin_right', :'right', :'others') \g /dev/null
select pg_temp.rjoin_check_system() \g /dev/null

\if :lists
    -- Without given decimals, those first that no number of decimals suits: they would decide it for all rows.
    select pg_temp.rjoin_leave_out('rjoin_left', 'least(decimals, pg_temp.rjoin_most_decimals())'),
        pg_temp.rjoin_leave_out('rjoin_right', 'least(decimals, pg_temp.rjoin_most_decimals())')
    where :'decimals' = '' \g /dev/null
\endif
select case when :'decimals' <> '' then nullif(:'decimals', '')::integer
    else greatest(pg_temp.rjoin_fewest('rjoin_left', :'left'), pg_temp.rjoin_fewest('rjoin_right', :'right'))
    end as decimals, :'decimals' = '' and :'by_distance' as is_finer \gset
-- By distance there are as many decimals as those of boxes where the range allows them, but no fewer.
\if :is_finer
    select greatest(:decimals, :distance_decimals, pg_temp.rjoin_finest(:distance)) as decimals \gset
\endif
\if :lists
    select pg_temp.rjoin_leave_out('rjoin_left', :'decimals'), pg_temp.rjoin_leave_out('rjoin_right', :'decimals')
    \g /dev/null
    insert into :left_out select 'left', id::text, fault from rjoin_left where fault is not null order by n;
    insert into :left_out select 'right', id::text, fault from rjoin_right where fault is not null order by n;
\else
    select pg_temp.rjoin_check_range('rjoin_left', :'left', :decimals),
        pg_temp.rjoin_check_range('rjoin_right', :'right', :decimals) \g /dev/null
\endif
select pg_temp.rjoin_write('rjoin_left', :'left', :decimals, 'rjoin_left_file'),
    pg_temp.rjoin_write('rjoin_right', :'right', :decimals, 'rjoin_right_file') \g /dev/null
\copy (select id, wkt from rjoin_left_file) to 'left.csv' csv header
\copy (select id, wkt from rjoin_right_file) to 'right.csv' csv header

select '--scale ' || :decimals || ' --round' || case when pg_temp.rjoin_are_boxes(:decimals, :distance) then ''
    else ' --geometry any --rings even-odd' end as format \gset
\setenv RJOIN_FORMAT :format
create temporary table rjoin_pairs (left_n bigint, right_n bigint :measure_of_pairs) on commit drop;
\copy rjoin_pairs from program 'exec "$RJOIN" "$RJOIN_COMMAND" left.csv right.csv $RJOIN_FORMAT "$RJOIN_CONDITION" $RJOIN_MORE --workers "$RJOIN_WORKERS"' csv header
select pg_temp.rjoin_listed(:'left_columns', ', %2$I', :'left_prefix')
        || pg_temp.rjoin_listed(:'right_columns', ', %2$I', :'right_prefix') as carried,
    pg_temp.rjoin_listed(:'left_columns', ', l.c%3$s', '') || pg_temp.rjoin_listed(:'right_columns', ', r.c%3$s', '')
        as carrying \gset
-- A left row without a partner has none surely, but where it, or a right row, has an envelope in place of its shape:
-- envelopes that share no point, or are further apart, are those of shapes that are so too; of other relations they say
-- nothing.
select case when :'by_distance' or :'relation' = 'intersects' then 'true'
    else 'l.exact and not exists (select from rjoin_right where fault is null and not exact)' end as is_alone \gset
\if :envelopes
    \set exact ', case when p.left_n is null then ' :is_alone ' else l.exact and r.exact end as exact'
\else
    \set exact ''
\endif
\if :keeps_left
    select pg_temp.rjoin_check_partners(:'right') \g /dev/null
    \set pairs_of 'rjoin_left l left join rjoin_pairs p on p.left_n = l.n left join rjoin_right r on r.n = p.right_n'
    \set chosen 'where l.fault is null'
\else
    \set pairs_of 'rjoin_pairs p join rjoin_left l on l.n = p.left_n join rjoin_right r on r.n = p.right_n'
    \set chosen ''
\endif
insert into :pairs (left_id, right_id :carried :measure_column :exact_column)
select l.id, r.id :carrying :measure_value :exact from :pairs_of :chosen order by :order;

-- What is told of this run, which may not be the first one into these tables.
select count(*) as found from rjoin_pairs \gset
select count(*) as lonely from rjoin_left l
where :'keeps_left' and fault is null and not exists (select from rjoin_pairs where left_n = l.n) \gset
select count(*) as inexact from rjoin_pairs join rjoin_left l on l.n = left_n join rjoin_right r on r.n = right_n
where :'envelopes' and not (l.exact and r.exact) \gset
select count(*) as listed from (select fault from rjoin_left union all select fault from rjoin_right) both_sides
where :'lists' and fault is not null \gset
\echo ready
