-- Empty tables for two layers; `\copy` fills them.
\set ON_ERROR_STOP on
set client_min_messages = warning;
create extension if not exists postgis;
drop table if exists left_rows, right_rows;
create unlogged table left_rows (number serial, id text, geom geometry);
create unlogged table right_rows (number serial, id text, geom geometry);
