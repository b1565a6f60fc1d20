-- Declares the functions of literal_postgresql.c in a database, for which one has to be a superuser:
--
--   psql -v library=/where/it/is/literal_postgresql.so -f functions.sql

CREATE FUNCTION lit_has(text text, words text[]) RETURNS boolean
    LANGUAGE c STRICT IMMUTABLE PARALLEL SAFE AS :'library';

CREATE FUNCTION lit_count(text text, words text[]) RETURNS bigint
    LANGUAGE c STRICT IMMUTABLE PARALLEL SAFE AS :'library';

CREATE FUNCTION lit_matches(text text, words text[])
    RETURNS TABLE (word text, pattern integer, start integer, length integer)
    LANGUAGE c STRICT IMMUTABLE PARALLEL SAFE AS :'library';
