-- What each query begins with: whether it is about a lot, a reel or a board, and which plants
-- answer. One transaction has one snapshot of each plant.
\set ON_ERROR_STOP on
\set QUIET on
SET search_path TO plant;
\set names known
\if :{?lot}
    \set kind lot
    \set wanted :lot
\elif :{?reel}
    \set kind reel
    \set wanted :reel
\else
    \set kind board
    \set wanted :board
    \set names piece
\endif
BEGIN ISOLATION LEVEL REPEATABLE READ READ ONLY;
SET LOCAL jit = off;
SELECT coalesce(array_agg(plant) FILTER (WHERE fault IS NULL), '{}') AS plants,
       coalesce(string_agg(named(plant, fault, ': '), E'\n' ORDER BY plant), '') AS away
FROM asking() \gset
