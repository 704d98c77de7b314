-- Which pieces of a lot or of a reel, or on a board, are where, on all lines? The columns are those
-- of tracedesk-recall --show pieces.
-- usage: psql --csv -v lot=LOT-C7731 -f pieces.sql      or -v reel=L1-R0031, or -v board=L1-000040
-- Exit status 3: the answer is not exact, or no file knows the name, as standard error says.
\ir begin.sql
SELECT board, designator, part, lot, reel, machine, slot, overdue, spelled(at) AS minute,
       named(plant, line) AS line, file
FROM piece WHERE :"kind" = :'wanted' AND plant = ANY (:'plants')
ORDER BY board COLLATE "C", named(plant, line) COLLATE "C", designator COLLATE "C", place;
\ir whole.sql
COMMIT;
