-- Which boards hold a piece of a lot or a reel? The columns are those of tracedesk-recall.
-- usage: psql -v lot=LOT-C7731 -f recall.sql      or -v reel=L1-R0031
-- Exit status 3: the answer is not exact, or no file knows the name, as standard error says.
\ir begin.sql
SELECT board, count(*) AS pieces, spelled(min(at)) AS first_minute, spelled(max(at)) AS last_minute,
       string_agg(DISTINCT named(plant, line), '; ' ORDER BY named(plant, line)) AS line,
       max(overdue) AS overdue
FROM piece WHERE :"kind" = :'wanted' AND plant = ANY (:'plants')
GROUP BY board ORDER BY board COLLATE "C";
\ir whole.sql
COMMIT;
