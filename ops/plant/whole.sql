-- Says, on standard error, as of when the answer of the same transaction is, and what keeps it from
-- being exact. Then, or if no file knows the name, it ends with status 3.
WITH its AS (
    SELECT * FROM said_of(:'kind', :'wanted', :'plants')
    UNION ALL SELECT :'away', false WHERE :'away' <> ''
)
SELECT bool_or(NOT is_note) IS TRUE AS is_faulty,
       coalesce(string_agg(said, E'\n' ORDER BY is_note DESC, said), '') AS said,
       EXISTS (SELECT FROM :names WHERE plant = ANY (:'plants') AND :"kind" = :'wanted') AS known
FROM its \gset
\warn :said
\if :is_faulty
    DO $$ BEGIN RAISE EXCEPTION 'the answer is not exact: the lines above say why'; END $$;
\elif :known
\else
    DO $$ BEGIN RAISE EXCEPTION 'no file that is loaded knows the name: how is it spelled?'; END $$;
\endif
