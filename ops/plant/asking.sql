-- What a recall makes of the views of one plant (schema.sql), or of several (add.sql).
SET check_function_bodies = off;  -- the views come later
CREATE OR REPLACE FUNCTION spelled(at timestamptz) RETURNS text
LANGUAGE sql STABLE PARALLEL SAFE AS
$$ SELECT to_char(at AT TIME ZONE 'UTC', 'YYYY-MM-DD"T"HH24:MI:SS"Z"') $$;
-- what is of another plant has that plant in front
CREATE OR REPLACE FUNCTION named(plant text, what text, mark text DEFAULT '/') RETURNS text
LANGUAGE sql STABLE AS
$$ SELECT CASE plant WHEN current_database() THEN what ELSE plant || mark || what END $$;
-- what is to be said of the answer to a question, in the same snapshot
CREATE OR REPLACE FUNCTION said_of(kind text, wanted text, plants text[])
RETURNS TABLE (said text, is_note boolean) LANGUAGE sql STABLE AS $$
    WITH own AS MATERIALIZED (  -- each plant is asked once
        SELECT DISTINCT known.plant, known.line, known.part FROM known
        WHERE known.plant = ANY (plants) AND CASE $1 WHEN 'lot' THEN lot = $2 ELSE reel = $2 END
    )
    SELECT named(its.plant, its.said, ': '), its.is_note FROM saying its
    WHERE its.plant = ANY (plants) AND CASE $1 WHEN 'board' THEN its.board IN ($2, '')
        ELSE '' = ANY (parts) OR $2 = ANY (CASE $1 WHEN 'lot' THEN lots ELSE reels END)
            OR parts && ARRAY(SELECT own.part FROM own
                WHERE own.plant = its.plant AND own.line = its.line) END
$$;
RESET check_function_bodies;
