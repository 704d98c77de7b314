-- The tables of a plant: what the chains of its lines said when they were loaded last. Each load of
-- a line puts its rows anew, in one transaction.
SET client_min_messages = warning;  -- not what is there already
CREATE SCHEMA IF NOT EXISTS plant;
SET search_path TO plant;
\set ON_ERROR_STOP on
DO $$ BEGIN
    IF to_regclass('file') IS NOT NULL AND to_regclass('known') IS NULL
       OR to_regclass('command') IS NOT NULL THEN
        RAISE EXCEPTION 'these are tables of an older version: DROP SCHEMA plant CASCADE, then'
            ' load anew';
    END IF;
END $$;

-- lines that an answer needs, and how old the newest file of each may be; none: any age
CREATE TABLE IF NOT EXISTS line (
    name    text PRIMARY KEY,
    oldest  interval DEFAULT '2 days',
    refused text NOT NULL DEFAULT ''    -- why its folder was not loaded the last time
);
-- the files of their chains
CREATE TABLE IF NOT EXISTS file (
    id       integer GENERATED ALWAYS AS IDENTITY PRIMARY KEY,
    line     text NOT NULL REFERENCES line ON DELETE CASCADE,
    name     text NOT NULL,
    sha256   text NOT NULL UNIQUE,
    place    integer NOT NULL,          -- in the chain, the oldest is the first
    begun    text NOT NULL,             -- digits of the file from which its desk was begun
    commands bigint NOT NULL,           -- rows of its history
    entries  bigint NOT NULL,           -- and of its book
    rows     text NOT NULL,             -- a checksum of these rows: what continues it has them
    pieces   bigint NOT NULL,
    until    timestamptz,               -- the minute of its last command
    sealed   timestamptz NOT NULL
);
-- reels as they were received
CREATE TABLE IF NOT EXISTS reel (
    file integer NOT NULL REFERENCES file ON DELETE CASCADE,
    reel text NOT NULL,
    part text NOT NULL,
    lot  text NOT NULL,
    PRIMARY KEY (file, reel)
);
CREATE INDEX IF NOT EXISTS reel_lot ON reel (lot);
CREATE INDEX IF NOT EXISTS reel_reel ON reel (reel);
-- the pieces that tracedesk-chain names
CREATE TABLE IF NOT EXISTS placement (
    file       integer NOT NULL,
    board      text NOT NULL,
    designator text NOT NULL,
    machine    text NOT NULL,
    slot       text NOT NULL,
    reel       text NOT NULL,
    overdue    boolean NOT NULL,
    minute     bigint NOT NULL
);
CREATE INDEX IF NOT EXISTS placement_reel ON placement (file, reel);
CREATE INDEX IF NOT EXISTS placement_board ON placement (board);
-- a reference would be looked up for each piece of a load
CREATE OR REPLACE FUNCTION forget() RETURNS trigger LANGUAGE plpgsql AS
$$ BEGIN DELETE FROM plant.placement WHERE file = OLD.id; RETURN NULL; END $$;
CREATE OR REPLACE TRIGGER forget AFTER DELETE ON file FOR EACH ROW EXECUTE FUNCTION forget();
-- what a recall has to say besides: commands that the line lacks, untraced work about which nobody
-- decided, pieces in doubt
CREATE TABLE IF NOT EXISTS doubt (
    line  text NOT NULL REFERENCES line ON DELETE CASCADE,
    said  text NOT NULL,
    board text NOT NULL,                -- which may have it; empty: any
    parts text[] NOT NULL,              -- a recall of these says it; the empty one is any
    reels text[] NOT NULL,
    lots  text[] NOT NULL
);

\ir asking.sql
-- What a recall reads. A database that asks several plants has these views of each (add.sql), so
-- each row has its plant, which is the name of its database.
CREATE OR REPLACE VIEW piece AS
    SELECT current_database()::text AS plant, p.board, p.designator, r.part, r.lot, r.reel,
           p.machine, p.slot, CASE WHEN p.overdue THEN 'yes' ELSE 'no' END AS overdue,
           to_timestamp(p.minute * 60) AS at, f.line, f.name AS file, f.place
    FROM reel r JOIN file f ON f.id = r.file
    JOIN placement p ON p.file = r.file AND p.reel = r.reel;
CREATE OR REPLACE VIEW known AS
    SELECT current_database()::text AS plant, line, reel, part, lot
    FROM reel JOIN file ON file.id = reel.file;
-- by a note the answer stays exact
CREATE OR REPLACE VIEW saying AS
    WITH newest AS (  -- of each line the newest file, and when it was sealed
        SELECT DISTINCT ON (line.name) line.name AS line, oldest, refused, sealed
        FROM line LEFT JOIN file ON file.line = line.name ORDER BY line.name, place DESC
    ), said (line, said, is_note) AS (
        SELECT '', 'the table line is empty, so nothing says which lines an answer needs', false
            WHERE NOT EXISTS (SELECT FROM line)
        UNION ALL SELECT line, format('%s was not loaded: %s', line, refused), false
            FROM newest WHERE refused <> ''
        UNION ALL SELECT line, format('no file of %s is loaded', line), false
            FROM newest WHERE sealed IS NULL AND refused = ''
        UNION ALL SELECT line, format('the newest file of %s is of %s', line, spelled(sealed)),
            false FROM newest WHERE sealed < now() - oldest
        UNION ALL SELECT '', 'as of ' || string_agg(line || ' ' || spelled(sealed), ', '
            ORDER BY line), true FROM newest HAVING count(sealed) > 0
    )
    SELECT current_database()::text AS plant, its.* FROM (
        SELECT said.*, '' AS board, '{""}'::text[] AS parts, '{}'::text[] AS reels,
               '{}'::text[] AS lots FROM said
        UNION ALL SELECT line, said, false, board, parts, reels, lots FROM doubt) its;

-- the plants that a recall asks, and why it can't
CREATE OR REPLACE FUNCTION asking() RETURNS TABLE (plant text, fault text) LANGUAGE sql STABLE AS
$$ SELECT current_database()::text, NULL $$;
RESET client_min_messages;
