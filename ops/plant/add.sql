-- Adds a plant to a database that asks several and holds no piece, or sets it anew after its
-- address, its password or its schema.sql has changed. The plant is asked by its role that only
-- reads: reader.sql. Its database has a name that no other plant's has.
-- usage: PLANT_PASSWORD=.. psql -v host=augsburg.example -v dbname=augsburg -v user=recall \
--                               -f add.sql
--   and, if others are wanted, -v port=5432 -v seconds=60: how long a plant may take for an answer
-- out: psql -c 'DROP SERVER augsburg CASCADE' \
--           -c "DELETE FROM plant.expected WHERE name = 'augsburg'"
\set ON_ERROR_STOP on
\set QUIET on
\getenv password PLANT_PASSWORD
\if :{?port} \else \set port 5432 \endif
\if :{?seconds} \else \set seconds 60 \endif
\set own plant_ :dbname
\set limit '-c statement_timeout=' :seconds s
SET client_min_messages = warning;
BEGIN;
CREATE EXTENSION IF NOT EXISTS postgres_fdw;
CREATE SCHEMA IF NOT EXISTS plant;
SET search_path TO plant, public;
-- the plants that an answer has to be of
CREATE TABLE IF NOT EXISTS expected (name text PRIMARY KEY);
INSERT INTO expected VALUES (:'dbname') ON CONFLICT DO NOTHING;
DROP SCHEMA IF EXISTS :"own" CASCADE;
DROP SERVER IF EXISTS :"dbname" CASCADE;
CREATE SERVER :"dbname" FOREIGN DATA WRAPPER postgres_fdw OPTIONS (
    host :'host', port :'port', dbname :'dbname', async_capable 'true', fetch_size '10000',
    connect_timeout '10', tcp_user_timeout '30000', options :'limit');
CREATE USER MAPPING FOR PUBLIC SERVER :"dbname" OPTIONS (user :'user', password :'password');
CREATE SCHEMA :"own";
IMPORT FOREIGN SCHEMA plant LIMIT TO (piece, known, saying)
    FROM SERVER :"dbname" INTO :"own";
SELECT count(*) < 3 AS is_older FROM pg_class
    WHERE relnamespace = :'own'::regnamespace AND relkind = 'f' \gset
\if :is_older
    DO $$ BEGIN
        RAISE EXCEPTION 'the plant has no tables that can be asked: run schema.sql there';
    END $$;
\endif
SELECT format('CREATE TABLE IF NOT EXISTS %1$I (LIKE %2$I.%1$I) PARTITION BY LIST (plant);'
        || ' ALTER TABLE %1$I ATTACH PARTITION %2$I.%1$I FOR VALUES IN (%3$L)',
        relname, :'own', :'dbname')
    FROM pg_class WHERE relnamespace = :'own'::regnamespace AND relkind = 'f' \gexec
\ir asking.sql
-- The plants that a recall asks, and why one can't be asked. Each is asked for nothing first: so
-- one that doesn't answer is a row, and the others' answers are there.
CREATE OR REPLACE FUNCTION asking() RETURNS TABLE (plant text, fault text)
LANGUAGE plpgsql STABLE SET search_path FROM CURRENT AS $$
#variable_conflict use_column
DECLARE detail text;
BEGIN
    FOR plant IN SELECT name FROM expected LOOP
        fault := 'it was not asked: add.sql adds it';
        IF EXISTS (SELECT FROM pg_foreign_server WHERE srvname = plant) THEN BEGIN
            EXECUTE format('SELECT count(it) FROM saying it WHERE plant = %L', plant);
            EXECUTE format('SELECT count(it) FROM piece it WHERE plant = %L AND lot = %L',
                           plant, '');
            fault := NULL;
        EXCEPTION WHEN OTHERS OR query_canceled THEN
            GET STACKED DIAGNOSTICS detail = PG_EXCEPTION_DETAIL;
            fault := concat_ws(': ', 'it was not asked', SQLERRM, nullif(detail, ''));
        END; END IF;
        RETURN NEXT;
    END LOOP;
    IF NOT FOUND THEN
        RETURN QUERY SELECT current_database()::text,
            'the table plant.expected is empty, so no plant was asked';
    END IF;
END $$;
COMMIT;
