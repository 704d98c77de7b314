-- Makes a role that reads the tables and changes none, or gives it another password: for who asks,
-- at a plant or from a database that asks several.
-- usage: ROLE_PASSWORD=.. psql -v role=recall -f reader.sql
\set ON_ERROR_STOP on
\set QUIET on
\getenv password ROLE_PASSWORD
BEGIN;
SELECT format('%s ROLE %I LOGIN PASSWORD %L', CASE WHEN
    EXISTS (SELECT FROM pg_roles WHERE rolname = :'role') THEN 'ALTER' ELSE 'CREATE' END,
    :'role', :'password') \gexec
GRANT USAGE ON SCHEMA plant TO :"role";
GRANT SELECT ON ALL TABLES IN SCHEMA plant TO :"role";
COMMIT;
