-- The tables of outcomes in PostgreSQL, version 4, and what is said to them, each behind its name. They are in the
-- first schema of the session; guards have `lemonrudder`. What the columns are is said in outcomes.sqlite.sql; a
-- guard's life is a row of its table `guard`, and another guard waits for what is `waited`.
--
-- `found` is the version of the tables that are there, 0 where there are none, NULL where they are another program's.
-- Of one before, `aside` and `tables` make these, in one transaction under `lock`: 1 was of servers, 2 of guards.

-- :lock
SELECT pg_advisory_xact_lock(1280442369)

-- :found
SELECT CASE
    WHEN count(*) = 0 THEN 0
    WHEN bool_or(attname = 'retention') THEN CASE WHEN bool_or(attname = 'life') THEN 4 ELSE 1 END
    WHEN bool_or(attname = 'guard') THEN 2
END FROM pg_attribute
WHERE attrelid = to_regclass(quote_ident(current_schema()) || '.outcome') AND attnum > 0 AND NOT attisdropped

-- :aside 1
ALTER TABLE outcome ALTER status DROP NOT NULL, ALTER little DROP NOT NULL, ALTER body DROP NOT NULL,
    ADD life bigint NOT NULL DEFAULT 0, ADD waited boolean NOT NULL DEFAULT false, ADD place integer DEFAULT 0,
    ADD cuts bytea;
UPDATE forgotten SET version = 4;

-- :aside 2
ALTER TABLE outcome RENAME number TO retention;
ALTER TABLE outcome RENAME guard TO life;
ALTER TABLE outcome ALTER life SET DEFAULT 0, ALTER status TYPE integer,
    ALTER little TYPE integer USING little::integer, ALTER place TYPE integer, ALTER place SET DEFAULT 0,
    ADD COLUMN IF NOT EXISTS cuts bytea;
ALTER TABLE mark RENAME TO forgotten;
ALTER TABLE forgotten RENAME least TO moment;
UPDATE forgotten SET version = 4;

-- :tables
CREATE TABLE IF NOT EXISTS outcome (
    client bytea NOT NULL, retention integer NOT NULL, expiration bytea NOT NULL, life bigint NOT NULL DEFAULT 0,
    waited boolean NOT NULL DEFAULT false, status integer, little integer, place integer DEFAULT 0, cuts bytea,
    body bytea, PRIMARY KEY (client, retention));
CREATE INDEX IF NOT EXISTS outcome_by_expiration ON outcome (expiration);
CREATE TABLE IF NOT EXISTS forgotten (version integer NOT NULL, moment bytea NOT NULL);
INSERT INTO forgotten SELECT 4, '\x0000000000000000' WHERE NOT EXISTS (SELECT 1 FROM forgotten);

-- :version
SELECT version FROM forgotten

-- W, which stays as it is to the end of the transaction.
-- :least
SELECT moment FROM forgotten FOR SHARE

-- W, and status, order and body of a key's outcome, aligned from place 0: of one that is begun COMM_FAILURE,
-- COMPLETED_MAYBE, of one whose alignment counts and is another IMP_LIMIT, COMPLETED_YES; NULL where there is none. All
-- is of one snapshot: what a purge took out that it sees lies before the W that it sees.
-- :find
WITH found AS (
    SELECT status, little, body, CASE
        WHEN status IS NULL THEN
            '\x00000023'::bytea || 'IDL:omg.org/CORBA/COMM_FAILURE:1.0' || '\x00000000000000000002'
        WHEN place <> 0 AND status <> 2 AND length(body) > 4 THEN
            '\x00000020'::bytea || 'IDL:omg.org/CORBA/IMP_LIMIT:1.0' || '\x000000000000000000'
    END AS told FROM outcome WHERE client = $1 AND retention = $2)
SELECT moment, CASE WHEN told IS NULL THEN status ELSE 2 END, CASE WHEN told IS NULL THEN little ELSE 0 END,
    coalesce(told, body)
FROM forgotten LEFT JOIN found ON true

-- The same of several keys, in their order: a text of CLIENT:RETENTION, with the client in hexadecimal, and commas.
-- :find all
SELECT moment, CASE WHEN told IS NULL THEN status ELSE 2 END, CASE WHEN told IS NULL THEN little ELSE 0 END,
    coalesce(told, body)
FROM unnest(string_to_array($1, ',')) WITH ORDINALITY AS asked (key, number) CROSS JOIN forgotten
LEFT JOIN LATERAL (
    SELECT status, little, body, CASE
        WHEN status IS NULL THEN
            '\x00000023'::bytea || 'IDL:omg.org/CORBA/COMM_FAILURE:1.0' || '\x00000000000000000002'
        WHEN place <> 0 AND status <> 2 AND length(body) > 4 THEN
            '\x00000020'::bytea || 'IDL:omg.org/CORBA/IMP_LIMIT:1.0' || '\x000000000000000000'
    END AS told FROM outcome
    WHERE client = decode(split_part(key, ':', 1), 'hex') AND retention = split_part(key, ':', 2)::integer LIMIT 1
) AS found ON true
ORDER BY number

-- Writes no row where the expiration lies before W, and fails where the key has one. A row that a purge has locked is
-- waited for, and looked at as it is then.
-- :keep
INSERT INTO outcome (client, retention, expiration, status, little, body)
SELECT $1::bytea, $2::integer, $3::bytea, $4::integer, $5::integer, $6::bytea
FROM (SELECT moment FROM forgotten FOR SHARE) AS mark WHERE moment <= $3

-- What expired before a moment is taken out; before, W is locked, and raised to the greatest of that, plus 1.
-- :alone
SELECT moment FROM pg_advisory_xact_lock(1280463732, 1) AS guards, forgotten FOR UPDATE OF forgotten

-- :greatest
SELECT expiration FROM outcome WHERE status IS NOT NULL AND expiration < $1 ORDER BY expiration DESC LIMIT 1

-- :raise
UPDATE forgotten SET moment = greatest(moment, $1)

-- :take out
DELETE FROM outcome WHERE status IS NOT NULL AND expiration < $1
