-- The tables of outcomes in SQLite, version 4, and what is said to them, each behind its name.
--
-- `outcome` has a row for each key, which is client id and retention id: the expiration, eight octets in big order,
-- since databases have no unsigned number of 64 bits; and status, order (1 little) and body of the Reply, aligned from
-- `place`, with where it was cut. Without a status it is begun, in a life of a guard; `life` is 0 of servers, whose
-- outcomes are written with their effects. A body may stand in `outcome_body`, so that many outcomes share a page and a
-- row grows little once it is done. `forgotten` has one row: the version, W, and the number of a guard's last life.
--
-- `found` is the version of the tables that are there, 0 where there are none, NULL where they are another program's.
-- Of one before, `aside`, `tables` and `over` make these, in one transaction: 1 was of servers, 2 and 3 of guards.

-- :found
SELECT CASE
    WHEN count(*) = 0 THEN 0
    WHEN sum(name = 'retention') THEN CASE WHEN sum(name = 'life') THEN 4 ELSE 1 END
    WHEN sum(name = 'number') THEN 2 + sum(name = 'id')
END FROM pragma_table_info('outcome')

-- :tables
CREATE TABLE outcome (
    id INTEGER PRIMARY KEY, client BLOB NOT NULL, retention INTEGER NOT NULL, expiration BLOB NOT NULL,
    life INTEGER NOT NULL DEFAULT 0, status INTEGER, little INTEGER, place INTEGER DEFAULT 0, cuts BLOB,
    body BLOB, UNIQUE (retention, client));
CREATE INDEX outcome_by_expiration ON outcome (expiration) WHERE status IS NOT NULL;
CREATE TABLE outcome_body (id INTEGER PRIMARY KEY, octets BLOB NOT NULL);
CREATE TRIGGER outcome_goes AFTER DELETE ON outcome WHEN old.body IS NULL BEGIN
    DELETE FROM outcome_body WHERE id = old.id;
END;
CREATE TABLE forgotten (version INTEGER NOT NULL, moment BLOB NOT NULL, life INTEGER NOT NULL DEFAULT 0);
INSERT INTO forgotten VALUES (4, x'0000000000000000', 0);

-- :aside 1
DROP INDEX IF EXISTS outcome_by_expiration;
ALTER TABLE outcome RENAME TO outcome_before;
ALTER TABLE forgotten RENAME TO forgotten_before;

-- :over 1
INSERT INTO outcome (client, retention, expiration, status, little, body)
    SELECT client, retention, expiration, status, little, body FROM outcome_before;
UPDATE forgotten SET moment = (SELECT moment FROM forgotten_before);
DROP TABLE outcome_before;
DROP TABLE forgotten_before;

-- :aside 2
DROP INDEX IF EXISTS outcome_by_expiration;
ALTER TABLE outcome RENAME TO outcome_before;

-- :over 2
INSERT INTO outcome (client, retention, expiration, life, status, little, place, body)
    SELECT client, number, expiration, life, status, body_order, place, CASE WHEN length(body) <= 256 THEN body END
    FROM outcome_before;
INSERT INTO outcome_body SELECT id, old.body FROM outcome
    JOIN outcome_before AS old ON old.client = outcome.client AND number = retention WHERE length(old.body) > 256;
UPDATE forgotten SET moment = (SELECT least FROM mark), life = (SELECT life FROM mark);
DROP TABLE outcome_before;
DROP TABLE mark;
PRAGMA user_version = 4;

-- :aside 3
DROP INDEX IF EXISTS outcome_by_expiration;
ALTER TABLE outcome RENAME TO outcome_before;

-- :over 3
INSERT INTO outcome (id, client, retention, expiration, life, status, little, place, body)
    SELECT id, client, number, expiration, life, status, body_order, place, body FROM outcome_before;
INSERT INTO outcome_body SELECT id, octets FROM bodies;
UPDATE forgotten SET moment = (SELECT least FROM mark), life = (SELECT life FROM mark);
DROP TABLE outcome_before;
DROP TABLE bodies;
DROP TABLE mark;
PRAGMA user_version = 4;

-- :version
SELECT version FROM forgotten

-- W, in a transaction that writes.
-- :least
SELECT moment FROM forgotten

-- W, and status, order and body of a key's outcome, aligned from place 0: of one that is begun COMM_FAILURE,
-- COMPLETED_MAYBE, of one whose alignment counts and is another IMP_LIMIT, COMPLETED_YES; NULL where there is none.
-- :find
WITH found AS (
    SELECT id, status, little, body, CASE
        WHEN status IS NULL THEN
            x'0000002349444c3a6f6d672e6f72672f434f5242412f434f4d4d5f4641494c5552453a312e3000000000000000000002'
        WHEN place <> 0 AND status <> 2 AND coalesce(length(body), 5) > 4 THEN
            x'0000002049444c3a6f6d672e6f72672f434f5242412f494d505f4c494d49543a312e30000000000000000000'
    END AS told FROM outcome WHERE client = ? AND retention = ?)
SELECT moment, CASE WHEN told IS NULL THEN status ELSE 2 END, CASE WHEN told IS NULL THEN little ELSE 0 END,
    coalesce(told, body, (SELECT octets FROM outcome_body WHERE outcome_body.id = found.id))
FROM forgotten LEFT JOIN found ON true

-- Writes no row where the expiration lies before W, and fails where the key has one.
-- :keep
INSERT INTO outcome (client, retention, expiration, status, little, body)
WITH new (client, retention, expiration, status, little, body) AS (VALUES (?, ?, ?, ?, ?, ?))
SELECT new.* FROM new, forgotten WHERE moment <= new.expiration

-- What expired before a moment is taken out; before, W is raised to the greatest of that, plus 1.
-- :greatest
SELECT max(expiration) FROM outcome WHERE status IS NOT NULL AND expiration < ?

-- :raise
UPDATE forgotten SET moment = max(moment, ?)

-- :take out
DELETE FROM outcome WHERE status IS NOT NULL AND expiration < ?
