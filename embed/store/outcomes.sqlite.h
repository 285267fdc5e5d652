/* Made of outcomes.sqlite.sql by `python3 -m scripts.outcomes --write`: change that. */
static const char *const texts[][2] = {
    {"found",
     "SELECT CASE\n"
     "    WHEN count(*) = 0 THEN 0\n"
     "    WHEN sum(name = 'retention') THEN CASE WHEN sum(name = 'life') THEN 4 ELSE 1 END\n"
     "    WHEN sum(name = 'number') THEN 2 + sum(name = 'id')\n"
     "END FROM pragma_table_info('outcome')\n"},
    {"tables",
     "CREATE TABLE outcome (\n"
     "    id INTEGER PRIMARY KEY, client BLOB NOT NULL, retention INTEGER NOT NULL, expiration BLOB NOT NULL,\n"
     "    life INTEGER NOT NULL DEFAULT 0, status INTEGER, little INTEGER, place INTEGER DEFAULT 0, cuts BLOB,\n"
     "    body BLOB, UNIQUE (retention, client));\n"
     "CREATE INDEX outcome_by_expiration ON outcome (expiration) WHERE status IS NOT NULL;\n"
     "CREATE TABLE outcome_body (id INTEGER PRIMARY KEY, octets BLOB NOT NULL);\n"
     "CREATE TRIGGER outcome_goes AFTER DELETE ON outcome WHEN old.body IS NULL BEGIN\n"
     "    DELETE FROM outcome_body WHERE id = old.id;\n"
     "END;\n"
     "CREATE TABLE forgotten (version INTEGER NOT NULL, moment BLOB NOT NULL, life INTEGER NOT NULL DEFAULT 0);\n"
     "INSERT INTO forgotten VALUES (4, x'0000000000000000', 0);\n"},
    {"aside 1",
     "DROP INDEX IF EXISTS outcome_by_expiration;\n"
     "ALTER TABLE outcome RENAME TO outcome_before;\n"
     "ALTER TABLE forgotten RENAME TO forgotten_before;\n"},
    {"over 1",
     "INSERT INTO outcome (client, retention, expiration, status, little, body)\n"
     "    SELECT client, retention, expiration, status, little, body FROM outcome_before;\n"
     "UPDATE forgotten SET moment = (SELECT moment FROM forgotten_before);\n"
     "DROP TABLE outcome_before;\n"
     "DROP TABLE forgotten_before;\n"},
    {"aside 2",
     "DROP INDEX IF EXISTS outcome_by_expiration;\n"
     "ALTER TABLE outcome RENAME TO outcome_before;\n"},
    {"over 2",
     "INSERT INTO outcome (client, retention, expiration, life, status, little, place, body)\n"
     "    SELECT client, number, expiration, life, status, body_order, place, CASE WHEN length(body) <= 256 THEN body END\n"
     "    FROM outcome_before;\n"
     "INSERT INTO outcome_body SELECT id, old.body FROM outcome\n"
     "    JOIN outcome_before AS old ON old.client = outcome.client AND number = retention WHERE length(old.body) > 256;\n"
     "UPDATE forgotten SET moment = (SELECT least FROM mark), life = (SELECT life FROM mark);\n"
     "DROP TABLE outcome_before;\n"
     "DROP TABLE mark;\n"
     "PRAGMA user_version = 4;\n"},
    {"aside 3",
     "DROP INDEX IF EXISTS outcome_by_expiration;\n"
     "ALTER TABLE outcome RENAME TO outcome_before;\n"},
    {"over 3",
     "INSERT INTO outcome (id, client, retention, expiration, life, status, little, place, body)\n"
     "    SELECT id, client, number, expiration, life, status, body_order, place, body FROM outcome_before;\n"
     "INSERT INTO outcome_body SELECT id, octets FROM bodies;\n"
     "UPDATE forgotten SET moment = (SELECT least FROM mark), life = (SELECT life FROM mark);\n"
     "DROP TABLE outcome_before;\n"
     "DROP TABLE bodies;\n"
     "DROP TABLE mark;\n"
     "PRAGMA user_version = 4;\n"},
    {"version",
     "SELECT version FROM forgotten\n"},
    {"least",
     "SELECT moment FROM forgotten\n"},
    {"find",
     "WITH found AS (\n"
     "    SELECT id, status, little, body, CASE\n"
     "        WHEN status IS NULL THEN\n"
     "            x'0000002349444c3a6f6d672e6f72672f434f5242412f434f4d4d5f4641494c5552453a312e3000000000000000000002'\n"
     "        WHEN place <> 0 AND status <> 2 AND coalesce(length(body), 5) > 4 THEN\n"
     "            x'0000002049444c3a6f6d672e6f72672f434f5242412f494d505f4c494d49543a312e30000000000000000000'\n"
     "    END AS told FROM outcome WHERE client = ? AND retention = ?)\n"
     "SELECT moment, CASE WHEN told IS NULL THEN status ELSE 2 END, CASE WHEN told IS NULL THEN little ELSE 0 END,\n"
     "    coalesce(told, body, (SELECT octets FROM outcome_body WHERE outcome_body.id = found.id))\n"
     "FROM forgotten LEFT JOIN found ON true\n"},
    {"keep",
     "INSERT INTO outcome (client, retention, expiration, status, little, body)\n"
     "WITH new (client, retention, expiration, status, little, body) AS (VALUES (?, ?, ?, ?, ?, ?))\n"
     "SELECT new.* FROM new, forgotten WHERE moment <= new.expiration\n"},
    {"greatest",
     "SELECT max(expiration) FROM outcome WHERE status IS NOT NULL AND expiration < ?\n"},
    {"raise",
     "UPDATE forgotten SET moment = max(moment, ?)\n"},
    {"take out",
     "DELETE FROM outcome WHERE status IS NOT NULL AND expiration < ?\n"},
};
