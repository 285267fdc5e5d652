/* Made of outcomes.postgres.sql by `python3 -m scripts.outcomes --write`: change that. */
static const char *const texts[][2] = {
    {"lock",
     "SELECT pg_advisory_xact_lock(1280442369)\n"},
    {"found",
     "SELECT CASE\n"
     "    WHEN count(*) = 0 THEN 0\n"
     "    WHEN bool_or(attname = 'retention') THEN CASE WHEN bool_or(attname = 'life') THEN 4 ELSE 1 END\n"
     "    WHEN bool_or(attname = 'guard') THEN 2\n"
     "END FROM pg_attribute\n"
     "WHERE attrelid = to_regclass(quote_ident(current_schema()) || '.outcome') AND attnum > 0 AND NOT attisdropped\n"},
    {"aside 1",
     "ALTER TABLE outcome ALTER status DROP NOT NULL, ALTER little DROP NOT NULL, ALTER body DROP NOT NULL,\n"
     "    ADD life bigint NOT NULL DEFAULT 0, ADD waited boolean NOT NULL DEFAULT false, ADD place integer DEFAULT 0,\n"
     "    ADD cuts bytea;\n"
     "UPDATE forgotten SET version = 4;\n"},
    {"aside 2",
     "ALTER TABLE outcome RENAME number TO retention;\n"
     "ALTER TABLE outcome RENAME guard TO life;\n"
     "ALTER TABLE outcome ALTER life SET DEFAULT 0, ALTER status TYPE integer,\n"
     "    ALTER little TYPE integer USING little::integer, ALTER place TYPE integer, ALTER place SET DEFAULT 0,\n"
     "    ADD COLUMN IF NOT EXISTS cuts bytea;\n"
     "ALTER TABLE mark RENAME TO forgotten;\n"
     "ALTER TABLE forgotten RENAME least TO moment;\n"
     "UPDATE forgotten SET version = 4;\n"},
    {"tables",
     "CREATE TABLE IF NOT EXISTS outcome (\n"
     "    client bytea NOT NULL, retention integer NOT NULL, expiration bytea NOT NULL, life bigint NOT NULL DEFAULT 0,\n"
     "    waited boolean NOT NULL DEFAULT false, status integer, little integer, place integer DEFAULT 0, cuts bytea,\n"
     "    body bytea, PRIMARY KEY (client, retention));\n"
     "CREATE INDEX IF NOT EXISTS outcome_by_expiration ON outcome (expiration);\n"
     "CREATE TABLE IF NOT EXISTS forgotten (version integer NOT NULL, moment bytea NOT NULL);\n"
     "INSERT INTO forgotten SELECT 4, '\\x0000000000000000' WHERE NOT EXISTS (SELECT 1 FROM forgotten);\n"},
    {"version",
     "SELECT version FROM forgotten\n"},
    {"least",
     "SELECT moment FROM forgotten FOR SHARE\n"},
    {"find",
     "WITH found AS (\n"
     "    SELECT status, little, body, CASE\n"
     "        WHEN status IS NULL THEN\n"
     "            '\\x00000023'::bytea || 'IDL:omg.org/CORBA/COMM_FAILURE:1.0' || '\\x00000000000000000002'\n"
     "        WHEN place <> 0 AND status <> 2 AND length(body) > 4 THEN\n"
     "            '\\x00000020'::bytea || 'IDL:omg.org/CORBA/IMP_LIMIT:1.0' || '\\x000000000000000000'\n"
     "    END AS told FROM outcome WHERE client = $1 AND retention = $2)\n"
     "SELECT moment, CASE WHEN told IS NULL THEN status ELSE 2 END, CASE WHEN told IS NULL THEN little ELSE 0 END,\n"
     "    coalesce(told, body)\n"
     "FROM forgotten LEFT JOIN found ON true\n"},
    {"find all",
     "SELECT moment, CASE WHEN told IS NULL THEN status ELSE 2 END, CASE WHEN told IS NULL THEN little ELSE 0 END,\n"
     "    coalesce(told, body)\n"
     "FROM unnest(string_to_array($1, ',')) WITH ORDINALITY AS asked (key, number) CROSS JOIN forgotten\n"
     "LEFT JOIN LATERAL (\n"
     "    SELECT status, little, body, CASE\n"
     "        WHEN status IS NULL THEN\n"
     "            '\\x00000023'::bytea || 'IDL:omg.org/CORBA/COMM_FAILURE:1.0' || '\\x00000000000000000002'\n"
     "        WHEN place <> 0 AND status <> 2 AND length(body) > 4 THEN\n"
     "            '\\x00000020'::bytea || 'IDL:omg.org/CORBA/IMP_LIMIT:1.0' || '\\x000000000000000000'\n"
     "    END AS told FROM outcome\n"
     "    WHERE client = decode(split_part(key, ':', 1), 'hex') AND retention = split_part(key, ':', 2)::integer LIMIT 1\n"
     ") AS found ON true\n"
     "ORDER BY number\n"},
    {"keep",
     "INSERT INTO outcome (client, retention, expiration, status, little, body)\n"
     "SELECT $1::bytea, $2::integer, $3::bytea, $4::integer, $5::integer, $6::bytea\n"
     "FROM (SELECT moment FROM forgotten FOR SHARE) AS mark WHERE moment <= $3\n"},
    {"alone",
     "SELECT moment FROM pg_advisory_xact_lock(1280463732, 1) AS guards, forgotten FOR UPDATE OF forgotten\n"},
    {"greatest",
     "SELECT expiration FROM outcome WHERE status IS NOT NULL AND expiration < $1 ORDER BY expiration DESC LIMIT 1\n"},
    {"raise",
     "UPDATE forgotten SET moment = greatest(moment, $1)\n"},
    {"take out",
     "DELETE FROM outcome WHERE status IS NOT NULL AND expiration < $1\n"},
};
