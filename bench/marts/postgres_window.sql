-- One window. Variables: load, and the file of each feed that the window has.
BEGIN;

\if :{?customers}
TRUNCATE raw_customers;
COPY raw_customers FROM :'customers' (FORMAT csv, HEADER, FORCE_NOT_NULL (cust_no, name, city));
DROP TABLE IF EXISTS stg_customers;
CREATE UNLOGGED TABLE stg_customers AS SELECT hash_text(k0) AS hash_key, * FROM
    (SELECT DISTINCT key_part(cust_no) AS k0, field(name) AS name, field(city) AS city FROM raw_customers) r;
ANALYZE stg_customers;
INSERT INTO hub_customer SELECT DISTINCT ON (hash_key) hash_key, :'load'::timestamp, 'crm.customers', k0 FROM stg_customers s
WHERE NOT EXISTS (SELECT 1 FROM hub_customer t WHERE t.hash_key = s.hash_key) ORDER BY hash_key;
INSERT INTO sat_customers SELECT s.hash_key, :'load'::timestamp, 'crm.customers', hash_text(s.name || ';' || s.city), s.name, s.city
FROM stg_customers s LEFT JOIN (SELECT DISTINCT ON (hash_key) * FROM sat_customers ORDER BY hash_key, load_date DESC) t USING (hash_key)
WHERE t.hash_key IS NULL OR t.name <> s.name OR t.city <> s.city ORDER BY s.hash_key;
WITH present AS (SELECT hash_key FROM (SELECT DISTINCT ON (hash_key) * FROM status_customers ORDER BY hash_key, load_date DESC) l WHERE status = 'I')
INSERT INTO status_customers SELECT hash_key, :'load'::timestamp, 'crm.customers', status FROM (
    SELECT hash_key, 'I' AS status FROM (SELECT hash_key FROM stg_customers EXCEPT SELECT hash_key FROM present) a
    UNION ALL SELECT hash_key, 'D' FROM (SELECT hash_key FROM present EXCEPT SELECT hash_key FROM stg_customers) b) s ORDER BY hash_key;
\endif

\if :{?accounts}
TRUNCATE raw_accounts;
COPY raw_accounts FROM :'accounts' (FORMAT csv, HEADER, FORCE_NOT_NULL (account, tier));
DROP TABLE IF EXISTS stg_accounts;
CREATE UNLOGGED TABLE stg_accounts AS SELECT hash_text(k0) AS hash_key, * FROM
    (SELECT DISTINCT key_part(account) AS k0, field(tier) AS tier FROM raw_accounts) r;
ANALYZE stg_accounts;
INSERT INTO hub_customer SELECT DISTINCT ON (hash_key) hash_key, :'load'::timestamp, 'shop.accounts', k0 FROM stg_accounts s
WHERE NOT EXISTS (SELECT 1 FROM hub_customer t WHERE t.hash_key = s.hash_key) ORDER BY hash_key;
INSERT INTO sat_accounts SELECT s.hash_key, :'load'::timestamp, 'shop.accounts', hash_text(s.tier), s.tier
FROM stg_accounts s LEFT JOIN (SELECT DISTINCT ON (hash_key) * FROM sat_accounts ORDER BY hash_key, load_date DESC) t USING (hash_key)
WHERE t.hash_key IS NULL OR t.tier <> s.tier ORDER BY s.hash_key;
WITH present AS (SELECT hash_key FROM (SELECT DISTINCT ON (hash_key) * FROM status_accounts ORDER BY hash_key, load_date DESC) l WHERE status = 'I')
INSERT INTO status_accounts SELECT hash_key, :'load'::timestamp, 'shop.accounts', status FROM (
    SELECT hash_key, 'I' AS status FROM (SELECT hash_key FROM stg_accounts EXCEPT SELECT hash_key FROM present) a
    UNION ALL SELECT hash_key, 'D' FROM (SELECT hash_key FROM present EXCEPT SELECT hash_key FROM stg_accounts) b) s ORDER BY hash_key;
\endif

\if :{?phones}
TRUNCATE raw_phones;
COPY raw_phones FROM :'phones' (FORMAT csv, HEADER, FORCE_NOT_NULL (cust_no, kind, phone));
DROP TABLE IF EXISTS stg_phones;
CREATE UNLOGGED TABLE stg_phones AS SELECT hash_text(k0) AS hash_key, * FROM
    (SELECT DISTINCT key_part(cust_no) AS k0, field(kind) AS kind, field(phone) AS phone FROM raw_phones) r;
ANALYZE stg_phones;
INSERT INTO hub_customer SELECT DISTINCT ON (hash_key) hash_key, :'load'::timestamp, 'crm.phones', k0 FROM stg_phones s
WHERE NOT EXISTS (SELECT 1 FROM hub_customer t WHERE t.hash_key = s.hash_key) ORDER BY hash_key;
-- all rows of each key whose rows are other ones than when it was last there
WITH last AS (SELECT t.hash_key, array_agg(ARRAY[kind, phone] ORDER BY kind) AS rows
    FROM msat_phones t JOIN (SELECT hash_key, max(load_date) AS load_date FROM msat_phones GROUP BY hash_key) m USING (hash_key, load_date)
    GROUP BY t.hash_key),
now AS (SELECT hash_key, array_agg(ARRAY[kind, phone] ORDER BY kind) AS rows FROM stg_phones GROUP BY hash_key)
INSERT INTO msat_phones SELECT s.hash_key, :'load'::timestamp, 'crm.phones', hash_text(s.phone), s.kind, s.phone
FROM stg_phones s JOIN now USING (hash_key) LEFT JOIN last USING (hash_key)
WHERE last.hash_key IS NULL OR last.rows <> now.rows ORDER BY s.hash_key, s.kind;
WITH present AS (SELECT hash_key FROM (SELECT DISTINCT ON (hash_key) * FROM status_phones ORDER BY hash_key, load_date DESC) l WHERE status = 'I')
INSERT INTO status_phones SELECT hash_key, :'load'::timestamp, 'crm.phones', status FROM (
    SELECT hash_key, 'I' AS status FROM (SELECT DISTINCT hash_key FROM stg_phones EXCEPT SELECT hash_key FROM present) a
    UNION ALL SELECT hash_key, 'D' FROM (SELECT hash_key FROM present EXCEPT SELECT hash_key FROM stg_phones) b) s ORDER BY hash_key;
\endif

COMMIT;
