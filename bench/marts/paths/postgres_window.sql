-- One window. Variables: load, and the file of each feed that the window has.
BEGIN;

\if :{?placements}
TRUNCATE raw_placements;
COPY raw_placements FROM :'placements' (FORMAT csv, HEADER, FORCE_NOT_NULL (cust_no, order_no));
DROP TABLE IF EXISTS stg_placements;
CREATE UNLOGGED TABLE stg_placements AS SELECT decode(md5(k0 || ';' || k1), 'hex') AS hash_key, hash_key_of(k0) AS h0, hash_key_of(k1) AS h1, k0, k1 FROM
    (SELECT DISTINCT key_part(cust_no) AS k0, key_part(order_no) AS k1 FROM raw_placements) r;
ANALYZE stg_placements;
INSERT INTO hub_customer SELECT DISTINCT ON (h0) h0, :'load'::timestamp, 'shop.placements', k0 FROM stg_placements s
WHERE k0 <> '' AND NOT EXISTS (SELECT 1 FROM hub_customer t WHERE t.hash_key = s.h0) ORDER BY h0;
INSERT INTO hub_sales_order SELECT DISTINCT ON (h1) h1, :'load'::timestamp, 'shop.placements', k1 FROM stg_placements s
WHERE k1 <> '' AND NOT EXISTS (SELECT 1 FROM hub_sales_order t WHERE t.hash_key = s.h1) ORDER BY h1;
INSERT INTO link_placed SELECT hash_key, :'load'::timestamp, 'shop.placements', h0, h1 FROM stg_placements s
WHERE NOT EXISTS (SELECT 1 FROM link_placed t WHERE t.hash_key = s.hash_key) ORDER BY hash_key;
WITH present AS (SELECT hash_key FROM (SELECT DISTINCT ON (hash_key) * FROM status_placements ORDER BY hash_key, load_date DESC) l WHERE status = 'I')
INSERT INTO status_placements SELECT hash_key, :'load'::timestamp, 'shop.placements', status FROM (
    SELECT hash_key, 'I' AS status FROM (SELECT hash_key FROM stg_placements EXCEPT SELECT hash_key FROM present) a
    UNION ALL SELECT hash_key, 'D' FROM (SELECT hash_key FROM present EXCEPT SELECT hash_key FROM stg_placements) b) s ORDER BY hash_key;
\endif

\if :{?lines}
TRUNCATE raw_lines;
COPY raw_lines FROM :'lines' (FORMAT csv, HEADER, FORCE_NOT_NULL (order_no, product_no));
DROP TABLE IF EXISTS stg_lines;
CREATE UNLOGGED TABLE stg_lines AS SELECT decode(md5(k0 || ';' || k1), 'hex') AS hash_key, hash_key_of(k0) AS h0, hash_key_of(k1) AS h1, k0, k1 FROM
    (SELECT DISTINCT key_part(order_no) AS k0, key_part(product_no) AS k1 FROM raw_lines) r;
ANALYZE stg_lines;
INSERT INTO hub_sales_order SELECT DISTINCT ON (h0) h0, :'load'::timestamp, 'shop.lines', k0 FROM stg_lines s
WHERE k0 <> '' AND NOT EXISTS (SELECT 1 FROM hub_sales_order t WHERE t.hash_key = s.h0) ORDER BY h0;
INSERT INTO hub_product SELECT DISTINCT ON (h1) h1, :'load'::timestamp, 'shop.lines', k1 FROM stg_lines s
WHERE k1 <> '' AND NOT EXISTS (SELECT 1 FROM hub_product t WHERE t.hash_key = s.h1) ORDER BY h1;
INSERT INTO link_contains SELECT hash_key, :'load'::timestamp, 'shop.lines', h0, h1 FROM stg_lines s
WHERE NOT EXISTS (SELECT 1 FROM link_contains t WHERE t.hash_key = s.hash_key) ORDER BY hash_key;
WITH present AS (SELECT hash_key FROM (SELECT DISTINCT ON (hash_key) * FROM status_lines ORDER BY hash_key, load_date DESC) l WHERE status = 'I')
INSERT INTO status_lines SELECT hash_key, :'load'::timestamp, 'shop.lines', status FROM (
    SELECT hash_key, 'I' AS status FROM (SELECT hash_key FROM stg_lines EXCEPT SELECT hash_key FROM present) a
    UNION ALL SELECT hash_key, 'D' FROM (SELECT hash_key FROM present EXCEPT SELECT hash_key FROM stg_lines) b) s ORDER BY hash_key;
\endif

\if :{?stocks}
TRUNCATE raw_stocks;
COPY raw_stocks FROM :'stocks' (FORMAT csv, HEADER, FORCE_NOT_NULL (product_no, site));
DROP TABLE IF EXISTS stg_stocks;
CREATE UNLOGGED TABLE stg_stocks AS SELECT decode(md5(k0 || ';' || k1), 'hex') AS hash_key, hash_key_of(k0) AS h0, hash_key_of(k1) AS h1, k0, k1 FROM
    (SELECT DISTINCT key_part(product_no) AS k0, key_part(site) AS k1 FROM raw_stocks) r;
ANALYZE stg_stocks;
INSERT INTO hub_product SELECT DISTINCT ON (h0) h0, :'load'::timestamp, 'erp.stocks', k0 FROM stg_stocks s
WHERE k0 <> '' AND NOT EXISTS (SELECT 1 FROM hub_product t WHERE t.hash_key = s.h0) ORDER BY h0;
INSERT INTO hub_site SELECT DISTINCT ON (h1) h1, :'load'::timestamp, 'erp.stocks', k1 FROM stg_stocks s
WHERE k1 <> '' AND NOT EXISTS (SELECT 1 FROM hub_site t WHERE t.hash_key = s.h1) ORDER BY h1;
INSERT INTO link_has SELECT hash_key, :'load'::timestamp, 'erp.stocks', h0, h1 FROM stg_stocks s
WHERE NOT EXISTS (SELECT 1 FROM link_has t WHERE t.hash_key = s.hash_key) ORDER BY hash_key;
WITH present AS (SELECT hash_key FROM (SELECT DISTINCT ON (hash_key) * FROM status_stocks ORDER BY hash_key, load_date DESC) l WHERE status = 'I')
INSERT INTO status_stocks SELECT hash_key, :'load'::timestamp, 'erp.stocks', status FROM (
    SELECT hash_key, 'I' AS status FROM (SELECT hash_key FROM stg_stocks EXCEPT SELECT hash_key FROM present) a
    UNION ALL SELECT hash_key, 'D' FROM (SELECT hash_key FROM present EXCEPT SELECT hash_key FROM stg_stocks) b) s ORDER BY hash_key;
\endif

COMMIT;
