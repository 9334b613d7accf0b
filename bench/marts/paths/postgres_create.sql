-- The raw vault of three links and their hubs, with an index on each hash key and on the hub by which links are joined, and the
-- staging tables that COPY fills.
CREATE TABLE hub_customer (hash_key bytea PRIMARY KEY, load_date timestamp NOT NULL, record_source text NOT NULL, part_1 text NOT NULL);
CREATE TABLE hub_sales_order (LIKE hub_customer INCLUDING ALL);
CREATE TABLE hub_product (LIKE hub_customer INCLUDING ALL);
CREATE TABLE hub_site (LIKE hub_customer INCLUDING ALL);
CREATE TABLE link_placed (hash_key bytea PRIMARY KEY, load_date timestamp NOT NULL, record_source text NOT NULL, customer bytea NOT NULL, sales_order bytea NOT NULL);
CREATE TABLE link_contains (hash_key bytea PRIMARY KEY, load_date timestamp NOT NULL, record_source text NOT NULL, sales_order bytea NOT NULL, product bytea NOT NULL);
CREATE TABLE link_has (hash_key bytea PRIMARY KEY, load_date timestamp NOT NULL, record_source text NOT NULL, product bytea NOT NULL, site bytea NOT NULL);
CREATE INDEX link_contains_sales_order ON link_contains (sales_order);
CREATE INDEX link_has_product ON link_has (product);
CREATE TABLE status_placements (hash_key bytea, load_date timestamp, record_source text NOT NULL, status text NOT NULL, PRIMARY KEY (hash_key, load_date));
CREATE TABLE status_lines (LIKE status_placements INCLUDING ALL);
CREATE TABLE status_stocks (LIKE status_placements INCLUDING ALL);

CREATE UNLOGGED TABLE raw_placements (cust_no text, order_no text);
CREATE UNLOGGED TABLE raw_lines (order_no text, product_no text);
CREATE UNLOGGED TABLE raw_stocks (product_no text, site text);

CREATE FUNCTION key_part(t text) RETURNS text LANGUAGE sql IMMUTABLE AS $$ SELECT upper(btrim(t, E' \t\r\n')) $$;
-- The hash key of a hub: the zero key where the key is missing.
CREATE FUNCTION hash_key_of(t text) RETURNS bytea LANGUAGE sql IMMUTABLE AS $$ SELECT CASE WHEN t = '' THEN '\x00000000000000000000000000000000'::bytea ELSE decode(md5(t), 'hex') END $$;
CREATE FUNCTION stamp(t timestamp) RETURNS text LANGUAGE sql IMMUTABLE AS $$ SELECT to_char(t, 'YYYY-MM-DD"T"HH24:MI:SS') $$;

-- The rows of a link that its feed has at a date and that miss no reference. PostgreSQL puts the text of such a function into the
-- plan of the query that calls it.
CREATE FUNCTION placements_at(d timestamp) RETURNS TABLE (link bytea, customer bytea, sales_order bytea) LANGUAGE sql STABLE AS $$
    SELECT l.hash_key, l.customer, l.sales_order FROM link_placed l
    JOIN (SELECT DISTINCT ON (hash_key) hash_key, status FROM status_placements WHERE load_date <= d ORDER BY hash_key, load_date DESC) s USING (hash_key)
    WHERE s.status = 'I' AND l.customer <> '\x00000000000000000000000000000000' AND l.sales_order <> '\x00000000000000000000000000000000' $$;
CREATE FUNCTION lines_at(d timestamp) RETURNS TABLE (link bytea, sales_order bytea, product bytea) LANGUAGE sql STABLE AS $$
    SELECT l.hash_key, l.sales_order, l.product FROM link_contains l
    JOIN (SELECT DISTINCT ON (hash_key) hash_key, status FROM status_lines WHERE load_date <= d ORDER BY hash_key, load_date DESC) s USING (hash_key)
    WHERE s.status = 'I' AND l.sales_order <> '\x00000000000000000000000000000000' AND l.product <> '\x00000000000000000000000000000000' $$;
CREATE FUNCTION stocks_at(d timestamp) RETURNS TABLE (link bytea, product bytea, site bytea) LANGUAGE sql STABLE AS $$
    SELECT l.hash_key, l.product, l.site FROM link_has l
    JOIN (SELECT DISTINCT ON (hash_key) hash_key, status FROM status_stocks WHERE load_date <= d ORDER BY hash_key, load_date DESC) s USING (hash_key)
    WHERE s.status = 'I' AND l.product <> '\x00000000000000000000000000000000' AND l.site <> '\x00000000000000000000000000000000' $$;

-- PostgreSQL takes the rows that are there at a date for far fewer than they are, and would walk over them for each row of the join:
-- at 2,000 lines `served` took 60 times as long. What asks the vault joins by hash.
ALTER DATABASE vault SET enable_nestloop = off;
