-- The raw vault of one hub, with an index on each hash key, and the staging tables that COPY fills.
CREATE TABLE hub_customer (hash_key bytea PRIMARY KEY, load_date timestamp NOT NULL, record_source text NOT NULL, part_1 text NOT NULL);
CREATE TABLE sat_customers (hash_key bytea, load_date timestamp, record_source text NOT NULL, hash_diff bytea NOT NULL,
    name text NOT NULL, city text NOT NULL, PRIMARY KEY (hash_key, load_date));
CREATE TABLE sat_accounts (hash_key bytea, load_date timestamp, record_source text NOT NULL, hash_diff bytea NOT NULL,
    tier text NOT NULL, PRIMARY KEY (hash_key, load_date));
CREATE TABLE msat_phones (hash_key bytea, load_date timestamp, record_source text NOT NULL, hash_diff bytea NOT NULL,
    kind text, phone text NOT NULL, PRIMARY KEY (hash_key, load_date, kind));
CREATE TABLE status_customers (hash_key bytea, load_date timestamp, record_source text NOT NULL, status text NOT NULL, PRIMARY KEY (hash_key, load_date));
CREATE TABLE status_accounts (LIKE status_customers INCLUDING ALL);
CREATE TABLE status_phones (LIKE status_customers INCLUDING ALL);

CREATE UNLOGGED TABLE raw_customers (cust_no text, name text, city text);
CREATE UNLOGGED TABLE raw_accounts (account text, tier text);
CREATE UNLOGGED TABLE raw_phones (cust_no text, kind text, phone text);

CREATE FUNCTION field(t text) RETURNS text LANGUAGE sql IMMUTABLE AS $$ SELECT btrim(t, E' \t\r\n') $$;
CREATE FUNCTION key_part(t text) RETURNS text LANGUAGE sql IMMUTABLE AS $$ SELECT upper(btrim(t, E' \t\r\n')) $$;
CREATE FUNCTION hash_text(t text) RETURNS bytea LANGUAGE sql IMMUTABLE AS $$ SELECT decode(md5(t), 'hex') $$;
CREATE FUNCTION stamp(t timestamp) RETURNS text LANGUAGE sql IMMUTABLE AS $$ SELECT to_char(t, 'YYYY-MM-DD"T"HH24:MI:SS') $$;

-- What the queries of marts have in common: the last row of each key that is not later than a date. PostgreSQL puts the text of
-- such a function into the plan of the query that calls it.
CREATE FUNCTION customers_at(d timestamp) RETURNS TABLE (hash_key bytea, load_date timestamp, name text, city text) LANGUAGE sql STABLE AS $$
    SELECT DISTINCT ON (hash_key) hash_key, load_date, name, city FROM sat_customers WHERE load_date <= d ORDER BY hash_key, load_date DESC $$;
CREATE FUNCTION accounts_at(d timestamp) RETURNS TABLE (hash_key bytea, load_date timestamp, tier text) LANGUAGE sql STABLE AS $$
    SELECT DISTINCT ON (hash_key) hash_key, load_date, tier FROM sat_accounts WHERE load_date <= d ORDER BY hash_key, load_date DESC $$;
CREATE FUNCTION phones_load_at(d timestamp) RETURNS TABLE (hash_key bytea, load_date timestamp) LANGUAGE sql STABLE AS $$
    SELECT hash_key, max(load_date) FROM msat_phones WHERE load_date <= d GROUP BY hash_key $$;
CREATE FUNCTION customers_then(d timestamp) RETURNS TABLE (hash_key bytea, status text) LANGUAGE sql STABLE AS $$
    SELECT DISTINCT ON (hash_key) hash_key, status FROM status_customers WHERE load_date <= d ORDER BY hash_key, load_date DESC $$;
CREATE FUNCTION accounts_then(d timestamp) RETURNS TABLE (hash_key bytea, status text) LANGUAGE sql STABLE AS $$
    SELECT DISTINCT ON (hash_key) hash_key, status FROM status_accounts WHERE load_date <= d ORDER BY hash_key, load_date DESC $$;
CREATE FUNCTION phones_then(d timestamp) RETURNS TABLE (hash_key bytea, status text) LANGUAGE sql STABLE AS $$
    SELECT DISTINCT ON (hash_key) hash_key, status FROM status_phones WHERE load_date <= d ORDER BY hash_key, load_date DESC $$;
