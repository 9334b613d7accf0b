-- Stores the point-in-time table of the hub at a date: each key that the hub has then. Variable: date.
BEGIN;
DROP TABLE IF EXISTS pit_customer;
CREATE TABLE pit_customer AS
    SELECT h.hash_key, :'date'::timestamp AS snapshot, t.load_date AS customers_load, coalesce(c.status = 'I', false) AS customers_present,
        u.load_date AS accounts_load, coalesce(a.status = 'I', false) AS accounts_present,
        l.load_date AS phones_load, coalesce(p.status = 'I', false) AS phones_present
    FROM hub_customer h
    LEFT JOIN customers_then(:'date') c USING (hash_key) LEFT JOIN customers_at(:'date') t USING (hash_key)
    LEFT JOIN accounts_then(:'date') a USING (hash_key) LEFT JOIN accounts_at(:'date') u USING (hash_key)
    LEFT JOIN phones_then(:'date') p USING (hash_key) LEFT JOIN phones_load_at(:'date') l USING (hash_key)
    WHERE h.load_date <= :'date';
ALTER TABLE pit_customer ADD PRIMARY KEY (hash_key);
COMMIT;
