-- The customers at a date. Variable: date.
COPY (SELECT h.part_1 AS "CUST_NO", nullif(t.name, '') AS "NAME", nullif(t.city, '') AS "CITY", nullif(t.since, '') AS "SINCE"
      FROM (SELECT DISTINCT ON (hash_key) hash_key, status FROM status_customers
            WHERE load_date <= :'date' ORDER BY hash_key, load_date DESC) c
      JOIN hub_customer h USING (hash_key)
      JOIN (SELECT DISTINCT ON (hash_key) * FROM sat_customers
            WHERE load_date <= :'date' ORDER BY hash_key, load_date DESC) t USING (hash_key)
      WHERE c.status = 'I' ORDER BY h.part_1) TO STDOUT (FORMAT csv, HEADER);
