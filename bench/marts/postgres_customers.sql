-- The mart of the feed `customers` at a date. Variable: date.
COPY (SELECT h.part_1 AS "CUST_NO", nullif(t.name, '') AS "NAME", nullif(t.city, '') AS "CITY"
      FROM customers_then(:'date') c JOIN hub_customer h USING (hash_key) JOIN customers_at(:'date') t USING (hash_key)
      WHERE c.status = 'I' ORDER BY h.part_1) TO STDOUT (FORMAT csv, HEADER);
