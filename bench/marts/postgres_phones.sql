-- The mart of the feed `phones` at a date: of each key that is present the rows with the last load date. Variable: date.
COPY (SELECT h.part_1 AS "CUST_NO", nullif(t.kind, '') AS "KIND", nullif(t.phone, '') AS "PHONE"
      FROM phones_then(:'date') c JOIN hub_customer h USING (hash_key) JOIN phones_load_at(:'date') l USING (hash_key)
      JOIN msat_phones t ON t.hash_key = l.hash_key AND t.load_date = l.load_date
      WHERE c.status = 'I' ORDER BY h.part_1, t.kind) TO STDOUT (FORMAT csv, HEADER);
