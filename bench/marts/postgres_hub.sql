-- The mart of the hub at a date: each key in the content of at least one feed. Variable: date.
COPY (SELECT h.part_1 AS "customer.1",
        CASE WHEN c.status = 'I' THEN 'Y' ELSE 'N' END AS "customers",
        CASE WHEN c.status = 'I' THEN nullif(t.name, '') END AS "customers.NAME",
        CASE WHEN c.status = 'I' THEN nullif(t.city, '') END AS "customers.CITY",
        CASE WHEN a.status = 'I' THEN 'Y' ELSE 'N' END AS "accounts",
        CASE WHEN a.status = 'I' THEN nullif(u.tier, '') END AS "accounts.TIER",
        CASE WHEN p.status = 'I' THEN 'Y' ELSE 'N' END AS "phones"
      FROM hub_customer h
      LEFT JOIN customers_then(:'date') c USING (hash_key) LEFT JOIN customers_at(:'date') t USING (hash_key)
      LEFT JOIN accounts_then(:'date') a USING (hash_key) LEFT JOIN accounts_at(:'date') u USING (hash_key)
      LEFT JOIN phones_then(:'date') p USING (hash_key)
      WHERE c.status = 'I' OR a.status = 'I' OR p.status = 'I' ORDER BY h.part_1) TO STDOUT (FORMAT csv, HEADER);
