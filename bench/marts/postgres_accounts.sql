-- The mart of the feed `accounts` at a date. Variable: date.
COPY (SELECT h.part_1 AS "ACCOUNT", nullif(t.tier, '') AS "TIER"
      FROM accounts_then(:'date') c JOIN hub_customer h USING (hash_key) JOIN accounts_at(:'date') t USING (hash_key)
      WHERE c.status = 'I' ORDER BY h.part_1) TO STDOUT (FORMAT csv, HEADER);
