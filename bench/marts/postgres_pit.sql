-- The point-in-time table that is stored.
COPY (SELECT encode(hash_key, 'hex') AS hash_key, stamp(snapshot) AS snapshot,
        stamp(customers_load) AS "customers.load", CASE WHEN customers_present THEN 'Y' ELSE 'N' END AS "customers.present",
        stamp(accounts_load) AS "accounts.load", CASE WHEN accounts_present THEN 'Y' ELSE 'N' END AS "accounts.present",
        stamp(phones_load) AS "phones.load", CASE WHEN phones_present THEN 'Y' ELSE 'N' END AS "phones.present"
      FROM pit_customer ORDER BY pit_customer.hash_key) TO STDOUT (FORMAT csv, HEADER);
