-- The bridge of the path `sold` that is stored.
COPY (SELECT stamp(snapshot) AS snapshot, encode(placements, 'hex') AS placements, encode(lines, 'hex') AS lines,
        encode(customer, 'hex') AS "placements.customer", encode(sales_order, 'hex') AS "placements.sales_order",
        encode(sales_order, 'hex') AS "lines.sales_order", encode(product, 'hex') AS "lines.product"
      FROM bridge_sold b ORDER BY b.placements, b.lines) TO STDOUT (FORMAT csv, HEADER);
