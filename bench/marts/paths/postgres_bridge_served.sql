-- The bridge of the path `served` that is stored.
COPY (SELECT stamp(snapshot) AS snapshot, encode(placements, 'hex') AS placements, encode(lines, 'hex') AS lines, encode(stocks, 'hex') AS stocks,
        encode(customer, 'hex') AS "placements.customer", encode(sales_order, 'hex') AS "placements.sales_order",
        encode(sales_order, 'hex') AS "lines.sales_order", encode(product, 'hex') AS "lines.product",
        encode(product, 'hex') AS "stocks.product", encode(site, 'hex') AS "stocks.site"
      FROM bridge_served b ORDER BY b.placements, b.lines, b.stocks) TO STDOUT (FORMAT csv, HEADER);
