-- The mart of the path `served` at a date: the same, and from which site. Variable: date.
COPY (SELECT c.part_1 AS "placements.customer.1", o.part_1 AS "placements.sales_order.1", o.part_1 AS "lines.sales_order.1",
        r.part_1 AS "lines.product.1", r.part_1 AS "stocks.product.1", t.part_1 AS "stocks.site.1"
      FROM placements_at(:'date') p JOIN lines_at(:'date') l USING (sales_order) JOIN stocks_at(:'date') s USING (product)
      JOIN hub_customer c ON c.hash_key = p.customer JOIN hub_sales_order o ON o.hash_key = p.sales_order
      JOIN hub_product r ON r.hash_key = l.product JOIN hub_site t ON t.hash_key = s.site
      ORDER BY 1, 2, 4, 6) TO STDOUT (FORMAT csv, HEADER);
