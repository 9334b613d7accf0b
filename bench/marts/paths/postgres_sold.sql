-- The mart of the path `sold` at a date: who was sold which product. Variable: date.
COPY (SELECT c.part_1 AS "placements.customer.1", o.part_1 AS "placements.sales_order.1", o.part_1 AS "lines.sales_order.1",
        r.part_1 AS "lines.product.1"
      FROM placements_at(:'date') p JOIN lines_at(:'date') l USING (sales_order)
      JOIN hub_customer c ON c.hash_key = p.customer JOIN hub_sales_order o ON o.hash_key = p.sales_order
      JOIN hub_product r ON r.hash_key = l.product
      ORDER BY 1, 2, 4) TO STDOUT (FORMAT csv, HEADER);
