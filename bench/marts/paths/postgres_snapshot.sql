-- Stores the bridges of both paths at a date, and the keys that each hub has then. Variable: date.
BEGIN;
DROP TABLE IF EXISTS pit_customer, pit_sales_order, pit_product, pit_site, bridge_sold, bridge_served;
CREATE TABLE pit_customer AS SELECT hash_key FROM hub_customer WHERE load_date <= :'date';
CREATE TABLE pit_sales_order AS SELECT hash_key FROM hub_sales_order WHERE load_date <= :'date';
CREATE TABLE pit_product AS SELECT hash_key FROM hub_product WHERE load_date <= :'date';
CREATE TABLE pit_site AS SELECT hash_key FROM hub_site WHERE load_date <= :'date';
ALTER TABLE pit_customer ADD PRIMARY KEY (hash_key);
ALTER TABLE pit_sales_order ADD PRIMARY KEY (hash_key);
ALTER TABLE pit_product ADD PRIMARY KEY (hash_key);
ALTER TABLE pit_site ADD PRIMARY KEY (hash_key);
CREATE TABLE bridge_sold AS
    SELECT :'date'::timestamp AS snapshot, p.link AS placements, l.link AS lines, p.customer, p.sales_order, l.product
    FROM placements_at(:'date') p JOIN lines_at(:'date') l USING (sales_order);
ALTER TABLE bridge_sold ADD PRIMARY KEY (placements, lines);
CREATE TABLE bridge_served AS
    SELECT :'date'::timestamp AS snapshot, p.link AS placements, l.link AS lines, s.link AS stocks, p.customer, p.sales_order, l.product, s.site
    FROM placements_at(:'date') p JOIN lines_at(:'date') l USING (sales_order) JOIN stocks_at(:'date') s USING (product);
ALTER TABLE bridge_served ADD PRIMARY KEY (placements, lines, stocks);
COMMIT;
