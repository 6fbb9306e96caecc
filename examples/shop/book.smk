# A shop's sales, by region and by zone.
table sales from "sales.csv" (id int, region text, amount int)
table regions from "regions.csv" (name text, zone text)

view by_region = scan sales | group region {n = count, total = sum amount}
view by_zone = scan sales | join scan regions on region = name | group zone {total = sum amount}
view big = scan sales | where amount >= 10
view north = scan sales | where region = "north"
view pair = scan sales | project region | union all (scan sales | project region)
view names = scan sales | project region | union (scan sales | project region)
view few = scan sales | group region {n = count} | where n < 2

# The sales or regions behind a row of a view, and the rows of a view that a sale or a region is in.
lineage back big to sales
lineage back north to sales
lineage back by_region to sales
lineage back by_zone to sales
lineage back by_zone to regions
lineage back names to sales
lineage fwd sales to by_zone
lineage fwd regions to by_zone
