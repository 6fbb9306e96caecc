# A bakery's orders, of which each day brings a file.
table orders from "orders.csv" (id int, day text, shop text, town text, loaves int)

# What the bakery watches. Each view grows with the day's orders.
view by_day = scan orders | group day {orders = count, loaves = sum loaves}
view by_shop = scan orders | group shop {orders = count, loaves = sum loaves, largest = max loaves}
view large = scan orders | where loaves >= 40

# Two shops that share a town are counted together.
view by_town = scan orders | distinct shop, town | group town {shops = count}

# A shop is in one town.
fd towns on orders shop to town

# A brush on a day shows what its shops ordered, and one on a shop its days.
link by_day on orders to by_shop, large
link by_shop on orders to by_day

# From rows to the orders behind them, of a shop also by the day, and from an order to its shop.
lineage back large to orders
lineage back by_shop to orders by day
lineage fwd orders to by_shop
