# The deliveries without the six records that were wrong. These come back, mended, by a line of the script.
table deliveries from "deliveries.csv" (id int, day int, clerk text, depot text, depot_name text, postcode text, town text, tour int, size text, cents int)

# The rules, as before.
fd towns on deliveries postcode to town
fd depots on deliveries depot to depot_name
fd tours on deliveries depot, postcode to tour

# Records that came in twice, and what each clerk typed.
view twice = scan deliveries | group id {times = count} | where times > 1
view by_clerk = scan deliveries | group clerk {records = count, cents = sum cents}

# From a clerk to the records, and back.
lineage back by_clerk to deliveries
lineage fwd deliveries to by_clerk
