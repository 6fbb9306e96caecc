# Twenty days of deliveries, typed in by four clerks, and what should be the same wherever a code is the same.
table deliveries from "deliveries.csv" (id int, day int, clerk text, depot text, depot_name text, postcode text, town text, tour int, size text, cents int)

# The rules. Each is a view with the codes that break it.
fd towns on deliveries postcode to town
fd depots on deliveries depot to depot_name
fd tours on deliveries depot, postcode to tour
fd prices on deliveries size to cents

# How often each spelling of a town occurs, and who typed how much.
view spellings = scan deliveries | group postcode, town {records = count}
view by_clerk = scan deliveries | group clerk {records = count}

# Who points at a postcode sees its spellings alone, and who points at spellings those who typed them.
link towns on deliveries to spellings
link spellings on deliveries to by_clerk

# From a spelling to its records, and from a record to the postcode that breaks the rule.
lineage back spellings to deliveries
lineage fwd deliveries to towns
