# A week of bike rides, and charts that filter each other.
table rides from "rides.csv" (id int, day text, hour int, minutes int, station text, rider text)
table stations from "stations.csv" (name text, district text)

# The charts of the dashboard.
view by_day = scan rides | group day {rides = count}
view by_hour = scan rides | group hour {rides = count}
view by_length = scan rides | project bin(minutes, 15) as quarter | group quarter {rides = count}
view by_rider = scan rides | group rider {rides = count, longest = max minutes}
view by_district = scan rides | join scan stations on station = name | group district {rides = count, minutes = sum minutes}

# Rides of at least 70 minutes, one by one.
view long = scan rides | where minutes >= 70

# A brush on one chart filters the others.
link by_day on rides to by_hour, by_length, by_rider, by_district
link by_hour on rides to by_day, by_length, by_rider, by_district
link by_length on rides to by_day, by_hour, by_rider, by_district
link by_rider on rides to by_day, by_hour, by_length, by_district
link by_district on rides to by_day, by_hour, by_length, by_rider
link long on rides to by_hour

# From a long ride to its row, and from stations to the bars that they are in.
lineage back long to rides
lineage fwd stations to by_district
