# What a town paid in March and April: from the figures of a report to the payments behind them.
table payments from "payments.csv" (id int, day int, office text, payee text, invoice text, cents int, clerk text)
table offices from "offices.csv" (name text, department text)

# The figures of the report.
view by_department = scan payments | join scan offices on office = name | group department {payments = count, cents = sum cents}
view by_month = scan payments | project bin(day, 100) as month, cents | group month {payments = count, cents = sum cents}
view by_clerk = scan payments | group clerk {payments = count, cents = sum cents}

# Invoices that were paid more than once.
view paid_twice = scan payments | group payee, invoice {times = count, cents = sum cents} | where times > 1

# From a figure to its payments: all of them, those to one payee, and for each payee how many and how much.
lineage back by_department to payments
lineage back by_department to payments by payee
lineage back by_department to payments group payee {payments = count, cents = sum cents}
lineage back paid_twice to payments

# From a payment to the figures that it is in.
lineage fwd payments to by_department
lineage fwd payments to by_month
lineage fwd payments to by_clerk
