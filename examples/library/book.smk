# A town's library: what was lent, what came back late, and what it cost.
# An empty branch is the main one, an empty fee is none; the days are negative where a loan came back early.
table loans from "loans.csv" (
  loan int, `code lent` text, `card no` int, branch text default "main",
  `days late` int, fee int default 0, note text default "none")
table titles from "titles.csv" (code text, title text, shelf text, pages int default 0)
table members from "members.csv" (card int, town text, born int)

# Loans and members to look at one by one.
view very_late = scan loans | where `days late` > 38
view noted = scan loans | where note != "none" | where not (branch = "main" and fee = 0)
view young = scan members | where born >= 2008

# How late: the week of a loan, from the day on which it was due.
view by_week = scan loans | project bin(`days late`, 7) as week, fee | group week {n = count, fees = sum fee}
view by_branch = scan loans
  | group branch {n = count, fees = sum fee, earliest = min `days late`, latest = max `days late`}
view totals = scan loans | group {n = count, fees = sum fee}
view best_week = scan loans
  | project bin(`days late`, 7) as week, branch, fee
  | group week, branch {fees = sum fee}
  | group branch {fees = sum fees, most = max fees}

# What: the titles and their shelves.
view by_shelf = scan loans
  | join scan titles on `code lent` = code
  | group shelf {n = count, first = min title, last = max title, longest = max pages}
view late_fiction = scan loans
  | where `days late` > 14
  | join scan members on `card no` = card
  | join (scan titles | where shelf = "fiction" and pages >= 600) on `code lent` = code
  | group title, town {n = count}
view never_lent = (scan loans | distinct `code lent` as code)
  | union all (scan titles | project code)
  | group code {lists = count}
  | where lists < 2
  | join (scan titles | project code as known, title) on code = known
  | project title, code

# Who: towns, decades, and cards that are no member's.
view by_town = (scan loans | where `days late` > 0)
  | join scan members on `card no` = card
  | group town {n = count, fees = sum fee}
view decades = scan members | distinct bin(born, 10) as decade
view cards = scan members | project card | union (scan loans | project `card no`)
view strangers = (scan loans | distinct `card no` as card)
  | union all (scan members | project card)
  | group card {lists = count}
  | where lists = 1

# One member who brought one title back late twice.
view twice_late = (scan loans | where fee >= 400 | project loan, `code lent`, `card no`)
  | join (scan loans | where fee >= 400 | project loan as other, `code lent` as code, `card no` as card)
    on `code lent` = code, `card no` = card
  | where loan < other
  | project loan, other, code, card

lineage back very_late to loans
lineage back noted to loans
lineage back young to members
lineage back late_fiction to loans
lineage back late_fiction to titles
lineage back by_town to members
lineage back strangers to loans
lineage fwd titles to late_fiction
