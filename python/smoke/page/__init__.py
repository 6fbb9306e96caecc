"""The page: charts over a book or a CSV file that filter each other, in a browser on this machine.

Every number and row on it is an answer of smoke_live. Only order, paging and formatting are made here, and none of it is proved.
"""
