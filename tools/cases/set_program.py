# The lines of crates/set_rows, which several scripts write: set_rows.py writes them all.
from cases.rows import Rows

ROWS = Rows('set_rows')
row, refused = ROWS.row, ROWS.refused
