# Writes the input and the wanted output of crates/copy_rows: copies of one set into another, and with a patch. The
# wanted answers are worked out from the tables, by the rules of tools/models/copied.py.
from cases import copy_cases
from cases import patched_copy_cases
from cases.rows import write_rows

if __name__ == '__main__':
    write_rows('copy_rows', copy_cases, patched_copy_cases)
