# Writes the input and the wanted output of crates/set_rows. The wanted answers are worked out by the scripts that are
# imported here.
from cases import check_cases
from cases import database_cases
from cases import edit_cases
from cases import loading_cases
from cases import patch_cases
from cases import store_cases
from cases import table_cases
from cases.set_program import ROWS

if __name__ == '__main__':
    for rows in (table_cases, store_cases, loading_cases):
        rows.write()
    for rows in (patch_cases, edit_cases, check_cases, database_cases):
        rows.write(ROWS)
    ROWS.write()
