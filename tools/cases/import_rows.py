# Writes the input and the wanted output of crates/import_rows: imports of archives into tile sets. The wanted answers
# are worked out from the bytes of the archives and the tables of the sets, by the rules that stand in the modules
# that are imported here.
from cases import faulty_cases
from cases import hostile_archives
from cases import import_cases
from cases import made_cases
from cases.rows import write_rows

if __name__ == '__main__':
    write_rows('import_rows', import_cases, made_cases, hostile_archives, faulty_cases)
