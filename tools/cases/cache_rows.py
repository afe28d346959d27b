# Writes the input and the wanted output of crates/cache_rows: calls of caches. The wanted answers are worked out by
# the model of tools/cases/cache_cases.py.
from cases import cache_cases
from cases.rows import write_rows

if __name__ == '__main__':
    write_rows('cache_rows', cache_cases)
