# Writes the input and the wanted output of crates/format_rows, and the file that it reads. The wanted answers are
# worked out by the scripts that are imported here from the specifications, or are values that were published or that
# other programs gave.
from cases import digest_cases
from cases import directory_cases
from cases import header_cases
from cases import id_cases
from cases import medium_cases
from cases.format_program import ROWS
from cases.sample_archives import ONE

if __name__ == '__main__':
    for rows in (id_cases, digest_cases, directory_cases, header_cases, medium_cases):
        rows.write()
    ROWS.write_data('one_tile.pmtiles', ONE)
    ROWS.write()
