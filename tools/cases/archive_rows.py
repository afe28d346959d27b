# Writes the input and the wanted output of crates/archive_rows, the archive that crates/tile_verify_program reads, and
# the runs that crates/tile_serve_program and crates/tile_extract_program store. The wanted answers are worked out by
# the scripts that are imported here, from the definitions of the format in tools/models alone.
from cases import box_cases
from cases import directory_cache_cases
from cases import extract_cases
from cases import header_check_cases
from cases import join_cases
from cases import part_cases
from cases import reader_cases
from cases import serve_cases
from cases import short_cases
from cases import verify_cases
from cases import writer_cases
from cases.archive_program import ROWS
from cases.rows import Rows
from cases.sample_archives import ONE

if __name__ == '__main__':
    for rows in (writer_cases, reader_cases, verify_cases, header_check_cases, part_cases, directory_cache_cases, serve_cases, extract_cases, box_cases, join_cases, short_cases):
        rows.write()
    ROWS.write()
    Rows('tile_verify_program').write_data('one_tile.pmtiles', ONE)
