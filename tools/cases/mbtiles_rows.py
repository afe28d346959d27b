# Writes the input and the wanted output of crates/mbtiles_rows: calls of a set by its store. The wanted answers are
# worked out from the tables, by the rules that stand in the modules that are imported here.
from cases import content_cases
from cases import insert_cases
from cases import loaded_cases
from cases import metadata_cases
from cases import option_cases
from cases import read_cases
from cases import reading_cases
from cases import stream_cases
from cases.rows import write_rows

if __name__ == '__main__':
    write_rows('mbtiles_rows', read_cases, stream_cases, insert_cases, content_cases, metadata_cases, option_cases, loaded_cases, reading_cases)
