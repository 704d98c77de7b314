"""Loads the sealed files of lines into the plant's PostgreSQL: docs/plant.md.

usage: tracedesk-plant-load [--line NAME] [--program FILE] [FOLDER]..

examples:
  tracedesk-plant-load                     the lines that are set up on this machine, by
                                           /etc/tracedesk/LINE.conf
  tracedesk-plant-load /mirror/L1          this line's folder, or a mirror of one
  tracedesk-plant-load --line L1 /mirror/one        whose name is another one than its folder's

The database is that of psql's environment (PGHOST, PGDATABASE, ..), and schema.sql has been run on
it. FOLDER is a line's folder, with its files in sealed/; the running desk is not read. Each file
must have the checksum of its name, and the files must be a chain. tracedesk-chain, which is next to
the program, names the pieces of each file that is new. In one transaction the line's rows become
those of the chain, with its untraced work and doubtful pieces: a newer seal takes the place of the
one that it continues, and files that a restore took off go.

A folder whose files are no chain, or don't continue what is loaded, is refused: the line's rows
don't change. Each recall then says why, until its folder is loaded. So it does of a line that
is named in the table line and has no file, or none of the last two days. Each line that is loaded,
or is set up here, is in that table.

It needs Debian's package python3-psycopg, and the packages tracedesk and tracedesk-plant.

--line     the name of the line, if it isn't that of its folder or of its set-up file
--program  tracedesk, next to which is tracedesk-chain

Exit status: 0 all of it is loaded; 1 a line was refused, or PostgreSQL failed; 2 bad command line,
or no psycopg; 9 an unexpected failure.
"""
from __future__ import annotations

import argparse
import pathlib

from tracedesk_ops import loading, options, places, plant, reader_of


def folders_of(words: argparse.Namespace) -> list[tuple[str, pathlib.Path]]:
    """The lines that are to be loaded, and their folders."""
    set_up = places.folders()
    if not words.paths:
        return [its for its in set_up if words.line in (None, its[0])]
    names = {folder.resolve(): name for name, folder in set_up}
    absolute = [path.resolve() for path in words.paths]
    return [(words.line or names.get(path, path.name), path) for path in absolute]


def parse() -> tuple[str, list[tuple[str, pathlib.Path]]]:
    """The program, and the lines with their folders."""
    reader = reader_of(__doc__)
    reader.add_argument("--line", type=options.line_name, metavar="NAME")
    options.offer_program(reader)
    reader.add_argument("paths", nargs="*", type=pathlib.Path, metavar="FOLDER")
    words = reader.parse_args()
    if not loading.ERRORS:
        reader.error("there is no psycopg: apt-get install python3-psycopg")
    try:
        folders = folders_of(words)
    except places.NotSetUp as fault:
        reader.error(str(fault))
    if not folders:
        reader.error(f"name a line's folder: no line is set up in {places.FOLDER}")
    if words.line and len(folders) > 1:
        reader.error("--line names one line, and these are several folders: call it for each")
    return words.program, folders


def main() -> int:
    program, folders = parse()
    refused = 0
    try:
        tables = loading.Tables(program)
    except loading.FAULTS as fault:
        plant.tell(f"REFUSED: {str(fault).strip()}")
        return 1
    for line, folder in folders:
        try:
            tables.load(line, folder)
        except loading.FAULTS as fault:
            plant.tell(f"REFUSED: {line}: {str(fault).strip()}")
            refused = 1
    return refused
