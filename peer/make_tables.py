"""make_tables.py REPOSITORY: writes the entries of each table of basic times, crates/basic_times/src/TABLE.rt, between the brackets of its
`const TABLE`, in the layout of `rt fmt`: as many to a line as fit into 99 columns.

They follow from the rules in peer.py by whole numbers alone. A new table is one line of peer.TABLES, and its file.
"""
import os
import re
import sys
import textwrap

import needs
import peer

INDENT = "    "
BRACKETS = re.compile(r"(const TABLE: \[u32; \d+\] = \[)[^]]*(\];)")


def write_table(path, entries):
    with open(path) as file:
        code = file.read()
    listed = textwrap.fill(", ".join(map(str, entries)) + ",", width=99, initial_indent=INDENT, subsequent_indent=INDENT) + "\n"
    code, found = BRACKETS.subn(rf"\1\n{listed}\2", code)
    if not found:
        sys.exit(f"no `const TABLE: [u32; ..] = [..];` in {path}")
    with open(path, "w") as file:
        file.write(code)


def main():
    repository = needs.arguments(__doc__).parse_args().repository
    for table in peer.TABLES:
        path = os.path.join(repository, "crates/basic_times/src", f"{table}.rt")
        if not os.path.exists(path):
            sys.exit(f"no {path}: first write it, with its role and material and a table of no entries")
        entries = peer.entries(table)
        write_table(path, entries)
        print(f"{table}: {len(entries)} entries")


if __name__ == "__main__":
    main()
