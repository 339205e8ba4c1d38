"""Damaged files, each of which stands for a way in which a file is damaged: one byte, one line, or all behind a place."""

import os

DATA = os.path.join(os.path.dirname(os.path.dirname(os.path.abspath(__file__))), "crates", "check_cases", "data")

SMALL = (b"NAME : A\nCOMMENT : three nodes\nTYPE : CVRP\nDIMENSION : 3\nEDGE_WEIGHT_TYPE : EUC_2D\nCAPACITY : 2\n"
         b"NODE_COORD_SECTION\n1 0 0\n2 3 4\n3 6 8\nDEMAND_SECTION\n1 0\n2 1\n3 1\nDEPOT_SECTION\n1\n-1\nEOF\n")

# A null, blanks, a line's end, what numerals are made of, what keywords are made of, and a byte that is no text.
TELLING_BYTES = b"\0\t\n\r :.-09E\xff"

# Files of other metrics, layouts and spellings, which are cut off.
CUT = ["three-nodes-crlf.vrp", "06-ceil8-corner.vrp", "04-att6-unit.vrp", "E-n7-k2-lower.vrp"]


def cuts(data):
    """The file cut off after each of its bytes."""
    return [data[:length] for length in range(len(data))]


def with_one_byte_changed(data):
    """The file with each byte in turn replaced by each of the telling ones."""
    return [data[:at] + bytes([byte]) + data[at + 1:] for at in range(len(data)) for byte in TELLING_BYTES]


def with_one_line_moved(data):
    """The file with each line in turn doubled, dropped, and exchanged with the next one."""
    lines = data.splitlines(keepends=True)
    files = []
    for at, line in enumerate(lines):
        files.append(b"".join(lines[:at] + [line, line] + lines[at + 1:]))
        files.append(b"".join(lines[:at] + lines[at + 1:]))
        files.append(b"".join(lines[:at] + lines[at + 1:at + 2] + [line] + lines[at + 2:]))
    return files


def hostile_files():
    """All of them."""
    files = cuts(SMALL) + with_one_byte_changed(SMALL) + with_one_line_moved(SMALL)
    for name in CUT:
        with open(os.path.join(DATA, name), "rb") as file:
            data = file.read()
        files += cuts(data) + with_one_line_moved(data)
    return files
