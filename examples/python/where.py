"""where.py FILE ADDRESS: path, line and column of an address, by an index that is made of the file."""

import os
import sys

import boxantrel

index = boxantrel.Index.of_file(sys.argv[1])
at = index.find(int(sys.argv[2], 16))
if at is None:
    sys.exit("no row matches")
print(os.fsdecode(at.path), at.line, at.column, sep=":")
