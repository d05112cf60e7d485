"""The commands jls-archive, jls-dicom and jls-view. They call jls-salvage and jls-splice; they are tested, not proved.

A package has a subject: `archive`, `dicom`, `view`, and `frames`, which the first two mend. What stands beside them is for all.

An older Python than they need is refused here, before any module that it can't read. So this file is written as Python 2 has it too.
"""
import os
import sys

if sys.version_info < (3, 9):
    command = os.path.basename(sys.argv[0])
    sys.stderr.write("%s: Python 3.9 or later is needed, and this is %d.%d\n" % ((command,) + tuple(sys.version_info[:2])))
    sys.exit(127)
