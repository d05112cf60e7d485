"""What disks, tapes and transfers do to files, as far as rules count on it: the sizes of damage, each once."""
SECTOR = 512  # bytes that a disk or tape loses together
SECTORS = (4096, SECTOR)
MOST_LOST = 1 << 20  # no more bytes than that are lost in one place, or are looked at as one
NEAR_PLACES = 128  # so near have places to be that were lost in one run
BEFORE_BORDER = 1024  # so far before the end of a foreign beginning the copy's own bytes can stand, or a smaller damage
BESIDE_TABLE = 16  # bytes beside an offset table that are lost with it
SHARE = 0.9  # of the bytes of a lost sector so many differ, at least
