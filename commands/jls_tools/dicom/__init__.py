"""DICOM files: what jls-dicom does, and what jls-archive and jls-view ask of such a file.

Of `read`, `axis`, `walk` and `evidence` each needs those before it alone. `copies` and `write` need all of them, and `mend` calls both.
"""
