"""Reads one DICOM file into elements, as PS3.5, PS3.6 and PS3.10 have them."""
