"""Writes the mended file and what stands beside it, and checks it before."""
