"""Frames: codestreams of JPEG-LS, in which coding they are, and how one is mended from its copies."""
