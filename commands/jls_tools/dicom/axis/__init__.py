"""Where the bytes of copies stand to each other: what a copy lost or got, where copies differ, and what is bad in them."""
