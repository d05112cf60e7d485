"""What speaks for a value, or against it, where copies differ."""
