"""The way of elements, items and frames through copies that differ."""
