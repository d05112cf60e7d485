"""Which copies are taken together: those of one instance and kind, with one header, and on one coding."""
