"""jls-view: draws pictures with their losses."""
