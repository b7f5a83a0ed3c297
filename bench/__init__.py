"""The proved check timed against the same check in doubles."""
