"""The proved library as Python calls it: built from the crates when they changed, loaded, called."""
