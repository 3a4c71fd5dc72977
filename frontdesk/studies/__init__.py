"""Many ships at once: a line for each, on all processors."""
