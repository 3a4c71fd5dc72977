"""The report: one HTML page with its drawings."""
