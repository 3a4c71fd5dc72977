"""The page for the browser, on the loopback address."""
