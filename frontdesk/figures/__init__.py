"""The library's figures and the sums of them that a report shows, and the slip beside them."""
