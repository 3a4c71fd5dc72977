"""What an office has, read to a ship and back: workbooks, CSV files, case files, and what is wrong with them."""
