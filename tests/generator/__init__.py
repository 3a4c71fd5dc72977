"""The maker of the case corpus: files, their own expectation, and the rules broken on purpose."""
