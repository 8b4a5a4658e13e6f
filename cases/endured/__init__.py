"""Bad days of a bank: what is done to its files, its disk and its clock, and what it does then."""
