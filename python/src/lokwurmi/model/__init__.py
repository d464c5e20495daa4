"""A system as values: its entries, its times and units, its limits, and what follows from its entries.
Nothing here reads or writes a file, nor calls the program."""
