"""Address tables of what other tools make: a module for each maker gives spans."""
