"""Mutants of the clients, by rules over their syntax: what `sweeps/mutants/try` makes, builds and tries."""
