# No instruction at all.
