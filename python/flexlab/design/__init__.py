"""A set of parameters for a topology: the one with the least proved precision, what binds it, and what it is proved by."""
