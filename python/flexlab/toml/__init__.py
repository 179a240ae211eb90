"""A cluster in the units of a bench, read from TOML."""
