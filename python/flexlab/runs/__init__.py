"""Runs of a cluster, and what is computed of them."""
