"""Captures and logs of buses."""
