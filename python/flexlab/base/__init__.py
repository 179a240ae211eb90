"""What all parts share: statuses, units, ranges, files."""
