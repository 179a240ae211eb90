"""Calling flexray, its files and what it prints."""
