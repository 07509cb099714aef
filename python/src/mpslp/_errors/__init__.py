"""Errors and their explanations."""
