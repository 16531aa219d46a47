"""Findings: the folder that keeps them, their reports, and their reduction."""
