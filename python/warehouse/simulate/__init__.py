"""Runs that are driven: instances to their ends, with vehicles that are late where wanted, and instances that are made."""
