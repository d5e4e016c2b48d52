"""Inputs made of other texts: files joined, logs with their instances, the next shift, instances of others."""
