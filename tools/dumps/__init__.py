"""Dumps of real tags: one module for each format, and the `place` line of a script that each makes."""
