"""Tests of the binding, of `zev` and of its readers, without hardware. `python3 -m unittest discover -s live/tests -t live` runs them."""
