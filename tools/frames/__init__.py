"""What the frames of a report are, one module for each protocol."""
