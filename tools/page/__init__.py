"""A report as a picture: its data (data.py), and one file that draws them (ladder.js, ladder.css, file.py)."""
