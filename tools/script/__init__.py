"""The language of scripts (docs/script.md): its words, its commands, and when a line is accepted."""
