"""A second reader of scripts and histories, written from docs/FORMATS.md alone."""
