"""Recalls in a browser: a queue on disk, who works it off, and the pages."""
