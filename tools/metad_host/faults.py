"""What ends a word with one line on standard error."""
from __future__ import annotations


class BadInput(Exception):
    """A file isn't what the word reads: its text tells which, and what is wrong. Status 1."""


class Missing(Exception):
    """Something that the word needs isn't there, or its words don't fit: status 2."""
