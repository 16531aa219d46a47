"""Standard output, which the reader may close."""

from __future__ import annotations

import os
import sys


def print_text(text: str) -> None:
    """Writes to standard output; if nobody reads it any more, the program continues without it."""
    try:
        sys.stdout.write(text)
        sys.stdout.flush()
    except BrokenPipeError:
        sys.stdout = open(os.devnull, "w", encoding="utf-8")
