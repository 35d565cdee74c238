"""Lines on standard output and standard error, of which none is left in a buffer."""
import os
from typing import List

# What could not be said on standard output.
unsaid: List[OSError] = []


def say(text: str, to: int = 1) -> None:
    """Writes a line. One that can't be written to standard output is kept in mind."""
    line = f"{text}\n".encode(errors="surrogateescape")
    try:
        while line:
            line = line[os.write(to, line):]
    except OSError as error:
        if to == 1:
            unsaid.append(error)
