"""Other programs."""
import os

from .nodes import Refused, need


def piped(words, data, wanted):
    """What a program, called with these words, makes of bytes on its standard input."""
    import subprocess  # here, since it takes longer to load than all that most commands need
    try:
        done = subprocess.run(words, input=data, capture_output=True)
    except OSError as why:
        raise Refused(f"{wanted}: {why.strerror}") from None
    said = done.stderr.decode(errors="replace").strip()[:200]
    need(done.returncode == 0, f"{os.path.basename(words[0])} ended with {done.returncode}: {said!r}")
    return done.stdout
