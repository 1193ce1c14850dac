"""What `linetab-object` and `linetab-table` are made of."""

import os
import sys


def keep(_loader, path, content, **_mode):
    """Keeps a compiled module for later starts, whole or not at all. Python itself keeps what a full disk or a limit left of one, and
    then reads no module there."""
    new = "%s.%d" % (path, os.getpid())
    try:
        os.makedirs(os.path.dirname(path), exist_ok=True)
        with open(new, "xb") as file:
            file.write(content)
        os.replace(new, path)
    except OSError:
        if os.path.exists(new):
            os.unlink(new)


# The scripts keep nothing before this is so.
type(__spec__.loader).set_data = keep
sys.dont_write_bytecode = bool(sys.flags.dont_write_bytecode)
