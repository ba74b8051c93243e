"""A file replaced as a whole."""

from __future__ import annotations

import contextlib
import os
import secrets


def replace(path: str, data: bytes) -> None:
    """Writes a file through a second one in its folder, so that it is never half written.

    A link stays a link: what it leads to is replaced. OSError leaves the file as it was.
    """
    path = os.path.realpath(path)
    second = f"{path}.{secrets.token_hex(4)}.saving"
    stream = open(second, "xb")
    try:
        with stream:
            stream.write(data)
            stream.flush()
            os.fsync(stream.fileno())
        os.replace(second, path)
    except BaseException:
        with contextlib.suppress(FileNotFoundError):
            os.remove(second)
        raise
