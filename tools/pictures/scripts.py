"""What the pictures are drawn of, read from a file or the standard input."""
import sys
from typing import Any, Dict

from reading.scripts import BadInput, read_object, whole


def bytes_of(path: str) -> bytes:
    """What a file has, or the standard input where the path is `-`."""
    try:
        if path == "-":
            return sys.stdin.buffer.read()
        with open(path, "rb") as file:
            return file.read()
    except (OSError, ValueError) as error:
        raise BadInput(f"{path}: {getattr(error, 'strerror', None) or error}") from None


def read_output(path: str) -> str:
    """The text of an output."""
    try:
        return bytes_of(path).decode("utf-8")
    except UnicodeDecodeError:
        raise BadInput(f"{path}: it is no UTF-8") from None


def read_script(path: str) -> Dict[str, Any]:
    """The script of a file, with `n`, `r` and `w` judged, and the rest when it is asked for."""
    data = bytes_of(path)
    try:
        script = read_object(data)
    except BadInput as error:
        raise BadInput(f"{path}: {error}") from None
    for name in ("n", "r", "w"):
        whole(script.get(name), f"`{name}`")
    return script
