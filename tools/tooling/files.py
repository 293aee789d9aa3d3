"""Reads and writes whole files."""


def content(path: str) -> bytes:
    """The bytes of a file; none if the file does not exist."""
    try:
        with open(path, "rb") as file:
            return file.read()
    except FileNotFoundError:
        return b""


def text_of(path: str, errors: str = "strict") -> str:
    """The text of a file, which must exist."""
    with open(path, encoding="utf-8", errors=errors) as file:
        return file.read()


def text_there(path: str) -> str:
    """The text of a file, with replacement characters for what is not UTF-8; "" if the file cannot be read."""
    try:
        with open(path, encoding="utf-8", errors="replace") as file:
            return file.read()
    except OSError:
        return ""


def write(path: str, text: str) -> None:
    with open(path, "w", encoding="utf-8") as file:
        file.write(text)
