"""What the tools refuse."""


class BadInput(Exception):
    """Input that a tool can't use. Its message is one clear line."""


def excerpt(text, length=60):
    """The beginning of a text in quotes, on one line, for a message."""
    shown = text[:length].encode("unicode_escape").decode("ascii")
    return f'"{shown}..."' if len(text) > length else f'"{shown}"'


def decode(data, what):
    """The text of UTF-8 bytes; `what` names them in the message."""
    try:
        return data.decode("utf-8")
    except UnicodeDecodeError as error:
        raise BadInput(f"{what} isn't UTF-8: byte {data[error.start]:#04x} at {error.start}") from None


def read_file(path, what, most=-1):
    """The bytes of a file, or its first `most` bytes."""
    try:
        with open(path, "rb") as file:
            return file.read(most)
    except (OSError, ValueError) as error:
        why = getattr(error, "strerror", None) or error
        raise BadInput(f"can't read {what} {path}: {why}") from None
