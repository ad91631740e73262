"""Lines of the test driver (crates/test_driver): how a text stands in a question, and a value in an answer."""


def asked(text):
    """A text, or bytes, as a part of one line."""
    body = text.encode() if isinstance(text, str) else text
    named = {10: "\\n", 13: "\\r", 92: "\\\\"}
    return "".join(named.get(byte) or (chr(byte) if 32 <= byte < 127 else f"\\x{byte:02x}") for byte in body)


def told(value):
    """A value as it is printed."""
    return "".join(chr(byte) if 32 <= byte < 127 and byte != 92 else f"\\x{byte:02x}" for byte in value.encode())


def question(word, text, answer):
    """The line that asks, and the line that is owed."""
    return f"{word} {asked(text)}", str(answer)
