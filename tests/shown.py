"""Names and pointers as messages show them, each in one line."""


def is_hidden(code):
    """Whether a character is shown by its bytes."""
    return code < 0x20 or code == 0x5C or 0x7F <= code < 0xA0 or 0x2028 <= code < 0x202F or 0x2066 <= code < 0x206A


def shown(name):
    """What messages show for this text."""
    out, before = "", ""
    for character in name:
        if is_hidden(ord(character)) or (before == ":" and character == " "):
            out += "".join("\\x%02X" % byte for byte in character.encode())
        else:
            out += character
        before = character
    return out


def shown_bytes(name):
    """The same of UTF-8."""
    return shown(name.decode()).encode()
