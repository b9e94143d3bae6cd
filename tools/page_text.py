"""For tools/page: text and bytes of any kind as HTML that shows them, and nothing else."""
import html
import re

# Characters that would not be seen, or would turn what stands around them: controls, and marks of writing direction and lines.
UNSEEN = re.compile("[\0-\x08\x0b-\x1f\x7f-\x9f\u061c\u200b-\u200f\u2028-\u202e\u2060-\u2069\ufeff\udc80-\udcff]")


def visible(found: re.Match) -> str:
    """A sign for a character that has none: ␀ and the like for controls, \\xff for a byte that is no text, else \\u202e."""
    code = ord(found[0])
    if code < 0x20:
        return chr(0x2400 + code)
    if code == 0x7F:
        return "\u2421"
    return f"\\x{code - 0xDC00:02x}" if 0xDC80 <= code <= 0xDCFF else f"\\u{code:04x}"


def shown(text: "str | bytes") -> str:
    """The text with a sign for each character or byte that would not be seen."""
    if isinstance(text, bytes):
        text = text.decode("utf-8", "surrogateescape")
    return UNSEEN.sub(visible, text)


def escaped(text: "str | bytes | int") -> str:
    """Text as HTML, also within the quotes of an attribute."""
    return html.escape(shown(text if isinstance(text, (str, bytes)) else str(text)))


def tag(name: str, *content: str, **attributes: "str | int | float | bool | None") -> str:
    """An element with this content, which is HTML; an attribute that is None or False is left out.

    An underscore at the end of an attribute's name is dropped (class_), and one within it is a hyphen (data_turn).
    """
    words = [name]
    for key, value in attributes.items():
        key = key.rstrip("_").replace("_", "-")
        if value is True:
            words.append(key)
        elif value is not None and value is not False:
            words.append(f'{key}="{escaped(value)}"' if not isinstance(value, float) else f'{key}="{value:.6g}"')
    return f"<{' '.join(words)}>{''.join(content)}</{name}>"


def counted(number: int, what: str) -> str:
    return f"{number} {what}" + ("" if number == 1 else "s")
