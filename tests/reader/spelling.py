"""Spells one table in many of the ways that TOML has for it."""

from .toml import Table

BARE = frozenset("abcdefghijklmnopqrstuvwxyzABCDEFGHIJKLMNOPQRSTUVWXYZ0123456789_-")
SHORT = {"\b": "\\b", "\t": "\\t", "\n": "\\n", "\f": "\\f", "\r": "\\r", "\x1b": "\\e", '"': '\\"', "\\": "\\\\"}


class Raw(str):
    """A value that is written as it stands."""


class Writer:
    """Writes tables, and lets chance choose among spellings."""

    def __init__(self, chance):
        self.chance = chance
        self.is_plain = chance.random() < 0.2
        self.line_feed = "\r\n" if chance.random() < 0.15 else "\n"

    def sometimes(self, share=0.25):
        return not self.is_plain and self.chance.random() < share

    def document(self, table):
        """The text of a table, as a whole document."""
        front = "\ufeff" if self.sometimes(0.05) else ""
        text = front + self.lines((), table)
        return text.removesuffix(self.line_feed) if self.sometimes(0.1) else text

    def lines(self, path, table):
        """The lines of a table that stands under a header with this path, and of what is headed within it."""
        below = [key for key, value in table.items() if self.may_be_headed(value)]
        here = [key for key in table if key not in below]
        self.chance.shuffle(here)
        text = "".join(self.pair(key, table[key]) + self.end() for key in here)
        return text + "".join(self.headed((*path, key), table[key]) for key in below)

    def may_be_headed(self, value):
        is_array = isinstance(value, list) and value and all(type(element) in (dict, Table) for element in value)
        return (is_array or isinstance(value, dict)) and self.chance.random() < 0.5

    def headed(self, path, value):
        name = self.dotted(path)
        if isinstance(value, dict):
            return f"[{name}]{self.end()}{self.lines(path, value)}"
        return "".join(f"[[{self.space()}{name}]]{self.end()}{self.lines(path, table)}" for table in value)

    # A key with its value; a table may be written with a dotted key.
    def pair(self, key, value):
        path = [key]
        while isinstance(value, dict) and len(value) == 1 and self.sometimes(0.5):
            [(key, value)] = value.items()
            path.append(key)
        return f"{self.space()}{self.dotted(path)}{self.space(1)}={self.space(1)}{self.value(value)}"

    def dotted(self, path):
        return f"{self.space()}.{self.space()}".join(map(self.key, path))

    def key(self, key):
        if key and BARE.issuperset(key) and not self.sometimes():
            return key
        return self.string(key, is_key=True)

    def value(self, value):
        if isinstance(value, Raw):
            return str(value)
        if isinstance(value, bool):
            return "true" if value else "false"
        if isinstance(value, int):
            return self.integer(value)
        if isinstance(value, str):
            return self.string(value)
        if isinstance(value, list):
            return "[" + self.elements([self.value(element) for element in value]) + "]"
        return "{" + self.elements([self.pair(key, inner) for key, inner in value.items()]) + "}"

    def elements(self, texts):
        text = ",".join(self.gap() + element + self.gap() for element in texts)
        return text + ("," + self.gap() if texts and self.sometimes(0.2) else "")

    def integer(self, number):
        if number >= 0 and self.sometimes(0.2):
            zeros = "0" * self.chance.choice([0, 0, 1, 40])
            return self.chance.choice([f"0x{zeros}{number:x}", f"0x{zeros}{number:X}", f"0o{zeros}{number:o}",
                                       f"0b{zeros}{number:b}"])
        digits = f"{number:_}" if self.sometimes() else str(number)
        return "+" + digits if number >= 0 and self.sometimes(0.1) else digits

    def string(self, text, is_key=False):
        is_bare = all(" " <= letter != "\x7f" for letter in text)
        if is_bare and "'" not in text and self.sometimes():
            return f"'''{self.line_feed}{text}'''" if not is_key and self.sometimes() else f"'{text}'"
        inner = "".join(map(self.letter, text))
        if is_key or not self.sometimes():
            return f'"{inner}"'
        joint = self.chance.choice(["", self.line_feed, f"\\{self.line_feed}  \t"])
        return f'"""{joint}{inner}"""'

    def letter(self, letter):
        code = ord(letter)
        if self.sometimes(0.05) or code < 32 or code == 127 or letter in '"\\':
            long = [f"\\U{code:08x}"] + ([f"\\u{code:04X}"] if code < 2**16 else [])
            long += [f"\\x{code:02x}"] if code < 256 else []
            return self.chance.choice(long + [SHORT[letter]] if letter in SHORT else long)
        return letter

    def space(self, least=0):
        return self.chance.choice(["", " ", "\t", "  "]) if self.sometimes() else " " * least

    # What may stand around an element of an array or of a table in braces.
    def gap(self):
        if not self.sometimes(0.1):
            return self.space()
        return self.chance.choice([self.line_feed, f"# ],{self.line_feed}", f"#{self.line_feed}{self.line_feed} "])

    def end(self):
        comment = self.chance.choice(["# a comment", "#", "# é [\t\"'", "#\u2028"]) if self.sometimes(0.1) else ""
        return self.space() + comment + self.line_feed * (2 if self.sometimes(0.1) else 1)
