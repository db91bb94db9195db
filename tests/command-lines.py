#!/usr/bin/env python3
"""Writes crates/command_line/src/tests/random.rt: lists of words with what they ask.

The lists are made at random from the alphabet of the commands, with a fixed seed. Their answers come from the rule as
it is read here, apart from the program:

- A word after the first that is empty, `-`, `--`, or begins with `--` and has its first `=` as its last byte refuses
  the list.
- Otherwise the word after the first is the name of a command. Each further item is `--name value`, with a value that
  does not begin with `-`, or `--name=value`, or a word that does not begin with `-`.
- There are as many plain words as the command's row says, each option is the command's own and stands once, and numbers
  are within their limits: an optional `+` and digits, below 2^64.
"""
import os
import random
import re

MOST = 2**40


def number(low, high):
    return ("number", low, high)


TEXT = ("text",)
WORKERS = {"workers": number(1, 64)}
SUM = {"workers": number(1, 64), "budget": number(1, MOST), "stop-file": TEXT}
FILES_64 = [TEXT] * 64
FILES_8 = [TEXT] * 8

# name: plain words, how many must be there, options
ALL = {
    "run": ([TEXT], 1, SUM),
    "resume": ([TEXT], 1, SUM),
    "make": ([number(0, 2**32 - 1)], 1, {}),
    "soak": ([number(0, 2**32 - 1)], 1, WORKERS),
    "trees": ([TEXT, number(0, MOST), number(0, MOST)], 3, WORKERS),
    "rank": ([TEXT, TEXT], 2, {}),
    "unrank": ([TEXT, number(0, MOST)], 2, {}),
    "split": ([TEXT, number(1, 64), number(0, 63)], 3, WORKERS),
    "merge": (FILES_64, 1, {}),
    "batch": ([TEXT], 1, WORKERS),
    "cross": (FILES_8, 2, WORKERS),
}
BUILT = {name: ALL[name] for name in ("run", "resume", "make", "soak", "trees", "rank", "unrank")}


def value_of(kind, text):
    """The value of a text: a number or the text, or None if it is not within the limit."""
    if kind == TEXT:
        return text
    if not re.fullmatch(r"\+?[0-9]+", text):
        return None
    n = int(text)
    return n if n < 2**64 and kind[1] <= n <= kind[2] else None


def refused_first(word):
    return word in ("", "-", "--") or (word.startswith("--") and word.find("=") == len(word) - 1)


def answer(table, words):
    """'refused', 'command', or what is asked, as Rust's `{:?}` prints it."""
    if any(refused_first(w) for w in words[1:]):
        return "refused"
    if len(words) < 2 or words[1] not in table:
        return "command"
    slots, least, kinds = table[words[1]]
    plains, options, rest = [], {}, words[2:]
    while rest:
        word = rest.pop(0)
        if not word.startswith("-"):
            plains.append(word)
            continue
        if not word.startswith("--"):
            return "command"
        name, joined, value = word[2:].partition("=")
        if not joined:
            if not rest or rest[0].startswith("-"):
                return "command"
            value = rest.pop(0)
        if name not in kinds or name in options:
            return "command"
        options[name] = value_of(kinds[name], value)
        if options[name] is None:
            return "command"
    if not least <= len(plains) <= len(slots):
        return "command"
    values = [value_of(kind, text) for kind, text in zip(slots, plains)]
    if None in values:
        return "command"
    return asked(words[1], values, options)


def quoted(text):
    return '"%s"' % text


def asked(command, values, options):
    workers = options.get("workers", 1)
    if command in ("run", "resume"):
        stop = options.get("stop-file")
        return "%s(RunRequest { file: %s, workers: %d, budget: %d, stop_file: %s })" % (
            command.capitalize(), quoted(values[0]), workers, options.get("budget", MOST),
            "None" if stop is None else "Some(%s)" % quoted(stop))
    if command == "make":
        return "Make { number: %d }" % values[0]
    if command == "soak":
        return "Soak { number: %d, workers: %d }" % (values[0], workers)
    if command == "trees":
        return "Trees { file: %s, low: %d, high: %d, workers: %d }" % (quoted(values[0]), *values[1:], workers)
    if command == "rank":
        return "Rank { file: %s, text: %s }" % tuple(map(quoted, values))
    if command == "unrank":
        return "Unrank { file: %s, number: %d }" % (quoted(values[0]), values[1])
    if command == "split":
        return "Split { file: %s, parts: %d, part: %d, workers: %d }" % (quoted(values[0]), *values[1:], workers)
    files = "[%s]" % ", ".join(map(quoted, values))
    if command == "merge":
        return "Merge { files: %s }" % files
    if command == "batch":
        return "Batch { list: %s, workers: %d }" % (quoted(values[0]), workers)
    return "Cross { files: %s, workers: %d }" % (files, workers)


TEXTS = ["f", "g.toml", "a=b", "0", "run", "help", "f-", "+", "é"]
ODD = ["-", "--", "", "-x", "-5", "--help", "--version", "--other", "--other=1", "--=1", "---", "-=", "--workers",
       "--workers=", "--stop-file=", "--stop-file=-x", "--stop-file=--", "--budget=-1", "-w=3", "--work=3",
       "--workers=3=4", "--stop-file=a=b", "--Workers=3", "--budget", "--stop-file"]


def some_number(random, kind):
    low, high = kind[1], kind[2]
    near = [low, high, low + 1, high - 1, (low + high) // 2]
    far = [low - 1, high + 1, 2**64 - 1, 2**64, 2**64 + low]
    if random.random() < 0.88:
        return random.choice(["%d", "%d", "%d", "+%d", "00%d"]) % random.choice(near)
    return random.choice(["%d" % n for n in far] + ["", "x", "1_0", "1.", "++1", "0x1", " 1"])


def some_value(random, kind):
    return random.choice(TEXTS) if kind == TEXT else some_number(random, kind)


def some_words(random, table):
    command = random.choice(list(table))
    slots, least, kinds = table[command]
    several = len(slots) > 3
    count = random.randint(least, min(len(slots), 9)) if several else least
    if random.random() < 0.12:
        count = max(0, count + random.choice([-1, 1]))
    items = [[some_value(random, slots[i] if i < len(slots) else TEXT)] for i in range(count)]
    for name, kind in kinds.items():
        for _ in range(random.choice([0, 0, 1, 1, 1, 2]) if random.random() < 0.2 else random.choice([0, 1])):
            value = some_value(random, kind)
            item = ["--" + name, value] if random.random() < 0.5 else ["--%s=%s" % (name, value)]
            items.insert(random.randint(0, len(items)), item)
    if random.random() < 0.2:
        items.insert(random.randint(0, len(items)), [random.choice(ODD)])
    words = [w for item in items for w in item]
    if random.random() < 0.03:
        command = random.choice(["help", "runs", "Run", "ru", ""])
    return ["locus", command] + words


def lines(table, count, seed, spoken=None):
    """Lists of words of the commands in `spoken`, or else in `table`, with what they ask by `table`."""
    chance = random.Random(seed)
    found = {}
    while len(found) < count:
        words = some_words(chance, spoken or table)
        found["|".join(words)] = answer(table, words)
    return ["%s  %s" % (a, w) for w, a in found.items()]


def constant(name, about, cases):
    text = "".join('    "%s\\n",\n' % c.replace("\\", "\\\\").replace('"', '\\"') for c in cases)
    return "/// %s\npub(crate) const %s: &str = concat!(\n%s);\n" % (about, name, text)


def main():
    here = os.path.dirname(os.path.abspath(__file__))
    built = lines(BUILT, 50, 2) + lines(BUILT, 30, 3, ALL)
    taken = sum(c.split("  ")[0] not in ("refused", "command") for c in built)
    assert len(built) // 3 < taken < len(built) * 3 // 4, taken
    parts = ["//! Lists of words, made by tests/command-lines.py: on each line what they ask, two spaces and the words."]
    parts.append(constant("BUILT", "Of the commands that are built.", built))
    path = os.path.join(here, "..", "crates", "command_line", "src", "tests", "random.rt")
    with open(path, "w") as file:
        file.write("\n".join(parts))
    print(taken, "of", len(built), "are taken")


main()
