"""Makes calls of the program by chance: problems, checkpoints, texts of trees and arguments, whole or broken in some ways.

A call is fixed by a seed and its number, whatever else is made.
"""

import random
from dataclasses import dataclass

from . import checkpoint, models, problem as problems, toml, trees
from .spelling import Writer

# How much summing a call may ask for: trees times moduli times terms and classes.
MOST_WORK = 1200

# The most trees that a problem may have.
MOST_TREES = 2**40

# Lines for the front of a document, or for its end if they begin with a header. Some are TOML and some are not.
SNIPPETS = (
    "[x]\n[x]\n", "[x.y]\n[x]\n", "[x]\n[x.y]\n", "x.y = 1\n[x]\n", "x.y = 1\n[x.z]\n", "[[x]]\n[x]\n",
    "x = []\n[[x]]\n", "[x]\n[[x]]\n", "[[x]]\n[[x.y]]\n[x.y.z]\n", "[[x.y]]\n[x]\n", "[x.y]\n[x]\ny.z = 1\n",
    "[x.y.z]\n[x]\ny.w = 1\n[x.y]\n", "[x]\ny.z = 1\n[x.y]\n", "[x]\ny.z = 1\n[x.y.w]\n", "x = {y = 1}\n[x.z]\n",
    "x = {y = 1}\nx.z = 1\n", "x = {y.z = 1, y.w = 2}\n", "x = {y.z = 1, y = 2}\n", "x = {y = {}, y.z = 2}\n",
    "x = [{}]\n[[x]]\n", "x = [{}]\n[x.y]\n", "[[x]]\ny.z = 1\ny.w = 2\n[[x]]\ny = 1\n", "x = 1\nx = 1\n",
    "x = 1\n'x' = 1\n", '"" = 1\n', "'' = 1\n'' = 2\n", "= 1\n", "x = \n", "x =\n1\n", "x\n= 1\n", "x = 1 y = 2\n",
    "x = {y = 1 z = 2}\n", "x = {,}\n", "x = [,]\n", "x = [1,,2]\n", "x = {y\n= 1}\n", "x = {y = 1,\n# c\n}\n",
    "x = {\n}\n", "[]\n", "[.x]\n", "[x.]\n", "[x]y = 1\n", "[ x . 'y' ]\n", "[[x]\n", "[x]]\n", "[ [x]]\n",
    "[[x] ]\n", "[x] # c\n", "x.'y'.\"z\" = 1\n", '"""x""" = 1\n', "x = '''\n'''\n", "x = ''''x'''''\n",
    "x = ''''''''\n", 'x = """"x"""""\n', 'x = """x""""""\n', 'x = "\\e\\x41\\u00e9\\U0001F600"\n', 'x = "\\ud800"\n',
    'x = "\\U00110000"\n', 'x = "\\x4"\n', 'x = "\\q"\n', 'x = "\\\n"\n', 'x = """\\  \r\n\r\n  x"""\n',
    'x = """\\ x"""\n', 'x = "\t\x7f"\n', "x = '\x1f'\n", "x = '\n'\n", 'x = """\r"""\n', "# \x00\n", "# \x7f\n",
    "# \r x\n", "#\t\u0080\n", "\r\n", "\r", "\x0b", "\ufeff", "x = 1\ufeff\n", "\u00a0x = 1\n", "é = 1\n",
    "x = tru\n", "x = TRUE\n", "x = true\n", "-1- = 1\n", "1.2 = 3\n", "x = 1979-05-27T07:32Z\n",
    "x = 1979-05-27 07:32:00.999+23:59\n", "x = 1979-05-27 07\n", "x = 07:32\n", "x = 24:00:00\n", "x = 2000-02-29\n",
    "x = 1900-02-29\n", "x = 1979-13-01\n", "x = 1979-00-01\n", "x = 1979-04-31\n", "x = 0000-01-01\n",
    "x = 1979-05-27t07:32:00z\n", "x = 1979-05-27T07:32:00+24:00\n", "x = 1979-05-27T07:32:00-00:60\n",
    "x = 07:60:00\n", "x = 07:32:61\n", "x = 07:32:00.\n", "x = 7:32:00\n", "x = 1979-5-27\n",
    "x = 1979-05-27  07:32:00\n", "x = 1979-05-27T\n", "x = 0x\n", "x = 0xg\n", "x = 0X1\n", "x = +0x1\n",
    "x = -0b1\n", "x = 0b2\n", "x = 0o8\n", "x = 0x_1\n", "x = 0x1_\n", "x = 1__0\n", "x = _1\n", "x = 1_\n",
    "x = 01\n", "x = +0\n", "x = -0\n", "x = --1\n", "x = 1.\n", "x = .1\n", "x = 1.e1\n", "x = 1e\n", "x = 1e+\n",
    "x = 1e01\n", "x = 1_0.0_1e1_0\n", "x = 1._0\n", "x = 00.1\n", "x = -0.0\n", "x = inf\n", "x = +nan\n",
    "x = Inf\n", "x = 1e308\n", "x = 1e-400\n", "x = 0x7fffffffffffffff\n", "x = 0x8000000000000000\n",
    "x = 0o777777777777777777777\n", "x = -9223372036854775808\n", "x = -9223372036854775809\n",
)

# Bytes that change what a document is, or that are no UTF-8.
PIECES = (
    b'"', b"'", b"[", b"]", b"{", b"}", b"=", b",", b".", b"#", b"\\", b"\n", b"\r", b"\r\n", b"\t", b" ", b"\x00",
    b"\x0b", b"\x7f", b"0", b"9", b"_", b"-", b"+", b"e", b"x", b"\xff", b"\xc0\x80", b"\xed\xa0\x80",
    b"\xf4\x90\x80\x80", b"\xc3", b"\x80", b"\xc3\xa9", b"\xef\xbb\xbf", b"\xe2\x80\xa8", b"\xf0\x9f\x98\x80", b"'''",
    b'"""', b"[[", b"]]",
)

WORDS = (
    b"run", b"resume", b"make", b"soak", b"text", b"no-such-file", b".", b"--workers", b"--budget", b"--stop-file",
    b"--workers=2", b"--budget=1", b"--stop-file=s", b"--workers=", b"--=", b"--=x", b"-", b"--", b"", b"-x",
    b"--help", b"-h", b"help", b"--version", b"-V", b"1", b"64", b"65", b"0", b"007", b"+5", b"-1", b" 1", b"1_0",
    b"1099511627776", b"1099511627777", b"18446744073709551616", b"4294967295", b"4294967296", b"\xff", b"\xc3\xa9",
    b"rank", b"unrank", b"edges 0-1:1 colours 0 1 marks -", b"trees", b"--Workers", b"--work", b"-w", b"a=b", b"--workers=+064", b"--budget=1099511627776", b"9"*400,
)


@dataclass
class Call:
    """The arguments of a call, and what stands in the file `text`, where there is one."""

    words: list
    text: bytes | None


def call(seed, number):
    """The call of a number."""
    chance = random.Random(f"{seed} {number}")
    make = chance.choices((of_problem, of_checkpoint, of_words, of_trees, of_number), (60, 20, 11, 8, 1))[0]
    return make(chance)


def of_problem(chance):
    """A call of `run`."""
    text = hostile_text(chance)
    return Call([b"run", b"text", *options(chance, text, problems.read, problems.Refused)], text)


def of_checkpoint(chance):
    """A call of `resume`."""
    text = hostile_checkpoint(chance)
    return Call([b"resume", b"text", *options(chance, text, lambda kept: checkpoint.read(kept).problem,
                                              checkpoint.Refused)], text)


def options(chance, text, read, refused):
    """Options for a file, with a budget where its sum is long."""
    made = []
    if chance.random() < 0.3:
        made += [b"--workers", b"%d" % chance.choice((1, 2, 3, 7, 64))]
    try:
        problem = read(text)
    except refused:
        problem = None
    if problem and (work(problem) > MOST_WORK or chance.random() < 0.3):
        each = max(1, work(problem) // problem.count())
        made.append(b"--budget=%d" % chance.randint(1, max(1, min(MOST_WORK // each, problem.count() + 1))))
    if chance.random() < 0.1:
        made += [b"--stop-file", chance.choice((b"no-such-file", b"text", b"."))]
    return made


def work(problem):
    """How much work a sum is."""
    each = sum(1 + len(term.classes) for terms in problem.integrals for term in terms)
    return problem.count() * len(problem.moduli) * each


def of_words(chance):
    """A call with arguments of any kind."""
    count = chance.choice((0, 1, 2, 3, 3, 4, 5))
    words = [chance.choice(WORDS) for _ in range(count)]
    if words and chance.random() < 0.8:
        words[0] = chance.choice((b"run", b"resume", b"make", b"soak", b"trees", b"rank", b"unrank"))
        words[1:1] = [chance.choice((b"text", b"no-such-file", b"0", b"+2", b"4294967295"))] * chance.choice((0, 1, 1))
    is_long = words[:1] == [b"soak"] and any(word.lstrip(b"+0")[-1:] in b"13579" for word in words[1:] if word)
    return Call([b"soak", b"--workers"] if is_long else words, models_text(chance, 0))


def of_trees(chance):
    """A call of `trees`, of `rank` or of `unrank`."""
    text = models_text(chance, 0) if chance.random() < 0.9 else hostile_text(chance)
    try:
        problem = problems.read(text)
    except problems.Refused:
        return Call([b"unrank", b"text", b"0"], text)
    count = problem.count()
    if chance.random() < 0.3:
        return of_range(chance, count, text)
    if chance.random() < 0.4:
        number = chance.choice((0, count - 1, count, count + 1, MOST_TREES, chance.randrange(count)))
        return Call([b"unrank", b"text", b"%d" % min(number, MOST_TREES)], text)
    return Call([b"rank", b"text", hostile_tree(chance, problem)], text)


def of_range(chance, count, text):
    """A call of `trees` over a short range, or over one that is refused."""
    low = chance.choice((0, max(count - 8, 0), count - 1, count, chance.randrange(count)))
    high = chance.choice((low, low + 1, min(low + 8, count), count + 1, low + 4097, MOST_TREES))
    if low < high <= count and high - low > 64:
        high = low + 8
    workers = chance.choice(([], [], [b"--workers", b"3"], [b"--workers=64"]))
    return Call([b"trees", b"text", b"%d" % low, b"%d" % min(high, MOST_TREES), *workers], text)


def hostile_tree(chance, problem):
    """The text of a tree of a problem: whole, broken, or of another shape."""
    shape = [problem.rank, problem.degree, problem.marks]
    way = chance.random()
    if 0.6 < way < 0.75:
        index = chance.randrange(3)
        shape[index] = max(index < 2, shape[index] + chance.choice((-1, 1)))
    tree = trees.tree_of(chance.randrange(trees.count(*shape)), *shape)
    if 0.4 < way < 0.6:
        change_the_tree(chance, tree)
    text = tree.text().encode()
    if way > 0.75:
        text = chance.choice((cut, change_a_letter, change_a_letter, repeat_a_part))(chance, text)
    return text if text and not text.startswith(b"-") else b"edges"


def change_the_tree(chance, tree):
    """One number of a tree is another, or two of its edges are exchanged."""
    way = chance.randrange(4)
    if way == 0 and len(tree.edges) > 1:
        first, second = chance.sample(range(len(tree.edges)), 2)
        tree.edges[first], tree.edges[second] = tree.edges[second], tree.edges[first]
    elif way == 1:
        place = chance.randrange(len(tree.edges))
        tree.edges[place] = chance.choice((tree.edges[place][::-1], (0, 1), (99, 0), (10, 11)))
    elif way == 2 and tree.marks:
        tree.marks[chance.randrange(len(tree.marks))] = chance.choice((0, len(tree.colours), 99))
    else:
        tree.colours[chance.randrange(len(tree.colours))] = chance.randrange(100)


def change_a_letter(chance, text):
    """Another letter in the place of one, or one more or fewer."""
    place = chance.randrange(len(text) + 1)
    letter = chance.choice((b"0", b"1", b"9", b" ", b"-", b":", b"x", b"\t", b"\n", b"\xc3\xa9", b""))
    return text[:place] + letter + text[place + chance.choice((0, 1)) :]


def repeat_a_part(chance, text):
    """One of the words of a text several times."""
    words = text.split(b" ")
    place = chance.randrange(len(words))
    return b" ".join(words[:place] + [words[place]] * chance.choice((0, 2, 11, 12)) + words[place + 1 :])


def of_number(chance):
    """A call of `make` or of `soak`, of which the latter has the shorter of its two problems."""
    if chance.random() < 0.7:
        return Call([b"make", b"%d" % chance.choice((0, 1, 2, 89, 90, 91, 2**32 - 1, chance.randrange(2**32)))], None)
    return Call([b"soak", b"%d" % (2 * chance.randrange(45)), b"--workers", b"%d" % chance.choice((1, 2, 5))], None)


def models_text(chance, faults):
    """The text of a problem in which so many rules are broken, or nearly."""
    table = models.problem(chance)
    for _ in range(faults):
        models.break_a_rule(chance, table)
    return Writer(chance).document(table).encode()


def hostile_text(chance):
    """The text of a problem: whole, with broken rules, or with a broken text."""
    way = chance.random()
    if way < 0.25:
        return models_text(chance, 0)
    if way < 0.65:
        return models_text(chance, chance.choice((1, 1, 2, 2, 3)))
    text = models_text(chance, 0)
    for _ in range(chance.choice((1, 1, 2))):
        text = chance.choice(TEXT_BREAKS)(chance, text)
    return text


def cut(chance, text):
    """A prefix."""
    return text[: chance.randrange(len(text) + 1)]


def change_bytes(chance, text):
    """A piece in place of some bytes, or between two."""
    place = chance.randrange(len(text) + 1)
    return text[:place] + chance.choice(PIECES) + text[place + chance.choice((0, 1, 1, 2)) :]


def repeat_a_line(chance, text):
    """One line twice, or two lines exchanged."""
    lines = text.split(b"\n")
    first, second = chance.randrange(len(lines)), chance.randrange(len(lines))
    if chance.random() < 0.5:
        lines.insert(second, lines[first])
    else:
        lines[first], lines[second] = lines[second], lines[first]
    return b"\n".join(lines)


def put_in_front(chance, text):
    """Lines of some form before the others."""
    line = chance.choice(SNIPPETS)
    if chance.random() < 0.3:
        place = chance.randrange(len(line))
        line = line[:place] + chance.choice("\"'[]{}=,.#\\\n\t _-+0e:TZ") + line[place + chance.choice((0, 1)) :]
    if line.startswith("["):
        return text + b"\n" + line.encode()
    return line.encode() + text


def nest_deeply(chance, text):
    """A value or a key of very many parts."""
    deep = chance.choice((79, 80, 81, 82, 1000, 100_000))
    return chance.choice((
        b"x = " + b"[" * deep + b"]" * deep + b"\n",
        b"x = " + b"[" * deep + b"\n",
        b"x = " + b"{x = " * (deep - 1) + b"{}" + b"}" * (deep - 1) + b"\n",
        b"x = " + b"[{x=" * (deep // 2) + b"1" + b"}]" * (deep // 2) + b"\n",
        b"x" + b".x" * (deep - 1) + b" = 1\n",
    )) + text if chance.random() < 0.8 else text + b"\n[x" + b".x" * (deep - 1) + b"]\n"


def huge_number(chance, text):
    """A number of very many digits, also at a key that is wanted."""
    many = chance.choice((19, 20, 30, 400, 5000, 100_000))
    number = chance.choice((b"9" * many, b"-" + b"1" * many, b"0x" + b"0" * many + b"1", b"0b" + b"1" * many,
                            b"0." + b"0" * many + b"1", b"1" * many + b".0", b"1_" * many + b"1"))
    if chance.random() < 0.5:
        return b"x = " + number + b"\n" + text
    name = chance.choice((b"rank", b"weights", b"version", b"moduli", b"degree"))
    return b"\n".join(name + b" = " + number if line.startswith(name + b" ") else line for line in text.split(b"\n"))


def long_key(chance, text):
    """A key, a string or a comment of very many bytes."""
    many = chance.choice((39, 40, 41, 1000, 100_000))
    return chance.choice((b"a" * many + b" = 1\n", b'"' + b"\xc3\xa9" * many + b'" = 1\n',
                          b"x = '" + b"a" * many + b"'\n", b"#" + b"a" * many + b"\n",
                          b"a" + b" " * many + b"= 1\n", b"\n" * many)) + text


def to_the_longest(chance, text):
    """As long as a problem may be, or one byte longer."""
    wanted = problems.LONGEST + chance.choice((-1, 0, 1))
    return text + b"\n" + b"#" * (wanted - len(text) - 1)


TEXT_BREAKS = (cut, change_bytes, change_bytes, change_bytes, repeat_a_line, put_in_front, put_in_front, put_in_front,
               put_in_front, nest_deeply, huge_number, long_key) * 6 + (to_the_longest,)


def hostile_checkpoint(chance):
    """The text of a checkpoint: whole, or broken."""
    source = models_text(chance, 0) if chance.random() < 0.85 else hostile_text(chance)
    parts = parts_of_checkpoint(chance, source)
    way = chance.random()
    if way < 0.35:
        return checkpoint.write_parts(*parts)
    if way < 0.6:
        return checkpoint.write_parts(*changed_parts(chance, *parts))
    if way < 0.85:
        body = checkpoint.write_parts(*parts)[:-72]
        return checkpoint.sealed(chance.choice(BODY_BREAKS)(chance, body))
    return chance.choice(WHOLE_BREAKS)(chance, checkpoint.write_parts(*parts))


def parts_of_checkpoint(chance, source):
    """A version, the source, a next number and rows of residues."""
    try:
        problem = problems.read(source)
    except problems.Refused:
        return chance.choice((1, 2)), source, 0, [[0]]
    rows = [[chance.randrange(modulus) for modulus in problem.moduli] for _ in problem.integrals]
    number = chance.choice((0, problem.count(), chance.randint(0, problem.count())))
    return chance.choice((1, 2) if len(rows) == 1 else (2, 2, 2, 1)), source, number, rows


def changed_parts(chance, version, source, number, rows):
    """The parts with one or two changed; the text has no other fault."""
    for _ in range(chance.choice((1, 1, 2))):
        way = chance.randrange(7)
        if way == 0:
            version = chance.choice((0, 1, 3, 7, 2**64 - 1, 2**64))
        elif way == 1:
            number = chance.choice((number + 1, 10**6, 2**40, 2**64 - 1, 2**64))
        elif way == 2:
            rows = rows + rows[:1] if chance.random() < 0.5 else rows[1:]
        elif way == 3 and rows:
            rows = [row + [0] if chance.random() < 0.5 else row[:-1] for row in rows]
        elif way == 4 and rows:
            row = chance.choice(rows)
            row[chance.randrange(len(row)) if row else 0 :] = [chance.choice((3, 101, 2**62, 2**64 - 1, 2**64, 10**30))]
        elif way == 5:
            source = source + b"\n" if chance.random() < 0.5 else source[:-1]
        else:
            source = checkpoint.write_parts(version, source, number, rows)
    return version, source, number, rows or [[]]


def change_a_number(chance, body):
    """One number of the lines around the source in another spelling, or another number."""
    lines = body.split(b"\n")
    index = chance.choice((0, 1, len(lines) - 2, len(lines) - 3))
    words = lines[index].split(b" ")
    place = chance.randrange(len(words))
    word = words[place]
    words[place] = chance.choice((b"0" + word, b"+" + word, word + b" ", b" " + word, b"", b"-0", word + b"0", b"1",
                                  b"18446744073709551615", b"18446744073709551616", word.upper(), word + b"\r",
                                  b"\xc2\xb2", b"9" * 5000, b"171", word + b"\x00"))
    lines[index] = b" ".join(words)
    return b"\n".join(lines)


def swap_tails(chance, body):
    """The lines behind the source without one of them, or with one of them twice."""
    lines = body.split(b"\n")
    index = chance.choice((0, 1, len(lines) - 2, len(lines) - 3))
    lines[index : index + 1] = [lines[index]] * chance.choice((0, 2))
    return b"\n".join(lines)


def change_the_end(chance, text):
    """Another digest line."""
    digest = text[-65:-1]
    return text[:-72] + chance.choice((
        b"", b"sha256 " + digest.upper() + b"\n", b"sha256 " + digest, b"sha256 " + digest + b"\r\n",
        b"sha256  " + digest[1:] + b"\n", b"sha256 " + digest[::-1] + b"\n", b"SHA256 " + digest + b"\n",
        b"sha256 " + digest[:-1] + b"g\n", text[-72:] * 2, b"\n" + text[-72:], b" " + text[-72:]))


def to_the_longest_checkpoint(chance, text):
    """A text as long as a checkpoint may be, or one byte longer, with its digest."""
    wanted = checkpoint.LONGEST + chance.choice((0, 1))
    return checkpoint.sealed(text[:-72] + b"0" * (wanted - len(text)))


BODY_BREAKS = (cut, change_bytes, change_bytes, change_a_number, change_a_number, change_a_number, swap_tails,
               lambda chance, body: body + body, lambda chance, body: body.replace(b"\n", b"\r\n"))
WHOLE_BREAKS = (cut, change_bytes, change_bytes, change_the_end, change_the_end, lambda chance, text: text + text,
                lambda chance, text: text + b"\n", to_the_longest_checkpoint)
