"""Runs what the guide, the README of the repository, the gallery and the page of the companion show, as it is written.

A block in TOML that begins with the comment `# NAME.toml` is a file of this name. A block that begins with `$` has
commands, and what they print on standard output. A block in Python is a session; those of a page share their names.
"""

import contextlib
import doctest
import io
import os
import pathlib
import re
import subprocess
import sys
import tempfile
import unittest

import locus
from locus.program import call

PYTHON = pathlib.Path(__file__).resolve().parent.parent
ROOT = PYTHON.parent
GUIDE = ROOT / "docs" / "GUIDE.md"

# What is changed in `lines.toml` or `conics.toml` of the guide, and what the guide says is printed.
REFUSALS = (
    ("lines", "numerator_bound", "numerator_bounds", "3 MissingKey top numerator_bound"),
    ("lines", "classes =", "coefficent = 1\nclasses =", "4 UnknownKey term 0 coefficent"),
    ("lines", "b = 3", "d = 3", "3 MissingKey class 0 0 b"),
    ("lines", "version = 1", "version = 2", "3 MissingKey top integral"),
    ("lines", "[[term]]", "[term]", "5 WrongType top term"),
    ("lines", '[{ kind = "hypersurface", b = 3 }]', '{ kind = "hypersurface", b = 3 }', "5 WrongType term 0 classes"),
    ("lines", "degree = 1", 'degree = "1"', "5 WrongType top degree"),
    ("lines", "1_000_000_000", "1e9", "5 WrongType top numerator_bound"),
    ("lines", "_bound = 1000\n", "_bound = 0\n", "7 OutOfLimits top denominator_bound"),
    ("lines", "_bound = 1000\n", f"_bound = {2**62}\n", "7 OutOfLimits top denominator_bound"),
    ("lines", '"hypersurface", b = 3', '"mark", mark = 1', "7 OutOfLimits class 0 0 mark"),
    ("conics", ", 10000]", "]", "8 WeightCount 4 5"),
    ("lines", "4_611_686_018_427_387_847", "1_000_000_006", "9 ModulusRefused 0 Even"),
    ("lines", "4_611_686_018_427_387_847", "1_000_000_007, 1_000_000_007", "10 NotCoprime 0 1"),
    ("lines", "_847]", "_847, 4_611_686_018_427_387_817, 5]", "11 ProductTooLarge"),
    ("lines", "1_000_000_000", str(2**62 - 1), "12 BoundsTooWide"),
    ("lines", '"hypersurface", b = 3', '"psi", mark = 1', "13 UnknownKind 0 0"),
    ("lines", "hypersurface", "hypersurfaces", "13 UnknownKind 0 0"),
    ("lines", "b = 3", "b = 2", "14 WrongDegree 0 3 4"),
    ("lines", '"hypersurface"', "hypersurface", "2 NotToml"),
    ("lines", "rank = 3", "rank = 3\nrank = 3", "2 NotToml"),
    ("lines", "_bound = 1000\n", "_bound = 01000\n", "2 NotToml"),
    ("lines", "1_000_000_000", "2^62", "2 NotToml"),
    ("lines", "1_000_000_000", str(2**63), "2 NotToml"),
    ("lines", "version = 1", "version = 3", "6 BadVersion 3"),
    ("lines", "version = 1\n", "", "3 MissingKey top version"),
)


class Pages(unittest.TestCase):
    """One page after the other, each in an empty folder that has the examples."""

    def setUp(self):
        folder = tempfile.TemporaryDirectory()
        self.addCleanup(folder.cleanup)
        self.folder = pathlib.Path(folder.name)
        (self.folder / "examples").symlink_to(ROOT / "examples")
        (self.folder / "locus").symlink_to(locus.find())
        self.addCleanup(os.chdir, os.getcwd())
        os.chdir(self.folder)

    def test_the_guide(self):
        self.assertGreater(self.run_page(GUIDE), 15)

    def test_the_refusals_of_the_guide(self):
        guide = GUIDE.read_text(encoding="utf-8")
        files = {text.split(".", 1)[0][2:]: text for text in re.findall(r"^```toml\n(# .*?)^```$", guide, re.M | re.S)}
        for name, old, new, refusal in REFUSALS:
            with self.subTest(refusal=refusal, new=new):
                self.assertEqual(files[name].count(old), 1)
                self.assertIn(refusal, guide)
                pathlib.Path("refused.toml").write_text(files[name].replace(old, new), encoding="utf-8")
                ended = call("./locus", ["run", "refused.toml"])
                self.assertEqual((ended.status, ended.out, ended.told), (3, b"", f"problem refused {refusal}\n"))

    def test_the_refused_checkpoints_of_the_guide(self):
        guide = GUIDE.read_text(encoding="utf-8")
        kept = call("./locus", ["run", "examples/lines-on-a-cubic-surface.toml", "--budget", "5"]).out
        cut, changed = kept[:-9], kept.replace(b"\nnext 5\n", b"\nnext 6\n")
        for text, refusal in ((b"rank = 3\n", "2 NotCheckpoint"), (b"", "2 NotCheckpoint"), (cut, "2 NotCheckpoint"),
                              (changed, "3 Damaged")):
            with self.subTest(refusal=refusal, text=text):
                self.assertIn(f"`{refusal}`", guide)
                pathlib.Path("kept").write_bytes(text)
                ended = call("./locus", ["resume", "kept"])
                self.assertRegex(ended.told, rf"^checkpoint refused {refusal}( [0-9a-f]{{64}}){{{2 * (text == changed)}}}\n$")
                self.assertEqual((ended.status, ended.out), (8, b""))

    def test_the_first_page(self):
        self.assertGreater(self.run_page(ROOT / "README.md"), 2)

    def test_the_gallery(self):
        self.assertGreater(self.run_page(ROOT / "examples" / "README.md"), 0)

    def test_the_page_of_the_companion(self):
        self.assertGreater(self.run_page(PYTHON / "README.md"), 5)

    def run_page(self, page):
        """Runs the blocks of a page, and says how many there were."""
        names = {}
        blocks = re.findall(r"^```(\w*)\n(.*?)^```$", page.read_text(encoding="utf-8"), re.M | re.S)
        for language, text in blocks:
            named = re.match(r"# (\S+\.toml)\n", text)
            if language == "toml" and named:
                (self.folder / named[1]).write_text(text, encoding="utf-8")
            elif language == "python":
                self.run_session(text, names)
            else:
                for command in re.split(r"^\$ ", text, flags=re.M)[1:]:
                    self.run_command(*command.split("\n", 1))
        return len(blocks)

    def run_session(self, text, names):
        told = io.StringIO()
        test = doctest.DocTestParser().get_doctest(text, names, "session", None, 0)
        with contextlib.redirect_stderr(io.StringIO()):
            failed = doctest.DocTestRunner().run(test, out=told.write, clear_globs=False).failed
        names.update(test.globs)
        self.assertEqual(failed, 0, told.getvalue())

    def run_command(self, command, wanted):
        settings = {**os.environ, "PYTHONPATH": str(PYTHON), "LOCUS": locus.find(), "PYTHON": sys.executable}
        command = command.replace("PYTHONPATH=python ", "").replace("python3 ", '"$PYTHON" ')
        ended = subprocess.run(command, shell=True, env=settings, capture_output=True, text=True, check=False)
        self.assertEqual(ended.stdout, wanted, f"{command}\n{ended.stderr}")
