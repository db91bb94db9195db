"""Where the program is found, budgets, checkpoints on disk, progress, and the command line."""

import contextlib
import io
import os
import pathlib
import signal
import subprocess
import sys
import tempfile
import unittest
from unittest import mock

import locus
from locus import Runner, files, runs
from locus.__main__ import main
from locus.program import Ended, sum_of
from locus.progress import Plain, bar

PYTHON = pathlib.Path(__file__).resolve().parent.parent
QUARTICS = """version = 1
rank = 2
degree = 4
weights = [1, 10, 100]
moduli = [1_000_000_007]
numerator_bound = 100_000
denominator_bound = 1000
term = [{ classes = [{ kind = "incidence", q = 2, power = 11 }] }]
"""
TREES = 7266
PRINTED = f"trees {TREES}\nresidue 1000000007 620\nfraction 620/1\n"


def small_budgets():
    """Budgets of 1,000 trees."""
    stack = contextlib.ExitStack()
    stack.enter_context(mock.patch.object(runs, "FIRST_BUDGET", 1000))
    stack.enter_context(mock.patch.object(runs, "next_budget", lambda budget, seconds: 1000))
    return stack


class BrokenOff(Exception):
    """Ends a sum from within its progress."""


class InFolder(unittest.TestCase):
    def setUp(self):
        self.folder = pathlib.Path(self.enter(tempfile.TemporaryDirectory()))

    def enter(self, context):
        value = context.__enter__()
        self.addCleanup(context.__exit__, None, None, None)
        return value


class Finding(InFolder):
    def test_a_named_program_has_to_be_there(self):
        with self.assertRaisesRegex(locus.ProgramNotFound, "the argument"):
            locus.find(self.folder / "none")
        with mock.patch.dict(os.environ, LOCUS=str(self.folder)), self.assertRaisesRegex(locus.ProgramNotFound, "LOCUS"):
            locus.find()

    def test_the_argument_comes_before_the_environment_and_the_path_last(self):
        one, other = self.folder / "one", self.folder / "locus"
        for program in (one, other):
            program.write_text("#!/bin/sh\n")
            program.chmod(0o755)
        with mock.patch.dict(os.environ, LOCUS=str(other)):
            self.assertEqual(locus.find(one), str(one))
            self.assertEqual(locus.find(), str(other))
        with mock.patch.dict(os.environ, LOCUS="one", PATH=str(self.folder)):
            self.assertEqual(locus.find(), str(one))
        nowhere = mock.patch("locus.program.BUILT", self.folder / "none")
        with nowhere, mock.patch.dict(os.environ, LOCUS="", PATH=str(self.folder)):
            self.assertEqual(locus.find(), str(other))
        with nowhere, mock.patch.dict(os.environ, LOCUS="", PATH=""), self.assertRaises(locus.ProgramNotFound):
            locus.find()


class Budgets(InFolder):
    def test_a_sum_in_budgets_prints_the_same(self):
        told = []
        with small_budgets():
            found = Runner(progress=lambda done, total: told.append((done, total))).sum(QUARTICS, TREES)
        self.assertEqual(found.text, PRINTED)
        self.assertEqual(told, [(done, TREES) for done in (*range(1000, 8000, 1000), TREES)])

    def test_a_sum_that_was_broken_off_goes_on(self):
        def once(done, total):
            if done == 3000:
                raise BrokenOff

        with small_budgets(), self.assertRaises(BrokenOff):
            Runner(progress=once, folder=self.folder).sum(QUARTICS, TREES)
        self.assertEqual([path.suffix for path in self.folder.iterdir()], [".checkpoint"])
        told = []
        with small_budgets():
            runner = Runner(progress=lambda done, total: told.append(done), folder=self.folder)
            self.assertEqual(runner.sum(QUARTICS, TREES).text, PRINTED)
        self.assertEqual(told, [3000, 4000, 5000, 6000, 7000, TREES])
        self.assertEqual([path.suffix for path in self.folder.iterdir()], [".sum"])

    def test_a_sum_that_is_done_is_not_run_again(self):
        first = Runner(folder=self.folder).sum(QUARTICS)
        with mock.patch.object(runs, "call", side_effect=AssertionError):
            self.assertEqual(Runner(folder=self.folder).sum(QUARTICS), first)

    def test_a_killed_process_goes_on(self):
        script = (
            "import os, signal, sys, pathlib; from locus import runs\n"
            "runs.FIRST_BUDGET = 1000; runs.next_budget = lambda budget, seconds: 1000\n"
            "def kill(done, total):\n    if done == 2000: os.kill(os.getpid(), signal.SIGKILL)\n"
            "runs.Runner(progress=kill).sum_with(pathlib.Path(sys.argv[1]).read_text(), None, sys.argv[2])\n"
        )
        problem, kept = self.folder / "problem.toml", self.folder / "kept"
        problem.write_text(QUARTICS)
        ended = subprocess.run([sys.executable, "-c", script, problem, kept], cwd=PYTHON, check=False)
        self.assertEqual(ended.returncode, -signal.SIGKILL)
        self.assertEqual(runs.next_of(kept.read_bytes()), 2000)
        self.assertEqual(Runner().sum_with(QUARTICS, TREES, kept).text, PRINTED)

    def test_a_checkpoint_of_another_problem_is_refused(self):
        kept = self.folder / "kept"
        with small_budgets():
            Runner().sum_with(QUARTICS, TREES, kept)
        for text in (QUARTICS.replace("100]", "99]"), "# another\n" + QUARTICS):
            with self.assertRaises(locus.CheckpointMismatch):
                Runner().sum_with(text, TREES, kept)
        kept.write_text("no checkpoint")
        with self.assertRaises(locus.CheckpointMismatch):
            Runner().sum_with(QUARTICS, TREES, kept)

    def test_a_damaged_checkpoint_is_refused_by_the_program(self):
        kept = self.folder / "kept"
        with small_budgets():
            Runner().sum_with(QUARTICS, TREES, kept)
        kept.write_bytes(kept.read_bytes().replace(b"\nnext 7000\n", b"\nnext 6000\n"))
        with self.assertRaisesRegex(locus.ProgramFailed, "status 8.*Damaged"):
            Runner().sum_with(QUARTICS, TREES, kept)

    def test_a_checkpoint_that_is_too_long_is_refused_by_the_program(self):
        kept = self.folder / "kept"
        with small_budgets():
            Runner().sum_with(QUARTICS, TREES, kept)
        kept.write_bytes(kept.read_bytes().ljust(files.MOST_CHECKPOINT + 1))
        with self.assertRaisesRegex(locus.ProgramFailed, "status 8.*1 TooLong"):
            Runner().sum_with(QUARTICS, TREES, kept)

    def test_no_more_of_a_file_is_read_than_tells_that_it_is_too_long(self):
        self.assertEqual(len(files.read_front("/dev/zero", files.MOST_SOURCE)), 2**20 + 1)
        self.assertEqual(files.read_front("/dev/null", 10), b"")

    def test_a_checkpoint_without_its_folder_is_told_before_the_sum_begins(self):
        with mock.patch.object(runs, "call", side_effect=AssertionError):
            with self.assertRaisesRegex(FileNotFoundError, "folder of the checkpoint is not there"):
                Runner().sum_with(QUARTICS, TREES, self.folder / "none" / "kept")
            with mock.patch("os.access", return_value=False), mock.patch.object(runs, "find", return_value="locus"):
                with self.assertRaisesRegex(PermissionError, "no file may be made"):
                    Runner().sum_with(QUARTICS, TREES, self.folder / "kept")

    def test_a_file_is_replaced_whole_or_not_at_all(self):
        kept = self.folder / "kept"
        files.write_whole(kept, b"before")
        with mock.patch("os.replace", side_effect=OSError), self.assertRaises(OSError):
            files.write_whole(kept, b"after")
        self.assertEqual([path.name for path in self.folder.iterdir()], ["kept"])
        self.assertEqual(kept.read_bytes(), b"before")

    def test_budgets_follow_the_time_and_stay_multiples_of_a_round(self):
        self.assertEqual(runs.next_budget(4 * runs.ROUND, 0.001), 16 * runs.ROUND)
        self.assertEqual(runs.next_budget(4 * runs.ROUND, 4.0), 2 * runs.ROUND)
        self.assertEqual(runs.next_budget(runs.ROUND, 1000.0), runs.ROUND)
        self.assertEqual(runs.next_budget(2**40, 0.1), 2**40)


class Answers(unittest.TestCase):
    def test_each_status_has_its_error(self):
        for status, error in ((2, locus.ProgramFailed), (6, locus.ProgramFailed), (9, locus.ProgramFailed),
                              (-9, locus.ProgramFailed), (3, locus.ProgramFailed), (4, locus.ProgramFailed)):
            with self.subTest(status=status), self.assertRaises(error):
                sum_of(Ended(status, b"", ""))
        with self.assertRaisesRegex(locus.Refused, "14 WrongDegree 0 3 4"):
            sum_of(Ended(3, b"", "problem refused 14 WrongDegree 0 3 4\n"))

    def test_a_text_that_is_cut_is_refused(self):
        whole = PRINTED.encode()
        self.assertEqual(sum_of(Ended(0, whole, "")).trees, TREES)
        for text in (b"", whole[:10], whole[:-20], whole + b"more\n", b"x" + whole):
            with self.subTest(text=text), self.assertRaises(locus.ProgramFailed):
                sum_of(Ended(0, text, ""))

    def test_a_bar_says_how_far_and_how_long(self):
        out = io.StringIO()
        shown = Plain(200, out)
        with mock.patch("time.monotonic", side_effect=[0.0, 10.0]):
            shown.to(100)
            shown.to(150)
        shown.close()
        self.assertIn("100 of 200 trees", out.getvalue())
        self.assertIn("150 of 200 trees, 0:10 left", out.getvalue())

    def test_a_bar_that_cannot_be_written_ends_no_sum(self):
        out = mock.Mock(write=mock.Mock(side_effect=OSError))
        shown = Plain(200, out)
        shown.to(100)
        shown.close()
        self.assertEqual(out.write.call_count, 2)
        with mock.patch("sys.stderr", None):
            bar(True, 200).to(100)

    def test_the_bar_is_that_of_tqdm_if_it_is_there(self):
        made = mock.Mock(n=0)
        module = mock.Mock(tqdm=mock.Mock(return_value=made))
        with mock.patch.dict(sys.modules, {"tqdm": mock.Mock(auto=module), "tqdm.auto": module}):
            shown = bar(True, 200)
        shown.to(150)
        shown.close()
        module.tqdm.assert_called_once_with(total=200, unit=" trees", unit_scale=True)
        made.update.assert_called_once_with(150)
        made.close.assert_called_once_with()
        with mock.patch.dict(sys.modules, {"tqdm": None, "tqdm.auto": None}):
            self.assertIsInstance(bar(True, 200), Plain)


class CommandLine(InFolder):
    def ended(self, *words):
        out, told = io.TextIOWrapper(io.BytesIO()), io.StringIO()
        with contextlib.redirect_stdout(out), contextlib.redirect_stderr(told):
            status = main([str(word) for word in words])
        return status, out.buffer.getvalue().decode(), told.getvalue()

    def test_a_file_is_run_and_printed_as_the_program_prints_it(self):
        problem = self.folder / "problem.toml"
        problem.write_text(QUARTICS)
        self.assertEqual(self.ended(problem, "--quiet"), (0, PRINTED, ""))
        with mock.patch.dict(sys.modules, {"tqdm": None, "tqdm.auto": None, "tomllib": None}):
            status, out, told = self.ended(problem, "--workers", 2, "--checkpoint", self.folder / "kept")
        self.assertEqual((status, out), (0, PRINTED))
        self.assertEqual(told, "")
        self.assertEqual([path.name for path in self.folder.iterdir()], ["problem.toml"])

    def test_refusals_keep_their_status(self):
        problem = self.folder / "problem.toml"
        problem.write_text(QUARTICS.replace("power = 11", "power = 10"))
        self.assertEqual(self.ended(problem, "--quiet"), (3, "", "problem refused 14 WrongDegree 0 10 11\n"))
        self.assertEqual(self.ended(self.folder / "none", "--quiet")[0], 6)
        self.assertEqual(self.ended(problem, "--quiet", "--program", self.folder)[0], 70)

    def test_a_file_of_any_length_is_refused_as_the_program_refuses_it(self):
        self.assertEqual(self.ended("/dev/zero", "--quiet"), (3, "", "problem refused 1 TooLong\n"))

    def test_a_checkpoint_without_its_folder_has_status_70(self):
        problem = self.folder / "problem.toml"
        problem.write_text(QUARTICS)
        status, out, told = self.ended(problem, "--checkpoint", self.folder / "none" / "kept")
        self.assertEqual((status, out), (70, ""))
        self.assertEqual(told, f"locus: the folder of the checkpoint is not there: {self.folder / 'none'}\n")

    def test_an_output_that_takes_no_more_has_status_7(self):
        problem, kept = self.folder / "problem.toml", self.folder / "kept"
        problem.write_text(QUARTICS)
        for words, told in ((">/dev/full", "write fault\n"), (">&-", "write fault\n"), (">/dev/full 2>&-", "")):
            command = f'"$0" -m locus "$1" --quiet --checkpoint "$2" {words}'
            ended = subprocess.run(["sh", "-c", command, sys.executable, problem, kept], cwd=PYTHON, capture_output=True)
            with self.subTest(words=words):
                self.assertEqual((ended.returncode, ended.stdout, ended.stderr.decode()), (7, b"", told))

    def test_a_fault_of_standard_error_changes_no_status(self):
        problem = self.folder / "problem.toml"
        problem.write_text(QUARTICS)
        for name, words, status in ((problem, "2>/dev/full", 0), (problem, "2>&-", 0), ("none", "2>/dev/full", 6)):
            command = f'"$0" -m locus "$1" {words}'
            ended = subprocess.run(["sh", "-c", command, sys.executable, name], cwd=PYTHON, capture_output=True)
            with self.subTest(name=name, words=words):
                self.assertEqual((ended.returncode, ended.stdout.decode()), (status, "" if status else PRINTED))

    def test_the_trees_of_a_text_are_counted(self):
        self.assertIn(runs.trees_of_text(QUARTICS.encode()), (TREES, None))
        for text in ("rank = ", "rank = 2", "a = " + "[" * 100_000, QUARTICS.replace("rank = 2", "rank = -2")):
            self.assertIsNone(runs.trees_of_text(text.encode()))
