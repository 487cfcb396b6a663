"""The examples."""

import os
import pathlib
import subprocess
import sys
import unittest

FOLDER = pathlib.Path(__file__).parents[1]


class Answer(unittest.TestCase):
    def test_what_is_written(self):
        run = subprocess.run(
            [sys.executable, FOLDER / "examples" / "answer.py"], capture_output=True, text=True, check=True,
            env={**os.environ, "PYTHONPATH": str(FOLDER)},
        )
        self.assertEqual(run.stdout.split("\n"), [
            "123481800001000100000000076578616d706c6503636f6d00000f0001" 
            "c00c000f000100000e100009000a046d61696cc00c",
            "example.com. 3600 IN MX mail.example.com.", "",
        ])


class Referral(unittest.TestCase):
    """As dnspython writes the same RRsets."""

    def test_what_is_written(self):
        asked = "0377777703737562076578616d706c6503636f6d0000010001"
        servers = "c0100002000100000e100006036e7331c010c0100002000100000e100010026e73076578616d706c65036e657400"
        glue, other = "c0310001000100000e100004c0000201", "c0430001000100000e100004c0000202"
        for limit, wanted in (
            (115, "123480000001000000020002" + asked + servers + glue + other),
            (114, "123480000001000000020001" + asked + servers + glue),
            (98, "123482000001000000020000" + asked + servers),
            (82, "123482000001000000000000" + asked),
        ):
            with self.subTest(limit=limit):
                run = subprocess.run(
                    [sys.executable, FOLDER / "examples" / "referral.py", str(limit)], capture_output=True, text=True,
                    check=True, env={**os.environ, "PYTHONPATH": str(FOLDER)},
                )
                self.assertEqual(run.stdout, wanted + "\n")


class Ask(unittest.TestCase):
    def test_what_is_written(self):
        run = self.run_with("example.com", "MX", "0001020304050607")
        self.assertEqual(run.stdout.split("\n"), [
            "123401000001000000000001076578616d706c6503636f6d00000f0001"
            "00002904d000000000000c000a00080001020304050607",
            "option 10: 0001020304050607", "",
        ])
        self.assertEqual((run.returncode, run.stderr), (0, ""))

    def test_refusals(self):
        for words, why in (
            (("a..b", "MX", "00" * 8), "empty label"), (("a", "MXX", "00" * 8), "no name of a type, a class or a code"),
            (("a", "MX", "00" * 7), "a client's cookie has 8 octets"), (("a", "MX", "0g"), "non-hexadecimal number"),
        ):
            with self.subTest(words=words):
                run = self.run_with(*words)
                self.assertEqual((run.returncode, run.stdout), (1, ""))
                self.assertTrue(run.stderr.startswith(why), run.stderr)

    def run_with(self, *words):
        return subprocess.run(
            [sys.executable, FOLDER / "examples" / "ask.py", *words], capture_output=True, text=True, check=False,
            env={**os.environ, "PYTHONPATH": str(FOLDER)},
        )


class ZoneTree(unittest.TestCase):
    def test_tree(self):
        names = "z.example\nyljkjljk.a.example\nexample\nZ.a.example\nzABC.a.EXAMPLE\n*.z.example\n\\200.z.example\n"
        run = self.run_with(names)
        self.assertEqual(run.stdout.split("\n"), [
            "example.", "  a", "    yljkjljk", "    Z", "    zABC", "  z", "    *", "    \\200", "",
        ])
        self.assertEqual((run.returncode, run.stderr), (0, ""))

    def test_refusals(self):
        run = self.run_with("a..b\nexample.org\na.example\n")
        self.assertEqual(run.stdout, "example.\n  a\n")
        self.assertEqual(run.stderr, "a..b: empty label\nexample.org: not in example.\n")
        self.assertEqual(run.returncode, 1)

    def run_with(self, names):
        return subprocess.run(
            [sys.executable, FOLDER / "examples" / "zone_tree.py", "example"], input=names, capture_output=True,
            text=True, env={**os.environ, "PYTHONPATH": str(FOLDER)}, check=False,
        )
