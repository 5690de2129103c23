"""What the client's README shows, against a running service."""

import contextlib
import io
import os
import pathlib
import re
import subprocess
import sys
import unittest

import service

CLIENT = pathlib.Path(service.__file__).resolve().parents[3] / "clients" / "python"
PORT = "17000"


def blocks(kind: str) -> list[str]:
    return re.findall(rf"^```{kind}\n(.*?)^```$", (CLIENT / "README.md").read_text(), re.M | re.S)


class Readme(unittest.TestCase):
    def head(self) -> str:
        return blocks("sh")[0].split("<<'END'\n")[1].split("END\n")[0]

    def test_the_example_prints_what_it_says(self):
        with service.Service(self.head(), workers=2, connections=2) as running:
            running.stream().close()
            printed = io.StringIO()
            with contextlib.redirect_stdout(printed):
                exec(compile(blocks("python")[0].replace(PORT, str(running.port)), "README.md", "exec"), {})
            running.made_by_others(1)
            running.audit()
        self.assertEqual(printed.getvalue(), blocks("text")[0])

    def test_the_line_interface_answers_what_it_says(self):
        command, *lines = blocks("text")[1].splitlines()
        asked = [line[2:] for line in lines if line.startswith("> ")]
        answered = [line for line in lines if not line.startswith("> ")]
        with service.Service(self.head(), workers=2, connections=3) as running:
            running.stream().close()
            words = command.replace(PORT, str(running.port)).split()[2:]
            talked = self.client(words, "\n".join(asked) + "\n")
            self.assertEqual((talked.returncode, talked.stderr), (0, ""))
            self.assertEqual(talked.stdout.splitlines(), answered)
            unknown = self.client([*words[:-2], words[-2][:-1] + "9", words[-1]], "")
            self.assertEqual((unknown.returncode, unknown.stdout), (1, ""))
            self.assertEqual(unknown.stderr, "cops_client: E02 UnknownTenant: No tenant has that token\n")
            running.made_by_others(2)
            running.audit()
            self.assertEqual(self.client(words, "").returncode, 1)

    def test_another_command_line_is_refused(self):
        for words in ([], ["-m", "cops_client"], ["-m", "cops_client", "host", "1", "no token", "0"]):
            self.assertEqual(self.client(["-m", "cops_client", *words[2:]], "").returncode, 2)
        self.assertIn("history N", self.client(["-m", "cops_client", "--help"], "").stdout)

    def client(self, words: list[str], text: str) -> subprocess.CompletedProcess[str]:
        place = os.environ | {"PYTHONPATH": str(CLIENT), "PYTHONDONTWRITEBYTECODE": "1"}
        if words[0] != "-m":
            words = ["-m", *words]
        return subprocess.run([sys.executable, *words], input=text, capture_output=True, text=True, timeout=20, env=place)
