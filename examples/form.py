"""The form of an example: what its file says is handed to the program, and what the program then writes.

docs/EXAMPLES.md tells the form. A file that has another is refused, by file and line.
"""
import os
import re

HERE = os.path.dirname(os.path.realpath(__file__))
ENDING = ".txt"
# What else stands beside the examples.
OTHERS = {"form.py", "read", "replays", "run", "__pycache__"}
NAME = re.compile(r"[a-z][a-z0-9_]*\Z")
NUMBER = re.compile(r"[1-9][0-9]{0,6}\Z")
# An escape: itself, a byte, a run, nothing, no newline.
ESCAPE = re.compile(r"\\(?:(\\)|x([0-9a-f]{2})|\{([1-9][0-9]{0,6}) ([^\\{}]+)\}|(\.\Z)|(c\Z))")
SAYS = " > "


class Malformed(Exception):
    """Why a file is no example, and where."""


class Example:
    def __init__(self, name):
        self.name, self.words, self.status = name, ["run"], 0
        self.input, self.output, self.error = b"", b"", b""
        # What its first lines say of it; the file of proofs that states it; why none does.
        self.comments, self.proved_in, self.not_proved = [], None, None


class Reader:
    """Reads one file, line by line."""

    def __init__(self, name, path, raw):
        self.path, self.at, self.example = path, 0, Example(name)
        # What has ended without a newline; and whether something stood after the comments, and whether the end has begun.
        self.ended, self.has_begun, self.is_end, self.said = set(), False, False, set()
        if not NAME.match(name):
            self.refuse("its name has other bytes than a to z, 0 to 9 and _, or begins with another than a to z")
        if not raw:
            self.refuse("nothing is in it")
        for line in raw.split(b"\n")[:-1]:
            self.at += 1
            self.take(line)
        if not raw.endswith(b"\n"):
            self.at += 1
            self.refuse("the file ends without a newline")
        if not self.has_begun:
            self.refuse("it has comments alone")

    def refuse(self, why):
        raise Malformed(f"{self.path}:{self.at}: {why}")

    def take(self, raw):
        if any(not 0x20 <= it <= 0x7E for it in raw):
            self.refuse(r"a byte that is no text; it is written \xHH")
        line = raw.decode("ascii")
        if line[:1] in ("", " ") or line[-1] == " ":
            self.refuse(r"a line that is empty or has a space at an end; \. marks such an end, and \x20 such a beginning")
        kind = line[0] if line[0] in "#>=" else ""
        if kind and line[1:2] != " ":
            self.refuse(f"no space follows {kind}; a line of the input that begins so is written \\x{ord(kind):02x}")
        self.has_begun = self.has_begun or kind != "#"
        if kind == "#":
            if self.has_begun:
                self.refuse(r"a comment after the first lines; a line of the input that begins so is written \x23")
            self.example.comments.append(line[2:])
        elif kind == "=":
            self.is_end = True
            self.take_difference(line[2:])
        elif self.is_end:
            self.refuse("a line after the end has begun")
        elif kind == ">":
            self.add("output", line[2:])
        else:
            asked, says, told = line.partition(SAYS)
            self.add("input", asked)
            if says:
                self.add("output", told)

    def take_difference(self, text):
        key, _, rest = text.partition(" ")
        said = "proved" if key == "not" else key
        if said in self.said and key != "error":
            self.refuse(f"what is {said} is told twice")
        self.said.add(said)
        example = self.example
        if key == "command":
            example.words = rest.split(" ")
            if "" in example.words or example.words == ["run"]:
                self.refuse("these are no words, or the one that stands for want of others")
        elif key == "status" and NUMBER.match(rest) and int(rest) < 256:
            example.status = int(rest)
        elif key == "error" and rest:
            self.add("error", rest)
        elif key == "proved" and re.match(r"in Worked[A-Z][A-Za-z]*\Z", rest):
            example.proved_in = rest.split(" ")[1]
        elif key == "not" and rest.startswith("proved: "):
            example.not_proved = rest.removeprefix("proved: ")
        else:
            self.refuse(f"this is not among what may differ: {text}")

    def add(self, part, text):
        """Adds a line to the input, the output or the standard error."""
        if part in self.ended:
            self.refuse(f"a line of the {part} after one that has no newline")
        if text != text.strip(" ") or text == ">" or text.endswith(" >") or not text:
            self.refuse(r"a space at an end, or a > with nothing behind it; \. marks an end, and \x3e is a >")
        if part == "input" and text[0] in "#>=":
            self.refuse(f"a line of the input that begins so is written \\x{ord(text[0]):02x}")
        content, at, newline = b"", 0, b"\n"
        while at < len(text):
            if text[at] != "\\":
                content += text[at].encode("ascii")
                at += 1
                continue
            escape = ESCAPE.match(text, at)
            if not escape:
                self.refuse(f"no such escape: {text[at:at + 12]}")
            itself, byte, times, run, _, cut = escape.groups()
            content += (itself or "").encode() + bytes.fromhex(byte or "") + (run or "").encode() * int(times or 0)
            at = escape.end()
            if cut:
                newline = b""
                self.ended.add(part)
        setattr(self.example, part, getattr(self.example, part) + content + newline)


def read(name, folder=HERE):
    path = f"{folder}/{name}{ENDING}"
    with open(path, "rb") as file:
        return Reader(name, os.path.relpath(path), file.read()).example


def names(folder=HERE):
    """The names of all examples. What is none is refused, so that nothing is left out unseen."""
    found = []
    for it in sorted(set(os.listdir(folder)) - OTHERS):
        if not it.endswith(ENDING) or not os.path.isfile(f"{folder}/{it}"):
            raise Malformed(f"{os.path.relpath(folder)}/{it}: this is no file of an example")
        found.append(it.removesuffix(ENDING))
    return found


def all_of(folder=HERE):
    return [read(it, folder) for it in names(folder)]
