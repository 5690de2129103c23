"""Scripts of tenants, and what a program answers them. The form of scripts is in docs/SCRIPTS.md."""

import pathlib
import subprocess

HERE = pathlib.Path(__file__).resolve().parent


class Script:
    """A head and the lines after it."""

    def __init__(self, cluster, tenants, lines):
        self.cluster = cluster
        self.tenants = list(tenants)
        self.lines = list(lines)

    @classmethod
    def read(cls, name):
        """The script in a file: a path, or a name in this folder."""
        path = pathlib.Path(name)
        lines = (path if path.is_file() else HERE / name).read_text().splitlines()
        begin = lines.index("begin")
        return cls(lines[0], lines[1:begin], lines[begin + 1 :])

    def text(self):
        return "".join(line + "\n" for line in [self.cluster, *self.tenants, "begin", *self.lines])

    def tenant(self, name):
        """The head line of a tenant."""
        return next(line for line in self.tenants if line.split(" ")[1] == name)

    def lines_of(self, name):
        """The lines of a tenant, in order."""
        return [line for line in self.lines if line.split(" ")[0] == name]

    def with_lines(self, lines):
        """The same head with other lines."""
        return Script(self.cluster, self.tenants, lines)

    def with_tenants(self, tenants):
        """The same lines with other tenants."""
        return Script(self.cluster, tenants, self.lines)


def answers(program, words, script):
    """The lines that the program writes for the script. `program` and `words` are lists of words."""
    done = subprocess.run(program + words, input=script.text().encode(), capture_output=True, check=False)
    if done.returncode != 0 or done.stderr:
        raise RuntimeError(f"{' '.join(words)} ended with {done.returncode}: {done.stderr.decode()}")
    return done.stdout.decode().splitlines()


def replies_to(name, replies):
    """The replies to one tenant."""
    return [reply for reply in replies if reply.split(" ")[0] == name]
