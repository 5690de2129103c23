"""Runs of a service in which one request for memory is refused."""
import os
import pathlib
import socket
import subprocess
import sys
import tempfile
import time

HERE = pathlib.Path(__file__).resolve().parent
sys.path.insert(0, f"{HERE.parent}/clients/python")
sys.dont_write_bytecode = True
from cops_client.frames import Decoder, Refused  # noqa: E402

CONVERSATION = HERE.parent / "tests" / "program" / "service" / "conversations" / "a_client_puts_and_gets"
OUT_OF_MEMORY = 23
#: A run that takes longer has stopped, in seconds. A reply takes at most a second.
LONGEST, REPLY_TIME = 20.0, 5.0


def conversation():
    """The head, what the client sends, and what the server sends."""
    lines = CONVERSATION.read_text().splitlines()
    begin = lines.index("begin") + 1
    sent = {kind: b"".join(bytes.fromhex(it[2:]) for it in lines[begin:] if it[0] == kind and it[2:] != "end") for kind in "<>"}
    return "\n".join(lines[1:begin]) + "\n", sent[">"], sent["<"]


def free_port():
    with socket.socket() as probe:
        probe.bind(("127.0.0.1", 0))
        return probe.getsockname()[1]


def is_its_own_peer(stream):
    """Whether this connection found itself, as one may where nobody listens. One that has ended has no peer, and didn't."""
    try:
        return stream.getsockname() == stream.getpeername()
    except OSError:
        return False


def connect(port):
    """A connection to a service that listens."""
    stream = socket.create_connection(("127.0.0.1", port), REPLY_TIME)
    if is_its_own_peer(stream):
        stream.close()
        raise ConnectionRefusedError
    return stream


def read_until(stream, is_enough):
    """What is read until it is enough, or there is no more."""
    read = b""
    try:
        while not is_enough(read) and (piece := stream.recv(65_536)):
            read += piece
    except OSError:
        # (a service that has ended reads no more: what it answered until then counts)
        pass
    return read


def ask_the_last(stream, bytes_sent):
    """What is answered to the last bytes on a connection."""
    try:
        stream.sendall(bytes_sent)
        stream.shutdown(socket.SHUT_WR)
    except OSError:
        pass
    return read_until(stream, lambda read: False)


def talk(port, bytes_sent):
    """What is answered to these bytes."""
    with connect(port) as stream:
        return ask_the_last(stream, bytes_sent)


def messages(read):
    """The whole messages that were read."""
    return list(Decoder().feed(read))


class Guest:
    """A client that has sent its first message, and read the reply to it."""

    def __init__(self, port, bytes_sent):
        first = 4 + int.from_bytes(bytes_sent[:4], "big")
        self.stream, self.left = connect(port), bytes_sent[first:]
        try:
            self.stream.sendall(bytes_sent[:first])
        except OSError:
            pass
        self.read = read_until(self.stream, messages)

    def rest(self):
        """All that is answered, with what is answered to the other messages."""
        with self.stream:
            return self.read + ask_the_last(self.stream, self.left)


class Run:
    """A service in which the request for memory of this number is refused."""

    def __init__(self, program, library, number, words):
        self.port, self.until = free_port(), time.monotonic() + LONGEST
        self.errors = tempfile.TemporaryFile()
        environment = {**os.environ, "REFUSED_REQUEST": str(number), "LD_PRELOAD": library}
        command = [program, "serve", f"127.0.0.1:{self.port}", "--workers", "1", *words]
        self.process = subprocess.Popen(command, stdin=subprocess.PIPE, stdout=subprocess.PIPE, stderr=self.errors, env=environment)

    def is_running(self):
        return self.process.poll() is None and time.monotonic() < self.until

    def write(self, text):
        """Writes to its standard input, which it may have left."""
        try:
            self.process.stdin.write(text.encode())
            self.process.stdin.flush()
        except BrokenPipeError:
            pass

    def close_input(self):
        try:
            self.process.stdin.close()
        except BrokenPipeError:
            pass
        self.process.stdin = None

    def said(self):
        """All of standard error so far."""
        return os.pread(self.errors.fileno(), os.fstat(self.errors.fileno()).st_size, 0).decode(errors="replace")

    def wait_for(self, holds):
        """Waits until something holds, or it has ended."""
        while self.is_running() and not holds():
            time.sleep(0.002)

    def rest(self):
        """Waits for its end, for as long as a reply may take."""
        try:
            self.process.wait(REPLY_TIME)
        except subprocess.TimeoutExpired:
            pass

    def ask(self, bytes_sent, of=talk):
        """What is answered to these bytes, or what another call makes of them, once it listens. None if it ends before."""
        while self.is_running():
            try:
                return of(self.port, bytes_sent)
            except (ConnectionRefusedError, ConnectionResetError):
                time.sleep(0.005)
        return None

    def end(self):
        """Waits for its end: its status, and what it wrote."""
        self.wait_for(lambda: False)
        if self.process.poll() is None:
            self.process.kill()
        if self.process.stdin is not None:
            self.close_input()
        written, _ = self.process.communicate()
        return self.process.returncode, written


def lacks_in(told):
    """How many of these messages say that memory was refused."""
    return sum(isinstance(it, Refused) and it.number == OUT_OF_MEMORY for it in told)


def is_as_wanted(told, wanted):
    """Whether these messages are those that are wanted, as far as they go and up to the first that says that memory was refused."""
    at = next((place for place, it in enumerate(told) if isinstance(it, Refused) and it.number == OUT_OF_MEMORY), len(told))
    return told[:at] == wanted[:at]


def replays(program, audit, name):
    """Whether what the service did for a tenant is what its audit says."""
    replayed = subprocess.run([program, "replay", name], input=audit, capture_output=True)
    return replayed.returncode == 0 and replayed.stdout.startswith(b"same ")


def has_said_why(said):
    """Whether a service that ended with status 1 said that memory was refused. (A thread that has no memory can't start, and the fault
    for that is another one.)"""
    return "cops: E23" in said.splitlines() or said.endswith("cops: cannot start a thread\ncops: E26\n")


def was_refused(said):
    return "refused" in said.splitlines()
