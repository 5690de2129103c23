"""Clients and tenants that hold back what they can, beside those of tests/program/service.

Nobody else's replies change, nothing is kept after a client has gone, and other workers go on.
"""

import pathlib
import resource
import socket
import subprocess
import time
import unittest
from collections.abc import Iterator
from itertools import chain

import collisions
import pair
from audits import check_replays
from cops_client.frames import CreateContext, GetTrans, Handle, Hello, Message, Put
from model import Alone, replies
from service import REPLY_TIME, Service, Tenant, frames, head, messages, read_some, read_to_end, talk

ACME, BETA = Tenant("acme", 1), Tenant("beta", 2)
FIRST = Handle(1)
HELLO = frames([Hello(ACME.token, 0)])
CONVERSATION = frames([Hello(BETA.token, 0), CreateContext(), Put(FIRST, b"x", b"10"), GetTrans(FIRST, (b"x",))])
READY = bytes.fromhex("0000000181")


def large_replies() -> tuple[list[Message], bytes]:
    """What has a request of 79 bytes be answered by 800,000 and more: 32 values of 4,096 bytes, each with 300 dependencies."""
    keys = tuple(b"%c" % (97 + place) if place < 26 else b"%d" % (place - 26) for place in range(32))
    puts: list[Message] = [Put(FIRST, f"{number:064}".encode(), b"") for number in range(300)]
    puts += [Put(FIRST, key, bytes(4_096)) for key in keys]
    return puts, frames([GetTrans(Handle(2), keys)])


def time_of_run(text: bytes) -> tuple[float, bytes]:
    """Processor time of the program over a script, in seconds, and what it wrote."""
    before = resource.getrusage(resource.RUSAGE_CHILDREN)
    outcome = pair.program(["run"], text)
    after = resource.getrusage(resource.RUSAGE_CHILDREN)
    return after.ru_utime - before.ru_utime + after.ru_stime - before.ru_stime, outcome.output


def memory_of_run(lines: Iterator[bytes]) -> int:
    """The most that was resident while the program answered a script, in kilobytes, told before it comes to the end."""
    pair.hold()
    with subprocess.Popen([*pair.PROGRAM, "run"], stdin=subprocess.PIPE, stdout=subprocess.DEVNULL) as started:
        assert started.stdin is not None
        started.stdin.writelines(lines)
        started.stdin.flush()
        # (what is left in the pipe is fewer lines than a hundred)
        status = pathlib.Path(f"/proc/{started.pid}/status").read_text(encoding="ascii")
        started.stdin.close()
        if started.wait(20) != 0:
            raise AssertionError("the script isn't answered")
    return int(status.split("VmHWM:")[1].split()[0])


class Denial(unittest.TestCase):
    def setUp(self) -> None:
        self.beta = {BETA.token: Alone(BETA, 1)}

    def converse(self, service: Service, times: int = 1) -> None:
        """Connections of beta's, one after another, each answered as if nobody else were there."""
        for _ in range(times):
            pair.hold()
            answered = messages(talk(service.stream(), [CONVERSATION]))
            self.assertEqual(answered, replies(CONVERSATION, self.beta))

    def test_those_who_say_nothing_hold_their_workers_and_no_memory(self):
        """Three of four workers are held; so many more say nothing in the queue, and are served when they end."""
        silent, waiting = 3, 60
        with Service(head([ACME, BETA]), workers=4, connections=silent + waiting + 21) as service:
            self.converse(service)
            before = service.memory()
            held = [service.stream() for _ in range(silent)]
            self.converse(service, 10)
            more = [service.stream() for _ in range(waiting)]
            time.sleep(0.1)
            self.assertLess(service.memory() - before, 1_000_000)
            # With one more worker held nobody else is served, until one of them goes.
            for stream in more:
                stream.close()
            self.converse(service, 10)
            for stream in held:
                stream.close()
            self.assertLess(service.memory() - before, 1_000_000)
            check_replays(self, service.audit(), [ACME, BETA])

    def test_a_worker_comes_free_when_a_silent_client_goes(self):
        with Service(head([ACME, BETA]), workers=2, connections=4) as service:
            held = [service.stream() for _ in range(2)]
            for stream in held:
                stream.sendall(HELLO)
                self.assertEqual(read_some(stream, 5), READY)
            waits = service.stream()
            waits.sendall(CONVERSATION)
            waits.settimeout(0.2)
            with self.assertRaises(TimeoutError):
                waits.recv(1)
            held[0].close()
            waits.settimeout(REPLY_TIME)
            waits.shutdown(socket.SHUT_WR)
            with waits:
                self.assertEqual(messages(read_to_end(waits)), replies(CONVERSATION, self.beta))
            self.converse(service)
            held[1].close()
            check_replays(self, service.audit(), [ACME, BETA])

    def test_large_replies_that_nobody_reads_take_the_memory_of_one(self):
        """Up to 51 of these requests come in one read."""
        puts, get = large_replies()
        with Service(head([ACME, BETA]), workers=2, connections=22) as service:
            stream = service.stream()
            stream.sendall(HELLO + frames([CreateContext(), CreateContext()]) + frames(puts))
            told = 5 + 2 * 14 + sum(4 + 1 + 1 + len(put.key) + 8 for put in puts)
            self.assertEqual(len(read_some(stream, told)), told)
            self.converse(service)
            before = service.memory()
            stream.settimeout(0.3)
            count = 0
            with self.assertRaises(TimeoutError):
                while count < 1 << 30:
                    count += stream.send(get * 100)
            most = service.memory() - before
            self.converse(service, 10)
            stream.close()
            self.converse(service, 10)
            left = service.memory() - before
            print(f"large replies that nobody reads: {most:,} bytes more, {left:,} when the client has gone")
            self.assertLess(most, 12_000_000)
            self.assertLess(left, 12_000_000)
            check_replays(self, service.audit(), [ACME, BETA])

    def test_connections_one_after_another_leave_nothing(self):
        count = 1_000
        with Service(head([ACME, BETA]), workers=2, connections=2 * count + 10) as service:
            sizes, began = [], time.monotonic()
            for _ in range(2):
                for number in range(count):
                    pair.hold()
                    with service.stream() as stream:
                        if number % 2 == 0:
                            stream.sendall(HELLO)
                            self.assertEqual(read_some(stream, 5), READY)
                sizes.append(service.memory())
            print(f"{2 * count} connections: {time.monotonic() - began:.2f} s, {sizes[1] - sizes[0]:,} bytes for the second half")
            self.converse(service, 10)
            self.assertLess(sizes[1] - sizes[0], 500_000, sizes)
            check_replays(self, service.audit(), [ACME, BETA])

    def test_names_chosen_to_collide_take_no_longer_than_others(self):
        """A tenant's table of actors is hashed with seeds that rest on the tokens; without them this takes many times as long."""
        count, lines, taken = 30_000, 30_000, []
        told = b"acme opened\n" * count + b"beta opened\n" * 100 + b"beta E06\n" * lines
        for names in (collisions.other_names(count), collisions.colliding_names(count, 13)):
            text = collisions.script(ACME, names, BETA, lines)
            times = []
            for _ in range(3):
                used, written = time_of_run(text)
                self.assertEqual(written, told)
                times.append(used)
            taken.append(min(times))
        print(f"{count} other names: {taken[0]:.3f} s, colliding names: {taken[1]:.3f} s")
        self.assertLess(taken[1], 3 * taken[0] + 0.05)

    def test_tenants_who_come_and_go_leave_nothing(self):
        """Twenty thousand lives, each with a value of 1,000 bytes, take what a thousand take."""
        acts = ["open a 0", "ctx a", "put a 1 x " + "v" * 1_000, "done a 0", "open b 1"]
        life = "".join([*(f"guest {act}\n" for act in acts), "- guest\n"])
        sizes = []
        for count in (1_000, 20_000):
            lives = (f"+ guest {number:032x} 0 100 10000 10 4 20 8 1000\n{life}".encode() for number in range(count))
            sizes.append(memory_of_run(chain([b"cluster 2 2 5000 1\nbegin\n"], lives)))
        print(f"1,000 lives: {sizes[0]:,} kB, 20,000: {sizes[1]:,} kB")
        self.assertLess(sizes[1], sizes[0] + 4_000)
