"""A server that knows what it will be asked and what to answer."""

from __future__ import annotations

import socket
import threading

from cops_client.client import Connection


def frames(text: str) -> bytes:
    return bytes.fromhex(text)


class Scripted:
    """Takes each request of a list, which has to come in these bytes, and writes its answer. Then nothing more may come,
    or it ends, if it is to."""

    def __init__(self, *turns: tuple[str, str], ends: bool = False) -> None:
        self._turns = [(frames(request), frames(answer)) for request, answer in turns]
        self._ends = ends
        self._mine, self._its = socket.socketpair()
        self._mine.settimeout(5)
        self._its.settimeout(5)
        self._thread = threading.Thread(target=self._serve, daemon=True)
        self.unasked: list[bytes] = []
        self.left = b""

    def __enter__(self) -> Connection:
        self._thread.start()
        return Connection(self._its)

    def __exit__(self, *error: object) -> None:
        self._its.close()
        self._thread.join(5)
        self._mine.close()
        if error[0] is None and (self.unasked or self.left):
            raise AssertionError(f"not asked: {self.unasked}; asked beside: {self.left!r}")

    def _serve(self) -> None:
        for place, (request, answer) in enumerate(self._turns):
            got = b""
            while len(got) < len(request):
                piece = self._mine.recv(len(request) - len(got))
                if not piece:
                    break
                got += piece
            if got != request:
                self.unasked = [turn[0] for turn in self._turns[place:]]
                self.left = got
                self._mine.close()
                return
            self._mine.sendall(answer)
        if self._ends:
            self._mine.shutdown(socket.SHUT_WR)
        while piece := self._mine.recv(4096):
            # After the end a client may have sent a request already.
            self.left += b"" if self._ends else piece
