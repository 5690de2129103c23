"""A service whose operator admits and closes tenants by lines of standard input."""

from __future__ import annotations

import re

from operated import Operated, wait_until
from service import Tenant

#: What standard error says to a line of the host.
REPLY = re.compile(r"^- .*\n", re.M)


def admission(tenant: Tenant) -> str:
    """The line that admits a tenant."""
    return "+ " + tenant.line().removeprefix("tenant ")


class Hosted(Operated):
    """The program, with the replies to its host."""

    def faults(self) -> str:
        """What standard error has beside the lines that every service writes, and the replies to the host."""
        return REPLY.sub("", super().faults())

    def replies(self) -> list[str]:
        """The replies to the host so far."""
        return [it[2:-1] for it in REPLY.findall(self.said())]

    def told(self, lines: list[bytes]) -> list[str]:
        """Writes these lines at once, waits for as many replies, and gives them."""
        before = len(self.replies())
        self.write(b"".join(line + b"\n" for line in lines))
        wait_until(lambda: len(self.replies()) >= before + len(lines), "each line has its reply")
        return self.replies()[before:]

    def tell(self, line: str) -> str:
        """Writes a line, and gives its reply."""
        (reply,) = self.told([line.encode()])
        return reply

    def admit(self, tenant: Tenant) -> None:
        reply = self.tell(admission(tenant))
        assert reply == f"admitted {tenant.name}", reply

    def close(self, tenant: Tenant) -> None:
        reply = self.tell(f"- {tenant.name}")
        assert reply == f"closed {tenant.name}", reply
