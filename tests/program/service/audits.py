"""What a service writes at its end."""

from __future__ import annotations

import subprocess
import unittest

import service
from service import Tenant

#: The command that replays audits, if it isn't the program under test.
REPLAY: list[str] = []


def records(audit: str, tenant: Tenant) -> list[str]:
    """A tenant's records, without the moments."""
    lines = audit.splitlines()
    own = [line.split(" ", 3) for line in lines[lines.index("begin") + 1 :] if line.startswith(tenant.name + " ")]
    return [f"{node} {rest}" for _, node, _, rest in own]


def replay(audit: str, name: str) -> subprocess.CompletedProcess[str]:
    command = [*(REPLAY or service.PROGRAM), "replay", name]
    return subprocess.run(command, input=audit, capture_output=True, text=True, timeout=service.SERVICE_TIME)


def check_replays(test: unittest.TestCase, audit: str, tenants: list[Tenant]) -> None:
    """Each tenant's records are replayed alike, all of them; and a changed one isn't."""
    for tenant in tenants:
        count = len(records(audit, tenant))
        replayed = replay(audit, tenant.name)
        test.assertEqual((replayed.returncode, replayed.stdout, replayed.stderr), (0, f"same {count}\n", ""))
    lines = audit.splitlines()
    stored = next((place for place, line in enumerate(lines) if " = stored " in line), None)
    if stored is not None:
        name = lines[stored].split(" ")[0]
        before = sum(line.startswith(name + " ") for line in lines[lines.index("begin") + 1 : stored])
        lines[stored] = lines[stored].rsplit(" ", 1)[0] + " 77.0"
        replayed = replay("\n".join(lines) + "\n", name)
        test.assertEqual((replayed.returncode, replayed.stdout), (0, f"differs {before + 1}\n"))
