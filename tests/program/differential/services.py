"""Talks with a service: connections one after another."""

from __future__ import annotations

import pathlib
import sys

sys.path.append(str(pathlib.Path(__file__).resolve().parents[1] / "service"))

from service import Service, talk  # noqa: E402


def converse(program: list[str], head: str, connections: list[list[bytes]]) -> tuple[list[bytes], bytes]:
    """What each connection is answered, and the audit at the end."""
    with Service(head, workers=2, connections=len(connections), program=program) as service:
        answers = [talk(service.stream(), pieces) for pieces in connections]
        return answers, service.audit().encode()
