"""What a page shows, and whether the claims of a demonstration hold."""

from scripts import HERE

PAGE = HERE.parent / "docs" / "DEMO.md"
FENCE = "```"


def blocks_of(text):
    """The fenced blocks of a page, without their fences."""
    blocks, block = [], None
    for line in text.splitlines():
        if not line.startswith(FENCE):
            if block is not None:
                block.append(line)
        elif block is None:
            block = []
        else:
            blocks.append("\n".join(block) + "\n")
            block = None
    return blocks


def count(sections, claims=()):
    """Says what of sections and of further claims does not hold, and how much does. The status."""
    passed, failed = 0, 0
    blocks = blocks_of(PAGE.read_text())
    for section in sections:
        claims = [*claims, *section.claims, (f"docs/DEMO.md shows '{section.lines[0]}'.", section.text in blocks)]
    for sentence, holds in claims:
        if holds:
            passed += 1
        else:
            failed += 1
            print(f"not so: {sentence}")
    print(f"{passed} passed, {failed} failed")
    return 1 if failed else 0
