"""Finds the public calls that may be refused memory, by the words of the sources.

A call is a public function, a public method of a type that its crate gives out, or a method of a public trait. It may be
refused memory if its result names an error of memory: `AllocError`, `AllocFailed`, or a type that some
`impl From<AllocError> for ..` makes one of. (Conversions of errors ask for nothing, and are left out.)
"""
import os
import re

# Crates of tests and measurements, and the program.
SKIPPED = {"store_tests", "counting_gate", "cops_cli"}


def converted_types(code):
    """The types that conversions of an `AllocError` make."""
    for at, word in enumerate(code.words):
        if word == "for" and " ".join(code.words[at - 4 : at]) == "From < AllocError >":
            yield code.word(at + 1)


def end_of_item(code, at):
    """Where the body of a function begins, or the end of its declaration."""
    while code.word(at) not in ("{", ";"):
        at = code.close[at] + 1 if code.word(at) in ("(", "[") else at + 1
    return at


def owner(code, at):
    """The type of the `impl`, or the trait, that a function stands in; nothing for a free function; and whether it is a trait's."""
    if not code.round[at]:
        return None, False
    head = code.head(code.round[at][0])
    if "trait" in head:
        return head[head.index("trait") + 1], True
    if "impl" not in head:
        return None, False
    names = head[head.index("for") + 1 :] if "for" in head else behind_parameters(head[head.index("impl") + 1 :])
    names = [it for it in names if re.match(r"[A-Z]", it)]
    return (names[0] if names else None), "for" in head


def behind_parameters(words):
    """The words behind the parameters of an `impl`."""
    depth = 0
    for place, word in enumerate(words):
        depth += {"<": 1, ">": -1}.get(word, 0)
        if depth == 0:
            return words[place + (word == ">") :]
    return words


def exported(code):
    """The names that a crate's root gives out, and its public modules."""
    names = set()
    for at, word in enumerate(code.words):
        if word == "pub" and code.word(at + 1) in ("use", "mod"):
            names |= {it for it in code.words[at + 2 : end_of_use(code, at)] if re.match(r"\w", it)}
    return names


def end_of_use(code, at):
    """Where a `use` ends."""
    while code.word(at) != ";":
        at += 1
    return at


def calls(code, errors):
    """The public functions of a file whose result names one of these errors: their owners and names."""
    for at, word in enumerate(code.words):
        if word != "fn" or len(code.round[at]) > 1:
            continue
        of, is_trait = owner(code, at)
        head = code.head(at)
        if "pub" not in head and not is_trait or "pub" in head and code.word(at - 1) == ")":
            continue
        told = code.words[at : end_of_item(code, at)]
        told = told[told.index("->") :] if "->" in told else []
        if errors & set(told) and code.word(at + 1) != "from":
            yield of, code.word(at + 1)


def public_calls(codes, errors):
    """The calls of a crate, by the code of its files, whose result names one of these errors or what they become."""
    root = next(code for path, code in codes.items() if path.endswith("/lib.rt"))
    names = exported(root)
    for path, code in codes.items():
        is_open = os.path.basename(path)[: -len(".rt")] in names
        for of, name in calls(code, errors):
            if (of or name) in names or is_open:
                yield f"{of}::{name}" if of else name
