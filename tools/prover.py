"""What ./test and more_edits/run share: crates that are proved once, and checks over what those proofs left.

All work is done on copies in a folder of its own. A crate is proved there once. Its tests and its edits are then
checked over what that check kept, so a check costs little more than what is new in it. Each such check has a tree of
its own, with the crate and those below it, so that several go on side by side: `rt` lets one at a time into a tree.
"""
import os
import re
import shutil
import signal
import subprocess
import sys
import tempfile
import threading
from collections import namedtuple
from contextlib import contextmanager
from concurrent.futures import FIRST_COMPLETED, ThreadPoolExecutor, wait

ROOT = os.path.dirname(os.path.dirname(os.path.realpath(__file__)))
SOURCES = ("src", "specs", "proofs")
# The words that the last line of a proof may have: any other says what the proof leaves out.
PROVED = re.compile(r"logic=proved(?: (\w[\w-]*=\S+))+")
PLAIN_WORDS = set("functions tests sum native logic-built libraries-built statements incremental target cpu threads axioms main may-wait".split())
PRINTING = threading.Lock()
# How many processors the work of this thread may use.
LANE = threading.local()


def say(text):
    with PRINTING:
        print(text, flush=True)


class Crate:
    """A line of crates.txt."""

    def __init__(self, line, above):
        head, _, libraries = line.partition(":")
        self.line, (self.name, *counts) = line, head.split()
        self.counts = dict(it.split("=") for it in counts)
        self.folder = f"{ROOT}/crates/{self.name}"
        own = [above[it] for it in libraries.split() if it in above]
        self.below = list(dict.fromkeys(it for dep in own for it in (*dep.below, dep)))
        self.is_program = os.path.isfile(f"{self.folder}/src/main.rt")
        self.is_used = False
        for it in self.below:
            it.is_used = True

    def code(self):
        """Its functions and their contracts: how long they are tells roughly how long the proof takes. Lemmas take little."""
        files = [f"{at}/{it}" for at, _, its in os.walk(f"{self.folder}/src") for it in its]
        return "".join(open(it, encoding="utf-8").read() for it in files if it.endswith(".rt"))

    def has_tests(self):
        return "#[test]" in self.code()


def crates_of_the_repository():
    """The crates by name, each after those that it stands on."""
    with open(f"{ROOT}/crates.txt", encoding="utf-8") as file:
        lines = [it.strip() for it in file if it.strip() and not it.startswith("#")]
    crates = {}
    while lines:
        names = {it.partition(":")[0].split()[0] for it in lines}
        ready = [it for it in lines if not names & {*it.partition(":")[2].split()}]
        if not ready:
            sys.exit("crates.txt: some crates stand on each other")
        for line in ready:
            crate = Crate(line, crates)
            crates[crate.name] = crate
        lines = [it for it in lines if it not in ready]
    return crates


class Outcome:
    """How a command ended, what it said, and the seconds that processors worked for it."""

    def __init__(self, status, text, seconds):
        self.status, self.text, self.seconds = status, text, seconds

    def last_line(self, *starts):
        return next((it for it in reversed(self.text.splitlines()) if it.startswith(starts)), "")


def call(words, folder, given=subprocess.DEVNULL, errors=subprocess.STDOUT, seconds=None):
    """Runs a command to its end; with a number of seconds, it and all that it started are killed once these have passed."""
    started = subprocess.Popen(words, cwd=folder, stdin=given, stdout=subprocess.PIPE, stderr=errors, start_new_session=seconds is not None)
    ending = threading.Timer(seconds or 0, os.killpg, (started.pid, signal.SIGKILL))
    if seconds is not None:
        ending.start()
    text = started.stdout.read().decode(errors="replace")
    ending.cancel()
    _, status, used = os.wait4(started.pid, 0)
    started.returncode = os.waitstatus_to_exitcode(status)
    return Outcome(started.returncode, text, used.ru_utime + used.ru_stime)


def rt(folder, *words, **how):
    return call(["rt", *words], folder, **how)


def copy(path, to):
    os.makedirs(to, exist_ok=True)
    subprocess.run(["cp", "-a", path, to], check=True)


def link(path, to):
    """The same folder with links to its files, for what is never written to: rt and the prover put new files in the place of old ones."""
    os.makedirs(to, exist_ok=True)
    if subprocess.run(["cp", "-al", path, to], stderr=subprocess.DEVNULL).returncode:
        shutil.rmtree(f"{to}/{os.path.basename(path)}", ignore_errors=True)
        copy(path, to)


class Room:
    """The folder for all copies. What is proved stands in `proved`, a folder for each crate with its `out`."""

    def __init__(self):
        # (so that the folder goes if the run gets a signal to stop)
        signal.signal(signal.SIGTERM, lambda number, _: sys.exit(128 + number))
        self.held = tempfile.TemporaryDirectory(prefix="cops-")
        self.folder = self.held.name
        os.mkdir(f"{self.folder}/proved")

    def tree(self, crate):
        """A tree of the crates below this one, which nothing writes to, so that their files are links. The crate is not in it."""
        tree = tempfile.mkdtemp(prefix=f"{crate.name}-", dir=self.folder)
        os.mkdir(f"{tree}/crates")
        with open(f"{tree}/crates.txt", "w", encoding="utf-8") as file:
            file.write("".join(f"{it.line}\n" for it in (*crate.below, crate)))
        shutil.copy(f"{ROOT}/HANDLES", tree)
        for dep in crate.below:
            for part in SOURCES:
                if os.path.isdir(f"{self.proved(dep)}/{part}"):
                    link(f"{self.proved(dep)}/{part}", f"{tree}/crates/{dep.name}")
            link(f"{self.proved(dep)}/out/rlib", f"{tree}/crates/{dep.name}/out")
        return tree

    def proved(self, crate):
        return f"{self.folder}/proved/{crate.name}"

    def copy_of(self, crate):
        """The folder of a copy of a proved crate with what its proof kept, in a tree of its own."""
        folder = f"{self.tree(crate)}/crates/{crate.name}"
        for part in os.listdir(self.proved(crate)):
            (link if part == "out" else copy)(f"{self.proved(crate)}/{part}", folder)
        return folder

    def drop(self, folder):
        shutil.rmtree(os.path.dirname(os.path.dirname(folder)))

    def build(self, crate):
        """Takes over what the repository built of a crate that others stand on, or proves and builds it. Returns what is wrong, if anything."""
        tree = self.tree(crate)
        folder = f"{tree}/crates/{crate.name}"
        for part in SOURCES:
            if os.path.isdir(f"{crate.folder}/{part}"):
                copy(f"{crate.folder}/{part}", folder)
        for part in ("incremental", "rlib"):
            if os.path.isdir(f"{crate.folder}/out/{part}"):
                link(f"{crate.folder}/out/{part}", f"{folder}/out")
        outcome = rt(folder, "lib", "--jobs", str(getattr(LANE, "width", 1)))
        if outcome.status:
            return f"rt lib ended with status {outcome.status}\n{outcome.text[-6000:]}"
        os.rename(folder, self.proved(crate))
        shutil.rmtree(tree)
        return ""

    def prove(self, crate, is_verdict):
        """Proves a crate, over what the repository kept or from nothing; a verdict holds it to more. Returns the seconds and what is wrong, if anything."""
        tree = self.tree(crate)
        folder = f"{tree}/crates/{crate.name}"
        for part in SOURCES:
            if os.path.isdir(f"{crate.folder}/{part}"):
                copy(f"{crate.folder}/{part}", folder)
        kept = [] if is_verdict else ["incremental", "rlib"]
        for part in kept:
            if os.path.isdir(f"{crate.folder}/out/{part}"):
                link(f"{crate.folder}/out/{part}", f"{folder}/out")
        calls = []
        if is_verdict:
            calls.append(("rt fmt", rt(folder, "fmt"), changed_layout))
        checks = ["--empty-contracts"] if is_verdict else []
        calls.append(("rt check", rt(folder, "check", "--jobs", str(getattr(LANE, "width", 1)), *checks), lambda it: refusal(it, crate, is_verdict)))
        if crate.is_used and not calls[-1][1].status:
            calls.append(("rt lib", rt(folder, "lib", "--jobs", "1"), lambda it: ""))
        seconds = sum(it.seconds for _, it, _ in calls)
        for name, outcome, judge in calls:
            why = judge(outcome) or (outcome.status and f"{name} ended with status {outcome.status}")
            if why:
                return seconds, f"{why}\n{outcome.text[-6000:]}"
        os.rename(folder, self.proved(crate))
        shutil.rmtree(tree)
        return seconds, ""


def changed_layout(outcome):
    return "rt fmt lays it out otherwise" if "rt: formatted" in outcome.text else ""


def refusal(outcome, crate, is_verdict):
    """What a verdict refuses of a crate that is proved."""
    line = outcome.last_line("logic=")
    if outcome.status or not line.startswith("logic=proved "):
        return "NOT PROVED"
    if not is_verdict:
        return ""
    said = dict(it.split("=", 1) for it in line.split()[1:])
    if "rt verdict refuses this" in outcome.text:
        return "rt verdict refuses its text"
    if re.search(r"^warning: no call of `(?![^`]*::fn::)|^note: the search for empty contracts did not end", outcome.text, re.M):
        return "no call can meet one of its contracts"
    if re.search(r"^warning: calls of a tactic that chose a term|warning: this pattern binds a variable spelled like a constructor", outcome.text, re.M):
        return "a contract means something else than it seems to"
    if {*said} - PLAIN_WORDS:
        return f"its proof leaves out what this says: {' '.join(sorted({*said} - PLAIN_WORDS))}"
    if said.get("may-wait", "0") != crate.counts.get("may_wait", "0"):
        return f"{said.get('may-wait', '0')} of its functions may wait, and crates.txt has another number"
    return ""


# --- edits ---


# A wrong body: its crate, its name, and the pairs of a word and a text that make it, of which the first names a file.
Edit = namedtuple("Edit", "crate name pairs")


def edits_in(folder):
    """The edits of a folder, by name. NAME.edit has one; SOURCE.edits, at any depth, has those of src/SOURCE.rt."""
    crate = os.path.basename(os.path.dirname(f"{folder}/").replace("/must-fail", ""))
    paths = sorted(f"{at}/{it}" for at, _, its in os.walk(folder) for it in its)
    edits = [Edit(crate, os.path.basename(it)[: -len(".edit")], pairs_of(read(it))) for it in paths if it.endswith(".edit")]
    for path in (it for it in paths if it.endswith(".edits")):
        source = f"src/{os.path.relpath(path, folder)[: -len('.edits')]}.rt"
        for block in re.split(r"\n(?:[ \t]*\n)+", read(path).strip("\n")):
            name, _, rest = block.partition("\n")
            edits.append(Edit(crate, name, (("file", source), *pairs_of(rest))))
    return sorted(edits)


def pairs_of(text):
    pairs = (line.partition(":") for line in text.splitlines())
    return tuple((word, rest.removeprefix(" ")) for word, _, rest in pairs)


def name_of(edit):
    return f"{edit.crate}/{edit.name}"


def edited(edit, folder):
    """The texts of the files that an edit changes, by their path in the crate.

    Each 'old:' stands once in what the pairs before it made, or it is the first one behind an 'after:', which stands once.
    """
    path, after, old, texts = "", "", None, {}
    for word, rest in edit.pairs:
        if word == "file":
            path = rest.strip()
        elif word == "after":
            after = rest
        elif word == "old":
            old = rest
        elif word == "new":
            if path not in texts:
                texts[path] = read(f"{folder}/{path}")
            texts[path] = exchanged(texts[path], path, after, old or "", rest)
            after, old = "", None
    if not texts:
        raise ValueError("it has no 'old:' and 'new:'")
    return texts


def exchanged(text, path, after, old, new):
    """The text with one place changed."""
    unique = after or old
    if not unique or text.count(unique) != 1:
        raise ValueError(f"the text '{unique}' stands in {path} {text.count(unique) if unique else 0} times, and not once")
    begin = text.index(unique)
    at = text.find(old, begin + len(after)) if old else -1
    if at < 0:
        raise ValueError(f"the text '{old}' doesn't stand in {path} behind '{after}'")
    return text[:at] + new + text[at + len(old):]


def module_of(path):
    """The module that a file of src/ holds, or nothing for a crate's root."""
    inside = re.fullmatch(r"src/(.*?)(/mod)?\.rt", path)
    return inside[1].replace("/", "::") if inside and inside[1] not in ("lib", "main") else ""


def only_modules(texts):
    """The words that keep a check to the functions of the edited modules, or none if a crate's root is edited."""
    modules = [module_of(it) for it in texts]
    return [it for module in modules for it in ("--only", module)] if all(modules) else []


# The last line of a check of some functions alone.
COUNTS = re.compile(r"only=(\d+) proved=(\d+)$")
# What the prover says if a proof file names a step, a goal or a field that the edit took away, and of what cites that proof.
IS_GONE = re.compile(r"(\./)?proofs/.*(has no field|is not in scope|has no `|was not admitted|was rejected, was not checked|were not checked)")


def judge(outcome, texts):
    """Whether the prover refused an edited crate for what it means, and the line that shows it, or why this doesn't count."""
    last = outcome.last_line("logic=", "only=")
    counts = COUNTS.match(last)
    if outcome.status == 0 or counts and counts[1] == counts[2]:
        return False, "NOT REFUSED: it is still proved"
    bad = unfit(outcome, texts)
    if bad:
        return False, f"BAD EDIT: {bad}"
    shown, gone = evidence(told_in(outcome))
    if shown:
        return True, f"refused: {shown[0][:300]}"
    if gone:
        return False, f"ONLY A NAME IS GONE, so the contract was not tried: keep the names that proof files cite, and turn a value: {gone[0][:300]}"
    without_proof = re.search(r"^fn \S+: no.*", outcome.text, re.M)
    return False, f"NO GOAL IS LEFT OPEN, so the contract was not tried: {without_proof[0][:300] if without_proof else last}"


def unfit(outcome, texts):
    """Why what the prover said of edited texts is no verdict on their meaning, or nothing."""
    lines, last = outcome.text.splitlines(), outcome.last_line("logic=", "only=")
    if outcome.status != 1 or not (COUNTS.match(last) or last == "logic=not-proved"):
        return f"it did not reach the prover: {next((it for it in lines if 'error' in it), lines[-1] if lines else '')[:300]}"
    unread = next((it for it in lines if is_unread(it, texts)), "")
    if unread:
        return f"the prover can't read it: {unread[:300]}"
    if re.search(r"module .Rattle-\w+-.*Run the lower steps again", outcome.text):
        return "the proof of a crate below could not be used"
    return ""


def told_in(outcome):
    """The errors and notes that have a place. A long message goes on in lines that begin with two spaces."""
    lines = outcome.text.splitlines()
    return [line + more[1:] * more.startswith("  ") for line, more in zip(lines, [*lines[1:], ""]) if re.match(r"(note: )?\S+:\d+:\d+:", line)]


def evidence(told):
    """Of the prover's lines, those that show that a meaning is refused, and those that only show that a name is gone."""
    errors = [it for it in told if ": error" in it]
    gone = [it for it in errors if IS_GONE.match(it)]
    # (a goal that is left open beside a name that is gone may be open for that alone)
    return [it for it in errors if it not in gone] or ([] if gone else [it for it in told if it.startswith("note: ")]), gone


def is_unread(line, texts):
    """Whether an error is that a text of src/, specs/ or an edited file can't be read; a wrong meaning reads well."""
    at = re.match(r"(?:\./)?(\S+?):\d+:\d+: error: (?:(`[^`]*`): )?(.*)", line)
    if not at or at[1] not in texts and not at[1].startswith(("src/", "specs/")):
        return False
    # (what depends on a refused declaration is read, and named once more)
    if re.search(r"declarations? that depends? on .*, which was rejected, w(as|ere) not checked", at[3]):
        return False
    return not at[2] or bool(re.search(r"is not in scope|has no field|is no name|operand is missing|expected the end|cannot continue", re.sub(r"`[^`]*`", "", at[3])))


def try_edit(edit, folder):
    """Tries an edit in the folder of a proved copy, which it leaves as it was. Returns whether it was refused, what to say, and the seconds."""
    try:
        texts = edited(edit, folder)
    except (OSError, ValueError) as error:
        return False, f"{name_of(edit)}: BAD EDIT: {error}", 0.0
    with written(texts, folder):
        # The functions of the edited modules first: if one of them is refused, so is the crate. Only then all.
        only = only_modules(texts)
        outcome = rt(folder, "check", "--jobs", "1", *only)
        seconds = outcome.seconds
        is_refused, why = judge(outcome, texts)
        if only and not is_refused:
            outcome = rt(folder, "check", "--jobs", "1")
            seconds += outcome.seconds
            is_refused, why = judge(outcome, texts)
    return is_refused, f"{name_of(edit)}: {why} ({seconds:.0f} s)", seconds


def read(path):
    with open(path, encoding="utf-8") as file:
        return file.read()


@contextmanager
def written(texts, folder):
    """Has these texts in the files of a folder, and those from before when it ends."""
    before = {path: read(f"{folder}/{path}") for path in texts}
    try:
        for path, text in texts.items():
            write(f"{folder}/{path}", text)
        yield
    finally:
        for path, text in before.items():
            write(f"{folder}/{path}", text)


def write(path, text):
    with open(path, "w", encoding="utf-8") as file:
        file.write(text)


# --- batches: edits of different functions of a crate, tried by one check ---

# What the functions of an `impl` or a trait belong to, once the parameters of its types are left out.
OWNER = re.compile(r"(?:impl (?:(?:\w+::)*(\w+) for )?|(?:pub(?:\(\w+\))? )?trait )(\w+)\b")
# The head of a function. (What a `const fn` gives may be a constant of others, so its edits are tried alone.)
HEAD = re.compile(r"( *)(?:pub(?:\(\w+\))? )?fn (\w+)")
# A change of a file: in which function, from where to where, and what stands there then.
Change = namedtuple("Change", "function begin end new")


class Function:
    """A function in a file of src/: the lines where its attributes, its body and its end stand, and the folder of its proof."""

    def __init__(self, path, folder, name, first, body, last):
        self.path, self.first, self.body, self.last = path, first, body, last
        self.proofs = rf"(\./)?proofs/{folder}(fn/)?{name}/"

    def has(self, told):
        """Whether an error or a note is of this function: at its lines or in its proof."""
        path, line = re.match(r"(?:note: )?(\S+?):(\d+):", told).groups()
        return path == self.path and self.first < int(line) <= self.last + 1 or bool(re.match(self.proofs, path))


def functions_of(path, text):
    """The functions with a body of a file, of its `impl` blocks and traits, as `rt fmt` lays them out."""
    lines, owner, found, i = text.splitlines(), None, [], 0
    while i < len(lines):
        if re.match(r"\S", lines[i]):
            owner = OWNER.match(without_parameters(lines[i]))
        head = HEAD.match(lines[i])
        span = body_of(lines, i) if head and len(head[1]) == (4 if owner else 0) else None
        if span:
            found.append(Function(path, folder_of(path, owner, text), head[2], attributes_of(lines, i), *span))
        i = span[1] if span else i + 1
    return found


def attributes_of(lines, head):
    """The line where the attributes of a function begin, at which the prover tells of it."""
    while head and re.match(r" *#\[", lines[head - 1]):
        head -= 1
    return head


def folder_of(path, owner, text):
    """The folder of the proofs of a file's functions, or of those of an `impl` in it. Those of a type that another file declares stand with the type."""
    module = "".join(f"{it}/" for it in module_of(path).split("::") if it)
    if not owner:
        return module
    trait, name = owner.groups()
    is_own = trait or re.search(rf"\b(struct|enum|trait|type) {name}\b", text)
    return (module if is_own else r"(\w+/)*") + name + (rf"{trait}[\w+]*/" if trait else r"(\+[\w+]+)?/")


def without_parameters(line):
    line, more = line.replace("->", ""), None
    while line != more:
        line, more = re.sub(r"<[^<>]*>", "", line), line
    return line


def body_of(lines, first):
    """The lines where the body of a function begins and ends, or nothing if it has none: each is at the indentation of its head."""
    indentation = re.match(" *", lines[first])[0]
    level = [k for k in range(first, len(lines)) if re.match(indentation + r"\S", lines[k])]
    begin = next((k for k in level if lines[k].endswith("{") or k > first and not re.match(r" *(\)|where\b)", lines[k])), first)
    end = next((k for k in level if k > begin and lines[k] == indentation + "}"), None)
    return (begin, end) if end and lines[begin].endswith("{") else None


def changes_of(edit, folder):
    """What an edit changes in the bodies of functions, or nothing if it changes more, or can't be made."""
    try:
        texts = edited(edit, folder)
    except (OSError, ValueError):
        return []
    changes = []
    for path, text in texts.items():
        old = read(f"{folder}/{path}")
        begin = len(os.path.commonprefix([old, text]))
        behind = len(os.path.commonprefix([old[begin:][::-1], text[begin:][::-1]]))
        end = len(old) - behind
        first, last = old.count("\n", 0, begin), old.count("\n", 0, end)
        own = [it for it in functions_of(path, old) if it.body < first and last < it.last]
        if not own:
            return []
        changes.append(Change(own[0], begin, end, text[begin : len(text) - behind]))
    return changes


def batches(edits, folder):
    """Puts edits into groups of which no two change one function. One that changes more than bodies is a group of its own. A group has the changes by edit."""
    groups, alone = [], []
    for edit in edits:
        changes = changes_of(edit, folder)
        own = {it.function.proofs for it in changes}
        group = next((it for it in groups if own.isdisjoint(its.function.proofs for of in it.values() for its in of)), None)
        if not changes:
            alone.append({edit: []})
        elif group:
            group[edit] = changes
        else:
            groups.append({edit: changes})
    return [*groups, *alone]


def together(batch, folder):
    """The texts of the files that the edits of a batch change, with all their changes."""
    texts = {}
    for it in sorted((it for of in batch.values() for it in of), key=lambda it: -it.begin):
        path = it.function.path
        text = texts.get(path) or read(f"{folder}/{path}")
        texts[path] = text[: it.begin] + it.new + text[it.end :]
    return texts


def try_batch(batch, folder, spent=0.0):
    """Tries the edits of a batch by one check, and gives each with what `try_edit` gives.

    An edit is refused if the check shows it in the function that it changes. The others, as those whose function
    waited for the proof of one that it calls, are tried again with fewer beside them, at last alone by `try_edit`.
    """
    if len(batch) == 1:
        edit = next(iter(batch))
        is_refused, text, seconds = try_edit(edit, folder)
        yield edit, is_refused, text, spent + seconds
        return
    texts = together(batch, folder)
    with written(texts, folder):
        outcome = rt(folder, "check", "--jobs", "1", *only_modules(texts))
    shown, spent = shown_in(outcome, texts, batch), spent + outcome.seconds
    for edit, line in shown.items():
        yield edit, True, f"{name_of(edit)}: refused: {line[:300]} ({spent / len(shown):.0f} s, in a batch)", spent / len(shown)
    left, spent = [it for it in batch if it not in shown], 0.0 if shown else spent
    half = len(left) // 2
    for part in [left] if shown else [left[:half], left[half:]]:
        if part:
            yield from try_batch({it: batch[it] for it in part}, folder, spent)
        spent = 0.0


def shown_in(outcome, texts, batch):
    """The edits of a batch whose meaning the prover refuses, each with the line that shows it in the edit's own function.

    If something else is refused too, edits bear on more than their functions, and nothing is shown.
    """
    if unfit(outcome, texts):
        return {}
    told = [it for it in told_in(outcome) if ": error" in it or "is not proved" in it]
    owners = {it: [edit for edit, changes in batch.items() if any(its.function.has(it) for its in changes)] for it in told}
    if any(len(owners[it]) != 1 and not IS_GONE.match(it) for it in told):
        return {}
    shown = {edit: evidence([it for it in told if edit in owners[it]])[0] for edit in batch}
    return {edit: lines[0] for edit, lines in shown.items() if lines}


# --- side by side ---


def side_by_side():
    """How many proofs go on at once: one a processor, as long as each has 5 GB of memory."""
    if os.environ.get("RT_JOBS", "").isdigit():
        return max(int(os.environ["RT_JOBS"]), 1)
    with open("/proc/meminfo", encoding="utf-8") as file:
        free = 1024 * int(re.search(r"MemAvailable:\s+(\d+)", file.read())[1])
    try:
        with open("/sys/fs/cgroup/memory.max", encoding="utf-8") as file:
            limit = file.read().strip()
        free = min(free, int(limit)) if limit.isdigit() else free
    except OSError:
        pass
    return max(min(free // 5_000_000_000, len(os.sched_getaffinity(0))), 1)


def in_lanes(tasks, lanes):
    """Runs tasks side by side, each once those that it waits for have ended, and first those with most work behind them.
    A task is what it waits for, its weight and its call.

    No run ends before its longest chain, so that one has half of the lanes while one of its tasks can run, and the others the rest.
    """
    behind = {key: weight for key, (_, weight, _) in tasks.items()}
    for key in reversed([*tasks]):
        for below in tasks[key][0]:
            behind[below] = max(behind[below], tasks[below][1] + behind[key])
    chain, half = longest_chain(tasks, behind), max(lanes // 2, 1)
    # What runs, with its lanes.
    left, ended, running, calls = sorted(tasks, key=lambda it: -behind[it]), set(), {}, {}

    def in_lane(width, call):
        LANE.width = width
        return call()

    def lanes_for(key, live):
        """Each prover may take 5 GB, so no more run than there are lanes."""
        free = lanes - sum(running.values())
        if not any(tasks[it][1] for it in live if it != key):
            return min(free, 4)
        if key in chain:
            return min(free, half)
        kept = sum(max(half - running.get(it, 0), 0) for it in live if it in chain)
        return 1 if free > kept else 0

    with ThreadPoolExecutor(lanes) as pool:
        while left or running:
            ready = [it for it in left if {*tasks[it][0]} <= ended]
            live = [*ready, *running]
            for key in ready:
                width = lanes_for(key, live)
                if width:
                    left.remove(key)
                    running[key] = width
                    calls[pool.submit(in_lane, width, tasks[key][2])] = key
            for done in wait(calls, return_when=FIRST_COMPLETED).done:
                done.result()
                key = calls.pop(done)
                ended.add(key)
                del running[key]


def longest_chain(tasks, behind):
    """The tasks with most work behind them, each of which waits for the one before."""
    chain, ready = [], [it for it in tasks if not tasks[it][0]]
    while ready:
        chain.append(max(ready, key=behind.get))
        ready = [it for it in tasks if chain[-1] in tasks[it][0]]
    return chain
