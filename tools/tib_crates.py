"""The crates of the repository, as scripts see them: what each depends on, copies of some for `rt ci`,
and the checks that are running."""
import contextlib
import os
import pathlib
import shutil
import tempfile

ROOT = pathlib.Path(__file__).resolve().parent.parent
TICKS = os.sysconf("SC_CLK_TCK")


def dependencies():
    """Returns what each crate of crates.txt depends on, lowest crates first."""
    rows = {}
    for line in (ROOT / "crates.txt").read_text(encoding="utf-8").splitlines():
        head, colon, uses = line.partition("#")[0].partition(":")
        if colon:
            rows[head.split()[0]] = uses.split()
    return rows


def below(names, rows):
    """Returns the crates of the repository that these depend on, themselves left out unless one
    depends on another."""
    found, left = set(), [it for name in names for it in rows[name]]
    while left:
        name = left.pop()
        if name in rows and name not in found:
            found.add(name)
            left.extend(rows[name])
    return found


@contextlib.contextmanager
def copied(names):
    """Gives a folder with a copy of these crates, which holds all that they depend on, as a
    repository of its own for `rt ci`, without edits that must fail. It is removed at the end."""
    with tempfile.TemporaryDirectory(prefix="tiburon-") as room:
        skip = shutil.ignore_patterns("out", "must-fail", "edits")
        for name in names:
            shutil.copytree(ROOT / "crates" / name, f"{room}/crates/{name}", ignore=skip)
        os.makedirs(f"{room}/crates", exist_ok=True)
        lines = (ROOT / "crates.txt").read_text(encoding="utf-8").splitlines(True)
        kept = [it for it in lines if {*it.partition(":")[0].split()[:1]} & {*names}]
        pathlib.Path(room, "crates.txt").write_text("".join(kept), encoding="utf-8")
        shutil.copy(ROOT / "HANDLES", room)
        # (rt looks for the repository's top no further up than this)
        os.mkdir(f"{room}/.git")
        yield pathlib.Path(room)


def environment():
    """Returns the environment for rt, in which the caller's own settings stay. Large pages of memory
    take a tenth off the time of a check. As many checks run as there are processors: by its own
    estimate of memory, several times what a check takes, rt would leave some of them idle."""
    processors = str(len(os.sched_getaffinity(0)))
    return {"GLIBC_TUNABLES": "glibc.malloc.hugetlb=1", "RT_JOBS": processors, **os.environ}


def processes():
    """Returns the processes of the machine: the parent of each, its words, when it began in ticks,
    and the seconds of processor time that it took."""
    found = {}
    for pid in filter(str.isdigit, os.listdir("/proc")):
        try:
            with open(f"/proc/{pid}/stat", encoding="utf-8", errors="replace") as it:
                fields = it.read().rpartition(")")[2].split()
            with open(f"/proc/{pid}/cmdline", encoding="utf-8", errors="replace") as it:
                words = it.read().split("\0")
        except OSError:
            continue
        seconds = (int(fields[11]) + int(fields[12])) / TICKS
        found[pid] = fields[1], words, int(fields[19]), seconds
    return found


def checks(above):
    """Yields each process of a check below the process `above`: what names it, what names its check,
    the crate, whether the check is for its proofs, tests or edits, and its seconds. A check is a
    process of rattle; those that it starts to compile what it proved belong to it."""
    found = processes()
    for pid, (_, _, began, seconds) in found.items():
        at, check = pid, None
        while at in found and at != above:
            words = found[at][1]
            if "--crate-name" in words and os.path.basename(words[0]) == "rattle":
                check = at
            at = found[at][0]
        if at == above and check:
            words = found[check][1]
            # (a program is proved by a check too, which writes down what it checked)
            is_edit = words[1:2] == ["check"] and "-o" not in words
            kind = "tests" if "--test" in words else "edits" if is_edit else "proofs"
            crate = words[words.index("--crate-name") + 1]
            yield (pid, began), (check, found[check][2]), crate, kind, seconds
