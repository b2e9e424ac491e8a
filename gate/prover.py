"""What the scripts of the gate share: `rt` as a module, the crates, what `rt ci` kept of them, the libraries below a crate, and one
check of a crate with edited texts. The gate (`rt ci`) is run by `rt` itself; this only calls the prover as `rt` calls it."""
import copy
import importlib.machinery
import importlib.util
import json
import os
import pathlib
import re
import shutil
import subprocess
import sys
import tempfile
import threading

TOP = pathlib.Path(__file__).resolve().parent.parent


def module_of(path):
    loader = importlib.machinery.SourceFileLoader("rt_main", path)
    module = importlib.util.module_from_spec(importlib.util.spec_from_loader("rt_main", loader))
    loader.exec_module(module)
    return module


rt = module_of(os.path.realpath(shutil.which("rt") or sys.exit("there is no rt")))
rtlib = rt.rtlib
# (its first call sets a signal's handler, which only the main thread may)
rtlib.guarded()
held, stamps, summing, plain_stamp = [], {}, threading.RLock(), rtlib.Crate.stamp


def stamp(crate):
    """The sum of a crate's files and of those below, made once in a run: `rt` makes it for each path through crates.txt."""
    with summing:
        if crate.folder not in stamps:
            stamps[crate.folder] = plain_stamp(crate)
        return stamps[crate.folder]


rtlib.Crate.stamp = stamp


def listed():
    """The crates of crates.txt by name, lowest first."""
    return {it.name: it for it in lowest_first(rtlib.crates_below(str(TOP)))}


def crates():
    """The same, and no other `rt` works in them until this run ends."""
    found = listed()
    for it in found.values():
        rtlib.stop_on_links(it.folder)
    held.extend(rtlib.lock(found.values()))
    return found


def lowest_first(crates):
    return sorted(crates, key=lambda it: len(it.below()))


def libraries_below(above):
    return lowest_first({it for crate in above for it in crate.below()})


def is_as_left_by_ci(crate):
    """Whether the library is as `rt ci` leaves it, which is without a stamp, and newer than each file that it rests on."""
    made = f"{crate.rlib}/format"
    if not os.path.isfile(made) or os.path.exists(f"{os.path.dirname(crate.rlib)}/stamp"):
        return False
    files = [file for it in [crate, *crate.below()] for file in rtlib.files_of(it.folder)]
    return max(map(os.path.getmtime, [f"{TOP}/crates.txt", *files])) < os.path.getmtime(made)


class Kept:
    """What `rt ci` kept, on this machine, of the files as they stand: it finds that by the sum of all that was read for it. It is put
    into a folder of this run, and out/ stays as it is."""

    def __init__(self, crates):
        rt.Crate.allowed = rt.handles_of(str(TOP))
        # (an older toolchain keeps nothing)
        self.store = rt.Kept(crates) if hasattr(rt, "Kept") else None
        self.room = tempfile.TemporaryDirectory(prefix="kept-")

    def taken(self, crate, of_tests=False):
        """The folder in which is now what was proved of the crate, or of its tests, whose libraries below have been taken; None
        where it is not kept."""
        copied = copy.copy(crate)
        copied.folder = f"{self.room.name}/{crate.name}"
        if not self.store or not self.store.give(copied, of_tests, self.store.key(crate)):
            return None
        self.store.is_built(copied)
        return f"{copied.folder}/out"

    def take_libraries(self, crates):
        """Whether all these, lowest first, are kept; they are then used where they have been put."""
        folders = {it: self.taken(it) for it in crates}
        for it, folder in folders.items() if all(folders.values()) else ():
            it.rlib = f"{folder}/rlib/{it.name}.rlib"
        return all(folders.values())


class KeptSoFar(Kept):
    """The same of these libraries, lowest first, while `rt ci` still proves: each is used from where it was put as soon as it is kept."""

    def __init__(self, libraries):
        super().__init__(libraries)
        self.left, self.there = [*libraries], set()

    def look(self):
        """Takes those that are kept by now."""
        for it in [it for it in self.left if self.there.issuperset(it.below())]:
            if folder := self.taken(it):
                it.rlib = f"{folder}/rlib/{it.name}.rlib"
                self.left.remove(it)
                self.there.add(it)

    def has_all_below(self, crate):
        return self.there.issuperset(crate.below())


def is_running(process):
    """Whether a process with this number is there, and has not ended."""
    try:
        return pathlib.Path(f"/proc/{process}/stat").read_text().rpartition(")")[2].split()[0] != "Z"
    except OSError:
        return False


def are_kept_by_ci(crates):
    """Whether `rt ci` kept all these libraries, lowest first, which are then used from there."""
    held.append(Kept(crates))
    return held[-1].take_libraries(crates)


def lacking_libraries(above):
    """Makes the libraries below these crates ready, and returns the names of those that are not proved. Used as they are: those that
    `rt ci` has just left in out/, or `rt check` on a tree with kept work, or else those that `rt ci` kept; where not all of them are
    there in one of these ways, each that changed is built over kept work, side by side."""
    below = libraries_below(above)
    if all(map(is_as_left_by_ci, below)) or all(it.is_built() for it in below) or are_kept_by_ci(below):
        return []

    def build(crate, given, jobs):
        if not all(given[it.name, "proof"] for it in crate.below()):
            return False
        crate = copy.copy(crate)
        with tempfile.TemporaryFile("w+", errors="replace") as crate.out:
            status = crate.build_rlib(["--jobs", str(jobs)], anew=False)
            crate.out.seek(0)
            if status:
                print(crate.out.read(), end="", flush=True)
        return not status

    def task(crate):
        waits = [(it.name, "proof") for it in crate.below()]
        return waits, crate.count(rb"\n"), rt.need(crate), lambda given, jobs: build(crate, given, jobs)

    given = rt.in_lanes({(it.name, "proof"): task(it) for it in below})
    return [name for (name, _), well in given.items() if not well]


def turned_above(crate, edits):
    """The libraries below the crate that are edited, or stand on one that is."""
    return [it for it in crate.below() if any(low in edits for low in [it, *it.below()])]


def checked(crate, edits, functions, kept):
    """Checks these functions of a crate over what the folder `kept` holds, as `rt` checks a must-fail edit, and returns what it
    said, its status and its processor time. `edits` has texts by crate and file. Of libraries that they turn the check reads the
    sources, and proves no function of theirs."""
    sources = turned_above(crate, edits)
    top, above = copy.copy(crate), {it.name for it in sources}
    top.deps = [it for it in crate.below() if it.name not in above]
    top.of_kit = [*dict.fromkeys([*crate.of_kit, *["core"] * bool(sources), *[name for it in sources for name in it.of_kit]])]
    words = top.words(["--jobs", "1"], keeps=False)
    for name in sorted(functions):
        words += ["--only", name]
    with tempfile.TemporaryDirectory(prefix="edited-") as room:
        for it in [crate, *sources]:
            for part in rtlib.PARTS:
                if os.path.isdir(f"{it.folder}/{part}"):
                    shutil.copytree(f"{it.folder}/{part}", f"{room}/{it.name}/{part}")
            for path, text in edits.get(it, {}).items():
                pathlib.Path(room, it.name, path).write_text(text)
        for it in sources:
            uses = dict.fromkeys(["core", *it.of_kit, *[dep.name for dep in it.deps]])
            words += ["--lib", f"{it.name}:{','.join(uses)}=../{it.name}/src/lib.rt"]
        how = {"cwd": f"{room}/{crate.name}", "stdin": subprocess.DEVNULL, "stdout": subprocess.PIPE, "stderr": subprocess.STDOUT}
        whole = [*rtlib.guarded(), rtlib.RATTLE, "check", *words, "--incremental", kept]
        with subprocess.Popen(whole, **how, text=True, errors="replace") as ran:
            said = ran.stdout.read()
            status, used = os.wait4(ran.pid, 0)[1:]
            ran.returncode = os.waitstatus_to_exitcode(status)
    return said, ran.returncode, used.ru_utime + used.ru_stime


class Check:
    """What such a check said, and whether it ended."""

    # An error of these kinds in a file of proofs says only that the file names what the edit took away, or cites what fell.
    says_little = re.compile(r"is not in scope|has no field|has no `|is no name|was not admitted|declarations? that depends? on")

    def __init__(self, crate, edits, functions, kept, log=None):
        said, status, self.seconds = checked(crate, edits, functions, kept)
        if log:
            log.parent.mkdir(parents=True, exist_ok=True)
            log.write_text(said)
        self.crate, self.lines, self.fault = crate.name, said.splitlines() or ["nothing"], None
        texts = {path for changed in edits.values() for path in changed}
        # (a library that is read as source stands beside the crate)
        unread = next((it for it in self.lines if rt.unread(re.sub(r"\A(\./)?\.\./\w+/", "", it), texts)), None)
        if unread:
            self.fault = f"the edited text cannot be read: {unread}"
        elif rtlib.STALE.search(said):
            self.fault = "the kept work of a library could not be used"
        elif status < 0 or not re.fullmatch(r"only=\d+ proved=\d+", self.lines[-1]):
            first = next((it for it in self.lines if "error" in it), self.lines[-1])
            self.fault = f"the check did not end (status {status}): {first}"

    def is_proved(self, function):
        # (a method's name leaves out the modules that its path begins with)
        told = re.compile(rf"fn {self.crate}::(?:\S+::)?{re.escape(function)}: (.*)")
        verdicts = {found[1] for it in self.lines if (found := told.fullmatch(it))}
        return not self.fault and verdicts == {"proved"}

    def refusal(self, function, by_lemmas=False):
        """Whether a goal of the function's own, or of a closure in it, stays open, and what tells so or otherwise. `by_lemmas`:
        also a goal of a lemma, where the function's line says that it is not proved."""
        if self.fault:
            return False, self.fault
        told = re.compile(rf"fn {self.crate}::(\S+::)?{re.escape(function)}(::\S+)?: ")
        whys = [f"no line of {function}"]
        for line in self.lines:
            if not told.match(line.replace("::fn::", "::")):
                continue
            path, _, verdict = line.removeprefix(f"fn {self.crate}::").partition(": ")
            # (a function of a cycle of calls has a folder +name)
            folder = "" if by_lemmas else "".join(rf"\+?{re.escape(it)}/" for it in path.split("::"))
            # (a long message goes on in the next line, indented: what it says of a name may stand there)
            pairs = zip(self.lines, [*self.lines[1:], ""])
            told_of = [f"{it} {more.strip()}" if more.startswith("  ") else it for it, more in pairs]
            errors = [it for it in told_of if re.match(rf"(\./)?proofs/{folder}\S+:\d+:\d+: error", it)]
            # (where a goal has lost its name, the answers may stand under the names of other goals, and tell nothing)
            is_renamed = any(re.search(r"Goals` has no", it) for it in errors)
            own = [it for it in errors if not is_renamed and not self.says_little.search(it)]
            whys += [line, *errors]
            if verdict.startswith(("not proved", "no proof")) and (own or "did not prove" in verdict):
                return True, (own or [line])[0]
        return False, whys[-1]
