"""What the scripts share that try edited function bodies, wrong-bodies/run and gate/holes: whose body a line is in, and the runs of a
crate, over what prover.py makes ready."""
import os
import pathlib
import re
import shutil
import threading

from prover import Check


def function_at(path, lines, at):
    """The function whose body has this line, as `--only` takes it, or None. The layout is that of `rt fmt`."""
    names, depth, in_body = [], len(lines[at]), False
    for line in reversed(lines[: at + 1]):
        deep = len(line) - len(line.lstrip())
        if not line.strip() or deep >= depth:
            continue
        item = re.match(r"\s*(?:pub(?:\([^)]*\))? )?(?:unsafe |const |extern \S+ )*(fn|impl|trait|mod)\b(?:<.*?>(?= ))? ?(.*)", line)
        in_body = in_body or not names and line.endswith("{")
        # (a body's brace and the end of its head stand as deep as the head)
        depth = deep if item or line.strip()[0] not in "{)" else deep + 1
        if not item:
            continue
        if not names and (item[1] != "fn" or not in_body):
            return None
        if item[1] in ("fn", "mod"):
            names.insert(0, re.match(r"\w+", item[2])[0])
        else:
            trait, _, type = re.sub(r"( where .*)?\{$", "", item[2]).rpartition(" for ")
            type = re.sub(r"<.*|\w+::|&(?:'\w+ )?|\W", "", type.strip())
            # (From<AllocFailed<T>> is FromAllocFailed)
            return "::".join([type + re.sub(r"\w+::|(?<=\w)<[^<>]*>(?=>)|\W", "", trait), *names])
    module = [it for it in pathlib.Path(path).with_suffix("").parts[1:] if it not in ("lib", "main", "mod")]
    return "::".join([*module, *names]) if names else None


class Edited:
    """An edit of a crate: the functions that must not be proved with it, and why it cannot be tried, if so."""

    # An edit that has a run of its own, and one that is not of src/.
    is_apart = is_of_definitions = False

    def __init__(self, crate, name):
        self.crate, self.name, self.functions, self.fault = crate, name, set(), None

    def together(self, edits):
        """The texts of the files that these edits of the crate change, or why they cannot be applied."""
        raise NotImplementedError

    def fits(self, batch):
        if not batch:
            return True
        is_free = not self.is_apart and not batch[0].is_apart and not any(self.functions & it.functions for it in batch)
        return is_free and not self.together([*batch, self])[1]


def batches(edits):
    while edits:
        batch = []
        for edit in edits:
            if edit.fits(batch):
                batch.append(edit)
        yield batch
        edits = [it for it in edits if it not in batch]


def one_by_one(edits):
    return [[it] for it in edits]


class Trial:
    """The runs of one crate, each on a copy of what its checks kept, or else of what the first of these runs kept."""

    # How the edits that are left share runs, in turn.
    ways = batches, batches, one_by_one

    def __init__(self, crate, room, logs=None):
        self.crate, self.room, self.logs, self.runs, self.seconds = crate, room, logs, 0, 0
        self.verdicts, self.counting = {}, threading.Lock()
        kept = f"{crate.folder}/out/incremental"
        self.start = kept if os.path.isdir(kept) else None

    def number(self):
        with self.counting:
            self.runs += 1
            return self.runs - 1

    def check(self, edits):
        """A run with these edits, which says what becomes of each. Several can go side by side."""
        number, start = self.number(), self.start
        kept, log = f"{self.room}/{number}", f"{self.crate.name}.{number}"
        if start:
            shutil.copytree(start, kept)
        else:
            os.makedirs(kept)
        texts = edits[0].together(edits)[0]
        said = Check(self.crate, {self.crate: texts}, set().union(*(it.functions for it in edits)), kept, self.logs and pathlib.Path(self.logs, log))
        if start or said.fault:
            shutil.rmtree(kept)
        else:
            self.start = kept
        with self.counting:
            self.seconds += said.seconds
        self.verdicts.update({it: self.verdict(it, said) for it in edits})

    def verdict(self, edit, said):
        told = [said.refusal(it, edit.is_of_definitions) for it in sorted(edit.functions)]
        return next((it for it in told if not it[0]), told[0])

    def rounds(self, edits):
        """Which edits share a run: lists of runs that can go side by side, each list once those of the one before it have ended. The first run
        is alone, since the others begin with what it kept. An edit whose function calls another edited one may tell nothing of itself until that
        one is left out."""
        self.verdicts.update({it: (False, it.fault) for it in edits if it.fault})
        left = [it for it in edits if not it.fault]
        for in_runs in self.ways:
            runs = [*in_runs(left)]
            if runs and not self.start:
                yield [runs.pop(0)]
            if runs:
                yield runs
            left = [it for it in left if not self.verdicts[it][0]]

    def tried(self, edits):
        """What became of each, once all runs have ended, one after the other."""
        for runs in self.rounds(edits):
            for batch in runs:
                self.check(batch)
        return self.verdicts
