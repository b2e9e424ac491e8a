# SPDX-License-Identifier: Apache-2.0
"""The trials of `run` with one process at a time that leads, on a store of any kind. Each raises Wrong, or returns what there is to say."""

import os
import random
import resource
import select
import signal
import subprocess
import threading
import time
from pathlib import Path

from servers import SqliteStore
from story import CLANG, NINE_CODES, NONE, PIPE, RECORDS, REFUSED, SECONDS, STOPPED, STORE, TAKEN, TOP, WELL, WORDS, Programs, Story, check, events_of

# After how many groups a process is killed at most.
LIFE = 25
# More rows than one who follows reads at a time, and how many allocations there are about from the end of a start on.
ROWS_BEHIND, LAST_ALLOCATIONS = 1200, 110
# The octets that a file may have in a store that refuses, and the user as whom even root may not write.
LIMIT, NOBODY = 200_000, 65534


# ---- killed


class Compactions(threading.Thread):
    """Runs kunchrol-compact again and again, and kills half of the runs. None starts while `starts` is locked."""

    def __init__(self, story):
        super().__init__()
        self.story, self.random, self.is_over = story, random.Random(7), threading.Event()
        self.counts, self.fault = {WELL: 0, -signal.SIGKILL: 0}, None
        self.process, self.starts = None, threading.Lock()

    def run(self):
        while not self.is_over.wait(0.01) and not self.fault:
            words = [*self.story.programs.compact, self.story.store.where]
            with self.starts:
                process = self.process = subprocess.Popen(words, stdout=subprocess.DEVNULL, stderr=subprocess.PIPE, text=True)
            if self.random.randrange(2):
                time.sleep(self.random.uniform(0, 0.015))
                self.story.kill(process)
            said = process.communicate(timeout=SECONDS)[1]
            if process.returncode not in self.counts or said:
                self.fault = f"compact: status {process.returncode}: {said}"
            else:
                self.counts[process.returncode] += 1


def live_and_die(story, pick, kill):
    """A life of the process up to the moment when it is killed, with two groups on the way or in its start."""
    node, lives, given = story.node(), pick.randrange(LIFE) if pick.random() < 0.8 else -1, []
    if lives < 0:
        time.sleep(pick.uniform(0, story.place.start_seconds))
    else:
        is_begun = story.begin(node)
        check(is_begun, f"it died by itself: {None if is_begun else node.end()}")
        story.go_on(node, lives)
        given = [story.peers.group(), story.peers.group()]
        for lines in given:
            node.give(lines)
        time.sleep(pick.uniform(0, story.place.commit_seconds))
    kill(node)
    for lines in given:
        frames, number = node.take()
        if number is None:
            story.doubts.append((lines, frames))
        else:
            story.confirm(lines, frames, number)
    ended = node.end()
    check(ended == (-signal.SIGKILL, ""), f"ended: {ended}")


def die_often(story, deaths, kill, compactions=2):
    """Deaths of the process, by a function of it and of the compactions beside it, of which so many are to be whole; and what all came to."""
    pick, beside = random.Random(2), Compactions(story)
    beside.start()
    try:
        for _ in range(deaths):
            live_and_die(story, pick, lambda node: kill(node, beside))
    finally:
        beside.is_over.set()
        beside.join()
    check(not beside.fault, beside.fault)
    is_compacted = beside.counts[WELL] >= compactions and not story.store.asked("SELECT 1 FROM log WHERE seq = 1")
    check(is_compacted, f"nothing was compacted: {beside.counts}")
    node = story.started()
    story.go_on(node, 10)
    node.end()
    story.compare()
    died = sum(not is_whole for _, is_whole in story.sent)
    return f"{deaths} deaths, {len(story.rows)} rows, {died} of them with a death; {' and '.join(map(str, beside.counts.values()))} compactions, whole and killed"


def killed(programs, place, deaths):
    return die_often(Story(programs, place, 1), deaths, lambda node, _: node.process.kill())


# ---- refused, taken


def limited():
    resource.setrlimit(resource.RLIMIT_FSIZE, (LIMIT, LIMIT))


def is_refused(story, node, status, words):
    """Gives groups until one does not come back, of which nothing may come out."""
    for _ in range(1000):
        lines = story.peers.group()
        frames, number = node.commit(lines)
        if number is None:
            break
        story.confirm(lines, frames, number)
    ended = node.end()
    check(number is None and not frames, f"{len(frames)} frames came out of a group that was refused")
    check(ended[0] == status and words in ended[1], f"ended: {ended}")


def refused(programs, place):
    """A store whose files may not grow, and one that may only be read."""
    story = Story(programs, place, 3)
    is_refused(story, story.started(preexec_fn=limited), REFUSED, "refused by the store")
    done = programs.compacted(story.store, preexec_fn=lambda: resource.setrlimit(resource.RLIMIT_FSIZE, (4096, 4096)))
    check(done.returncode in (STORE, REFUSED), f"compact without space: {done}")
    node = story.started()
    story.go_on(node, 5)
    node.end(signal.SIGKILL)  # so that the store's other two files stay there
    read_only(story)
    node = story.started()
    story.go_on(node, 5)
    node.end()
    story.compare()


def read_only(story):
    """The store as it is for a process that may only read its files."""
    files = [it for it in story.folder.iterdir() if it.name.startswith("store")]
    for file in files:
        file.chmod(0o444)
    story.folder.chmod(0o555)
    node = story.node(**({"user": NOBODY} if os.getuid() == 0 else {}))
    check(node.leads() is None, "it leads in a store that may only be read")
    ended = node.end()
    check(ended[0] == REFUSED and "refused by the store" in ended[1], f"ended: {ended}")
    story.folder.chmod(0o755)
    for file in files:
        file.chmod(0o644)


FILL = """DO $$ BEGIN LOOP INSERT INTO filler SELECT repeat('x', 1000) FROM generate_series(1, 100); END LOOP;
    EXCEPTION WHEN disk_full THEN NULL; END $$"""


def refusals_of(store):
    """What makes a server refuse a row, what is said then, and what takes it away again."""
    last = store.asked("SELECT max(seq) FROM log")[0][0]
    yield f"ALTER TABLE log ADD CONSTRAINT few CHECK (seq < {last + 6})", "violates check constraint", "ALTER TABLE log DROP CONSTRAINT few"
    yield "ALTER TABLE log RENAME TO gone", "does not exist", "ALTER TABLE gone RENAME TO log"
    if store.server.has_small_disk():
        store.change("ALTER TABLE log SET TABLESPACE small")
        store.change("CREATE TABLE filler(it text) TABLESPACE small")
        yield FILL, "No space left on device", "DROP TABLE filler"
        store.change("ALTER TABLE log SET TABLESPACE pg_default")


def refused_by_a_server(programs, place):
    """A constraint, a table that is gone, a full disk."""
    story = Story(programs, place, 3)
    for spoil, said, mend in refusals_of(story.store):
        node = story.started()
        story.store.change(spoil)
        is_refused(story, node, REFUSED, said)
        node = story.node()
        if story.begin(node):  # where the space that is left is enough for a row without events
            node.end(signal.SIGKILL)
        else:
            ended = node.end()
            check(ended[0] == REFUSED and said in ended[1], f"ended: {ended}")
        story.store.change(mend)
    node = story.started()
    story.go_on(node, 5)
    node.end()
    story.compare()
    return None if story.store.server.small else "no disk of 4 MB can be mounted (root): a server whose disk is full is not tried"


def taken(programs, place):
    story = Story(programs, place, 4)
    for has_compacted in (False, True):
        first, second = story.started(), story.started()
        story.go_on(second, 3)
        for _ in range(2 * has_compacted):
            story.compact()
            story.go_on(second, 3)
        check(not has_compacted or story.store.asked("SELECT min(seq) FROM log")[0][0] > 4, "the row is still there")
        frames, number = first.commit([f"O 234150000000001 {NINE_CODES}"])
        ended = first.end()
        check(not frames and number is None and ended[0] == TAKEN and "taken" in ended[1], f"the first: {frames} {number} {ended}")
        story.go_on(second, 3)
        check(second.end() == (WELL, ""), "the second")
    check(any(is_late(story, seconds) for seconds in (0.2, 1, 4)), "a late compaction is not told so")
    story.compare()


def is_late(story, seconds):
    """Whether a compaction that has read the store is told that two others were faster when it comes to put its image; it puts none."""
    late, other = story.store.copied("late"), story.store.copied("other")
    for _ in range(2):
        faster = story.programs.ran([other.where], "O 234150000000001 11\nO 234150000000002 11\n"), story.programs.compacted(other)
        check([it.returncode for it in faster] == [WELL, WELL], f"the others: {faster}")
    held = late.held()
    process = subprocess.Popen([*story.programs.compact, late.where], stdout=subprocess.PIPE, stderr=subprocess.STDOUT, text=True)
    time.sleep(seconds)  # now it waits to write
    for table in ("log", "image", "kept"):
        held.execute(f"DELETE FROM {table}")
        for row in other.asked(f"SELECT * FROM {table}"):
            held.execute(f"INSERT INTO {table} VALUES({', '.join(late.literal(it) if isinstance(it, bytes) else str(it) for it in row)})")
    held.execute("COMMIT")
    held.close()
    said = process.communicate(timeout=SECONDS)[0]
    check(late.dumped() == other.dumped(), f"a late compaction changed the store: {said}")
    return process.returncode == TAKEN and "taken" in said


# ---- gathering


def gathering(programs, place):
    """While a commit waits, events of the next group are given and nothing goes out; after it both groups go out, one after the other."""
    story = Story(programs, place, 9)
    node = story.started()
    held = story.store.held()
    groups = [[f"O 234150000000001 {codes}", f"O 234150000000002 {codes}"] for codes in ("11", NINE_CODES)]
    node.give(groups[0])
    node.give([*groups[1], "Q"])
    told = node.process.stderr.readline()
    check(told == "line 6: argument\n", f"the line that no register knows: {told}")
    ready = select.select([node.process.stdout], [], [], 0.3)[0]
    check(not ready, f"something went out while the commit waits: {node.process.stdout.readline() if ready else ''}")
    held.execute("COMMIT")
    held.close()
    for lines in groups:
        frames, number = node.take()
        check(number and len(frames) == 2, f"frames of a group: {frames}")
        story.confirm(lines, frames, number)
    check(node.end() == (WELL, ""), "not ended")
    story.compare()


# ---- orphaned, behind


def orphaned(programs, place):
    """A process is killed while its row waits for the store, and another one starts meanwhile: it leads, after that row if a server still does it."""
    story = Story(programs, place, 11)
    for codes in ("11", NINE_CODES, "11", NINE_CODES):
        node, lines = story.started(), [f"O 234150000000001 {codes}"]
        held = story.store.held()
        node.give(lines)
        time.sleep(0.3)  # now its row waits
        node.end(signal.SIGKILL)
        story.doubts.append((lines, []))
        node = story.node()
        time.sleep(0.3)
        held.execute("COMMIT")
        held.close()
        is_begun = story.begin(node)
        check(is_begun, f"not started: {None if is_begun else node.end()}")
        story.go_on(node, 3)
        check(node.end() == (WELL, ""), "not ended")
    story.compare()


def behind(programs, place):
    """One that follows is stopped while many rows come, without and with images in their place; then the one that leads is killed, and it leads."""
    story = Story(programs, place, 10)
    for has_compacted in (False, True):
        leader, follower = story.started(), story.node("--pair", "0.5")
        check(follower.process.stdout.readline().startswith("follows "), "it does not follow")
        follower.give([f"O 234150000000001 {NINE_CODES}"])
        told = [follower.process.stderr.readline() for _ in range(2)]
        check(told == ["line 1: it follows\n", "line 2: it follows\n"], f"lines for one that follows: {told}")
        follower.process.send_signal(signal.SIGSTOP)
        for _ in range(ROWS_BEHIND // 10):
            for lines in (groups := [story.peers.group() for _ in range(10)]):
                leader.give(lines)
            for lines in groups:
                story.confirm(lines, *leader.take())
        for _ in range(2 * has_compacted):
            story.compact()
            story.go_on(leader, 3)
        leader.end(signal.SIGKILL)
        follower.process.send_signal(signal.SIGCONT)
        check(story.begin(follower), "it does not lead")
        story.go_on(follower, 5)
        follower.end(signal.SIGKILL)
    story.compare()


# ---- without memory


def built_shim(folder):
    """The library that refuses calls of a program."""
    shim = folder / "shim.so"
    subprocess.run([*CLANG, "-O2", "-fPIC", "-shared", "-nostdlib", "-o", shim, TOP / "failing/shim.c"], check=True)
    return shim


def without_memory(programs, place):
    """Each of the last allocations is refused, and some of those before: what came out is in the store, which can be opened afterwards."""
    shim, records, told = built_shim(place.folder), place.folder / "records", place.folder / "told"
    records.write_text(RECORDS)
    store = place.store("store")
    check(programs.ran([store.where, records], "O 234150000000003 11\nW\n").returncode == WELL, "not begun")

    def ended(at):
        refusing = {"LD_PRELOAD": str(shim), "FAILING_KIND": "alloc", "FAILING_AT": str(at), "FAILING_COUNT": "1", "FAILING_TOLD": str(told)}
        copy = store.copied("copy")
        done = programs.ran([copy.where], "O 234150000000001 11\nW\nO 234150000000002 11\nW\n", env={**os.environ, **refusing})
        rows = [events_of(row) for (row,) in copy.asked("SELECT lines FROM log ORDER BY seq")]
        last = max((int(line.split()[1]) for line in done.stdout.splitlines() if line[0] in "Wl"), default=0)
        check(done.returncode in (WELL, *range(STORE, PIPE + 1)), f"allocation {at}: {done}")
        check(last <= len(rows) and done.stdout.count("S ") <= sum(map(bool, rows)) - 1, f"allocation {at}: {len(rows)} rows in the store: {done}")
        check(programs.listed(copy).startswith("HLR2 "), f"allocation {at}: it cannot be opened")
        return done.returncode

    check(ended(0) == WELL, "not well without a refusal")
    count = int.from_bytes(told.read_bytes(), "little")
    statuses = [ended(at) for at in (*range(1, count - LAST_ALLOCATIONS, count // 20), *range(count - LAST_ALLOCATIONS, count + 1))]
    check({WELL, REFUSED} <= set(statuses), f"statuses {set(statuses)}")
    return f"{len(statuses)} of {count} allocations refused, one in each run; {statuses.count(WELL)} runs ended well all the same"


# ---- damaged, new


def edited(column, which, change):
    """What changes the octets of a column, in these rows."""
    table = "log" if column == "lines" else "image"

    def edit(store):
        rows = store.asked(f"SELECT seq, {column} FROM {table} {which}")
        for seq, octets in rows:
            store.change(f"UPDATE {table} SET {column} = {store.literal(change(octets))} WHERE seq = {seq}")

    return edit


def sql(text):
    return lambda store: store.change(text)


def both(*damages):
    return lambda store: [damage(store) for damage in damages]


# Each damage: what is done to the store, the status, and what a line says.
NEW, OLD = "WHERE seq = (SELECT max(seq) FROM image)", "WHERE seq = (SELECT min(seq) FROM image)"
LAST = "WHERE seq = (SELECT max(seq) FROM log)"


def spoilt(which=""):
    return edited("image", which, lambda it: it.replace(b"\nE", b"\nQ"))


DAMAGES = {
    "lines of another version": (sql("UPDATE kunchrol SET lines = 2"), STORE, "has lines of version 2"),
    "images of another version": (sql("UPDATE kunchrol SET image = 2"), STORE, "images of version 2"),
    "no version": (sql("DELETE FROM kunchrol"), STORE, "not a store"),
    "another database": (sql("DROP TABLE kunchrol"), STORE, "not a store"),
    "a row is missing": (sql(f"DELETE FROM log {LAST} - 1"), STOPPED, "is missing"),
    "a row without its head": (edited("lines", LAST, lambda it: it[it.index(b"\n") + 1 :]), STOPPED, "is not whole"),
    "a row with more octets": (edited("lines", LAST, lambda it: it + b"\n"), STOPPED, "is not whole"),
    "a line that is none": (edited("lines", LAST, lambda it: it.replace(b"\nO", b"\nQ")), STOPPED, "line 2: argument"),
    "both images are changed": (spoilt(), STOPPED, "image line"),
    "both images are empty": (edited("image", "", lambda it: b""), STOPPED, "image ends early"),
    "both images are cut": (edited("image", "", lambda it: it[:-3]), STOPPED, "image "),
    "both records are changed": (edited("records", "", lambda it: it[1:]), STOPPED, "records line"),
    "the newest image is changed, and a row before it missing": (
        both(spoilt(NEW), sql("DELETE FROM log WHERE seq >= (SELECT max(seq) FROM image)")), STOPPED, "is missing"),
    "no image": (sql("DELETE FROM image"), NONE, "no register"),
}
# Images that are not needed, since the one before them is there.
SPARED = {
    "the newest image is changed": (spoilt(NEW), "image line"),
    "the newest image is cut": (edited("image", NEW, lambda it: it[: len(it) // 2]), "image "),
    "the newest image is missing": (sql(f"DELETE FROM image {NEW}"), ""),
    "the image before it is changed": (spoilt(OLD), ""),
}


def is_named(story, store, name, status, words):
    """Whether neither program starts on a store, nor changes it, and both say what is wrong."""
    before = store.dumped()
    runs = [story.programs.ran([store.where, story.records], "O 234150000000001 -\nW\n"), story.programs.compacted(store)]
    for done in runs:
        is_told = words in done.stderr and "ended: " in done.stderr and not done.stdout
        check(done.returncode == status and is_told, f"{name}: {done}")
    check(store.dumped() == before, f"{name}: the store was changed")


def is_spared(story, store, name, words, listed):
    done = story.programs.ran(["--list", store.where])
    check((done.returncode, done.stdout) == (WELL, listed) and words in done.stderr, f"{name}: {done}")
    check(story.programs.compacted(store).returncode == WELL, f"{name}: compact")
    check(story.programs.listed(store) == listed, f"{name}, after a compaction")


def cuts_of(story):
    """The last row, cut off after each line and within them."""
    row = story.store.asked(f"SELECT lines FROM log {LAST}")[0][0]
    ends = [at + 1 for at, octet in enumerate(row[:-1]) if octet == ord("\n")]
    check(len(ends) > 2, f"few lines: {row}")
    return {f"a row is cut to {it}": (edited("lines", LAST, lambda row, it=it: row[:it]), STOPPED, "is not whole")
            for it in (*ends, *range(0, len(row), len(row) // 9))}


def damaged(programs, place):
    story = Story(programs, place, 5)
    node = story.started()
    for _ in range(2):
        story.go_on(node, 20)
        story.compact()
    story.go_on(node, 20)
    story.commit(node, [f"O 23415000000000{it} 11,21" for it in range(1, 5)])
    check(node.end() == (WELL, ""), "not ended")
    listed = programs.listed(story.store)
    for name, (damage, status, words) in [*{**DAMAGES, **cuts_of(story)}.items()][:: place.step]:
        copy = story.store.copied("copy")
        damage(copy)
        is_named(story, copy, name, status, words)
    for name, (damage, words) in [*SPARED.items()][:: place.step]:
        copy = story.store.copied("copy")
        damage(copy)
        is_spared(story, copy, name, words, listed)
    if isinstance(story.store, SqliteStore):
        damaged_files(story)
    story.compare()


def damaged_files(story):
    """A file that is no database, and one that is cut."""
    copy = story.store.copied("copy")
    copy.path.write_text(RECORDS)
    is_named(story, copy, "no database", STORE, "not a database")
    copy.path.write_bytes(story.store.path.read_bytes()[:8192])
    done = story.programs.ran([copy.where, story.records])
    check(done.returncode in (STORE, REFUSED) and not done.stdout and "malformed" in done.stderr, f"a database that is cut: {done}")


def new(programs, place):
    records, store, fault = place.folder / "records", place.store("store"), place.folder / "fault"
    records.write_text(RECORDS)
    fault.write_text(RECORDS.replace("11,21 ", "11,11 ", 1))
    for words, status, said in (([store.where], STORE, place.none_said), ([f"file:{records}", records], STORE, "is not sqlite:FILE"),
                                ([], WORDS, "line_node"), ([store.where, place.folder / "none"], WORDS, "No such file")):
        done = programs.ran(words)
        check(done.returncode == status and said in done.stderr and not done.stdout, f"{words}: {done}")
    done = programs.ran([store.where, fault])
    check(done.returncode == STOPPED and "records: line 2: " in done.stderr and not done.stdout, f"records with a fault: {done}")
    for number in range(place.beginnings):
        begun_by_three(programs, place.store(f"three{number}"), records)
    for number in range(2 * place.beginnings):
        one = place.store(f"killed{number}")
        process = subprocess.Popen([*programs.line_node, one.where, records], stdin=subprocess.PIPE, stdout=subprocess.DEVNULL)
        time.sleep(random.uniform(0, 2 * place.start_seconds))
        process.kill()
        process.communicate(timeout=SECONDS)
        done = programs.ran([one.where, records])
        check((done.returncode, done.stderr) == (WELL, "") and done.stdout in ("leads 1\nW 1\n", "leads 2\nW 2\n"), f"killed as it began a store: {done}")
    done = programs.ran([place.store("lines").where, records], "O 234150000000001 11\nQ\n\nX 234150000000099\nO 234150000000002")
    check(done.returncode == WELL and done.stderr == "line 2: argument\nline 3: argument\n" and done.stdout.endswith("W 2\n"), f"lines that are refused: {done}")


def begun_by_three(programs, store, records):
    """Three processes begin a store at a time: each leads, or is told that another one was faster; and the register is begun once."""
    words = [*programs.line_node, store.where, str(records)]
    three = [subprocess.Popen(words, stdin=subprocess.DEVNULL, stdout=subprocess.PIPE, stderr=subprocess.PIPE, text=True) for _ in range(3)]
    said = [(*it.communicate(timeout=SECONDS), it.returncode) for it in three]
    led = [int(it[0].split()[1]) for it in said if it[2] == WELL]
    others = [it for it in said if it[2] == TAKEN and not it[0] and "ended: taken" in it[1]]
    check(sorted(led) == list(range(1, len(led) + 1)) and led and len(led) + len(others) == 3, f"three processes on a new store: {said}")


def slow(programs, place):
    """A few groups, for a program whose accesses are checked one by one."""
    story = Story(programs, place, 6)
    node = story.started()
    story.go_on(node, 10)
    story.compact()
    story.go_on(node, 5)
    check(node.end() == (WELL, ""), "not ended")
    check("\n23415" in programs.listed(story.store), "no records are listed")
