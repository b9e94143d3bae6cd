"""The self-test of tools/kept: a small repository is proved by `rt ci` and asked for by the launcher; what tools/prove proves is kept for no gate. It wants
the kit, and takes two or three minutes. What `rt ci` leaves beside the kit it removes again."""
import os
import random
import shutil
import subprocess
import tempfile
import time

HERE = os.path.dirname(os.path.realpath(__file__))
# The parts of the launcher, and what proves.
TOOLS = [name for name in os.listdir(HERE) if name.endswith((".sh", ".awk", ".txt"))] + ["build-library", "kept", "prove", "room", "unproved"]

LOW = """//! A number.
#![tactic(auto)]

ghost use Rattle.std.specs.Prelude.{◌≡◌};

/// The number.
pub fn number() -> u16
    ensures { result ≡ SAID }
{
    DONE
}
"""
PROGRAM = """//! Prints a number.
#![tactic(auto)]

use pv_try_low::number;
use std::io;

fn main(rt: HostRuntime) -> io::Result<()> {
    println!(rt; "{}", number())?;
    Ok(())
}
"""


class Tests:
    """What passed and failed, and the folder that all is tried in."""

    def __init__(self, room):
        self.room, self.passed, self.failed, self.entries = room, 0, 0, set()

    def same(self, what, wanted, got):
        if wanted == got:
            self.passed += 1
        else:
            self.failed += 1
            print(f"{what}:\n  wanted {wanted!r}\n  got    {got!r}")

    def holds(self, what, wanted, got):
        self.same(what, True, wanted in got or got)

    def repository(self, name, number, done=None):
        """A checkout in which pvrun and pvwhere print the number that the library below them gives."""
        top = f"{self.room}/{name}"
        write(f"{top}/crates.txt", "pv_try_low:\npvrun: pv_try_low\npvwhere: pv_try_low\n")
        write(f"{top}/HANDLES", "Handles allowed: none.\n")
        write(f"{top}/crates/pv_try_low/src/lib.rt", LOW.replace("SAID", str(number)).replace("DONE", str(done or number)))
        for program in ("pvrun", "pvwhere"):
            write(f"{top}/crates/{program}/src/main.rt", PROGRAM)
            write(f"{top}/crates/{program}/stdout", f"{number}\n")
        os.mkdir(f"{top}/tools")
        for tool in TOOLS:
            shutil.copy(f"{HERE}/{tool}", f"{top}/tools/{tool}")
        shutil.copy(f"{HERE}/../pvrun", f"{top}/pvrun")
        write(f"{top}/a.c", "int main(void) { return 0; }\n")
        os.mkdir(f"{top}/.git")
        return top

    def call(self, top, *words, **more):
        """Status, standard output and standard error of a command at the top of a checkout."""
        told = subprocess.run(words, cwd=top, stdin=subprocess.DEVNULL, stdout=subprocess.PIPE, stderr=subprocess.PIPE, text=True, **more)
        return told.returncode, told.stdout, told.stderr

    def taken(self, top):
        """What of pvrun is kept, by tools/kept."""
        return self.call(top, "tools/kept", "take", "pvrun")[1].splitlines()

    def is_current(self, top):
        return self.call(top, "bash", "-c", ". tools/sources.sh; is_current pvrun && echo yes || echo no")[1].strip()

    def note_entries(self, kept_of, top):
        """Remembers the entries that a checkout has beside the kit."""
        here = os.getcwd()
        os.chdir(top)
        kept = kept_of(top)
        self.entries |= {entry[0] for entry in (kept.entry(kept.crate(name)) for name in ("pv_try_low", "pvrun", "pvwhere")) if entry}
        os.chdir(here)

    def remove_entries(self):
        for entry in self.entries:
            shutil.rmtree(entry, ignore_errors=True)
            lock = f"{os.path.dirname(entry)}/lock-proof-{entry.rsplit('-', 1)[1][:32]}"
            if os.path.isfile(lock):
                os.remove(lock)


def write(name, text):
    os.makedirs(os.path.dirname(name), exist_ok=True)
    with open(name, "w", encoding="utf-8") as file:
        file.write(text)


def read(name):
    with open(name, "rb") as file:
        return file.read()


def try_after_ci(tests, kept_of, number):
    """What `rt ci` proved is taken by the launcher of a clone, at once."""
    first, clone = tests.repository("first", number), tests.repository("clone", number)
    tests.same("before rt ci nothing is kept", [], tests.taken(clone))
    tests.same("rt ci", "3 passed, 0 failed", tests.call(first, "rt", "ci")[1].splitlines()[-1])
    tests.note_entries(kept_of, first)
    proved = read(f"{first}/crates/pvrun/out/pvrun")
    for what, top in (("in another clone", clone), ("in the same clone", first)):
        began = time.monotonic()
        status, output, said = tests.call(top, "./pvrun", "run", "a.c")
        spent = time.monotonic() - began
        tests.same(f"{what}: the answer", (0, f"{number}\n"), (status, output))
        tests.holds(f"{what}: said", "pvrun was proved before, of these very sources", said)
        tests.same(f"{what}: nothing else is begun", [], [word for word in ("proving and building", "compiling", "NOT PROVED") if word in said])
        tests.same(f"{what}: at once", True, spent < 4 or spent)
        tests.same(f"{what}: the program that was proved", proved, read(f"{top}/crates/pvrun/out/pvrun"))
        tests.same(f"{what}: it is noted", "yes", tests.is_current(top))
        tests.same(f"{what}: a second call says nothing", (0, f"{number}\n", ""), tests.call(top, "./pvrun", "run", "a.c"))
    return clone, proved


def try_other_sources(tests, clone, proved, number):
    """What isn't that very text, or that very program, has no entry."""
    for name, more in (("crates/pv_try_low/src/lib.rt", "// more\n"), ("crates.txt", "pvmore: pv_try_low\n"), ("HANDLES", "")):
        text = read(f"{clone}/{name}").decode()
        write(f"{clone}/{name}", {"HANDLES": "Handles allowed: Wait.\n", "crates.txt": text.replace("pvrun: ", "pvrun: indexmap ")}.get(name, text + more))
        tests.same(f"{name} changed: nothing is kept of that", False, "program pvrun" in tests.taken(clone))
        tests.same(f"{name} changed: the program is not noted", "no", tests.is_current(clone))
        write(f"{clone}/{name}", text)
    tests.same("changed back", ["program pvrun"], tests.taken(clone))
    write(f"{clone}/crates/pvrun/out/pvrun", "#!/bin/sh\necho a trial\n")
    tests.same("a trial build in its place is not noted", "no", tests.is_current(clone))
    tests.same("a trial build in its place is not run", (0, f"{number}\n"), tests.call(clone, "./pvrun", "run", "a.c")[:2])
    tests.same("the proved program is put there again", proved, read(f"{clone}/crates/pvrun/out/pvrun"))


def try_damaged(tests, clone, proved):
    """A program beside the kit that is not the one that was proved is not taken."""
    entry = next(it for it in tests.entries if "/proof-pvrun-" in it)
    write(f"{entry}/0", "#!/bin/sh\necho a trial\n")
    tests.same("a damaged entry", False, "program pvrun" in tests.taken(clone))
    tests.same("a damaged entry: what stands in out/", proved, read(f"{clone}/crates/pvrun/out/pvrun"))
    with open(f"{entry}/0", "wb") as file:
        file.write(proved)
    tests.same("mended", ["program pvrun"], tests.taken(clone))
    status = tests.call(clone, "tools/kept", "take", "pvrun", env={"PATH": "/usr/bin:/bin"})[0]
    tests.same("without the kit", 75, status)


def try_one_crate(tests, kept_of, number):
    """What `rt ci NAME` proved of a crate is taken where programs above it are proved, and nothing else is kept by that; what can't be proved isn't either."""
    low, top = tests.repository("low", number), tests.repository("proved", number)
    tests.same("rt ci of one crate", 0, tests.call(low, "rt", "ci", "pv_try_low")[0])
    tests.note_entries(kept_of, low)
    try_give(tests, low)
    tests.same("one crate is kept", ["kept pv_try_low"], tests.taken(top))
    status, _, said = tests.call(top, "tools/prove", "pvrun", "pvwhere")
    tests.same("tools/prove: status", 0, status)
    tests.holds("tools/prove: nothing was proved before", "3 crates, 0 of them proved before", said)
    tests.same("tools/prove: the program", f"{number}\n", tests.call(top, "crates/pvrun/out/pvrun")[1])
    tests.same("tools/prove: it is noted", "yes", tests.is_current(top))
    tests.same("tools/prove keeps nothing for rt ci", ["kept pv_try_low"], tests.taken(tests.repository("for ci", number)))
    keeps = tests.repository("keeps", number)
    tests.same("tools/prove --keep: status", 0, tests.call(keeps, "tools/prove", "--keep", "pvrun")[0])
    tests.same("tools/prove --keep: the program", f"{number}\n", tests.call(keeps, "crates/pvrun/out/pvrun")[1])
    tests.same("tools/prove --keep keeps nothing for rt ci", ["kept pv_try_low"], tests.taken(keeps))
    wrong = tests.repository("wrong", number, done=number + 1)
    tests.same("a wrong body: tools/prove", 125, tests.call(wrong, "tools/prove", "pvrun")[0])
    tests.same("a wrong body: nothing is kept", [], tests.taken(wrong))


def try_give(tests, low):
    """`tools/kept give` in a room."""
    room, text = f"{tests.room}/a room", read(f"{low}/crates/pv_try_low/src/lib.rt").decode()
    write(f"{room}/crates.txt", "pv_try_low:\n")
    for what, body, wanted in (("another text", text + "// more\n", (75, False)), ("the same text", text, (0, True))):
        write(f"{room}/crates/pv_try_low/src/lib.rt", body)
        status = tests.call(f"{room}/crates/pv_try_low", f"{low}/tools/kept", "give")[0]
        tests.same(f"give: {what}", wanted, (status, os.path.exists(f"{room}/crates/pv_try_low/out/rlib/stamp")))


def try_owner(tests, is_own):
    """A folder that someone else has, or can write to, is not read."""
    for what, mode, wanted in (("for its owner alone", 0o700, True), ("for all to write", 0o777, False), ("for a group to write", 0o770, False)):
        folder = f"{tests.room}/{what}"
        os.mkdir(folder)
        os.chmod(folder, mode)
        tests.same(f"a folder {what}", wanted, is_own(folder))
    os.symlink(f"{tests.room}/for its owner alone", f"{tests.room}/link")
    tests.same("a link to a folder", False, is_own(f"{tests.room}/link"))
    if not os.geteuid():
        os.chown(f"{tests.room}/for its owner alone", 65534, 65534)
        tests.same("a folder of someone else", False, is_own(f"{tests.room}/for its owner alone"))


def self_test(kept_of, is_own):
    number = random.randrange(1000, 60000)
    with tempfile.TemporaryDirectory() as room:
        tests = Tests(room)
        try:
            clone, proved = try_after_ci(tests, kept_of, number)
            try_other_sources(tests, clone, proved, number)
            try_damaged(tests, clone, proved)
            try_one_crate(tests, kept_of, number + 2)
            try_owner(tests, is_own)
        finally:
            tests.remove_entries()
    print(f"{tests.passed} passed, {tests.failed} failed")
    return int(tests.failed > 0)
