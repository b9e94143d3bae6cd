"""Parts of a list of cases on several machines, by GNU parallel over ssh (Debian's packages parallel, openssh-client and rsync).

A part goes to a machine as one file: the program, the part's list, and the files that its cases name. What comes back is the report and
the status; nothing stays there.
"""
import io
import os
import shutil
import subprocess
import tarfile
import tempfile

import suite_calls

# Where the texts of sources that were preprocessed here lie there.
TEXTS = b"texts.i"

# What a machine does with a part, in the words of GNU parallel: {} is the part's file, {.} the same without its end, {/.} that without
# its folder.
THERE = (
    "mkdir {.}.d && tar xf {} -C {.}.d && cd {.}.d && "
    "{ ./program list; echo $? >../{/.}.status; } >../{/.}.out; cd .. && rm -rf {/.}.d"
)


class Fault(Exception):
    """Why the parts can't go to the machines."""


def hosts_in(name):
    """Returns how many machines a file names, a line each, as --sshloginfile of GNU parallel has them."""
    try:
        with open(name, encoding="utf-8") as lines:
            count = sum(1 for line in lines if line.strip() and not line.startswith("#"))
    except (OSError, UnicodeDecodeError) as why:
        raise Fault(f"{name}: {getattr(why, 'strerror', None) or 'no text'}") from why
    if count == 0:
        raise Fault(f"{name} names no machine")
    said = subprocess.run(["parallel", "--version"], capture_output=True, text=True, check=False).stdout if shutil.which("parallel") else ""
    if not said.startswith("GNU parallel"):
        raise Fault("--hosts wants GNU parallel (the package parallel of Debian)")
    return count


def file_named(name, room):
    """Returns what a file of a case is called there: it lies below the folder where the list is run, or was made in the room of this call."""
    if name.startswith(room + b"/"):
        return TEXTS + name[len(room) :]
    if name.startswith(b"/") or b".." in name.split(b"/"):
        raise Fault(f"{os.fsdecode(name)} lies elsewhere: with --hosts a list names files below the folder where it is run")
    return name


def bundle(part, program, to, room):
    """Writes the file with which a part goes to a machine."""
    lines, names = [], {}
    for line in part:
        words = line.split(b" ", 4)
        named = [word if word == b"-" else file_named(word, room) for word in words[:3]]
        names.update(zip(named, words))
        lines.append(b" ".join([*named, *words[3:]]) + b"\n")
    with tarfile.open(to, "w") as file:
        head = tarfile.TarInfo("list")
        head.size = sum(map(len, lines))
        file.addfile(head, io.BytesIO(b"".join(lines)))
        file.add(os.path.realpath(program), "program")
        for there, here in sorted(names.items()):
            if there != b"-" and os.path.isfile(here):
                file.add(os.fsdecode(here), os.fsdecode(there))


def answers(parts, program, hosts, jobs, texts):
    """Returns the status and the report of each part, or None where none came back."""
    room = tempfile.mkdtemp(prefix="valumeiro-suite-")
    try:
        names = [os.path.join(os.path.basename(room), str(index)) for index in range(len(parts))]
        above = os.path.dirname(room)
        for part, name in zip(parts, names):
            bundle(part, program, os.path.join(above, f"{name}.tar"), os.fsencode(texts))
        words = ["parallel", "--will-cite", "--sshloginfile", os.path.abspath(hosts), "--jobs", str(jobs), "--transferfile", "{}"]
        words += ["--return", "{.}.out", "--return", "{.}.status", "--cleanup", THERE, ":::", *(f"{name}.tar" for name in names)]
        subprocess.run(words, cwd=above, stdin=subprocess.DEVNULL, stdout=subprocess.DEVNULL, check=False)
        return [answer(os.path.join(above, name)) for name in names]
    finally:
        shutil.rmtree(room, ignore_errors=True)


def answer(name):
    """Returns what came back of one part."""
    try:
        with open(f"{name}.status", encoding="ascii") as status, open(f"{name}.out", "rb") as report:
            return int(status.read()), report.read()
    except (OSError, ValueError):
        return None


def run(program, lines, jobs, hosts, texts):
    """Runs the lines of cases in parts on the machines of a file: the status and the lines of the report. TEXTS is the folder of texts made here."""
    count = hosts_in(hosts)
    told = answers(suite_calls.parts_of(lines, jobs * count * suite_calls.PARTS_PER_JOB), program, hosts, jobs, texts)
    if None in told:
        raise Fault("a part came back from no machine")
    return suite_calls.merged([suite_calls.Part(*one) for one in told])
