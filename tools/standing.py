"""For tools/explore, tools/page and tools/suite: whether the programs that they call are proved. A program is called so where tools/prove noted that it proved and
built it from the sources as they are (`is_current` of tools/sources.sh); a file that merely lies where such a program belongs is not."""
import os
import subprocess

HERE = os.path.dirname(os.path.realpath(__file__))
TOP = os.path.dirname(HERE)
TRIAL = b"AddressSanitizer"  # what a program with checks at run time holds, as tools/unproved compiles it


def has_checks(path: str) -> bool:
    """Whether the program was compiled with checks in the place of its proofs."""
    with open(path, "rb") as file:
        return TRIAL in file.read()


def is_built_here(path: str) -> bool:
    name = os.path.basename(path)
    return os.path.exists(f"{TOP}/crates.txt") and os.path.realpath(path) == os.path.realpath(f"{TOP}/crates/{name}/out/{name}")


def is_installed(path: str) -> bool:
    return not os.path.exists(f"{TOP}/crates.txt") and os.path.realpath(os.path.dirname(path)) == os.path.realpath(TOP)


def is_current(name: str) -> bool:
    words = ["bash", "-c", '. tools/sources.sh && is_current "$1"', "bash", name]
    try:
        return subprocess.run(words, cwd=TOP, stdin=subprocess.DEVNULL, stdout=subprocess.DEVNULL, stderr=subprocess.DEVNULL).returncode == 0
    except OSError:
        return False


def lacks(path: str) -> str:
    """Why the program is not to be called proved; nothing where it is proved, and where it stands in a folder that somebody named."""
    if has_checks(path):
        return "it is tried before its proofs, with checks in their place"
    if is_built_here(path) and not is_current(os.path.basename(path)):
        return "tools/prove did not make it of the sources as they are"
    return ""


def is_proved(path: str) -> bool:
    return (is_built_here(path) or is_installed(path)) and not lacks(path)


def warning(paths: list[str]) -> str:
    """One sentence about those of the programs that are not proved, or nothing."""
    whys: dict[str, list[str]] = {}
    for path in paths:
        if why := lacks(path):
            whys.setdefault(why, []).append(os.path.basename(path))
    said = "; ".join(f"{' and '.join(names)}: {why}" for why, names in whys.items())
    return f"NOT PROVED: {said}" if said else ""
