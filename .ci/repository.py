"""What the scripts of this folder know of the repository: its crates, what stands below and above each, and what a proof of one reads."""
import functools
import hashlib
import os
import re
import shutil
import subprocess

ROOT = os.path.dirname(os.path.dirname(os.path.abspath(__file__)))


def text_of(path):
    with open(path, encoding="utf-8", errors="replace") as file:
        return file.read()


@functools.lru_cache(maxsize=None)
def libraries():
    """The libraries that each crate of crates.txt uses, by its name."""
    found = {}
    for line in re.sub(r"#.*", "", text_of(f"{ROOT}/crates.txt")).split("\n"):
        name, colon, used = line.partition(":")
        if colon:
            found[name.split()[0]] = used.split()
    return found


def below(name):
    """The crates of the repository below one, and itself."""
    found, left = set(), [name]
    while left:
        crate = left.pop()
        if crate in libraries() and crate not in found:
            found.add(crate)
            left += libraries()[crate]
    return found


def above(name):
    """The crates that a change of one proves again, beside itself."""
    return {crate for crate in libraries() if crate != name and name in below(crate)}


def copy(crates, folder):
    """Copies these crates into a folder as the top of a repository, without edits."""
    os.makedirs(f"{folder}/crates", exist_ok=True)
    # So that it is the top of a repository, wherever it lies.
    os.makedirs(f"{folder}/.git", exist_ok=True)
    left_out = shutil.ignore_patterns("out", "must-fail", "wrong-bodies")
    for crate in crates:
        shutil.copytree(f"{ROOT}/crates/{crate}", f"{folder}/crates/{crate}", ignore=left_out)
    with open(f"{folder}/crates.txt", "w", encoding="utf-8") as file:
        file.writelines(f"{crate}: {' '.join(used)}\n" for crate, used in libraries().items() if crate in crates)
    shutil.copy(f"{ROOT}/HANDLES", folder)


# ---- what a proof reads


def files_of(folder):
    return sorted(f"{at}/{name}" for at, _, names in os.walk(folder) for name in names)


def sum_of(texts):
    """A short checksum of texts in their order."""
    made = hashlib.sha256()
    for text in texts:
        made.update(f"{len(text)} {text}".encode())
    return made.hexdigest()[:16]


def named(path):
    return f"{os.path.relpath(path, ROOT)}\n{text_of(path)}"


def kit():
    return subprocess.run(["rt", "version"], stdout=subprocess.PIPE, text=True, check=True).stdout.strip()


@functools.lru_cache(maxsize=None)
def sources(name):
    """A checksum of all that a crate's own proof reads of the crate."""
    folder = f"{ROOT}/crates/{name}"
    return sum_of(named(path) for part in ("src", "specs", "proofs") for path in files_of(f"{folder}/{part}"))


def without_bodies(text):
    """A source file as the crates above see it: no comment, and no body of a function, which stands between two lines of its indent."""
    rows, indent, is_signature = [], None, False
    for row in text.split("\n"):
        if indent is not None:
            if row == indent + "}":
                indent = None
            continue
        if row.strip().startswith("//") or not row.strip():
            continue
        started = re.match(r"( *)(?:pub(?:\(\w+\))? )?(?:const )?(?:unsafe )?fn ", row)
        if started:
            is_signature, margin = True, started[1]
        if is_signature and (row == margin + "{" or row.startswith(margin) and row.endswith(" {") and not row.lstrip().startswith(("ensures", "requires"))):
            rows.append(row.removesuffix("{"))
            is_signature, indent = False, margin
            continue
        if is_signature and row.endswith((";", "{}")):
            is_signature = False
        rows.append(row)
    return "\n".join(rows)


@functools.lru_cache(maxsize=None)
def contracts(name):
    """A checksum of what a crate shows to those above: its definitions, and its source files without bodies."""
    folder = f"{ROOT}/crates/{name}"
    code = [f"{path}\n{without_bodies(text_of(path))}" for path in files_of(f"{folder}/src")]
    return sum_of([*(named(path) for path in files_of(f"{folder}/specs")), *(it.removeprefix(ROOT) for it in code)])


def contracts_below(name):
    """A checksum of what all crates below one show."""
    return sum_of(f"{crate} {contracts(crate)}" for crate in sorted(below(name) - {name}))
