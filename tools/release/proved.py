"""The text that says what was proved of a release, from the log of the gate."""
import hashlib
import os
import re

from release.parts import MODULE, PROGRAM, Refused, read, told

# The last line of each part of the gate, if all is well.
ENDS = {
    "docs": r"docs: \d+ pages, 0 faults",
    "proofs, edits, tests and programs": r"\d+ passed, 0 failed",
    "lines": r"lines: \d+ passed, 0 failed",
    "terminal": r"terminal: \d+ passed, 0 failed",
    "pages": r"page: \d+ pages, \d+ sheets, 0 faults.*",
    "the page with the solver": r"web: (?:a page of \d+ bytes; .*; 0 faults|.*, so no module was built and nothing was tried)",
    "hostile use": r"hostile: \d+ passed, 0 failed",
    "Python": r"python: \d+ tests, 0 failed.*",
}


def crates():
    """The names of the crates, in the order of crates.txt."""
    lines = read("crates.txt").decode().splitlines()
    return [line.split(":")[0].split()[0] for line in lines if ":" in line and not line.startswith("#")]


def verdicts(log):
    """The last verdict line of each crate, without its tests: how many functions are proved, over which logic."""
    found = {}
    for name, block in re.findall(r"(?ms)^== (\w+)\n(.*?)(?=^== |^rt: ok; |\Z)", log):
        lines = re.findall(r"(?m)^logic=proved .*$", block)
        if lines and re.search(rf"(?m)^rt: {name} proved$", block):
            found[name] = lines[-1]
    return found


def edits(log):
    """How many must-fail edits of each crate were refused."""
    refused = re.findall(r"(?m)^rt: must-fail (\w+)/\S+: refused", log)
    return {name: refused.count(name) for name in refused}


def ends(log):
    """The last line of each part of the gate. A part that is missing or has failed is a reason to refuse."""
    found = []
    for part, line in ENDS.items():
        lines = re.findall(rf"(?m)^{line}$", log)
        if not lines:
            raise Refused(f"the log does not say that the gate's part '{part}' passed")
        found.append(lines[-1])
    return found + re.findall(r"(?m)^(?:newcomer|release|needs): .*$", log.rpartition(found[-1])[2])


def toolchain(log):
    """The identity of the toolchain, as the log has it."""
    found = re.search(r"(?m)^(rattle-kit-\S+ logic [0-9a-f]+)$", log)
    if not found:
        raise Refused("the log does not name the toolchain")
    return found[1]


def tree_of(name):
    """Git's sum of a crate's files."""
    return told("git", "rev-parse", f"HEAD:crates/{name}").decode().strip()


def rows(log):
    """A line for each crate."""
    found, refused = verdicts(log), edits(log)
    lacking = [name for name in crates() if name not in found]
    if lacking:
        raise Refused(f"the log has no verdict on {', '.join(lacking)}")
    return [f"{name:14} {tree_of(name)}  edits refused={refused.get(name, 0)}  {found[name]}" for name in crates()]


def sum_of(path):
    return hashlib.sha256(read(path)).hexdigest()


def log_of(path):
    with open(path, encoding="utf-8", errors="replace") as file:
        return file.read()


def module_built(log):
    """The module of gm_web, or None if the gate of the log built none; another one than the gate's is a reason to refuse."""
    found = re.search(r"(?m)^([0-9a-f]{64})  crates/gm_web/out/web/engine\.wasm$", log)
    if not found:
        return None
    if not os.path.isfile(MODULE) or found[1] != sum_of(MODULE):
        raise Refused("the built module of gm_web is not the one that the gate of the log built")
    return read(MODULE)


def module_here():
    """The module of gm_web, or None if none is built."""
    return read(MODULE) if os.path.isfile(MODULE) else None


def head(number, commit, module):
    """The first lines of the text: what the release is made of."""
    lines = [f"gamesman {number}", f"commit     {commit}", f"program    SHA-256 {sum_of(PROGRAM)}"]
    return lines + ([f"module     SHA-256 {hashlib.sha256(module).hexdigest()}, of gm_web, for WebAssembly"] if module else [])


def text(number, commit, log, module):
    """The text for a version, from the log of the gate over this very commit, in which it built this very program."""
    named = re.search(r"(?m)^commit ([0-9a-f]{40})(-dirty)?$", log)
    if not named or named[0] != f"commit {commit}":
        raise Refused(f"the log is of {named[0] if named else 'no commit that it names'}, and not of commit {commit}")
    if not re.search(rf"(?m)^{sum_of(PROGRAM)}  crates/gamesman/out/gamesman$", log):
        raise Refused("the built program is not the one that the gate of the log built")
    lines = head(number, commit, module) + [f"toolchain  {toolchain(log)}", ""]
    lines += ["Each crate, with the sum of its files (git rev-parse COMMIT:crates/NAME), how many must-fail edits were refused, and its verdict:", ""]
    lines += rows(log) + ["", "The last lines of the gate:", "", *ends(log), ""]
    lines += ["README.md describes what is proved. docs/PROMISES.md, docs/TRUSTED.md and docs/EVIDENCE.md of the repository have the details.", ""]
    return "\n".join(lines).encode()


def trial(number, commit, module):
    """The text of a trial, which no gate has passed."""
    return "\n".join(head(number, commit, module) + ["", "A trial: this text does not report what was proved.", ""]).encode()
