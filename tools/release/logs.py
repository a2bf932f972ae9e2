"""That the text on what was proved is made of a whole log of the gate, and of no other."""
import os

from release import proved
from release.parts import MODULE, PROGRAM, Refused, told

VERDICT = "logic=proved functions={} sum=0123456789abcdef native=nat,char,string"
ENDS = (
    "docs: 19 pages, 0 faults",
    "rt: ok; handles allowed: Threads, Wait",
    "135 passed, 0 failed",
    "lines: 150 passed, 0 failed",
    "terminal: 5 passed, 0 failed",
    "page: 20 pages, 4 sheets, 0 faults; no browser here, so nothing was clicked",
    "web: a page of 400000 bytes; 30000 answers, 300 refusals; the page tried in Chromium; 0 faults",
    "hostile: 5 passed, 0 failed",
    "python: 27 tests, 0 failed",
    "release: 5 files equal to the byte (made.deb 9), 0 faults",
    "needs: no chromium here; not run for want of it: pages in a browser",
    "needs: 11 of 12 packages are here",
)


def lines_of(commit):
    """The lines of a log in which all is well, as `rt ci` and the tools write them."""
    lines = ["needs: 11 of 12 packages are here", f"commit {commit}", "rattle-kit-0 logic 0123456789abcdef", ENDS[0]]
    for number, name in enumerate(proved.crates(), 1):
        lines += [f"== {name}", "statements core: modules loaded=0 checked=0", VERDICT.format(number), f"rt: {name} proved"]
        lines += [f"== {name}: its tests", VERDICT.format(1000 + number), f"rt: {name}: its tests proved"] if number % 2 else []
        lines += [f"rt: must-fail {name}/a_case_missed.edit: refused, as it must be: error", f"rt: must-fail {name}/turned.edit: refused, as it must be"]
    return lines + [*ENDS[1:3], f"{proved.sum_of(PROGRAM)}  crates/gamesman/out/gamesman", *lines_of_module(), *ENDS[3:]]


def lines_of_module():
    """The line by which the gate names the module that it has built, if one is here."""
    return [f"{proved.sum_of(MODULE)}  crates/gm_web/out/web/engine.wasm"] if os.path.isfile(MODULE) else []


def text_of(lines, commit, room):
    """The text for a log with these lines, or None where it is refused."""
    path = os.path.join(room, "log")
    with open(path, "w", encoding="utf-8") as file:
        file.write("\n".join(lines) + "\n")
    try:
        log = proved.log_of(path)
        return proved.text("1.2.3", commit, log, proved.module_built(log)).decode()
    except Refused:
        return None


def wrong(room):
    """What is wrong, if anything. A line of each crate and the gate's last lines have to be in the text, and a log without one of them has to be refused."""
    commit = told("git", "rev-parse", "HEAD").decode().strip()
    whole = lines_of(commit)
    text = text_of(whole, commit, room) or ""
    for number, name in enumerate(proved.crates(), 1):
        row = f"{name:14} {proved.tree_of(name)}  edits refused=2  {VERDICT.format(number)}\n"
        if text.count(row) != 1:
            return f"the text on what was proved has no line {row!r}"
    lost = [line for line in (commit, "rattle-kit-0 logic", *ENDS) if line not in text and not line.startswith("rt: ")]
    if lost:
        return f"the text on what was proved does not have {lost}"
    program, modules = f"{proved.sum_of(PROGRAM)}  crates/gamesman/out/gamesman", lines_of_module()
    without = text_of([line for line in whole if line not in modules], commit, room) or ""
    if (text.count("\nmodule "), without.count("\nmodule "), bool(without)) != (len(modules), 0, True):
        return "the text on what was proved names another module than the log"
    needed = [ENDS[0], *ENDS[2:9], whole[1], whole[2], program, VERDICT.format(1), f"rt: {proved.crates()[0]} proved"]
    bad = [[line for line in whole if line != gone] for gone in needed]
    bad += [[line.replace(" 0 fa", " 1 fa") if line == changed else line for line in whole] for changed in (ENDS[0], *ENDS[2:9])]
    bad += [[line.replace(commit, it) for line in whole] for it in ("0" * 40, f"{commit}-dirty")]
    bad += [["0" * 64 + line[64:] if line in modules else line for line in whole] for _ in modules]
    kept = [lines for lines in bad if lines == whole or text_of(lines, commit, room)]
    return f"{len(kept)} logs that are not whole are taken for whole ones" if kept else None
