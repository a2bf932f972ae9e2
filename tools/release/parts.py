"""What a release has: each file with its mode and its bytes, in the archive, the Debian package and the wheel."""
import glob
import gzip
import importlib.util
import os
import re
import subprocess
import tempfile

from lib.paths import ROOT, built
from release import vectors

# The program that is released is always the built one.
PROGRAM = built("gamesman")

# The WebAssembly module of gm_web, which tools/web builds where node and binaryen are there.
MODULE = os.path.join(ROOT, "crates/gm_web/out/web/engine.wasm")

NAME = "gamesman"
MAINTAINER = "Fegbolaru maintainers <maintainers@users.noreply.fegbolaru.example>"

BOARDS = sorted(os.path.relpath(path, ROOT) for path in glob.glob(os.path.join(ROOT, "docs/pictures/board-*.svg")))
PICTURES = ("docs/pictures/explorer.png", "docs/pictures/explorer-dark.png", *BOARDS)

# The pages of the repository that a user of the program reads.
PAGES = ("README.md", "docs/PROGRAM.md", "docs/GAMES.md", "docs/FORMATS.md", "docs/CHANGELOG.md", *PICTURES)
LICENCES = ("LICENSE-MIT", "LICENSE-APACHE")
EXAMPLES = ("python/README.md", "python/puzzles.py", "python/remoteness.py", "c/README.md", "c/gamesman.h", "c/lookup.c")
EXAMPLES += ("node/README.md", "node/ask.mjs", "node/engine.cjs")
ENGINE_SCRIPT = "tools/web/page/engine.js"


# What the archive and the wheel have below a prefix beside the program, by the short names of `shared`.
SHARED = {
    "share/man/man1/gamesman.1": "manual",
    "share/bash-completion/completions/gamesman": "bash",
    "share/zsh/site-functions/_gamesman": "zsh",
    "share/fish/vendor_completions.d/gamesman.fish": "fish",
}


class Refused(Exception):
    """Why there is no release."""


def read(path):
    with open(os.path.join(ROOT, path), "rb") as file:
        return file.read()


def told(*words):
    """What a command writes; anything but success is a refusal."""
    ran = subprocess.run(words, cwd=ROOT, stdin=subprocess.DEVNULL, capture_output=True, check=False)
    if ran.returncode:
        raise Refused(f"{' '.join(words)}: status {ran.returncode}, {ran.stderr.decode(errors='replace').strip()}")
    return ran.stdout


def version():
    """The version that the program says, which is the package's too."""
    found = re.fullmatch(r"gamesman (\d+\.\d+\.\d+)\n", told(PROGRAM, "--version").decode())
    of_package = re.search(r'(?m)^__version__ = "([^"]+)"$', read("python/gamesman/__init__.py").decode())
    if not found or not of_package or found[1] != of_package[1]:
        raise Refused(f"the program is version {found and found[1]}, and the Python package {of_package and of_package[1]}")
    return found[1]


def package_of_python():
    """The files of the Python package, by their paths below python/."""
    names = told("git", "ls-files", "python/gamesman", "python/README.md", "python/backend.py", "python/pyproject.toml").decode().split()
    return {os.path.relpath(name, "python"): read(name) for name in sorted(names)}


def shared():
    """What is in both: the program, its page of the manual, and its completions, by short names."""
    found = {"program": read(PROGRAM), "manual": told(PROGRAM, "man")}
    return {**found, **{shell: told(PROGRAM, "completions", shell) for shell in ("bash", "zsh", "fish")}}


def engine(module):
    """What a release has of a module, by short names: the module, and the text of it that `page --engine` reads. Without a module there is nothing."""
    if not module:
        return {}
    with tempfile.TemporaryDirectory(prefix="engine-") as room:
        told(os.path.join(ROOT, "tools/web/make_engine"), MODULE, f"{room}/engine.txt")
        return {"gamesman.wasm": module, "engine.txt": read(f"{room}/engine.txt")}


def backend():
    """The module that makes wheels, python/backend.py."""
    spec = importlib.util.spec_from_file_location("backend", os.path.join(ROOT, "python/backend.py"))
    found = importlib.util.module_from_spec(spec)
    spec.loader.exec_module(found)
    return found


def tag():
    """What a wheel with the program says of the machines on which it runs: Linux with this C library or a later one."""
    return f"py3-none-manylinux_{c_library().replace('.', '_')}_x86_64"


def wheel(proved):
    """The name of the wheel with the program, and its bytes: the package, and the program, its manual page and its completions beside it."""
    made, own, number = backend(), shared(), version()
    data, about = f"{NAME}-{number}.data", f"{NAME}-{number}.dist-info"
    program = f"{data}/scripts/gamesman"
    files = {path: text for path, text in package_of_python().items() if path.startswith("gamesman/")}
    files.update((f"{about}/{path}", read(path)) for path in LICENCES)
    files[program], files[f"{about}/PROVED.txt"] = own["program"], proved
    files.update((f"{data}/data/{path}", own[name]) for path, name in SHARED.items())
    return made.wheel_name(tag()), made.wheel(files, tag(), {program})


def with_modes(texts, programs=()):
    return {path: (0o755 if path in programs else 0o644, text) for path, text in texts.items()}


def example(name):
    """An example as a release has it: in the place of the file that refers to the engine's script, that script."""
    return read(ENGINE_SCRIPT if name == "node/engine.cjs" else f"examples/{name}")


def archive(proved, page, module):
    """The files of the archive. Only it has positions to check a reader by."""
    own = shared()
    texts = {
        "bin/gamesman": own["program"],
        "PROVED.txt": proved,
        **{path: own[name] for path, name in SHARED.items()},
    }
    texts.update((path, read(path)) for path in PAGES + LICENCES)
    texts.update((f"python/{path}", text) for path, text in package_of_python().items())
    texts.update((f"examples/{name}", example(name)) for name in EXAMPLES)
    texts.update(vectors.files(PROGRAM))
    texts.update((f"engine/{name}", text) for name, text in engine(module).items())
    texts.update({"games.html": page} if page else {})
    scripts = {f"examples/{name}" for name in EXAMPLES if name.endswith(".py")}
    return with_modes(texts, {"bin/gamesman", *scripts})


def zipped(text):
    """A text as Debian keeps it, without a date."""
    return gzip.compress(text, 9, mtime=0)


COPYRIGHT = """Format: https://www.debian.org/doc/packaging-manuals/copyright-format/1.0/
Upstream-Name: gamesman

Files: *
Copyright: 2026 the gamesman authors
License: Expat or Apache-2.0

License: Expat
"""


def copyright_text():
    """Debian's file of licences: the whole text of one, and where the other one is."""
    _, _, terms = read("LICENSE-MIT").decode().partition("\n\n")[2].partition("\n\n")
    expat = "".join(f" {line or '.'}\n" for line in terms.strip().split("\n"))
    return (COPYRIGHT + expat + "\nLicense: Apache-2.0\n On Debian systems the text is in /usr/share/common-licenses/Apache-2.0.\n").encode()


def debian_changes(number, date):
    return f"gamesman ({number}) unstable; urgency=medium\n\n  * CHANGELOG.md says what is new.\n\n -- {MAINTAINER}  {date}\n".encode()


OVERRIDES = b"""# The program is to the byte the one that the gate built, tested and named the sum of, so nothing is taken out of it.
gamesman: unstripped-binary-or-object [usr/bin/gamesman]
# It is published by its authors, and in no archive that has reports of wishes.
gamesman: initial-upload-closes-no-bugs [usr/share/doc/gamesman/changelog.gz:1]
"""

# Python writes what it compiles beside the modules, where root runs it.
BEFORE_REMOVAL = b"""#!/bin/sh
set -e
rm -rf /usr/lib/python3/dist-packages/gamesman/__pycache__
"""


def debian(proved, page, module, date):
    """The files of the Debian package, but for its control files."""
    own, number = shared(), version()
    doc, modules = "usr/share/doc/gamesman", "usr/lib/python3/dist-packages"
    texts = {
        "usr/bin/gamesman": own["program"],
        "usr/share/man/man1/gamesman.1.gz": zipped(own["manual"]),
        "usr/share/bash-completion/completions/gamesman": own["bash"],
        "usr/share/zsh/vendor-completions/_gamesman": own["zsh"],
        "usr/share/fish/vendor_completions.d/gamesman.fish": own["fish"],
        "usr/share/lintian/overrides/gamesman": OVERRIDES,
        f"{doc}/copyright": copyright_text(),
        f"{doc}/changelog.gz": zipped(debian_changes(number, date)),
        f"{doc}/PROVED.txt": proved,
    }
    texts.update((f"{doc}/{os.path.basename(path)}", read(path)) for path in PAGES if path.endswith(".md"))
    texts.update((f"{modules}/{path}", text) for path, text in package_of_python().items() if path.startswith("gamesman/"))
    texts.update((f"{doc}/examples/{name}", example(name)) for name in EXAMPLES)
    texts[f"{doc}/PYTHON.md"] = read("python/README.md")
    texts.update((f"usr/share/gamesman/engine/{name}", text) for name, text in engine(module).items())
    texts.update({"usr/share/gamesman/games.html": page} if page else {})
    return with_modes(texts, {"usr/bin/gamesman"})


def c_library():
    """The least version of the C library that has all symbols of the program, which is linked with nothing else."""
    text = read(PROGRAM)
    found = {tuple(map(int, it.decode().split("."))) for it in re.findall(rb"\0GLIBC_(\d+\.\d+(?:\.\d+)?)(?=\0)", text)}
    if not found:
        raise Refused("the program names no version of the C library")
    return ".".join(map(str, max(found)))


def control(number, files):
    """The control file of the package."""
    size = sum(-(-len(text) // 1024) for _, text in files.values())
    return f"""Package: gamesman
Version: {number}
Architecture: amd64
Maintainer: {MAINTAINER}
Installed-Size: {size}
Depends: libc6 (>= {c_library()})
Suggests: python3
Section: math
Priority: optional
Description: solver of board games whose values are proved
 gamesman solves two-player games without chance or hidden information, such as
 Tic-tac-toe, Achi, Dao, and Hare and Hounds. For every legal position it finds
 whether the player to move wins, loses, ties or draws, and in how many moves.
 .
 It looks positions up, ranks moves, draws boards, finds puzzles, and plays.
 That its values are right is proved. A package for Python is included.
""".encode()


def written(folder, files):
    """Writes files below a folder, with one date and in order."""
    for path, (mode, text) in sorted(files.items()):
        to = os.path.join(folder, path)
        os.makedirs(os.path.dirname(to), mode=0o755, exist_ok=True)
        with open(to, "xb") as file:
            os.fchmod(file.fileno(), mode)
            file.write(text)
