"""The engine of a release and the example for node, tried as a programmer would: with the files of the archive, and no others."""
import base64
import glob
import gzip
import os
import re
import shlex
import shutil
import subprocess

from release import parts

SECONDS = 120
PAGE, MODULE, TEXT = "examples/node/README.md", "engine/gamesman.wasm", "engine/engine.txt"

# The games whose positions in the vectors are asked.
GAMES = ("tictactoe", "dao", "krk")


def ran(words, folder, given=""):
    """The status of a command, and what it writes to both streams."""
    done = subprocess.run(words, cwd=folder, input=given, capture_output=True, text=True, timeout=SECONDS, check=False)
    return done.returncode, done.stdout, done.stderr


def content(folder, path):
    with open(os.path.join(folder, path), "rb") as file:
        return file.read()


def wrong_answers(folder):
    """Where ask.mjs answers positions of the vectors, and a text that is no position, otherwise than `gamesman ask`."""
    for game in GAMES:
        texts = [row.split("\t")[0] for row in content(folder, f"vectors/{game}.tsv").decode().splitlines()[1:]] + ["no position"]
        said = ran(["node", "examples/node/ask.mjs", MODULE, game, *texts], folder)
        if said != ran([f"{folder}/bin/gamesman", "ask", game, "--values"], folder, "".join(f"{text}\n" for text in texts)):
            yield f"ask.mjs {game}: status {said[0]}, {said[1][:200]!r}, {said[2][:200]!r}, and not what ask writes"


def wrong_samples(folder, page):
    """The samples of the page that write something else than it shows, or otherwise than `gamesman ask`."""
    samples = re.findall(r"(?m)^\$ (node .*)\n((?:\{.*\n)+)", page)
    for line, shown in samples:
        _, _, _, game, *texts = words = shlex.split(line)
        asked = ran([f"{folder}/bin/gamesman", "ask", game, "--values"], folder, "".join(f"{text}\n" for text in texts))
        found = ran(words, folder)
        if not asked[1] == shown == found[1] or found[0]:
            yield f"{PAGE}: {line} writes {found}, and ask {asked}"
    if len(samples) != 2:
        yield f"{PAGE} has {len(samples)} samples"


def wrong_program(folder, room, page):
    """What is wrong with the lines that a programmer copies from the page: in a folder with the module and its script they write what their comments say."""
    place = os.path.join(room, "copied")
    os.mkdir(place)
    for path in (MODULE, "examples/node/engine.cjs"):
        shutil.copy(os.path.join(folder, path), place)
    text = "".join(re.findall(r"(?ms)^```js\n(.*?)^```$", page))
    with open(f"{place}/program.mjs", "w", encoding="utf-8") as file:
        file.write(text)
    wanted = "".join(f"{word}\n" for word in re.findall(r"(?m)^console\.log.*// (\w+)$", text))
    said = ran(["node", "program.mjs"], place)
    return [] if said == (0, wanted, "") and wanted.count("\n") == 2 else [f"{PAGE}: its program writes {said}, and not {wanted!r}"]


def wrong_refusals(folder):
    """What is wrong with the refusals of ask.mjs: of an unknown game, and of a file that is no module."""
    for words, why in (((MODULE, "chess", "x"), "ask.mjs: no such game\n"), ((PAGE, "dao", "x"), "ask.mjs: WebAssembly")):
        said = ran(["node", "examples/node/ask.mjs", *words], folder)
        if said[:2] != (1, "") or not said[2].startswith(why):
            yield f"ask.mjs {words}: {said}"


def wrong_text(folder):
    """What is wrong with the text of the engine: it has the module, and the program makes a page of it."""
    text = content(folder, TEXT)
    _, _, module = gzip.decompress(base64.b64decode(text)).partition(b"\0")
    if module != content(folder, MODULE):
        yield f"{TEXT} has another module"
    status, page, errors = ran([f"{folder}/bin/gamesman", "page", "dao", "--engine", TEXT], folder)
    if status or errors or text.decode().strip() not in page:
        yield f"{TEXT}: page dao: status {status}, {errors!r}"


def faults(folder, room, left_out):
    """What is wrong with the engine and the example in the archive of a release."""
    parts.told("tar", "-xzf", glob.glob(f"{folder}/*.tar.gz")[0], "-C", room)
    top = os.path.join(room, f"gamesman-{parts.version()}-x86_64-linux")
    if not os.path.exists(os.path.join(top, MODULE)):
        left_out.append("the module for WebAssembly, the engine's text, and the example for node: tools/web has built no module")
        return
    yield from wrong_text(top)
    if not shutil.which("node"):
        left_out.append("the example for node: no node here")
        return
    page = content(top, PAGE).decode()
    yield from (why for found in (wrong_answers(top), wrong_samples(top, page), wrong_program(top, room, page), wrong_refusals(top)) for why in found)
