"""The page with all games and that of one game, opened from their files in Chromium: looks, names, addresses, keys, typing, play, puzzles, answers, and no
request; what players do (uses.js); and both pages without WebAssembly."""
import json
import os
import re
import time
import urllib.parse

from lib.programs import told
from page import chromium
from page.looks import CONTRAST, NAMELESS

READY = """$('fault').textContent !== ''
|| (!$('explorer').hidden && line.length > 0 && rows[line[at].row].moves !== undefined && $('state').textContent !== '')"""
SOME = """(async () => {
  const texts = [];
  for (let k = 0; k < 12; k++) texts.push(await ask("random", { game: game.game, record: 0 }));
  return texts;
})()"""
SHOWN = """(async text => {
  const row = await find(text);
  return [rows[row][1], rows[row].moves.map(m => [m.name, m.worth, rows[m.to][0]])];
})"""
REPLIES = """(async text => {
  const { moves } = rows[await find(text)];
  for (const m of moves) await find(rows[m.to][0]);
  return moves.map(repliesTo).map((it, k) => it && [moves[k].name, it.kept, it.all, it.soon]);
})"""
HERE = os.path.dirname(os.path.abspath(__file__))
OVER = "document.documentElement.scrollWidth > document.documentElement.clientWidth"
FRESH = """(async () => {
  const took = [];
  for (let k = 0; k < 9; k++) {
    const text = await ask("random", { game: game.game, record: 0 }), start = performance.now();
    await find(text);
    took.push(performance.now() - start);
  }
  return took.sort((a, b) => a - b)[4];
})()"""
# (wide, high, the size of letters in per cent)
SIZES = ((1280, 960, 100), (360, 780, 100), (1280, 960, 200), (640, 480, 100))
PRESSED = ("button", "link", "textbox", "combobox", "option")
GAMES = "tictactoe dao mutorere hare tactix-4 countdown dodgem connect4-4x4 nim chomp".split()


def worth(value, left):
    return value if value == "draw" else f"{value} in {left}"


class Tried:
    """The page in a browser, with what was found wrong and what was measured; and the page of Dao with some positions."""

    def __init__(self, file, one, asked, pictures=None):
        self.url, self.asked, self.pictures = f"file://{os.path.abspath(file)}", asked, pictures
        self.all, self.one = self.url, f"file://{os.path.abspath(one)}"
        self.browser, self.wrong, self.figures = chromium.Browser(), [], {}

    def want(self, what, got, wanted=True):
        if got != wanted:
            self.wrong.append(f"{what}: {str(got)[:300]}, not {str(wanted)[:300]}")

    def js(self, text):
        return self.browser.js(text)

    def open(self, address=""):
        """Opens the page anew, and gives the milliseconds to the first value."""
        start = time.monotonic()
        self.browser.open(self.url + address)
        if address:
            self.browser.until(READY)
        return round(1000 * (time.monotonic() - start))

    def soon(self, what, text):
        """A fact comes to hold."""
        try:
            self.browser.until(text)
        except TimeoutError:
            self.wrong.append(f"{what}: never {text}; {self.js('$(`say`).textContent')}")

    def looks(self):
        for width, height, letters in SIZES:
            for scheme in ("light", "dark"):
                self.browser.size(width, height, scheme)
                for where in ("", *(f"#{game}" for game in GAMES)):
                    self.open(where)
                    self.js(f"document.documentElement.style.fontSize = '{letters}%'")
                    what = f"{where or 'the list'} at {width}, {letters} per cent, {scheme}"
                    self.want(f"width of {what}", self.js(OVER), False)
                    self.want(f"contrast of {what}", self.js(CONTRAST), [])
                    self.want(f"names of {what}", self.js(NAMELESS), [])
                    self.shot(f"{where[1:] or 'list'}-{width}-{letters}-{scheme}", width, height)
                    if where and width == 360:
                        self.edited_looks(what)
        self.browser.size(1280, 960, "light")

    def edited_looks(self, what):
        """The same of an edited board that is no position, and the moves in the first window before that."""
        self.want(f"the moves' top of {what}", self.js("$('moves').getBoundingClientRect().top < innerHeight - 40"))
        self.js("edit().then(() => board.inRow || change(0))")
        for name, found in (("width", OVER), ("contrast", CONTRAST), ("names", NAMELESS)):
            self.want(f"{name} of {what}, edited", self.js(found) or [], [])
        self.js("cancel()")

    def shot(self, name, width, height):
        if self.pictures:
            with open(os.path.join(self.pictures, f"{name}.png"), "wb") as it:
                it.write(self.browser.picture({"x": 0, "y": 0, "width": width, "height": height, "scale": 1}))

    def names(self):
        """What can be pressed has a name, and the value is in a part that is spoken."""
        self.open("#dao")
        self.soon("replies", "$('moves').querySelector('small') !== null")
        self.browser.call("Accessibility.enable")
        nodes = [node for node in self.browser.call("Accessibility.getFullAXTree")["nodes"] if not node.get("ignored")]
        named = [(node["role"]["value"], node.get("name", {}).get("value", "")) for node in nodes]
        self.want("what has no name", [role for role, name in named if role in PRESSED and not name], [])
        places = [name for role, name in named if role == "button" and re.match("[a-d][1-4], ", name)]
        self.want("places of the board", len(places), 16)
        self.want("a place's name", "a1, Black, draw" in places)
        names = [name for _, name in named]
        for name in ("a1-a3, 10/10: 10 of 10 replies keep the draw", "Play", "Solver", "Length of puzzles", "Copy link", "Edit the board", "Puzzle"):
            self.want(f"the name {name}", name in names)
        self.want("what is spoken", self.js("$('state').getAttribute('role') === 'status' && $('state').textContent.includes('draw')"))

    def addresses(self):
        text = "x.x..x.x.o.oo..o"
        quoted = urllib.parse.quote(text, safe="")
        for address, at, shown, hidden in ((f"#dao/{quoted}", 0, text, False), ("#dao//a1-a3", 1, None, False), (f"#dao?/{quoted}", 0, text, True)):
            self.open(address)
            self.want(f"{address}: where", self.js("at"), at)
            self.want(f"{address}: hidden", self.js("hidden"), hidden)
            if shown:
                self.want(f"{address}: what", self.js("textAt(at)"), shown)
        self.open("#dao/none")
        self.soon("a wrong position", "$('say').textContent === 'There is no such position or move.'")
        self.open("#chess")
        self.want("a wrong game", self.js("$('fault').textContent"), "There is no game chess here.")

    def typing(self):
        self.open("#dao")
        self.js("$('typing').value = 'x.x..x.x.o.oo..o'; $('typed').requestSubmit()")
        self.soon("typed", "textAt(at) === 'x.x..x.x.o.oo..o'")
        self.js("$('typing').value = 'nothing'; $('typed').requestSubmit()")
        self.soon("typed wrong", "$('typing').getAttribute('aria-invalid') === 'true'")
        self.want("after a wrong text", self.js("textAt(at)"), "x.x..x.x.o.oo..o")

    def keys(self):
        key = self.browser.key
        self.open("#dao")
        self.js("board.places[0].g.focus()")
        key("ArrowRight")
        self.want("the arrow to the right", self.js("document.activeElement === board.places[1].g"))
        key("ArrowDown")
        self.want("the arrow down", self.js("document.activeElement === board.places[5].g"))
        key("Enter", "\r")
        self.want("Enter on a stone", self.js("picked"), 5)
        key("Escape")
        self.want("Escape", self.js("picked"), None)
        self.js("$('best').focus()")
        key("b", "b")
        self.soon("key b", "at === 1 && rows[line[at].row].moves")
        key("ArrowLeft")
        self.soon("the arrow to the left", "at === 0")
        key("v", "v")
        self.soon("key v", "hidden")
        key("v", "v")
        key("r", "r")
        self.soon("key r", "$('say').textContent === 'A random position.'")
        key("g", "g")
        self.soon("key g", "!$('games').hidden")

    def play(self):
        self.open("#dao")
        self.js("$('versus').value = '1'; $('versus').onchange()")
        self.soon("the solver's first move", "line.length === 2 && at === 1 && hidden && side(at) === 1")
        self.js("play(moves[0])")
        self.soon("the solver's answer", "line.length === 4 && at === 3")
        self.open("#countdown/4")
        self.js("$('versus').value = '0'; $('versus').onchange(); play(moves.find(m => m.name === '1'))")
        self.soon("the solver's answer", "line.length === 3 && at === 2")
        self.js("play(moves[0])")
        self.soon("the end", "['You won.', 'The solver won.'].includes($('say').textContent)")

    def puzzles(self):
        for game in ("dao", "tictactoe", "hare"):
            self.open(f"#{game}")
            self.js("puzzle()")
            self.soon(f"a puzzle of {game}", "puzzled && $('say').textContent.startsWith('A puzzle: ')")
            self.want(f"winning moves of {game}", self.js("moves.filter(m => word(m.worth) === 'win').length"), 1)
            self.want(f"values of {game}'s puzzle", self.js("hidden && !document.querySelector('#moves .value')"))
        self.js("play(moves.find(m => word(m.worth) !== 'win'))")
        self.soon("a wrong move", "$('say').textContent.startsWith('That gives the win away.')")

    def uses(self):
        """What players do with the page, by the script that Firefox takes too: editing, play, puzzles, texts."""
        self.open("#dao")
        with open(os.path.join(HERE, "uses.js"), encoding="ascii") as it:
            self.js(f"globalThis.USES = {it.read()}; 0")
        for part in self.js("Object.keys(USES)"):
            self.wrong += self.js(f"USES[{part!r}]()")

    def answers(self):
        """What the page shows of random positions, compared with the program's answers."""
        for game in GAMES:
            self.open(f"#{game}")
            texts = self.js(SOME)
            for text, line in zip(texts, self.asked(game, texts)):
                shown = self.js(f"{SHOWN}({text!r})")
                moves = [[m["move"], worth(m["moveValue"], m["moveRemoteness"]), m["position"]] for m in line["moves"]]
                self.want(f"{game} {text}", shown, [worth(line["positionValue"], line["remoteness"]), moves])
            for text in texts[:3]:
                replied = map(json.loads, told("moves", game, text, "--replies", "--json").splitlines())
                wanted = [None if it["moveValue"] == "win" or not it["replies"] else [it["move"], it["keeping"], it["replies"], it["losesIn"]] for it in replied]
                self.want(f"{game} {text}: the replies", self.js(f"{REPLIES}({text!r})"), wanted)

    def times(self):
        for game in ("dao", "tactix-4"):
            self.figures[f"{game} to the first value, ms"] = min(self.open(f"#{game}") for _ in range(3))
            self.figures[f"{game}, a new position, ms"] = round(self.js(FRESH), 1)

    def worths(self):
        """The counts of a game of one tier, and a position that is picked by them."""
        self.open("#dodgem")
        self.want("counts", self.js("[...document.querySelectorAll('#counts em')].reduce((sum, it) => sum + Number(it.textContent.replace(/\\D/g, '')), 0)"), 1377)
        self.js("document.querySelector('#counts button').click()")
        self.soon("a position of a worth", "$('say').textContent === 'A random position of this worth.'")
        self.want("its worth", self.js("valueAt(at) === document.querySelector('#counts .value').textContent"))

    def single(self):
        """The page of one game: it opens that game, and solves it."""
        self.url = self.one
        self.figures["Dao's own page to the first value, ms"] = self.open("#")
        self.want("the page's game", self.js("[game.game, textAt(at), $('way').hidden, valueAt(at)]"), ["dao", "x..o.xo..ox.o..x", True, "draw"])
        self.want("a position that it has not", self.js("given.every(row => row[0] !== 'x.x..x.x.o.oo..o')"))
        self.open("#dao/" + urllib.parse.quote("x.x..x.x.o.oo..o", safe=""))
        self.want("it solves that", self.js("textAt(at)"), "x.x..x.x.o.oo..o")
        self.open("#chess")
        self.soon("another game", "$('say').textContent === 'There is no such position or move.'")

    def without(self):
        self.browser.call("Page.addScriptToEvaluateOnNewDocument", source="delete globalThis.WebAssembly")
        self.browser.open(self.all)
        self.want("without WebAssembly", "no WebAssembly" in self.js("$('fault').textContent"))
        self.browser.open(self.one)
        self.browser.until("!$('explorer').hidden && $('state').textContent !== ''")
        self.want("Dao without WebAssembly", "shows the positions that it has been given" in self.js("$('fault').textContent"))
        self.want("its first position", self.js("[textAt(at), valueAt(at), moves.length]"), ["x..o.xo..ox.o..x", "draw", 12])
        self.want("what needs the engine", self.js("['random', 'against', 'setting', 'worths'].every(id => $(id).hidden)"))
        self.js("$('best').focus()")
        self.browser.key("e", "e")
        self.want("the key e without the engine", self.js("editor"), None)
        self.js("play(moves.find(m => m.to !== null))")
        self.browser.until("at === 1")
        self.js("go(0)")
        self.browser.until("at === 0")
        self.want("given rows", self.js("rows.length"), 50)
        self.js("begin(49)")
        self.browser.until("line[0].row === 49")
        self.js("play(moves.find(m => m.to === null))")
        self.soon("a move that leads out", "$('say').textContent.includes('is not in this page. It is in that of gamesman page dao ')")

    def run(self):
        try:
            for part in (self.looks, self.names, self.addresses, self.typing, self.keys, self.play, self.puzzles, self.uses, self.answers, self.worths, self.times,
                         self.single):
                part()
                faults = [it for it in self.browser.faults(self.url) if not str(it).startswith("blob:")]
                self.want(f"{part.__name__}: what is said on the console or asked for", faults, [])
            self.without()
        except (OSError, EOFError, RuntimeError, TimeoutError) as why:
            self.wrong.append(f"in the browser: {str(why)[:300]}")
        finally:
            self.browser.close()
        return self
