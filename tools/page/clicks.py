"""A page tried in a browser: how it looks, games by clicks, drags, keys and touch, hidden values, addresses, and what it shows beside `gamesman ask`."""
import json
import random

from page.listing import value_text, worth
from page.looks import CONTRAST, NAMED, NAMELESS

# How a place's middle is found (above the badge that may stand there), and what a game in a page is at.
MIDDLE = "k => { const r = board.places[k].g.querySelector('.hit').getBoundingClientRect(); return [r.x + r.width / 2, r.y + r.height / 3]; }"
WIDTHS = ((360, 740), (1280, 800))
# What is drawn on each place, if men are of two kinds: then a move changes no place but its ends, also if the game turns its board.
MEN = "board.places.map((_, k) => game.men.length === 2 ? kindAt(k) : 0)"
SOME_MOVES = """(async () => {
  for (let k = 0; k < 4; k++) {
    const inside = moves.filter(m => m.to !== null);
    if (inside.length) await play(inside[k % 2 && inside.length - 1]);
  }
  await lead();
})()"""


class Tried:
    """One page in a browser, with what was found wrong."""

    def __init__(self, browser, game, url, answers, places):
        self.browser, self.game, self.url, self.answers, self.places = browser, game, url, answers, places
        self.wrong, self.moves = [], 0
        # (the same tries each time)
        self.chance = random.Random(game)

    def want(self, what, got, wanted=True):
        if got != wanted:
            self.wrong.append(f"{self.game}: {what}: {str(got)[:300]}, not {str(wanted)[:300]}")
        return got == wanted

    def js(self, text):
        return self.browser.js(text)

    def open(self, address=""):
        """Opens the page anew at an address, and waits until its position is there."""
        self.browser.open(self.url + address)
        self.browser.until("game && line.length > 0 && $('state').textContent !== ''")

    def middle(self, k):
        return self.js(f"({MIDDLE})({k})")

    def looks(self, width, height, scheme):
        """The page as it is opened, and some moves later: its places, its width, its colours, and the names of what can be pressed."""
        self.browser.size(width, height, scheme)
        self.open()
        self.want("places", self.js("document.querySelectorAll('#board .hit').length === game.points.length"))
        for when in ("at first", "later"):
            what = f"at {width}, {scheme}, {when}"
            self.want(f"width {what}", self.js("document.documentElement.scrollWidth <= document.documentElement.clientWidth"))
            self.want(f"contrast {what}", self.js(CONTRAST), [])
            self.want(f"names {what}", self.js(NAMELESS), [])
            self.want(f"names of places {what}", self.js(NAMED))
            self.js(SOME_MOVES)

    def press(self, ends, dragging):
        """One move on the board: a drag, or a press on each end, the second time on the same for a move of one place, where it is asked for."""
        self.js(f"board.places[{ends[0]}].g.scrollIntoView({{ block: 'center' }})")
        if dragging and len(ends) == 2:
            return self.browser.drag(self.middle(ends[0]), self.middle(ends[1]))
        for k in ends:
            self.browser.click(self.middle(k))
        if len(ends) == 1 and self.js("picked") is not None:
            self.browser.click(self.middle(ends[0]))

    def by_clicks(self):
        """A game on the board, to its end or to the page's."""
        self.js("begin(0)")
        for ply in range(40):
            inside = self.js("moves.filter(m => m.to !== null).map(m => [m.name, m.to, m.ends])")
            if not inside:
                return
            name, to, ends = self.chance.choice(inside)
            before = self.js(MEN)
            self.press(ends, ply % 2)
            self.moves += 1
            changed = [k for k, (was, now) in enumerate(zip(before, self.js(MEN))) if was != now]
            self.want(f"places that {name} changes, beside its ends", [k for k in changed if k not in ends], [])
            if not self.want(f"{name} by clicks", self.js("[line[at].row, at]"), [to, ply + 1]):
                return

    def by_keys(self):
        """The list, the line and a place by the keyboard."""
        key, at = self.browser.key, "at"
        self.js("begin(0).then(() => document.querySelector('#moves button').focus())")
        for _ in range(self.js("[...document.querySelectorAll('#moves button')].findIndex(x => !x.classList.contains('far'))")):
            key("ArrowDown")
        key("Enter", "\r")
        self.want("enter plays", self.js(at), 1)
        self.want("focus stays", self.js("document.activeElement.closest('#moves') !== null || document.activeElement.id === 'back'"))
        for name, wanted in (("ArrowLeft", 0), ("ArrowRight", 1), ("Home", 0), ("End", 1)):
            key(name)
            self.want(name, self.js(at), wanted)
        key("Home")
        self.js("document.querySelector('#board .live').focus()")
        key("Enter", "\r")
        self.want("a place by enter", self.js("at === 1 || picked !== null || $('say').textContent !== ''"))
        key("Escape")
        self.want("escape", self.js("picked"), None)

    def hidden(self):
        """Hidden values are told by nothing; shown again they are there."""
        self.js("begin(0).then(() => $('hide').focus())")
        self.browser.key("v", "v")
        self.want("nothing is shown", self.js("document.querySelectorAll('.value, .badge').length"), 0)
        self.want("no plot", self.js("getComputedStyle($('plot')).display"), "none")
        told = "[...document.querySelectorAll('main *')].filter(e => /\\b(win|lose|tie|draw)\\b/.test(e.getAttribute('aria-label') || '')).length"
        self.want("no name tells", self.js(told), 0)
        sorted_names = "(() => { const x = [...document.querySelectorAll('#moves button')].map(b => b.textContent); return '' + x === '' + [...x].sort(); })()"
        self.want("the order tells nothing", self.js(sorted_names))
        self.browser.key("v", "v")
        self.want("shown again", self.js("document.querySelectorAll('#moves .value').length > 0"))
        self.browser.key("l", "l")
        self.want("the best line", self.js("$('say').textContent.startsWith('The best line')"))

    def beside_ask(self, count):
        """What the page shows of positions beside what `ask` says of them."""
        chosen = self.chance.sample(range(len(self.answers)), min(count, len(self.answers)))
        shown = self.js(SHOWN % json.dumps(chosen))
        for k, (text, state, moves) in zip(chosen, shown):
            answer = self.answers[k]
            self.want(f"line {k}", text, answer["position"])
            wanted = [[move["move"], worth(move), move["position"] not in self.places] for move in answer["moves"]]
            self.want(f"moves of {text}", moves, wanted)
            value = value_text(answer["positionValue"], answer["remoteness"])
            over = "The game is over: " + ("a tie" if value == "tie in 0" else "")
            self.want(f"state of {text}", state.endswith(f" to move{value}") if moves else over in state)

    def addresses(self):
        """Links to positions and lines; what is none; many steps at once."""
        for k in self.chance.sample(range(len(self.answers)), min(3, len(self.answers))):
            text = json.dumps(self.answers[k]["position"])
            for front in ("'#'", "'#' + game.game + '/'"):
                self.js(f"location.hash = {front} + encodeURIComponent({text})")
                self.browser.until(f"textAt(at) === {text} && $('say').textContent === ''")
                self.browser.until(f"decodeURIComponent(location.hash) === '#' + game.game + ({text} === game.start ? '' : '/' + {text})")
        names = self.js("begin(0).then(lead).then(() => line.slice(1, 3).map(step => step.name))")
        for front, hidden in (("#", False), ("#?", True)):
            self.open(front + "".join(f"/{name}" for name in names))
            self.want(f"a line after {front}", self.js("[line[0].row, at, hidden]"), [0, len(names), hidden])
        for bad in ("#no such position", "#%E0%A4%A", "#/no/such/line"):
            self.open(bad)
            self.want(bad, self.js("[at, $('say').textContent]"), [0, "What the address names is not in this page."])
        self.js("lead().then(() => { for (let k = 0; k < 300; k++) go(k % 2); })")
        self.browser.until("location.hash.startsWith('#' + game.game)")

    def by_touch(self):
        """A move by a finger: a drag where the board doesn't scroll the page, else taps."""
        self.browser.size(*WIDTHS[0], "light")
        self.browser.call("Emulation.setTouchEmulationEnabled", enabled=True, maxTouchPoints=1)
        self.open()
        name, ends, dragged = self.js("(m => [m.name, m.ends, game.men.length === 1])(moves.find(m => m.to !== null && m.ends.length === 2) || moves[0])")
        self.js(f"board.places[{ends[0]}].g.scrollIntoView({{ block: 'center' }})")
        start, end = self.middle(ends[0]), self.middle(ends[-1])
        way = [[start, [(a + b) / 2 for a, b in zip(start, end)], end]] if dragged else [[point] for point in (start, end)[: len(ends)]]
        for first, *further in way:
            self.browser.touch("touchStart", first)
            for point in further:
                self.browser.touch("touchMove", point)
            self.browser.touch("touchEnd")
        if self.js("at === 0 && picked !== null && picked !== undefined") and len(ends) == 1:
            self.browser.touch("touchStart", start)
            self.browser.touch("touchEnd")
        self.browser.until("at === 1")
        self.want("a move by touch", self.js("line[1].name"), name)
        self.browser.call("Emulation.setTouchEmulationEnabled", enabled=False)

    def run(self):
        """All of it; gives what is wrong."""
        for width, height in WIDTHS:
            for scheme in ("light", "dark"):
                self.looks(width, height, scheme)
                self.want(f"console and network at {width}, {scheme}", self.browser.faults(self.url), [])
        for part in (self.by_clicks, self.by_clicks, self.by_keys, self.hidden, lambda: self.beside_ask(200), self.addresses, self.by_touch):
            part()
            self.want("console and network", [said for said in self.browser.faults(self.url) if not said.startswith(self.url)], [])
        return self.wrong


# The text, the state and the moves of lines of the data.
SHOWN = """(async () => {
  const shown = [];
  for (const k of %s) {
    await begin(k);
    const moves = [...document.querySelectorAll("#moves li")].flatMap(li =>
      [...li.querySelectorAll("button")].map(b => [b.move.name, li.querySelector(".value").textContent, b.classList.contains("far")]));
    shown.push([textAt(at), $("state").textContent, moves]);
  }
  return shown;
})()"""
