"""The picture of a run: a lane for each replica, an arrow for each message. A long run is drawn
in several strips, one below the other, so that it fits a page."""

from __future__ import annotations

from dataclasses import dataclass, field
from html import escape

from trace_inspection.order import Order, lost_and_pending, place_of
from trace_inspection.trace import Entry, Event, Send, Trace

COLOURS = {
    "NewView": "#8a8a8a", "Ask": "#2b6cb0", "Order": "#2f855a", "Propose": "#c05621",
    "Vote": "#6b46c1", "Fetch": "#b7791f", "Give": "#0d9488",
}
SECOND = "second block"
SECOND_COLOUR = "#d53f8c"
LEFT, RIGHT, LANE, STEP = 100, 205, 78, 17
MAX_TURNS = 50
LEGEND, RULER, GAP = 36, 26, 14
MAX_COMMITS = 4
HALO = 'paint-order="stroke" stroke="#fff" stroke-width="3"'
SANS = 'font-family="DejaVu Sans, Helvetica, Arial, sans-serif" font-size="11"'


def element(name: str, content: str = "", /, **attributes: object) -> str:
    """One element; an underscore in the name of an attribute stands for a hyphen."""
    written = "".join(
        f' {key.replace("_", "-")}="{round(value, 2) if isinstance(value, float) else value}"'
        for key, value in attributes.items()
    )
    return f"<{name}{written}>{content}</{name}>" if content else f"<{name}{written}/>"


def line(x1: float, y1: float, x2: float, y2: float, **style: object) -> str:
    return element("line", x1=x1, y1=y1, x2=x2, y2=y2, **style)


def text(x: float, y: float, words: object, style: str = "") -> str:
    space = " " if style else ""
    return f'<text x="{x:.1f}" y="{y:.1f}"{space}{style}>{escape(str(words))}</text>'


@dataclass
class Strip:
    """Some turns of the run, drawn below the strips before them."""

    first: int
    last: int
    top: float
    lanes: list[str] = field(default_factory=list)
    arrows: list[str] = field(default_factory=list)
    labels: list[str] = field(default_factory=list)

    def x(self, turn: int) -> float:
        return float(LEFT + STEP * (turn - self.first))

    def y(self, replica: int) -> float:
        return self.top + RULER + LANE * replica + 30

    def has(self, turn: int | None) -> bool:
        return turn is not None and self.first <= turn <= self.last

    def crosses(self, start: int, end: int) -> bool:
        return start <= self.last and end >= self.first


class Picture:
    """Draws the turns from `first` to `last`."""

    def __init__(self, trace: Trace, order: Order, first: int, last: int, name: str) -> None:
        self.trace, self.order, self.name = trace, order, name
        self.first, self.last = first, last
        sends = [send for link in order.links.values() for send in link]
        self.sends = [s for s in sends if self.is_drawn(s)]
        lost, _ = lost_and_pending(trace, order)
        self.lost = [s for s in lost if s.sent is not None and first <= s.sent <= last]
        self.second = self.second_blocks(sends)
        self.strips = self.make_strips()
        self.width = max(s.x(s.last) for s in self.strips) + RIGHT
        self.height = self.strips[-1].top + RULER + LANE * trace.n + GAP

    def is_drawn(self, send: Send) -> bool:
        if send.sent is None or send.turn is None:
            return False
        return send.turn >= self.first and send.sent <= self.last and send.turn <= self.last

    def second_blocks(self, sends: list[Send]) -> dict[bytes, int]:
        """The blocks proposed in a view after another one of that view, with the view."""
        firsts: dict[int, bytes] = {}
        second: dict[bytes, int] = {}
        for send in sorted(sends, key=place_of):
            block = send.block()
            if send.kind == "Propose" and block is not None:
                if firsts.setdefault(send.view, block) != block:
                    second[block] = send.view
        return second

    def make_strips(self) -> list[Strip]:
        count = self.last - self.first
        strips = -(-count // MAX_TURNS) or 1
        turns = -(-count // strips)
        height = RULER + LANE * self.trace.n + GAP
        return [
            Strip(self.first + k * turns, min(self.first + (k + 1) * turns, self.last),
                  LEGEND + k * height)
            for k in range(strips)
        ]

    def key(self, send: Send) -> str:
        """Under which name of the legend a message stands."""
        return SECOND if send.block() in self.second else send.kind

    def colour(self, key: str) -> str:
        return SECOND_COLOUR if key == SECOND else COLOURS[key]

    def draw_arrow(self, strip: Strip, send: Send) -> None:
        if send.sent is None or send.turn is None or not strip.crosses(send.sent, send.turn):
            return
        key = self.key(send)
        is_refused = send.entry is not None and send.entry.reason != "Done"
        style = {
            "stroke": self.colour(key), "stroke_width": 1.2,
            "opacity": 0.55 if is_refused else 0.9,
            "marker_end": f"url(#{key.replace(' ', '-')})",
        }
        if is_refused:
            style["stroke_dasharray"] = "4 3"
        x1, x2 = strip.x(send.sent), strip.x(send.turn)
        y1, y2 = strip.y(send.sender), strip.y(send.to)
        if send.sender == send.to:
            path = (f"M{x1:.1f} {y1:.1f} C{x1 + 6:.1f} {y1 - 24:.1f} "
                    f"{x2 - 6:.1f} {y1 - 24:.1f} {x2:.1f} {y1 - 5:.1f}")
            strip.arrows.append(element("path", d=path, fill="none", **style))
        else:
            strip.arrows.append(line(x1, y1, x2, y2 - (5 if y2 > y1 else -5), **style))

    def draw_cross(self, strip: Strip, send: Send) -> None:
        """A lost message: a stub with a cross."""
        if send.sent is None or not strip.has(send.sent):
            return
        y1, y2 = strip.y(send.sender), strip.y(send.to)
        x1, x2, y = strip.x(send.sent), strip.x(send.sent) + 16, y1 + (y2 - y1) * 0.45
        colour = self.colour(self.key(send))
        strip.arrows.append(line(x1, y1, x2, y, stroke=colour, stroke_width=1.2))
        for d in (-4, 4):
            strip.arrows.append(
                line(x2 - 4, y - d, x2 + 4, y + d, stroke="#c53030", stroke_width=2)
            )

    def draw_lane(self, strip: Strip, r: int) -> None:
        y, is_faulty = strip.y(r), r in self.trace.faulty
        dash = {"stroke_dasharray": "2 5"} if is_faulty else {}
        end = strip.x(strip.last) + 8
        strip.lanes.append(line(LEFT - 16, y, end, y, stroke="#444", stroke_width=1.4, **dash))
        strip.labels.append(text(12, y + 4, f"replica {r}"))
        if is_faulty:
            strip.labels.append(text(12, y + 18, "faulty", 'fill="#c53030"'))
        entries = [e for e in self.trace.journals.get(r, []) if strip.has(e.turn)]
        for entry in entries:
            self.draw_entry(strip, entry, y)
        self.draw_commits(strip, [e for e in entries if e.moved.commit], y)

    def draw_entry(self, strip: Strip, entry: Entry, y: float) -> None:
        x = strip.x(entry.turn)
        if entry.event == Event.TICK:
            strip.labels.append(line(x, y - 9, x, y + 9, stroke="#111", stroke_width=3))
        elif entry.event == Event.DELIVERED:
            is_done = entry.reason == "Done"
            strip.labels.append(element(
                "circle", cx=x, cy=y, r=3, fill="#444" if is_done else "#fff",
                stroke="#444" if is_done else "#c53030",
            ))
        if entry.moved.commit:
            path = f"M{x:.1f} {y - 7:.1f} l7 7 l-7 7 l-7 -7 z"
            strip.labels.append(element("path", d=path, fill="#276749"))
        if entry.moved.view:
            above = 12 if entry.moved.commit else 8
            style = f'fill="#555" font-size="10" {HALO}'
            strip.labels.append(text(x + 3, y - above, f"v{entry.view}", style))

    def draw_commits(self, strip: Strip, entries: list[Entry], y: float) -> None:
        """The commits of a lane, to the right of its end, where no arrow goes."""
        x = strip.x(strip.last) + 18
        for k, entry in enumerate(entries[:MAX_COMMITS]):
            count = entry.moved.batches
            batches = f", {count} batch{'es' if count > 1 else ''}" if count else ""
            words = f"turn {entry.turn}: commit {entry.commit}{batches}"
            if k == MAX_COMMITS - 1 and len(entries) > MAX_COMMITS:
                words = f"and {len(entries) - k} more commits"
            strip.labels.append(text(x, y + 4 + 14 * k, words, 'fill="#276749"'))

    def draw_strip(self, number: int, strip: Strip) -> str:
        for turn in range(strip.first - strip.first % 10, strip.last + 1, 10):
            if strip.has(turn):
                x, bottom = strip.x(turn), strip.y(self.trace.n - 1) + 24
                strip.lanes.append(line(x, strip.top + RULER - 6, x, bottom, stroke="#e6e6e6"))
                style = 'fill="#777" font-size="10" text-anchor="middle"'
                strip.lanes.append(text(x, strip.top + RULER - 10, turn, style))
        strip.lanes.append(text(12, strip.top + RULER - 10, "turn", 'fill="#777" font-size="10"'))
        for r in range(self.trace.n):
            self.draw_lane(strip, r)
        for send in self.sends:
            self.draw_arrow(strip, send)
        for send in self.lost:
            self.draw_cross(strip, send)
        left, right = LEFT - 16, strip.x(strip.last) + 12
        window = element("rect", x=left, y=strip.top, width=right - left,
                         height=RULER + LANE * self.trace.n + GAP)
        clip = element("clipPath", window, id=f"strip{number}")
        arrows = element("g", "\n" + "\n".join(strip.arrows) + "\n",
                         clip_path=f"url(#strip{number})")
        return "\n".join([clip, *strip.lanes, arrows, *strip.labels])

    def legend(self) -> str:
        """The kinds of messages and the signs that occur."""
        keys = {self.key(send) for send in [*self.sends, *self.lost]}
        out, x = [], float(LEFT - 16)
        for key in [*COLOURS, SECOND]:
            if key in keys:
                views = sorted(set(self.second.values()))
                words = key
                if key == SECOND:
                    words = f"Propose, Vote: second block of view {', '.join(map(str, views))}"
                out.append(line(x, 14, x + 20, 14, stroke=self.colour(key), stroke_width=3))
                out.append(text(x + 25, 18, words))
                x += 44 + 6.6 * len(words)
        signs = [sign for sign, occurs in self.signs().items() if occurs]
        return "\n".join([*out, text(LEFT - 16, 34, " · ".join(signs), 'fill="#555"')])

    def signs(self) -> dict[str, bool]:
        entries = [e for e in self.trace.entries() if self.first <= e.turn <= self.last]
        return {
            "bar: tick": any(e.event == Event.TICK for e in entries),
            "v2: enters view 2": any(e.moved.view for e in entries),
            "◆: a commit": any(e.moved.commit for e in entries),
            "dashed, ring: refused": any(e.message_is_refused() for e in entries),
            "×: lost": bool(self.lost),
        }

    def description(self) -> str:
        """The run in words, for readers who can't see the picture."""
        trace = self.trace
        faulty = f", faulty: {', '.join(map(str, trace.faulty))}" if trace.faulty else ""
        out = [f"A run of {trace.n} replicas{faulty}, with {trace.ticks} ticks and "
               f"{trace.turns} turns. Each replica is a lane, each message an arrow."]
        for block_view in sorted(set(self.second.values())):
            out.append(f"In view {block_view} two blocks are proposed.")
        for r in trace.honest:
            commits = [f"view {e.commit} at turn {e.turn}" for e in trace.journals[r]
                       if e.moved.commit]
            out.append(f"Replica {r} commits {', '.join(commits) or 'nothing'}.")
        return " ".join(out)

    def heads(self) -> str:
        """The arrow heads."""
        return "".join(
            f'<marker id="{key.replace(" ", "-")}" viewBox="0 0 8 8" refX="7" refY="4" '
            f'markerWidth="6" markerHeight="6" orient="auto">'
            f'<path d="M0 0 L8 4 L0 8 z" fill="{self.colour(key)}"/></marker>'
            for key in sorted({self.key(send) for send in self.sends})
        )

    def draw(self) -> str:
        strips = [self.draw_strip(k, strip) for k, strip in enumerate(self.strips)]
        size = f'width="{self.width:.0f}" height="{self.height:.0f}"'
        box = f'viewBox="0 0 {self.width:.0f} {self.height:.0f}"'
        return "\n".join([
            f'<svg xmlns="http://www.w3.org/2000/svg" {size} {box} {SANS} role="img" '
            'aria-labelledby="title desc">',
            f'<title id="title">The run of {escape(self.name)}</title>',
            f'<desc id="desc">{escape(self.description())}</desc>',
            f'<defs>{self.heads()}</defs>',
            '<rect width="100%" height="100%" fill="#fff"/>',
            self.legend(), *strips, "</svg>", "",
        ])
