"""A picture of who holds which buffer: a row for each buffer, and a column for each line of a transcript."""

from html import escape

COLUMN, LANE, GAP, EDGE = 54, 20, 10, 16
TEXT, LETTER, SMALL_LETTER = 12, 6.6, 6.2  # the size of letters, and the width of one, at most on average
MOST = 44  # letters of what stands over a column

STYLE = """
  text { font: 12px system-ui, -apple-system, "Segoe UI", "DejaVu Sans", sans-serif; fill: #1f2328; }
  .ground { fill: #ffffff; }
  .quiet { fill: #59636e; font-size: 11px; }
  .asked { font-weight: 600; }
  .line { stroke: #d1d9e0; }
  .store { fill: #0b6e6e; }
  .waits { fill: #a85400; }
  .sent { fill: #f7e0c8; stroke: #a85400; }
  .lost { fill: #f7e0c8; stroke: #a85400; stroke-dasharray: 3 2; }
  .on { fill: #ffffff; font-size: 11px; }
  @media (prefers-color-scheme: dark) {
    text { fill: #e6edf3; }
    .ground { fill: #0d1117; }
    .quiet { fill: #9198a1; }
    .line { stroke: #2f3742; }
    .store { fill: #45bdb8; }
    .waits { fill: #f0a04b; }
    .sent, .lost { fill: #3d2a14; stroke: #f0a04b; }
    .on { fill: #06201f; }
  }
"""

LEGEND = (
    ("store", "the store has it for a key"),
    ("waits", "a reply has it, and waits to be sent"),
    ("sent", "the reply was sent, and not yet taken back"),
    ("lost", "the reply was dropped"),
)


SESSIONS = "reply 1:3 is the reply to call 3 of session 1"


def width_of(text):
    return LETTER * len(text)


def name_of(buffer):
    kind = "small" if buffer.is_small else "large"
    return f"{kind} {buffer.number}" + (" (stage)" if buffer.is_of_stage else "")


def shortened(text):
    return text if len(text) <= MOST else text[: MOST - 1] + "\u2026"


class Picture:
    def __init__(self, transcript):
        self.lines, self.names_sessions = transcript.lines, bool(transcript.sessions[1:])
        self.buffers = [transcript.buffers[address] for address in sorted(transcript.buffers)]
        self.lanes = [lanes_of(buffer, len(self.lines)) for buffer in self.buffers]
        longest = max(width_of(f"{line.asked} {shortened(line.came)}") for line in self.lines)
        names = (width_of(name_of(buffer)) for buffer in self.buffers)
        self.left = EDGE + max(names, default=0) + 12  # where the first column begins
        self.top = EDGE + 0.71 * longest + TEXT
        self.right = self.left + COLUMN * len(self.lines) + max(0.71 * longest - COLUMN / 2, 0) + EDGE
        self.parts = []

    def x(self, line):
        """Where a line's column has its middle."""
        return self.left + COLUMN * (line + 0.5)

    def add(self, name, text=None, **how):
        words = "".join(f' {key.rstrip("_").replace("_", "-")}="{value}"' for key, value in how.items())
        self.parts.append(f"<{name}{words}/>" if text is None else f"<{name}{words}>{text}</{name}>")

    def text(self, x, y, text, **how):
        self.add("text", escape(text, quote=False), x=f"{x:.1f}", y=f"{y:.1f}", **how)

    def draw(self):
        """Returns the picture as SVG."""
        y = self.top
        for buffer, lanes in zip(self.buffers, self.lanes):
            y = self.draw_row(buffer, lanes, y)
        self.draw_columns(y)
        height = self.draw_legend(y + 2 * GAP) + EDGE
        width = max(self.right, self.legend_right)
        head = f'<svg xmlns="http://www.w3.org/2000/svg" width="{width:.0f}" height="{height:.0f}"'
        head += f' viewBox="0 0 {width:.0f} {height:.0f}" role="img">'
        title = "<title>Who holds which buffer, line by line of a transcript</title>"
        ground = '<rect class="ground" width="100%" height="100%"/>'
        return "\n".join([head, title, f"<style>{STYLE}</style>", ground, *self.parts, "</svg>", ""])

    def draw_row(self, buffer, lanes, y):
        """One buffer: its name, a line, and a bar for each hold. Returns where the next row begins."""
        height = GAP + LANE * max(len(lanes), 1)
        middle = y + height / 2
        self.text(self.left - 12, middle - 1, name_of(buffer), text_anchor="end")
        self.text(self.left - 12, middle + 11, f"at {buffer.address}", text_anchor="end", class_="quiet")
        self.add("path", class_="line", d=f"M{EDGE} {y:.1f}H{self.left + COLUMN * len(self.lines):.1f}")
        for number, lane in enumerate(lanes):
            for hold in lane:
                self.draw_hold(hold, y + GAP / 2 + LANE * number)
        return y + max(height, 30)

    def draw_hold(self, hold, y):
        begins, ends = self.x(hold.begins), self.x(self.end_of(hold))
        if hold.frame is None:
            return self.draw_bar("store", begins, ends, y, hold.labels)
        gathered = hold.frame.gathered
        if gathered is None or gathered >= self.end_of(hold):
            return self.draw_bar("waits", begins, ends, y, hold.labels)
        self.draw_bar("lost" if hold.frame.was_dropped else "sent", self.x(gathered), ends, y, hold.labels[:1], False)
        return self.draw_bar("waits", begins, self.x(gathered), y, hold.labels)

    def end_of(self, hold):
        """The line in which a hold ends. What replies still hold goes back at the end, and what the store has stays."""
        return hold.ends if hold.ends is not None else len(self.lines) - (0.5 if hold.frame is None else 1)

    def draw_bar(self, kind, begins, ends, y, labels, is_labelled=True):
        """A bar with the first of its labels that fits. The first of all stands where the pointer rests."""
        wide, title = ends - begins, f"<title>{escape(labels[0], quote=False)}</title>"
        where = {"x": f"{begins:.1f}", "y": f"{y + 1:.1f}", "width": f"{wide:.1f}", "height": LANE - 3, "rx": 3}
        self.add("rect", title, class_=kind, **where)
        fits = (label for label in labels if SMALL_LETTER * len(label) + 8 <= wide)
        label = next(fits, None) if is_labelled else None
        if label is not None:
            self.text(begins + 5, y + LANE / 2 + 3.5, label, class_="on")

    def draw_columns(self, bottom):
        """What each line asked and what came of it, slanting, and a line down through its column."""
        for number, line in enumerate(self.lines):
            x = self.x(number)
            down = f"M{x:.1f} {self.top - 4:.1f}V{bottom:.1f}"
            self.parts.insert(0, f'<path class="line" d="{down}" stroke-dasharray="1 4"/>')
            y = self.top - 8
            turned = f"rotate(-45 {x:.1f} {y:.1f})"
            came = escape(shortened(line.came), quote=False)
            text = f'<tspan class="asked">{escape(line.asked, quote=False)}</tspan> {came}'
            self.add("text", text, x=f"{x:.1f}", y=f"{y:.1f}", transform=turned)
        self.add("path", class_="line", d=f"M{EDGE} {bottom:.1f}H{self.left + COLUMN * len(self.lines):.1f}")

    def draw_legend(self, y):
        """What the colours that occur mean, in as many lines as that takes. Returns where it ends."""
        drawn = "".join(self.parts)
        x, self.legend_right = EDGE, 0
        for kind, meaning in LEGEND:
            if f'class="{kind}"' not in drawn:
                continue
            wide = 28 + width_of(meaning) + 14
            if x > EDGE and x + wide > max(self.right, 420):
                x, y = EDGE, y + LANE
            self.add("rect", class_=kind, x=f"{x:.1f}", y=f"{y:.1f}", width=20, height=12, rx=3)
            self.text(x + 27, y + 10, meaning)
            x += wide
            self.legend_right = max(self.legend_right, x)
        if self.names_sessions:
            y += LANE
            self.text(EDGE, y + 10, SESSIONS, class_="quiet")
            self.legend_right = max(self.legend_right, EDGE + width_of(SESSIONS))
        return y + LANE


def lanes_of(buffer, lines):
    """The holds of a buffer in lanes in which none covers another: the store's first."""
    lanes = []
    for hold in sorted(buffer.holds, key=lambda it: (it.frame is not None, it.begins)):
        fits = (lane for lane in lanes if lane[-1].ends is not None and lane[-1].ends <= hold.begins)
        lane = next((it for it in fits if (it[0].frame is None) == (hold.frame is None)), None)
        if lane is None:
            lanes.append([hold])
        else:
            lane.append(hold)
    return lanes
