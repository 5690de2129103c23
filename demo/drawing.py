"""An audit as a picture: SVG text."""

from html import escape

import audits

COLOURS = ("#0b6fb8", "#d1540f", "#0a8f6a", "#b3478f", "#8a6d00", "#5b5bd6", "#2f8f9d", "#a23b3b")
INK, GREY, FAINT, RED, PAPER, LANE = "#1f2328", "#59636e", "#d1d9e0", "#cf222e", "#ffffff", "#f6f8fa"
STEP, SHARD, GAP = 62, 100, 22
LEFT, TOP, RIGHT = 92, 92, 30
LEGEND = 66
ARROW = 'marker-end="url(#arrow)"'


class Drawing:
    """Places of calls, and the elements drawn so far: lines below marks below words."""

    def __init__(self, audit):
        self.audit = audit
        self.calls = list(audits.ordered(audit))
        self.column = {id(call): number for number, call in enumerate(self.calls)}
        keys = sorted({call.key for call in self.calls if call.stored or call.verb == "get"})
        self.colours = {key: COLOURS[number % len(COLOURS)] for number, key in enumerate(keys)}
        self.lines, self.marks, self.words = [], [], []

    @property
    def width(self):
        return max(LEFT + STEP * len(self.calls) + RIGHT, 1320)

    @property
    def lanes_end(self):
        return TOP + self.audit.data_centres * (SHARD * self.audit.shards + GAP) - GAP

    @property
    def height(self):
        return self.lanes_end + LEGEND

    def y_of(self, dc, shard):
        return TOP + dc * (SHARD * self.audit.shards + GAP) + shard * SHARD + SHARD / 2 - 8

    def at(self, call):
        return LEFT + STEP * (self.column[id(call)] + 0.5), self.y_of(call.dc, call.shard)

    def colour(self, key):
        return self.colours.get(key, GREY)

    # ---- elements

    def text(self, x, y, words, size=13, fill=INK, anchor="middle", weight="normal", halo=""):
        around = f' stroke="{halo}" stroke-width="4" stroke-linejoin="round" paint-order="stroke"' if halo else ""
        self.words.append(
            f'<text x="{x:g}" y="{y:g}" font-size="{size}" fill="{fill}" text-anchor="{anchor}"'
            f' font-weight="{weight}"{around}>{escape(words)}</text>'
        )

    def mark(self, call, shape):
        self.marks.append(f"<g><title>{escape(sentence(call))}</title>{shape}</g>")

    def path(self, route, stroke, width, dash="", arrow=False):
        dashes = f' stroke-dasharray="{dash}"' if dash else ""
        head = f" {ARROW}" if arrow else ""
        self.lines.append(f'<path d="{route}" fill="none" stroke="{stroke}" stroke-width="{width}"{dashes}{head}/>')


def sentence(call):
    """What a reader sees who rests on a mark."""
    place = f"data centre {call.dc}, shard {call.shard}, moment {call.moment}"
    words = {"put": call.words[:2], "commit": call.words[:3]}.get(call.verb, call.words)
    value = f" '{call.value}'" if call.value else ""
    reply = call.reply[:2] if call.reply[0] in ("found", "stored", "outoforder", "gone") else call.reply[:1]
    return f"{' '.join(words)}{value}: {' '.join(reply)} ({place})"


# ---- lanes and moments


def draw_lanes(drawing):
    audit = drawing.audit
    for dc in range(audit.data_centres):
        top = drawing.y_of(dc, 0) - SHARD / 2 + 8
        drawing.lines.append(
            f'<rect x="8" y="{top:g}" width="{drawing.width - 16:g}" height="{SHARD * audit.shards}" rx="8" fill="{LANE}"/>'
        )
        drawing.text(20, top + 19, f"data centre {dc}", 14, INK, "start", "600")
        for shard in range(audit.shards):
            y = drawing.y_of(dc, shard)
            drawing.path(f"M{LEFT:g} {y:g}H{drawing.width - RIGHT:g}", FAINT, 1.2)
            drawing.text(LEFT - 10, y + 4, f"shard {shard}", 13, GREY, "end")


def draw_moments(drawing):
    """The moments over the calls that were handed them."""
    bottom = drawing.lanes_end
    drawing.text(LEFT - 10, TOP - 14, "moment", 13, GREY, "end")
    start = 0
    for number, call in enumerate(drawing.calls):
        if number + 1 < len(drawing.calls) and drawing.calls[number + 1].moment == call.moment:
            continue
        left, right = LEFT + STEP * start, LEFT + STEP * (number + 1)
        drawing.text((left + right) / 2, TOP - 14, str(call.moment), 13, GREY)
        if number + 1 < len(drawing.calls):
            drawing.lines.append(
                f'<path d="M{right:g} {TOP - 8:g}V{bottom:g}" stroke="{FAINT}" stroke-width="0.8" stroke-dasharray="2 4"/>'
            )
        start = number + 1


# ---- lines


def curve(one, other):
    """From one place to another, leaving and coming in along the lanes."""
    (x, y), (u, v) = one, other
    if y == v:
        return f"M{x:g} {y:g}L{u:g} {v:g}"
    middle = (x + u) / 2
    return f"M{x:g} {y:g}C{middle:g} {y:g} {middle:g} {v:g} {u:g} {v:g}"


def arc(one, other, height):
    (x, y), (u, v) = one, other
    return f"M{x:g} {y:g}Q{(x + u) / 2:g} {min(y, v) - height:g} {u:g} {v:g}"


def shortened(one, other, by):
    """The other place, nearer to the one."""
    (x, y), (u, v) = one, other
    length = max(((u - x) ** 2 + (v - y) ** 2) ** 0.5, 1)
    return u - (u - x) / length * by, v - (v - y) / length * by


def draw_trips(drawing):
    """Each carrier's way: from the pull over the checks to the commit, and back to acknowledge."""
    for trip in audits.trips(drawing.audit):
        colour = drawing.colour(trip[0].pulled[0])
        for one, other in zip(trip, trip[1:]):
            width, dash = (1.2, "1 4") if other.verb == "ack" else (2.2, "")
            drawing.path(curve(drawing.at(one), drawing.at(other)), colour, width, dash)


def draw_queues(drawing):
    """Along the lane of its node: how long what was put waits for the other data centres."""
    for call in drawing.calls:
        if call.verb != "put" or not call.stored or drawing.audit.data_centres == 1:
            continue
        acks = [c for c in drawing.calls if c.verb == "ack" and c.words[2] == call.stored[1] and c.reply == ["acked"]]
        x, y = drawing.at(call)
        is_done = len(acks) == drawing.audit.data_centres - 1
        end = max(drawing.at(ack)[0] for ack in acks) if is_done else drawing.width - RIGHT
        drawing.lines.append(
            f'<path d="M{x:g} {y:g}H{end:g}" stroke="{drawing.colour(call.key)}" stroke-width="7" stroke-opacity="0.16"/>'
        )


def draw_dependencies(drawing):
    """From each put to what it depends on in its data centre, nearest pairs alone."""
    for call in drawing.calls:
        for pair in call.near if call.stored else []:
            cause = audits.source(drawing.audit, call.dc, pair)
            if cause:
                start, end = drawing.at(call), drawing.at(cause)
                start, end = shortened(end, start, 11), shortened(start, end, 13)
                route = arc(start, end, 34) if start[1] == end[1] else f"M{start[0]:g} {start[1]:g}L{end[0]:g} {end[1]:g}"
                drawing.path(route, GREY, 1.2, "5 3", arrow=True)


def draw_reads(drawing):
    """From what was stored at a node to the call that reads it there."""
    for call in drawing.calls:
        if call.found:
            cause = next(
                (c for c in drawing.calls if (c.dc, c.shard) == (call.dc, call.shard) and c.stored == call.found), None
            )
            if cause:
                (x, y), (u, v) = drawing.at(cause), drawing.at(call)
                drawing.path(arc((x + 4, y - 8), (u - 4, v - 8), 16 + (u - x) / 14), drawing.colour(call.key), 1.2)


# ---- marks


def label(drawing, call, first, second):
    x, y = drawing.at(call)
    if second:
        drawing.text(x, y + 40, second, 12, GREY, halo=LANE)
    drawing.text(x, y + 26, first, 12.5, INK, weight="600", halo=LANE)


def draw_put(drawing, call):
    x, y = drawing.at(call)
    colour = drawing.colour(call.key)
    if call.is_refused:
        draw_refused(drawing, call)
        return
    if call.verb == "put":
        drawing.mark(call, f'<circle cx="{x:g}" cy="{y:g}" r="9" fill="{colour}"/>')
    else:
        fill = colour if call.stored else PAPER
        shape = f'<rect x="{x - 7.5:g}" y="{y - 7.5:g}" width="15" height="15" rx="3"'
        drawing.mark(call, f'{shape} fill="{fill}" stroke="{colour}" stroke-width="2"/>')
    version = call.stored[1] if call.stored else call.reply[0]
    label(drawing, call, f"{call.key} {version}", call.value if call.verb == "put" else "")


def draw_get(drawing, call):
    x, y = drawing.at(call)
    colour = drawing.colour(call.key)
    is_exact = call.words[2] != "latest"
    inner = f'<circle cx="{x:g}" cy="{y:g}" r="4.2" fill="none" stroke="{colour}" stroke-width="1.8"/>' if is_exact else ""
    drawing.mark(call, f'<circle cx="{x:g}" cy="{y:g}" r="8" fill="{PAPER}" stroke="{colour}" stroke-width="2.2"/>{inner}')
    if call.found:
        label(drawing, call, f"{call.key} {call.reply[1]}", call.value)
    else:
        label(drawing, call, call.key, {"absent": "none"}.get(call.reply[0], call.reply[0]))


def draw_check(drawing, call):
    x, y = drawing.at(call)
    colour = drawing.colour(call.key)
    if call.reply == ["yes"]:
        shape = f'<path d="M{x:g} {y - 7:g}l7 7l-7 7l-7 -7z" fill="{PAPER}" stroke="{colour}" stroke-width="2"/>'
        drawing.mark(call, shape)
    else:
        drawing.mark(call, cross(x, y))
        label(drawing, call, "waits", f"for {call.key}")


def cross(x, y):
    return f'<path d="M{x - 6:g} {y - 6:g}l12 12m0 -12l-12 12" stroke="{RED}" stroke-width="2.6" stroke-linecap="round"/>'


def draw_refused(drawing, call):
    x, y = drawing.at(call)
    drawing.mark(call, cross(x, y))
    label(drawing, call, call.reply[0], "")


def draw_small(drawing, call):
    """A pull or an acknowledgement."""
    x, y = drawing.at(call)
    key = acknowledged(drawing, call) if call.verb == "ack" else call.reply[1] if call.pulled else None
    colour = drawing.colour(key)
    fill = PAPER if call.verb == "pull" else colour
    drawing.mark(call, f'<circle cx="{x:g}" cy="{y:g}" r="4" fill="{fill}" stroke="{colour}" stroke-width="1.8"/>')


def acknowledged(drawing, call):
    """The key of the version that is acknowledged."""
    stored = (c.stored for c in drawing.calls if c.stored and (c.dc, c.shard) == (call.dc, call.shard))
    return next((key for key, version in stored if version == call.words[2]), None)


def draw_collect(drawing, call):
    x, y = drawing.at(call)
    shape = f'<circle cx="{x:g}" cy="{y:g}" r="9" fill="{PAPER}" stroke="{GREY}" stroke-width="1.6"/>'
    drawing.mark(call, shape)
    drawing.text(x, y + 4, f"−{call.reply[1]}" if call.reply[0] == "removed" else "×", 11, GREY, weight="600")
    label(drawing, call, "collect", "")


MARKS = {
    "put": draw_put,
    "commit": draw_put,
    "get": draw_get,
    "check": draw_check,
    "pull": draw_small,
    "ack": draw_small,
    "collect": draw_collect,
}


# ---- legend, and all of it


def draw_legend(drawing):
    y = drawing.lanes_end + 36
    ring = f'<circle r="6.5" fill="{PAPER}" stroke="{GREY}" stroke-width="2"/>'
    entries = (
        ("put", f'<circle r="7.5" fill="{GREY}"/>', 38),
        ("commit", f'<rect x="-7" y="-7" width="14" height="14" rx="3" fill="{GREY}"/>', 64),
        ("read", ring, 44),
        ("read of just that version", f'{ring}<circle r="3" fill="none" stroke="{GREY}" stroke-width="1.6"/>', 168),
        ("check", f'<path d="M0 -7l7 7l-7 7l-7 -7z" fill="{PAPER}" stroke="{GREY}" stroke-width="2"/>', 52),
        ("waits in the queue", f'<path d="M-11 0H11" stroke="{GREY}" stroke-width="7" stroke-opacity="0.25"/>', 128),
        ("carrier", f'<path d="M-11 0H11" stroke="{GREY}" stroke-width="2.4"/>', 56),
        ("acknowledges", f'<path d="M-11 0H11" stroke="{GREY}" stroke-width="1.6" stroke-dasharray="1 4"/>', 98),
        ("is read from", f'<path d="M-11 4Q0 -8 11 4" fill="none" stroke="{GREY}" stroke-width="1.3"/>', 88),
        ("depends on", f'<path d="M11 0H-10" stroke="{GREY}" stroke-width="1.3" stroke-dasharray="5 3" {ARROW}/>', 0),
    )
    x = 28
    for words, shape, width in entries:
        drawing.marks.append(f'<g transform="translate({x:g} {y:g})">{shape}</g>')
        drawing.text(x + 18, y + 4.5, words, 13, GREY, "start")
        x += width + 46


def draw(audit):
    drawing = Drawing(audit)
    draw_lanes(drawing)
    draw_moments(drawing)
    draw_queues(drawing)
    draw_dependencies(drawing)
    draw_reads(drawing)
    draw_trips(drawing)
    for call in drawing.calls:
        MARKS[call.verb](drawing, call)
    draw_legend(drawing)
    drawing.text(20, 30, f"What {audit.tenant} did, from its audit", 18, INK, "start", "600")
    drawing.text(20, 51, "Time runs to the right. Each colour is a key.", 13, GREY, "start")
    arrow = (
        f'<marker id="arrow" viewBox="0 0 8 8" refX="7" refY="4" markerWidth="7" markerHeight="7" orient="auto">'
        f'<path d="M0 0.5L7.5 4L0 7.5z" fill="{GREY}"/></marker>'
    )
    size = f'width="{drawing.width:g}" height="{drawing.height:g}" viewBox="0 0 {drawing.width:g} {drawing.height:g}"'
    font = "font-family=\"system-ui, -apple-system, 'Segoe UI', Helvetica, Arial, sans-serif\""
    return "\n".join(
        [
            f'<svg xmlns="http://www.w3.org/2000/svg" {size} {font}>',
            f"<title>What {escape(audit.tenant)} did, from its audit</title>",
            f"<defs>{arrow}</defs>",
            f'<rect width="100%" height="100%" rx="10" fill="{PAPER}"/>',
            *drawing.lines,
            *drawing.marks,
            *drawing.words,
            "</svg>",
            "",
        ]
    )
