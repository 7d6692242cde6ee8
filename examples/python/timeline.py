"""Draws what `msgrun run FILE --json` or `msgrun serve` printed as one HTML file with a plot for each message type.

    msgrun run FILE --json | python3 timeline.py > timeline.html

In a plot the frames go to the right and message numbers up. The grey band has the messages that are kept: its upper edge
is how many were written, its lower edge the oldest. Each reader is a line at its place, the number of the next message
that it can get; where it missed messages the line is red, and so is what was dropped past its place at the end.
"""
import json
import sys
from html import escape

WIDTH, HEIGHT, LEFT, BOTTOM, TOP = 900, 260, 60, 30, 10
COLOURS = ["#1f77b4", "#2ca02c", "#9467bd", "#8c564b", "#e377c2", "#17becf", "#bcbd22", "#ff7f0e", "#393b79", "#637939"]
READS = ("read", "forward", "sum")
STYLE = """body{font:14px sans-serif;margin:24px;max-width:1000px;color:#222} svg{background:#fff;border:1px solid #ccc}
table{border-collapse:collapse;margin:8px 0 24px} td,th{border:1px solid #ccc;padding:2px 8px;text-align:right}
td:first-child,th:first-child,td:nth-child(2),th:nth-child(2){text-align:left} .lost{color:#c00;font-weight:bold}
h2{margin:28px 0 6px} .key{display:inline-block;margin-right:16px} text{font:11px sans-serif;fill:#555}
path:hover{stroke-width:5} p{max-width:60em}"""


def passed(reply):
    """How many messages a reply gave or cleared, after those that it missed; None if it moves no cursor."""
    if reply["op"] in READS:
        return len(reply["items"])
    return reply["n"] if reply["op"] == "clear" else None


class Reader:
    """The places of a reader, frame by frame from its first turn on, and the stretches that it missed."""

    def __init__(self, frame, place):
        self.places, self.missed = [(frame, place)], []

    def take(self, frame, reply):
        """Follows a reply: it missed the messages right before its first, and passed those from there on."""
        start, end = reply["first"] - reply["missed"], reply["first"] + passed(reply)
        if len(self.places) == 1:
            self.places[0] = (self.places[0][0], start)
        if reply["missed"]:
            self.missed.append((frame, start, reply["first"]))
        self.places.append((frame, end))


def follow(frames, accounts):
    """The readers by type and system, and how often each system ran and was skipped."""
    readers, turns = {}, {}
    for frame in frames:
        for turn in frame["turns"]:
            system = turn["system"]
            if system not in turns:
                readers.update({(of["type"], system): Reader(frame["frame"], of.get("place", 0))
                                for of in accounts if of["system"] == system})
            ran, skipped = turns.get(system, (0, 0))
            turns[system] = (ran, skipped + 1) if turn.get("skipped") else (ran + 1, skipped)
            for reply in turn.get("replies", []):
                if passed(reply) is not None:
                    readers.setdefault((reply["type"], system), Reader(frame["frame"], 0)).take(frame["frame"], reply)
    return readers, turns


class Scale:
    """Where frames and message numbers lie in a plot."""

    def __init__(self, first, last, most):
        self.first, self.across = first, (WIDTH - LEFT - 10) / max(last - first + 1, 1)
        self.up = (HEIGHT - BOTTOM - TOP) / max(most, 1)
        self.last, self.most = last, most

    def x(self, frame):
        return round(LEFT + (frame - self.first) * self.across, 1)

    def y(self, number):
        return round(HEIGHT - BOTTOM - number * self.up, 1)

    def steps(self, points, end):
        """A staircase through points (frame, number), each a height from its frame on."""
        path = f"M{self.x(points[0][0])},{self.y(points[0][1])}"
        for frame, number in points[1:]:
            path += f"H{self.x(frame)}V{self.y(number)}"
        return path + f"H{self.x(end)}"


def axes(scale):
    marks = ""
    for k in range(5):
        number, frame = scale.most * k // 4, scale.first + (scale.last - scale.first) * k // 4
        marks += f'<line x1="{LEFT}" x2="{WIDTH - 10}" y1="{scale.y(number)}" y2="{scale.y(number)}" stroke="#eee"/>'
        marks += f'<text x="{LEFT - 6}" y="{scale.y(number) + 4}" text-anchor="end">{number}</text>'
        anchor = "end" if k == 4 else "start"
        marks += f'<text x="{scale.x(frame)}" y="{HEIGHT - 10}" text-anchor="{anchor}">frame {frame}</text>'
    return marks


def band(scale, name, frames):
    """The messages that are kept: from the oldest to the last that was written."""
    end = scale.last + 1
    upper = [(f["frame"], f["types"][name]["written"]) for f in frames]
    lower = [(f["frame"], f["types"][name]["oldest"]) for f in frames]
    back = "".join(f"H{scale.x(end if k == len(lower) - 1 else lower[k + 1][0])}V{scale.y(n)}"
                   for k, (_, n) in reversed(list(enumerate(lower))))
    shape = f'<path d="{scale.steps(upper, end)}V{scale.y(lower[-1][1])}{back}H{scale.x(lower[0][0])}Z" fill="#e8e8e8"/>'
    return shape + line(scale.steps(upper, end), "#999", 1, f"written: {upper[-1][1]}")


def line(path, colour, width, title):
    return f'<path d="{path}" fill="none" stroke="{colour}" stroke-width="{width}"><title>{escape(title)}</title></path>'


def staircase(scale, system, reader, lost, colour):
    place, end = reader.places[-1][1], scale.last + 1
    got = line(scale.steps(reader.places, end), colour, 2, f"{system}: place {place} at the end")
    stretches = [(frame, start, stop, f"missed {start} to {stop - 1} in frame {frame}")
                 for frame, start, stop in reader.missed]
    if lost:
        stretches.append((end, place, place + lost, f"lost {place} to {place + lost - 1}, and no read told of it"))
    for frame, start, stop, what in stretches:
        got += line(f"M{scale.x(frame)},{scale.y(start)}V{scale.y(stop)}", "#d00", 4, f"{system} {what}")
    return got


def plot(name, frames, readers, accounts):
    if not frames[-1]["types"][name]["written"]:
        return f"<h2>{escape(name)}</h2><p>Nothing was written.</p>"
    scale = Scale(frames[0]["frame"], frames[-1]["frame"], frames[-1]["types"][name]["written"])
    drawn, key = axes(scale) + band(scale, name, frames), ""
    mine = [(system, reader) for (of, system), reader in readers.items() if of == name]
    for k, (system, reader) in enumerate(mine):
        colour = COLOURS[k % len(COLOURS)]
        lost = sum(of["lost"] for of in accounts if (of["type"], of["system"]) == (name, system))
        drawn += staircase(scale, system, reader, lost, colour)
        key += f'<span class="key" style="color:{colour}">&#9644; {escape(system)}</span>'
    return (f'<h2>{escape(name)}</h2><svg xmlns="http://www.w3.org/2000/svg" width="{WIDTH}" height="{HEIGHT}">{drawn}'
            f"</svg><div>{key or 'no reader'}</div>")


def row(reader, turns):
    ran, skipped = turns.get(reader["system"], (0, 0))
    got = [reader.get(key, "-") for key in ("start", "got", "missed", "cleared", "place")]
    cells = [reader["system"], reader["type"], ran or "never", skipped or "-", *got, reader["lost"], reader["unread"]]
    missed = ' class="lost"' if reader.get("missed") or reader["lost"] or not ran else ""
    return f"<tr{missed}>" + "".join(f"<td>{escape(str(cell))}</td>" for cell in cells) + "</tr>"


def bare_row(system, turns):
    """The row of a system that reads nothing."""
    ran, skipped = turns[system]
    cells = [system, "-", ran or "never", skipped or "-"] + ["-"] * 7
    missed = "" if ran else ' class="lost"'
    return f"<tr{missed}>" + "".join(f"<td>{escape(str(cell))}</td>" for cell in cells) + "</tr>"


def page(frames, accounts):
    readers, turns = follow(frames, accounts)
    heads = "system type ran skipped start got missed cleared place lost unread".split()
    table = "<table><tr>" + "".join(f"<th>{head}</th>" for head in heads) + "</tr>"
    table += "".join(row(reader, turns) for reader in accounts)
    others = turns.keys() - {reader["system"] for reader in accounts}
    table += "".join(bare_row(system, turns) for system in turns if system in others) + "</table>"
    names = frames[-1]["types"] if frames else []
    plots = "".join(plot(name, frames, readers, accounts) for name in names) or "<p>No frame was run.</p>"
    legend = ("Grey: the messages that are kept. A line: the place of a reader, the number of the next message that it can "
              "get. Red: messages that it missed; at the end those that it lost: they were dropped past its place.")
    return (f'<!DOCTYPE html><meta charset="utf-8"><title>timeline</title><style>{STYLE}</style>'
            f"<h1>{len(frames)} frames</h1><p>{legend}</p>{table}{plots}")


def main():
    lines = [json.loads(text) for text in sys.stdin]
    frames = [one for one in lines if "frame" in one]
    accounts = [one["readers"] for one in lines if "readers" in one]
    print(page(frames, accounts[-1] if accounts else []))


main()
