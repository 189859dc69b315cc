#!/usr/bin/env python3
"""Draws the output of examples/c/demo.c, examples/c/demo.stdout, as docs/ladder.svg.

    scripts/ladder.py            prints the picture
    scripts/ladder.py --write    writes it to docs/ladder.svg
    scripts/ladder.py --check    fails if docs/ladder.svg is another one
"""

import html
import math
import os
import re
import sys

ROOT = os.path.join(os.path.dirname(os.path.abspath(__file__)), "..")
OUTPUT = os.path.join(ROOT, "examples/c/demo.stdout")
PICTURE = os.path.join(ROOT, "docs/ladder.svg")

# Pixels: the width, where the two lines are, the first row, and how far rows are apart.
WIDTH, CLIENT, SERVER = 720, 196, 560
TOP, PACKET_ROW, USER_ROW, TIME_ROW, PAUSE, SLOPE = 62, 25, 16, 14, 12, 9

# What is kept of a chunk beside its name.
FIELDS = ("tsn", "cumulative", "gaps", "stream", "ssn", "streams")

GREY = "#57606a"
COLOURS = {"DATA": "#0a6b2d", "SACK": GREY, "RE-CONFIG": "#8a3ffc", "lost": "#cf222e"}
HANDSHAKE = "#0550ae"

TITLE = (
    "Two sockets connect, send messages on two streams, lose one and send it again, reset a stream, and shut down"
)

# A packet that a user causes is in the same row.
SENT_BY = {"client": ("->", "X"), "server": ("<-",)}


def read(lines):
    """The lines of the ladder: (milliseconds, "client" or "server", text) of a user, and
    (milliseconds, "<-", "->" or "X", text) of a packet."""
    for line in lines:
        user = re.match(r" *(\d+)  (?:\* (.*?) *\||\| *(.*?) \*)$", line)
        packet = re.match(r" *(\d+)  \|(--|<-) (.*?) -*(>|-|X lost *)\|$", line)
        more = re.match(r"      \|   (.*?) *\|$", line)
        if user:
            yield [int(user[1]), "client" if user[2] else "server", user[2] or user[3]]
        elif packet:
            way = "<-" if packet[2] == "<-" else "->" if packet[4] == ">" else "X"
            yield [int(packet[1]), way, packet[3]]
        elif more:
            yield [None, "more", more[1]]


def join(items):
    """Packets whose text has several lines, as one."""
    joined = []
    for item in items:
        if item[1] == "more":
            joined[-1][2] += " " + item[2]
        else:
            joined.append(item)
    return joined


def short(text):
    """The chunks of a packet, by their names and a few fields."""
    chunks = []
    for chunk in re.sub(r"^tag=\w+ ", "", text).split("; "):
        name = re.match(r"[A-Z-]+(?: [A-Z]+)*", chunk)[0]
        if name == "RE-CONFIG":
            name += " " + re.search(r"\[([A-Z][\w/ -]*?)(?: [a-z-]+=|\])", chunk)[1] + ","
        else:
            chunk = chunk.split(" [")[0]
        fields = re.findall(r"([\w-]+)=([\w,-]+)", chunk)
        values = [f"{key} {value}" for key, value in fields if key in FIELDS]
        values += re.findall(r"\(([^)]*)\)", chunk)
        chunks.append(f"{name} {', '.join(values)}".strip())
    return "; ".join(chunks)


def colour(label, way):
    if way == "X":
        return COLOURS["lost"]
    return next((COLOURS[name] for name in ("DATA", "SACK", "RE-CONFIG") if name in label), HANDSHAKE)


def element(name, text=None, **attributes):
    """An element of SVG. In names of attributes `_` is `-`."""
    start = name + "".join(f' {key.replace("_", "-")}="{value}"' for key, value in attributes.items())
    return f"<{start}/>" if text is None else f"<{start}>{html.escape(text, quote=False)}</{name}>"


def line(x1, y1, x2, y2, stroke, width):
    return element("line", x1=x1, y1=y1, x2=x2, y2=y2, stroke=stroke, stroke_width=width)


def arrow(y, way, label):
    """A packet: a line that falls a little, its head or a cross, and its chunks above it."""
    paint, middle = colour(label, way), (CLIENT + SERVER) // 2
    side = -1 if way == "<-" else 1
    begin, end = middle - side * (middle - CLIENT - 5), middle + side * (middle - CLIENT - 5)
    if way == "X":
        end = middle + 110
    tip = round(y + SLOPE * abs(end - begin) / (SERVER - CLIENT), 1)
    parts = [line(begin, y, end, tip, paint, 1.4)]
    if way == "X":
        parts += [line(end - 6, tip - it, end + 6, tip + it, paint, 2.2) for it in (6, -6)]
        parts.append(element("text", "lost", x=end + 13, y=tip + 4, fill=paint, font_weight="bold"))
    else:
        parts.append(element("path", d=f"M{end} {tip} l{-8 * side} -4 v7.5 z", fill=paint))
    turn = round(side * math.degrees(math.atan(SLOPE / (SERVER - CLIENT))), 2)
    at = y + SLOPE / 2 - 4
    turned = f"rotate({turn} {middle} {at})"
    parts.append(element("text", label, x=middle, y=at, fill=paint, text_anchor="middle", transform=turned))
    return parts


def rows(items):
    """All texts and arrows, and how far down they reach."""
    parts, now, packet_at, time_at, shown = [], TOP, 0, 0, -1
    user_at = {"client": 0, "server": 0}
    lost = next(re.search(r"tsn=\d+", text)[0] for _, way, text in items if way == "X")
    for (moment, kind, text), following in zip(items, items[1:] + [items[-1]]):
        if moment != shown:
            now = max(now + (PAUSE if moment > shown + 200 else 0), time_at + TIME_ROW)
        if kind in user_at:
            now = max(now, user_at[kind] + USER_ROW)
            if following[0] == moment and following[1] in SENT_BY[kind]:
                now = max(now, packet_at + PACKET_ROW)
            user_at[kind] = now
            x, anchor = (CLIENT - 10, "end") if kind == "client" else (SERVER + 10, "start")
            parts.append(element("text", text, x=x, y=now + 4, text_anchor=anchor))
        else:
            packet_at = now = max(now, packet_at + PACKET_ROW)
            is_again = kind == "->" and re.search(rf"DATA {lost}\b", text)
            parts += arrow(now, kind, short(text) + (" (sent again)" if is_again else ""))
        if moment != shown:
            parts.append(element("text", f"{moment} ms", x=8, y=now + 4, fill=GREY, font_size=10))
            shown, time_at = moment, now
        if kind not in user_at:
            now += SLOPE
    return parts, now


def draw(items):
    parts, end = rows(items)
    height = end + 26
    svg = element("svg", "", xmlns="http://www.w3.org/2000/svg", width=WIDTH, height=height,
                  viewBox=f"0 0 {WIDTH} {height}", role="img", font_size=11, fill="#1f2328",
                  font_family="-apple-system, Segoe UI, Helvetica, Arial, sans-serif")
    start = [
        svg.replace("</svg>", ""),
        element("title", TITLE),
        element("rect", x=0.5, y=0.5, width=WIDTH - 1, height=height - 1, rx=6, fill="#ffffff", stroke="#d0d7de"),
    ]
    for x, name in ((CLIENT, "client"), (SERVER, "server")):
        start.append(line(x, 38, x, height - 12, "#8c959f", 2))
        start.append(element("text", name, x=x, y=26, text_anchor="middle", font_size=14, font_weight="bold"))
    return "\n".join(start + parts + ["</svg>", ""])


def main(arguments):
    if arguments not in ([], ["--write"], ["--check"]):
        sys.exit(__doc__)
    with open(OUTPUT, encoding="utf-8") as file:
        picture = draw(join(read(file.read().split("\n"))))
    if arguments == ["--write"]:
        with open(PICTURE, "w", encoding="utf-8") as file:
            file.write(picture)
    elif arguments == ["--check"]:
        with open(PICTURE, encoding="utf-8") as file:
            if file.read() != picture:
                sys.exit("ladder: docs/ladder.svg isn't what the demo prints: run scripts/ladder.py --write")
    else:
        print(picture, end="")


if __name__ == "__main__":
    main(sys.argv[1:])
