#!/usr/bin/env python3
"""Writes the message files of a browser window of 1,280 by 720 pixels.

    page.py FOLDER [ROUNDS]        60 rounds if the number is left out

Client 1 is the browser: tabs, toolbar, pointer. It embeds client 2, a site that scrolls, which
embeds client 3, a video. The browser waits for the first begin-frame before it relates the site
to its own sink, and names the root before it answers. So neither child gets begin-frame 1, each
answers every later one, and in paced rounds each frame has the same pixels in every run.
"""

import math
import random
import sys
from pathlib import Path

sys.dont_write_bytecode = True

HERE = Path(__file__).resolve().parent
sys.path.insert(0, str(HERE.parent.parent / "tools"))

from canvas import Canvas    # noqa: E402
from kit import wire         # noqa: E402

WIDE, HIGH, TOP = 1280, 720, 88
SITE, VIDEO, PLACE = (WIDE, HIGH - TOP), (640, 360), (88, 252)    # the video's place on the page
LONG, SCROLLED = 1152, 330                                        # the page's height, and how far it scrolls
BROWSER_SINK, SITE_SINK, VIDEO_SINK, SURFACE = (1, 1), (2, 1), (3, 1), (1, 1, 1)
INK, GREY, WHITE, BLUE = (32, 33, 36), (95, 99, 104), (255, 255, 255), (26, 115, 232)
STRIP, FIELD, NAVY, RED = (222, 225, 230), (241, 243, 244), (19, 62, 92), (229, 57, 53)
CARDS = (  # sky, far hills and near hills of each card
    ((179, 229, 252), (129, 199, 132), (56, 142, 60)), ((255, 224, 178), (255, 138, 101), (141, 110, 99)),
    ((209, 196, 233), (149, 117, 205), (81, 45, 168)), ((200, 230, 201), (77, 182, 172), (0, 121, 107)),
)


def eased(part):
    """From 0 to 1, slowly at both ends."""
    part = max(0.0, min(1.0, part))
    return part * part * (3 - 2 * part)


# ---------------------------------------------------------------- messages


class Client:
    """One client's messages; a canvas that is uploaded becomes tiles."""

    def __init__(self, sink, size):
        self.sink, self.size, self.messages, self.listed = sink, size, [], {}

    def upload(self, canvas, side=256, high=256):
        """Uploads a canvas in tiles; answers each tile's number and place."""
        tiles = []
        for y in range(0, canvas.h, high):
            for x in range(0, canvas.w, side):
                w, h = min(side, canvas.w - x), min(high, canvas.h - y)
                number = len(self.listed) + 1
                self.listed[number] = {"id": number, "w": w, "h": h}
                self.tell("upload", id=number, size=(w, h), pixels=canvas.cut(x, y, w, h))
                tiles.append((number, x, y))
        return tiles

    def tell(self, kind, **fields):
        self.messages.append({"kind": kind, **fields})

    def tiles(self, tiles, x=0, y=0):
        """The quads that show tiles, those that are on the surface."""
        for number, left, top in tiles:
            one = self.listed[number]
            left, top = left + x, top + y
            if -one["w"] < left < self.size[0] and -one["h"] < top < self.size[1]:
                yield quad(left, top, one["w"], one["h"], {"kind": "tile", "tile": number, "tx": 0, "ty": 0})

    def submit(self, answers, quads, damage=None):
        area = (0, 0, *self.size)
        whole = {"id": 1, "output": area, "damage": damage or area, "quads": quads}
        used = {q["material"]["tile"] for q in quads if q["material"]["kind"] == "tile"}
        shown = [q["material"]["surface"] for q in quads if q["material"]["kind"] == "surface"]
        self.tell("submit", local=SURFACE, token=answers, answers=answers, deadline=None, dependencies=[],
                  references=shown, resources=[self.listed[number] for number in sorted(used)], passes=[whole])

    def write(self, name):
        name.write_bytes(wire.write({"format": 1, "sink": self.sink, "messages": self.messages}))


def quad(x, y, w, h, material, opacity=255):
    area = (0, 0, w, h)
    return {"offset": (x, y), "area": area, "visible": area, "clip": None, "opacity": opacity, "blend": 0,
            "material": material}


def solid(x, y, w, h, colour, opacity=255):
    return quad(x, y, w, h, {"kind": "solid", "solid": (*colour, 255)}, opacity)


def surface(x, y, size, sink):
    return quad(x, y, *size, {"kind": "surface", "surface": (None, (sink, SURFACE)), "background": (*WHITE, 255)})


def bound(rects):
    x, y = min(r[0] for r in rects), min(r[1] for r in rects)
    return x, y, max(r[0] + r[2] for r in rects) - x, max(r[1] + r[3] for r in rects) - y


# ---------------------------------------------------------------- the browser


def around(x, y, radius, angle):
    """The point at a distance from another, clockwise from above."""
    return x + radius * math.sin(angle), y - radius * math.cos(angle)


def bars():
    """The strip of tabs and the toolbar below it."""
    made = Canvas(WIDE, TOP - 4, STRIP)
    made.panel(8, 8, 240, 34, 9, WHITE, "ne")
    made.text(42, 18, 2, 0.7, INK, "River Notes")
    for x, name, colour in ((262, "Mail", (234, 67, 53)), (462, "Maps", (52, 168, 83))):
        made.disc(x + 14, 25, 7, colour)
        made.text(x + 30, 18, 2, 0.7, GREY, name)
        made.fill(x + 192, 16, 1, 18, (160, 164, 170))
    made.strokes([[(680, 18), (680, 32)], [(673, 25), (687, 25)]], 0.9, GREY)
    made.strokes([[(225, 21), (233, 29)], [(233, 21), (225, 29)]], 0.8, GREY)
    made.strokes([[(1162, 25), (1174, 25)]], 0.7, INK)
    made.strokes([[(1203, 19), (1215, 19), (1215, 31), (1203, 31), (1203, 19)]], 0.7, INK)
    made.strokes([[(1244, 19), (1256, 31)], [(1256, 19), (1244, 31)]], 0.7, INK)
    made.fill(0, 42, WIDE, TOP - 46, WHITE)
    made.strokes([[(34, 63), (20, 63)], [(26, 57), (20, 63), (26, 69)]], 1.0, GREY)
    made.strokes([[(54, 63), (68, 63)], [(62, 57), (68, 63), (62, 69)]], 1.0, (190, 193, 197))
    made.arc(98, 63, 6.5, -40, 260, 1.0, GREY)
    made.strokes([[(103, 53), (103, 59), (97, 59)]], 1.0, GREY)
    made.panel(124, 48, 1040, 30, 15, FIELD)
    made.panel(140, 61, 11, 9, 2, GREY)
    made.arc(145.5, 61, 3.5, 180, 360, 0.8, GREY)
    made.text(162, 56, 2, 0.7, INK, "river.example/spring")
    made.strokes([[around(1144, 63, 3.4 if k % 2 else 8, k * math.pi / 5) for k in range(11)]], 0.7, GREY)
    made.disc(1206, 63, 13, (142, 36, 170))
    made.text(1200, 56, 2, 0.9, WHITE, "R")
    for y in (57, 63, 69):
        made.disc(1250, y, 1.8, GREY)
    return made


def wheel(step):
    """A step of the wheel that turns in the tab while the page loads."""
    made = Canvas(18, 18)
    made.arc(9, 9, 6, step * 45, step * 45 + 250, 1.1, BLUE)
    return made


def sign():
    """The site's sign in the tab: a hill and a wave."""
    made = Canvas(18, 18)
    made.panel(1, 1, 16, 16, 4, NAVY)
    made.strokes([[(3, 12), (6, 9), (9, 12), (12, 9), (15, 12)]], 0.9, (129, 212, 250))
    made.disc(12, 5.5, 1.8, (255, 213, 79))
    return made


def pointer():
    made = Canvas(20, 26)
    shape = [(2, 2), (2, 20), (6.5, 16), (9.5, 23), (12.5, 21.5), (9.5, 15), (15.5, 15), (2, 2)]
    made.strokes([shape], 1.6, WHITE)
    for part in range(2, 20):
        made.strokes([[(3, part), (3 + max(0.0, (part - 3) * 0.68), min(part, 15))]], 0.9, INK)
    made.strokes([[(6.5, 14), (10.5, 21.5)]], 1.0, INK)
    return made


def browser(rounds):
    client = Client(BROWSER_SINK, (WIDE, HIGH))
    chrome = client.upload(bars())
    wheels = [client.upload(wheel(k)) for k in range(8)]
    signed, arrow = client.upload(sign()), client.upload(pointer())
    loaded, old = rounds * 2 // 5, None
    for k in range(1, rounds + 1):
        client.tell("await")
        if k == 1:
            client.tell("hierarchy", parent=BROWSER_SINK, child=SITE_SINK)
            client.tell("set-root", local=SURFACE)
        part = eased((k - 1) / (rounds * 0.55))
        x, y = round(820 - 420 * part), round(150 + 300 * part + 40 * math.sin(part * 3.1))
        bar = round(WIDE * eased(k / loaded)) if k < loaded else 0
        icon = wheels[k % 8] if k < loaded else signed
        quads = [*client.tiles(arrow, x, y), *client.tiles(icon, 18, 16), *client.tiles(chrome)]
        if bar:
            quads.append(solid(0, TOP - 4, bar, 3, BLUE))
        quads += [solid(0, TOP - 4, WIDE, 3, WHITE), solid(0, TOP - 1, WIDE, 1, (218, 220, 224)),
                  surface(0, TOP, SITE, SITE_SINK)]
        now = (x, y, 20, 26)
        client.submit(k, quads, bound([old, now, (18, 16, 18, 18), (0, TOP - 4, WIDE, 3)]) if old else None)
        old = now
    return client


# ---------------------------------------------------------------- the site


def lines(made, draws, x, y, w, count, colour, high=9, gap=22):
    """Lines of words, each word a bar."""
    for line in range(count):
        at, end = x, x + (w if line < count - 1 else w * 3 // 5)
        while at < end - 14:
            wide = min(draws.randint(18, 86), end - at)
            made.panel(at, y + line * gap, wide, high, 3, colour)
            at += wide + 8


def card(made, draws, x, y, colours):
    """A card at the side: a small picture of hills, and lines of words."""
    sky, far, near = colours
    made.panel(x, y, 300, 206, 8, (225, 229, 234))
    made.panel(x + 1, y + 1, 298, 204, 8, WHITE)
    for column in range(298):
        high = 54 + 20 * math.sin(column / 41 + y) + 8 * math.sin(column / 17)
        low = 84 + 14 * math.sin(column / 57 + 2 + y)
        made.fill(x + 1 + column, y + 9, 1, 111, sky)
        made.fill(x + 1 + column, y + int(high), 1, 120 - int(high), far)
        made.fill(x + 1 + column, y + int(low), 1, 120 - int(low), near)
    lines(made, draws, x + 16, y + 136, 268, 3, (150, 156, 164), 8, 20)


def article():
    """The page, longer than the window."""
    made, draws = Canvas(WIDE, LONG, WHITE), random.Random(7)
    made.text(88, 94, 7, 2.7, INK, "The river in spring")
    made.disc(104, 180, 15, (255, 167, 38))
    made.text(130, 173, 2, 0.7, GREY, "Rosa Blum - six minutes to read")
    lines(made, draws, 88, 212, 640, 1, (190, 195, 201))
    lines(made, draws, 88, 644, 640, 5, (120, 126, 134))
    made.panel(88, 768, 5, 76, 2, (3, 155, 229))
    lines(made, draws, 112, 776, 590, 3, (84, 110, 122), 11, 26)
    lines(made, draws, 88, 872, 640, 11, (120, 126, 134))
    for place, colours in enumerate(CARDS):
        card(made, draws, 830, 92 + place * 232, colours)
    return made


def header():
    made = Canvas(WIDE, 56, NAVY)
    made.strokes([[(92, 32), (100, 24), (108, 32), (116, 24), (124, 32)]], 2.0, (129, 212, 250))
    made.disc(116, 16, 4, (255, 213, 79))
    x = made.text(140, 20, 3, 1.3, WHITE, "River Notes") + 90
    for word in ("Water", "Birds", "Boats"):
        x = made.text(x, 22, 2, 0.75, (207, 226, 240), word) + 44
    made.panel(1060, 14, 130, 28, 14, (129, 212, 250))
    made.text(1083, 21, 2, 0.8, NAVY, "Subscribe")
    return made


def site(rounds):
    client = Client(SITE_SINK, SITE)
    page, head = client.upload(article(), 256, 192), client.upload(header())
    client.tell("hierarchy", parent=SITE_SINK, child=VIDEO_SINK)
    old, track = None, SITE[1] - 8
    for k in range(1, rounds + 1):
        if k > 1:
            client.tell("await")
        down = round(SCROLLED * eased((k - rounds * 0.25) / (rounds * 0.6)))
        if down == old:
            client.tell("did-not-produce", number=k)
            continue
        thumb = solid(WIDE - 12, 4 + track * down // LONG, 8, track * SITE[1] // LONG, (176, 180, 186))
        client.submit(k if k > 1 else 0, [
            thumb, solid(WIDE - 16, 0, 16, SITE[1], (245, 246, 247)), *client.tiles(head),
            surface(PLACE[0], PLACE[1] - down, VIDEO, VIDEO_SINK), *client.tiles(page, 0, -down),
            solid(0, 0, *SITE, WHITE)])
        old = down
    return client


# ---------------------------------------------------------------- the video


def sky():
    made = Canvas(*VIDEO)
    for y in range(VIDEO[1]):
        part = y / VIDEO[1]
        made.fill(0, y, VIDEO[0], 1, (round(64 + 186 * part), round(86 + 92 * part), round(150 - 42 * part)))
    return made


def hills(high, colour, waves):
    """A tile whose left side joins its right side."""
    made = Canvas(256, high)
    for x in range(256):
        top = 14 + sum(size * (1 + math.sin(2 * math.pi * (count * x / 256 + shift))) for size, count, shift in waves)
        made.fill(x, int(top) + 1, 1, high, colour)
        made.dot(x, int(top), 1 - top % 1, colour)
    return made


def sun():
    made = Canvas(72, 72)
    made.disc(36, 36, 32, (255, 236, 179))
    return made


def boat():
    made = Canvas(84, 90)
    for y in range(60):
        made.strokes([[(40, 4 + y), (40 - y * 0.55, 4 + y)]], 0.7, WHITE)
        made.strokes([[(45, 10 + y * 0.9), (45 + y * 0.45, 10 + y * 0.9)]], 0.7, (255, 204, 188))
    for y in range(14):
        made.strokes([[(8 + y * 0.9, 70 + y), (76 - y * 0.9, 70 + y)]], 0.7, (93, 64, 55))
    made.strokes([[(42.5, 3), (42.5, 70)]], 1.0, (62, 39, 35))
    return made


def pause():
    made = Canvas(20, 20)
    made.panel(3, 2, 5, 16, 2, WHITE)
    made.panel(12, 2, 5, 16, 2, WHITE)
    return made


def knob():
    made = Canvas(16, 16)
    made.disc(8, 8, 6.5, RED)
    return made


def video(rounds):
    client = Client(VIDEO_SINK, VIDEO)
    back, disc = client.upload(sky(), 256, 180), client.upload(sun())
    far = client.upload(hills(190, (110, 84, 130), ((26, 2, 0.1), (9, 5, 0.4))))
    near = client.upload(hills(140, (56, 52, 92), ((16, 3, 0.6), (7, 7, 0.2))))
    ship, stop, mark = client.upload(boat()), client.upload(pause()), client.upload(knob())
    for k in range(1, rounds + 1):
        if k > 1:
            client.tell("await")
        part = (k - 1) / max(1, rounds - 1)
        done = round(600 * (0.12 + 0.6 * part))
        columns = range(0, VIDEO[0] + 256, 256)
        moved = [tile for x in columns for tile in client.tiles(near, x - 9 * k % 256, 172)]
        moved += [tile for x in columns for tile in client.tiles(far, x - 4 * k % 256, 112)]
        glints = [solid((97 * n - 5 * k) % 700 - 60, 272 + 13 * n % 52, 26 + 11 * n % 30, 2, (255, 224, 178), 150)
                  for n in range(14)]
        client.submit(k if k > 1 else 0, [
            *client.tiles(stop, 18, 334), *client.tiles(mark, 12 + done, 316), solid(20, 322, done, 4, RED),
            solid(20, 322, 600, 4, (200, 200, 200), 120), solid(0, 316, VIDEO[0], 44, (0, 0, 0), 110),
            *client.tiles(ship, round(40 + 420 * part), 208 + round(3 * math.sin(k / 2.5))), *glints,
            solid(0, 264, VIDEO[0], 96, (44, 70, 116)), *moved, *client.tiles(disc, 450, round(34 + 110 * part)),
            *client.tiles(back)])
    return client


def main(folder, rounds="60"):
    out = Path(folder)
    out.mkdir(parents=True, exist_ok=True)
    for name, make in (("browser.viz", browser), ("site.viz", site), ("video.viz", video)):
        make(int(rounds)).write(out / name)


main(*sys.argv[1:])
