#!/usr/bin/env python3
"""Draws the rooms, which are the crates of crates.txt, and what each stands on.

    tools/rooms_picture.py PICTURE             writes PICTURE, an SVG
    tools/rooms_picture.py --check PICTURE     writes nothing, and says whether PICTURE is what would be written

PICTURE is docs/rooms.svg. To be run in the repository's root.

The groups are the headings of crates.txt, and what is said of a room is the first sentence of the first comment in its src/lib.rt or
src/main.rt, or else in its specs/Lib.antt. Below c_mspm0 and c_am13e230x, where a call comes in, lies the way of a call, which is drawn in blue. A
group without a room of that way stands at the side. An arrow from a room to one that it also reaches over another is left out.

Status 0: all is well. 1: PICTURE is another, or a room stands on one that is listed after it, so that there is a way back up. 2: wrong
use, or a file that cannot be read or written."""
import collections
import html
import itertools
import pathlib
import re
import sys

ENTRANCES = ["c_mspm0", "c_am13e230x"]  # the functions for C, of each part
WIDTH = 900
MARGIN = 8
# A band has its title at its left end, then the slots of its rooms; at the picture's right end stand the rooms of the side, and the
# arrows that lead from these go down before them.
TITLE, BETWEEN, SIDE, LANES = 36, 22, 196, 32
GAP, INSET, LINE = 34, 12, 14
BLUE, GREY = "#1f5f99", "#8a8a8a"
FILLS = {BLUE: "#e6eff8", GREY: "#f5f5f5"}
WORDS = """An arrow leads from a room to one that it stands on: it shows what is built on what, not the order of steps.
No arrow leads up: a room is proved before any that stands on it.
An arrow is left out where a chain of others leads there.
Blue is all that a call goes through: it comes in from C at the top,
and goes down to bytes."""

Room = collections.namedtuple("Room", "name group below")
Box = collections.namedtuple("Box", "left top width height")


class Fault(Exception):
    """What crates.txt says cannot be drawn."""


def listed():
    """Each room with its group and what it stands on, the lowest first. What is not listed and has no folder is the toolchain's."""
    rooms, group = {}, ""
    lines = pathlib.Path("crates.txt").read_text().splitlines()
    names = {line.split(":")[0].removesuffix(" staticlib") for line in lines if ":" in line and not line.startswith("#")}
    for line in lines:
        if line.startswith("#"):
            group = line.strip("# ")
        elif line.strip():
            name, _, below = line.partition(":")
            name = name.removesuffix(" staticlib")
            ours = [other for other in below.split() if other in names or pathlib.Path("crates", other).exists()]
            for other in ours:
                if other not in rooms:
                    raise Fault(f"crates.txt: {name} stands on {other}, which is not listed before it: that is a way back up")
            rooms[name] = Room(name, group, ours)
    if ENTRANCES[0] not in rooms:
        raise Fault(f"crates.txt: {ENTRANCES[0]}, where a call comes in, is not listed")
    return rooms


def first_sentence(name):
    for file in ("src/lib.rt", "src/main.rt", "specs/Lib.antt"):
        path = pathlib.Path("crates", name, file)
        found = re.match(r"((?:(?://|--) .*\n)+)", path.read_text()) if path.exists() else None
        if found:
            comment = " ".join(line[3:] for line in found.group(1).splitlines())
            return re.split(r"(?<=\.) ", comment)[0]
    raise FileNotFoundError(f"crates/{name}: no file of it begins with a comment")


def wrapped(words, width):
    """Words in lines of at most this width, as far as a width can be told without the font: capitals and digits are wide."""
    lines = [""]
    for word in words.split():
        longer = f"{lines[-1]} {word}".strip()
        if sum(7 if sign.isupper() or sign.isdigit() else 5.3 for sign in longer) > width and lines[-1]:
            lines.append(word)
        else:
            lines[-1] = longer
    return lines


def reached(rooms, name):
    """All that a room stands on, also over others."""
    found = set()
    for other in rooms[name].below:
        found |= {other} | reached(rooms, other)
    return found


def arrows(rooms):
    """Each pair of rooms of which the first stands on the second, and on no third that does."""
    for room in rooms.values():
        over = set().union(*(reached(rooms, other) for other in room.below))
        yield from ((room.name, other) for other in room.below if other not in over)


def rows_of(rooms, groups):
    """The rooms of these groups, row by row from the bottom up: group by group, and in a group each room above what it stands on."""
    rows = []
    for group in groups:
        heights = {}
        for room in rooms.values():
            if room.group == group:
                heights[room.name] = 1 + max((heights[other] for other in room.below if other in heights), default=-1)
        for height in range(1 + max(heights.values())):
            rows.append([name for name in heights if heights[name] == height])
    return rows


def lanes_of(row, slots, count):
    """Where an arrow can pass by a row: between two slots, and within a slot that is empty. A place is counted in slots."""
    taken = {slots[name] for name in row}
    between = [k + 0.5 for k in range(-1, count)]
    return between + [k + part for k in range(count) if k not in taken for part in (-0.2, 0, 0.2)]


def narrow(lane):
    """What it costs to pass between two slots, and not through an empty one."""
    return 0.3 if lane % 1 == 0.5 else 0


def way_of(arrow, rows, slots, count, used):
    """The places by which an arrow passes the rows between its two rooms, the shortest way over places that are not used."""
    level = {name: k for k, row in enumerate(rows) for name in row}
    ways = [(0, slots[arrow[0]], [])]
    for k in range(level[arrow[0]] - 1, level[arrow[1]], -1):
        free = [lane for lane in lanes_of(rows[k], slots, count) if (k, lane) not in used]
        ways = [min((cost + abs(lane - at) + narrow(lane), lane, way + [(k, lane)]) for cost, at, way in ways) for lane in free]
    return min((cost + abs(slots[arrow[1]] - at), way) for cost, at, way in ways)


def ways_of(drawn, rows, slots, count):
    """The way of each arrow, and what all of them cost: their lengths, and more where two cross."""
    used, ways, total = set(), {}, 0
    for arrow in drawn:
        cost, ways[arrow] = way_of(arrow, rows, slots, count, used)
        used |= set(ways[arrow])
        total += cost
    return ways, total + 2 * crossings(ways, rows, slots)


def crossings(ways, rows, slots):
    """How often two arrows cross between two rows."""
    level = {name: k for k, row in enumerate(rows) for name in row}
    steps = collections.defaultdict(list)
    for (first, last), way in ways.items():
        places = [(level[first], slots[first]), *way, (level[last], slots[last])]
        for (k, here), (_, there) in itertools.pairwise(places):
            steps[k].append((here, there))
    pairs = [pair for some in steps.values() for pair in itertools.combinations(some, 2)]
    return sum((one[0] - other[0]) * (one[1] - other[1]) < 0 for one, other in pairs)


def slots_of(drawn, rows):
    """A slot for each room, row by row, as long as that makes the arrows shorter or less crossed."""
    count = max(3, *map(len, rows))
    slots = {name: k for row in rows for k, name in enumerate(row)}
    best, before = ways_of(drawn, rows, slots, count)[1], None
    while best != before:
        before = best
        for row in rows:
            for places in itertools.permutations(range(count), len(row)):
                other = {**slots, **dict(zip(row, places))}
                cost = ways_of(drawn, rows, other, count)[1]
                if cost < best:
                    best, slots = cost, other
    return slots, count


class Picture:
    """Where everything stands, and the lines of the SVG."""

    def __init__(self, rooms):
        self.rooms = rooms
        self.entrances = [name for name in ENTRANCES if name in rooms]
        self.blue = set(self.entrances).union(*(reached(rooms, name) for name in self.entrances))
        groups = list(dict.fromkeys(room.group for room in rooms.values()))
        self.middle = [group for group in groups if any(room.group == group and room.name in self.blue for room in rooms.values())]
        self.aside = [group for group in reversed(groups) if group not in self.middle]
        self.rows = rows_of(rooms, self.middle)
        self.boxes, self.bands, self.lines = {}, {}, []
        self.place_side()
        self.place_middle()

    def words_of(self, name, width):
        """What a box says. At the side there is less room: what stands before a colon or a comma is enough."""
        words = first_sentence(name)
        if self.rooms[name].group in self.aside:
            words = re.split("[:,]", words)[0].rstrip(".") + "."
        return wrapped(words, width - 16)

    def height_of(self, name, width):
        return 28 + LINE * len(self.words_of(name, width))

    def place_side(self):
        """The groups of the side one below the other, the highest rooms of each first."""
        left, top = WIDTH - MARGIN - SIDE, MARGIN
        for group in self.aside:
            start = top
            top += 26
            for row in reversed(rows_of(self.rooms, [group])):
                for name in row:
                    width = SIDE - 2 * INSET
                    self.boxes[name] = Box(left + INSET, top, width, self.height_of(name, width))
                    top += self.boxes[name].height + 18
            self.bands[group] = Box(left, start, SIDE, top - start - 8)

    def middle_of(self, place):
        """The middle of a place that is counted in slots."""
        return MARGIN + TITLE + INSET + self.slot / 2 + place * (self.slot + BETWEEN)

    def place_middle(self):
        """The rows one below the other, each room of the side above all that it stands on."""
        self.drawn = [arrow for arrow in arrows(self.rooms) if arrow[0] not in self.boxes]
        self.slots, count = slots_of(self.drawn, self.rows)
        self.ways = ways_of(self.drawn, self.rows, self.slots, count)[0]
        self.right = WIDTH - MARGIN - SIDE - LANES
        self.slot = (self.right - INSET - (MARGIN + TITLE + INSET) - (count - 1) * BETWEEN) / count
        tops, top = {}, 0
        for row in reversed(self.rows):
            tops[row[0]] = top
            top += max(self.height_of(name, self.slot) for name in row) + GAP
        shift = MARGIN + 30 + 18 * len(WORDS.splitlines())
        for name, other in arrows(self.rooms):
            if name in self.boxes and other not in self.boxes:
                row = next(row for row in self.rows if other in row)
                shift = max(shift, self.boxes[name].top + self.boxes[name].height / 2 + GAP - tops[row[0]])
        for row in self.rows:
            height = max(self.height_of(name, self.slot) for name in row)
            for name in row:
                self.boxes[name] = Box(self.middle_of(self.slots[name]) - self.slot / 2, tops[row[0]] + shift, self.slot, height)
        self.height = round(shift + top - GAP + INSET + MARGIN)
        for group in self.middle:
            inside = [self.boxes[name] for row in self.rows for name in row if self.rooms[name].group == group]
            top, end = min(box.top for box in inside), max(box.top + box.height for box in inside)
            self.bands[group] = Box(MARGIN, top - INSET, self.right - MARGIN, end - top + 2 * INSET)

    def colour_of(self, *names):
        return BLUE if self.blue.issuperset(names) else GREY

    def text(self, x, y, words, style):
        self.lines.append(f'<text x="{x:.0f}" y="{y:.0f}" {style}>{html.escape(words)}</text>')

    def draw_band(self, group):
        band = self.bands[group]
        self.lines.append(f'<rect x="{band.left:.0f}" y="{band.top:.0f}" width="{band.width:.0f}" height="{band.height:.0f}" rx="8" '
                          'fill="#fbfaf6" stroke="#ddd8c8"/>')
        style = 'font-size="12" fill="#5c5540" font-style="italic"'
        if group in self.aside:
            self.text(band.left + INSET, band.top + 18, group, style)
            return
        for k, title in enumerate(wrapped(group, band.height - 8)):
            x, y = band.left + 18 + 15 * k, band.top + band.height / 2
            self.text(x, y, title, f'{style} text-anchor="middle" transform="rotate(-90 {x:.0f} {y:.0f})"')

    def draw_box(self, name):
        box, colour = self.boxes[name], self.colour_of(name)
        self.lines.append(f'<rect x="{box.left:.0f}" y="{box.top:.0f}" width="{box.width:.0f}" height="{box.height:.0f}" rx="5" '
                          f'fill="{FILLS[colour]}" stroke="{colour}" stroke-width="1.3"/>')
        self.text(box.left + 8, box.top + 18, name, 'font-size="13" font-weight="bold" font-family="monospace"')
        for k, line in enumerate(self.words_of(name, box.width)):
            self.text(box.left + 8, box.top + 34 + LINE * k, line, 'font-size="11"')

    def draw_path(self, path, colour):
        width = 2 if colour == BLUE else 1.2
        self.lines.append(f'<path d="{path}" fill="none" stroke="{colour}" stroke-width="{width}" marker-end="url(#{colour[1:]})"/>')

    def ports(self, name, end):
        """Where arrows leave a room at its foot (end 0), or come in at its head (end 1): side by side, in the order of their ways."""
        def next_place(arrow):
            return self.ways[arrow][-end][1] if self.ways[arrow] else self.slots[arrow[1 - end]]
        some = sorted((arrow for arrow in self.drawn if arrow[end] == name), key=next_place)
        middle = self.boxes[name].left + self.boxes[name].width / 2
        return {arrow: middle + 26 * (k - (len(some) - 1) / 2) for k, arrow in enumerate(some)}

    def draw_arrow(self, arrow):
        """Down from row to row, upright where it passes a row by."""
        first, last = self.boxes[arrow[0]], self.boxes[arrow[1]]
        x, y = self.ports(arrow[0], 0)[arrow], first.top + first.height
        path = f"M{x:.0f} {y:.0f}"
        stops = [(self.middle_of(lane), self.boxes[self.rows[k][0]]) for k, lane in self.ways[arrow]]
        for there, passed in [*stops, (self.ports(arrow[1], 1)[arrow], Box(0, last.top - 3, 0, 0))]:
            half = (y + passed.top) / 2
            path += f" C{x:.0f} {half:.0f} {there:.0f} {half:.0f} {there:.0f} {passed.top:.0f} V{passed.top + passed.height:.0f}"
            x, y = there, passed.top + passed.height
        self.draw_path(path, self.colour_of(*arrow))

    def draw_side_arrows(self):
        """From the side: all that lead to one room go down in one lane beside the bands, and come in at its head."""
        some = [arrow for arrow in arrows(self.rooms) if self.rooms[arrow[0]].group in self.aside]
        ends = sorted({arrow[1] for arrow in some}, key=lambda name: (self.rooms[name].group in self.aside, self.boxes[name].top, self.boxes[name].left))
        for first, last in some:
            box, end = self.boxes[first], self.boxes[last]
            lane = self.right + LANES * (1 + ends.index(last)) / (len(ends) + 1)
            mine = sorted((arrow for arrow in some if arrow[0] == first), key=lambda arrow: -ends.index(arrow[1]))
            out = box.top + box.height / 2 + 6 * (mine.index((first, last)) - (len(mine) - 1) / 2)
            inward = end.left + 18 if self.rooms[last].group in self.aside else end.left + end.width - 18
            turn = 5 if inward > lane else -5
            self.draw_path(f"M{box.left:.0f} {out:.0f} H{lane + 5:.0f} q-5 0 -5 5 V{end.top - 15:.0f} q0 5 {turn} 5 "
                           f"H{inward - turn:.0f} q{turn} 0 {turn} 5 V{end.top - 3:.0f}", GREY)

    def draw(self):
        for group in self.middle + self.aside:
            self.draw_band(group)
        self.draw_side_arrows()
        for arrow in sorted(self.drawn, key=lambda arrow: self.colour_of(*arrow) == BLUE):
            self.draw_arrow(arrow)
        for name in self.boxes:
            self.draw_box(name)
        for entrance in (self.boxes[name] for name in self.entrances):
            self.draw_path(f"M{entrance.left + 40:.0f} {entrance.top - 40:.0f} V{entrance.top - 3:.0f}", BLUE)
            self.text(entrance.left + 48, entrance.top - 24, "a call from C", f'font-size="12" fill="{BLUE}"')
        self.text(MARGIN, MARGIN + 18, "The rooms", 'font-size="18" font-weight="bold"')
        for k, line in enumerate(WORDS.splitlines()):
            self.text(MARGIN, MARGIN + 44 + 18 * k, line, 'font-size="13"')
        heads = "".join(f'<marker id="{colour[1:]}" markerUnits="userSpaceOnUse" markerWidth="9" markerHeight="9" refX="5" refY="4" '
                        f'orient="auto"><path d="M0 0 L8 4 L0 8 z" fill="{colour}"/></marker>' for colour in FILLS)
        return "\n".join([
            f'<svg xmlns="http://www.w3.org/2000/svg" viewBox="0 0 {WIDTH} {self.height}" width="{WIDTH}" height="{self.height}" '
            'font-family="Helvetica, Arial, Liberation Sans, sans-serif">',
            "<title>The rooms and what each stands on, made by tools/rooms_picture.py from crates.txt</title>",
            f'<defs>{heads}</defs><rect width="100%" height="100%" fill="white"/>', *self.lines, "</svg>", ""])


def made(path, check):
    """Writes the picture, or compares it with what is there."""
    picture = Picture(listed()).draw()
    if not check:
        path.write_text(picture)
        return 0
    if path.exists() and path.read_text() == picture:
        return 0
    print(f"{path} is not what crates.txt gives now: 'make picture' makes it")
    return 1


def main(words):
    if words and words[0] in ("-h", "--help"):
        print(__doc__)
        return 0
    check = words[:1] == ["--check"]
    words = words[check:]
    if len(words) != 1 or words[0].startswith("-"):
        print("usage: tools/rooms_picture.py [--check] PICTURE", file=sys.stderr)
        return 2
    try:
        return made(pathlib.Path(words[0]), check)
    except Fault as fault:
        print(fault)
        return 1
    except OSError as fault:
        print(fault, file=sys.stderr)
        return 2


if __name__ == "__main__":
    sys.exit(main(sys.argv[1:]))
