"""The picture of a stack's runs: what it has to show, drawn plainly from `docs/SPECIFICATION.md`, and what an SVG text shows.

Where the shapes are is not compared. It is looked at on its own: each node is in the column of its module and the lane of its
state, no two are at one point, an edge begins at its node, ends at its target and goes through no other node, and its label is
over a straight part of it, a row away from each other label."""
import re
import xml.etree.ElementTree as xml

from model import stacks
from model.faults import Fault

MOST_NODES = 400
MOST_NAME, CUT_NAME = 24, 22
ROW, LETTER, BOLD, MARGIN = 18, 7, 8, 16
SPACE = "{http://www.w3.org/2000/svg}"
FOOT = "Read from left to right. A line without a word: any answer. else: every other answer."
SHAPES = {("undef", True): "circle 6", ("undef", False): "circle 3", ("positive", True): "circle 6", ("positive", False): "circle 3",
          ("negative", True): "path M-6-6h12v12h-12z", ("negative", False): "path M-3-3h6v6h-6z"}


def plain(text):
    """A text in printable ASCII."""
    return b"".join(b"\\\\" if byte == 92 else bytes([byte]) if 32 <= byte <= 126 else b"\\x%02x" % byte for byte in text)


def label(codes, edges, notes):
    """The label of a class of a node with these edges; `notes` gets each class that needs a note."""
    if len(codes) == 31:
        return b""
    if len(codes) >= 16:
        return b"else" if len(edges) > 1 else b""
    if len(codes) <= 2:
        return stacks.class_text(codes)
    if codes not in notes:
        notes.append(codes)
    return b"%s +%d (%d)" % (codes[0], len(codes) - 1, notes.index(codes) + 1)


def words_of(graph, names, target):
    """The words for a node or a decision."""
    if target.startswith(b"d"):
        return stacks.CODES[int(target[1:])]
    number, state, _ = graph.nodes[int(target[1:])]
    return b"%d %s %s %s" % (number, plain(names[number - 1]), *state)


def heading(module, name, asked):
    """What is told of a column."""
    cut = plain(name[:CUT_NAME]) + b".." if len(name) > MOST_NAME else plain(name)
    control = stacks.control_text(module.control)
    whole = b"%d %s %s" % (module.number, control, plain(module.path))
    return b"column %s | %d | %s | %s%s\n" % (whole, module.number, cut, control, b"" if asked else b" | never asked")


def drawn_edges(graph, names, notes):
    """Each edge, with its sentence and its label."""
    for index, (_, _, edges) in enumerate(graph.nodes):
        start = b"n%d" % index
        for codes, target in edges:
            told = b"%s: %s to %s" % (words_of(graph, names, start), stacks.class_text(codes), words_of(graph, names, target))
            yield start, target, told, label(codes, edges, notes)


def numbers_of(items):
    """The numbers of the modules of a list of items, and of its substacks."""
    for item in items:
        yield from numbers_of(item.items) if isinstance(item, stacks.Substack) else [item.number]


def spans(items):
    """The numbers of the first and last module of each substack that has one, those within it before it."""
    for item in items:
        if isinstance(item, stacks.Substack):
            yield from spans(item.items)
            numbers = list(numbers_of(item.items))
            if numbers:
                yield numbers[0], numbers[-1]


def picture(graph, title, names, modules, items):
    """The lines of what a picture shows."""
    if len(graph.nodes) > MOST_NODES:
        raise Fault("E19")
    notes = []
    edges = list(drawn_edges(graph, names, notes))
    yield b"title %s\n" % plain(title)
    yield from (b"told %s.\n" % told for _, _, told, _ in edges)
    asked = {number for number, _, _ in graph.nodes}
    yield from (heading(module, name, module.number in asked) for module, name in zip(modules, names))
    yield from (b"substack %d %d\n" % span for span in spans(items))
    yield from (b"edge %s %s | %s | %s\n" % edge for edge in edges)
    for index, (_, state, edges) in enumerate(graph.nodes):
        target = b"n%d" % index
        shape = SHAPES[state.impression.decode(), len(edges) > 1].encode()
        yield b"node %s %s %s | %s\n" % (target, state.impression, shape, words_of(graph, names, target))
    for code in graph.ends():
        yield b"end d%d %s %s\n" % (stacks.CODES.index(code), b"round" if code == b"success" else b"square", code)
    yield b"start %s\n%s\n" % (graph.start, FOOT.encode())
    yield from (b"(%d) %s\n" % (number + 1, stacks.class_text(codes)) for number, codes in enumerate(notes))


class Broken(Exception):
    """A picture that is not as it has to be."""


def expect(test, *told):
    if not test:
        raise Broken(" ".join(str(word) for word in told))


def point(shape):
    """Where a group is."""
    found = re.fullmatch(r"translate\((\d+) (\d+)\)", shape.get("transform", ""))
    expect(found, "no point")
    return int(found[1]), int(found[2])


def ends_of_line(line):
    """Where a line begins and ends, and all numbers of it."""
    found = re.fullmatch(r"M(\d+) (\d+)((?:H\d+C\d+ \d+ \d+ \d+ \d+ \d+){3})L(\d+) (\d+)", line)
    expect(found, "no line", line)
    numbers = [int(number) for number in re.findall(r"\d+", found[3])]
    return (int(found[1]), int(found[2])), (int(found[4]), int(found[5])), numbers


class Reader:
    """The shapes of an SVG text, in order."""

    def __init__(self, text):
        self.root = xml.fromstring(text)
        self.shapes = list(self.root)
        self.size = int(self.root.get("width")), int(self.root.get("height"))
        self.points, self.columns, self.lanes, self.lines, self.labels = {}, [], {}, [], []

    def next(self, tag, **given):
        """Takes the next shape, which is of this kind and has these attributes."""
        expect(self.shapes, "no shape left for", tag)
        shape = self.shapes.pop(0)
        expect(shape.tag == SPACE + tag, "a", shape.tag, "for a", tag)
        for name, value in given.items():
            expect(shape.get(name) == value, name, "is", shape.get(name), "for", value)
        return shape

    def comes(self, tag, **given):
        return bool(self.shapes) and self.shapes[0].tag == SPACE + tag and all(
            self.shapes[0].get(name) == value for name, value in given.items())

    def top(self):
        expect(self.root.get("role") == "img" and self.root.get("aria-labelledby") == "title desc", "the root")
        expect(self.root.get("viewBox") == "0 0 %d %d" % self.size, "the view")
        title = self.next("title", id="title").text
        told = (self.next("desc", id="desc").text or "").splitlines()
        self.next("style")
        self.next("rect", width=str(self.size[0]), height=str(self.size[1]))
        expect(self.next("text").text == title, "two titles")
        expect(2 * MARGIN + BOLD * len(title) <= self.size[0], "no room for the title")
        yield "title " + title
        yield from ("told " + line for line in told)

    def lane(self):
        """Takes a lane, and keeps its height by its state. Several can have one state."""
        self.next("path")
        first, last = self.next("text"), self.next("text")
        expect(first.get("y") == last.get("y"), "the names of a lane")
        self.lanes.setdefault((first.text, last.text), []).append(int(first.get("y")))

    def column(self):
        shape = self.next("g")
        number, name, rows = shape.findall(SPACE + "text")
        rows = [row.text for row in rows]
        asked = rows[-1] != "never asked"
        rows = [number.text, name.text, " ".join(rows if asked else rows[:-1]), *([] if asked else rows[-1:])]
        x, _ = point(shape)
        expect(x > (self.columns or [0])[-1], "a column is not right of the one before it")
        self.columns.append(x)
        return "column %s | %s" % (shape.find(SPACE + "title").text, " | ".join(rows))

    def bracket(self):
        """Takes a bracket, and says which columns are below it."""
        found = re.fullmatch(r"M(\d+) \d+v-6H(\d+)v6", self.next("path").get("d"))
        expect(found, "no bracket")
        below = [number + 1 for number, x in enumerate(self.columns) if int(found[1]) <= x <= int(found[2])]
        return "substack %d %d" % (below[0], below[-1])

    def edge(self):
        shape = self.next("g")
        self.lines.append((shape.get("data-from"), shape.get("data-to"), ends_of_line(shape.find(SPACE + "path").get("d"))))
        told = shape.find(SPACE + "title").text, shape.find(SPACE + "text").text or ""
        self.labels.append(told[1])
        return "edge %s %s | %s | %s" % (shape.get("data-from"), shape.get("data-to"), *told)

    def node(self):
        shape = self.next("g")
        title, drawn = list(shape)
        self.points[shape.get("id")] = point(shape)
        number, *_, impression, status = title.text.rsplit(" ", 2)[0].split(" ")[:1] + title.text.rsplit(" ", 2)[1:]
        x, y = self.points[shape.get("id")]
        expect(x == self.columns[int(number) - 1], "a node is not in its column")
        expect(y in self.lanes[impression, status], "a node is not in its lane")
        told = "circle " + drawn.get("r") if drawn.tag == SPACE + "circle" else "path " + drawn.get("d")
        return "node %s %s %s | %s" % (shape.get("id"), shape.get("class"), told, title.text)

    def end(self):
        shape = self.next("g")
        _, box, text = list(shape)
        self.points[shape.get("id")] = point(shape)
        expect((box.get("class") == "success") == (box.get("rx") is not None), "the shape of an end")
        return "end %s %s %s" % (shape.get("id"), "round" if box.get("rx") else "square", text.text)

    def check_points(self):
        """Looks at where the shapes are."""
        expect(len(set(self.points.values())) == len(self.points), "two shapes at one point")
        for x, y in self.points.values():
            expect(x < self.size[0] and y < self.size[1], "a shape outside the picture")
        for start, target, (first, last, numbers) in self.lines:
            expect(first == self.points[start] and last == self.points[target], "an edge from", start, "to", target)
            expect(numbers[-1] == last[1], "an edge does not come straight to its target")
            across = [first[0], *(numbers[i] for k in range(0, 21, 7) for i in (k, k + 5)), last[0]]
            expect(across == sorted(across), "an edge goes back", across)
            expect(all(0 < number < max(self.size) for number in numbers), "an edge outside the picture")

    def check_ways(self):
        """Looks at what is on the way of each edge."""
        rows = {}
        for (start, target, (first, last, numbers)), label in zip(self.lines, self.labels):
            bends = [(numbers[i], numbers[i + 5], numbers[i + 6]) for i in range(0, 21, 7)]
            beside = [point for name, point in self.points.items() if name not in (start, target)]
            at, height = first
            for left, right, after in [*bends, (last[0], *last)]:
                if after != height:
                    expect(not any(left < x < right for x in self.columns), "an edge from", start, "bends in a column")
                # Where it does not bend, it is straight up to the next bend.
                expect(not any(at < x < left and abs(y - height) < ROW / 2 for x, y in beside), "an edge from", start, "through a node")
                at, height = (right, after) if after != height else (at, height)
            _, right, height = bends[0]
            expect(LETTER * len(label) <= bends[1][0] - right, "no room for", label)
            if label:
                rows.setdefault(right, []).append(height)
        for heights in map(sorted, rows.values()):
            expect(all(after - before >= ROW for before, after in zip(heights, heights[1:])), "a label over another")

    def lines_told(self):
        yield from self.top()
        while self.comes("path", **{"class": "lane"}):
            self.lane()
        while self.comes("g") and self.shapes[0].get("class") is None and self.shapes[0].get("id") is None:
            yield self.column()
        while self.comes("path", **{"class": "bracket"}):
            yield self.bracket()
        while self.comes("g", **{"class": "edge"}):
            yield self.edge()
        while self.comes("g") and self.shapes[0].get("class"):
            yield self.node()
        while self.comes("g"):
            yield self.end()
        yield "start " + self.next("path", id="start").get("data-to")
        while self.shapes:
            yield self.next("text").text
        self.check_points()
        self.check_ways()


def told(text):
    """The lines of what an SVG text shows."""
    try:
        return b"".join(line.encode() + b"\n" for line in Reader(text).lines_told())
    except (Broken, xml.ParseError, ValueError, KeyError, IndexError, TypeError, AttributeError) as error:
        return b"broken picture: %r\n%s" % (str(error).encode(), text)
