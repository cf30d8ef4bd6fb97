"""What the picture tools know of arrays: configurations, layouts, graph files, scripts, and the graphs of the library.

It is written by hand after docs/FORMATS.md and docs/GRAPHS.md and is not proved. It takes texts that raidctl takes; of
others it says that it can't read them, without raidctl's codes.
"""

import itertools


class Unreadable(Exception):
    """A text that can't be read, with the reason."""


def read_text(name):
    """The text of a file, byte by byte."""
    try:
        with open(name, encoding="latin-1") as text:
            return text.read()
    except OSError as fault:
        raise Unreadable(f"{name}: {fault.strerror}")


def lines_of(text):
    """The words of each line that has some, comments left out."""
    for line in text.split("\n"):
        words = line.split("#")[0].split()
        if words:
            yield words


# ---- configurations and layouts ----

DATA, CHECK, SPARE = "data", "check", "spare"


class Array:
    """A configuration with its layout. Rows, stripes and units are numbered from 0."""

    def __init__(self, text):
        self.queue = None
        self.disks, self.spares = [], []
        self.level, self.unit, self.tuples = "", 0, []
        sections = {}
        section = None
        for words in lines_of(text):
            if words[0] == "START":
                section = sections.setdefault(words[1] if len(words) > 1 else "", [])
            elif section is None:
                raise Unreadable("the configuration doesn't begin with START")
            else:
                section.append(words)
        try:
            self.disks = [words[0] for words in sections["disks"]]
            self.spares = [words[0] for words in sections.get("spare", [])]
            unit, _, _, self.level = sections["layout"][0]
            self.unit = int(unit)
            self._set_up(sections["layout"][1:])
        except (KeyError, ValueError, IndexError):
            raise Unreadable("the configuration isn't one that raidctl reads") from None

    def _set_up(self, design):
        n = self.columns = len(self.disks)
        if self.level in "TD":
            self.tuples = tuples_of(design)
            self.width = len(self.tuples[0]) - (1 if self.level == "D" else 0)
            self._fill_table()
            self.period = self.table_rows
        elif self.level in "01456C" and self.level != "6":
            self.width = 2 if self.level in "1C" else n
            self.period = {"0": 1, "1": 1, "4": 1, "5": n, "C": 2}[self.level]
        else:
            raise ValueError
        self.checks = 0 if self.level == "0" else 1
        self.data = self.width - self.checks

    def _fill_table(self):
        """The places of a full table: each position of a tuple takes the lowest free row of its column."""
        k = len(self.tuples[0])
        free = [0] * self.columns
        self.table, self.table_spares = [], []
        for copy, objects in itertools.product(range(k), self.tuples):
            places = []
            for column in objects:
                places.append((column, free[column]))
                free[column] += 1
            spare = (copy + 1) % k if self.level == "D" else None
            units = [places[i] for i in range(k) if i not in (copy, spare)]
            self.table.append(units + [places[copy]])
            self.table_spares.append(None if spare is None else places[spare])
        self.table_rows = free[0]

    def place(self, stripe, unit):
        """The column and the row of a unit."""
        n, last = self.columns, self.width - 1
        if self.level in "04":
            return unit, stripe
        if self.level == "5":
            column = (stripe * (n - 1) + unit) % n if unit < last else n - 1 - stripe % n
            return column, stripe
        if self.level == "1":
            return 2 * (stripe % (n // 2)) + unit, stripe // (n // 2)
        if self.level == "C":
            return (stripe + unit) % n, 2 * (stripe // n) + unit
        table, within = divmod(stripe, len(self.table))
        column, row = self.table[within][unit]
        return column, table * self.table_rows + row

    def spare_place(self, stripe):
        """The column and the row of a stripe's spare place, None where the layout has none."""
        if self.level != "D":
            return None
        table, within = divmod(stripe, len(self.table))
        column, row = self.table_spares[within]
        return column, table * self.table_rows + row

    def kind(self, unit):
        """Whether a unit is one of data or the check unit."""
        return CHECK if self.checks and unit == self.width - 1 else DATA

    def home(self, block):
        """The stripe, the data unit and the offset of a block."""
        unit, offset = divmod(block, self.unit)
        stripe, unit = divmod(unit, self.data)
        return stripe, unit, offset


class Told(Array):
    """A configuration with the places that `raidctl CONF --layout` told of it; others lie below its rows."""

    def __init__(self, text, told):
        super().__init__(text)
        self.places, self.spares_told, self.rows = {}, {}, None
        try:
            for words in lines_of(told):
                if words[0] == "layout":
                    self.rows = int(words[words.index("rows") + 1])
                elif words[0] == "stripe":
                    at = (int(words[words.index("column") + 1]), int(words[words.index("row") + 1]))
                    if words[2] == "spare":
                        self.spares_told[int(words[1])] = at
                    else:
                        unit = self.width - 1 if words[2] == "check" else int(words[3])
                        self.places[int(words[1]), unit] = at
        except (ValueError, IndexError):
            raise Unreadable("these aren't the lines of --layout") from None
        if self.rows is None:
            raise Unreadable("there is no layout among these lines")

    def place(self, stripe, unit):
        return self.places.get((stripe, unit), (0, self.rows))

    def spare_place(self, stripe):
        return self.spares_told.get(stripe)


def tuples_of(lines):
    """The tuples of a block design, by its lines in a configuration."""
    words = lines[0]
    if words[0] == "design":
        count, k = int(words[1]), int(words[3])
        tuples = [[int(word) for word in line] for line in lines[1 : count + 1]]
        if len(tuples) != count or any(len(objects) != k for objects in tuples):
            raise ValueError
        return tuples
    v = int(words[1])
    if words[0] == "cyclic" and words[2] == ":":
        return [[(int(word) + t) % v for word in words[3:]] for t in range(v)]
    if words[0] == "complete":
        return [list(objects) for objects in itertools.combinations(range(v), int(words[2]))]
    raise ValueError


# ---- access graphs ----

READ, WRITE, XOR, COMMIT, TERMINATE = "read", "write", "xor", "commit", "terminate"


class Node:
    """A node of a graph; the buffer is that which it fills or writes."""

    def __init__(self, kind, unit=None, buffer=None, sources=(), after=()):
        self.kind, self.unit, self.buffer = kind, unit, buffer
        self.sources, self.after = list(sources), list(after)


class Buffer:
    """A buffer of a graph: a range of offsets of a stripe, which is known by its position in the operation."""

    def __init__(self, stripe, first, count, new=None):
        self.stripe, self.first, self.count, self.new = stripe, first, count, new


class Graph:
    """A graph of a file, or one of the library. Returns are pairs of a data unit and a buffer."""

    def __init__(self, name):
        self.name, self.buffers, self.nodes, self.returns = name, [], [], []


def read_graphs(text):
    """The graphs of a file, by their names; a status behind them is passed over, as it stands where raidctl printed them."""
    graphs = {}
    graph = None
    for words in lines_of(text):
        try:
            if words[0] == "graph":
                graph = graphs.setdefault(words[1], Graph(words[1]))
            elif words[0] == "buffer":
                new = int(words[9]) if words[8:9] == ["new"] else None
                graph.buffers.append(Buffer(int(words[3]), int(words[5]), int(words[7]), new))
            elif words[0] == "node":
                graph.nodes.append(node_of(words[2:]))
            elif words[0] == "return":
                graph.returns.append((int(words[1]), int(words[2])))
            elif words[0] not in ("end", "status"):
                raise ValueError
        except (ValueError, IndexError, AttributeError):
            raise Unreadable("the graph file isn't one that raidctl reads: " + " ".join(words)) from None
    return graphs


def node_of(words):
    """The node of a line's words behind its number."""
    cut = words.index("after") if "after" in words else len(words)
    numbers, after = [int(word) for word in words[1:cut]], [int(word) for word in words[cut + 1 :]]
    if words[0] in (READ, WRITE):
        return Node(words[0], unit=numbers[0], buffer=numbers[1], after=after)
    if words[0] == XOR:
        return Node(XOR, buffer=numbers[0], sources=numbers[1:], after=after)
    if words[0] in (COMMIT, TERMINATE):
        return Node(words[0], after=after)
    raise ValueError


def steps(graph, shift=0):
    """The kind, the position of the stripe and the unit of each node of a graph whose stripes are moved up by the shift."""
    for node in graph.nodes:
        stripe = None if node.buffer is None else graph.buffers[node.buffer].stripe + shift
        yield node.kind, stripe, node.unit


def joined_steps(first, second, shift):
    """The same of two graphs that are joined under one commit."""
    before, behind = [], []
    for graph, up in ((first, 0), (second, shift)):
        late = set()
        for number, (node, step) in enumerate(zip(graph.nodes, steps(graph, up))):
            if node.kind == COMMIT or late.intersection(node.after):
                late.add(number)
            if node.kind not in (COMMIT, TERMINATE):
                (behind if number in late else before).append(step)
    return before + [(COMMIT, None, None)] + behind + [(TERMINATE, None, None)]


# ---- scripts ----


class Item:
    """An item of a script. A write or a read has spans, pairs of the first block and how many; a join names two graphs."""

    def __init__(self, words):
        self.text = " ".join(words[1:])
        self.graph, self.joined = None, None
        words = words[1:]
        if words[0] == "use":
            self.graph, words = words[1], words[2:]
        self.kind, self.spans, self.number = words[0], [], None
        if self.kind in ("read", "write"):
            self.spans = [(int(words[1]), int(words[2]))]
        elif self.kind == "writes":
            self.spans = [(int(words[i]), int(words[i + 1])) for i in range(1, len(words), 3)]
        elif self.kind == "join":
            self.spans = [(int(words[i]), int(words[i + 1])) for i in (2, 6)]
            self.joined = words[1], words[5]
        elif self.kind in ("sync", "fail"):
            self.number = int(words[1])
        else:
            raise ValueError


def read_script(text):
    """The items of each client."""
    clients = {}
    for words in lines_of(text):
        try:
            clients.setdefault(int(words[0]), []).append(Item(words))
        except (ValueError, IndexError):
            raise Unreadable("a script's line that this tool doesn't know: " + " ".join(words)) from None
    return clients


# ---- the library's graphs ----


def touched(array, spans):
    """For each stripe that the spans touch: its number, and which offsets of each data unit they touch."""
    stripes = {}
    for first, count in spans:
        block = first
        while block < first + count:
            stripe, unit, offset = array.home(block)
            length = min(array.unit - offset, first + count - block)
            stripes.setdefault(stripe, {}).setdefault(unit, set()).update(range(offset, offset + length))
            block += length
    return sorted(stripes.items())


def pieces(array, units):
    """The longest ranges of offsets on which the same units are touched, where some are: first, count, units."""
    found = []
    for offset in range(array.unit):
        here = sorted(unit for unit, offsets in units.items() if offset in offsets)
        if found and found[-1][2] == here and found[-1][0] + found[-1][1] == offset:
            found[-1][1] += 1
        else:
            found.append([offset, 1, here])
    return [piece for piece in found if piece[2]]


def plan(array, kind, stripes, missing, target=True):
    """The nodes of the library's graph, each with the stripe's position and the unit: (kind, position, unit).

    Stripes are those of `touched`; missing has the missing unit of each stripe by its position, or None.
    """
    reads, sums, writes = [], [], []
    check = array.width - 1
    everything = range(array.width)
    for position, (_, units) in enumerate(stripes):
        gone = missing[position]
        if kind in ("rebuild", "sync"):
            unit = gone if kind == "rebuild" else check
            wanted = gone is not None and target if kind == "rebuild" else gone is None and array.checks
            if wanted:
                reads += [(READ, position, i) for i in everything if i != unit]
                sums.append((XOR, position, unit))
                writes.append((WRITE, position, unit))
            continue
        for _, _, here in pieces(array, units):
            rest = [i for i in range(array.data) if i not in here]
            if kind == "read":
                source = [i for i in everything if i != gone] if gone in here else here
                reads += [(READ, position, i) for i in source]
                sums += [(XOR, position, gone)] if gone in here else []
            elif not array.checks or gone == check:
                writes += [(WRITE, position, i) for i in here]
            else:
                small = gone in rest if gone is not None else len(here) + 1 <= array.data - len(here)
                reads += [(READ, position, i) for i in (here + [check] if small else rest)]
                sums.append((XOR, position, check))
                writes += [(WRITE, position, i) for i in here + [check] if i != gone]
    return reads + sums + [(COMMIT, None, None)] + writes + [(TERMINATE, None, None)]
