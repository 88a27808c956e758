#!/usr/bin/env python3
"""The day sheet once more, in plain Python: what docs/SCOPE.md and docs/FORMATS.md say, written down
without regard to speed and without a look at the proved program. `answer(bridge, hall)` gives the
bytes that the program has to print for two day files (None stands for a missing file).

    scripts/reference.py FOLDER     prints the answer for FOLDER/bridge.day and FOLDER/hall.day
"""
import os
import re
import sys

HORIZON = 1440
LAST_MINUTE = 10080
MISSING = 10080
NUMBER = re.compile(rb"0|-?[1-9][0-9]*")


class Fault(Exception):
    def __init__(self, file, line, refusal):
        super().__init__(file, line, refusal)
        self.output = b"file line refusal\n%d %d %d\n" % (file, line, refusal)


class Refused(Exception):
    def __init__(self, number):
        super().__init__(number)
        self.number = number


# ---- limits

class Bunker:
    most = 32

    def __init__(self, floor, roof, start):
        if not 0 <= floor <= start <= roof <= 100_000_000:
            raise Refused(2)
        self.floor, self.roof, self.start = floor, roof, start
        self.uses = {}

    def form(self, first, last, kilos):
        return kilos != 0 and -1_000_000 <= kilos <= 1_000_000

    @staticmethod
    def sure_by(m, p, x):
        kind, v = x
        return m[v][p] <= 0 if kind == "point" else m[0][p] <= v

    @staticmethod
    def sure_after(m, p, x):
        kind, v = x
        return m[p][v] < 0 if kind == "point" else m[p][0] < -v

    def options(self, m, x, use):
        first, last, kilos = use
        by, after = self.sure_by(m, first, x), self.sure_after(m, first, x)
        if first == last:
            return not after, not by, kilos
        last_by, last_after = self.sure_by(m, last, x), self.sure_after(m, last, x)
        return not (after or last_by), not (by and last_after), -kilos

    def profile(self, m, x):
        rows, highest, lowest = [], self.start, self.start
        for use in self.uses.values():
            active, idle, worth = self.options(m, x, use)
            worths = [worth] * active + [0] * idle or [0]
            rows.append((use, active and idle, worth, max(worths), min(worths)))
            highest += max(worths)
            lowest += min(worths)
        return rows, highest, lowest

    def points(self):
        return sorted({p for first, last, _ in self.uses.values() for p in (first, last)})

    def moments(self, m):
        minutes = {0, LAST_MINUTE}
        for p in self.points():
            for at in (m[0][p], -m[p][0]):
                minutes |= {k for k in (at - 1, at, at + 1) if 0 <= k <= LAST_MINUTE}
        return [("point", p) for p in self.points()] + [("minute", k) for k in sorted(minutes)]

    def missed(self, highest, lowest):
        return highest < self.floor or lowest > self.roof

    def refuses(self, m):
        if any(first != last and m[first][last] < 0 for first, last, _ in self.uses.values()):
            return True
        return any(self.missed(*self.profile(m, x)[1:]) for x in self.moments(m))

    def vouches(self, m):
        if any(first != last and m[last][first] > 0 for first, last, _ in self.uses.values()):
            return False
        profiles = (self.profile(m, ("point", p)) for p in self.points())
        return all(self.floor <= lowest and highest <= self.roof for _, highest, lowest in profiles)

    def bounds(self, m):
        for first, last, _ in self.uses.values():
            if first != last:
                yield last, first, 0
        for x in self.moments(m):
            rows, highest, lowest = self.profile(m, x)
            for use, undecided, worth, high, low in rows:
                if undecided:
                    yield from self.ruled_out(m, x, use, worth, highest - high, lowest - low)

    def ruled_out(self, m, x, use, worth, highest, lowest):
        first, last, _ = use
        loan = first != last
        if self.missed(highest, lowest):
            yield by(first, x)
            if loan:
                yield after(last, x)
        if self.missed(highest + worth, lowest + worth):
            if not loan or self.sure_after(m, last, x):
                yield after(first, x)
            if loan and self.sure_by(m, first, x):
                yield by(last, x)


def by(p, x):
    kind, v = x
    return (v, p, 0) if kind == "point" else (0, p, v)


def after(p, x):
    kind, v = x
    return (p, v, -1) if kind == "point" else (p, 0, -v - 1)


class Weighbridge:
    most = 16

    def __init__(self):
        self.uses = {}

    def form(self, first, last, kilos):
        return kilos == 0 and first != last

    def pairs(self):
        uses = list(self.uses.values())
        return [(a, b) for i, a in enumerate(uses) for j, b in enumerate(uses) if i != j]

    def refuses(self, m):
        return any(m[f][l] < 0 for f, l, _ in self.uses.values()) or any(
            m[a[1]][b[0]] < 0 and m[b[1]][a[0]] < 0 for a, b in self.pairs())

    def vouches(self, m):
        return all(m[l][f] <= 0 for f, l, _ in self.uses.values()) and all(
            m[b[0]][a[1]] <= 0 or m[a[0]][b[1]] <= 0 for a, b in self.pairs())

    def bounds(self, m):
        for first, last, _ in self.uses.values():
            yield last, first, 0
        for a, b in self.pairs():
            if m[a[1]][b[0]] < 0:
                yield a[0], b[1], 0


# ---- the sheet

class Sheet:
    def __init__(self, limits):
        self.limits, self.labels, self.slips = limits, [b"opening"], {}

    def name(self, word):
        if not re.fullmatch(rb"[a-z0-9]{1,8}", word):
            raise Refused(3)
        if word in self.labels:
            raise Refused(4)
        if len(self.labels) == 64:
            raise Refused(5)
        self.labels.append(word)

    def post_distance(self, number, i, j, minutes):
        if not 1 <= number <= 9999:
            raise Refused(7)
        if i == j:
            raise Refused(9)
        if not -HORIZON <= minutes <= HORIZON:
            raise Refused(10)
        if number in self.slips:
            raise Refused(11)
        if len(self.slips) == 256:
            raise Refused(12)
        self.slips[number] = (i, j, minutes)

    def post_use(self, place, number, first, last, kilos):
        if not 0 <= place < len(self.limits):
            raise Refused(6)
        limit = self.limits[place]
        if not 1 <= number <= 9999:
            raise Refused(7)
        if not limit.form(first, last, kilos):
            raise Refused(9)
        if number in limit.uses:
            raise Refused(11)
        if len(limit.uses) == limit.most:
            raise Refused(12)
        limit.uses[number] = (first, last, kilos)

    def tighten(self):
        """The greatest closed table, or None."""
        n = len(self.labels)
        m = [[0 if i == j or j == 0 else HORIZON for j in range(n)] for i in range(n)]
        for i, j, d in self.slips.values():
            m[i][j] = min(m[i][j], d)
        while True:
            for k in range(n):
                for i in range(n):
                    for j in range(n):
                        m[i][j] = min(m[i][j], m[i][k] + m[k][j])
            if any(m[i][i] < 0 for i in range(n)) or any(limit.refuses(m) for limit in self.limits):
                return None
            given = [b for limit in self.limits for b in limit.bounds(m)]
            if all(m[i][j] <= d for i, j, d in given):
                return m
            for i, j, d in given:
                m[i][j] = min(m[i][j], d)

    def output(self):
        m = self.tighten()
        if m is None:
            return b"verdict loose\nnoplan 0\n"
        lines = [b"label earliest latest"]
        lines += [b"%s %d %d" % (w, -m[p][0], m[0][p]) for p, w in enumerate(self.labels)]
        loose = sum(m[0][p] + m[p][0] > 0 for p in range(len(self.labels)))
        word = b"any" if all(limit.vouches(m) for limit in self.limits) else b"open"
        return b"\n".join(lines + [b"", b"verdict loose", b"%s %d" % (word, loose), b""])


# ---- the files

def lines_of(data, file):
    if data is None or len(data) > 65536 or not data.endswith(b"\n"):
        raise Fault(file, 0, 17)
    return data[:-1].split(b"\n")


def number(field):
    if not NUMBER.fullmatch(field) or not -100_000_000 <= int(field) <= 100_000_000:
        raise Refused(20)
    return int(field)


class Reader:
    """Reads the lines of one file in turn."""

    def __init__(self, file, lines):
        self.file, self.lines, self.at = file, lines, 0

    def line(self):
        return self.lines[self.at] if self.at < len(self.lines) else None

    def fault(self, refusal):
        raise Fault(self.file, self.at + 1, refusal)

    def due(self, text):
        if self.line() != text:
            self.fault(18)
        self.at += 1

    def value(self, columns, call):
        fields = self.line().split(b" ")
        if len(fields) != len(columns):
            self.fault(19)
        try:
            call(*[column(field) for column, field in zip(columns, fields)])
        except Refused as why:
            self.fault(why.number)
        self.at += 1

    def values(self, columns, call):
        while self.line() not in (None, b""):
            self.value(columns, call)

    def end(self):
        if self.line() == b"":
            self.at += 1
        if self.line() is not None:
            self.fault(18)


def read(bridge, hall):
    hall_lines, bridge_lines = lines_of(hall, 2), lines_of(bridge, 1)
    hall, bridge = Reader(2, hall_lines), Reader(1, bridge_lines)
    limits = []
    hall.due(b"floor roof start")
    for _ in range(2):
        if hall.line() in (None, b""):
            hall.fault(18)
        hall.value([number] * 3, lambda *settings: limits.append(Bunker(*settings)))
    if hall.line() is not None:
        hall.due(b"")
    limits.append(Weighbridge())
    sheet = Sheet(limits)

    def label(field):
        if field not in sheet.labels:
            raise Refused(21)
        return sheet.labels.index(field)

    bridge.due(b"label")
    bridge.values([bytes], sheet.name)
    if bridge.line() is not None:
        bridge.due(b"")
    bridge.due(b"slip from to minutes")
    bridge.values([number, label, label, number], sheet.post_distance)
    bridge.end()
    hall.due(b"place slip first last kilos")
    hall.values([number, number, label, label, number], sheet.post_use)
    hall.end()
    return sheet


def answer(bridge, hall):
    try:
        return read(bridge, hall).output()
    except Fault as fault:
        return fault.output


def bytes_of(path):
    try:
        with open(path, "rb") as f:
            return f.read()
    except OSError:
        return None


if __name__ == "__main__":
    folder = sys.argv[1]
    files = (bytes_of(os.path.join(folder, name)) for name in ("bridge.day", "hall.day"))
    sys.stdout.buffer.write(answer(*files))
