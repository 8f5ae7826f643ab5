#!/usr/bin/env python3
"""A second program for the report: plain Python on unlimited integers, to compare the proved one with.

    tests/report_model.py < TEXT          prints what the program report prints for TEXT
    tests/report_model.py --cases DIR     writes DIR/stdin and DIR/stdout for the crate report_cases
    tests/report_model.py --compare PROGRAM [COUNT [SEED]]   runs PROGRAM on COUNT random texts and compares

It shares no code with the program and does not read its output: expected values come from the rules as they
are worked here. Its author also wrote the definitions in specs/, so a rule that was misread may be wrong in both.
"""
import random
import re
import subprocess
import sys

LIMIT = 65536
LOW, HIGH = -(2 ** 31), 2 ** 31 - 1
NUMBER = re.compile(rb"(0|-?[1-9][0-9]*)\Z")


class Fault(Exception):
    """A fault of the text: number, line and field."""


def whole(field, line, position, low, high):
    """The number that a field writes; position counts from 1."""
    if not NUMBER.match(field):
        raise Fault(22, line, position)
    # Python refuses to convert very long digit strings, and none of them is within a limit
    value = int(field) if len(field) < 30 else 10 ** 29
    if not low <= value <= high:
        raise Fault(23, line, position)
    return value


def choice(field, line, position, words):
    if field not in words:
        raise Fault(22, line, position)
    return field


def taps(fields, line, start):
    return [whole(f, line, start + k, -32768, 32767) for k, f in enumerate(fields[start - 1:])]


class Text:
    def __init__(self, data):
        self.lines = data.split(b"\n")
        self.at = 0

    def ended(self):
        return self.at == len(self.lines) - 1 and self.lines[-1] == b""

    def next(self):
        """The fields of the next line; the last part has no line feed and is no line."""
        if self.at == len(self.lines) - 1:
            raise Fault(25, len(self.lines), 0)
        self.at += 1
        return self.lines[self.at - 1].split(b","), self.at


def read(data):
    if len(data) > LIMIT:
        raise Fault(26, 0, 0)
    text = Text(data)
    fields, line = text.next()
    if fields[0] != b"SET":
        raise Fault(20, line, 1)
    if len(fields) != 6:
        raise Fault(21, line, 1)
    channels = whole(fields[1], line, 2, 1, 64)
    samples = whole(fields[2], line, 3, 1, 1048576)
    origin = whole(fields[3], line, 4, 0, 1048575)
    least = whole(fields[4], line, 5, LOW, HIGH)
    greatest = whole(fields[5], line, 6, LOW, HIGH)
    if least > greatest:
        raise Fault(23, line, 6)
    stages = []
    while not text.ended():
        fields, line = text.next()
        word = fields[0]
        if word not in (b"LIFT", b"DEP", b"RCT"):
            raise Fault(20, line, 1)
        if len(stages) == 16:
            raise Fault(24, line, 1)
        if len(fields) != {b"LIFT": 8, b"DEP": 3, b"RCT": 2}[word]:
            raise Fault(21, line, 1)
        if word == b"RCT":
            stages.append(("RCT", whole(fields[1], line, 2, 0, 61)))
        elif word == b"DEP":
            first = whole(fields[1], line, 2, 0, 63)
            count = whole(fields[2], line, 3, 2, 8)
            if first + count > 64:
                raise Fault(23, line, 3)
            rows = []
            for i in range(1, count):
                fields, line = text.next()
                if fields[0] != b"ROW":
                    raise Fault(20, line, 1)
                if len(fields) != 2 + i:
                    raise Fault(21, line, 1)
                e = whole(fields[1], line, 2, 0, 16)
                rows.append((e, taps(fields, line, 3)))
            stages.append(("DEP", first, count, rows))
        else:
            axis = choice(fields[1], line, 2, (b"T", b"C"))
            first = whole(fields[2], line, 3, 0, 63)
            count = whole(fields[3], line, 4, 1, 64)
            if first + count > 64:
                raise Fault(23, line, 4)
            level = whole(fields[4], line, 5, 0, 15)
            ext = choice(fields[5], line, 6, (b"WS", b"CON"))
            m = whole(fields[6], line, 7, 0, 1)
            n = whole(fields[7], line, 8, 1, 4)
            steps = []
            for _ in range(n):
                fields, line = text.next()
                if fields[0] != b"STEP":
                    raise Fault(20, line, 1)
                if not 5 <= len(fields) <= 12:
                    raise Fault(21, line, 1)
                off = whole(fields[1], line, 2, -8, 8)
                e = whole(fields[2], line, 3, 0, 16)
                beta = whole(fields[3], line, 4, -65536, 65536)
                steps.append((off, e, beta, taps(fields, line, 5)))
            stages.append(("LIFT", axis, first, count, level, ext, m, steps))
    return channels, samples, origin, (least, greatest), stages


class TooWide(Exception):
    pass


def narrow(low, high):
    if low < LOW or high > HIGH:
        raise TooWide
    return low, high


def extremes(weights, spans, constant, exponent):
    low = high = constant
    for a, (l, h) in zip(weights, spans):
        low += min(a * l, a * h)
        high += max(a * l, a * h)
    return low // 2 ** exponent, high // 2 ** exponent


def outside(ext, index, count):
    """The inside index of a line 0 to count - 1 that stands for any index."""
    if ext == b"WS":
        while not 0 <= index < count:
            index = -index if index < 0 else 2 * (count - 1) - index
        return index
    inside = [i for i in range(count) if (i - index) % 2 == 0]
    return min(inside, key=lambda i: abs(i - index))


def lift(stage, samples, origin, spans):
    _, axis, first, count, level, ext, m, steps = stage
    unit = 2 ** level
    after = list(spans)
    if axis == b"T":
        indices = [p // unit for p in range(-(-origin // unit) * unit, origin + samples, unit)]
        for c in range(first, first + count):
            l, h = spans[c]
            if len(indices) == 1 and indices[0] % 2 == 1:
                dl, dh = narrow(2 * l, 2 * h)
                after[c] = min(l, dl), max(h, dh)
            elif len(indices) > 1:
                pair, now = [spans[c], spans[c]], m
                for off, e, beta, weights in steps:
                    ql, qh = extremes(weights, [pair[1 - now]] * len(weights), beta, e)
                    pair[now] = narrow(pair[now][0] + ql, pair[now][1] + qh)
                    now = 1 - now
                after[c] = min(l, pair[0][0], pair[1][0]), max(h, pair[0][1], pair[1][1])
        return after
    line = [first + p for p in range(0, count, unit)]
    n = len(line)
    if n > 1:
        held, now = [spans[c] for c in line], m
        for off, e, beta, weights in steps:
            new = list(held)
            for i in range(now, n, 2):
                half = (i - now) // 2
                sources = [held[outside(ext, 2 * (half + off + k) + 1 - now, n)] for k in range(len(weights))]
                ql, qh = extremes(weights, sources, beta, e)
                new[i] = narrow(held[i][0] + ql, held[i][1] + qh)
            held, now = new, 1 - now
        for c, (l, h) in zip(line, held):
            after[c] = min(spans[c][0], l), max(spans[c][1], h)
    return after


def widen(stage, channels, samples, origin, spans):
    """The spans after a stage, or the number of its refusal."""
    if stage[0] == "LIFT":
        first, end = stage[2], stage[2] + stage[3]
    else:
        first, end = stage[1], stage[1] + (stage[2] if stage[0] == "DEP" else 3)
    if end > channels:
        return 8
    try:
        if stage[0] == "LIFT":
            return lift(stage, samples, origin, spans)
        after = list(spans)
        x = spans[first:end]
        if stage[0] == "RCT":
            (al, ah), (bl, bh), (cl, ch) = x
            after[first] = narrow((al + 2 * bl + cl) // 4, (ah + 2 * bh + ch) // 4)
            after[first + 1] = narrow(cl - bh, ch - bl)
            after[first + 2] = narrow(al - bh, ah - bl)
        else:
            for i, (e, weights) in enumerate(stage[3], 1):
                ql, qh = extremes(weights, x[:i], 2 ** (e - 1) if e else 0, e)
                after[first + i] = narrow(x[i][0] - qh, x[i][1] - ql)
        return after
    except TooWide:
        return 9


def report(data):
    try:
        channels, samples, origin, span, stages = read(data)
    except Fault as fault:
        return "refused,%d,%d,%d\n" % fault.args
    spans, out = [span] * channels, []
    for k, stage in enumerate(stages):
        spans = widen(stage, channels, samples, origin, spans)
        if isinstance(spans, int):
            return "".join(out) + "refused,%d,%d,0\n" % (spans, k)
        out += ["%d,%d,%d,%d\n" % (k, c, l, h) for c, (l, h) in enumerate(spans)]
    return "".join(out)


LIFT53 = "LIFT,T,%d,%d,%d,WS,1,2\nSTEP,0,1,1,-1,-1\nSTEP,-1,2,2,1,1\n"
HAAR = "LIFT,%s,%d,%d,%d,%s,1,2\nSTEP,0,0,0,-1\nSTEP,0,1,0,1\n"


def cases():
    """The table of cases: texts that are accepted, and texts with each fault in each position."""
    s = "SET,3,4,0,-8,7\n"
    yield s + "RCT,0\n"
    yield s
    yield ""
    yield "SET,3,4,0,-8,7"
    yield "\n"
    yield "SET\n"
    yield "SET,3,4,0,-8\n"
    yield "SET,3,4,0,-8,7,\n"
    yield "SETS,3,4,0,-8,7\n"
    yield "set,3,4,0,-8,7\n"
    yield " SET,3,4,0,-8,7\n"
    yield "SET,3,4,0,-8,7\r\n"
    yield ",SET\n"
    yield "SET,1,4,0,-8,7\n" + LIFT53 % (0, 1, 0)
    yield "SET,1,4,0,-8,7\n" + HAAR % ("T", 0, 1, 0, "CON")
    yield "SET,1,1,5,-9,9\n" + LIFT53 % (0, 1, 0)
    yield "SET,1,1,5,5,9\n" + LIFT53 % (0, 1, 0)
    yield "SET,1,1,5,-9,-5\n" + LIFT53 % (0, 1, 0)
    yield "SET,1,1,4,-9,9\n" + LIFT53 % (0, 1, 0)
    yield "SET,1,1,5,-9,9\n" + LIFT53 % (0, 1, 1)
    yield "SET,1,2,5,-9,9\n" + LIFT53 % (0, 1, 1)
    yield "SET,1,3,5,-9,9\n" + LIFT53 % (0, 1, 1)
    yield "SET,1,1,32768,-9,9\n" + LIFT53 % (0, 1, 15)
    yield "SET,1,1048576,1048575,-9,9\n" + LIFT53 % (0, 1, 15)
    yield "SET,1,1,5,1073741824,1073741824\n" + LIFT53 % (0, 1, 0)
    yield "SET,1,1,5,-1073741824,1073741823\n" + LIFT53 % (0, 1, 0)
    yield "SET,1,1,5,-1073741825,0\n" + LIFT53 % (0, 1, 0)
    yield "SET,64,1024,0,-8388608,8388607\n" + "".join(LIFT53 % (0, 64, v) for v in range(9))
    yield "SET,2,1024,0,-8388608,8388607\n" + "".join(LIFT53 % (0, 2, v) for v in range(8))
    yield "SET,5,4,0,-8,7\nLIFT,C,0,5,0,WS,1,2\nSTEP,0,1,1,-1,-1\nSTEP,-1,2,2,1,1\n"
    yield "SET,5,4,0,-8,7\nLIFT,C,1,4,0,CON,0,3\nSTEP,-3,2,5,1,-3,2\nSTEP,2,0,-7,4,1,-2,3,5,-6,7,-8\nSTEP,8,3,100,-32768,32767\n"
    yield "SET,5,4,9,-8,7\nDEP,1,3\nROW,1,1\nROW,2,3,-1\nLIFT,C,0,5,1,WS,1,2\nSTEP,0,1,1,-1,-1\nSTEP,-1,2,2,1,1\nLIFT,C,0,5,0,CON,1,1\nSTEP,-8,16,-65536,7,8,9\n"
    yield "SET,4,4,0,-8,7\nLIFT,C,0,1,0,WS,1,1\nSTEP,0,0,0,9\nLIFT,C,1,2,1,CON,0,1\nSTEP,0,0,0,9\n"
    yield "SET,3,4,0,-8,7\nDEP,0,3\nROW,1,1\nROW,2,3,-1\n"
    yield "SET,2,4,0,-8,7\nDEP,0,3\nROW,1,1\nROW,2,3,-1\n"
    yield "SET,2,4,0,-8,7\nRCT,0\n"
    yield "SET,3,4,0,-8,7\nRCT,0\nRCT,1\nRCT,0\n"
    yield "SET,3,4,0,-2147483648,2147483647\nRCT,0\n"
    yield "SET,3,4,0,-1073741824,1073741823\nRCT,0\n"
    yield "SET,3,4,0,-1073741824,1073741824\nRCT,0\n"
    yield "SET,2,4,0,-2147483648,2147483647\nDEP,0,2\nROW,16,0\n"
    yield "SET,2,4,0,-2147483648,2147483647\nDEP,0,2\nROW,16,1\n"
    yield "SET,2,1,0,-2147483648,-2147483648\nLIFT,T,0,2,0,CON,0,4\nSTEP,0,0,0,-32768\nSTEP,0,0,0,1\nSTEP,0,0,0,1\nSTEP,0,0,0,1\n"
    yield s + "RCT,0\n" * 16
    yield s + "RCT,0\n" * 17
    yield s + "DEP,0,2\nROW,0,0\n" * 16 + "RCT,0"
    yield s + "DEP,0,2\nROW,0,0\n" * 16 + "RCTS,0\n"
    yield s + "DEP,0,2\nROW,0,0\n" * 16 + "RCT\n"
    yield s + "DEP,0,8\n" + "".join("ROW,%d%s\n" % (i, ",1" * i) for i in range(1, 8))
    # every field of every line: missing, empty, another kind, just inside and just outside its limit
    lines = {
        "SET": ("SET,64,1048576,1048575,-2147483648,2147483647", [(1, 64), (1, 1048576), (0, 1048575), (LOW, HIGH), (LOW, HIGH)], "", ""),
        "LIFT": ("LIFT,T,0,64,15,CON,1,1", [("T", "C"), (0, 63), (1, 64), (0, 15), ("WS", "CON"), (0, 1), (1, 4)], "SET,64,9,0,-8,7\n", "STEP,0,0,0,1\n"),
        "STEP": ("STEP,8,16,65536,32767,-32768", [(-8, 8), (0, 16), (-65536, 65536), (-32768, 32767), (-32768, 32767)], "SET,64,9,0,-8,7\nLIFT,C,0,64,0,WS,0,1\n", ""),
        "DEP": ("DEP,0,2", [(0, 63), (2, 8)], "SET,64,9,0,-8,7\nRCT,61\n", "ROW,0,1\n"),
        "ROW": ("ROW,16,-32768,32767", [(0, 16), (-32768, 32767), (-32768, 32767)], "SET,64,9,0,-8,7\nDEP,61,3\nROW,0,1\n", ""),
        "RCT": ("RCT,61", [(0, 61)], "SET,64,9,0,-8,7\n", ""),
    }
    for line, limits, before, after in lines.values():
        yield before + line + "\n" + after
        yield before + line
        yield before + line + "\n"
        yield before + line + ",\n" + after
        yield before + line.rsplit(",", 1)[0] + "\n" + after
        yield before + line.split(",", 1)[1] + "\n" + after
        yield before + line.lower() + "\n" + after
        yield before + line + "\n\n" + after
        yield before + "\n" + line + "\n" + after
        for k, limit in enumerate(limits, 1):
            fields = line.split(",")
            tries = ["", "x", "-", "-0", "00", "01", "-01", "+1", " 1", "1 ", "1.0", "T", "WS", "LIFT", "9" * 300, "-" + "9" * 300, "0" * 300, "1\r"]
            if isinstance(limit[0], int):
                tries += [limit[0], limit[0] - 1, limit[1], limit[1] + 1, limit[0] - 2 ** 32, limit[1] + 2 ** 32, limit[1] + 2 ** 64, limit[0] - 2 ** 64]
            for t in tries:
                yield before + ",".join(fields[:k] + [str(t)] + fields[k + 1:]) + "\n" + after
            for b in (0, 47, 58, 64, 91, 127, 128, 177, 255):
                yield (before + ",".join(fields[:k])).encode() + b"," + fields[k].encode() + bytes([b]) + b"\n"
    for bad in ("LIFT,X,99,99,99,X,9,9\n", "LIFT,T,63,2,0,WS,0,1\n", "LIFT,T,63,1,0,WS,0,1\nSTEP,0,0,0,0\n", "LIFT,T,0,64,0,WS,0,1\nSTEP,0,0,0\n", "DEP,63,2\n", "DEP,62,3\n", "DEP,62,2\nROW,0,1\n", "DEP,56,8\nROW,0,1,1\n"):
        yield "SET,64,9,0,-8,7\n" + bad
        yield "SET,64,9,0,-8,7\nRCT,0\n" + bad + "JUNK\n"
    for word in ("STEP,0,0,0,0", "ROW,0,1", "SET,3,4,0,-8,7", "RCT,0", "LIFT", "DEP", "lift", "", ","):
        yield s + word + "\n"
        yield s + "LIFT,T,0,1,0,WS,0,2\nSTEP,0,0,0,0\n" + word + "\n"
        yield s + "DEP,0,3\nROW,0,1\n" + word + "\n"
    yield "SET,3,4,0,7,-8\n"
    yield "SET,3,4,0,7,6\n"
    yield "SET,3,4,0,7,7\n"
    yield "SET,3,4,0,2147483648,0\n"
    yield s + "RCT," + "1" * 400 + "\n"
    yield b"SET,3,4,0,-8,7\n\xff\n"
    yield b"SET,3,4,0,-8,7\nRCT,\xb2\n"
    for size in (65536, 65537):
        yield "SET,3,4,0,-8,7\nRCT," + "1" * (size - 20) + "\n"
        yield s + "RCT,0\n" + "X" * (size - 21)
        yield "\n" * size
        yield "," * size
    yield s + "RCT,0\n" * 7 + "LIFT,T,0,1,0,WS,0,1\nSTEP,0,0,0,1" + "0" * 65000 + "\n"


def write_cases(folder):
    """Each case is its length in bytes, a line feed, and the bytes."""
    with open(folder + "/stdin", "wb") as texts, open(folder + "/stdout", "w") as answers:
        for k, case in enumerate(cases()):
            data = case if isinstance(case, bytes) else case.encode()
            texts.write(b"%d\n" % len(data) + data)
            answers.write("case %d\n" % k + report(data))


def random_text(rng):
    """A text that is mostly a recipe, with now and then a damaged byte, line or field."""
    near = lambda low, high: rng.choice([low, high, rng.randint(low, high), rng.randint(low, high), rng.randint(max(low, -3), min(high, 3))])
    channels = rng.choice([1, 2, 3, 4, 5, 8, 16, 64])
    bound = rng.choice([0, 7, 255, 32767, 8388607, 2 ** 30, HIGH])
    low = -rng.randint(0, bound) if rng.random() < 0.8 else rng.randint(0, bound)
    lines = ["SET,%d,%d,%d,%d,%d" % (channels, rng.choice([1, 1, 2, 3, 4, 7, 1024, 1048576]), rng.choice([0, 1, 2, 3, 5, 1023, 1048575]), low, rng.randint(low, max(low, bound)))]
    taps = lambda n: "".join(",%d" % rng.choice([0, 1, -1, 2, -3, rng.randint(-40, 40), rng.randint(-32768, 32767)]) for _ in range(n))
    for _ in range(rng.choice([0, 1, 1, 2, 3, 5, 16, 17])):
        kind = rng.choice(["LIFT", "LIFT", "DEP", "RCT"])
        if kind == "RCT":
            lines.append("RCT,%d" % rng.choice([0, 0, rng.randint(0, 61), max(0, channels - 3)]))
        elif kind == "DEP":
            count = rng.randint(2, 8)
            lines.append("DEP,%d,%d" % (rng.choice([0, 0, rng.randint(0, 63), max(0, channels - count)]), count))
            lines += ["ROW,%d%s" % (near(0, 16), taps(i)) for i in range(1, count)]
        else:
            count = rng.choice([1, 2, 3, channels, rng.randint(1, 64)])
            n = rng.randint(1, 4)
            lines.append("LIFT,%s,%d,%d,%d,%s,%d,%d" % (rng.choice("TC"), rng.choice([0, 0, max(0, channels - count), rng.randint(0, 63)]), count, rng.choice([0, 0, 1, 2, rng.randint(0, 15)]), rng.choice(["WS", "CON"]), rng.randint(0, 1), n))
            lines += ["STEP,%d,%d,%d%s" % (near(-8, 8), near(0, 16), near(-65536, 65536), taps(rng.randint(1, 8))) for _ in range(n)]
    data = bytearray(("\n".join(lines) + "\n").encode())
    if rng.random() < 0.35:
        for _ in range(rng.choice([1, 1, 2])):
            at = rng.randrange(len(data))
            act = rng.randrange(4)
            if act == 0:
                data[at] = rng.choice(b"0123456789,-\nATCX\r \xff")
            elif act == 1:
                del data[at:at + rng.choice([1, 1, 3, 20])]
            elif act == 2:
                data[at:at] = bytes(rng.choice(b"019,-\nTX") for _ in range(rng.choice([1, 2])))
            else:
                del data[at:]
            if not data:
                break
    return bytes(data)


def compare(program, count, seed):
    rng = random.Random(seed)
    for k in range(count):
        data = random_text(rng)
        found = subprocess.run([program], input=data, stdout=subprocess.PIPE).stdout.decode()
        if found != report(data):
            sys.exit("differs on %r:\n%s--- expected\n%s" % (data, found, report(data)))
    print("%d texts, all alike" % count)


if __name__ == "__main__":
    if sys.argv[1:2] == ["--cases"]:
        write_cases(sys.argv[2])
    elif sys.argv[1:2] == ["--compare"]:
        compare(sys.argv[2], *(int(a) for a in (sys.argv[3:] + ["1000", "1"][len(sys.argv) - 3:])))
    else:
        sys.stdout.write(report(sys.stdin.buffer.read()))
