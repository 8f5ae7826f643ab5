#!/usr/bin/env python3
"""A second program for the calls of a rack: plain Python on unlimited integers, to compare the proved one with.

    tests/rack_model.py --cases DIR     writes DIR/stdin and DIR/stdout for the crate rack_cases
    tests/rack_model.py --compare PROGRAM [COUNT [SEED]]   runs PROGRAM on COUNT random cases and compares
    tests/rack_model.py --walk SET RECIPE   prints what the program walkthrough prints

Samples are worked line by line on lists, and undone over the whole numbers, so nothing here wraps: an area is
foreign when its inverse does not lie in the spans. Reading recipes and widening spans is report_model's work.
"""
import random
import subprocess
import sys

import report_model as spans_model
from report_model import HIGH, LOW, HAAR, LIFT53


def quotient(weights, values, constant, exponent):
    return (sum(a * x for a, x in zip(weights, values)) + constant) // 2 ** exponent


def lines_of(stage, shape):
    """The lines of a lifting: for each a list of (channel, t) in the order of its indices, and the first index."""
    _, axis, first, count, level, _, _, _ = stage
    channels, samples, origin = shape
    unit = 2 ** level
    if axis == b"T":
        places = [p for p in range(origin, origin + samples) if p % unit == 0]
        start = places[0] // unit if places else 0
        return [[(c, p - origin) for p in places] for c in range(first, first + count)], start
    return [[(first + p, t) for p in range(0, count, unit)] for t in range(samples)], 0


def lift_line(line, start, stage, undo):
    """One line's samples lifted, or lifted back; None where a doubled sample cannot be halved."""
    ext, m, steps = stage[5:]
    n = len(line)
    if n == 0 or (n == 1 and start % 2 == 0):
        return line
    if n == 1:
        if undo:
            return None if line[0] % 2 else [line[0] // 2]
        return [2 * line[0]]
    line = list(line)
    turns = [(m if k % 2 == 0 else 1 - m, step) for k, step in enumerate(steps)]
    for now, (off, e, beta, weights) in reversed(turns) if undo else turns:
        old = list(line)
        for index in range(start, start + n):
            if index % 2 != now:
                continue
            half = (index - now) // 2
            read = [old[spans_model.outside(ext, 2 * (half + off + k) + 1 - now - start, n)] for k in range(len(weights))]
            q = quotient(weights, read, beta, e)
            line[index - start] = old[index - start] - q if undo else old[index - start] + q
    return line


def work(stage, shape, area, undo):
    """The samples after a stage, or before it; None where there can be none. area is a list of channels."""
    area = [list(channel) for channel in area]
    samples = shape[1]
    if stage[0] == "LIFT":
        lines, start = lines_of(stage, shape)
        for line in lines:
            new = lift_line([area[c][t] for c, t in line], start, stage, undo)
            if new is None:
                return None
            for (c, t), x in zip(line, new):
                area[c][t] = x
    elif stage[0] == "RCT":
        first = stage[1]
        for t in range(samples):
            a, b, c = (area[first + k][t] for k in range(3))
            if undo:
                i1 = a - (b + c) // 4
                new = c + i1, i1, b + i1
            else:
                new = (a + 2 * b + c) // 4, c - b, a - b
            for k in range(3):
                area[first + k][t] = new[k]
    else:
        _, first, count, rows = stage
        for t in range(samples):
            x = [area[first + k][t] for k in range(count)]
            y = list(x)
            for i, (e, weights) in enumerate(rows, 1):
                q = quotient(weights, (y if undo else x)[:i], 2 ** (e - 1) if e else 0, e)
                y[i] = x[i] + q if undo else x[i] - q
            for k in range(count):
                area[first + k][t] = y[k]
    return area


def classic(channels):
    def five_three(level):
        return ("LIFT", b"T", 0, channels, level, b"WS", 1, [(0, 1, 1, [-1, -1]), (-1, 2, 2, [1, 1])])
    return [("RCT", 0)] + [five_three(v) for v in range(5)]


class Rack:
    """What rack_cases is told and what it answers."""

    def __init__(self):
        self.shape, self.spans, self.area, self.recipe = (1, 1, 0), [], [], []

    def stages(self):
        return classic(self.shape[0]) if self.recipe is None else self.recipe

    def refused(self, k, with_spans, with_area):
        """The first refusal that the call has a cause for, or the spans after the stage."""
        c, t, u = self.shape
        if not (1 <= c <= 64 and 1 <= t <= 1048576 and 0 <= u <= 1048575):
            return 1
        if with_spans and len(self.spans) != c:
            return 2
        if with_area and len(self.area) != c * t:
            return 4
        if k >= len(self.stages()):
            return 7
        after = spans_model.widen(self.stages()[k], c, t, u, self.spans if with_spans else [(0, 0)] * c)
        return after if with_spans or after == 8 else []

    def list(self, k):
        why = self.refused(k, False, False)
        if isinstance(why, int):
            return "refused,%d" % why
        stage = self.stages()[k]
        first, count = (stage[2], stage[3]) if stage[0] == "LIFT" else (stage[1], stage[2] if stage[0] == "DEP" else 3)
        return "listed" + "".join(",%d" % c for c in range(first, first + count))

    def widen(self, k):
        why = self.refused(k, True, False)
        if isinstance(why, int):
            return "refused,%d" % why
        self.spans = why
        return "ok"

    def apply(self, k, undo):
        why = self.refused(k, True, True)
        if isinstance(why, int):
            return "refused,%d" % why
        c, t, _ = self.shape
        rows = [self.area[i * t:i * t + t] for i in range(c)]
        inside = lambda a: a is not None and all(l <= x <= h for (l, h), row in zip(self.spans, a) for x in row)
        if undo:
            new, number = work(self.stages()[k], self.shape, rows, True), 11
            fine = inside(new)
        else:
            new, number, fine = None, 10, inside(rows)
            if fine:
                new = work(self.stages()[k], self.shape, rows, False)
                assert all(l <= x <= h for (l, h), row in zip(why, new) for x in row)
                assert work(self.stages()[k], self.shape, new, True) == rows
        self.area = [x for row in new for x in row] if fine else [0] * len(self.area)
        return "ok" if fine else "refused,%d" % number

    def obey(self, line):
        """What is printed for a line of the script; a recipe's lines follow it after a tab each."""
        word, *rest = line.split("\t")[0].split(",")
        numbers = [int(x) for x in rest]
        if word == "SHAPE":
            self.shape = tuple(numbers)
        elif word == "SPANS":
            self.spans = list(zip(numbers[::2], numbers[1::2]))
        elif word == "AREA":
            self.area = numbers
        elif word == "RECIPE":
            text = "".join(part + "\n" for part in line.split("\t")[1:])
            self.recipe = spans_model.read(b"SET,1,1,0,0,0\n" + text.encode())[4]
        elif word == "CLASSIC":
            self.recipe = None
        elif word == "COUNT":
            return "count,%d" % len(self.stages())
        elif word == "LIST":
            return self.list(numbers[0])
        elif word == "WIDEN":
            return self.widen(numbers[0]) + "".join(",%d,%d" % s for s in self.spans)
        elif word in ("APPLY", "UNDO"):
            return self.apply(numbers[0], word == "UNDO") + "".join(",%d" % x for x in self.area)
        return None


def answers(script):
    rack = Rack()
    out = [rack.obey(line) for line in script]
    return "".join(line + "\n" for line in out if line is not None)


def recipe(text):
    return "RECIPE" + "".join("\t" + line for line in text.strip().split("\n")) if text else "RECIPE"


def numbers(word, values):
    return word + "".join(",%d" % x for x in values)


def one(shape, spans, text, area, calls):
    yield numbers("SHAPE", shape)
    yield numbers("SPANS", [x for s in spans for x in s])
    if text is not None:
        yield recipe(text)
    yield numbers("AREA", area)
    yield from calls


WIDE = (-100000, 100000)
NIBBLE = (-8, 7)


def worked():
    haar = HAAR % ("T", 0, 1, 0, "WS")
    back = ["APPLY,0", "UNDO,0"]
    yield from one((1, 4, 0), [WIDE], LIFT53 % (0, 1, 0), [10, 12, 15, 11], back)
    yield from one((1, 3, 1), [WIDE], LIFT53 % (0, 1, 0), [10, 12, 15], back)
    yield from one((1, 2, 0), [WIDE], haar, [7, 4], back)
    yield from one((1, 3, 0), [WIDE], haar, [7, 4, 9], back)
    yield from one((1, 1, 5), [WIDE], LIFT53 % (0, 1, 0), [9], back)
    yield from one((1, 1, 5), [WIDE], LIFT53 % (0, 1, 0), [17], ["UNDO,0"])
    yield from one((1, 1, 5), [WIDE], LIFT53 % (0, 1, 0), [-17], ["UNDO,0"])
    yield from one((3, 1, 0), [WIDE] * 3, "RCT,0", [10, 20, 31], back)
    yield from one((3, 1, 0), [NIBBLE] * 3, "RCT,0", [7, 15, 15], ["UNDO,0"])
    yield from one((3, 1, 0), [WIDE] * 3, "DEP,0,3\nROW,1,1\nROW,2,3,-1", [5, 8, 6], back)
    yield from one((1, 4, 0), [NIBBLE], LIFT53 % (0, 1, 0), [-8, 7, -8, 7], ["WIDEN,0", "COUNT", "LIST,0"])
    # refusals, each alone and in their order
    for shape in ((0, 1, 0), (65, 1, 0), (1, 0, 0), (1, 1048577, 0), (1, 1, 1048576)):
        yield from one(shape, [], "RCT,0", [], ["LIST,9", "WIDEN,9", "APPLY,9", "UNDO,9"])
    yield from one((3, 1, 0), [NIBBLE] * 2, "RCT,0", [], ["WIDEN,9", "APPLY,9", "UNDO,9", "LIST,9"])
    yield from one((3, 1, 0), [NIBBLE] * 4, "RCT,0", [], ["WIDEN,0", "APPLY,0", "UNDO,0", "LIST,0"])
    yield from one((3, 1, 0), [NIBBLE] * 3, "RCT,0", [1, 2], ["APPLY,9", "UNDO,9", "WIDEN,9"])
    yield from one((3, 1, 0), [NIBBLE] * 3, "RCT,1", [1, 2, 3], ["APPLY,0", "UNDO,0", "WIDEN,0", "LIST,0", "APPLY,1", "UNDO,1", "LIST,1"])
    yield from one((3, 1, 0), [(LOW, HIGH)] * 3, "RCT,0", [1, 2, 3], ["APPLY,0", "UNDO,0", "WIDEN,0", "LIST,0"])
    yield from one((4, 2, 0), [NIBBLE] * 4, "RCT,0", [1, 2, 3, 4, 5, 6, 7, 8], ["APPLY,0"])
    yield from one((4, 2, 0), [NIBBLE] * 4, "RCT,0", [1, 2, 3, 4, 5, 6, 7, 8], ["UNDO,0"])
    yield from one((2, 1, 0), [NIBBLE] * 2, "", [1, 2], ["COUNT", "APPLY,0", "LIST,0"])
    # values that leave 32 bits on the way back
    yield from one((2, 2, 0), [NIBBLE] * 2, "DEP,0,2\nROW,0,32767", [7, -8, HIGH, LOW], ["UNDO,0"])
    yield from one((1, 2, 0), [(-9, 9)], "LIFT,T,0,1,0,WS,1,1\nSTEP,0,0,65536,32767,32767,32767,32767,32767,32767,32767,32767", [LOW, HIGH], ["UNDO,0"])
    yield from one((3, 1, 0), [(LOW, 0), (0, 0), (0, 0)], "RCT,0", [HIGH, LOW, LOW], ["UNDO,0"])


def random_stage(rng, channels):
    kind = rng.choice(("LIFT", "LIFT", "LIFT", "DEP", "RCT"))
    tap = lambda: rng.choice((rng.randint(-3, 3), rng.randint(-3, 3), rng.randint(-300, 300)))
    if kind == "RCT":
        return "RCT,%d" % rng.randint(0, max(0, channels - (2 if rng.random() < .1 else 3)))
    if kind == "DEP":
        count = rng.randint(2, 8)
        first = rng.randint(0, max(0, channels - count))
        return "DEP,%d,%d" % (first, count) + "".join("\nROW,%d%s" % (rng.randint(0, 4), "".join(",%d" % tap() for _ in range(i))) for i in range(1, count))
    count = rng.randint(1, channels)
    first = rng.randint(0, channels - count)
    steps = ["\nSTEP,%d,%d,%d%s" % (rng.randint(-3, 3) if rng.random() < .9 else rng.randint(-8, 8), rng.randint(0, 5), rng.randint(-40, 40), "".join(",%d" % tap() for _ in range(rng.randint(1, 4)))) for _ in range(rng.randint(1, 4))]
    return "LIFT,%s,%d,%d,%d,%s,%d,%d" % (rng.choice("TC"), first, count, rng.choice((0, 0, 0, 1, 1, 2, 3)), rng.choice(("WS", "CON")), rng.randint(0, 1), len(steps)) + "".join(steps)


def random_case(rng):
    shape = rng.randint(1, 9), rng.randint(1, 9), rng.randint(0, 20)
    spans = []
    for _ in range(shape[0]):
        a, b = sorted(rng.randint(-2 ** rng.choice((4, 8, 16)), 2 ** rng.choice((4, 8, 16))) for _ in range(2))
        spans.append((a, b))
    inside = [rng.randint(*spans[c]) for c in range(shape[0]) for _ in range(shape[1])]
    if rng.random() < .15:
        yield "CLASSIC"
        text, count = None, 6
    else:
        stages = [random_stage(rng, shape[0]) for _ in range(rng.randint(1, 3))]
        text, count = "\n".join(stages), len(stages)
    k = rng.randint(0, count - 1)
    calls = ["LIST,%d" % k, "APPLY,%d" % k, "UNDO,%d" % k]
    way = rng.random()
    if way < .2:  # a chain of stages forth
        calls = ["APPLY,%d" % k, "WIDEN,%d" % k, "APPLY,%d" % rng.randint(0, count - 1)]
    elif way < .5:  # an area that may be foreign
        inside = [x + rng.choice((0, 0, 0, 1, -1, rng.randint(-9, 9))) for x in inside]
        calls = ["UNDO,%d" % k]
    elif way < .6:  # a sample outside
        inside[rng.randrange(len(inside))] += rng.choice((-1, 1)) * 2 ** 17
    yield from one(shape, spans, text, inside, calls)


def script(count, seed):
    rng = random.Random(seed)
    for _ in range(count):
        yield from random_case(rng)


def show(rack, samples):
    for c, (least, greatest) in enumerate(rack.spans):
        start = c * samples
        print("  channel %d, %d to %d:%s .." % (c, least, greatest, "".join(" %d" % x for x in rack.area[start:start + min(8, samples)])))


def walk(set_path, recipe_path):
    lines = open(set_path).read().split()
    channels, samples, origin, least, greatest = (int(x) for x in lines[0].split(",")[1:])
    rack = Rack()
    rack.obey(recipe(open(recipe_path).read()))
    rack.shape, rack.spans = (channels, samples, origin), [(least, greatest)] * channels
    rack.area = recording = [int(x) for line in lines[1:] for x in line.split(",")]
    print("recorded: %d channels of %d samples from place %d on" % rack.shape)
    show(rack, samples)
    before = []
    for k in range(len(rack.stages())):
        print("stage %d lists channels %s, and gives" % (k, " ".join(rack.list(k).split(",")[1:])))
        before.append(rack.spans)
        assert rack.apply(k, False) == "ok" and rack.widen(k) == "ok"
        show(rack, samples)
    image, after = rack.area, rack.spans
    for damaged in (False, True):
        rack.area = list(image)
        if damaged:
            print("now the first sample of the last channel is damaged: it becomes the greatest of its span")
            rack.area[(channels - 1) * samples] = after[-1][1]
        for k in reversed(range(len(before))):
            rack.spans = before[k]
            answer = rack.apply(k, True)
            if answer != "ok":
                print("stage %d is not undone: %s, and the area is all zeros" % (k, answer.replace(",", " ")))
                break
            print("stage %d is undone" % k)
        else:
            if damaged:
                print("the damaged image stands for another recording")
            else:
                print("all %d samples came back" % len(recording) if rack.area == recording else "the recording did NOT come back")


def main():
    if sys.argv[1:2] == ["--walk"]:
        walk(sys.argv[2], sys.argv[3])
    elif sys.argv[1:2] == ["--cases"]:
        lines = list(worked()) + list(script(400, 7))
        open(sys.argv[2] + "/stdin", "w").write("".join(line + "\n" for line in lines))
        open(sys.argv[2] + "/stdout", "w").write(answers(lines))
    elif sys.argv[1:2] == ["--compare"]:
        lines = list(script(int(sys.argv[3]) if len(sys.argv) > 3 else 1000, int(sys.argv[4]) if len(sys.argv) > 4 else 1))
        got = subprocess.run([sys.argv[2]], input="".join(line + "\n" for line in lines), capture_output=True, text=True).stdout
        want = answers(lines)
        print("alike, %d answers" % want.count("\n") if got == want else "DIFFERENT")
        sys.exit(got != want)
    else:
        sys.exit(__doc__)


if __name__ == "__main__":
    main()
