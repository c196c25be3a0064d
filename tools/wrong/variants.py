"""The wrong versions of one expression: each operation regrouped or fused, each constant with a neighbour, each comparison's equality, each end of
each range and room, each count's place, each field, each bool."""
import re

from regions import ASSIGNMENTS, CLOSING, OPENING, tokens

FLOAT = re.compile(r"^\d[\d_]*\.\d[\d_]*(f32)?$")
WHOLE = re.compile(r"^\d[\d_]*$")
NUMBER_OR_NAME = re.compile(r"^[\w.]*\w$")
EQUALITY = {"<": "<=", "<=": "<", ">": ">=", ">=": ">", "==": "!=", "!=": "=="}
COUNTS = ["cycles", "rises", "falls", "cuts", "late_rises", "late_falls"]
FIELDS = ["FREQUENCY_AT", "MASTER_OR_GAIN_AT", "WIDTH_OR_SHAPE_AT", "WAVESHAPE_AT", "PHASE_MODULATION_AT"]
FLOAT_CONSTANTS = {"NOTCH_DEPTH", "HIGHEST", "MAX_FREQUENCY", "WHOLE_PART_END", "RENDERERS_RATE", "REF_SAMPLE_RATE", "LOWEST_RATE", "HIGHEST_RATE"}
WHOLE_CONSTANTS = {"MOST_BITS", "STEPS", "LONGEST_BLOCK", "MOST_BYTES", "JOB_BYTES", "MOST_STEPS", "MOST_FLAGS", "MOST_SHAPE"}
WHOLE_CONSTANTS |= {"PLACES", "SCALE", "FRACTION_BITS", "INFINITE", "SIGN", "LEAST_RATE", "MOST_RATE", "MOST_SAMPLES", "HEADER_BYTES"}
WHOLE_CONSTANTS |= {"NO_LIST", "BAD_PARAM", "NO_ROOM", "DONE"}
RANGE = "crate::calls::model::range::"
LOWEST = "crate::oscillator::oscillator::MIN_FREQUENCY"
ROOMS = {"frequency_room", "gain_room", "modulation_room"}


class Expression:
    def __init__(self, text, is_whole=False):
        self.text, self.ts, self.is_whole = text, tokens(text), is_whole
        self.texts = [t.text for t in self.ts]

    def part(self, i, j):
        return self.text[self.ts[i].at : self.ts[j - 1].end]

    def put(self, i, j, new):
        """The expression with the tokens from i up to j replaced."""
        return self.text[: self.ts[i].at] + new + self.text[self.ts[j - 1].end :]

    def matching(self, i):
        depth = 0
        for j in range(i, len(self.texts)):
            depth += (self.texts[j] in OPENING) - (self.texts[j] in CLOSING)
            if depth == 0:
                return j
        raise ValueError(self.text)

    def is_binary(self, i):
        """Whether the operator at i stands between two operands."""
        return i > 0 and (NUMBER_OR_NAME.match(self.texts[i - 1]) or self.texts[i - 1] in ")]?") and self.texts[i - 1] not in ("return", "as", "in")

    def split(self, i, j, operators):
        """The operands from i up to j and the operators between them, outside brackets."""
        parts, found, depth, start = [], [], 0, i
        for k in range(i, j):
            if depth == 0 and self.texts[k] in operators and self.is_binary(k):
                parts.append((start, k))
                found.append(self.texts[k])
                start = k + 1
            depth += (self.texts[k] in OPENING) - (self.texts[k] in CLOSING)
        return parts + [(start, j)], found

    def groups(self):
        """Where sums can stand: between brackets, commas, tests and assignments."""
        loose = {",", "&&", "||", "..", "..=", "=>"} | set(EQUALITY) | ASSIGNMENTS
        spans = [(0, len(self.texts))]
        spans += [(i + 1, self.matching(i)) for i, t in enumerate(self.texts) if t in OPENING]
        for i, j in spans:
            start, depth = i, 0
            for k in range(i, j + 1):
                if k == j or (depth == 0 and self.texts[k] in loose):
                    if k > start:
                        yield start, k
                    start = k + 1
                if k < j:
                    depth += (self.texts[k] in OPENING) - (self.texts[k] in CLOSING)


def opposite(sign):
    return {"+": "-", "-": "+", "*": "/", "/": "*"}[sign]


def regrouped(e):
    """Sums and products with other brackets, another order, or fused."""
    for i, j in e.groups():
        terms, signs = e.split(i, j, "+-")
        texts = [e.part(*t) for t in terms]
        for k in range(1, len(signs)):
            sign = signs[k] if signs[k - 1] == "+" else opposite(signs[k])
            yield "regrouped", e.put(terms[k][0], terms[k + 1][1], f"({texts[k]} {sign} {texts[k + 1]})")
            yield "in another order", e.put(terms[k - 1][0], terms[k + 1][1], f"{texts[k - 1]} {signs[k]} {texts[k + 1]} {signs[k - 1]} {texts[k]}")
        for k in range(len(signs)):
            yield from fused(e, terms[k], signs[k], terms[k + 1], k)
        for term in terms:
            factors, ways = e.split(*term, "*/")
            of = [e.part(*f) for f in factors]
            for k in range(1, len(ways)):
                way = ways[k] if ways[k - 1] == "*" else opposite(ways[k])
                yield "regrouped", e.put(factors[k][0], factors[k + 1][1], f"({of[k]} {way} {of[k + 1]})")
                yield "in another order", e.put(factors[k - 1][0], factors[k + 1][1], f"{of[k - 1]} {ways[k]} {of[k + 1]} {ways[k - 1]} {of[k]}")


def distributed(e):
    """A sum times a factor, each of its terms times that factor."""
    for i, j in e.groups():
        for term in e.split(i, j, "+-")[0]:
            factors, ways = e.split(*term, "*/")
            for k, way in enumerate(ways):
                for inner, outer in ((factors[k], factors[k + 1]), (factors[k + 1], factors[k])):
                    if way != "*" or e.texts[inner[0]] != "(" or e.matching(inner[0]) != inner[1] - 1:
                        continue
                    terms, signs = e.split(inner[0] + 1, inner[1] - 1, "+-")
                    if signs:
                        of = e.part(*outer)
                        parts = [f"{e.part(*t)} * {of}" for t in terms]
                        text = parts[0] + "".join(f" {s} {p}" for s, p in zip(signs, parts[1:]))
                        yield "distributed", e.put(factors[k][0], factors[k + 1][1], f"({text})")


def fused(e, a, sign, b, k):
    """A product and a sum rounded once; of whole numbers none is rounded."""
    if e.is_whole:
        return
    first, second = e.split(*a, "*"), e.split(*b, "*")
    if len(second[0]) > 1 and "/" not in e.texts[b[0] : b[1]]:
        last = second[0][-1]
        left = e.part(b[0], last[0] - 1)
        yield "fused", e.put(a[0], b[1], f"f32::mul_add({'-' if sign == '-' else ''}({left}), {e.part(*last)}, {e.part(*a)})")
    if k == 0 and len(first[0]) > 1 and "/" not in e.texts[a[0] : a[1]]:
        last = first[0][-1]
        yield "fused", e.put(a[0], b[1], f"f32::mul_add({e.part(a[0], last[0] - 1)}, {e.part(*last)}, {'-' if sign == '-' else ''}({e.part(*b)}))")


def assigned(e):
    """`x += a + b` and `x += a * b` with the sum taken in another order, or fused."""
    if len(e.texts) > 2 and "+=" in e.texts:
        at = e.texts.index("+=")
        left, right = e.part(0, at), (at + 1, len(e.texts))
        terms, signs = e.split(*right, "+-")
        if signs:
            yield "regrouped", f"{left} = {left} + {e.part(*right)}"
        else:
            factors, ways = e.split(*right, "*/")
            if ways and ways[-1] == "*":
                yield "fused", f"{left} = f32::mul_add({e.part(right[0], factors[-1][0] - 1)}, {e.part(*factors[-1])}, {left})"


def constants(e):
    for i, text in enumerate(e.texts):
        if i and e.texts[i - 1] == "." or (FLOAT.match(text) is None and WHOLE.match(text) is None and text not in FLOAT_CONSTANTS | WHOLE_CONSTANTS):
            continue
        if FLOAT.match(text) or text in FLOAT_CONSTANTS:
            value = text if text in FLOAT_CONSTANTS else text.removesuffix("f32") + "_f32"
            yield "one float up", e.put(i, i + 1, f"f32::next_up({value})")
            yield "one float down", e.put(i, i + 1, f"f32::next_down({value})")
        else:
            yield "one up", e.put(i, i + 1, f"({text} + 1)")
            if text != "0":
                yield "one down", e.put(i, i + 1, f"({text} - 1)")


def comparisons(e):
    for i, text in enumerate(e.texts):
        if text in EQUALITY and e.is_binary(i) and "::" not in (e.texts[i - 1], *(a for a, b in zip(e.texts, e.texts[1:]) if b == "<")):
            yield "equality", e.put(i, i + 1, EQUALITY[text])


def bools(e):
    for i, text in enumerate(e.texts):
        if text == "!" and not e.is_binary(i) and not (i and e.texts[i - 1] == "vec"):
            yield "not negated", e.put(i, i + 1, "")
        if text in ("true", "false"):
            yield "the other bool", e.put(i, i + 1, "false" if text == "true" else "true")
        if text in ("&&", "||") and e.is_binary(i):
            yield "and for or", e.put(i, i + 1, "||" if text == "&&" else "&&")
        if text == "flag":
            end = e.matching(i + 1)
            word = e.part(i + 2, end)
            yield "any word but 0 is true", e.put(i, end + 2, f"({word} != 0)")
            yield "any word but 1 is false", e.put(i, end + 2, f"({word} == 1)")


def arguments(e, i):
    """The arguments of the call whose bracket opens at i."""
    end = e.matching(i)
    parts, _ = e.split(i + 1, end, ",") if end > i + 1 else ([], [])
    return end, [e.part(*p) for p in parts]


def ranges(e):
    """Each end of a range dropped, made strict or not, one float off; NaN let in; the test left out."""
    for i, text in enumerate(e.texts):
        if text not in ("unit", "frequency_state", "frequency_parameter", "phase", "within") or e.texts[i + 1 : i + 2] != ["("] or (i and e.texts[i - 1] in (".", "::")):
            continue
        end, given = arguments(e, i + 1)
        strict = "true" if text == "phase" else "false"
        if text == "unit":
            low, high = "0.0_f32", "1.0_f32"
        elif text == "frequency_state":
            low, high = "0.0_f32", RANGE + "FREQUENCY_END"
        elif text == "frequency_parameter":
            low, high = LOWEST, "1.0_f32"
        elif text == "phase":
            low, high = "0.0_f32", f"({given[1]}_f32)"
        else:
            low, high = f"({given[1]}).0", f"({given[1]}).1"
        for what, ends in [
            ("low end dropped", f"f32::NEG_INFINITY, false, {high}, {strict}"),
            ("low end strict", f"{low}, true, {high}, {strict}"),
            ("low end one float down", f"f32::next_down({low}), false, {high}, {strict}"),
            ("high end dropped", f"{low}, false, f32::INFINITY, false"),
            ("high end strict" if strict == "false" else "high end not strict", f"{low}, false, {high}, {'true' if strict == 'false' else 'false'}"),
            ("high end one float up" if strict == "false" else "high end one float down", f"{low}, false, f32::next_{'up' if strict == 'false' else 'down'}({high}), {strict}"),
        ]:
            yield what, e.put(i, end + 1, f"crate::wrong::kept({given[0]}, {ends})")
        yield "NaN let in", e.put(i, end + 1, f"({e.part(i, end + 1)} || f32::is_nan({given[0]}))")
        yield "not tested", e.put(i, end + 1, "true")
    for i, text in enumerate(e.texts):
        if text == "contains" and e.texts[i - 2] == ")":
            start = max(k for k in range(i - 2) if e.texts[k] == "(" and e.matching(k) == i - 2)
            (low, high), way = e.split(start + 1, i - 2, ("..", "..="))
            asked = e.part(i + 3, e.matching(i + 1))
            under = "<" if way == [".."] else "<="
            end = e.matching(i + 1) + 1
            yield "low end dropped", e.put(start, end, f"(({asked}) {under} ({e.part(*high)}))")
            yield "high end dropped", e.put(start, end, f"(({e.part(*low)}) <= ({asked}))")
            yield "high end's equality", e.put(start, i - 2, f"({e.part(*low)} {'..=' if way == ['..'] else '..'} {e.part(*high)}")


def rooms(e):
    """Each end of each parameter's room, in the list of a kind's ramps."""
    for i, text in enumerate(e.texts):
        if e.texts[0] != "[":
            return
        if text == "Room" and e.texts[i + 1] == "::" and e.texts[i + 2] in ("frequency", "width", "within"):
            end = e.matching(i + 3) + 1
        elif text in ROOMS and e.texts[i - 1] == ",":
            end = i + 1
        else:
            continue
        room = e.part(i, end)
        whole = "crate::calls::model::ramp::Room"
        for what, change in [
            ("room's low end dropped", "low: f32::NEG_INFINITY"),
            ("room's low end's equality", f"excluding_low: !({room}).excluding_low"),
            ("room's low end one float up", f"low: ({room}).low.next_up()"),
            ("room's low end one float down", f"low: ({room}).low.next_down()"),
            ("room's high end dropped", "high: f32::INFINITY"),
            ("room's high end's equality", f"excluding_high: !({room}).excluding_high"),
            ("room's high end one float up", f"high: ({room}).high.next_up()"),
            ("room's high end one float down", f"high: ({room}).high.next_down()"),
        ]:
            yield what, e.put(i, end, f"{whole} {{ {change}, ..{room} }}")


def names(e, fields):
    """Counts and fields in each other's places."""
    for i, text in enumerate(e.texts):
        if text in COUNTS and i and e.texts[i - 1] == ".":
            for other in COUNTS:
                if other != text:
                    yield "another count", e.put(i, i + 1, other)
        if text in fields:
            for other in fields:
                if other != text:
                    yield "another field", e.put(i, i + 1, f"crate::calls::record::{other}")
        if text in ("sync", "phase_output") and i and e.texts[i - 1] == ".":
            yield "another flag", e.put(i, i + 1, "phase_output" if text == "sync" else "sync")


def rows(e):
    """Two fields of a kind in each other's places, in a table of (kind, place, field)."""
    found = list(re.finditer(r"\((\w+), (\d+), ", e.text))
    for i, one in enumerate(found):
        for other in found[i + 1 :]:
            if one[1] == other[1]:
                text = e.text[: one.start(2)] + other[2] + e.text[one.end(2) : other.start(2)] + one[2] + e.text[other.end(2) :]
                yield "two fields exchanged", text


def variants(text, fields, is_whole=False):
    """(what, wrong text) of an expression; `fields` are those of the record that its file reads, and `is_whole` says that it has no float."""
    e, seen = Expression(text, is_whole), {text}
    for rule in (regrouped(e), distributed(e), assigned(e), constants(e), comparisons(e), bools(e), ranges(e), rooms(e), names(e, fields), rows(e)):
        for what, new in rule:
            if new not in seen:
                seen.add(new)
                yield what, new
