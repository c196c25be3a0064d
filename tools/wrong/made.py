"""All wrong versions of the second implementation, and the copy of it that holds them."""
import collections

import named
import stems
from regions import regions
from variants import FIELDS, variants

NAMED = named.NAMED + stems.NAMED

Wrong = collections.namedtuple("Wrong", "number place what old new file region")

# The files of compare/src that say what the definitions say.
FILES = """calls/model/classic.rs calls/model/counts.rs calls/model/nes_triangle.rs calls/model/others.rs calls/model/pair.rs calls/model/ramp.rs calls/model/range.rs calls/model/render.rs calls/model/start.rs
calls/model/string_synth.rs calls/model/super_square.rs calls/model/targets.rs calls/model/variable_saw.rs calls/model/variable_shape.rs
calls/model/words.rs calls/line.rs heard/expect.rs leaves/answers.rs lists/expect.rs lists/job.rs lists/mod.rs starts/init.rs
starts/set.rs stems/expect.rs waves/number.rs waves/stem.rs waves/write.rs""".split()

# Those that compute with whole numbers alone: nothing there can be fused.
WHOLE_FILES = ("stems/", "waves/")

# What only fills a buffer, prints or makes records says nothing that a definition says.
PASSED_OVER = {
    "calls/line.rs": {"buffer", "canonical", "checksum", "line"},
    "calls/model/counts.rs": {"new", "all_rises", "all_falls"},
    "calls/model/render.rs": {"double_rises"},
    "heard/expect.rs": {"texts", "text"},
    "lists/job.rs": {"job"},
    "stems/expect.rs": {"said", "lines", "first_difference", "place"},
    "leaves/answers.rs": {"left_open", "is_signalling", "min", "max", "clamp", "whole_part"},
}

# The number that chooses a version, a range with any ends, and bytes in their other order.
MODULE = """//! Which wrong version is run, and what some of them need.
use std::sync::OnceLock;

pub fn number() -> usize {
    static NUMBER: OnceLock<usize> = OnceLock::new();
    *NUMBER.get_or_init(|| std::env::var("WRONG").ok().and_then(|n| n.parse().ok()).unwrap_or(0))
}

pub fn kept(x: f32, low: f32, low_out: bool, high: f32, high_out: bool) -> bool {
    (low < x || (low == x && !low_out)) && (x < high || (x == high && !high_out))
}

pub fn reversed<const N: usize>(bytes: &[u8; N]) -> [u8; N] {
    std::array::from_fn(|i| bytes[N - 1 - i])
}
"""

# Wrong versions answer for themselves: the ported Rust does not stop them, and does not answer for them.
UNHELD = [
    ("calls/expect.rs", "if outcome.answer == 0 {", "if outcome.answer == 0 && crate::wrong::number() == 0 {"),
    ("starts/expect.rs", "    assert_eq!(second, original,", "    assert!(crate::wrong::number() != 0 || second == original,"),
    ("leaves/answers.rs", "if left_open(x, y) {", "if left_open(x, y) || crate::wrong::number() != 0 {"),
    ("leaves/answers.rs", "if low <= high {", "if low <= high && crate::wrong::number() == 0 {"),
    ("leaves/answers.rs", "if (0.0..=WHOLE_PART_END).contains(&x) {", "if (0.0..=WHOLE_PART_END).contains(&x) && crate::wrong::number() == 0 {"),
]


def plain(text):
    return " ".join(text.split())


def wrongs(src):
    """Every wrong version, numbered from 1."""
    made, unused = [], dict.fromkeys(range(len(NAMED)))
    for file in FILES:
        if not (src / file).exists():
            continue
        text = (src / file).read_text()
        fields = [f for f in FIELDS if f in text] if "model" in file or file == "lists/job.rs" else []
        for region in regions(text, PASSED_OVER.get(file, ())):
            old = text[slice(*region)]
            place = f"{file}:{text.count(chr(10), 0, region[0]) + 1}"
            found = list(variants(old, fields, file.startswith(WHOLE_FILES)))
            for k, (name, expression, what, new) in enumerate(NAMED):
                if file == name and plain(old) == plain(expression):
                    unused.pop(k, None)
                    found.append((what, new))
            for what, new in found:
                made.append(Wrong(len(made) + 1, place, what, old, new, file, region))
    for k in unused:
        if (src / NAMED[k][0]).exists():
            raise SystemExit(f"wrong-definitions: {NAMED[k][0]} has no expression `{NAMED[k][1]}`")
    return made


def written(src, made):
    """Puts all versions into the copy: each expression becomes a choice by number."""
    by_place = collections.defaultdict(list)
    for w in made:
        by_place[w.file, w.region].append(w)
    for file in {w.file for w in made}:
        text = (src / file).read_text()
        for (name, (start, end)), versions in sorted(by_place.items(), key=lambda item: -item[0][1][0]):
            if name == file:
                arms = "".join(f"{w.number} => {{ {w.new} }}\n" for w in versions)
                text = f"{text[:start]}(match crate::wrong::number() {{\n{arms}_ => {{ {text[start:end]} }} }}){text[end:]}"
        (src / file).write_text(text)
    for file, old, new in UNHELD:
        text = (src / file).read_text()
        if old not in text:
            raise SystemExit(f"wrong-definitions: {file} has no line `{old}`")
        (src / file).write_text(text.replace(old, new))
    (src / "wrong.rs").write_text(MODULE)
    main = (src / "main.rs").read_text()
    (src / "main.rs").write_text(main.replace("mod random;", "mod random;\nmod wrong;", 1))
