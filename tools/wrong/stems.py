"""Wrong versions of the second implementation of stems that no rule makes: (file, expression, what is wrong, the wrong expression)."""

NUMBER, STEM, WRITE, PROGRAM, PLAYED = "waves/number.rs", "waves/stem.rs", "waves/write.rs", "stems/expect.rs", "heard/expect.rs"

# The fields of the header, in their order.
FIELDS = ['b"RIFF"', "&dword(36 + size)", 'b"WAVE"', 'b"fmt "', "&dword(16)", "&word(1)", "&word(1)", "&dword(rate)", "&dword(2 * rate)", "&word(2)", "&word(16)"]
FIELDS += ['b"data"', "&dword(size)"]


def header(fields):
    """The expression with these fields: the first makes a slice of itself, and so of all others."""
    first, *rest = fields
    first = f"&{first.removeprefix('&')}[..]"
    return f"[ {', '.join([first, *rest])}, ] .concat()"


def with_fields(changed):
    """The header with some fields, by their places, changed."""
    return header([changed.get(i, field) for i, field in enumerate(FIELDS)])


def exchanged():
    """Each two fields that differ in each other's places."""
    for i, one in enumerate(FIELDS):
        for j, other in enumerate(FIELDS[:i]):
            if one != other:
                yield f"fields {j + 1} and {i + 1} exchanged", {i: other, j: one}


def big_endian():
    """Each number with its highest byte first."""
    for i, field in enumerate(FIELDS):
        if "word(" in field:
            yield f"field {i + 1} big-endian", {i: f"&crate::wrong::reversed({field})"}


def headers():
    changes = [*exchanged(), *big_endian()]
    changes += [
        ("the size of the whole file", {1: "&dword(44 + size)"}),
        ("the size of the samples in place of what follows", {1: "&dword(size)"}),
        ("the size in samples", {12: "&dword(size / 2)"}),
        ("a big-endian file's name", {0: 'b"RIFX"'}),
        ("a form's name in small letters", {2: 'b"wave"'}),
        ("a chunk's name in capitals", {3: 'b"FMT "'}),
        ("a chunk's name with another last letter", {3: 'b"fmt\\0"'}),
        ("a chunk's name in capitals", {11: 'b"DATA"'}),
        ("the format of floats", {5: "&word(3)"}),
        ("the bytes a second of 8 bits", {8: "&dword(rate)"}),
        ("the rate twice", {7: "&dword(2 * rate)"}),
    ]
    for what, changed in changes:
        yield (STEM, header(FIELDS), what, with_fields(changed))


WHOLE = "nearest(clipped(sample & !SIGN)?.times(SCALE))"
FIT = "rate_in(rate) && samples.len() <= MOST_SAMPLES && numbers.is_some()"
ROOM = "out.len() >= HEADER_BYTES + 2 * samples.len()"
PUT = "out[..stem.len()].copy_from_slice(stem)"
SAMPLES = "samples(Carried::start(), list)?"


def clipped_last(least):
    """The product is rounded first, and clipped then."""
    most = f"if sample & SIGN != 0 {{ {least} }} else {{ 32_767 }}"
    return f"{{ clipped(sample & !SIGN)?; let most = {most}; nearest(units((sample & !SIGN).min(0x4000_0000)).times(SCALE)).min(most) }}"


NAMED = [
    *headers(),
    (NUMBER, WHOLE, "the float product rounded", "{ clipped(sample & !SIGN)?; (f32::from_bits(sample & !SIGN).min(1.0) * 32_767.0).round_ties_even() as i64 }"),
    (NUMBER, WHOLE, "cut off, not rounded", "clipped(sample & !SIGN)?.times(SCALE).parts(PLACES).0 as i64"),
    (NUMBER, WHOLE, "clipped after rounding, to what 16 bits hold", clipped_last("32_768")),
    (NUMBER, WHOLE, "clipped after rounding, to -32,767 and 32,767", clipped_last("32_767")),
    (NUMBER, "below + below % 2", "ties away from zero", "below + 1"),
    (NUMBER, "below + below % 2", "ties to zero", "below"),
    (NUMBER, "below + below % 2", "ties to odd", "below + 1 - below % 2"),
    (NUMBER, "size", "ties down", "if sample == 0x3f00_0000 { 16_383 } else { size }"),
    (NUMBER, "-size", "ties up", "if sample == 0xbf00_0000 { -16_383 } else { -size }"),
    (NUMBER, "-size", "-1 as -32,768", "if size == 32_767 { -32_768 } else { -size }"),
    (NUMBER, "-size", "no sign", "size"),
    (NUMBER, "Some(units(size).min(one))", "not clipped", "Some(units(size))"),
    (NUMBER, "Some(one)", "an infinity refused", "None"),
    (NUMBER, "Some(one)", "an infinity written as 0", "Some(Whole::new(0, 0))"),
    (NUMBER, "None", "a NaN written as 0", "Some(Whole::new(0, 0))"),
    (NUMBER, "None", "a NaN written as an infinity", "Some(one)"),
    (NUMBER, "Whole::new(fraction, 0)", "subnormals read as 0", "Whole::new(0, 0)"),
    (STEM, "(number as i16).to_le_bytes()", "samples big-endian", "(number as i16).to_be_bytes()"),
    (STEM, "(number as i16).to_le_bytes()", "samples without a sign", "(number as u16 ^ 0x8000).to_le_bytes()"),
    (STEM, "value.to_le_bytes()", "big-endian", "value.to_be_bytes()"),
    (WRITE, FIT, "the rate not tested", "samples.len() <= MOST_SAMPLES && numbers.is_some()"),
    (WRITE, FIT, "the count not tested", "rate_in(rate) && numbers.is_some()"),
    (WRITE, FIT, "a NaN not tested", "rate_in(rate) && samples.len() <= MOST_SAMPLES"),
    (WRITE, ROOM, "room for the samples alone", "out.len() >= 2 * samples.len()"),
    (WRITE, ROOM, "room for the header alone", "out.len() >= HEADER_BYTES"),
    (WRITE, ROOM, "room not tested", "true"),
    (WRITE, "[(BAD_PARAM, !is_fit), (NO_ROOM, !has_room)]", "9 before 4", "[(NO_ROOM, !has_room), (BAD_PARAM, !is_fit)]"),
    (WRITE, "[(BAD_PARAM, !is_fit), (NO_ROOM, !has_room)]", "4 and 9 exchanged", "[(NO_ROOM, !is_fit), (BAD_PARAM, !has_room)]"),
    (WRITE, "answer", "a refusal writes what fits", "{ let n = out.len().min(HEADER_BYTES); out[..n].copy_from_slice(&stem(rate % 384_001, &[])[..n]); answer }"),
    (WRITE, "answer", "a refusal clears the lent bytes", "{ out.fill(0); answer }"),
    (WRITE, PUT, "a byte past the stem cleared", f"{{ {PUT}; if let Some(byte) = out.get_mut(stem.len()) {{ *byte = 0 }} }}"),
    (WRITE, PUT, "all bytes past the stem cleared", f"{{ {PUT}; out[stem.len()..].fill(0) }}"),
    (WRITE, PUT, "at the end of the lent bytes", "{ let from = out.len() - stem.len(); out[from..].copy_from_slice(stem) }"),
    (PROGRAM, "refused(list)", "4 before 8", "refused(list) && (1..=384_000).contains(&u32::from_le_bytes(*rate))"),
    (PROGRAM, "refused(list)", "a list that is none played", "false"),
    (PROGRAM, "u32::from_le_bytes(*rate)", "the rate big-endian", "u32::from_be_bytes(*rate)"),
    (PROGRAM, SAMPLES, "samples past the most left out", f"{{ let mut all = {SAMPLES}; all.truncate(1_048_576); all }}"),
    (
        PROGRAM,
        SAMPLES,
        "the classic started at the stem's rate",
        "samples({ let mut all = Carried::start(); all.0[6] = crate::starts::initial(rate as f32).to_vec(); all }, list)?",
    ),
    (PROGRAM, SAMPLES, "each record played from the start", "{ let mut all = Vec::new(); for job in list.chunks(JOB_BYTES) { all.extend(samples(Carried::start(), job)?) } all }"),
    (PLAYED, "samples.clear()", "a refused record's samples counted", "()"),
]
