"""Why nothing can show a wrong version that no recorded file notices.

A reason belongs to the versions whose file, kind, and old or new text are as its row says; an empty cell goes with all.
"""

EXACT = "a factor that is a power of two moves no rounding: no number here overflows or is subnormal"
DOUBLED = "doubling is exact, and where it overflows the sum with -1 is infinite too"
SQUARE = "half of t is exact, and t is 0 or at least 2^-62, so that its square is not subnormal"
SAME_ARMS = "both arms give the same number there"
NOTCH = "1 + 0.2 rounds to the same float"
INSIDE = "no step comes to that end: it goes from a state in the same range to a target well inside"
LEAST = "no step above 0 is as small as 2^-149"
BELOW_END = "no step comes to that end: it goes from 17/64 at most (string 17/32) to a target of 0.25 at most (string 0.5)"
SCALED = "a power of two scales the difference without another rounding, and where it overflows both are infinite"
BETWEEN = "half of a difference, and the low-pass lies between: it does not overflow, and beside what is subnormal the other term is 0 or not changed by it"
NEXT_ROW = "the next row asks that the byte is 0 of every kind that this one asks it of"
NO_PART = "a subnormal number is far below half of 1 / 32,767: its number is 0"
NEAR_ZERO = "the number compared is 0 or at least 2^-40"

NES, PAIR, RAMP, STRING = "calls/model/nes_triangle.rs", "calls/model/pair.rs", "calls/model/ramp.rs", "calls/model/string_synth.rs"
SQUARE_WAVE, SAW, SHAPE = "calls/model/super_square.rs", "calls/model/variable_saw.rs", "calls/model/variable_shape.rs"
CLASSIC, COUNTS, INIT = "calls/model/classic.rs", "calls/model/counts.rs", "starts/init.rs"
TARGETS, RENDER, LEAVES = "calls/model/targets.rs", "calls/model/render.rs", "leaves/answers.rs"

TOGETHER = "late rises and late falls are told together"

# (file, what, part of the old text, part of the new text, reason)
REASONS = [
    (COUNTS, "another count", "&mut counts.late_rises", "&mut counts.late_falls", TOGETHER),
    (COUNTS, "another count", "&mut counts.late_falls", "&mut counts.late_rises", TOGETHER),
    (COUNTS, "another count", "self.late_rises += other.late_rises", "self.late_falls += other.late_rises", TOGETHER),
    (COUNTS, "another count", "self.late_falls += other.late_falls", "self.late_rises += other.late_falls", TOGETHER),
    (NES, "", "* 2.0 * count", "(2.0 * count)", EXACT),
    (NES, "", "* 2.0 * count", "* count * 2.0", EXACT),
    (NES, "distributed", "* 2.0 * count", "frequency * 2.0", EXACT),
    (NES, "in another order", "fade * 2.0 / self.scale", "", EXACT),
    (NES, "", "4.0 * self.frequency * self.smooth", "4.0 *", EXACT),
    (NES, "one float", "corner != 0.0", "", NEAR_ZERO),
    (NES, "one float", "jump != 0.0", "", NEAR_ZERO),
    (NES, "fused", "self.phase * count - self.step as f32", "", EXACT),
    (NES, "one float up", "self.phase < 0.5", "self.phase < f32::next_up(0.5_f32)", SAME_ARMS),
    (NES, "equality", "self.phase < 0.5", "self.phase <= 0.5", SAME_ARMS),
    (NES, "fused", "2.0 - 2.0 * self.phase", "", EXACT),
    (PAIR, "regrouped", "0.5 * t * t", "", SQUARE),
    (PAIR, "regrouped", "-0.5 * rest * rest", "", SQUARE),
    (RAMP, "one float up", "Room::within((0.0,", "next_up(0.0", LEAST),
    (RAMP, "the other bool", "false", "true", INSIDE),
    (RAMP, "equality", "self.excluding_", "!= x", INSIDE),
    (RAMP, "equality", "self.excluding_", "x != self.high", INSIDE),
    (RENDER, "6 before 5", "", "", "above 0.5 the string's target lies from 0.25 to 0.5, and no step from a valid state to it leaves its room"),
    (STRING, "fused", "2.0 * at(1)", "mul_add((2.0)", EXACT),
    (SQUARE_WAVE, "", "shape < 0.5", "", "at 0.5 and one float beside it both arms give 1"),
    (SQUARE_WAVE, "regrouped", "16.0 * above * above", "16.0 * (above * above)", EXACT),
    (SQUARE_WAVE, "one float", "at_reset -= 1.0", "", "it is below 17/64 then, and is compared with 0.5 only"),
    (SQUARE_WAVE, "fused", "2.0 * pair.this - 1.0", "", DOUBLED),
    (CLASSIC, "fused", "1.0 - 2.0 * frequency", "", EXACT),
    (CLASSIC, "equality", "width", "", SAME_ARMS),
    (CLASSIC, "fused", "2.0 * x - 1.0", "", DOUBLED),
    (CLASSIC, "distributed", "(this - 0.5)", "", SCALED),
    (CLASSIC, "distributed", "* 0.5", "square * 0.5", BETWEEN),
    (INIT, "regrouped", "0.25 * REF_SAMPLE_RATE / rate", "", EXACT),
    (TARGETS, "", "frequency >= MAX_FREQUENCY", "", SAME_ARMS),
    (TARGETS, "", "frequency >= 0.25", "", "at 0.25 the width is clamped from 0.5 to 0.5"),
    (TARGETS, "fused", "1.0 - 2.0 * frequency", "", EXACT),
    (TARGETS, "equality", "width", "", SAME_ARMS),
    (SAW, "one float", "NOTCH_DEPTH", "next_up(NOTCH_DEPTH)", NOTCH),
    (SAW, "one float", "NOTCH_DEPTH", "next_down(NOTCH_DEPTH)", NOTCH),
    (SAW, "a wrap only when high", "", "", "the width is below 1, so that a low phase from 1 up has risen before"),
    (SAW, "fused", "2.0 * pair.this - 1.0", "", DOUBLED),
    (SHAPE, "fused", "1.0 - waveshape * 2.0", "", EXACT),
    (SHAPE, "", "x > 0.0", "", "x is 0 or at least 2^-25 from it, and what is 0 is +0"),
    (SHAPE, "fused", "2.0 * this - 1.0", "", DOUBLED),
    (SHAPE, "", "4.0 * (1.0 - phase) * phase", "4.0 *", EXACT),
    (SHAPE, "distributed", "4.0 * (1.0 - phase) * phase", "(1.0 * 4.0 - phase * 4.0)", EXACT),
    (SHAPE, "", "(pw - 0.5).abs() * 2.0", "2.0", EXACT),
    (LEAVES, "", "x > WHOLE_PART_END", "", SAME_ARMS),
    (LEAVES, "one float up", "WHOLE_PART_END as i32", "", "both floats have the whole part 131,072"),
    (LEAVES, "", "x >= 0.0", "", SAME_ARMS),
    ("lists/expect.rs", "one float", "vec![0.0; call.length()]", "", "the text shows no sample, and what the buffer holds changes nothing else"),
    ("lists/expect.rs", "one up", "start(kind, true)", "[(0 + 1), 1,", "no oscillator has the kind 0"),
    ("lists/job.rs", "one up", "(2..=MOST_STEPS)", "(MOST_STEPS + 1)", "65,537 has two bits set"),
    ("lists/job.rs", "one up", "(16..20,", "16..(20 + 1)", NEXT_ROW),
    ("lists/job.rs", "one up", "(20..24,", "20..(24 + 1)", NEXT_ROW),
    ("lists/job.rs", "one up", "(28..56,", "28..(56 + 1)", NEXT_ROW),
    ("waves/number.rs", "ties away from zero", "", "", "the only tie is 0.5, and of 16,383 and 16,384 the even one lies away from 0"),
    ("waves/number.rs", "clipped after rounding, to -32,767", "", "", "rounding keeps the order and leaves 32,767 as it is, so that it may come first"),
    ("waves/number.rs", "", "Whole::new(fraction, 0)", "", NO_PART),
    ("stems/expect.rs", "one up", "vec![0;", "vec![(0 + 1);", "every byte of the file is written"),
    ("", "room's high end", "", "..frequency_room", BELOW_END),
    ("", "room's high end", "", "..Room::frequency(", BELOW_END),
    ("", "room's low end one float up", "", "..frequency_room", LEAST),
    ("", "room's low end one float up", "", "..Room::frequency(", LEAST),
    ("", "room's low end one float up", "", "..Room::width()", LEAST),
    ("", "room's", "", "..gain_room", INSIDE),
    ("", "room's", "", "..modulation_room", INSIDE),
    ("", "room's", "", "..Room::within(", INSIDE),
]


def reason_of(wrong):
    """The first reason that goes with a wrong version; nothing where none does."""
    texts = (wrong.file, wrong.what, " ".join(wrong.old.split()), " ".join(wrong.new.split()))
    for *parts, reason in REASONS:
        if all(part in text for part, text in zip(parts, texts)):
            return reason
    return None
