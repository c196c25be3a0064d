"""Wrong versions that no rule makes: (file, expression, what is wrong, the wrong expression)."""


def orders():
    """Each refusal looked for before each one that comes earlier."""
    right = ["1", "2", "3", "4", "5", "DRIFT"]
    for later in range(1, 6):
        for earlier in range(later):
            wrong = right[:later] + right[later + 1 :]
            wrong.insert(earlier, right[later])
            yield ("calls/model/render.rs", "[1, 2, 3, 4, 5, DRIFT]", f"{later + 1} before {earlier + 1}", f"[{', '.join(wrong)}]")


def numbers():
    """Each answer with another number."""
    for answer in range(1, 6):
        for other in (9, answer + 1):
            new = f"Err(Refusal(if answer == {answer} {{ {other} }} else {{ answer }}, 0))"
            yield ("calls/model/render.rs", "Err(Refusal(answer, 0))", f"{answer} numbered {other}", new)
    for other in (5, 7, 9):
        yield ("calls/model/render.rs", "Err(Refusal(DRIFT, sample))", f"6 numbered {other}", f"Err(Refusal({other}, sample))")


SHAPE, SAW, SQUARE = "calls/model/variable_shape.rs", "calls/model/variable_saw.rs", "calls/model/super_square.rs"
NES, STRING, RENDER = "calls/model/nes_triangle.rs", "calls/model/string_synth.rs", "calls/model/render.rs"
CLASSIC, INIT = "calls/model/classic.rs", "starts/init.rs"
COUNTS = "calls/model/counts.rs"


def lateness():
    """What is late, and which crossings are counted."""
    late = "self.reset_time.is_some_and(|time| self.t < time)"
    yield (COUNTS, late, "no reset is one at 0", "self.t < self.reset_time.unwrap_or(0.0)")
    yield (COUNTS, late, "NaN is late", "self.reset_time.is_some_and(|time| !(self.t >= time))")
    yield (COUNTS, late, "a negative t is not late", "self.reset_time.is_some_and(|time| self.t < time) && self.t >= 0.0")
    yield (COUNTS, late, "none is late", "false")
    yield (COUNTS, late, "each of a reset is late", "self.reset_time.is_some()")
    for file in (SHAPE, SQUARE):
        told = "crossings.push(Crossing::new(edge, t, reset_time))"
        yield (file, told, "one crossing at most", "if crossings.is_empty() { crossings.push(Crossing::new(edge, t, reset_time)) }")
        yield (file, told, "judged by the first one's t", "{ let t = crossings.first().map_or(t, |c| c.t); crossings.push(Crossing::new(edge, t, reset_time)) }")
        yield (file, "reset.map(|reset| reset.time)", "the reset taken as one at 0", "reset.map(|_| 0.0)")
        yield (file, "counts.cuts = u32::from(self.high)", "no cut after a late rise", "counts.cuts = u32::from(self.high && counts.late_rises == 0)")


SHAPE_SETTINGS = """frequency_parameter(call.float(FREQUENCY_AT))
            && frequency_parameter(call.float(MASTER_OR_GAIN_AT))
            && unit(call.float(WIDTH_OR_SHAPE_AT))
            && unit(call.float(WAVESHAPE_AT))
            && within(call.float(PHASE_MODULATION_AT), (-8.0, 8.0))"""

NAMED = [
    *orders(),
    *numbers(),
    (RENDER, "Err(Refusal(DRIFT, sample))", "Drift without its index", "Err(Refusal(DRIFT, 0))"),
    (RENDER, "Err(Refusal(DRIFT, sample))", "Drift with the index after", "Err(Refusal(DRIFT, sample + 1))"),
    (
        RENDER,
        "state.map(|state| first_outside(state.ramps(call), length))",
        "the walk goes by parameter first",
        "state.map(|state| state.ramps(call).into_iter().find_map(|ramp| first_outside([ramp], length)))",
    ),
    (
        RENDER,
        "state.map(|state| first_outside(state.ramps(call), length))",
        "an empty block has a step",
        "state.map(|state| first_outside(state.ramps(call), length.max(1)))",
    ),
    (
        RENDER,
        "state.map(|state| first_outside(state.ramps(call), length))",
        "the walk leaves the last sample out",
        "state.map(|state| first_outside(state.ramps(call), length.saturating_sub(1)))",
    ),
    (SHAPE, SHAPE_SETTINGS, "phase modulation tested only with phase output", SHAPE_SETTINGS.replace("within(", "(!call.phase_output() || within(") + ")"),
    (
        SHAPE,
        SHAPE_SETTINGS,
        "the master's frequency tested only with sync",
        SHAPE_SETTINGS.replace("frequency_parameter(call.float(MASTER_OR_GAIN_AT))", "(!call.sync() || frequency_parameter(call.float(MASTER_OR_GAIN_AT)))"),
    ),
    (SHAPE, SHAPE_SETTINGS, "phase modulation from -16 to 16", SHAPE_SETTINGS.replace("(-8.0, 8.0)", "(-16.0, 16.0)")),
    (SHAPE, "call.phase_output()", "phase modulation always steps", "true"),
    (SHAPE, "call.phase_output()", "phase modulation never steps", "false"),
    (SHAPE, "u32::from(reset.is_some())", "cycles with sync are falls too", "u32::from(reset.is_some()) + counts.falls"),
    (SHAPE, "counts.cuts = u32::from(self.high)", "a cut for every reset", "counts.cuts = 1"),
    (SQUARE, "counts.cuts = u32::from(self.high)", "a cut for every reset", "counts.cuts = 1"),
    *lateness(),
    (SHAPE, "clipped(call.float(MASTER_OR_GAIN_AT))", "the master not clipped", "call.float(MASTER_OR_GAIN_AT)"),
    (SHAPE, "clipped(call.float(FREQUENCY_AT))", "the slave not clipped", "call.float(FREQUENCY_AT)"),
    (SHAPE, "fitting_width(call.float(WIDTH_OR_SHAPE_AT), slave)", "the width fitted to the master", "fitting_width(call.float(WIDTH_OR_SHAPE_AT), master)"),
    (SHAPE, "fitting_width(call.float(WIDTH_OR_SHAPE_AT), slave)", "the width as it is", "call.float(WIDTH_OR_SHAPE_AT)"),
    (SAW, "fitting_width(call.float(WIDTH_OR_SHAPE_AT), frequency)", "the width as it is", "call.float(WIDTH_OR_SHAPE_AT)"),
    (SQUARE, "self.slave_phase + (1.0 - time) * slave", "regrouped", "self.slave_phase + slave - time * slave"),
    (SHAPE, "self.slave_phase + (1.0 - time) * wave.frequency", "regrouped", "self.slave_phase + wave.frequency - time * wave.frequency"),
    (SHAPE, "self.previous_pw = pw", "the previous width kept", "()"),
    (SAW, "self.previous_pw = wave.pw", "the previous width kept", "()"),
    (SAW, "self.phase >= 1.0", "a wrap only when high", "self.high && self.phase >= 1.0"),
    (NES, "MOST_BITS", "bits outside read as 1", "1"),
    (NES, "MOST_BITS", "bits outside read as 15", "15"),
    (
        NES,
        "self.enter(reached, &stairs, &mix, &mut pair)",
        "rises counted after the wrap",
        "{ let old = self.step; let mut c = self.enter(reached, &stairs, &mix, &mut pair); c.rises = u32::from(self.step != old); c }",
    ),
    (
        STRING,
        "self.enter(reached, steps, &mut pair)",
        "rises counted after the wrap",
        "{ let old = self.segment; let mut c = self.enter(reached, steps, &mut pair); c.rises = u32::from(self.segment != old); c }",
    ),
    (STRING, "(old + 2.0 * pair.this, counts)", "the buffer overwritten", "(2.0 * pair.this, counts)"),
    (STRING, "call.float(FREQUENCY_AT) > HIGHEST", "never too high", "false"),
    (CLASSIC, "shape != TRIANGLE && shape != SQUARE_TRIANGLE", "every shape has the width", "true"),
    (CLASSIC, "shape != TRIANGLE && shape != SQUARE_TRIANGLE", "the triangle has the width", "shape != SQUARE_TRIANGLE"),
    (CLASSIC, "shape != TRIANGLE && shape != SQUARE_TRIANGLE", "the square triangle has the width", "shape != TRIANGLE"),
    (CLASSIC, "has_width(call.shape())", "the width steps for every shape", "true"),
    (CLASSIC, "has_width(call.shape())", "the width steps for the square triangle", "call.shape() != TRIANGLE"),
    (CLASSIC, "clipped(call.float(FREQUENCY_AT))", "the frequency not clipped", "call.float(FREQUENCY_AT)"),
    (CLASSIC, "clamped_width(call.float(WIDTH_OR_SHAPE_AT), frequency)", "the width as it is", "call.float(WIDTH_OR_SHAPE_AT)"),
    (
        CLASSIC,
        "clamped_width(call.float(WIDTH_OR_SHAPE_AT), frequency)",
        "the width clamped by the state's frequency",
        "clamped_width(call.float(WIDTH_OR_SHAPE_AT), self.frequency)",
    ),
    (CLASSIC, "self.turn(true, &mut counts)", "the wrap's change of high not counted", "self.turn(true, &mut Counts::default())"),
    (CLASSIC, "self.turn(false, &mut counts)", "the wrap's change of high not counted", "self.turn(false, &mut Counts::default())"),
    (CLASSIC, "self.high = high", "high kept", "()"),
    (CLASSIC, "self.hp_state = this", "the high-pass kept", "()"),
    (CLASSIC, "(square - self.smooth(square, frequency * 2.0)) * 0.5", "without its high-pass", "{ self.smooth(square, frequency * 2.0); square * 0.5 }"),
    (
        CLASSIC,
        "(square - self.smooth(square, frequency * 2.0)) * 0.5",
        "the low-pass of the sample before",
        "{ let before = self.lp_state; self.smooth(square, frequency * 2.0); (square - before) * 0.5 }",
    ),
    (CLASSIC, "self.impulse(this)", "the impulse train without its gain", "{ let x = self.impulse(this); self.lp_state + (x - x) }"),
    (INIT, "LOWEST_RATE <= rate && rate <= HIGHEST_RATE", "384,001 accepted", "LOWEST_RATE <= rate && rate <= 384_001.0"),
    (INIT, "LOWEST_RATE <= rate && rate <= HIGHEST_RATE", "NaN accepted", "!(rate < LOWEST_RATE) && !(rate > HIGHEST_RATE)"),
    (INIT, "LOWEST_RATE <= rate && rate <= HIGHEST_RATE", "negative rates accepted", "LOWEST_RATE <= rate.abs() && rate.abs() <= HIGHEST_RATE"),
    (INIT, "LOWEST_RATE <= rate && rate <= HIGHEST_RATE", "the low end dropped", "rate <= HIGHEST_RATE"),
    (INIT, "LOWEST_RATE <= rate && rate <= HIGHEST_RATE", "the high end dropped", "LOWEST_RATE <= rate"),
    (INIT, "is_fit", "the state is tested too", "is_fit && f32::from_bits(state[0]) < 1.0"),
    (INIT, "(4, *state)", "a refused rate starts all the same", "(4, initial(48_000.0))"),
    (INIT, "(4, *state)", "a refused rate gives an empty state", "(4, [0; CLASSIC_WORDS])"),
    (INIT, "1.0 / coefficient", "the gain computed from the rate", "rate / (0.25 * REF_SAMPLE_RATE)"),
    ("heard/expect.rs", "*state = outcome.words", "no state is carried on", "()"),
    ("lists/expect.rs", "Ok(BAD_INPUT.to_string())", "a bad list answered by the line 7", 'Ok("7\\n".to_string())'),
    ("lists/expect.rs", "Ok(BAD_INPUT.to_string())", "a bad list answered by nothing", "Ok(String::new())"),
    ("lists/expect.rs", "Ok(BAD_RECORD.to_string())", "7 numbered 9", 'Ok("9 0 0 0 0 0 0".to_string())'),
    ("lists/expect.rs", "Ok(BAD_RECORD.to_string())", "7 numbered 8", 'Ok("8 0 0 0 0 0 0".to_string())'),
    ("lists/expect.rs", "*state = outcome.words", "no state is carried on", "()"),
    (
        "lists/expect.rs",
        "*state = outcome.words",
        "a refused record starts its kind anew",
        "*state = if outcome.answer == 0 { outcome.words } else { start(call.kind(), true) }",
    ),
    ("lists/job.rs", "(byte <= MOST_FLAGS).then_some((byte & 1 != 0, byte & 2 != 0))", "flags exchanged", "(byte <= MOST_FLAGS).then_some((byte & 2 != 0, byte & 1 != 0))"),
    ("lists/job.rs", "[28, 32, 36, 40, 44, 48, 52].map(|at| word(part, at))", "registration reversed", "[52, 48, 44, 40, 36, 32, 28].map(|at| word(part, at))"),
    ("starts/set.rs", "0.0 <= value && value < 1.0", "1 accepted", "0.0 <= value && value <= 1.0"),
    ("starts/set.rs", "0.0 <= value && value < 1.0", "NaN accepted", "!(value < 0.0) && !(value >= 1.0)"),
    ("starts/set.rs", "0.0 <= value && value < 1.0", "the low end dropped", "value < 1.0"),
    ("starts/set.rs", "0.0 <= value && value < 1.0", "the high end dropped", "0.0 <= value"),
    ("starts/set.rs", "0.0 <= value && value < 1.0", "-0.0 refused", "(0.0 <= value && value < 1.0) && phase != 0x8000_0000"),
    ("starts/set.rs", "after[0] = phase", "the slave's phase set", "after[1] = phase"),
    ("starts/set.rs", "after[0] = phase", "-0.0 stored as 0", "after[0] = (value + 0.0).to_bits()"),
    ("starts/set.rs", "is_fit", "the state is tested too", "is_fit && f32::from_bits(state[1]) < 1.0"),
    ("calls/model/words.rs", "f32::from_bits(word)", "subnormals read as 0", "{ let x = f32::from_bits(word); if x.is_subnormal() { 0.0 } else { x } }"),
]
