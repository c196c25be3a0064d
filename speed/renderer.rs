//! The renderer's work with the ported Rust: reads a job list on standard input, clears a buffer and renders into it for each
//! record, and prints a line for it. The original neither refuses nor counts, so that all but the index is 0.
//! It stands on the C library alone, as the renderer does.
#![no_std]
#![allow(dead_code)]

use core::hint::black_box;

include!("original.rs");

const RECORD: usize = 64;
const MOST_RECORDS: usize = 1024;
const ZEROS: &[u8] = b" 0 0 0 0 0 0 0\n";
/// The digits of an index and the rest of its line.
const LINE: usize = 4 + ZEROS.len();

extern "C" {
    fn read(file: i32, bytes: *mut u8, count: usize) -> isize;
    fn write(file: i32, bytes: *const u8, count: usize) -> isize;
}

/// The 64 bytes of a record.
struct Record<'a>(&'a [u8]);

impl Record<'_> {
    fn word(&self, place: usize) -> u32 {
        u32::from_le_bytes(core::array::from_fn(|k| self.0[place + k]))
    }

    fn float(&self, place: usize) -> f32 {
        f32::from_bits(self.word(place))
    }
}

/// One oscillator of each kind. Their loops stand in functions of their own: all in one, they would have fewer registers each.
#[derive(Default)]
struct Bank {
    shape: VariableShapeOscillator,
    saw: VariableSawOscillator,
    square: SuperSquareOscillator,
    nes: NesTriangleOscillator,
    string: StringSynthOscillator,
    classic: Oscillator,
}

impl Bank {
    fn started() -> Self {
        let mut bank = Self::default();
        bank.shape.init();
        bank.saw.init();
        bank.square.init();
        bank.nes.init();
        bank.string.init();
        bank.classic.init(REF_SAMPLE_RATE);
        bank
    }

    fn render(&mut self, record: Record, out: &mut [f32]) {
        match record.0[0] {
            1 => self.render_shape(record, out),
            2 => self.render_saw(record, out),
            3 => self.render_square(record, out),
            4 => self.render_nes(record, out),
            5 => self.render_string(record, out),
            _ => self.render_classic(record, out),
        }
    }

    #[inline(never)]
    fn render_shape(&mut self, r: Record, out: &mut [f32]) {
        let (sync, phase_output) = (r.0[1] & 1 != 0, r.0[1] & 2 != 0);
        let (master_frequency, frequency, pw) = (r.float(12), r.float(8), r.float(16));
        let (waveshape, modulation) = (r.float(20), r.float(24));
        self.shape.render(
            master_frequency,
            frequency,
            pw,
            waveshape,
            modulation,
            out,
            sync,
            phase_output,
        )
    }

    #[inline(never)]
    fn render_saw(&mut self, r: Record, out: &mut [f32]) {
        self.saw.render(r.float(8), r.float(16), r.float(20), out)
    }

    #[inline(never)]
    fn render_square(&mut self, r: Record, out: &mut [f32]) {
        self.square.render(r.float(8), r.float(16), out)
    }

    #[inline(never)]
    fn render_nes(&mut self, r: Record, out: &mut [f32]) {
        self.nes.render(r.float(8), out, r.word(4).trailing_zeros())
    }

    #[inline(never)]
    fn render_string(&mut self, r: Record, out: &mut [f32]) {
        let registration: [f32; 7] = core::array::from_fn(|k| r.float(28 + 4 * k));
        self.string
            .render(r.float(8), &registration, r.float(12), out)
    }

    #[inline(never)]
    fn render_classic(&mut self, r: Record, out: &mut [f32]) {
        let shape = shape_of(r.0[1].into());
        self.classic
            .render(r.float(8), r.float(16), None, out, shape, false)
    }
}

/// Reads to the end of standard input, or until the buffer is full. None where that fails.
fn read_list(list: &mut [u8]) -> Option<usize> {
    let mut length = 0;
    while length < list.len() {
        let rest = &mut list[length..];
        match unsafe { read(0, rest.as_mut_ptr(), rest.len()) } {
            n if n > 0 => length += n as usize,
            0 => break,
            _ => return None,
        }
    }
    Some(length)
}

/// One line on standard error, and the status.
fn fail(line: &[u8]) -> i32 {
    unsafe { write(2, line.as_ptr(), line.len()) };
    2
}

/// Writes the index in decimal and seven zeros; the length of the line.
fn write_line(text: &mut [u8], index: usize) -> usize {
    let digits = index.checked_ilog10().unwrap_or(0) as usize + 1;
    let mut rest = index;
    for place in (0..digits).rev() {
        text[place] = b'0' + (rest % 10) as u8;
        rest /= 10;
    }
    text[digits..digits + ZEROS.len()].copy_from_slice(ZEROS);
    digits + ZEROS.len()
}

#[no_mangle]
pub extern "C" fn main() -> i32 {
    let mut list = [0u8; MOST_RECORDS * RECORD];
    let Some(length) = read_list(&mut list) else {
        return fail(b"rust_renderer: cannot read standard input\n");
    };
    let mut bank = Bank::started();
    let mut text = [0u8; MOST_RECORDS * LINE];
    let mut end = 0;
    for (index, record) in list[..length].chunks_exact(RECORD).enumerate() {
        let mut buffer = [0f32; 4096];
        let samples = u16::from_le_bytes([record[2], record[3]]) as usize;
        bank.render(Record(record), &mut buffer[..samples]);
        black_box(&mut buffer);
        end += write_line(&mut text[end..], index);
    }
    if unsafe { write(1, text.as_ptr(), end) } != end as isize {
        return fail(b"rust_renderer: cannot write standard output\n");
    }
    0
}
