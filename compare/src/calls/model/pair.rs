//! The sample that is due and the one after it, over which a jump or a bend is spread.

pub struct Pair {
    pub this: f32,
    pub next: f32,
}

impl Pair {
    /// The due sample is the one that was prepared; the next begins at 0.
    pub fn due(prepared: f32) -> Self {
        Pair {
            this: prepared,
            next: 0.0,
        }
    }

    /// A jump by `height`, `t` of a sample before the due one.
    pub fn jump(&mut self, height: f32, t: f32) {
        let rest = 1.0 - t;
        self.this += height * (0.5 * t * t);
        self.next += height * (-0.5 * rest * rest);
    }

    /// A change of slope by `amount`, `t` of a sample before the due one.
    pub fn bend(&mut self, amount: f32, t: f32) {
        self.this += amount * integrated(1.0 - t);
        self.next += amount * integrated(t);
    }
}

fn integrated(t: f32) -> f32 {
    let half = 0.5 * t;
    let square = half * half;
    ((0.1875 - half) + 1.5 * square) - square * square
}
