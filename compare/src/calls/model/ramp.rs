//! An interpolated parameter by value, and the room that its steps have to keep to.

/// Where a parameter's steps may lie; `excluding` says whether an end lies outside.
#[derive(Clone, Copy)]
pub struct Room {
    pub low: f32,
    pub excluding_low: bool,
    pub high: f32,
    pub excluding_high: bool,
    /// Not where the source takes no step of this parameter in this call.
    pub stepped: bool,
}

impl Room {
    /// Above 0 and at most this.
    pub fn frequency(end: f32) -> Self {
        Room {
            excluding_low: true,
            ..Room::within((0.0, end))
        }
    }

    /// Strictly between 0 and 1.
    pub fn width() -> Self {
        Room {
            excluding_low: true,
            excluding_high: true,
            ..Room::within((0.0, 1.0))
        }
    }

    /// From the first number to the second.
    pub fn within((low, high): (f32, f32)) -> Self {
        Room {
            low,
            excluding_low: false,
            high,
            excluding_high: false,
            stepped: true,
        }
    }

    /// A NaN lies outside.
    fn has(self, x: f32) -> bool {
        let above = self.low < x || (self.low == x && !self.excluding_low);
        let below = x < self.high || (x == self.high && !self.excluding_high);
        above && below
    }
}

#[derive(Clone, Copy)]
pub struct Ramp {
    pub value: f32,
    increment: f32,
    room: Room,
}

impl Ramp {
    pub fn new(value: f32, target: f32, length: usize, room: Room) -> Self {
        Ramp {
            value,
            increment: (target - value) / length as f32,
            room,
        }
    }

    /// Takes one step. Where none is taken the value keeps its bits: adding 0 could lose a sign.
    pub fn step(&mut self) -> f32 {
        if self.room.stepped {
            self.value += self.increment;
        }
        self.value
    }

    fn in_room(&self) -> bool {
        !self.room.stepped || self.room.has(self.value)
    }
}

/// The index of the first sample any of whose steps leaves its room.
pub fn first_outside<const N: usize>(mut ramps: [Ramp; N], length: usize) -> Option<usize> {
    for sample in 0..length {
        for ramp in &mut ramps {
            ramp.step();
            if !ramp.in_room() {
                return Some(sample);
            }
        }
    }
    None
}
