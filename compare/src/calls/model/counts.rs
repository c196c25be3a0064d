//! What a call counts, and the crossings that the oscillators with sync count by.

#[derive(Clone, Copy, Debug, PartialEq)]
pub enum Edge {
    Rise,
    Fall,
}

/// `high` turns true or false within a sample.
#[derive(Clone, Copy, Debug)]
pub struct Crossing {
    pub edge: Edge,
    /// By how much of a sample it lies before the due one, as the source hands it to its blep functions.
    pub t: f32,
    /// That of the sample's reset; a sample without one has no such time, not even 0.
    pub reset_time: Option<f32>,
}

impl Crossing {
    pub fn new(edge: Edge, t: f32, reset_time: Option<f32>) -> Self {
        Crossing {
            edge,
            t,
            reset_time,
        }
    }

    /// It falls after the sample's reset. A NaN does not, nor does what meets the reset.
    pub fn is_late(&self) -> bool {
        self.reset_time.is_some_and(|time| self.t < time)
    }
}

#[derive(Clone, Copy, Debug, Default, PartialEq)]
pub struct Counts {
    pub cycles: u32,
    /// Those that are not late, as the falls.
    pub rises: u32,
    pub falls: u32,
    pub cuts: u32,
    pub late_rises: u32,
    pub late_falls: u32,
}

impl Counts {
    pub fn of(crossings: &[Crossing]) -> Self {
        let mut counts = Counts::default();
        for crossing in crossings {
            let count = match (crossing.edge, crossing.is_late()) {
                (Edge::Rise, false) => &mut counts.rises,
                (Edge::Fall, false) => &mut counts.falls,
                (Edge::Rise, true) => &mut counts.late_rises,
                (Edge::Fall, true) => &mut counts.late_falls,
            };
            *count += 1;
        }
        counts
    }

    pub fn late(&self) -> u32 {
        self.late_rises + self.late_falls
    }

    /// Rises, late or not.
    pub fn all_rises(&self) -> u32 {
        self.rises + self.late_rises
    }

    /// Falls, late or not.
    pub fn all_falls(&self) -> u32 {
        self.falls + self.late_falls
    }

    pub fn add(&mut self, other: &Counts) {
        self.cycles += other.cycles;
        self.rises += other.rises;
        self.falls += other.falls;
        self.cuts += other.cuts;
        self.late_rises += other.late_rises;
        self.late_falls += other.late_falls;
    }
}
