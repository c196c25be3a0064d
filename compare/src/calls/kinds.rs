//! The kinds of oscillator that a command goes by.

#[derive(Clone, Copy)]
pub struct Kinds([bool; 256]);

impl Kinds {
    pub const COUNT: u8 = 6;

    pub fn all() -> Self {
        Self::of(1..=Self::COUNT)
    }

    pub fn one(kind: u8) -> Self {
        Self::of([kind])
    }

    fn of(kinds: impl IntoIterator<Item = u8>) -> Self {
        let mut has = [false; 256];
        for kind in kinds {
            has[usize::from(kind)] = true;
        }
        Kinds(has)
    }

    /// Reads a list such as `3` or `1,3,5`.
    pub fn parse(list: &str) -> Result<Self, String> {
        let kinds: Option<Vec<u8>> = list
            .split(',')
            .map(|word| {
                word.parse()
                    .ok()
                    .filter(|kind| (1..=Self::COUNT).contains(kind))
            })
            .collect();
        match kinds {
            Some(kinds) => Ok(Self::of(kinds)),
            None => Err(format!(
                "{list} is no list of kinds from 1 to {}, such as 1,3",
                Self::COUNT
            )),
        }
    }

    pub fn has(&self, kind: u8) -> bool {
        self.0[usize::from(kind)]
    }

    pub fn list(&self) -> Vec<u8> {
        (0..=u8::MAX).filter(|&kind| self.has(kind)).collect()
    }
}
