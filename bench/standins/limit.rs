//! A stand-in for the crate `limit`, with what oq3_parser uses of it and nothing more: `check` fails for a number above the bound. The one
//! of differential/standins also counts, which would be charged to the crate.

pub struct Limit {
    upper_bound: usize,
}

impl Limit {
    pub const fn new(upper_bound: usize) -> Limit {
        Limit { upper_bound }
    }

    #[inline]
    pub fn check(&self, other: usize) -> Result<(), ()> {
        if other > self.upper_bound {
            return Err(());
        }
        Ok(())
    }
}
