//! A slice with guards on both sides, to see that a call writes nowhere else.

const GUARD: usize = 8;

pub struct Guarded<T> {
    all: Vec<T>,
    guard: T,
}

impl<T: Copy + PartialEq> Guarded<T> {
    pub fn new(contents: &[T], guard: T) -> Guarded<T> {
        let mut all = vec![guard; GUARD];
        all.extend_from_slice(contents);
        all.extend([guard; GUARD]);
        Guarded { all, guard }
    }

    pub fn lent(&mut self) -> &mut [T] {
        let end = self.all.len() - GUARD;
        &mut self.all[GUARD..end]
    }

    pub fn contents(&self) -> &[T] {
        &self.all[GUARD..self.all.len() - GUARD]
    }

    /// Whether nothing was written beside the slice.
    pub fn whole(&self) -> bool {
        let end = self.all.len() - GUARD;
        self.all[..GUARD].iter().chain(&self.all[end..]).all(|entry| *entry == self.guard)
    }
}
