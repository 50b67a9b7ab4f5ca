//! What is lent to a call: random numbers stand in it, or what is put in, and on both sides of it, so that a word that is written beside it
//! is seen.

use differential::rng::Rng;

pub struct Lent<T> {
    all: Vec<T>,
    before: Vec<T>,
    from: usize,
    to: usize,
}

impl<T: Copy + PartialEq> Lent<T> {
    pub fn new(inside: &[T], rng: &mut Rng, number: fn(u64) -> T) -> Lent<T> {
        let mut lent = Lent::fresh(inside.len(), rng, number);
        lent.all[lent.from..lent.to].copy_from_slice(inside);
        lent.before[lent.from..lent.to].copy_from_slice(inside);
        lent
    }

    pub fn fresh(length: usize, rng: &mut Rng, number: fn(u64) -> T) -> Lent<T> {
        let from = 1 + rng.below(9);
        let all: Vec<T> = (0..from + length + 9).map(|_| number(rng.next() >> 7)).collect();
        Lent { before: all.clone(), all, from, to: from + length }
    }

    pub fn room(&mut self) -> &mut [T] {
        &mut self.all[self.from..self.to]
    }

    /// What stands there now. The compiler may not think that a call has kept what was lent to be read.
    pub fn room_now(&self) -> &[T] {
        &std::hint::black_box(&self.all)[self.from..self.to]
    }

    /// What stood there before.
    pub fn was(&self) -> &[T] {
        &self.before[self.from..self.to]
    }

    /// Whether `first` stands at the room's front, and everything else is as it was.
    pub fn holds(&self, first: &[T]) -> bool {
        let (all, end) = (std::hint::black_box(&self.all), self.from + first.len());
        all[..self.from] == self.before[..self.from] && all[self.from..end] == *first && all[end..] == self.before[end..]
    }

    /// Whether one word stands in every place of the room.
    pub fn filled(&self, word: T) -> bool {
        self.room_now().iter().all(|&now| now == word)
    }

    /// Whether what stands beside the room is as it was.
    pub fn kept_beside(&self) -> bool {
        let all = std::hint::black_box(&self.all);
        all[..self.from] == self.before[..self.from] && all[self.to..] == self.before[self.to..]
    }
}
