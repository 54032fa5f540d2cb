//! Safe Rust that cuts each table out of the area first, so that its bounds are checked once.
use super::Tables;

pub struct Sliced<'a>(pub &'a mut [u16]);

impl Sliced<'_> {
    /// The area below the result's table, and that table.
    fn split(&mut self, size: usize, to: usize) -> (&[u16], &mut [u16]) {
        let (below, above) = self.0.split_at_mut(to);
        (below, &mut above[..size])
    }

    fn join(
        &mut self,
        size: usize,
        (left, right): (usize, usize),
        to: usize,
        both: impl Fn(u16, u16) -> u16,
    ) {
        let (below, result) = self.split(size, to);
        let pairs = below[left..left + size]
            .iter()
            .zip(&below[right..right + size]);
        for (set, (left, right)) in result.iter_mut().zip(pairs) {
            *set = both(*left, *right);
        }
    }
}

impl Tables for Sliced<'_> {
    fn word(&self, at: usize) -> u16 {
        self.0[at]
    }

    fn clear(&mut self) {
        self.0.fill(0);
    }

    fn constant(&mut self, size: usize, to: usize, set: u16) {
        self.0[to..to + size].fill(set);
    }

    fn identity(&mut self, size: usize, to: usize) {
        for (i, set) in self.0[to..to + size].iter_mut().enumerate() {
            *set = i as u16;
        }
    }

    fn copy(&mut self, size: usize, from: usize, to: usize) {
        self.0.copy_within(from..from + size, to);
    }

    fn union(&mut self, size: usize, left: usize, right: usize, to: usize) {
        self.join(size, (left, right), to, |left, right| left | right);
    }

    fn intersection(&mut self, size: usize, left: usize, right: usize, to: usize) {
        self.join(size, (left, right), to, |left, right| left & right);
    }

    fn chop(&mut self, size: usize, left: usize, right: usize, to: usize) {
        let (below, result) = self.split(size, to);
        let (left, right) = (&below[left..left + size], &below[right..right + size]);
        for (set, &inner) in result.iter_mut().zip(right) {
            *set = left[usize::from(inner)];
        }
    }

    fn widen(&mut self, size: usize, at: usize, added: u16) {
        let (below, result) = self.split(size, at + size);
        for (set, &old) in result.iter_mut().zip(&below[at..]) {
            *set = old | added;
        }
    }

    fn narrow(&mut self, size: usize, at: usize, kept: u16) {
        let (result, above) = self.0[at..at + 2 * size].split_at_mut(size);
        for (set, &old) in result.iter_mut().zip(&*above) {
            *set = old & kept;
        }
    }

    fn advance(&mut self, size: usize, from: usize, to: usize) -> bool {
        let (below, result) = self.split(size, to);
        let mut change = 0;
        for (set, &new) in result.iter_mut().zip(&below[from..from + size]) {
            change |= *set ^ new;
            *set = new;
        }
        change != 0
    }
}
