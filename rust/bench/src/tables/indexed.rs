//! Word by word, by index into the whole area: as the proved code is written.
use super::words::Words;
use super::Tables;

pub struct Indexed<W>(pub W);

impl<W: Words<u16>> Tables for Indexed<W> {
    fn word(&self, at: usize) -> u16 {
        self.0.get(at)
    }

    fn clear(&mut self) {
        for at in 0..self.0.count() {
            self.0.set(at, 0);
        }
    }

    fn constant(&mut self, size: usize, to: usize, set: u16) {
        for i in 0..size {
            self.0.set(to + i, set);
        }
    }

    fn identity(&mut self, size: usize, to: usize) {
        for i in 0..size {
            self.0.set(to + i, i as u16);
        }
    }

    fn copy(&mut self, size: usize, from: usize, to: usize) {
        for i in 0..size {
            self.0.set(to + i, self.0.get(from + i));
        }
    }

    fn union(&mut self, size: usize, left: usize, right: usize, to: usize) {
        for i in 0..size {
            let set = self.0.get(left + i) | self.0.get(right + i);
            self.0.set(to + i, set);
        }
    }

    fn intersection(&mut self, size: usize, left: usize, right: usize, to: usize) {
        for i in 0..size {
            let set = self.0.get(left + i) & self.0.get(right + i);
            self.0.set(to + i, set);
        }
    }

    fn chop(&mut self, size: usize, left: usize, right: usize, to: usize) {
        for i in 0..size {
            let inner = usize::from(self.0.get(right + i));
            self.0.set(to + i, self.0.get(left + inner));
        }
    }

    fn widen(&mut self, size: usize, at: usize, set: u16) {
        for i in 0..size {
            self.0.set(at + size + i, self.0.get(at + i) | set);
        }
    }

    fn narrow(&mut self, size: usize, at: usize, set: u16) {
        for i in 0..size {
            self.0.set(at + i, self.0.get(at + size + i) & set);
        }
    }

    fn advance(&mut self, size: usize, from: usize, to: usize) -> bool {
        let mut change = 0;
        for i in 0..size {
            let set = self.0.get(from + i);
            change |= set ^ self.0.get(to + i);
            self.0.set(to + i, set);
        }
        change != 0
    }
}
