//! The plain book (docs/SPECIFICATION.md, section 6).
use crate::merging::{merge, standing};
use crate::refusal::Refusal;
use crate::rewriting::rewrite;
use crate::vetting::parse;

/// The arguments of one call.
#[derive(Clone, Copy, Debug, PartialEq, Eq)]
pub enum Edit {
    Merge { s: usize, t: usize },
    Rewrite { law: usize, node: usize },
}

/// A file, and which of its states stands for each state of the first case.
pub struct Book {
    file: Vec<u8>,
    standing: Vec<usize>,
}

impl Book {
    /// Begins with an accepted file, whose states stand for themselves.
    pub fn new(file: &[u8]) -> Result<Book, Refusal> {
        let states = parse(file)?.labels.len();
        Ok(Book {
            file: file.to_vec(),
            standing: (0..states).collect(),
        })
    }

    pub fn file(&self) -> &[u8] {
        &self.file
    }

    pub fn standing(&self) -> &[usize] {
        &self.standing
    }

    /// The reply to an edit with an output area of this length. A refusal leaves the book as it was.
    pub fn turn(&mut self, edit: Edit, room: usize) -> Result<usize, Refusal> {
        match edit {
            Edit::Merge { s, t } => {
                self.file = merge(&self.file, s, t, room)?;
                for number in &mut self.standing {
                    *number = standing(*number, s.min(t), s.max(t));
                }
            }
            Edit::Rewrite { law, node } => self.file = rewrite(&self.file, law, node, room)?,
        }
        Ok(self.file.len())
    }
}

#[cfg(test)]
mod tests {
    use super::*;
    use crate::case::{write, Case};

    /// Four states without steps, of which 0 and 2, 1 and 3 are alike; the rule p0 or ff.
    #[test]
    fn standing_numbers_follow_the_merges() {
        let case = Case {
            labels: vec![0, 1, 0, 1],
            steps: vec![],
            nodes: vec![(2, 0, 0), (1, 0, 0), (8, 0, 1)],
            root: 2,
            starts: vec![2, 3],
        };
        let first = write(&case);
        let mut book = Book::new(&first).unwrap();
        assert_eq!(book.standing(), [0, 1, 2, 3]);

        let merge = |s, t| Edit::Merge { s, t };
        assert_eq!(book.turn(merge(0, 1), 99), Err(Refusal::new(10, 0)));
        assert_eq!(book.turn(merge(0, 2), 30), Err(Refusal::new(13, 0)));
        assert_eq!(
            (book.file(), book.standing()),
            (&first[..], &[0, 1, 2, 3][..])
        );

        assert_eq!(book.turn(merge(2, 0), 99), Ok(31));
        assert_eq!(book.standing(), [0, 1, 0, 2]);
        assert_eq!(book.turn(Edit::Rewrite { law: 9, node: 2 }, 31), Ok(31));
        assert_eq!(book.standing(), [0, 1, 0, 2]);
        assert_eq!(book.turn(merge(1, 2), 99), Ok(30));
        assert_eq!(book.standing(), [0, 1, 0, 1]);

        let (labels, nodes) = (vec![0, 1], vec![(2, 0, 0), (1, 0, 0), (8, 1, 0)]);
        let last = Case {
            labels,
            nodes,
            starts: vec![0, 1],
            ..case
        };
        assert_eq!(book.file(), write(&last));
    }
}
