//! The drive of a duplex printer, which prints a sheet on both sides: 256 states and a regular rule.
//!
//! The paper path has positions 0 to 47. Position 0 is the slot where a sheet is put in and comes out
//! again, 16 to 31 are the curve, and 47 is the pocket, in which the sheet is flipped. A sheet is fed
//! to the pocket with its first side up; flipped, it is moved back to the slot with its second side up,
//! and a flap keeps it from being fed again. In the curve it may jam. A sensor tells so, and the motor
//! can then only pull the sheet back, a position at a time, until it is free again in front of the
//! curve. With a worn roller, though, pulling a jammed sheet slips.
use crate::drives::{case, starting_in};
use plain::{Case, Triple};
use std::ops::Range;

const FEED: u8 = 0;
const BACK: u8 = 1;
const FLIP: u8 = 2;
const JAM: u8 = 3;

/// What the motor does.
const MOTOR: u8 = 1 << FEED | 1 << BACK | 1 << FLIP;
const ANY: u8 = MOTOR | 1 << JAM;

/// The sheet is out, with both sides printed.
const OUT: u8 = 1 << 0;
const JAMMED: u8 = 1 << 1;
const SECOND_SIDE: u8 = 1 << 2;

const POSITIONS: usize = 48;
const SLOT: usize = 0;
const CURVE: Range<usize> = 16..32;
const POCKET: usize = POSITIONS - 1;

#[derive(Clone, Copy, Debug, PartialEq, Eq)]
pub struct State {
    pub worn: bool,
    pub second_side: bool,
    pub jammed: bool,
    pub position: usize,
}

impl State {
    /// All of them: jammed only in the curve.
    pub fn all() -> impl Iterator<Item = State> {
        (0..=255).map(State::numbered)
    }

    /// The number is 128 with a worn roller, 64 more with the second side up, and the position more;
    /// for a jammed sheet, again 32 more, which is behind the last position.
    fn number(self) -> u8 {
        let parts = [
            (self.worn, 128),
            (self.second_side, 64),
            (self.jammed, 32),
            (true, self.position),
        ];
        let parts = parts.into_iter().filter(|(is, _)| *is);
        parts.map(|(_, part)| part as u8).sum()
    }

    fn numbered(number: u8) -> State {
        let (place, jammed) = (usize::from(number % 64), number % 64 >= POSITIONS as u8);
        State {
            worn: number >= 128,
            second_side: number % 128 >= 64,
            jammed,
            position: if jammed { place - 32 } else { place },
        }
    }

    fn label(self) -> u8 {
        let out = self.second_side && self.position == SLOT;
        let parts = [
            (out, OUT),
            (self.jammed, JAMMED),
            (self.second_side, SECOND_SIDE),
        ];
        let parts = parts.into_iter().filter(|(is, _)| *is);
        parts.map(|(_, part)| part).sum()
    }

    fn at(self, position: usize) -> State {
        State { position, ..self }
    }

    /// The steps from here, by action.
    fn steps(self) -> Vec<(u8, State)> {
        if self.jammed {
            return vec![(BACK, self.pulled())];
        }
        let mut steps = vec![];
        if !self.second_side && self.position < POCKET {
            steps.push((FEED, self.at(self.position + 1)));
        }
        if self.position > SLOT {
            steps.push((BACK, self.at(self.position - 1)));
        }
        if !self.second_side && self.position == POCKET {
            steps.push((
                FLIP,
                State {
                    second_side: true,
                    ..self
                },
            ));
        }
        if CURVE.contains(&self.position) {
            steps.push((
                JAM,
                State {
                    jammed: true,
                    ..self
                },
            ));
        }
        steps
    }

    /// A jammed sheet pulled back: it stays where it is, or goes on to where it is free.
    fn pulled(self) -> State {
        if self.worn {
            return self;
        }
        let position = self.position - 1;
        State {
            position,
            jammed: CURVE.contains(&position),
            ..self
        }
    }

    /// Whether the state holds, by the reason that cases/README.md gives.
    pub fn holds(self) -> bool {
        let behind_the_curve = self.second_side && !self.jammed && self.position < CURVE.start;
        !self.worn || behind_the_curve
    }
}

/// `νX.(μY.out or ⟨motor⟩;Y) and [any];X`. Whatever happens, the motor can bring the sheet out, with
/// both sides printed. The printer wakes with a sheet in the slot, its roller sound or worn.
pub fn printer() -> Case {
    let nodes = [
        (4, 0, 0),      // X
        (4, 1, 0),      // Y
        (2, 0, 0),      // out
        (13, MOTOR, 0), // ⟨motor⟩
        (14, ANY, 0),   // [any]
        (10, 3, 1),     // ⟨motor⟩;Y
        (8, 2, 5),      // out or that
        (11, 1, 6),     // μY: the motor can bring it out
        (10, 4, 0),     // [any];X
        (9, 7, 8),      // both
        (12, 0, 9),     // νX
    ];
    let labels: Vec<u8> = State::all().map(State::label).collect();
    let steps = State::all().flat_map(|state| {
        let steps = state.steps().into_iter();
        steps.map(move |(action, to)| (state.number(), action, to.number()))
    });
    let mut steps: Vec<Triple> = steps.collect();
    steps.sort_unstable();
    starting_in(&[0, 128], case(&labels, &steps, &nodes))
}

/// The name of its file in the folder `cases`. It does not end as those do that the first judge takes.
pub const FILE: &str = "duplex_printer.large";

#[cfg(test)]
mod tests {
    use super::*;
    use crate::drives::read;
    use plain::{parse, parse_within, write, Limits, Refusal};

    #[test]
    fn numbers_come_back() {
        assert!(State::all().map(State::number).eq(0..=255));
    }

    #[test]
    fn only_a_large_case() {
        let case = printer();
        let file = write(&case);
        assert_eq!(read(FILE), file);
        assert_eq!(parse_within(&file, Limits::WIDEST), Ok(case));
        assert_eq!(parse(&file), Err(Refusal::new(2, 0)));
        let refusal = hoidrul::vet(&file, 0).unwrap_err();
        assert_eq!(refusal.number(), 2);
    }

    /// The reason, by a search from each state: whether the motor can bring the sheet out from wherever
    /// anything leads.
    #[test]
    fn the_reason_is_right() {
        let reached = |from: State, motor: bool| {
            let mut found = vec![from];
            let mut next = 0;
            while next < found.len() {
                for (action, to) in found[next].steps() {
                    if !(motor && action == JAM || found.contains(&to)) {
                        found.push(to);
                    }
                }
                next += 1;
            }
            found
        };
        let comes_out = |state| reached(state, true).iter().any(|to| to.label() & OUT != 0);
        for state in State::all() {
            let holds = reached(state, false).into_iter().all(comes_out);
            assert_eq!(state.holds(), holds, "{state:?}");
        }
        let holding = State::all()
            .filter(|state| state.holds())
            .map(State::number);
        assert!(holding.eq((0..128).chain(192..208)));
    }
}
