//! The feed motor of a label printer, as its supplier sends it: a case with the supplier's numbers of
//! kinds, and its table.
//!
//! The motor holds a label at the peeling edge. A step may slip, or somebody pulls at the web, by two
//! steps; three steps behind, the driver tells a stall, and then nothing can be lost any more. A pulse
//! of half the current makes up for one step and one of full current for two. At the edge a sensor
//! stops the motor, so that a pulse changes nothing. With a worn bearing, full current makes up for one
//! step too.
use crate::drives::{case, starting_in};
use crate::kinds::Table;
use plain::{Case, Triple};

const SLIP: u8 = 1;
const PULL: u8 = 2;
const HALF: u8 = 3;
const FULL: u8 = 4;

/// What loses steps.
const LOST: u8 = 1 << SLIP | 1 << PULL;
/// What the driver can do.
const PULSE: u8 = 1 << HALF | 1 << FULL;

/// The label is at the edge.
const EDGE: u8 = 1 << 0;
const STALLED: u8 = 1 << 1;

/// So many steps behind the motor stalls.
const STALL: u8 = 3;

/// The supplier numbers ⟨g⟩ and [g] next to ⟨a⟩ and [a], and what we have behind them up to 14.
pub const KINDS: Table = [0, 1, 2, 3, 4, 5, 6, 13, 7, 14, 8, 9, 10, 11, 12];

/// The names of the two files in the folder `cases`.
pub const FILE: &str = "lost_steps_made_up.supplier";
pub const KINDS_FILE: &str = "lost_steps_made_up.kinds";

#[derive(Clone, Copy, Debug, PartialEq, Eq, PartialOrd, Ord)]
pub struct State {
    pub worn: bool,
    pub behind: u8,
}

impl State {
    /// In the order of their numbers: 4 more with a worn bearing.
    pub fn all() -> impl Iterator<Item = State> {
        [false, true].into_iter().flat_map(|worn| {
            let states = 0..=STALL;
            states.map(move |behind| State { worn, behind })
        })
    }

    fn number(self) -> u8 {
        4 * u8::from(self.worn) + self.behind
    }

    fn label(self) -> u8 {
        match self.behind {
            0 => EDGE,
            STALL => STALLED,
            _ => 0,
        }
    }

    /// The steps from here, by action.
    fn steps(self) -> Vec<(u8, State)> {
        let behind = |behind| State { behind, ..self };
        let lost = |steps: u8| behind((self.behind + steps).min(STALL));
        let made_up = |steps| behind(self.behind.saturating_sub(steps));
        let mut steps = vec![
            (HALF, made_up(1)),
            (FULL, made_up(if self.worn { 1 } else { 2 })),
        ];
        if self.behind < STALL {
            steps.extend([(SLIP, lost(1)), (PULL, lost(2))]);
        }
        steps
    }

    /// Whether the state holds, by the reason that cases/README.md gives.
    pub fn holds(self) -> bool {
        !self.worn && self.behind == 0
    }
}

/// `(νZ.τ and [lost];Z;⟨pulse⟩);edge`: however often steps are lost, as many pulses can bring the label
/// back to the edge. The bytes are the supplier's. The printer wakes with a label at the edge, its
/// bearing sound or worn.
pub fn motor() -> Case {
    let nodes = [
        (4, 0, 0),     // Z
        (5, 0, 0),     // τ
        (9, LOST, 0),  // [lost]
        (7, PULSE, 0), // ⟨pulse⟩
        (2, 0, 0),     // edge
        (12, 0, 3),    // Z;⟨pulse⟩
        (12, 2, 5),    // [lost];that
        (11, 1, 6),    // τ and that
        (14, 0, 7),    // νZ
        (12, 8, 4),    // νZ;edge
    ];
    let labels: Vec<u8> = State::all().map(State::label).collect();
    let steps = State::all().flat_map(|state| {
        let steps = state.steps().into_iter();
        steps.map(move |(action, to)| (state.number(), action, to.number()))
    });
    let mut steps: Vec<Triple> = steps.collect();
    steps.sort_unstable();
    starting_in(&[0, 4], case(&labels, &steps, &nodes))
}

#[cfg(test)]
mod tests {
    use super::*;
    use crate::drives::{f, read};
    use crate::judging::all_states;
    use crate::kinds::{compare, compare_helpers, inverse, needed, supplied};
    use crate::replies::refused;
    use plain::{parse, write, Refusal, Verdict};
    use std::collections::BTreeSet;

    #[test]
    fn files_of_the_folder() {
        assert_eq!(read(FILE), write(&motor()));
        assert_eq!(read(KINDS_FILE), KINDS);
        assert!(State::all().map(State::number).eq(0..8));
    }

    #[test]
    fn the_verdict() {
        let (file, kinds) = (read(FILE), read(KINDS_FILE));
        let words = needed(&kinds, &file);
        assert_eq!(words, 2 * 10 * 256);
        let verdict = Verdict {
            states: State::all().map(State::holds).collect(),
            rounds: 0,
        };
        assert_eq!(compare(&kinds, &file, all_states(8), words), Ok(verdict));
        assert_eq!(compare_helpers(&kinds, &file, words), Ok(false));
    }

    /// The wrong way round, and as if the kinds were ours, the file is no case: at nodes 3 and 2 the
    /// groups would be nodes.
    #[test]
    fn the_wrong_tables() {
        let file = read(FILE);
        assert_ne!(inverse(&KINDS), KINDS);
        assert_eq!(compare(&inverse(&KINDS), &file, 0, 5_120), refused(5, 3));
        assert_eq!(parse(&file), Err(Refusal::new(5, 2)));
        assert_eq!(compare(&KINDS[..14], &file, 0, 5_120), refused(15, 0));
    }

    /// Case F as this supplier writes it.
    #[test]
    fn case_f_of_the_supplier() {
        let file = supplied(&KINDS, &write(&f()));
        let rule: Vec<u8> = file[24..].chunks_exact(3).map(|node| node[0]).collect();
        assert_eq!(rule, [4, 4, 12, 12, 14, 6, 12, 6, 10, 13]);
    }

    /// The states that n steps of these actions lead to, one after the other, for all n in question.
    fn led_to(from: State, n: usize, actions: u8) -> BTreeSet<State> {
        let led = |states: BTreeSet<State>| {
            let steps = states.into_iter().flat_map(State::steps);
            let steps = steps.filter(|(action, _)| actions >> action & 1 == 1);
            steps.map(|(_, to)| to).collect()
        };
        (0..n).fold(BTreeSet::from([from]), |states, _| led(states))
    }

    /// The reason, by a search from each state. From three losses on none can follow.
    #[test]
    fn the_reason_is_right() {
        let made_up = |state, n| {
            let after = led_to(state, n, PULSE);
            after.iter().any(|state| state.label() == EDGE)
        };
        for state in State::all() {
            assert!(led_to(state, 4, LOST).is_empty());
            let holds = (0..4).all(|n| led_to(state, n, LOST).into_iter().all(|s| made_up(s, n)));
            assert_eq!(state.holds(), holds, "{state:?}");
        }
    }
}
