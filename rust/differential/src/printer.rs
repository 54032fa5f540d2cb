//! Rules on the drive of a label printer, most of them of the source documents. Its motor turns a
//! roller, which feeds the paper or pulls it back, a step at a time, or keeps a ribbon tight. Where
//! a state can hold, the table has a sound drive in its lower states and one with a fault beside it.
//! The start states are those in which the printer may wake.
use crate::drives::{case, starting_in};
use plain::{Case, Triple};

const FEED: u8 = 0;
const BACK: u8 = 1;
const LAMP: u8 = 7;

// The nodes that name no others; each rule begins with those it needs.
const DIAMOND_FEED: Triple = (6, FEED, 0);
const BOX_FEED: Triple = (7, FEED, 0);
const DIAMOND_BACK: Triple = (6, BACK, 0);
const BOX_BACK: Triple = (7, BACK, 0);
const Z: Triple = (4, 0, 0);
const Y: Triple = (4, 1, 0);
const TAU: Triple = (5, 0, 0);
const FF: Triple = (1, 0, 0);
/// At the mark, at rest, at the cutter or tight, as each drive says.
const MARK: Triple = (2, 0, 0);

/// Document 000, example 2: (νZ.τ and ⟨feed⟩;Z;⟨back⟩);mark. Some feeding goes on for ever, and
/// after each n steps fed, n steps pulled back can lead to the mark.
///
/// Three rollers, of 2, 3 and 3 positions, with one mark each: 0, 2 and 5. A step back undoes a
/// step fed, but on the third roller pulling back from 7 skips 6. The printer wakes at a mark.
pub fn feed_and_back() -> Case {
    let steps = [
        (0, FEED, 1),
        (0, BACK, 1),
        (1, FEED, 0),
        (1, BACK, 0),
        (2, FEED, 3),
        (2, BACK, 4),
        (3, FEED, 4),
        (3, BACK, 2),
        (4, FEED, 2),
        (4, BACK, 3),
        (5, FEED, 6),
        (5, BACK, 7),
        (6, FEED, 7),
        (6, BACK, 5),
        (7, FEED, 5),
        (7, BACK, 5),
    ];
    let nodes = [
        Z,
        TAU,
        DIAMOND_FEED,
        DIAMOND_BACK,
        MARK,
        (10, 2, 0), // ⟨feed⟩;Z
        (10, 5, 3), // ⟨feed⟩;Z;⟨back⟩
        (9, 1, 6),  // τ and ⟨feed⟩;Z;⟨back⟩
        (12, 0, 7), // νZ
        (10, 8, 4),
    ];
    starting_in(&[0, 2, 5], case(&[1, 0, 1, 0, 0, 1, 0, 0], &steps, &nodes))
}

/// Document 001, first example:
/// `νY.[back];ff and [feed];(νZ.[back] and [feed];Z;Z);(([feed];ff and [back];ff) or Y)`. Never more
/// steps have been pulled back than fed.
///
/// States 0 to 2 are so many steps fed. From 3 one step fed can be followed by two back. The printer
/// wakes with nothing fed, in 0.
pub fn no_more_back_than_fed() -> Case {
    let steps = [
        (0, FEED, 1),
        (1, FEED, 2),
        (1, BACK, 0),
        (2, BACK, 1),
        (3, FEED, 4),
        (4, BACK, 5),
        (5, BACK, 3),
    ];
    let nodes = [
        Z,
        Y,
        FF,
        BOX_FEED,
        BOX_BACK,
        (10, 4, 2),  // [back];ff
        (10, 3, 0),  // [feed];Z
        (10, 6, 0),  // [feed];Z;Z
        (9, 4, 7),   // [back] and [feed];Z;Z
        (12, 0, 8),  // νZ: one step more back than fed at the most
        (10, 3, 2),  // [feed];ff
        (9, 10, 5),  // [feed];ff and [back];ff: no step at all
        (8, 11, 1),  // no step at all, or Y
        (10, 9, 12), // νZ, then that
        (10, 3, 13), // [feed], then that
        (9, 5, 14),  // [back];ff and that
        (12, 1, 15),
    ];
    starting_in(&[0], case(&[0; 6], &steps, &nodes))
}

/// Document 004, example 2: `(νZ.⟨feed⟩;(Z and τ);([back] and ⟨back⟩));([feed];ff and [back];ff)`.
/// Some feeding goes on for ever, and after each n steps fed exactly n can be pulled back. No
/// state of a finite drive holds.
///
/// From 0, up to three steps are fed and so many pulled back, down to 6; in 3 the paper is fed on
/// without being counted.
pub fn exactly_as_many_back() -> Case {
    let steps = [
        (0, FEED, 1),
        (1, FEED, 2),
        (1, BACK, 6),
        (2, FEED, 3),
        (2, BACK, 5),
        (3, FEED, 3),
        (3, BACK, 4),
        (4, BACK, 5),
        (5, BACK, 6),
    ];
    let nodes = [
        Z,
        TAU,
        FF,
        DIAMOND_FEED,
        BOX_FEED,
        DIAMOND_BACK,
        BOX_BACK,
        (9, 0, 1),   // Z and τ
        (10, 3, 7),  // ⟨feed⟩;(Z and τ)
        (9, 6, 5),   // [back] and ⟨back⟩
        (10, 8, 9),  // ⟨feed⟩;(Z and τ);([back] and ⟨back⟩)
        (12, 0, 10), // νZ
        (10, 4, 2),  // [feed];ff
        (10, 6, 2),  // [back];ff
        (9, 12, 13), // no step at all
        (10, 11, 14),
    ];
    case(&[0; 7], &steps, &nodes)
}

/// Document 004, the proof of hardness for a fixed rule: (νZ.τ and Z;⟨feed⟩ and Z;⟨back⟩);at rest.
/// Whatever commands come, after the last of them the motor can be at rest.
///
/// From 0 a command goes on to the next, in 1, or is the last, in 2. From 3 a step back never is. The
/// printer wakes at rest, in 0, 2 or 3.
pub fn at_rest_after_any() -> Case {
    let steps = [
        (0, FEED, 1),
        (0, FEED, 2),
        (0, BACK, 1),
        (0, BACK, 2),
        (1, FEED, 1),
        (1, FEED, 2),
        (1, BACK, 1),
        (1, BACK, 2),
        (3, FEED, 1),
        (3, FEED, 2),
        (3, BACK, 1),
    ];
    let nodes = [
        Z,
        TAU,
        DIAMOND_FEED,
        DIAMOND_BACK,
        MARK,
        (10, 0, 2), // Z;⟨feed⟩
        (10, 0, 3), // Z;⟨back⟩
        (9, 5, 6),  // Z;⟨feed⟩ and Z;⟨back⟩
        (9, 1, 7),  // τ and that
        (12, 0, 8), // νZ
        (10, 9, 4),
    ];
    starting_in(&[0, 2, 3], case(&[1, 0, 1, 1], &steps, &nodes))
}

/// `(νZ.τ and [back];Z;([feed] and ⟨feed⟩));cutter`. As many steps as have been pulled back can be
/// fed again, and however they are, the label is at the cutter again.
const FED_AGAIN: [Triple; 12] = [
    Z,
    TAU,
    DIAMOND_FEED,
    BOX_FEED,
    BOX_BACK,
    MARK,
    (10, 4, 0), // [back];Z
    (9, 3, 2),  // [feed] and ⟨feed⟩
    (10, 6, 7), // [back];Z;([feed] and ⟨feed⟩)
    (9, 1, 8),  // τ and that
    (12, 0, 9), // νZ
    (10, 10, 5),
];

/// From the cutter, 0, up to two steps are pulled back. From 3 one is, and feeding it may slip,
/// to 5. The printer wakes in 0.
pub fn pulled_back_fed_again() -> Case {
    let steps = [
        (0, BACK, 1),
        (1, FEED, 0),
        (1, BACK, 2),
        (2, FEED, 1),
        (3, BACK, 4),
        (4, FEED, 3),
        (4, FEED, 5),
    ];
    starting_in(&[0], case(&[1, 0, 0, 1, 0, 0], &steps, &FED_AGAIN))
}

/// The same rule, and a lamp: it is lit in 0 and 2, action 7 switches it, and the rule mentions
/// neither. So 0 and 1, at the cutter, are alike, and so are 2 and 3, a step back.
///
/// From 4 a step is pulled back too, and feeding it may slip, so that the paper stays in 5; the lamp
/// is broken there. The printer wakes in 0 or in 1.
pub fn lamp_not_mentioned() -> Case {
    const LIT: u8 = 128;
    let steps = [
        (0, BACK, 2),
        (0, LAMP, 1),
        (1, BACK, 3),
        (1, LAMP, 0),
        (2, FEED, 0),
        (2, LAMP, 3),
        (3, FEED, 1),
        (3, LAMP, 2),
        (4, BACK, 5),
        (5, FEED, 4),
        (5, FEED, 5),
    ];
    let labels = [1 | LIT, 1, LIT, 0, 1, 0];
    starting_in(&[0, 1], case(&labels, &steps, &FED_AGAIN))
}

/// `νZ.tight and [any current];Z`. Whatever currents the motor gets, one after the other, the ribbon
/// is tight. The currents are the eight actions, and one group has them all.
///
/// Every current leads from 0 to 1 and from 1 to 0. In 2 the highest one makes the ribbon slack, in
/// 3. In 4 the motor takes no current, and from 5 it gets there. The printer wakes in 0 or in 5.
pub fn tight_at_any_current() -> Case {
    let nodes = [
        Z,
        MARK,
        (14, 255, 0), // [any current]
        (10, 2, 0),   // [any current];Z
        (9, 1, 3),    // tight and that
        (12, 0, 4),   // νZ
    ];
    ribbon(&nodes)
}

/// `νZ.tight and [0];Z and [1];Z` and so on to `[7];Z`: the same rule without a group.
pub fn tight_at_each_current() -> Case {
    let mut nodes = vec![Z, MARK];
    for current in 0..8 {
        let (so_far, next) = (nodes.len() as u8 - 1, nodes.len() as u8);
        nodes.extend([(7, current, 0), (10, next, 0), (9, so_far, next + 1)]);
    }
    nodes.push((12, 0, nodes.len() as u8 - 1));
    ribbon(&nodes)
}

/// The table of the ribbon with a rule.
fn ribbon(nodes: &[Triple]) -> Case {
    let mut steps = vec![];
    for (from, to) in [(0, 1), (1, 0)] {
        steps.extend((0..8).map(|current| (from, current, to)));
    }
    steps.extend((0..7).map(|current| (2, current, 2)));
    steps.extend([(2, 7, 3), (3, 0, 2), (5, 3, 4)]);
    starting_in(&[0, 5], case(&[1, 1, 1, 0, 1, 1], &steps, nodes))
}
