//! A supplier's kinds: tables of them, files that are written with them, and the comparison of judging
//! through a table by the two checkers, every lent word included.
use crate::drives::{case, starting_in};
use crate::generate::{all_steps, step};
use crate::judging::{in_states, lending, Judged};
use crate::padding::{sections, write_padded};
use crate::replies::in_plain;
use crate::rng::Rng;
use crate::starts::starts;
use hoidrul::KindTable;
use plain::kinds::COUNT;
use plain::{Case, Refusal};
use std::hint::black_box;

/// Byte i stands for the kind at i.
pub type Table = [u8; COUNT];

/// Each kind is its own byte.
pub const OURS: Table = [0, 1, 2, 3, 4, 5, 6, 7, 8, 9, 10, 11, 12, 13, 14];

/// Any table, or one that is ours but for two or three kinds, so that more of our rules are rules by it.
pub fn table(rng: &mut Rng) -> Table {
    let mut table = OURS;
    if rng.one_in(4) {
        let [a, b, c] = [(); 3].map(|()| rng.below(COUNT));
        table.swap(a, b);
        table.swap(b, c);
    } else {
        for last in (1..COUNT).rev() {
            table.swap(rng.below(last + 1), last);
        }
    }
    table
}

/// The byte that stands for each kind.
pub fn inverse(table: &Table) -> Table {
    let byte = |kind| table.iter().position(|&other| other == kind);
    OURS.map(|kind| byte(kind).expect("a table has every kind") as u8)
}

pub type Damage = fn(&mut Rng, Table) -> Vec<u8>;

/// What is no table any more.
pub const DAMAGES: [(&str, Damage); 8] = [
    ("none", |_, _| vec![]),
    ("one byte less", |_, table| table[..COUNT - 1].to_vec()),
    ("the first byte less", |_, table| table[1..].to_vec()),
    ("one byte more", |rng, table| {
        let more = rng.pick(&[0, 14, 15, 255]);
        [&table[..], &[more]].concat()
    }),
    ("two tables", |_, table| [table, table].concat()),
    ("a kind twice", |rng, mut table| {
        let (from, to) = (rng.below(COUNT), rng.within(1..=COUNT - 1));
        table[(from + to) % COUNT] = table[from];
        table.to_vec()
    }),
    ("no kind", |rng, mut table| {
        table[rng.below(COUNT)] = rng.pick(&[15, 16, 128, 255]);
        table.to_vec()
    }),
    ("any bytes", |rng, _| {
        let length = rng.below(2 * COUNT);
        (0..length).map(|_| rng.byte_below(20)).collect()
    }),
];

/// The file with its kinds exchanged, so that what a byte stands for stands there itself. Nothing is
/// where no section is found: row 1 tells so.
pub fn exchanged(table: &Table, file: &[u8]) -> Vec<u8> {
    let row = plain::parse(file).map_or_else(|refusal| refusal.number, |_| 0);
    let mut file = file.to_vec();
    if row != 1 {
        let [_, _, rule, _] = sections(&file);
        exchange(table, &mut file[rule]);
    }
    file
}

/// The first byte of each whole triple.
fn exchange(table: &Table, rule: &mut [u8]) {
    for node in rule.chunks_exact_mut(3) {
        node[0] = table.get(usize::from(node[0])).copied().unwrap_or(node[0]);
    }
}

/// The file as a supplier with this table writes it.
pub fn supplied(table: &Table, file: &[u8]) -> Vec<u8> {
    exchanged(&inverse(table), file)
}

/// A table, a file whose pairs lay the rule over the head, and the case that the file would be if its
/// kinds were exchanged there before the pairs are looked at: byte 9, the high one of the rule's
/// offset, is 0 and stands for another.
pub fn over_the_head(rng: &mut Rng) -> (Table, Vec<u8>, Vec<u8>) {
    let mut table = table(rng);
    if table[0] == 0 {
        table.swap(0, rng.within(1..=COUNT - 1));
    }
    let made = with_rule_at(rng, 256 * usize::from(table[0]) + 6);
    let length = usize::from(made[10]);
    let mut file = made.clone();
    exchange(&inverse(&table), &mut file[6..6 + length]);
    (table, file, made)
}

/// The file of a case whose rule begins there, 256 bytes and more from the start.
fn with_rule_at(rng: &mut Rng, offset: usize) -> Vec<u8> {
    let (states, head) = (16, 16);
    let (count, gap) = ((offset - head - states) / 3, (offset - head - states) % 3);
    let all = all_steps(states);
    let steps: Vec<_> = (0..count).map(|i| step(i * all / count, states)).collect();
    let nodes = vec![(rng.byte_below(2), 0, 0); rng.within(2..=64)];
    let case = starting_in(
        &starts(rng, states),
        case(&rng.bytes(states), &steps, &nodes),
    );
    write_padded(&case, [0, gap, rng.below(4)])
}

/// Judges through the table by both checkers, which must agree, and returns their reply.
pub fn compare(kinds: &[u8], file: &[u8], set: u16, words: usize) -> Judged {
    let plain = plain::judge_kinds(kinds, file, set, words);
    let before = kinds.to_vec();
    let judge = |file: &[u8], work: &mut [u16]| hoidrul::judge_kinds(kinds, file, set, work);
    let proved = lending(file, words, set, judge);
    assert!(black_box(kinds) == before, "the lent table was changed");
    let proved = proved.map(|verdict| in_states(case_of(kinds, file).labels.len(), verdict));
    assert_eq!(
        proved, plain,
        "table {kinds:?}, set {set}, {words} words, file {file:?}"
    );
    proved
}

/// What the binding makes of the entry, against the plain checker: whether the bytes are a table, how
/// many states and nodes there are, and whether every start state holds, which is returned.
pub fn compare_helpers(kinds: &[u8], file: &[u8], words: usize) -> Result<bool, Refusal> {
    let parsed = plain::parse_kinds(kinds, file);
    let counts = parsed
        .as_ref()
        .map(|case| (case.labels.len(), case.nodes.len()));
    let vetted = in_plain(hoidrul::vet_kinds(kinds, file));
    let vetted = vetted.map(|counts| (counts.states, counts.nodes));
    assert_eq!(
        vetted.as_ref(),
        counts.as_ref().map_err(|refusal| *refusal),
        "{kinds:?}, {file:?}"
    );
    let refused = parsed.err().filter(|refusal| refusal.number == 15);
    let table = in_plain(KindTable::new(kinds));
    assert_eq!(table.err(), refused, "{kinds:?}");

    let hold = |file: &[u8], work: &mut [u16]| hoidrul::starts_hold_kinds(kinds, file, work);
    let proved = lending(file, words, 0, hold);
    let plain = plain::starts_hold_kinds(kinds, file, words);
    assert_eq!(proved, plain, "{kinds:?}, {words} words, file {file:?}");
    proved
}

/// How many words judging the file through the table needs.
///
/// # Panics
/// If the file, read through the table, is no case.
pub fn needed(kinds: &[u8], file: &[u8]) -> usize {
    let case = case_of(kinds, file);
    let words = (2 * case.nodes.len()) << case.labels.len();
    assert_eq!(
        hoidrul::vet_kinds(kinds, file).map(hoidrul::Counts::words),
        Ok(words)
    );
    words
}

fn case_of(kinds: &[u8], file: &[u8]) -> Case {
    plain::parse_kinds(kinds, file).expect("a case")
}

#[cfg(test)]
mod tests {
    use super::*;
    use plain::kinds::{BOX, DIAMOND, OR};
    use std::collections::BTreeSet;

    fn is_table(kinds: &[u8]) -> bool {
        OURS.iter().all(|kind| kinds.contains(kind)) && kinds.len() == COUNT
    }

    /// Every byte stands for every kind in some table.
    #[test]
    fn tables() {
        let mut rng = Rng::new(1);
        let mut seen = BTreeSet::new();
        for _ in 0..2_000 {
            let table = table(&mut rng);
            assert!(is_table(&table));
            assert_eq!(inverse(&inverse(&table)), table);
            seen.extend((0..COUNT).map(|byte| (byte, table[byte])));
        }
        assert_eq!(seen.len(), COUNT * COUNT);
    }

    #[test]
    fn damaged_tables() {
        let mut rng = Rng::new(2);
        for (name, damage) in DAMAGES {
            for _ in 0..500 {
                let table = table(&mut rng);
                assert!(!is_table(&damage(&mut rng, table)), "{name}");
            }
        }
    }

    /// ⟨7⟩ or [6], the root 2, start state 1.
    #[test]
    fn only_kinds_are_exchanged() {
        let nodes = [(DIAMOND, 7, 0), (BOX, 6, 0), (OR, 0, 1)];
        let ours = starting_in(&[1], case(&[6, 7], &[(0, 6, 1)], &nodes));
        let mut table = OURS;
        table.swap(6, 7);
        table.swap(7, 8);
        let theirs = supplied(&table, &write_padded(&ours, [1, 2, 3]));
        let written = Case {
            nodes: vec![(8, 7, 0), (6, 6, 0), (7, 0, 1)],
            ..ours
        };
        assert_eq!(theirs, write_padded(&written, [1, 2, 3]));
    }

    /// Exchanged where its pairs lay the rule, the file is the case.
    #[test]
    fn files_with_the_rule_over_the_head() {
        let mut rng = Rng::new(3);
        for _ in 0..200 {
            let (table, file, made) = over_the_head(&mut rng);
            assert_eq!(plain::vet(&made, 0).map(|(states, _)| states), Ok(16));
            assert_eq!(sections(&file)[2].start, 6);
            let mut careless = file.clone();
            exchange(&table, &mut careless[sections(&file)[2].clone()]);
            assert_eq!(careless, made);
            assert_eq!(exchanged(&table, &file), file, "row 1 meets it");
        }
    }
}
