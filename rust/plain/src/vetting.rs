//! Vetting and opening: rows 1 to 8, in rising number.
use crate::case::{Case, Triple};
use crate::free::free_variables;
use crate::node::{Node, Shape};
use crate::refusal::Refusal;
use std::ops::Range;

const SECTIONS: usize = 4;
/// The bytes of the head: an offset and a length for each section.
pub const PAIRS_LENGTH: usize = 4 * SECTIONS;
/// The most bytes between a section and the next.
pub const MOST_PADDING: usize = 3;
pub const MOST_NODES: usize = 64;
const HIGHEST_ACTION: u8 = 7;

/// How large a file may be, and its table. The format itself has room for more than a case may have.
#[derive(Clone, Copy, Debug)]
pub struct Limits {
    pub longest_file: usize,
    pub most_states: usize,
}

impl Limits {
    /// Those of a case (docs/SPECIFICATION.md, 1.3 and 1.4).
    pub const CASE: Limits = Limits {
        longest_file: 6394,
        most_states: 16,
    };

    /// The widest: one byte tells a state's number, and two tell where a section begins.
    pub const WIDEST: Limits = Limits {
        longest_file: 65_535,
        most_states: 256,
    };
}

/// The counts of states and nodes: n and m.
pub fn vet(file: &[u8], section: usize) -> Result<(usize, usize), Refusal> {
    let case = parse(file)?;
    Refusal::unless(section < SECTIONS, 8, 0)?;
    Ok((case.labels.len(), case.nodes.len()))
}

/// Where the section stands in the file.
pub fn open(file: &[u8], section: usize) -> Result<Range<usize>, Refusal> {
    vet(file, section)?;
    Ok(sections(file, Limits::CASE)?[section].clone())
}

/// The case of a file that rows 1 to 7 do not meet.
pub fn parse(file: &[u8]) -> Result<Case, Refusal> {
    parse_within(file, Limits::CASE)
}

/// The same where these limits stand in rows 1 and 2.
pub fn parse_within(file: &[u8], limits: Limits) -> Result<Case, Refusal> {
    parse_reading(file, limits, |kind| kind)
}

/// The same where the first byte of a node stands for the kind that `kind` says.
pub(crate) fn parse_reading(
    file: &[u8],
    limits: Limits,
    kind: impl Fn(u8) -> u8,
) -> Result<Case, Refusal> {
    let [labels, steps, rule, starts] = sections(file, limits)?;
    let labels = parse_labels(&file[labels], limits)?;
    let steps = parse_steps(&file[steps], labels.len())?;
    let (mut nodes, root) = parse_rule(&file[rule])?;
    for node in &mut nodes {
        node.0 = kind(node.0);
    }
    let starts = parse_starts(&file[starts], labels.len())?;
    check_nodes(&nodes)?;
    check_binders(&nodes)?;
    check_closed(&nodes, usize::from(root))?;
    Ok(Case {
        labels,
        steps,
        nodes,
        root,
        starts,
    })
}

/// Row 1: the first section begins where the pairs end, the last ends with the file, and nothing but
/// padding stands between two of them.
fn sections(file: &[u8], limits: Limits) -> Result<[Range<usize>; SECTIONS], Refusal> {
    let lengths = PAIRS_LENGTH..=limits.longest_file;
    Refusal::unless(lengths.contains(&file.len()), 1, 0)?;
    let sections: [Range<usize>; SECTIONS] = std::array::from_fn(|section| pair(file, section));
    let ends = (sections[0].start, sections[SECTIONS - 1].end);
    Refusal::unless(ends == (PAIRS_LENGTH, file.len()), 1, 0)?;
    for two in sections.windows(2) {
        Refusal::unless(is_padding(file, two[0].end..two[1].start), 1, 0)?;
    }
    Ok(sections)
}

/// Of a range that is turned round or not in the file there are no bytes, and it is no padding.
fn is_padding(file: &[u8], gap: Range<usize>) -> bool {
    file.get(gap)
        .is_some_and(|bytes| bytes.len() <= MOST_PADDING && bytes.iter().all(|&byte| byte == 0))
}

/// What a pair of offset and length says, true or not.
fn pair(file: &[u8], section: usize) -> Range<usize> {
    let number = |at: usize| usize::from(u16::from_le_bytes([file[at], file[at + 1]]));
    let offset = number(4 * section);
    offset..offset + number(4 * section + 2)
}

/// Row 2.
fn parse_labels(section: &[u8], limits: Limits) -> Result<Vec<u8>, Refusal> {
    Refusal::unless((1..=limits.most_states).contains(&section.len()), 2, 0)?;
    Ok(section.to_vec())
}

/// Row 3: transitions between the states, strictly rising.
fn parse_steps(section: &[u8], states: usize) -> Result<Vec<Triple>, Refusal> {
    Refusal::unless(section.len().is_multiple_of(3), 3, 0)?;
    let mut steps: Vec<Triple> = Vec::new();
    for (place, step) in triples(section).into_iter().enumerate() {
        let (from, action, to) = step;
        let in_range =
            usize::from(from) < states && usize::from(to) < states && action <= HIGHEST_ACTION;
        let rising = steps.last().is_none_or(|&before| before < step);
        Refusal::unless(in_range && rising, 3, place)?;
        steps.push(step);
    }
    Ok(steps)
}

/// Row 4: the nodes' bytes and the root.
fn parse_rule(section: &[u8]) -> Result<(Vec<Triple>, u8), Refusal> {
    let (&root, nodes) = section.split_last().ok_or(Refusal::new(4, 0))?;
    let count = nodes.len() / 3;
    let length_fits = nodes.len() == 3 * count && (1..=MOST_NODES).contains(&count);
    Refusal::unless(length_fits && usize::from(root) < count, 4, 0)?;
    Ok((triples(nodes), root))
}

/// The rest of row 4: start states of the table, strictly rising.
fn parse_starts(section: &[u8], states: usize) -> Result<Vec<u8>, Refusal> {
    let rising = section.is_sorted_by(|before, after| before < after);
    let in_table = section.iter().all(|&state| usize::from(state) < states);
    Refusal::unless(rising && in_table, 4, 0)?;
    Ok(section.to_vec())
}

/// Row 5.
fn check_nodes(nodes: &[Triple]) -> Result<(), Refusal> {
    for (number, &node) in nodes.iter().enumerate() {
        Refusal::unless(Node::read(node, number).is_some(), 5, number)?;
    }
    Ok(())
}

/// Row 6: no variable has two binders, reached or not.
fn check_binders(nodes: &[Triple]) -> Result<(), Refusal> {
    let mut bound = Vec::new();
    for (number, &node) in nodes.iter().enumerate() {
        if let Some(variable) = Shape::of(node).bound() {
            Refusal::unless(!bound.contains(&variable), 6, number)?;
            bound.push(variable);
        }
    }
    Ok(())
}

/// Row 7.
fn check_closed(nodes: &[Triple], root: usize) -> Result<(), Refusal> {
    Refusal::unless(free_variables(nodes, root).is_empty(), 7, 0)
}

fn triples(bytes: &[u8]) -> Vec<Triple> {
    bytes.chunks_exact(3).map(|t| (t[0], t[1], t[2])).collect()
}

#[cfg(test)]
mod tests {
    use super::*;
    use crate::case::write;

    /// On a table of three states; the refusal's number.
    fn with_starts(starts: &[u8], node: Triple) -> Result<Vec<u8>, u32> {
        let case = Case {
            labels: vec![0; 3],
            steps: vec![],
            nodes: vec![node],
            root: 0,
            starts: starts.to_vec(),
        };
        let parsed = parse(&write(&case)).map_err(|refusal| refusal.number)?;
        assert_eq!(parsed, case);
        Ok(parsed.starts)
    }

    #[test]
    fn start_states_rise_within_the_table() {
        const TAU: Triple = (5, 0, 0);
        for starts in [&[][..], &[0], &[2], &[0, 2], &[1, 2], &[0, 1, 2]] {
            assert_eq!(with_starts(starts, TAU), Ok(starts.to_vec()));
        }
        for starts in [&[3][..], &[255], &[1, 1], &[1, 0], &[0, 2, 1], &[0, 1, 3]] {
            assert_eq!(with_starts(starts, TAU), Err(4), "{starts:?}");
            assert_eq!(with_starts(starts, (15, 0, 0)), Err(4), "before row 5");
        }
        assert_eq!(with_starts(&[0], (15, 0, 0)), Err(5));
    }

    /// One state, no steps, the rule τ and start state 0, with these bytes in front of sections 1, 2
    /// and 3.
    fn with_gaps(gaps: [&[u8]; 3]) -> Vec<u8> {
        let [first, second, third] = gaps.map(|gap| gap.len() as u8);
        let (steps, starts) = (17 + first, 21 + first + second + third);
        let rule = steps + second;
        let head = [16, 0, 1, 0, steps, 0, 0, 0, rule, 0, 4, 0, starts, 0, 1, 0];
        [
            &head[..],
            &[7],
            gaps[0],
            gaps[1],
            &[5, 0, 0, 0],
            gaps[2],
            &[0],
        ]
        .concat()
    }

    #[test]
    fn sections_may_be_padded() {
        let packed = parse(&with_gaps([&[]; 3])).unwrap();
        assert_eq!(
            (&packed.labels[..], &packed.starts[..]),
            (&[7][..], &[0][..])
        );
        for gaps in [[1, 0, 0], [0, 2, 0], [0, 0, 3], [3, 3, 3]] {
            let file = with_gaps(gaps.map(|gap| &[0; 3][..gap]));
            assert_eq!(parse(&file), Ok(packed.clone()), "{gaps:?}");
        }
        let file = with_gaps([&[0, 0], &[0, 0, 0], &[0]]);
        let parts = [16..17, 19..19, 22..26, 27..28];
        for (section, part) in parts.into_iter().enumerate() {
            assert_eq!(open(&file, section), Ok(part));
        }
    }

    #[test]
    fn other_bytes_are_no_padding() {
        let refused = Err(Refusal::new(1, 0));
        for place in 0..3 {
            for gap in [&[0, 0, 0, 0][..], &[1], &[0, 255], &[0, 0, 1], &[8, 0, 0]] {
                let mut gaps: [&[u8]; 3] = [&[]; 3];
                gaps[place] = gap;
                assert_eq!(parse(&with_gaps(gaps)), refused, "{place}: {gap:?}");
            }
        }
        // One byte less in an offset, so that two sections share a byte; and a byte at the end.
        for at in [4, 8, 12] {
            let mut file = with_gaps([&[]; 3]);
            file[at] -= 1;
            file[at + 2] += 1;
            assert_eq!(parse(&file), refused, "{at}");
        }
        let file = [&with_gaps([&[]; 3])[..], &[0]].concat();
        assert_eq!(parse(&file), refused);
        // A byte 0 in front of section 0, under offsets that say so.
        let mut file = with_gaps([&[]; 3]);
        file.insert(16, 0);
        for at in [0, 4, 8, 12] {
            file[at] += 1;
        }
        assert_eq!(parse(&file), refused);
    }
}
