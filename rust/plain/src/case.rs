//! A case as data, and its file.

/// A transition (from, action, to) or a node (kind, A, B).
pub type Triple = (u8, u8, u8);

/// What the four sections of a case file say.
#[derive(Clone, Debug, PartialEq, Eq)]
pub struct Case {
    /// For each state its propositions: bit i says that proposition i holds.
    pub labels: Vec<u8>,
    pub steps: Vec<Triple>,
    pub nodes: Vec<Triple>,
    /// The root's node number.
    pub root: u8,
    /// The states in which the drive may start, in rising order.
    pub starts: Vec<u8>,
}

/// The packed file of a case, without padding, which edits write. Nothing is vetted, so that a wrong
/// case can be written too.
///
/// # Panics
/// If an offset or a length does not fit two bytes.
pub fn write(case: &Case) -> Vec<u8> {
    let mut rule = flatten(&case.nodes);
    rule.push(case.root);
    pack(&[&case.labels, &flatten(&case.steps), &rule, &case.starts])
}

/// Pairs of offset and length, then the sections without padding.
///
/// # Panics
/// If an offset or a length does not fit two bytes.
pub fn pack(sections: &[&[u8]]) -> Vec<u8> {
    let mut pairs = Vec::new();
    let mut offset = 4 * sections.len();
    for section in sections {
        pairs.extend(two_bytes(offset));
        pairs.extend(two_bytes(section.len()));
        offset += section.len();
    }
    [pairs, sections.concat()].concat()
}

fn two_bytes(value: usize) -> [u8; 2] {
    let value = u16::try_from(value).expect("offsets and lengths have two bytes");
    value.to_le_bytes()
}

fn flatten(triples: &[Triple]) -> Vec<u8> {
    triples.iter().flat_map(|&(x, y, z)| [x, y, z]).collect()
}
