//! What a judgement works out once from the file, and a state's part in a modality. No access is
//! checked.
#![allow(unsafe_code)]
use crate::plan::section_of;
use crate::rule::Rule;
use plain::Triple;

pub struct View<'a> {
    pub rule: Rule<'a>,
    pub states: usize,
    labels: &'a [u8],
    steps: &'a [u8],
    /// At 8s + a the first place of a step of s by a, or of a later one.
    index: [u16; 2049],
}

/// Of some step if true, else of all, by the actions of a group, which are among those from `first`
/// up to `last`.
#[derive(Clone, Copy)]
pub struct Modality {
    some: bool,
    group: usize,
    first: usize,
    last: usize,
}

impl Modality {
    pub fn by_action(some: bool, action: usize) -> Modality {
        Modality {
            some,
            group: 1 << action,
            first: action,
            last: action + 1,
        }
    }

    pub fn by_group(some: bool, group: usize) -> Modality {
        Modality {
            some,
            group,
            first: 0,
            last: 8,
        }
    }
}

#[inline(always)]
fn at<T: Copy>(items: &[T], i: usize) -> T {
    // SAFETY: whoever called `View::new` has promised that the file is a case, of which every place
    // that is asked for is there.
    unsafe { *items.get_unchecked(i) }
}

impl<'a> View<'a> {
    /// # Safety
    /// The file is a case of at most 256 states, and only its nodes, states and bytes of a set are
    /// asked for as long as this lives.
    pub unsafe fn new(file: &'a [u8]) -> Self {
        let [labels, steps, rule] = [0, 1, 2].map(|section| section_of(file, section));
        View {
            rule: Rule::new(rule),
            states: labels.len(),
            labels,
            steps,
            index: index(labels.len(), steps),
        }
    }

    #[inline(always)]
    pub fn node(&self, j: usize) -> Triple {
        let nodes = self.rule.nodes;
        (at(nodes, 3 * j), at(nodes, 3 * j + 1), at(nodes, 3 * j + 2))
    }

    #[inline(always)]
    pub fn scope(&self, j: usize) -> u32 {
        at(&self.rule.scopes, j)
    }

    #[inline(always)]
    pub fn binder(&self, variable: usize) -> usize {
        at(&self.rule.homes, variable)
    }

    /// Whether the state's label has the proposition.
    #[inline(always)]
    pub fn has(&self, state: usize, proposition: usize) -> bool {
        at(self.labels, state) >> proposition & 1 == 1
    }

    /// Whether the state is in the modality of the set: its steps are looked at until one decides.
    #[inline(always)]
    pub fn holds(&self, modality: Modality, set: &[u8; 32], state: usize) -> bool {
        for action in modality.first..modality.last {
            let asked = modality.group >> action & 1 == 1;
            if asked && self.hit(8 * state + action, set, modality.some) {
                return modality.some;
            }
        }
        !modality.some
    }

    /// Whether a step of this entry of the index leads into the set, or out of it.
    #[inline(always)]
    fn hit(&self, entry: usize, set: &[u8; 32], into: bool) -> bool {
        let (from, to) = (at(&self.index, entry), at(&self.index, entry + 1));
        for place in usize::from(from)..usize::from(to) {
            let target = usize::from(at(self.steps, 3 * place + 2));
            let inside = at(set, target / 8) >> (target % 8) & 1 == 1;
            if inside == into {
                return true;
            }
        }
        false
    }
}

/// One pass over the steps: each search goes on where the last one ended.
fn index(states: usize, steps: &[u8]) -> [u16; 2049] {
    let key = |place: usize| {
        8 * usize::from(at(steps, 3 * place)) + usize::from(at(steps, 3 * place + 1))
    };
    let count = steps.len() / 3;
    let mut index = [0; 2049];
    let mut place = 0;
    for (k, entry) in index[..8 * states + 1].iter_mut().enumerate() {
        while place < count && key(place) < k {
            place += 1;
        }
        *entry = place as u16;
    }
    index
}
