//! Groups of actions, the operand of kinds 13 and 14, as random rules have them.
use crate::rng::Rng;
use plain::kinds::{GROUP_BOX, GROUP_DIAMOND};
use plain::Triple;

/// Any group; often no action, all of them or a single one, which few of all bytes are.
pub fn group(rng: &mut Rng) -> u8 {
    match rng.below(8) {
        0 => 0,
        1 => 255,
        2 => 1 << rng.below(8),
        _ => rng.byte(),
    }
}

/// A node with a group.
pub fn node(rng: &mut Rng) -> Triple {
    (rng.pick(&[GROUP_DIAMOND, GROUP_BOX]), group(rng), 0)
}

pub fn has_group((kind, ..): Triple) -> bool {
    matches!(kind, GROUP_DIAMOND | GROUP_BOX)
}
