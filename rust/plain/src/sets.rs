//! Sets of states and functions on them.
use std::rc::Rc;

/// For each state whether it is in the set.
pub type Set = Vec<bool>;

/// A function from sets to sets: its values, by the number of the argument.
pub type Function = Rc<Vec<Set>>;

/// The number of a set: bit i is state i.
pub fn number(set: &[bool]) -> usize {
    (0..set.len()).filter(|&s| set[s]).map(|s| 1 << s).sum()
}

/// The set with this number.
pub fn numbered(number: usize, states: usize) -> Set {
    (0..states).map(|s| number >> s & 1 == 1).collect()
}

/// The function that takes each set of states to what `value` says.
pub fn tabulate(states: usize, value: impl Fn(&Set) -> Set) -> Function {
    let sets = (0..1 << states).map(|number| numbered(number, states));
    Rc::new(sets.map(|set| value(&set)).collect())
}

/// The value of a function at a set.
pub fn at<'a>(function: &'a Function, set: &[bool]) -> &'a Set {
    &function[number(set)]
}

#[cfg(test)]
mod tests {
    use super::*;

    #[test]
    fn bit_i_is_state_i() {
        assert_eq!(numbered(0b0110, 4), [false, true, true, false]);
        for states in 0..=8 {
            assert!((0..1 << states).all(|x| number(&numbered(x, states)) == x));
        }
    }

    #[test]
    fn a_function_has_a_value_at_every_set() {
        let swap = tabulate(2, |x| vec![x[1], x[0]]);
        assert_eq!(swap.len(), 4);
        assert_eq!(at(&swap, &[true, false]), &[false, true]);
    }
}
