//! The borders of limits that are wider than a case's, of what parsing takes.
use plain::{parse, parse_within, write, Case, Limits, Refusal, Triple, MOST_NODES};

const OF_64: Limits = Limits {
    most_states: 64,
    ..Limits::WIDEST
};

const TAU: Triple = (5, 0, 0);

/// A step of action 7 from the last state to itself, which is the start state too.
fn with_states(states: usize) -> Case {
    let last = (states - 1) as u8;
    Case {
        labels: vec![0; states],
        steps: vec![(last, 7, last)],
        nodes: vec![TAU],
        root: 0,
        starts: vec![last],
    }
}

#[test]
fn states() {
    for limits in [Limits::CASE, OF_64, Limits::WIDEST] {
        let most = limits.most_states;
        for states in [1, most - 1, most] {
            let case = with_states(states);
            assert_eq!(parse_within(&write(&case), limits), Ok(case), "{states}");
        }
        let mut case = with_states(most);
        case.labels.push(0);
        let refused = Err(Refusal::new(2, 0));
        assert_eq!(parse_within(&write(&case), limits), refused, "{most}");
    }
    let file = write(&with_states(17));
    assert_eq!(parse(&file), Err(Refusal::new(2, 0)));
    assert!(parse_within(&file, OF_64).is_ok());
}

/// Of 256 states every byte is one, and of fewer the next is none.
#[test]
fn steps_and_starts() {
    for states in [17, 64, 255, 256] {
        let with = |step, start| {
            let mut case = with_states(states);
            (case.steps, case.starts) = (vec![step], vec![start]);
            let parsed = parse_within(&write(&case), Limits::WIDEST);
            parsed.map(|_| ()).map_err(|refusal| refusal.number)
        };
        let unless_256 = |row| if states == 256 { Ok(()) } else { Err(row) };
        assert_eq!(with((255, 0, 0), 0), unless_256(3));
        assert_eq!(with((0, 0, 255), 0), unless_256(3));
        assert_eq!(with((0, 0, 0), 255), unless_256(4));
        if let Ok(next) = u8::try_from(states) {
            assert_eq!(with((next, 0, 0), 0), Err(3));
            assert_eq!(with((0, 0, next), 0), Err(3));
            assert_eq!(with((0, 0, 0), next), Err(4));
        }
    }
}

/// A file of 65,535 bytes, one with a fault in its last step, and one with a start state more.
#[test]
fn lengths() {
    let step = |i: usize| ((i / 2048) as u8, (i / 256 % 8) as u8, (i % 256) as u8);
    let mut case = Case {
        labels: vec![0; 256],
        steps: (0..21_606).map(step).collect(),
        nodes: vec![TAU; MOST_NODES],
        root: 63,
        starts: (0..252).collect(),
    };
    let longest = write(&case);
    assert_eq!(longest.len(), Limits::WIDEST.longest_file);
    assert_eq!(parse_within(&longest, Limits::WIDEST), Ok(case.clone()));
    assert_eq!(parse_within(&longest, OF_64), Err(Refusal::new(2, 0)));
    assert_eq!(parse(&longest), Err(Refusal::new(1, 0)));

    let last = case.steps.len() - 1;
    let mut fault = case.clone();
    fault.steps[last].1 = 8;
    let refused = Err(Refusal::new(3, last));
    assert_eq!(parse_within(&write(&fault), Limits::WIDEST), refused);

    case.starts.push(252);
    let longer = write(&case);
    assert_eq!(longer.len(), Limits::WIDEST.longest_file + 1);
    let refused = Err(Refusal::new(1, 0));
    assert_eq!(parse_within(&longer, Limits::WIDEST), refused);
    let room = Limits {
        longest_file: longer.len(),
        ..Limits::WIDEST
    };
    assert_eq!(parse_within(&longer, room), Ok(case));
}

/// The longest file is a limit of its own, whatever the states.
#[test]
fn lengths_of_few_states() {
    let file = write(&with_states(64));
    for (longest_file, reply) in [(file.len(), true), (file.len() - 1, false)] {
        let limits = Limits {
            longest_file,
            ..OF_64
        };
        let parsed = parse_within(&file, limits);
        assert_eq!(parsed.is_ok(), reply);
        assert!(reply || parsed == Err(Refusal::new(1, 0)));
    }
}
