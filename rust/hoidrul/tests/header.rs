//! The numbers, words and version of the C header, as a compiler reads them, against the binding's.
mod common;

use common::c::{check, number, string, Line};
use hoidrul::{Reason, KINDS, LABELS, LONGEST, RULE, STACK, STARTS, STEPS};
use hoidrul::{
    MOST_ACTIONS, MOST_LAWS, MOST_NODES, MOST_PADDING, MOST_PROPOSITIONS, MOST_STATES,
    MOST_VARIABLES, REGULAR_LONGEST, REGULAR_MOST_STATES, REGULAR_NODE_BYTES, REGULAR_SET_BYTES,
};

#[test]
fn limits_and_sections() {
    let numbers = [
        ("LONGEST", LONGEST),
        ("STACK", STACK),
        ("MOST_STATES", MOST_STATES),
        ("MOST_NODES", MOST_NODES),
        ("MOST_ACTIONS", MOST_ACTIONS),
        ("MOST_PROPOSITIONS", MOST_PROPOSITIONS),
        ("MOST_VARIABLES", MOST_VARIABLES),
        ("KINDS", KINDS),
        ("MOST_LAWS", MOST_LAWS),
        ("MOST_PADDING", MOST_PADDING),
        ("REGULAR_LONGEST", REGULAR_LONGEST),
        ("REGULAR_MOST_STATES", REGULAR_MOST_STATES),
        ("REGULAR_SET_BYTES", REGULAR_SET_BYTES),
        ("REGULAR_NODE_BYTES", REGULAR_NODE_BYTES),
        ("LABELS", LABELS),
        ("STEPS", STEPS),
        ("RULE", RULE),
        ("STARTS", STARTS),
    ];
    let lines = numbers.map(|(name, value)| number(format!("HOIDRUL_{name}"), value as u64));
    check("limits", "", &lines);
}

/// The version is that of the packages. A preprocessor can compare its numbers.
#[test]
fn version() {
    let part = |text: &str| text.parse().expect("a number");
    let lines = [
        string("HOIDRUL_VERSION", env!("CARGO_PKG_VERSION")),
        number(
            "HOIDRUL_VERSION_MAJOR",
            part(env!("CARGO_PKG_VERSION_MAJOR")),
        ),
        number(
            "HOIDRUL_VERSION_MINOR",
            part(env!("CARGO_PKG_VERSION_MINOR")),
        ),
        number(
            "HOIDRUL_VERSION_PATCH",
            part(env!("CARGO_PKG_VERSION_PATCH")),
        ),
    ];
    let directive =
        "#if HOIDRUL_VERSION_MAJOR < 0 || HOIDRUL_VERSION_MINOR < 0 || HOIDRUL_VERSION_PATCH < 0\n\
                     #error a version\n#endif\n";
    check("version", directive, &lines);
}

/// The header's name for a reason: `TooManyNodes` is `HOIDRUL_REASON_TOO_MANY_NODES`.
fn name_in_c(reason: Reason) -> String {
    let mut name = String::from("HOIDRUL_REASON");
    for letter in format!("{reason:?}").chars() {
        if letter.is_uppercase() {
            name.push('_');
        }
        name.push(letter.to_ascii_uppercase());
    }
    name
}

/// Name, number and words of each reason, and that there are no others.
#[test]
fn reasons() {
    let mut lines: Vec<Line> = vec![];
    for &reason in Reason::ALL {
        lines.push(number(name_in_c(reason), reason.number().into()));
        let text = format!("hoidrul_reason_text({})", reason.number());
        lines.push(string(text, reason));
    }
    lines.push(number(
        "0 HOIDRUL_REASONS(COUNTED)",
        Reason::ALL.len() as u64,
    ));
    let count = "#define COUNTED(name, number, words) +1\n";
    check("reasons", count, &lines);
}

/// Numbers that are no reason's have words of their own, which the binding has too.
#[test]
fn unknown_reasons() {
    let line = |unknown: u32| {
        let reason = Reason::Unknown(Reason::try_from(unknown).unwrap_err());
        string(format!("hoidrul_reason_text({unknown}u)"), reason)
    };
    let after = Reason::ALL.len() as u32 + 1;
    let lines = [0, after, after + 1, 0x7fff_ffff, u32::MAX].map(line);
    check("unknown_reasons", "", &lines);
}
