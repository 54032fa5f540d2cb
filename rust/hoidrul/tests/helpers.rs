//! What the C header's helpers say of answers, of refusals and of any numbers.
mod common;

use common::c::{bytes, check, number, Line};
use common::{case, file};
use hoidrul::Reason;
use std::fs;

/// Two states, of which 0 has proposition 0, and the rule p0 or ff, with a list of start states.
fn two(starts: &[u8]) -> Vec<u8> {
    let nodes = [[2, 0, 0], [1, 0, 0], [8, 0, 1]];
    file(&[1, 0], &[[0, 0, 1]], &nodes, starts, 0)
}

/// Two alike states, and a rule that law 4 would make too long: 64 nodes, of which 62 is (A;B);C.
fn full() -> Vec<u8> {
    let mut nodes = vec![[5, 0, 0]; 64];
    nodes[61] = [10, 0, 1];
    nodes[62] = [10, 61, 2];
    file(&[0, 0], &[], &nodes, &[], 0)
}

/// Files that every entry refuses, in the order of their numbers from 1 on, and the places.
fn refused_files() -> [(Vec<u8>, u64); 7] {
    let nodes = |nodes: &[_]| file(&[0, 0], &[], nodes, &[], 0);
    let tau = [5, 0, 0];
    [
        (vec![0], 0),
        (file(&[], &[], &[tau], &[], 0), 0),
        (file(&[0], &[[0, 0, 0], [0, 8, 0]], &[tau], &[], 0), 1),
        (nodes(&[]), 0),
        (nodes(&[tau, tau, tau, [15, 0, 0]]), 3),
        (nodes(&[[4, 0, 0], [11, 0, 0], [12, 0, 1]]), 2),
        (nodes(&[[4, 0, 0]]), 0),
    ]
}

/// The files, areas to lend, and a file with its length as two arguments.
fn data() -> String {
    let mut data = String::from("#define CASE(name) name, sizeof name\n");
    data += "uint16_t work[80];\nuint8_t area[192], out[HOIDRUL_LONGEST];\n";
    data += &bytes("kinds", hoidrul::KindTable::IDENTITY.as_bytes());
    data += &bytes("holding", &two(&[0]));
    data += &bytes("failing", &two(&[0, 1]));
    data += &bytes("starting_nowhere", &two(&[]));
    data += &bytes("full", &full());
    data += &bytes("f", &fs::read(case("f.case")).unwrap());
    for (i, (file, _)) in (1..).zip(refused_files()) {
        data += &bytes(&format!("refused_{i}"), &file);
    }
    data
}

/// Other calls that are refused, with the number. The place is 0.
const OTHERS: [(&str, u64); 21] = [
    ("vet(NULL, 0, 0)", 1),
    ("vet(CASE(holding), 4)", 8),
    ("judge(CASE(holding), 4, work, 80)", 8),
    ("judge(CASE(holding), 3, work, 23)", 9),
    ("judge(CASE(holding), 3, NULL, 0)", 9),
    ("judge_kinds(CASE(kinds), CASE(holding), 4, work, 80)", 8),
    ("judge_kinds(CASE(kinds), CASE(holding), 3, NULL, 0)", 9),
    ("judge_kinds(NULL, 0, NULL, 0, 4, NULL, 0)", 15),
    ("vet_kinds(kinds, 14, CASE(holding))", 15),
    ("classes(CASE(holding), NULL, 0)", 13),
    ("merge(CASE(holding), 0, 2, out, sizeof out)", 8),
    ("merge(CASE(holding), 1, 1, out, sizeof out)", 10),
    ("merge(CASE(holding), 0, 1, out, sizeof out)", 10),
    ("merge(CASE(full), 0, 1, NULL, 0)", 13),
    ("rewrite(CASE(holding), 10, 2, out, sizeof out)", 11),
    ("rewrite(CASE(full), 4, 62, out, sizeof out)", 12),
    ("rewrite(CASE(holding), 9, 2, NULL, 0)", 13),
    ("regular(CASE(full), NULL, 0, NULL, 0)", 14),
    ("regular(CASE(holding), area, 191, NULL, 0)", 9),
    ("regular(CASE(holding), NULL, 0, out, 32)", 9),
    ("regular(CASE(holding), area, 192, out, 31)", 13),
];

/// Calls that are refused, with number and place.
fn refused_calls() -> Vec<(String, u64, u64)> {
    let mut calls = vec![];
    for (i, (_, place)) in (1..).zip(refused_files()) {
        for call in [
            "vet(CASE(FILE), 2)",
            "judge(CASE(FILE), 3, work, 80)",
            "judge_kinds(CASE(kinds), CASE(FILE), 3, work, 80)",
            "vet_kinds(CASE(kinds), CASE(FILE))",
            "classes(CASE(FILE), out, sizeof out)",
            "merge(CASE(FILE), 0, 1, out, sizeof out)",
            "rewrite(CASE(FILE), 9, 0, out, sizeof out)",
            "regular(CASE(FILE), area, sizeof area, out, sizeof out)",
        ] {
            let call = call.replace("FILE", &format!("refused_{i}"));
            calls.push((format!("hoidrul_{call}"), i, place));
        }
    }
    calls.extend(OTHERS.map(|(call, number)| (format!("hoidrul_{call}"), number, 0)));
    calls
}

/// What takes an answer apart.
const HELPERS: [&str; 8] = [
    "answer", "states", "nodes", "offset", "length", "set", "rounds", "written",
];
const STATES: [&str; 6] = ["0", "1", "2", "15", "16", "SIZE_MAX"];
const JUDGED: &str = "hoidrul_judge(CASE(holding), 3, work, 80)";
const REGULAR: &str = "hoidrul_regular(CASE(holding), area, 192, out, 32)";
const OPENED: &str = "hoidrul_open(CASE(holding), 3)";
const NOWHERE: &str = "hoidrul_open(CASE(starting_nowhere), 3)";

fn starts_hold(file: &str, opened: &str, judged: &str, hold: u64) -> Line {
    let call = format!("hoidrul_starts_hold({file}, {opened}, {judged})");
    number(call, hold)
}

fn regular_starts_hold(file: &str, reply: &str, hold: u64) -> Line {
    let call = format!("hoidrul_regular_starts_hold({file}, {reply}, out)");
    number(call, hold)
}

/// What both judges' helpers say of a state by a reply.
fn holds(reply: &str, regular: &str, state: &str, holds: u64) -> [Line; 2] {
    [
        number(format!("hoidrul_holds({reply}, {state})"), holds),
        number(
            format!("hoidrul_regular_holds({regular}, out, {state})"),
            holds,
        ),
    ]
}

/// Of a refusal there are number and place, and nothing else.
fn refusal(reply: &str, reason: u64, place: u64) -> Vec<Line> {
    let mut lines = vec![
        number(format!("hoidrul_refused({reply})"), 1),
        number(format!("hoidrul_number({reply})"), reason),
        number(format!("hoidrul_place({reply})"), place),
        starts_hold("holding", OPENED, reply, 0),
        starts_hold("starting_nowhere", NOWHERE, reply, 0),
        starts_hold("holding", reply, JUDGED, 0),
        starts_hold("holding", "0", reply, 0),
        starts_hold("holding", reply, reply, 0),
        number(format!("hoidrul_starts_hold_kinds(holding, {reply})"), 0),
        regular_starts_hold("holding", reply, 0),
        regular_starts_hold("starting_nowhere", reply, 0),
    ];
    lines.extend(HELPERS.map(|helper| number(format!("hoidrul_{helper}({reply})"), 0)));
    lines.extend(STATES.map(|state| holds(reply, reply, state, 0)).concat());
    lines
}

#[test]
fn refused_replies() {
    let calls = refused_calls();
    for reason in Reason::ALL {
        let number = u64::from(reason.number());
        assert!(calls.iter().any(|call| call.1 == number), "{reason:?}");
    }
    let lines = calls
        .iter()
        .map(|(call, i, place)| refusal(call, *i, *place));
    check("refused_replies", &data(), &Vec::from_iter(lines).concat());
}

/// Also numbers that this version does not give, and places with every bit of an answer.
#[test]
fn any_refusal() {
    let mut lines = vec![];
    for number in (0..=20).chain([0x7fff_ffff]) {
        for place in [0, 1, 0x1_ffff, 0xffff_ffff] {
            let reply = (1 << 63) + (number << 32) + place;
            lines.extend(refusal(&format!("UINT64_C({reply})"), number, place));
        }
    }
    check("any_refusal", &data(), &lines);
}

/// Opening refuses by 0, of which there is nothing to say.
#[test]
fn refused_openings() {
    let mut lines = vec![];
    let files = (1..=7).map(|i| (format!("refused_{i}"), 3));
    for (file, section) in files.chain([("holding".into(), 4)]) {
        let opened = format!("hoidrul_open(CASE({file}), {section})");
        lines.push(number(&opened, 0));
        lines.push(starts_hold(&file, &opened, JUDGED, 0));
    }
    lines.push(number("hoidrul_open(NULL, 0, 0)", 0));
    lines.push(starts_hold("NULL", "0", JUDGED, 0));
    for helper in ["refused", "number", "place", "offset", "length"] {
        lines.push(number(format!("hoidrul_{helper}(0)"), 0));
    }
    check("refused_openings", &data(), &lines);
}

/// Each answer with helpers and what they say of it.
#[test]
fn answers() {
    let mut out = [0; hoidrul::LONGEST];
    let merged = hoidrul::merge(&full(), 0, 1, &mut out).unwrap();
    let calls: [(&str, &[(&str, u64)]); 9] = [
        ("vet(CASE(holding), 0)", &[("states", 2), ("nodes", 3)]),
        ("open(CASE(holding), 1)", &[("offset", 18), ("length", 3)]),
        ("open(CASE(f), 3)", &[("offset", 55), ("length", 0)]),
        ("judge(CASE(f), 3, work, 80)", &[("set", 3), ("rounds", 2)]),
        ("judge(CASE(f), 0, work, 80)", &[("set", 1), ("rounds", 2)]),
        ("classes(CASE(f), out, 2)", &[("written", 2)]),
        (
            "merge(CASE(full), 0, 1, out, sizeof out)",
            &[("written", merged as u64)],
        ),
        (
            "rewrite(CASE(f), 9, 8, out, 55)",
            &[("written", 55), ("answer", 55)],
        ),
        (
            "regular(CASE(holding), area, 192, out, 32)",
            &[("written", 32), ("answer", 32)],
        ),
    ];
    let mut lines = vec![];
    for (call, said) in calls {
        let none = [("refused", 0), ("number", 0), ("place", 0)];
        for (helper, value) in none.iter().chain(said) {
            lines.push(number(format!("hoidrul_{helper}(hoidrul_{call})"), *value));
        }
    }
    for (state, said) in STATES.iter().zip([1, 0, 0, 0, 0, 0]) {
        lines.extend(holds(JUDGED, REGULAR, state, said));
    }
    check("answers", &data(), &lines);
}

/// State 0 holds and state 1 does not. Where there is no start state, none fails.
#[test]
fn start_states() {
    let failing = "hoidrul_open(CASE(failing), 3)";
    let lines = [
        starts_hold("holding", OPENED, JUDGED, 1),
        starts_hold("failing", failing, JUDGED, 0),
        starts_hold("starting_nowhere", NOWHERE, JUDGED, 1),
        // The empty set, which is an answer.
        starts_hold("holding", OPENED, "0", 0),
        starts_hold("starting_nowhere", NOWHERE, "0", 1),
        regular_starts_hold("holding", REGULAR, 1),
        regular_starts_hold("failing", REGULAR, 0),
        regular_starts_hold("starting_nowhere", REGULAR, 1),
    ];
    check("start_states", &data(), &lines);
}

/// On 256 states, of which every third has proposition 0: sets of more than a byte, and pairs whose
/// numbers have two.
#[test]
fn large_tables() {
    let labels = Vec::from_iter((0..=255).map(|state| u8::from(state % 3 == 0)));
    let thirds = Vec::from_iter((0..=255).step_by(3));
    let all = Vec::from_iter(0..=255);
    let large = |labels: &[u8], starts: &[u8]| file(labels, &[], &[[2, 0, 0]], starts, 0);
    let files = [
        ("thirds", large(&labels, &thirds), 1),
        ("failing", large(&labels, &all), 0),
        ("filled", large(&[1; 256], &all), 1),
    ];
    let mut data = String::from("uint8_t area[64], out[32];\n");
    let mut lines = vec![];
    for (name, file, hold) in &files {
        data += &bytes(name, file);
        let reply = format!("hoidrul_regular({name}, sizeof {name}, area, 64, out, 32)");
        lines.push(regular_starts_hold(name, &reply, *hold));
        for state in [0, 1, 7, 8, 9, 15, 16, 127, 129, 254, 255, 256, 258, 65_535] {
            let holds = state < 256 && (*name == "filled" || state % 3 == 0);
            let call = format!("hoidrul_regular_holds({reply}, out, {state})");
            lines.push(number(call, holds.into()));
        }
    }
    check("large_tables", &data, &lines);
}

/// More than a case can have counts as the most.
#[test]
fn any_numbers() {
    let sizes = [0, 1, 2, 15, 16, 17, 31, 32, 33, 63, 64, 65, 128, u64::MAX];
    let mut lines = vec![];
    for n in sizes {
        let states = n.min(16);
        let call = format!("hoidrul_all_states(UINT64_C({n}))");
        lines.push(number(call, (1 << states) - 1));
        for m in sizes {
            let call = format!("hoidrul_words(UINT64_C({n}), UINT64_C({m}))");
            lines.push(number(call, (2 * m.min(64)) << states));
        }
    }
    check("any_numbers", "", &lines);
}
