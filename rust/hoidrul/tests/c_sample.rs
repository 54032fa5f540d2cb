//! The sample in C, which prints what the binding's answers say.
mod common;

use common::c::compile;
use common::{case, file, no_case, printed, root, run, scratch, told};
use hoidrul::{KindTable, Reason, Refusal, Verdict};
use hoidrul::{LABELS, LONGEST, MOST_LAWS, MOST_STATES, REGULAR_LONGEST, RULE, STARTS, STEPS};
use std::fmt::Write;
use std::fs;
use std::path::Path;
use std::process::Command;

const SECTIONS: [(usize, &str); 4] = [
    (LABELS, "labels"),
    (STEPS, "steps"),
    (RULE, "rule"),
    (STARTS, "start states"),
];

/// What the sample prints of a case, by this binding.
fn sample_print(file: &[u8]) -> Result<String, Refusal> {
    let Ok(counts) = hoidrul::vet(file, LABELS) else {
        return regular_print(file);
    };
    let mut print = format!("states: {}\nnodes: {}\n", counts.states, counts.nodes);
    for (section, name) in SECTIONS {
        let length = hoidrul::open(file, section)?.len();
        let offset = u16::from_le_bytes([file[4 * section], file[4 * section + 1]]);
        writeln!(print, "{name}: {length} bytes from byte {offset}").unwrap();
    }
    print += &verdict_print(file)?;
    print += &match regular_print(file) {
        Err(refusal) if refusal.reason == Reason::Form => "the rule is not regular\n".into(),
        print => print?,
    };
    print += &merge_print(file)?;
    print += &rewrite_print(file, counts.nodes)?;
    Ok(print)
}

fn verdict_print(file: &[u8]) -> Result<String, Refusal> {
    let counts = hoidrul::vet(file, LABELS)?;
    let mut work = vec![0; hoidrul::work_area(file)?];
    let verdict = hoidrul::judge(file, counts.all_states(), &mut work)?;
    let hold = hoidrul::starts_hold(file, &mut work)?;
    Ok(verdict_lines(counts.states, verdict, hold))
}

/// What the sample prints of a case with a supplier's kinds.
fn kinds_print(kinds: &[u8], file: &[u8]) -> Result<String, Refusal> {
    let counts = hoidrul::vet_kinds(kinds, file)?;
    let mut work = vec![0; counts.words()];
    let verdict = hoidrul::judge_kinds(kinds, file, counts.all_states(), &mut work)?;
    let hold = hoidrul::starts_hold_kinds(kinds, file, &mut work)?;
    Ok(verdict_lines(counts.states, verdict, hold))
}

fn verdict_lines(states: usize, verdict: Verdict, starts_hold: bool) -> String {
    let mut print = String::new();
    for state in 0..states {
        let holds = if verdict.holds(state) {
            "holds"
        } else {
            "does not hold"
        };
        writeln!(print, "{state} {holds}").unwrap();
    }
    writeln!(print, "rounds: {}", verdict.rounds).unwrap();
    let hold = if starts_hold { "yes" } else { "no" };
    writeln!(print, "every start state holds: {hold}").unwrap();
    print
}

fn regular_print(file: &[u8]) -> Result<String, Refusal> {
    let mut work = vec![0; hoidrul::regular_work_area(file)?];
    let verdict = hoidrul::regular(file, &mut work)?;
    let mut print = String::from("the rule is regular\nholding:");
    for state in verdict.states.iter() {
        write!(print, " {state}").unwrap();
    }
    let hold = if verdict.starts_hold { "yes" } else { "no" };
    writeln!(print, "\nevery start state holds: {hold}").unwrap();
    Ok(print)
}

fn merge_print(file: &[u8]) -> Result<String, Refusal> {
    let mut classes = [0; MOST_STATES];
    let n = hoidrul::classes(file, &mut classes)?;
    let mut print = String::from("classes:");
    for lowest in &classes[..n] {
        write!(print, " {lowest}").unwrap();
    }
    print += "\n";
    let alike = (0..n).find(|&state| usize::from(classes[state]) < state);
    if let Some(state) = alike {
        let mut out = vec![0; LONGEST];
        let length = hoidrul::merge(file, classes[state].into(), state, &mut out)?;
        let lowest = classes[state];
        writeln!(print, "states {lowest} and {state} merged: {length} bytes").unwrap();
        print += &verdict_print(&out[..length])?;
    }
    Ok(print)
}

fn rewrite_print(file: &[u8], nodes: usize) -> Result<String, Refusal> {
    let mut out = vec![0; LONGEST];
    for (law, node) in (1..=MOST_LAWS).flat_map(|law| (0..nodes).map(move |node| (law, node))) {
        if let Ok(length) = hoidrul::rewrite(file, law, node, &mut out) {
            let verdict = verdict_print(&out[..length])?;
            return Ok(format!(
                "law {law} at node {node}: {length} bytes\n{verdict}"
            ));
        }
    }
    Ok(String::new())
}

#[test]
fn sample_prints_what_the_binding_answers() {
    let sample = compile(&root().join("examples/every_entry.c"), "every_entry");
    let cases = [
        "two_wheels",
        "f",
        "chop_and",
        "and_chops",
        "tau",
        "nu",
        "example_4",
        "feed_and_back",
        "pulled_back_fed_again",
        "aligned_sections",
        "lamp_not_mentioned",
        "tight_at_any_current",
    ];
    for name in cases {
        let path = case(&format!("{name}.case"));
        let print = sample_print(&fs::read(&path).unwrap()).unwrap();
        assert_eq!(
            printed(run(Command::new(&sample).arg(path))),
            print,
            "{name}"
        );
    }
}

/// 256 states in a row, of which the last has proposition 0, and the rule μZ.p0 or ⟨0⟩;Z; or only ⟨0⟩.
#[test]
fn sample_judges_large_tables() {
    let sample = compile(&root().join("examples/every_entry.c"), "every_entry_large");
    let nodes = [
        [6, 0, 0],
        [2, 0, 0],
        [4, 0, 0],
        [10, 0, 2],
        [8, 1, 3],
        [11, 0, 4],
    ];
    let labels = [&[0; 255][..], &[1]].concat();
    let steps = Vec::from_iter((0..255).map(|state| [state, 0, state + 1]));
    let path = scratch("large.case");
    let write = |nodes| fs::write(&path, file(&labels, &steps, nodes, &[0, 255], 3)).unwrap();
    write(&nodes);
    let print = printed(run(Command::new(&sample).arg(&path)));
    let holding: String = (0..256).map(|state| format!(" {state}")).collect();
    let lines = ["the rule is regular", "every start state holds: yes"];
    assert_eq!(
        print,
        format!("{}\nholding:{holding}\n{}\n", lines[0], lines[1])
    );
    write(&nodes[..1]);
    let line = format!("{}: refused 14 0: {}\n", path.display(), Reason::Form);
    assert_eq!(told(run(Command::new(&sample).arg(&path)), 1), line);
}

/// The supplier's motor, of which only state 0 holds, by its table; then by the table the wrong way
/// round, by one that is too long, and a case of ours by our own.
#[test]
fn sample_judges_through_a_table_of_kinds() {
    let sample = compile(&root().join("examples/every_entry.c"), "every_entry_kinds");
    let motor = case("lost_steps_made_up.supplier");
    let table = fs::read(case("lost_steps_made_up.kinds")).unwrap();
    let inverse = KindTable::new(&table).unwrap().inverse();
    let long = [&table[..], &[15]].concat();
    let with = |kinds: &[u8], path: &Path| {
        let written = scratch("of_the_sample.kinds");
        fs::write(&written, kinds).unwrap();
        run(Command::new(&sample).arg(path).arg(written))
    };
    let print = printed(with(&table, &motor));
    let file = fs::read(&motor).unwrap();
    assert_eq!(kinds_print(&table, &file), Ok(print.clone()));
    assert!(print.starts_with("0 holds\n1 does not hold\n"), "{print}");
    assert_eq!(print.matches(" holds\n").count(), 1, "{print}");
    for (kinds, number) in [(inverse.as_ref(), 5), (&long, 15)] {
        let refusal = kinds_print(kinds, &file).unwrap_err();
        assert_eq!(refusal.number(), number);
        let line = format!("{}: {refusal}\n", motor.display());
        assert_eq!(told(with(kinds, &motor), 1), line);
    }
    let print = printed(with(KindTable::IDENTITY.as_bytes(), &case("f.case")));
    let file = fs::read(case("f.case")).unwrap();
    assert_eq!(Ok(print), verdict_print(&file));
}

#[test]
fn sample_tells_refusals() {
    let sample = compile(
        &root().join("examples/every_entry.c"),
        "every_entry_refusing",
    );
    // Node 2 of case F names itself, which a place of its own shows.
    let mut file = fs::read(case("f.case")).unwrap();
    file[24 + 2 * 3 + 2] = 2;
    let bad = scratch("node_2.case");
    fs::write(&bad, &file).unwrap();
    let too_long = scratch("too_long.case");
    fs::write(&too_long, [0; REGULAR_LONGEST + 1]).unwrap();
    for path in [bad, no_case(), too_long] {
        let refusal = sample_print(&fs::read(&path).unwrap()).unwrap_err();
        let line = format!("{}: {refusal}\n", path.display());
        assert_eq!(told(run(Command::new(&sample).arg(&path)), 1), line);
    }
    let usage = told(run(&mut Command::new(&sample)), 1);
    assert_eq!(usage, "usage: every_entry CASE [KINDS]\n");
}
