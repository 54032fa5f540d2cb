//! The C header's function for a supplier's kinds, and its helpers, on a supplier's case.
mod common;

use common::c::{bytes, check, number, Line};
use common::{case, file};
use hoidrul::KindTable;
use std::fs;

/// Of the motor in the folder `cases`, by its table, by that the wrong way round and by our own.
#[test]
fn a_case_of_a_supplier() {
    let table = fs::read(case("lost_steps_made_up.kinds")).unwrap();
    let inverse = KindTable::new(&table).unwrap().inverse();
    let mut data = String::from("uint16_t work[5120];\n#define CASE(name) name, sizeof name\n");
    data += &bytes(
        "motor",
        &fs::read(case("lost_steps_made_up.supplier")).unwrap(),
    );
    data += &bytes("table", &table);
    data += &bytes("inverse", inverse.as_bytes());
    data += &bytes("ours", KindTable::IDENTITY.as_bytes());
    let vetted = |table| format!("hoidrul_vet_kinds(CASE({table}), CASE(motor))");
    let judged =
        |table| format!("hoidrul_judge_kinds(CASE({table}), CASE(motor), 255, work, 5120)");
    let mut lines = vec![
        number(format!("hoidrul_states({})", vetted("table")), 8),
        number(format!("hoidrul_nodes({})", vetted("table")), 10),
        number("hoidrul_words(8, 10)", 5120),
        number(judged("table"), 1),
        number(format!("hoidrul_rounds({})", judged("table")), 0),
        number(format!("hoidrul_holds({}, 0)", judged("table")), 1),
        number(format!("hoidrul_holds({}, 4)", judged("table")), 0),
    ];
    for (table, place) in [("inverse", 3), ("ours", 2)] {
        for reply in [vetted(table), judged(table)] {
            lines.push(number(format!("hoidrul_number({reply})"), 5));
            lines.push(number(format!("hoidrul_place({reply})"), place));
            lines.push(number(
                format!("hoidrul_starts_hold_kinds(motor, {reply})"),
                0,
            ));
        }
    }
    check("a_case_of_a_supplier", &data, &lines);
}

/// The rule p0, by a supplier to whom it is 3, on three states of which 0 and 2 have it. Opening and
/// judging as it stands take it for not p0.
#[test]
fn start_states() {
    let mut table = *KindTable::IDENTITY.as_bytes();
    table.swap(2, 3);
    let mut data = String::from("uint16_t work[16];\n");
    data += &bytes("table", &table);
    let mut lines: Vec<Line> = vec![];
    let lists = [&[][..], &[0], &[1], &[0, 2], &[1, 2], &[0, 1, 2]];
    for (i, (starts, hold)) in lists.into_iter().zip([1, 1, 0, 1, 0, 0]).enumerate() {
        let name = format!("starting_{i}");
        data += &bytes(&name, &file(&[1, 0, 1], &[], &[[3, 0, 0]], starts, i % 4));
        let arguments = format!("{name}, sizeof {name}");
        let judged = format!("hoidrul_judge_kinds(table, 15, {arguments}, 7, work, 16)");
        lines.push(number(&judged, 0b101));
        let call = format!("hoidrul_starts_hold_kinds({name}, {judged})");
        lines.push(number(call, hold));
        let as_it_stands = format!("hoidrul_judge({arguments}, 7, work, 16)");
        lines.push(number(as_it_stands, 0b010));
    }
    check("start_states_of_a_supplier", &data, &lines);
}

/// A file of no bytes has no pairs to be read; no table, no area.
#[test]
fn null_pointers() {
    let data = bytes("ours", KindTable::IDENTITY.as_bytes());
    let number_of = |reply: &str, reason| number(format!("hoidrul_number({reply})"), reason);
    let lines = [
        number_of("hoidrul_vet_kinds(NULL, 0, NULL, 0)", 15),
        number_of("hoidrul_vet_kinds(ours, 15, NULL, 0)", 1),
        number_of("hoidrul_judge_kinds(NULL, 0, NULL, 0, 0, NULL, 0)", 15),
        number_of("hoidrul_judge_kinds(ours, 15, NULL, 0, 0, NULL, 0)", 1),
        number(
            "hoidrul_starts_hold_kinds(NULL, hoidrul_vet_kinds(ours, 15, NULL, 0))",
            0,
        ),
    ];
    check("null_pointers", &data, &lines);
}
