//! A short run from a fixed seed: every entry answers, and every row that it gives comes up.
use differential::replies::LAST_ROW;
use fuzz::{run, Entry};

#[test]
fn every_reply_comes_up() {
    let replies = run(20_000, 1);
    println!("{replies}");
    for entry in Entry::ALL {
        assert!(replies.answers(entry) >= 100, "{entry:?}");
        for row in 1..=LAST_ROW {
            let given = entry.rows().contains(&row);
            let came = replies.refusals(entry, row) > 0;
            assert_eq!(came, given, "{entry:?}, row {row}");
        }
    }
}
