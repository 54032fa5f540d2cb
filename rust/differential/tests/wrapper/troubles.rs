//! The script over the proved program: inputs that cannot be read, outputs that cannot be written.
use crate::calls::shells;
use crate::inputs::{each, each_is_trouble, put, wrapper};
use std::fs::{self, Permissions};
use std::os::unix::fs::{symlink, PermissionsExt};

#[test]
fn no_such_input() {
    let wrapper = wrapper("troubles");
    put(&wrapper, "case");
    fs::create_dir(wrapper.from.join("a folder")).expect("a folder");
    symlink("missing", wrapper.from.join("link")).expect("a link");
    for (text, word) in [
        ("judge ''", "empty"),
        ("judge '' <case", "empty"),
        ("judge case case", "more than one"),
        ("judge case ''", "more than one"),
        ("judge -- case", "more than one"),
        ("judge missing <case", "there is no file missing"),
        ("judge 'mis\nsing'", "mis?sing"),
        (
            "judge 'missing: Permission denied'",
            "there is no file missing: Permission denied",
        ),
        ("judge case/case", "cannot reach case/case: Not a directory"),
        ("judge link", "there is no file link"),
        ("judge 'a folder'", "a folder"),
        ("judge <'a folder'", "standard input"),
        ("judge .", "directory"),
        ("judge /proc/self/mem", "/proc/self/mem"),
        ("judge </proc/self/mem", "standard input"),
        ("judge <&-", "standard input"),
        ("judge /dev/stdin <&-", "/dev/stdin"),
        ("judge /dev/tcp/localhost/1", "/dev/tcp/localhost/1"),
    ] {
        each_is_trouble(&wrapper, text, word);
    }
}

/// A file that the caller may not read, and one in a folder that the caller may not go through, also by
/// a link. Root may all of that, so it calls as nobody.
#[test]
fn not_permitted() {
    let wrapper = wrapper("not permitted");
    let set = |name: &str, mode| {
        let path = wrapper.from.join(name);
        fs::set_permissions(path, Permissions::from_mode(mode)).expect("permissions set");
    };
    fs::create_dir(wrapper.from.join("closed")).expect("a folder");
    for name in ["case", "unreadable", "closed/case"] {
        put(&wrapper, name);
    }
    symlink("closed/case", wrapper.from.join("link")).expect("a link");
    set("unreadable", 0o000);
    let succeeds = |text: &str| wrapper.run(text).status == Some(0);
    let nobody = "setpriv --reuid=65534 --regid=65534 --clear-groups";
    let by = if succeeds("! cat unreadable") {
        ""
    } else if succeeds(&format!("{nobody} cat case \"$JUDGE\"")) {
        nobody
    } else {
        println!("skipped: root may read every file, and cannot be nobody here");
        return;
    };
    let calls = [
        ("unreadable", "cannot read unreadable"),
        ("closed/case", "cannot reach closed/case: Permission denied"),
        ("closed/none", "cannot reach closed/none: Permission denied"),
        ("link", "cannot reach link: Permission denied"),
        ("missing", "there is no file missing"),
    ];
    let mut outcomes = vec![];
    set("closed", 0o000);
    for (name, word) in calls {
        let text = format!("{by} $BY \"$JUDGE\" {name}");
        outcomes.extend(
            shells()
                .iter()
                .map(|shell| (wrapper.run_by(shell, &text, b""), word)),
        );
    }
    // Else the next run could not remove it.
    set("closed", 0o755);
    for (outcome, word) in outcomes {
        outcome.is_trouble(word);
    }
}

#[test]
fn unwritable() {
    let wrapper = wrapper("unwritable");
    put(&wrapper, "case");
    each_is_trouble(&wrapper, "judge case >/dev/full", "written");
    each_is_trouble(&wrapper, "judge case >&-", "standard output");
    each_is_trouble(&wrapper, "judge case <&- >&-", "standard output");
    let text = "{ judge case; echo $? >status; } | :; cat status >&2; rm status";
    each(&wrapper, text, b"", |outcome| {
        assert!(outcome.said.ends_with("written\n2\n"), "{outcome:?}");
    });
    let nowhere = "export TMPDIR=/dev/null; judge case";
    each_is_trouble(&wrapper, nowhere, "cannot make a temporary file: ");
}

/// Neither for the copy of a case nor, where that is empty, for the program's print.
#[test]
fn no_room() {
    let wrapper = wrapper("no room for files");
    put(&wrapper, "case");
    fs::write(wrapper.from.join("empty"), "").expect("a file written");
    for name in ["case", "empty"] {
        let text = format!("ulimit -f 0; judge {name}");
        each_is_trouble(&wrapper, &text, "no room for a temporary file in /");
    }
    let full = "mount -t tmpfs -o size=4k full temporary && head -c 4096 /dev/zero >temporary/full";
    let alone = |text: &str| format!("unshare -m sh -c '{full} && {text}'");
    if wrapper.run(&alone("exit 0")).status != Some(0) {
        println!("skipped: no folder can be filled here");
        return;
    }
    for name in ["case", "empty"] {
        let text = alone(&format!("$BY \"$JUDGE\" {name}"));
        each_is_trouble(&wrapper, &text, "no room for a temporary file in /");
    }
}
