//! Programs in C over the header, linked with the archive of this binding.
use super::{printed, root, run, scratch};
use std::path::{Path, PathBuf};
use std::process::Command;
use std::{env, fs};

const STRICT: [&str; 5] = ["-Wall", "-Wextra", "-Werror", "-pedantic", "-Wconversion"];
const C99: [&str; 4] = ["CC", "cc", "-std=c99", "-xc"];
const CPP11: [&str; 4] = ["CXX", "c++", "-std=c++11", "-xc++"];

/// The command of a compiler, which a variable can name, that makes a program.
fn compiler([variable, usual, standard, language]: [&str; 4], from: &Path, to: &Path) -> Command {
    let mut command = Command::new(env::var_os(variable).unwrap_or(usual.into()));
    command.args(STRICT).args([standard, "-pthread", "-I"]);
    command.arg(root().join("include"));
    command.arg(language).arg(from).arg("-xnone");
    command.arg(Path::new(env!("HOIDRUL_ARCHIVE_DIR")).join("libhoidrul.a"));
    command.arg("-o").arg(to);
    command
}

/// The program of a C file.
pub fn compile(source: &Path, name: &str) -> PathBuf {
    let program = scratch(name);
    printed(run(&mut compiler(C99, source, &program)));
    program
}

/// A statement in C, and the line that it has to print.
pub type Line = (String, String);

/// The value of an expression, as a number of 64 bits.
pub fn number(expression: impl AsRef<str>, value: u64) -> Line {
    let expression = expression.as_ref();
    let statement = format!("printf(\"%\" PRIu64 \"\\n\", (uint64_t)({expression}));");
    (statement, value.to_string())
}

/// The string that an expression is.
pub fn string(expression: impl AsRef<str>, value: impl ToString) -> Line {
    (format!("puts({});", expression.as_ref()), value.to_string())
}

/// Bytes as data of this name, which a program need not use.
pub fn bytes(name: &str, bytes: &[u8]) -> String {
    let bytes: Vec<_> = bytes.iter().map(u8::to_string).collect();
    format!("uint8_t {name}[] = {{{}}};\n", bytes.join(", "))
}

/// Runs the statements, after this data, as a program in C, and in C++ where it can be compiled.
pub fn check(name: &str, data: &str, lines: &[Line]) {
    let statements: Vec<_> = lines.iter().map(|(statement, _)| &statement[..]).collect();
    let text = format!(
        "#include <hoidrul.h>\n#include <inttypes.h>\n#include <stdio.h>\n\
         {data}int main(void)\n{{\n{}\nreturn 0;\n}}\n",
        statements.join("\n")
    );
    let source = scratch(name).with_extension("c");
    fs::write(&source, text).unwrap();
    compare(&compile(&source, name), lines);
    let program = source.with_extension("cpp");
    if let Ok(output) = compiler(CPP11, &source, &program).output() {
        printed(output);
        compare(&program, lines);
    }
}

fn compare(program: &Path, lines: &[Line]) {
    let print = printed(run(&mut Command::new(program)));
    assert_eq!(print.lines().count(), lines.len());
    for ((statement, wanted), line) in lines.iter().zip(print.lines()) {
        assert_eq!(line, wanted, "{statement}");
    }
}
