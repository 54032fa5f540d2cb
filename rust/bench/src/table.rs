//! A table as a file: one line a measurement, columns parted by tabs.
use std::fs::File;
use std::io::{self, Write};

pub struct Table(File);

impl Table {
    pub fn create(path: &str, head: &str) -> io::Result<Table> {
        let mut table = Table(File::create(path)?);
        table.line(head)?;
        Ok(table)
    }

    /// Writes a line, and prints it as it comes.
    pub fn line(&mut self, line: &str) -> io::Result<()> {
        println!("{line}");
        writeln!(self.0, "{line}")
    }
}
