//! Writes the files of the folder `cases` anew.
use differential::drives::{drives, file, folder};
use differential::{duplex, supplier};

fn main() -> std::io::Result<()> {
    for (name, case) in drives() {
        std::fs::write(folder().join(name), file(name, &case))?;
    }
    let printer = plain::write(&duplex::printer());
    std::fs::write(folder().join(duplex::FILE), printer)?;
    let motor = plain::write(&supplier::motor());
    std::fs::write(folder().join(supplier::FILE), motor)?;
    std::fs::write(folder().join(supplier::KINDS_FILE), supplier::KINDS)
}
