//! Hears the sections of a file, or of standard input when none is named, and says what came of each
//! announced module:
//!
//!     cargo run --example receive FILE

use nebosvar::{Record, Refusal, MOST_BYTES};
use std::io::Read;
use std::{env, error, fs, io};

fn main() -> Result<(), Box<dyn error::Error>> {
    let mut sections = Vec::new();
    match env::args_os().nth(1) {
        Some(file) => fs::File::open(file)?.read_to_end(&mut sections)?,
        None => io::stdin().read_to_end(&mut sections)?,
    };
    for line in hear(&sections)? {
        println!("{line}");
    }
    Ok(())
}

/// A line for each module, in announced order.
pub fn hear(sections: &[u8]) -> Result<Vec<String>, Refusal> {
    let mut record = Record::new();
    let mut image = vec![0; MOST_BYTES];
    record.run(sections, &mut image, usize::MAX);

    let mut lines = Vec::new();
    for module in &record.modules[..usize::from(record.count)] {
        let came = match record.missing(module.number)? {
            Some(missing) => format!("{} of its blocks missing", missing.count),
            None => {
                let bytes = record.handout(&image, module.number)?;
                format!("complete, {} bytes", bytes.len())
            }
        };
        lines.push(format!(
            "module {} of size {}: {came}",
            module.number, module.size
        ));
    }
    Ok(lines)
}
