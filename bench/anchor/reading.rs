//! reading FILE..: reads these tables, splits them at newlines and commas, and counts. It checks nothing and keeps nothing, so its time is about the
//! least that reading these bytes can take. It is built by `rustc -O` alone.
use std::process::ExitCode;

struct Counts {
    records: usize,
    fields: usize,
    digits: usize,
}

/// Counts what one table has. A quoted field with a comma or a newline in it would be split, but the tables that are measured have none.
fn count(table: &[u8]) -> Counts {
    let mut counts = Counts { records: 0, fields: 0, digits: 0 };
    for line in table.split(|&byte| byte == b'\n').filter(|line| !line.is_empty()) {
        counts.records += 1;
        for field in line.split(|&byte| byte == b',') {
            counts.fields += 1;
            counts.digits += field.iter().filter(|byte| byte.is_ascii_digit()).count();
        }
    }
    counts
}

fn main() -> ExitCode {
    let mut total = Counts { records: 0, fields: 0, digits: 0 };
    for path in std::env::args_os().skip(1) {
        let Ok(table) = std::fs::read(&path) else {
            eprintln!("{}: cannot be read", path.to_string_lossy());
            return ExitCode::FAILURE;
        };
        let counts = count(&table);
        total.records += counts.records;
        total.fields += counts.fields;
        total.digits += counts.digits;
    }
    println!("{} records, {} fields, {} digits", total.records, total.fields, total.digits);
    ExitCode::SUCCESS
}
