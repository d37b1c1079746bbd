//! Prints a sheet of 65,536 bytes, or a little less, that does one thing over and over, for measuring.
//!
//! | mix | sheet |
//! |---|---|
//! | `names` | the line of names alone: what starting up costs |
//! | `begins` | transactions that begin, commit and are finished at once |
//! | `writes` | transactions of 16 writes, each stepped at every replica |
//! | `reads` | reads while 16 transactions have 16 writes each waiting at every replica |
//! | `aborts` | transactions of 16 writes to one row that abort when all are executed |
//! | `releases` | transactions that release all eight tables one by one, then commit |
//! | `holds` | steps that are held back by 15 earlier transactions |
//! | `feeds` | line feeds alone, so that every line is refused as it is read |
//!
//! Build: `rustc -O --edition 2021 mixes.rs -o mixes`

use std::env;
use std::io::{self, Write as _};
use std::process::ExitCode;

const TABLES: usize = 8;
const REPLICAS: usize = 3;
const MOST_UNFINISHED: usize = 16;
const MOST_WRITES: usize = 16;
const MOST_BYTES: usize = 65_536;

fn main() -> ExitCode {
    let arguments: Vec<String> = env::args().skip(1).collect();
    let sheet = match arguments.as_slice() {
        [mix] => sheet_of(mix),
        _ => None,
    };
    let Some(sheet) = sheet else {
        eprintln!(
            "usage: mixes names | begins | writes | reads | aborts | releases | holds | feeds"
        );
        return ExitCode::from(2);
    };
    match io::stdout().lock().write_all(sheet.as_bytes()) {
        Ok(()) => ExitCode::SUCCESS,
        Err(_) => ExitCode::FAILURE,
    }
}

fn sheet_of(mix: &str) -> Option<String> {
    let mut sheet = Sheet::new();
    match mix {
        "names" => {}
        "begins" => sheet.repeat(begin_and_commit),
        "writes" => sheet.repeat(|sheet, number| write_and_end(sheet, number, "commit")),
        "reads" => {
            crowd(&mut sheet);
            sheet.repeat(|sheet, turn| sheet.line(format!("read,0,6,{},,,", turn % 64)));
        }
        "aborts" => sheet.repeat(|sheet, number| write_and_end(sheet, number, "abort")),
        "releases" => sheet.repeat(release_all),
        "holds" => {
            crowd(&mut sheet);
            let last = MOST_UNFINISHED - 1;
            sheet.repeat(|sheet, turn| sheet.line(format!("step,{last},{},,,,", turn % REPLICAS)));
        }
        "feeds" => sheet.repeat(|sheet, _| sheet.line(String::new())),
        _ => return None,
    }
    Some(sheet.text)
}

struct Sheet {
    text: String,
}

impl Sheet {
    fn new() -> Self {
        Sheet {
            text: "call,number,place,row,high,low,class\n".into(),
        }
    }

    fn line(&mut self, line: String) {
        self.text.push_str(&line);
        self.text.push('\n');
    }

    /// Adds what `add` does, with a number that counts from 0, as often as there is room for all of it.
    fn repeat(&mut self, add: impl Fn(&mut Sheet, usize)) {
        for turn in 0.. {
            let before = self.text.len();
            add(self, turn);
            if self.text.len() > MOST_BYTES {
                self.text.truncate(before);
                return;
            }
        }
    }
}

fn begin_and_commit(sheet: &mut Sheet, number: usize) {
    sheet.line("begin,,rwnnwnnr,,,,".into());
    sheet.line(format!("commit,{number},,,,,"));
    step_everywhere(sheet, number);
}

fn write_and_end(sheet: &mut Sheet, number: usize, end: &str) {
    sheet.line("begin,,wnnwnnnr,,,,".into());
    for write in 0..MOST_WRITES {
        // An abort of many writes to one row has to restore the oldest last.
        let row = if end == "abort" {
            5
        } else {
            (number + 7 * write) % 64
        };
        sheet.line(format!(
            "write,{number},3,{row},{},{},4",
            write << 32,
            number + write
        ));
        step_everywhere(sheet, number);
    }
    sheet.line(format!("{end},{number},,,,,"));
    step_everywhere(sheet, number);
}

fn release_all(sheet: &mut Sheet, number: usize) {
    sheet.line("begin,,wrwrwrww,,,,".into());
    for table in 0..TABLES {
        sheet.line(format!("release,{number},{table},,,,"));
        step_everywhere(sheet, number);
    }
    sheet.line(format!("commit,{number},,,,,"));
    step_everywhere(sheet, number);
}

fn step_everywhere(sheet: &mut Sheet, number: usize) {
    for replica in 0..REPLICAS {
        sheet.line(format!("step,{number},{replica},,,,"));
    }
}

/// As many transactions as there may be, each with all its writes waiting.
fn crowd(sheet: &mut Sheet) {
    for number in 0..MOST_UNFINISHED {
        sheet.line("begin,,nnnnnnww,,,,".into());
        for write in 0..MOST_WRITES {
            sheet.line(format!("write,{number},7,{write},0,{write},4"));
        }
    }
}
