//! Prints a run sheet made from a seed, always the same for the same arguments.
//!
//! `generate SEED KIND` makes a sheet of that kind; `generate SEED` makes the
//! sheet of the kind that SEED chooses, the same as if it had been named.
//! `generate FIRST LAST FOLDER` writes the sheets of these seeds, each of the
//! kind that it chooses, to `FOLDER/SEED.sheet`.
//!
//! | kind | sheet |
//! |---|---|
//! | `lively` | clients and replicas at work, most calls accepted |
//! | `refusals` | the same, with a fair share of calls that the machine refuses |
//! | `format` | many lines that break a rule of the format |
//! | `damaged` | a lively sheet with bytes changed, cut, doubled or swapped |
//! | `full` | sheets of 65,536 bytes, and of a few less and more |
//!
//! Build: `rustc -O --edition 2021 generate.rs -o generate`

use std::env;
use std::fs;
use std::io::{self, Write as _};
use std::ops::RangeInclusive;
use std::path::Path;
use std::process::ExitCode;

const TABLES: usize = 8;
const ROWS: u32 = 64;
const CLASSES: u32 = 8;
const REPLICAS: usize = 3;
const MOST_UNFINISHED: usize = 16;
const MOST_WRITES: usize = 16;
const MOST_BYTES: usize = 65_536;

/// The costs of a write, by its class.
const COSTS: [u32; CLASSES as usize] = [1, 2, 3, 5, 8, 13, 21, 34];

const NAMES: &[u8] = b"call,number,place,row,high,low,class\n";
/// No line that a composer makes from a call is longer.
const LONGEST_LINE: usize = 100;

fn main() -> ExitCode {
    let arguments: Vec<String> = env::args().skip(1).collect();
    let Some(task) = Task::asked_by(&arguments) else {
        eprintln!("usage: generate SEED [lively | refusals | format | damaged | full]");
        eprintln!("       generate FIRST LAST FOLDER");
        return ExitCode::from(2);
    };
    match task.run() {
        Ok(()) => ExitCode::SUCCESS,
        Err(error) => {
            eprintln!("generate: {error}");
            ExitCode::FAILURE
        }
    }
}

enum Task<'a> {
    Print {
        seed: u64,
        kind: Kind,
    },
    Write {
        seeds: RangeInclusive<u64>,
        folder: &'a Path,
    },
}

impl Task<'_> {
    fn asked_by(arguments: &[String]) -> Option<Task<'_>> {
        match arguments {
            [seed] => {
                let seed = seed.parse().ok()?;
                let kind = Kind::chosen_by(seed);
                Some(Task::Print { seed, kind })
            }
            [seed, kind] => Some(Task::Print {
                seed: seed.parse().ok()?,
                kind: Kind::named(kind)?,
            }),
            [first, last, folder] => Some(Task::Write {
                seeds: first.parse().ok()?..=last.parse().ok()?,
                folder: Path::new(folder),
            }),
            _ => None,
        }
    }

    fn run(self) -> io::Result<()> {
        match self {
            Task::Print { seed, kind } => io::stdout().lock().write_all(&generate(seed, kind)),
            Task::Write { mut seeds, folder } => seeds.try_for_each(|seed| {
                let sheet = generate(seed, Kind::chosen_by(seed));
                fs::write(folder.join(format!("{seed}.sheet")), sheet)
            }),
        }
    }
}

#[derive(Clone, Copy)]
enum Kind {
    Lively,
    Refusals,
    Format,
    Damaged,
    Full,
}

impl Kind {
    fn named(name: &str) -> Option<Kind> {
        match name {
            "lively" => Some(Kind::Lively),
            "refusals" => Some(Kind::Refusals),
            "format" => Some(Kind::Format),
            "damaged" => Some(Kind::Damaged),
            "full" => Some(Kind::Full),
            _ => None,
        }
    }

    fn chosen_by(seed: u64) -> Kind {
        match Rng::new(seed).below(20) {
            0..=7 => Kind::Lively,
            8..=11 => Kind::Refusals,
            12..=14 => Kind::Format,
            15..=16 => Kind::Damaged,
            _ => Kind::Full,
        }
    }
}

fn generate(seed: u64, kind: Kind) -> Vec<u8> {
    let mut rng = Rng::new(seed ^ (kind as u64 + 1).rotate_right(8));
    match kind {
        Kind::Lively => {
            let limit = any_size(&mut rng);
            lively(rng, limit).sheet
        }
        Kind::Refusals => refusals(rng),
        Kind::Format => format_breaks(rng),
        Kind::Damaged => damaged(rng),
        Kind::Full => full(rng),
    }
}

// ------------------------------------------------------------------ chance

/// The splitmix64 generator.
struct Rng(u64);

impl Rng {
    fn new(seed: u64) -> Self {
        Rng(seed)
    }

    fn next(&mut self) -> u64 {
        self.0 = self.0.wrapping_add(0x9e37_79b9_7f4a_7c15);
        let mut mixed = self.0;
        mixed = (mixed ^ (mixed >> 30)).wrapping_mul(0xbf58_476d_1ce4_e5b9);
        mixed = (mixed ^ (mixed >> 27)).wrapping_mul(0x94d0_49bb_1331_11eb);
        mixed ^ (mixed >> 31)
    }

    /// A number below `bound`, which is not 0.
    fn below(&mut self, bound: usize) -> usize {
        (self.next() % bound as u64) as usize
    }

    fn between(&mut self, least: usize, most: usize) -> usize {
        least + self.below(most - least + 1)
    }

    fn number(&mut self, bound: u32) -> u32 {
        (self.next() % u64::from(bound)) as u32
    }

    fn chance(&mut self, percent: usize) -> bool {
        self.below(100) < percent
    }

    fn pick<T: Copy>(&mut self, choices: &[T]) -> T {
        choices[self.below(choices.len())]
    }

    /// One of the choices, if there is any.
    fn any<T: Copy>(&mut self, choices: &[T]) -> Option<T> {
        (!choices.is_empty()).then(|| self.pick(choices))
    }

    fn shuffle<T>(&mut self, list: &mut [T]) {
        for last in (1..list.len()).rev() {
            list.swap(last, self.below(last + 1));
        }
    }

    /// The index of one of the weights, which are not all 0.
    fn weighted(&mut self, weights: &[usize]) -> usize {
        let mut left = self.below(weights.iter().sum());
        for (index, &weight) in weights.iter().enumerate() {
            if left < weight {
                return index;
            }
            left -= weight;
        }
        unreachable!("the sum is above what was drawn")
    }

    /// Something for high or low, small, large and at the edges.
    fn value(&mut self) -> u64 {
        match self.below(10) {
            0 => 0,
            1 | 2 => self.next() % 100,
            3 => u64::MAX - self.next() % 3,
            4 => (1 << 63) + self.next() % 3 - 1,
            5 => (1 << 32) + self.next() % 3 - 1,
            6 => ((self.next() % 64) << 32) | (self.next() % 400),
            7 => 1 << (self.next() % 64),
            _ => self.next(),
        }
    }
}

fn any_size(rng: &mut Rng) -> usize {
    match rng.below(20) {
        0 => NAMES.len(),
        1..=4 => rng.between(NAMES.len(), 1_000),
        5..=12 => rng.between(1_000, 16_000),
        13..=17 => rng.between(16_000, MOST_BYTES),
        _ => MOST_BYTES,
    }
}

// ------------------------------------------------------------------- calls

#[derive(Clone, Copy, PartialEq, Eq)]
enum Mode {
    None,
    Read,
    Write,
}

type Modes = [Mode; TABLES];

#[derive(Clone, Copy)]
enum Call {
    Begin {
        modes: Modes,
    },
    Write {
        number: u32,
        table: u32,
        row: u32,
        high: u64,
        low: u64,
        class: u32,
    },
    Read {
        number: u32,
        table: u32,
        row: u32,
    },
    Release {
        number: u32,
        table: u32,
    },
    Commit {
        number: u32,
    },
    Abort {
        number: u32,
    },
    Step {
        number: u32,
        replica: u32,
    },
}

impl Call {
    fn fields(&self) -> Vec<Vec<u8>> {
        let text = match *self {
            Call::Begin { modes } => {
                let letters: String = modes.iter().map(|&mode| letter(mode)).collect();
                format!("begin,,{letters},,,,")
            }
            Call::Write {
                number,
                table,
                row,
                high,
                low,
                class,
            } => format!("write,{number},{table},{row},{high},{low},{class}"),
            Call::Read { number, table, row } => format!("read,{number},{table},{row},,,"),
            Call::Release { number, table } => format!("release,{number},{table},,,,"),
            Call::Commit { number } => format!("commit,{number},,,,,"),
            Call::Abort { number } => format!("abort,{number},,,,,"),
            Call::Step { number, replica } => format!("step,{number},{replica},,,,"),
        };
        text.split(',').map(Into::into).collect()
    }
}

fn letter(mode: Mode) -> char {
    match mode {
        Mode::None => 'n',
        Mode::Read => 'r',
        Mode::Write => 'w',
    }
}

fn line_of(fields: &[Vec<u8>]) -> Vec<u8> {
    let mut line = fields.join(&b',');
    line.push(b'\n');
    line
}

// ------------------------------------------------------------------- model

/// What waits or has been executed, without its row.
#[derive(Clone, Copy)]
enum Operation {
    Write { table: usize },
    Release { table: usize },
    End,
}

struct Transaction {
    number: u32,
    modes: Modes,
    released: [bool; TABLES],
    operations: Vec<Operation>,
    executed: [usize; REPLICAS],
    writes: usize,
    open: bool,
    /// The rows that it wrote, to write and read them again.
    own: Vec<(u32, u32)>,
}

impl Transaction {
    fn waiting(&self, replica: usize) -> &[Operation] {
        &self.operations[self.executed[replica]..]
    }

    fn holds(&self, table: usize) -> bool {
        self.modes[table] != Mode::None && !self.released[table]
    }

    fn has_let_go(&self, table: usize, replica: usize) -> bool {
        self.operations[..self.executed[replica]]
            .iter()
            .any(|operation| match *operation {
                Operation::Write { .. } => false,
                Operation::Release { table: released } => released == table,
                Operation::End => true,
            })
    }

    fn tables(&self, wanted: impl Fn(usize) -> bool) -> Vec<u32> {
        (0..TABLES)
            .filter(|&table| wanted(table))
            .map(|table| table as u32)
            .collect()
    }

    fn held(&self) -> Vec<u32> {
        self.tables(|table| self.holds(table))
    }

    fn writable(&self) -> Vec<u32> {
        self.tables(|table| self.holds(table) && self.modes[table] == Mode::Write)
    }

    fn past_recall(&self) -> bool {
        (0..TABLES).any(|table| self.released[table] && self.modes[table] == Mode::Write)
    }

    fn is_finished(&self) -> bool {
        !self.open && (0..REPLICAS).all(|replica| self.waiting(replica).is_empty())
    }
}

/// The machine without its rows, told by who conflicts with whom: enough to
/// know which calls are accepted.
#[derive(Default)]
struct Model {
    begun: u32,
    unfinished: Vec<Transaction>,
}

impl Model {
    fn find(&self, number: u32) -> Option<&Transaction> {
        self.unfinished
            .iter()
            .find(|transaction| transaction.number == number)
    }

    fn open(&self) -> impl Iterator<Item = &Transaction> {
        self.unfinished
            .iter()
            .filter(|transaction| transaction.open)
    }

    /// Whether somebody earlier, who has not let go, conflicts at the table.
    fn is_held_back(&self, transaction: &Transaction, table: usize, replica: usize) -> bool {
        let writes = transaction.modes[table] == Mode::Write;
        self.unfinished
            .iter()
            .take_while(|earlier| earlier.number < transaction.number)
            .filter(|earlier| match earlier.modes[table] {
                Mode::None => false,
                Mode::Read => writes,
                Mode::Write => true,
            })
            .any(|earlier| !earlier.has_let_go(table, replica))
    }

    fn can_step(&self, transaction: &Transaction, replica: usize) -> bool {
        match transaction.waiting(replica).first() {
            None => false,
            Some(&(Operation::Write { table } | Operation::Release { table })) => {
                !self.is_held_back(transaction, table, replica)
            }
            Some(Operation::End) => !(0..TABLES).any(|table| {
                transaction.holds(table) && self.is_held_back(transaction, table, replica)
            }),
        }
    }

    fn can_read(&self, transaction: &Transaction, table: usize) -> bool {
        (0..REPLICAS).any(|replica| {
            !self.is_held_back(transaction, table, replica)
                && !transaction.waiting(replica).iter().any(
                    |operation| matches!(operation, Operation::Write { table: to } if *to == table),
                )
        })
    }

    /// Whether the call is accepted and changes something.
    fn accepts(&self, call: &Call) -> bool {
        match *call {
            Call::Begin { modes } => {
                modes.iter().any(|&mode| mode != Mode::None)
                    && self.unfinished.len() < MOST_UNFINISHED
            }
            Call::Write {
                number,
                table,
                row,
                class,
                ..
            } => self.find(number).is_some_and(|transaction| {
                transaction.open
                    && row < ROWS
                    && class < CLASSES
                    && transaction.writable().contains(&table)
                    && transaction.writes < MOST_WRITES
            }),
            Call::Read { .. } => false,
            Call::Release { number, table } => self
                .find(number)
                .is_some_and(|transaction| transaction.open && transaction.held().contains(&table)),
            Call::Commit { number } => self
                .find(number)
                .is_some_and(|transaction| transaction.open),
            Call::Abort { number } => self
                .find(number)
                .is_some_and(|transaction| transaction.open && !transaction.past_recall()),
            Call::Step { number, replica } => {
                let replica = replica as usize;
                replica < REPLICAS
                    && self
                        .find(number)
                        .is_some_and(|transaction| self.can_step(transaction, replica))
            }
        }
    }

    /// Makes a call that is accepted.
    fn make(&mut self, call: &Call) {
        match *call {
            Call::Begin { modes } => {
                self.unfinished.push(Transaction {
                    number: self.begun,
                    modes,
                    released: [false; TABLES],
                    operations: Vec::new(),
                    executed: [0; REPLICAS],
                    writes: 0,
                    open: true,
                    own: Vec::new(),
                });
                self.begun += 1;
            }
            Call::Write {
                number, table, row, ..
            } => self.change(number, |transaction| {
                transaction.writes += 1;
                transaction.own.push((table, row));
                transaction.operations.push(Operation::Write {
                    table: table as usize,
                });
            }),
            Call::Read { .. } => {}
            Call::Release { number, table } => self.change(number, |transaction| {
                let table = table as usize;
                transaction.released[table] = true;
                transaction.operations.push(Operation::Release { table });
            }),
            Call::Commit { number } | Call::Abort { number } => {
                self.change(number, |transaction| {
                    transaction.open = false;
                    transaction.operations.push(Operation::End);
                });
            }
            Call::Step { number, replica } => {
                self.change(number, |transaction| {
                    transaction.executed[replica as usize] += 1;
                });
                self.unfinished
                    .retain(|transaction| !transaction.is_finished());
            }
        }
    }

    fn change(&mut self, number: u32, change: impl FnOnce(&mut Transaction)) {
        let found = self
            .unfinished
            .iter_mut()
            .find(|transaction| transaction.number == number);
        if let Some(transaction) = found {
            change(transaction);
        }
    }
}

// ------------------------------------------------------------ lively sheets

/// How clients and replicas behave for a while.
struct Temper {
    calls_left: usize,
    /// How many transactions are to be unfinished, about.
    crowd: usize,
    /// The tables that are declared, and how many at most by one transaction.
    tables: Vec<usize>,
    most_declared: usize,
    /// Of a hundred declared tables, how many are for writing.
    writers: usize,
    /// Rows are drawn from `first_row` on, so many of them.
    first_row: u32,
    rows: u32,
    /// How often each replica works, against the others.
    speeds: [usize; REPLICAS],
    /// How often writes, reads, releases, commits, aborts and steps are tried.
    weights: [usize; 6],
}

impl Temper {
    fn new(rng: &mut Rng) -> Self {
        let tables = match rng.below(4) {
            0 => vec![rng.below(TABLES)],
            1 => vec![rng.below(TABLES), rng.below(TABLES)],
            _ => (0..TABLES).collect(),
        };
        let rows = rng.pick(&[1, 2, 4, 16, ROWS, ROWS]);
        Temper {
            calls_left: rng.between(20, 400),
            crowd: rng.pick(&[1, 2, 3, 5, 8, 12, MOST_UNFINISHED]),
            most_declared: rng.pick(&[1, 2, 3, TABLES]),
            tables,
            writers: rng.pick(&[15, 40, 60, 85]),
            first_row: rng.number(ROWS),
            rows,
            speeds: rng.pick(&[
                [1, 1, 1],
                [1, 1, 1],
                [6, 3, 1],
                [1, 3, 6],
                [1, 9, 1],
                [0, 2, 1],
                [2, 0, 1],
                [1, 2, 0],
                [0, 0, 1],
                [1, 0, 0],
            ]),
            weights: rng.pick(&[
                // writes, reads, releases, commits, aborts, steps
                [20, 12, 2, 6, 2, 60],
                [40, 5, 1, 5, 1, 30],
                [10, 50, 1, 4, 1, 40],
                [12, 8, 12, 6, 2, 60],
                [40, 8, 0, 1, 8, 60],
                [5, 3, 1, 8, 3, 90],
            ]),
        }
    }

    fn row(&self, rng: &mut Rng) -> u32 {
        (self.first_row + rng.number(self.rows)) % ROWS
    }
}

/// How many of the rows written last are kept in mind.
const REMEMBERED: usize = 64;

/// Writes a sheet call by call, and knows how the machine stands.
struct Composer {
    rng: Rng,
    model: Model,
    sheet: Vec<u8>,
    limit: usize,
    temper: Temper,
    /// The rows written last, to be read.
    written: Vec<(u32, u32)>,
}

impl Composer {
    fn new(mut rng: Rng, limit: usize) -> Self {
        let temper = Temper::new(&mut rng);
        Composer {
            rng,
            model: Model::default(),
            sheet: NAMES.to_vec(),
            limit,
            temper,
            written: Vec::new(),
        }
    }

    fn has_room(&self) -> bool {
        self.sheet.len() + LONGEST_LINE <= self.limit
    }

    /// Adds a call to the sheet if there is room.
    fn call(&mut self, call: Call) {
        if self.has_room() {
            self.sheet.extend(line_of(&call.fields()));
            if self.model.accepts(&call) {
                self.model.make(&call);
                self.remember(call);
            }
        }
    }

    fn remember(&mut self, call: Call) {
        if let Call::Write { table, row, .. } = call {
            if self.written.len() == REMEMBERED {
                self.written.remove(0);
            }
            self.written.push((table, row));
        }
    }

    /// Adds one call that fits the state, by the temper.
    fn act(&mut self) {
        if self.temper.calls_left == 0 {
            self.temper = Temper::new(&mut self.rng);
        }
        self.temper.calls_left -= 1;
        let call = (0..8)
            .find_map(|_| self.try_call())
            .unwrap_or_else(|| self.sure_call());
        self.call(call);
    }

    fn try_call(&mut self) -> Option<Call> {
        if self.rng.chance(2) {
            return self.slip();
        }
        let unfinished = self.model.unfinished.len();
        if unfinished < self.temper.crowd && self.rng.chance(30) {
            return Some(self.begin());
        }
        match self.rng.weighted(&self.temper.weights) {
            0 => self.write(),
            1 => self.read(),
            2 => self.release(),
            3 => self.end(Call::commit),
            4 => self.end(Call::abort),
            _ => self.step(),
        }
    }

    /// A call that is accepted whatever the state.
    fn sure_call(&mut self) -> Call {
        if self.model.unfinished.len() < MOST_UNFINISHED && self.rng.chance(50) {
            return self.begin();
        }
        let open: Vec<u32> = self.model.open().map(|open| open.number).collect();
        if let Some(number) = self.rng.any(&open) {
            return Call::Commit { number };
        }
        match self.runnable(|_| true).first() {
            Some(&call) => call,
            None => self.begin(),
        }
    }

    /// A call that is accepted or not, as it comes.
    fn slip(&mut self) -> Option<Call> {
        let numbers: Vec<u32> = self.model.unfinished.iter().map(|one| one.number).collect();
        let number = self.rng.any(&numbers)?;
        Some(match self.rng.below(4) {
            0 => self.begin(),
            1 => {
                let held = self.model.find(number)?.held();
                let table = self.rng.any(&held)?;
                let row = self.read_row(table);
                Call::Read { number, table, row }
            }
            _ => Call::Step {
                number,
                replica: self.rng.number(REPLICAS as u32),
            },
        })
    }

    fn begin(&mut self) -> Call {
        let mut modes = [Mode::None; TABLES];
        for _ in 0..self.rng.between(1, self.temper.most_declared) {
            let table = self.rng.pick(&self.temper.tables);
            modes[table] = if self.rng.chance(self.temper.writers) {
                Mode::Write
            } else {
                Mode::Read
            };
        }
        Call::Begin { modes }
    }

    fn write(&mut self) -> Option<Call> {
        let writers: Vec<u32> = self
            .model
            .open()
            .filter(|one| one.writes < MOST_WRITES && !one.writable().is_empty())
            .map(|one| one.number)
            .collect();
        let number = self.rng.any(&writers)?;
        self.write_by(number)
    }

    fn write_by(&mut self, number: u32) -> Option<Call> {
        let transaction = self.model.find(number)?;
        let tables = transaction.writable();
        let own: Vec<(u32, u32)> = transaction
            .own
            .iter()
            .copied()
            .filter(|(table, _)| tables.contains(table))
            .collect();
        let again = self.rng.chance(35);
        let (table, row) = match self.rng.any(&own) {
            Some(place) if again => place,
            _ => (self.rng.any(&tables)?, self.temper.row(&mut self.rng)),
        };
        let class = self.rng.number(CLASSES);
        Some(self.write_at(number, table, row, class))
    }

    /// A write of any row.
    fn write_at(&mut self, number: u32, table: u32, row: u32, class: u32) -> Call {
        Call::Write {
            number,
            table,
            row,
            high: self.rng.value(),
            low: self.rng.value(),
            class,
        }
    }

    fn read(&mut self) -> Option<Call> {
        let readable: Vec<(u32, u32)> = self
            .model
            .open()
            .flat_map(|one| one.held().into_iter().map(move |table| (one, table)))
            .filter(|&(one, table)| self.model.can_read(one, table as usize))
            .map(|(one, table)| (one.number, table))
            .collect();
        let (number, table) = self.rng.any(&readable)?;
        let row = self.read_row(table);
        Some(Call::Read { number, table, row })
    }

    /// A row of the table, mostly one that was written.
    fn read_row(&mut self, table: u32) -> u32 {
        let rows: Vec<u32> = self
            .written
            .iter()
            .filter(|&&(to, _)| to == table)
            .map(|&(_, row)| row)
            .collect();
        match self.rng.any(&rows) {
            Some(row) if self.rng.chance(80) => row,
            _ => self.rng.number(ROWS),
        }
    }

    fn release(&mut self) -> Option<Call> {
        let open: Vec<u32> = self.model.open().map(|one| one.number).collect();
        let number = self.rng.any(&open)?;
        let held = self.model.find(number)?.held();
        let table = self.rng.any(&held)?;
        Some(Call::Release { number, table })
    }

    fn end(&mut self, call: fn(u32) -> Call) -> Option<Call> {
        let calls: Vec<Call> = self
            .model
            .open()
            .map(|one| call(one.number))
            .filter(|call| self.model.accepts(call))
            .collect();
        self.rng.any(&calls)
    }

    fn step(&mut self) -> Option<Call> {
        let replica = self.rng.weighted(&self.temper.speeds);
        let steps = self.runnable(|at| at == replica);
        if self.rng.chance(50) {
            steps.first().copied()
        } else {
            self.rng.any(&steps)
        }
    }

    /// The steps that are accepted at some replicas, of the oldest first.
    fn runnable(&self, wanted: impl Fn(usize) -> bool) -> Vec<Call> {
        let mut steps = Vec::new();
        for transaction in &self.model.unfinished {
            for replica in (0..REPLICAS).filter(|&replica| wanted(replica)) {
                if self.model.can_step(transaction, replica) {
                    steps.push(Call::Step {
                        number: transaction.number,
                        replica: replica as u32,
                    });
                }
            }
        }
        steps
    }

    /// Ends every transaction and steps every replica until nothing waits.
    fn settle(&mut self) {
        while self.has_room() && !self.model.unfinished.is_empty() {
            let next = self
                .end(Call::commit)
                .or_else(|| self.runnable(|_| true).first().copied());
            match next {
                Some(call) => self.call(call),
                None => return,
            }
        }
    }

    /// Reads rows of seven tables from each replica in turn. A write to the
    /// eighth waits where another replica is to answer.
    fn audit(&mut self) {
        self.settle();
        let weight_table = self.rng.below(TABLES);
        let weight = self.model.begun;
        let reader = weight + 1;
        let mut weight_modes = [Mode::None; TABLES];
        weight_modes[weight_table] = Mode::Write;
        let mut modes = [Mode::Read; TABLES];
        modes[weight_table] = Mode::None;
        self.call(Call::Begin {
            modes: weight_modes,
        });
        self.call(Call::Begin { modes });
        if let Some(call) = self.write_by(weight) {
            self.call(call);
        }
        let places = self.places_to_audit(weight_table as u32);
        for replica in (0..REPLICAS as u32).rev() {
            self.call(Call::Step {
                number: weight,
                replica,
            });
            for &(table, row) in &places {
                self.call(Call::Read {
                    number: reader,
                    table,
                    row,
                });
            }
        }
        self.call(Call::Commit { number: reader });
        self.call(Call::Commit { number: weight });
    }

    /// Lets two transactions ask operations of about the same cost, has each
    /// of them wait at a replica of its own, and reads: the least load answers.
    fn duel(&mut self) {
        self.settle();
        let mut tables: Vec<usize> = (0..TABLES).collect();
        self.rng.shuffle(&mut tables);
        let mut replicas: Vec<u32> = (0..REPLICAS as u32).collect();
        self.rng.shuffle(&mut replicas);

        let parties = [self.model.begun, self.model.begun + 1];
        let reader = self.model.begun + 2;
        let cost = self.rng.between(1, 60) as u32;
        for own_tables in [&tables[..3], &tables[3..6]] {
            let mut modes = [Mode::None; TABLES];
            for &table in own_tables {
                modes[table] = Mode::Read;
            }
            modes[own_tables[0]] = Mode::Write;
            self.call(Call::Begin { modes });
        }
        let mut modes = [Mode::None; TABLES];
        modes[tables[6]] = Mode::Read;
        self.call(Call::Begin { modes });

        self.ask_for_cost(parties[0], cost);
        let difference = self.rng.pick(&[0, 0, 1]);
        self.ask_for_cost(parties[1], cost + difference);
        for (number, &replica) in parties.into_iter().zip(&replicas) {
            while self.step_if_accepted(number, replica) {}
        }
        for _ in 0..self.rng.between(1, 12) {
            let row = self.rng.number(ROWS);
            self.call(Call::Read {
                number: reader,
                table: tables[6] as u32,
                row,
            });
            let number = self.rng.pick(&parties);
            let replica = self.rng.number(REPLICAS as u32);
            self.step_if_accepted(number, replica);
        }
        self.call(Call::Commit { number: reader });
    }

    /// Asks writes, releases and perhaps a commit that cost so much together.
    fn ask_for_cost(&mut self, number: u32, mut cost: u32) {
        while self.has_room() && cost > 0 {
            let Some(transaction) = self.model.find(number) else {
                return;
            };
            let writes_left = transaction.writes < MOST_WRITES;
            let releasable = transaction
                .tables(|at| transaction.holds(at) && transaction.modes[at] == Mode::Read);
            let classes: Vec<u32> = (0..CLASSES)
                .filter(|&class| COSTS[class as usize] <= cost)
                .collect();
            let tables = transaction.writable();
            match (self.rng.any(&releasable), self.rng.any(&classes)) {
                (Some(table), _) if self.rng.chance(40) => {
                    self.call(Call::Release { number, table });
                    cost -= 1;
                }
                (_, Some(class)) if writes_left && (cost > 1 || self.rng.chance(50)) => {
                    let table = self.rng.pick(&tables);
                    let row = self.rng.number(ROWS);
                    let write = self.write_at(number, table, row, class);
                    self.call(write);
                    cost -= COSTS[class as usize];
                }
                _ => {
                    self.call(Call::Commit { number });
                    return;
                }
            }
        }
    }

    fn step_if_accepted(&mut self, number: u32, replica: u32) -> bool {
        let step = Call::Step { number, replica };
        let accepted = self.has_room() && self.model.accepts(&step);
        if accepted {
            self.call(step);
        }
        accepted
    }

    fn places_to_audit(&mut self, except: u32) -> Vec<(u32, u32)> {
        let tables: Vec<u32> = (0..TABLES as u32)
            .filter(|&table| table != except)
            .collect();
        match self.rng.below(5) {
            0 => tables
                .iter()
                .flat_map(|&table| (0..ROWS).map(move |row| (table, row)))
                .collect(),
            1 => {
                let table = self.rng.pick(&tables);
                (0..ROWS).map(|row| (table, row)).collect()
            }
            _ => {
                let mut places = self.written.clone();
                places.retain(|&(table, _)| table != except);
                places.sort_unstable();
                places.dedup();
                places
            }
        }
    }
}

impl Call {
    fn commit(number: u32) -> Call {
        Call::Commit { number }
    }

    fn abort(number: u32) -> Call {
        Call::Abort { number }
    }
}

fn lively(rng: Rng, limit: usize) -> Composer {
    let mut composer = Composer::new(rng, limit);
    let scenes = composer.rng.below(4);
    for scene in 0..scenes {
        let until = limit / (scenes + 1) * (scene + 1);
        while composer.has_room() && composer.sheet.len() < until {
            composer.act();
        }
        if composer.rng.chance(50) {
            composer.audit();
        } else {
            for _ in 0..composer.rng.between(1, 4) {
                composer.duel();
            }
        }
    }
    while composer.has_room() {
        composer.act();
    }
    composer
}

// ---------------------------------------------------------- refused calls

/// The refusals that a call of a sheet can meet, but 5.
const GOALS: [u8; 15] = [1, 3, 4, 6, 7, 8, 9, 10, 11, 12, 13, 14, 15, 16, 17];

/// How many calls are made to get where a refusal can be met.
const PATIENCE: usize = 60;

fn refusals(mut rng: Rng) -> Vec<u8> {
    let limit = any_size(&mut rng);
    let mut composer = Composer::new(rng, limit);
    let mut goal = None;
    while composer.has_room() {
        match goal {
            None if composer.rng.chance(12) => {
                let call = composer.wild_call();
                composer.call(call);
            }
            None if composer.rng.chance(65) => {
                goal = Some((composer.rng.pick(&GOALS), PATIENCE));
            }
            None | Some((_, 0)) => {
                composer.act();
                goal = None;
            }
            Some((refusal, patience)) => {
                if let Some(call) = composer.provoke(refusal) {
                    composer.call(call);
                    goal = None;
                } else {
                    match composer.prepare(refusal) {
                        Some(call) => composer.call(call),
                        None => composer.act(),
                    }
                    goal = Some((refusal, patience - 1));
                }
            }
        }
    }
    composer.sheet
}

impl Composer {
    /// Any call, with numbers in and out of range.
    fn wild_call(&mut self) -> Call {
        let number = self.wild(self.model.begun);
        let table = self.wild(TABLES as u32);
        let row = self.wild(ROWS);
        match self.rng.below(10) {
            0 => {
                let mut modes = [Mode::None; TABLES];
                for mode in &mut modes {
                    *mode = self.rng.pick(&[Mode::None, Mode::Read, Mode::Write]);
                }
                Call::Begin { modes }
            }
            1 | 2 => {
                let class = self.wild(CLASSES);
                self.write_at(number, table, row, class)
            }
            3 | 4 => Call::Read { number, table, row },
            5 => Call::Release { number, table },
            6 => Call::Commit { number },
            7 => Call::Abort { number },
            _ => Call::Step {
                number,
                replica: self.wild(REPLICAS as u32),
            },
        }
    }

    /// A number mostly below the bound, and mostly one of the last below it.
    fn wild(&mut self, bound: u32) -> u32 {
        match self.rng.below(12) {
            0 => self.beyond(bound),
            1..=5 => bound.saturating_sub(1 + self.rng.number(4)),
            _ => self.rng.number(bound.max(1)),
        }
    }

    /// A number not below the bound.
    fn beyond(&mut self, bound: u32) -> u32 {
        match self.rng.below(4) {
            0 => bound,
            1 => bound + self.rng.number(10),
            2 => u32::MAX - self.rng.number(2),
            _ => bound + self.rng.number(u32::MAX - bound),
        }
    }

    fn open_numbers(&self, wanted: impl Fn(&Transaction) -> bool) -> Vec<u32> {
        self.model
            .open()
            .filter(|one| wanted(one))
            .map(|one| one.number)
            .collect()
    }

    /// A table in or out of range, with no thought for the transaction.
    fn any_table(&mut self) -> u32 {
        self.wild(TABLES as u32)
    }

    /// A write, a read or a release at a table, or a write or a read where it
    /// has to have a row; other numbers in and out of range.
    fn at_table(&mut self, number: u32, table: u32, row: Option<u32>) -> Call {
        let forms = if row.is_some() { 2 } else { 3 };
        let wild_row = self.wild(ROWS);
        let row = row.unwrap_or(wild_row);
        match self.rng.below(forms) {
            0 => {
                let class = self.wild(CLASSES);
                self.write_at(number, table, row, class)
            }
            1 => Call::Read { number, table, row },
            _ => Call::Release { number, table },
        }
    }

    /// Any call but a begin or a step for a transaction.
    fn by_client(&mut self, number: u32) -> Call {
        match self.rng.below(5) {
            0 => Call::Commit { number },
            1 => Call::Abort { number },
            _ => {
                let table = self.any_table();
                self.at_table(number, table, None)
            }
        }
    }

    /// A call that meets the refusal, if the state has one.
    fn provoke(&mut self, refusal: u8) -> Option<Call> {
        let row = self.temper.row(&mut self.rng);
        match refusal {
            1 => {
                let open = self.open_numbers(|_| true);
                let number = self.rng.any(&open)?;
                let table = self.beyond(TABLES as u32);
                Some(self.at_table(number, table, None))
            }
            3 => Some(Call::Begin {
                modes: [Mode::None; TABLES],
            }),
            4 => (self.model.unfinished.len() == MOST_UNFINISHED).then(|| self.begin()),
            6 => {
                let number = self.beyond(self.model.begun);
                Some(match self.rng.below(3) {
                    0 => Call::Step {
                        number,
                        replica: self.rng.number(REPLICAS as u32),
                    },
                    _ => self.by_client(number),
                })
            }
            7 => {
                let ended: Vec<u32> = (0..self.model.begun)
                    .rev()
                    .filter(|&number| self.model.find(number).is_none_or(|one| !one.open))
                    .take(20)
                    .collect();
                let number = self.rng.any(&ended)?;
                Some(self.by_client(number))
            }
            8 => {
                let open = self.open_numbers(|_| true);
                let number = self.rng.any(&open)?;
                let table = self.rng.number(TABLES as u32);
                let row = self.beyond(ROWS);
                Some(self.at_table(number, table, Some(row)))
            }
            9 => {
                let open = self.open_numbers(|_| true);
                let number = self.rng.any(&open)?;
                let table = self.rng.number(TABLES as u32);
                let class = self.beyond(CLASSES);
                Some(self.write_at(number, table, row, class))
            }
            10 => self.provoke_not_declared(row),
            11 => self.provoke_released(row),
            12 => {
                let full = self
                    .open_numbers(|one| one.writes == MOST_WRITES && !one.writable().is_empty());
                let number = self.rng.any(&full)?;
                self.write_by(number)
            }
            13 => {
                let unreadable: Vec<(u32, u32)> = self
                    .model
                    .open()
                    .flat_map(|one| one.held().into_iter().map(move |table| (one, table)))
                    .filter(|&(one, table)| !self.model.can_read(one, table as usize))
                    .map(|(one, table)| (one.number, table))
                    .collect();
                let (number, table) = self.rng.any(&unreadable)?;
                Some(Call::Read { number, table, row })
            }
            14 => {
                let released = self.open_numbers(Transaction::past_recall);
                self.rng.any(&released).map(Call::abort)
            }
            15 => Some(Call::Step {
                number: self.wild(self.model.begun),
                replica: self.beyond(REPLICAS as u32),
            }),
            16 | 17 => self.provoke_step(refusal),
            _ => None,
        }
    }

    fn provoke_not_declared(&mut self, row: u32) -> Option<Call> {
        let open = self.open_numbers(|_| true);
        let number = self.rng.any(&open)?;
        let transaction = self.model.find(number)?;
        let undeclared = transaction.tables(|table| transaction.modes[table] == Mode::None);
        let only_read = transaction.tables(|table| transaction.modes[table] == Mode::Read);
        if self.rng.chance(50) {
            let table = self.rng.any(&only_read)?;
            let class = self.rng.number(CLASSES);
            return Some(self.write_at(number, table, row, class));
        }
        let table = self.rng.any(&undeclared)?;
        Some(self.at_table(number, table, None))
    }

    fn provoke_released(&mut self, row: u32) -> Option<Call> {
        let released: Vec<(u32, u32)> = self
            .model
            .open()
            .flat_map(|one| {
                let tables = one.tables(|table| one.released[table]);
                tables.into_iter().map(move |table| (one.number, table))
            })
            .collect();
        let (number, table) = self.rng.any(&released)?;
        if self.rng.chance(30) {
            return Some(Call::Release { number, table });
        }
        Some(self.at_table(number, table, Some(row)))
    }

    /// A step with nothing to execute (16), or one that is held back (17).
    fn provoke_step(&mut self, refusal: u8) -> Option<Call> {
        if refusal == 16 && self.rng.chance(20) {
            let finished = self.rng.number(self.model.begun.max(1));
            if finished < self.model.begun && self.model.find(finished).is_none() {
                return Some(Call::Step {
                    number: finished,
                    replica: self.rng.number(REPLICAS as u32),
                });
            }
        }
        let mut steps = Vec::new();
        for transaction in &self.model.unfinished {
            for replica in 0..REPLICAS {
                let waits = !transaction.waiting(replica).is_empty();
                let held_back = waits && !self.model.can_step(transaction, replica);
                if (refusal == 16 && !waits) || (refusal == 17 && held_back) {
                    steps.push(Call::Step {
                        number: transaction.number,
                        replica: replica as u32,
                    });
                }
            }
        }
        self.rng.any(&steps)
    }

    /// An accepted call that leads to where the refusal can be met.
    fn prepare(&mut self, refusal: u8) -> Option<Call> {
        match refusal {
            4 => Some(self.begin()),
            7 => self.end(Call::commit),
            11 => self.release(),
            12 => {
                let busiest = self
                    .model
                    .open()
                    .filter(|one| one.writes < MOST_WRITES && !one.writable().is_empty())
                    .max_by_key(|one| one.writes)
                    .map(|one| one.number)?;
                self.write_by(busiest)
            }
            14 => {
                let writing = self.open_numbers(|one| !one.writable().is_empty());
                let number = self.rng.any(&writing)?;
                let tables = self.model.find(number)?.writable();
                let table = self.rng.any(&tables)?;
                Some(Call::Release { number, table })
            }
            _ => None,
        }
    }
}

// ------------------------------------------------------- breaks of the format

/// Fields that are no numbers, though some look like one.
const NO_NUMBERS: [&[u8]; 22] = [
    b"",
    b" ",
    b"00",
    b"01",
    b"007",
    b"0000000000",
    b"+1",
    b"-1",
    b" 1",
    b"1 ",
    b"0x1",
    b"1.0",
    b"1e3",
    b"1_000",
    b"\"1\"",
    b"1\t",
    b"x",
    b"1x",
    b"1\0",
    b"\xd9\xa1",
    b"\xef\xbc\x91",
    b"\xff",
];

/// Digits at the bounds of a number's size.
const BOUNDS: [&[u8]; 14] = [
    b"0",
    b"4294967294",
    b"4294967295",
    b"4294967296",
    b"4294967297",
    b"9999999999",
    b"18446744073709551614",
    b"18446744073709551615",
    b"18446744073709551616",
    b"18446744073709551625",
    b"18446744073709551715",
    b"20000000000000000000",
    b"99999999999999999999",
    b"340282366920938463463374607431768211456",
];

const NO_WORDS: [&[u8]; 20] = [
    b"",
    b" ",
    b"Begin",
    b"BEGIN",
    b"begin ",
    b" begin",
    b"begi",
    b"beginn",
    b"writ",
    b"write\0",
    b"Read",
    b"reads",
    b"releas",
    b"\"commit\"",
    b"commit\t",
    b"abort\r",
    b"stepp",
    b"call",
    b"17",
    b"\xffstep",
];

const NO_LETTERS: [&[u8]; 18] = [
    b"",
    b"n",
    b"nnwnnnn",
    b"wwwwwww",
    b"nnwnnnnnn",
    b"rrrrrrrrr",
    b"nnWnnnnn",
    b"NNNNNNNN",
    b"nnxnnnnn",
    b"nn nnnnn",
    b"nnwnnnn ",
    b" nwnnnnn",
    b"nnwnnnn\r",
    b"nnwnnnn\0",
    b"12345678",
    b"nnnnnnn\xff",
    b"rw",
    b"nnwnnnnnnnwnnnnn",
];

/// Starts of a sheet that are not the line of names.
const NO_NAMES: [&[u8]; 16] = [
    b"",
    b"\n",
    b"call",
    b"call,number,place,row,high,low,class",
    b"call,number,place,row,high,low,class\r\n",
    b"call,number,place,row,high,low,class,\n",
    b"call,number,place,row,high,low\n",
    b"call,number,place,row,high,low,Class\n",
    b"call, number, place, row, high, low, class\n",
    b"\xef\xbb\xbfcall,number,place,row,high,low,class\n",
    b" call,number,place,row,high,low,class\n",
    b"\ncall,number,place,row,high,low,class\n",
    b"call,number,place,row,low,high,class\n",
    b"call;number;place;row;high;low;class\n",
    b"call,number,place,row,high,low,clas\n",
    b"call,number,place,row,high,low,classes\n",
];

const JUNK: [&[u8]; 10] = [
    b"0",
    b"1",
    b"00",
    b" ",
    b"x",
    b"n",
    b"nnnnnnnn",
    b"\0",
    b"\r",
    b"-",
];

fn format_breaks(mut rng: Rng) -> Vec<u8> {
    let limit = any_size(&mut rng);
    if rng.chance(25) {
        return bad_names(rng, limit);
    }
    let breaks = rng.pick(&[10, 50, 90]);
    let mut composer = Composer::new(rng, limit);
    while composer.has_room() {
        if composer.rng.chance(breaks) {
            let line = composer.broken_line();
            if composer.sheet.len() + line.len() <= composer.limit {
                composer.sheet.extend(line);
            }
        } else {
            composer.act();
        }
    }
    if composer.rng.chance(30) && composer.sheet.len() > NAMES.len() {
        composer.sheet.pop();
    }
    composer.sheet
}

fn bad_names(mut rng: Rng, limit: usize) -> Vec<u8> {
    if rng.chance(30) {
        return Vec::new();
    }
    let mut sheet = rng.pick(&NO_NAMES).to_vec();
    if rng.chance(70) {
        let rest = lively(rng, limit.saturating_sub(sheet.len())).sheet;
        sheet.extend(&rest[NAMES.len()..]);
    }
    sheet
}

impl Composer {
    fn broken_line(&mut self) -> Vec<u8> {
        let call = if self.rng.chance(60) {
            self.wild_call()
        } else {
            (0..8)
                .find_map(|_| self.try_call())
                .unwrap_or_else(|| self.sure_call())
        };
        let mut fields = call.fields();
        let mut line = match self.rng.below(12) {
            0 => {
                let gone = self.rng.below(fields.len());
                fields.remove(gone);
                line_of(&fields)
            }
            1 => {
                let at = self.rng.below(fields.len() + 1);
                let more = self.rng.pick(&JUNK[..3]).to_vec();
                fields.insert(
                    at,
                    if self.rng.chance(50) {
                        Vec::new()
                    } else {
                        more
                    },
                );
                line_of(&fields)
            }
            2 => {
                let mut line = vec![b','; self.rng.below(12)];
                line.push(b'\n');
                line
            }
            3 => {
                let mut line = line_of(&fields);
                let at = self.rng.below(line.len());
                line.insert(at, self.rng.pick(b"\r\n\0\t \",;\x80\xff"));
                line
            }
            4 => {
                let at = self.rng.below(fields.len());
                let long = self.rng.between(1, 300);
                let byte = self.rng.pick(b"019xn,");
                fields[at].extend(vec![byte; long]);
                line_of(&fields)
            }
            5 => self.rng.pick(&[NAMES, b"\n", b"\r\n", b"x\n"]).to_vec(),
            _ => {
                for _ in 0..self.rng.pick(&[1, 1, 1, 2, 3]) {
                    self.break_field(&mut fields);
                }
                line_of(&fields)
            }
        };
        if self.rng.chance(5) {
            let end = line.len() - 1;
            line.insert(end, b'\r');
        }
        line
    }

    fn break_field(&mut self, fields: &mut [Vec<u8>]) {
        let used: Vec<usize> = (1..fields.len())
            .filter(|&at| !fields[at].is_empty())
            .collect();
        let unused: Vec<usize> = (1..fields.len())
            .filter(|&at| fields[at].is_empty())
            .collect();
        let used = self.rng.any(&used);
        let unused = self.rng.any(&unused);
        let begins = fields[0] == b"begin";
        match (self.rng.below(6), used, unused) {
            (0, _, _) => fields[0] = self.rng.pick(&NO_WORDS).to_vec(),
            (1 | 2, _, Some(unused)) => fields[unused] = self.rng.pick(&JUNK).to_vec(),
            (_, Some(_), _) if begins => fields[2] = self.rng.pick(&NO_LETTERS).to_vec(),
            (3, Some(used), _) => fields[used].insert(0, b'0'),
            (4, Some(used), _) => fields[used] = self.rng.pick(&BOUNDS).to_vec(),
            (_, Some(used), _) => fields[used] = self.rng.pick(&NO_NUMBERS).to_vec(),
            (_, None, _) => {}
        }
    }
}

// ------------------------------------------------------------- damaged sheets

fn damaged(mut rng: Rng) -> Vec<u8> {
    let limit = any_size(&mut rng);
    let Composer {
        mut rng, mut sheet, ..
    } = lively(rng, limit);
    // A begin that is damaged early leaves most of the later calls unknown.
    let start = match rng.below(8) {
        0 => 0,
        1..=3 => NAMES.len(),
        _ => rng.between(NAMES.len(), sheet.len()),
    };
    let times = rng.pick(&[1, 2, 5, 20, 100]);
    for _ in 0..times {
        damage(&mut rng, &mut sheet, start);
    }
    sheet
}

/// Damages the sheet somewhere behind `start`.
fn damage(rng: &mut Rng, sheet: &mut Vec<u8>, start: usize) {
    if sheet.len() <= start {
        return;
    }
    let at = rng.between(start, sheet.len() - 1);
    let most = (sheet.len() - at).min(rng.pick(&[1, 1, 4, 40]));
    let range = at..at + rng.between(1, most);
    match rng.below(12) {
        0 => sheet[at] = rng.next() as u8,
        1 => sheet[at] = rng.pick(b"0123456789"),
        2 => sheet[at] = rng.pick(b",\n\rnrwx "),
        3 => sheet[at] ^= 1 << rng.below(8),
        4 => drop(sheet.drain(range)),
        5 => {
            let twice = sheet[range.clone()].to_vec();
            sheet.splice(at..at, twice);
        }
        6 => {
            let other = rng.between(start, sheet.len() - 1);
            sheet.swap(at, other);
        }
        7 if at + 1 < sheet.len() => sheet.swap(at, at + 1),
        8 if rng.chance(10) => sheet.truncate(at),
        9 => {
            let moved: Vec<u8> = sheet.drain(range).collect();
            let to = rng.between(start, sheet.len());
            sheet.splice(to..to, moved);
        }
        _ => damage_lines(rng, sheet, start),
    }
}

/// Doubles, drops or swaps whole lines.
fn damage_lines(rng: &mut Rng, sheet: &mut Vec<u8>, start: usize) {
    let mut lines: Vec<Vec<u8>> = sheet[start..]
        .split_inclusive(|&byte| byte == b'\n')
        .map(<[u8]>::to_vec)
        .collect();
    let at = rng.below(lines.len());
    let other = rng.below(lines.len());
    match rng.below(3) {
        0 => lines.swap(at, other),
        1 => lines.insert(at, lines[other].clone()),
        _ => drop(lines.remove(at)),
    }
    sheet.truncate(start);
    sheet.extend(lines.concat());
}

// ---------------------------------------------------------------- full sheets

fn full(mut rng: Rng) -> Vec<u8> {
    let size = match rng.below(10) {
        0..=3 => MOST_BYTES,
        4..=6 => MOST_BYTES + 1,
        7 => MOST_BYTES - rng.between(1, 3),
        8 => MOST_BYTES + rng.between(2, 5),
        _ => rng.between(MOST_BYTES + 6, 2 * MOST_BYTES),
    };
    let mut sheet = match rng.below(8) {
        0 => NAMES.to_vec(),
        1 => {
            let mut sheet = refusals(Rng::new(rng.next()));
            sheet.truncate(size);
            sheet
        }
        _ => lively(Rng::new(rng.next()), size).sheet,
    };
    fill(&mut rng, &mut sheet, size);
    sheet
}

/// Fills the sheet up to its size with lines that are refused as they are read.
fn fill(rng: &mut Rng, sheet: &mut Vec<u8>, size: usize) {
    let missing = size - sheet.len();
    let feed = if rng.chance(70) { b'\n' } else { b'x' };
    match rng.below(5) {
        0 => sheet.resize(size, b'\n'),
        1 => sheet.resize(size, b','),
        2 => sheet.resize(size, rng.next() as u8),
        3 if missing > 20 => {
            sheet.extend(b"commit,");
            sheet.resize(size - 6, b'0');
            sheet.extend(b",,,,,\n");
        }
        4 if missing > 20 => {
            sheet.extend(b"begin");
            sheet.resize(size - 7, b'n');
            sheet.extend(b",,,,,,\n");
        }
        _ => sheet.resize(size, b'x'),
    }
    if let Some(last) = sheet.last_mut() {
        *last = feed;
    }
}
