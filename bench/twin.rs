//! Runs a run sheet over three replicas of the backup catalogue.
//!
//! The sheet comes from standard input; for each of its lines behind the names
//! one line is printed. This is a second implementation of `sheetrun`, written
//! from its documents alone, to be compared with the first.
//!
//! Build: `rustc -O --edition 2021 twin.rs -o twin`

use std::array;
use std::fmt::{self, Write as _};
use std::io::{self, Read as _, Write as _};

const TABLES: usize = 8;
const ROWS: usize = 64;
const PLACES: usize = TABLES * ROWS;
const REPLICAS: usize = 3;

const MOST_UNFINISHED: usize = 16;
const MOST_BEGUN: u32 = 1_000_000;
const MOST_WRITES: usize = 16;
const MOST_BYTES: usize = 65_536;

/// The costs of a write, by its class.
const COSTS: [u32; 8] = [1, 2, 3, 5, 8, 13, 21, 34];
/// The cost of every operation that is no write.
const PLAIN_COST: u32 = 1;

fn main() -> io::Result<()> {
    let mut sheet = Vec::with_capacity(MOST_BYTES + 1);
    io::stdin()
        .lock()
        .take(MOST_BYTES as u64 + 1)
        .read_to_end(&mut sheet)?;
    let report = run_sheet(&sheet).map_err(io::Error::other)?;
    io::stdout().lock().write_all(report.as_bytes())
}

// ---------------------------------------------------------------- refusals

/// Why a call, a line or a whole sheet is refused.
#[derive(Clone, Copy, Debug, PartialEq, Eq)]
enum Refusal {
    TableOutOfRange = 1,
    NothingDeclared = 3,
    TooManyUnfinished = 4,
    TooManyBegun = 5,
    UnknownTransaction = 6,
    NotOpen = 7,
    RowOutOfRange = 8,
    ClassOutOfRange = 9,
    NotDeclared = 10,
    AlreadyReleased = 11,
    TooManyWrites = 12,
    NoReplicaQualifies = 13,
    PastRecall = 14,
    UnknownReplica = 15,
    NothingWaits = 16,
    HeldBack = 17,
    BadNames = 21,
    BadLine = 22,
    UnknownCall = 23,
    BadField = 24,
    SheetTooLong = 25,
}

impl fmt::Display for Refusal {
    fn fmt(&self, f: &mut fmt::Formatter<'_>) -> fmt::Result {
        (*self as u8).fmt(f)
    }
}

type Checked<T> = Result<T, Refusal>;

/// Accepts where `holds`, else answers `refusal`.
fn check(holds: bool, refusal: Refusal) -> Checked<()> {
    if holds {
        Ok(())
    } else {
        Err(refusal)
    }
}

// ------------------------------------------------------------ rows, places

#[derive(Clone, Copy, Debug, Default, PartialEq, Eq)]
struct Row {
    high: u64,
    low: u64,
}

/// The number of a table, below `TABLES`.
#[derive(Clone, Copy, Debug, PartialEq, Eq)]
struct Table(usize);

impl Table {
    fn checked(number: u32) -> Checked<Self> {
        match usize::try_from(number) {
            Ok(table) if table < TABLES => Ok(Table(table)),
            _ => Err(Refusal::TableOutOfRange),
        }
    }
}

/// A row's place in the catalogue, below `PLACES`.
#[derive(Clone, Copy, Debug, PartialEq, Eq)]
struct Place(usize);

impl Place {
    fn new(table: Table, row: usize) -> Self {
        Place(table.0 * ROWS + row)
    }

    fn checked(table: u32, row: u32) -> Checked<Self> {
        let table = Table::checked(table)?;
        match usize::try_from(row) {
            Ok(row) if row < ROWS => Ok(Place::new(table, row)),
            _ => Err(Refusal::RowOutOfRange),
        }
    }

    fn table(self) -> Table {
        Table(self.0 / ROWS)
    }

    fn row(self) -> usize {
        self.0 % ROWS
    }
}

/// A set of tables.
#[derive(Clone, Copy, Debug, Default, PartialEq, Eq)]
struct TableSet(u8);

impl TableSet {
    fn of(table: Table) -> Self {
        TableSet(1 << table.0)
    }

    fn is_empty(self) -> bool {
        self.0 == 0
    }

    fn contains(self, table: Table) -> bool {
        !(self & TableSet::of(table)).is_empty()
    }

    fn insert(&mut self, table: Table) {
        self.0 |= TableSet::of(table).0;
    }

    fn without(self, other: TableSet) -> TableSet {
        TableSet(self.0 & !other.0)
    }

    fn iter(self) -> impl Iterator<Item = Table> {
        (0..TABLES)
            .map(Table)
            .filter(move |&table| self.contains(table))
    }
}

impl std::ops::BitAnd for TableSet {
    type Output = TableSet;

    fn bitand(self, other: TableSet) -> TableSet {
        TableSet(self.0 & other.0)
    }
}

// ------------------------------------------------------------------ stores

/// Keeps one catalogue of 512 rows.
trait Store {
    fn fetch(&self, place: Place) -> Row;
    fn put(&mut self, place: Place, row: Row);
}

type Memory = Box<[Row; PLACES]>;

fn blank_memory() -> Memory {
    Box::new([Row::default(); PLACES])
}

/// Lies in its memory row for row.
struct Image {
    memory: Memory,
}

impl Image {
    fn new(memory: Memory) -> Self {
        Image { memory }
    }
}

impl Store for Image {
    fn fetch(&self, place: Place) -> Row {
        self.memory[place.0]
    }

    fn put(&mut self, place: Place, row: Row) {
        self.memory[place.0] = row;
    }
}

/// Keeps the latest changes beside its memory.
struct ChangeList {
    memory: Memory,
    changes: Vec<(Place, Row)>,
}

impl ChangeList {
    const MOST_CHANGES: usize = 32;

    fn new(memory: Memory) -> Self {
        ChangeList {
            memory,
            changes: Vec::with_capacity(Self::MOST_CHANGES),
        }
    }

    /// Writes the changes into the memory, the oldest first.
    fn settle(&mut self) {
        for (place, row) in self.changes.drain(..) {
            self.memory[place.0] = row;
        }
    }
}

impl Store for ChangeList {
    fn fetch(&self, place: Place) -> Row {
        self.changes
            .iter()
            .rev()
            .find(|(changed, _)| *changed == place)
            .map_or(self.memory[place.0], |&(_, row)| row)
    }

    fn put(&mut self, place: Place, row: Row) {
        if self.changes.len() == Self::MOST_CHANGES {
            self.settle();
        }
        self.changes.push((place, row));
    }
}

/// Gives the tables other numbers in the store below.
struct Renumbering<S> {
    below: S,
    numbers: [Table; TABLES],
}

impl<S: Store> Renumbering<S> {
    /// Table t is 7 - t below.
    fn reversed(below: S) -> Self {
        Renumbering {
            below,
            numbers: array::from_fn(|table| Table(TABLES - 1 - table)),
        }
    }

    fn renumbered(&self, place: Place) -> Place {
        Place::new(self.numbers[place.table().0], place.row())
    }
}

impl<S: Store> Store for Renumbering<S> {
    fn fetch(&self, place: Place) -> Row {
        self.below.fetch(self.renumbered(place))
    }

    fn put(&mut self, place: Place, row: Row) {
        self.below.put(self.renumbered(place), row);
    }
}

const CACHE_LINES: usize = 16;

/// Keeps the latest put of each line above the store below.
struct Cache<S> {
    below: S,
    lines: [Option<(Place, Row)>; CACHE_LINES],
}

impl<S: Store> Cache<S> {
    fn new(below: S) -> Self {
        Cache {
            below,
            lines: [None; CACHE_LINES],
        }
    }
}

impl<S: Store> Store for Cache<S> {
    fn fetch(&self, place: Place) -> Row {
        match self.lines[place.0 % CACHE_LINES] {
            Some((kept, row)) if kept == place => row,
            _ => self.below.fetch(place),
        }
    }

    fn put(&mut self, place: Place, row: Row) {
        match self.lines[place.0 % CACHE_LINES].replace((place, row)) {
            Some((kept, old)) if kept != place => self.below.put(kept, old),
            _ => {}
        }
    }
}

// --------------------------------------------------------------- sequencer

#[derive(Clone, Copy, Debug, PartialEq, Eq)]
enum Mode {
    None,
    Read,
    Write,
}

type Modes = [Mode; TABLES];

/// A declared table's mode, with the number that the sequencer assigned.
#[derive(Clone, Copy, Debug)]
enum Claim {
    Read(u32),
    Write(u32),
}

impl Claim {
    /// Whether the turn has come where the table has this version.
    fn has_come(self, version: u32) -> bool {
        match self {
            Claim::Read(number) => version >= number,
            Claim::Write(number) => version == number,
        }
    }
}

type Claims = [Option<Claim>; TABLES];

#[derive(Clone, Copy, Default)]
struct Counters {
    next_for_read: u32,
    next_for_write: u32,
}

impl Counters {
    fn assign(&mut self, mode: Mode) -> Option<Claim> {
        let claim = match mode {
            Mode::None => return None,
            Mode::Read => Claim::Read(self.next_for_read),
            Mode::Write => Claim::Write(self.next_for_write),
        };
        self.next_for_write += 1;
        if mode == Mode::Write {
            self.next_for_read = self.next_for_write;
        }
        Some(claim)
    }
}

/// Turns the order of beginning into numbers.
#[derive(Default)]
struct Sequencer {
    begun: u32,
    counters: [Counters; TABLES],
}

impl Sequencer {
    /// Assigns the transaction's own number and those of its tables.
    fn begin(&mut self, modes: Modes) -> Checked<(u32, Claims)> {
        check(self.begun < MOST_BEGUN, Refusal::TooManyBegun)?;
        let number = self.begun;
        self.begun += 1;
        let claims = array::from_fn(|table| self.counters[table].assign(modes[table]));
        Ok((number, claims))
    }
}

// ------------------------------------------------------------ transactions

#[derive(Clone, Copy, Debug)]
enum Action {
    Write { place: Place, row: Row },
    Release,
    Commit,
    Abort,
}

/// What a transaction has asked, to be executed at each replica.
#[derive(Clone, Copy, Debug)]
struct Operation {
    action: Action,
    tables: TableSet,
    cost: u32,
}

impl Operation {
    fn writes_to(&self, table: Table) -> bool {
        matches!(self.action, Action::Write { place, .. } if place.table() == table)
    }
}

/// How far a replica is with a transaction.
#[derive(Default)]
struct Progress {
    executed: usize,
    /// The rows that its writes replaced there, those of the newest last.
    replaced: Vec<(Place, Row)>,
}

/// An unfinished transaction.
struct Transaction {
    number: u32,
    claims: Claims,
    released: TableSet,
    writes: usize,
    open: bool,
    operations: Vec<Operation>,
    progress: [Progress; REPLICAS],
}

impl Transaction {
    fn new(number: u32, claims: Claims) -> Self {
        Transaction {
            number,
            claims,
            released: TableSet::default(),
            writes: 0,
            open: true,
            operations: Vec::new(),
            progress: Default::default(),
        }
    }

    /// The claim at a table that is declared and not yet released.
    fn claim(&self, table: Table) -> Checked<Claim> {
        let claim = self.claims[table.0].ok_or(Refusal::NotDeclared)?;
        self.check_unreleased(table)?;
        Ok(claim)
    }

    fn check_writable(&self, table: Table) -> Checked<()> {
        let writable = matches!(self.claims[table.0], Some(Claim::Write(_)));
        check(writable, Refusal::NotDeclared)?;
        self.check_unreleased(table)
    }

    fn check_unreleased(&self, table: Table) -> Checked<()> {
        check(!self.released.contains(table), Refusal::AlreadyReleased)
    }

    /// The tables that pass `wanted`.
    fn tables(&self, wanted: impl Fn(Claim) -> bool) -> TableSet {
        let mut tables = TableSet::default();
        for (table, claim) in self.claims.iter().enumerate() {
            if claim.is_some_and(&wanted) {
                tables.insert(Table(table));
            }
        }
        tables
    }

    /// The tables declared and not released.
    fn held(&self) -> TableSet {
        self.tables(|_| true).without(self.released)
    }

    fn past_recall(&self) -> bool {
        let written = self.tables(|claim| matches!(claim, Claim::Write(_)));
        !(written & self.released).is_empty()
    }

    /// The operations that wait at a replica, the next one first.
    fn waiting(&self, replica: usize) -> &[Operation] {
        &self.operations[self.progress[replica].executed..]
    }

    /// Whether the turn has come, by the versions of a replica.
    fn has_come(&self, table: Table, versions: &[u32; TABLES]) -> bool {
        self.claims[table.0].is_some_and(|claim| claim.has_come(versions[table.0]))
    }

    /// Whether every replica has executed the transaction's end.
    fn is_finished(&self) -> bool {
        let all = self.operations.len();
        !self.open
            && self
                .progress
                .iter()
                .all(|progress| progress.executed == all)
    }
}

// ----------------------------------------------------------------- cluster

struct Replica {
    store: Box<dyn Store>,
    versions: [u32; TABLES],
    /// The sum of the costs of the operations that wait here.
    load: u32,
}

impl Replica {
    fn new(store: impl Store + 'static) -> Self {
        Replica {
            store: Box::new(store),
            versions: [0; TABLES],
            load: 0,
        }
    }

    fn execute(&mut self, operation: Operation, progress: &mut Progress) {
        match operation.action {
            Action::Write { place, row } => {
                progress.replaced.push((place, self.store.fetch(place)));
                self.store.put(place, row);
            }
            Action::Release | Action::Commit => self.let_go(operation.tables),
            Action::Abort => {
                while let Some((place, row)) = progress.replaced.pop() {
                    self.store.put(place, row);
                }
                self.let_go(operation.tables);
            }
        }
        progress.executed += 1;
        self.load -= operation.cost;
    }

    fn let_go(&mut self, tables: TableSet) {
        for table in tables.iter() {
            self.versions[table.0] += 1;
        }
    }
}

/// What an accepted call answers.
enum Answer {
    Begun(u32),
    Done,
    Found { row: Row, replica: usize },
    Stepped { replica: u32 },
}

struct Cluster {
    sequencer: Sequencer,
    /// The oldest first.
    unfinished: Vec<Transaction>,
    replicas: [Replica; REPLICAS],
}

impl Cluster {
    fn new() -> Self {
        Cluster {
            sequencer: Sequencer::default(),
            unfinished: Vec::with_capacity(MOST_UNFINISHED),
            replicas: [
                Replica::new(Image::new(blank_memory())),
                Replica::new(ChangeList::new(blank_memory())),
                Replica::new(Cache::new(Renumbering::reversed(
                    Image::new(blank_memory()),
                ))),
            ],
        }
    }

    fn call(&mut self, call: &Call) -> Checked<Answer> {
        match *call {
            Call::Begin { modes } => self.begin(modes).map(Answer::Begun),
            Call::Write {
                number,
                table,
                row,
                value,
                class,
            } => self.write(number, table, row, value, class).map(done),
            Call::Read { number, table, row } => {
                let (row, replica) = self.read(number, table, row)?;
                Ok(Answer::Found { row, replica })
            }
            Call::Release { number, table } => self.release(number, table).map(done),
            Call::Commit { number } => self.commit(number).map(done),
            Call::Abort { number } => self.abort(number).map(done),
            Call::Step { number, replica } => {
                self.step(number, replica)?;
                Ok(Answer::Stepped { replica })
            }
        }
    }

    fn begin(&mut self, modes: Modes) -> Checked<u32> {
        let declares = modes.iter().any(|&mode| mode != Mode::None);
        check(declares, Refusal::NothingDeclared)?;
        check(
            self.unfinished.len() < MOST_UNFINISHED,
            Refusal::TooManyUnfinished,
        )?;
        let (number, claims) = self.sequencer.begin(modes)?;
        self.unfinished.push(Transaction::new(number, claims));
        Ok(number)
    }

    fn write(&mut self, number: u32, table: u32, row: u32, value: Row, class: u32) -> Checked<()> {
        let index = self.find_open(number)?;
        let place = Place::checked(table, row)?;
        let cost = cost_of(class)?;
        let transaction = &mut self.unfinished[index];
        transaction.check_writable(place.table())?;
        check(transaction.writes < MOST_WRITES, Refusal::TooManyWrites)?;
        transaction.writes += 1;
        let operation = Operation {
            action: Action::Write { place, row: value },
            tables: TableSet::of(place.table()),
            cost,
        };
        self.ask(index, operation);
        Ok(())
    }

    fn read(&self, number: u32, table: u32, row: u32) -> Checked<(Row, usize)> {
        let transaction = &self.unfinished[self.find_open(number)?];
        let place = Place::checked(table, row)?;
        let table = place.table();
        let claim = transaction.claim(table)?;
        let own_writes_wait = |replica| {
            let mut waiting = transaction.waiting(replica).iter();
            waiting.any(|operation| operation.writes_to(table))
        };
        // Of equal loads `min_by_key` takes the first, so the lowest number.
        let (index, replica) = self
            .replicas
            .iter()
            .enumerate()
            .filter(|(_, replica)| claim.has_come(replica.versions[table.0]))
            .filter(|&(index, _)| matches!(claim, Claim::Read(_)) || !own_writes_wait(index))
            .min_by_key(|(_, replica)| replica.load)
            .ok_or(Refusal::NoReplicaQualifies)?;
        Ok((replica.store.fetch(place), index))
    }

    fn release(&mut self, number: u32, table: u32) -> Checked<()> {
        let index = self.find_open(number)?;
        let table = Table::checked(table)?;
        let transaction = &mut self.unfinished[index];
        transaction.claim(table)?;
        transaction.released.insert(table);
        let operation = Operation {
            action: Action::Release,
            tables: TableSet::of(table),
            cost: PLAIN_COST,
        };
        self.ask(index, operation);
        Ok(())
    }

    fn commit(&mut self, number: u32) -> Checked<()> {
        let index = self.find_open(number)?;
        self.end(index, Action::Commit);
        Ok(())
    }

    fn abort(&mut self, number: u32) -> Checked<()> {
        let index = self.find_open(number)?;
        check(!self.unfinished[index].past_recall(), Refusal::PastRecall)?;
        self.end(index, Action::Abort);
        Ok(())
    }

    fn step(&mut self, number: u32, replica: u32) -> Checked<()> {
        let at = match usize::try_from(replica) {
            Ok(at) if at < REPLICAS => at,
            _ => return Err(Refusal::UnknownReplica),
        };
        let index = self.find(number)?.ok_or(Refusal::NothingWaits)?;
        let transaction = &mut self.unfinished[index];
        let replica = &mut self.replicas[at];
        let &operation = transaction
            .waiting(at)
            .first()
            .ok_or(Refusal::NothingWaits)?;
        let mut tables = operation.tables.iter();
        check(
            tables.all(|table| transaction.has_come(table, &replica.versions)),
            Refusal::HeldBack,
        )?;
        replica.execute(operation, &mut transaction.progress[at]);
        if transaction.is_finished() {
            self.unfinished.remove(index);
        }
        Ok(())
    }

    /// Where a transaction stands among the unfinished; none where it is finished.
    fn find(&self, number: u32) -> Checked<Option<usize>> {
        check(number < self.sequencer.begun, Refusal::UnknownTransaction)?;
        Ok(self
            .unfinished
            .binary_search_by_key(&number, |transaction| transaction.number)
            .ok())
    }

    fn find_open(&self, number: u32) -> Checked<usize> {
        self.find(number)?
            .filter(|&index| self.unfinished[index].open)
            .ok_or(Refusal::NotOpen)
    }

    /// Adds an operation to those that the transaction has asked.
    fn ask(&mut self, index: usize, operation: Operation) {
        for replica in &mut self.replicas {
            replica.load += operation.cost;
        }
        self.unfinished[index].operations.push(operation);
    }

    fn end(&mut self, index: usize, action: Action) {
        let transaction = &mut self.unfinished[index];
        transaction.open = false;
        let operation = Operation {
            action,
            tables: transaction.held(),
            cost: PLAIN_COST,
        };
        self.ask(index, operation);
    }
}

fn done((): ()) -> Answer {
    Answer::Done
}

fn cost_of(class: u32) -> Checked<u32> {
    usize::try_from(class)
        .ok()
        .and_then(|class| COSTS.get(class).copied())
        .ok_or(Refusal::ClassOutOfRange)
}

// ------------------------------------------------------------------- sheet

const NAMES: &[u8] = b"call,number,place,row,high,low,class\n";
const FIELDS: usize = 7;

/// One call, its numbers as they stand in the sheet.
enum Call {
    Begin {
        modes: Modes,
    },
    Write {
        number: u32,
        table: u32,
        row: u32,
        value: Row,
        class: u32,
    },
    Read {
        number: u32,
        table: u32,
        row: u32,
    },
    Release {
        number: u32,
        table: u32,
    },
    Commit {
        number: u32,
    },
    Abort {
        number: u32,
    },
    Step {
        number: u32,
        replica: u32,
    },
}

impl Call {
    /// The transaction that the call names.
    fn number(&self) -> Option<u32> {
        match *self {
            Call::Begin { .. } => None,
            Call::Write { number, .. }
            | Call::Read { number, .. }
            | Call::Release { number, .. }
            | Call::Commit { number }
            | Call::Abort { number }
            | Call::Step { number, .. } => Some(number),
        }
    }
}

/// A refusal met in reading, and the field at fault, 0 for the whole line.
struct Misread {
    refusal: Refusal,
    field: usize,
}

impl Misread {
    fn whole(refusal: Refusal) -> Self {
        Misread { refusal, field: 0 }
    }
}

/// The seven fields of a line, counted from 1.
struct Fields<'a>([&'a [u8]; FIELDS]);

impl<'a> Fields<'a> {
    /// Cuts a line, its line feed included.
    fn cut(line: &'a [u8]) -> Option<Self> {
        let mut pieces = line.strip_suffix(b"\n")?.split(|&byte| byte == b',');
        let mut fields = [&line[..0]; FIELDS];
        for field in &mut fields {
            *field = pieces.next()?;
        }
        pieces.next().is_none().then_some(Fields(fields))
    }

    fn get(&self, field: usize) -> &'a [u8] {
        self.0[field - 1]
    }

    /// What `read` makes of a field, or a refusal that tells the field.
    fn read<T>(&self, field: usize, read: impl Fn(&'a [u8]) -> Option<T>) -> Result<T, Misread> {
        read(self.get(field)).ok_or(Misread {
            refusal: Refusal::BadField,
            field,
        })
    }

    fn small(&self, field: usize) -> Result<u32, Misread> {
        self.read(field, |bytes| u32::try_from(decimal(bytes)?).ok())
    }

    fn big(&self, field: usize) -> Result<u64, Misread> {
        self.read(field, decimal)
    }

    /// Checks that the fields from `first` on are empty.
    fn unused_from(&self, first: usize) -> Result<(), Misread> {
        (first..=FIELDS).try_for_each(|field| self.unused(field))
    }

    fn unused(&self, field: usize) -> Result<(), Misread> {
        self.read(field, |bytes| bytes.is_empty().then_some(()))
    }
}

/// The value of a number: digits without leading zero, below 2^64.
fn decimal(bytes: &[u8]) -> Option<u64> {
    if matches!(bytes, [] | [b'0', _, ..]) {
        return None;
    }
    bytes.iter().try_fold(0u64, |value, &byte| {
        let digit = byte.is_ascii_digit().then(|| u64::from(byte - b'0'))?;
        value.checked_mul(10)?.checked_add(digit)
    })
}

fn modes(letters: &[u8]) -> Option<Modes> {
    let letters: &[u8; TABLES] = letters.try_into().ok()?;
    let mut modes = [Mode::None; TABLES];
    for (mode, letter) in modes.iter_mut().zip(letters) {
        *mode = match letter {
            b'n' => Mode::None,
            b'r' => Mode::Read,
            b'w' => Mode::Write,
            _ => return None,
        };
    }
    Some(modes)
}

/// Reads one line. The fields are looked at from left to right, so that the
/// lowest bad one is told.
fn read_line(line: &[u8]) -> Result<Call, Misread> {
    let fields = Fields::cut(line).ok_or(Misread::whole(Refusal::BadLine))?;
    match fields.get(1) {
        b"begin" => {
            fields.unused(2)?;
            let modes = fields.read(3, modes)?;
            fields.unused_from(4)?;
            Ok(Call::Begin { modes })
        }
        b"write" => Ok(Call::Write {
            number: fields.small(2)?,
            table: fields.small(3)?,
            row: fields.small(4)?,
            value: Row {
                high: fields.big(5)?,
                low: fields.big(6)?,
            },
            class: fields.small(7)?,
        }),
        b"read" => {
            let number = fields.small(2)?;
            let table = fields.small(3)?;
            let row = fields.small(4)?;
            fields.unused_from(5)?;
            Ok(Call::Read { number, table, row })
        }
        b"release" => {
            let number = fields.small(2)?;
            let table = fields.small(3)?;
            fields.unused_from(4)?;
            Ok(Call::Release { number, table })
        }
        b"commit" => {
            let number = fields.small(2)?;
            fields.unused_from(3)?;
            Ok(Call::Commit { number })
        }
        b"abort" => {
            let number = fields.small(2)?;
            fields.unused_from(3)?;
            Ok(Call::Abort { number })
        }
        b"step" => {
            let number = fields.small(2)?;
            let replica = fields.small(3)?;
            fields.unused_from(4)?;
            Ok(Call::Step { number, replica })
        }
        _ => Err(Misread {
            refusal: Refusal::UnknownCall,
            field: 1,
        }),
    }
}

/// The lines behind the names, each with its line feed if it has one.
fn lines(sheet: &[u8]) -> Result<impl Iterator<Item = &[u8]>, Misread> {
    check(sheet.len() <= MOST_BYTES, Refusal::SheetTooLong).map_err(Misread::whole)?;
    let rest = sheet
        .strip_prefix(NAMES)
        .ok_or(Misread::whole(Refusal::BadNames))?;
    Ok(rest.split_inclusive(|&byte| byte == b'\n'))
}

// --------------------------------------------------------------- reporting

/// Runs a sheet on a new cluster and tells what each line came to.
fn run_sheet(sheet: &[u8]) -> Result<String, fmt::Error> {
    // Most lines are told in fewer bytes than they have themselves.
    let mut report = String::with_capacity(sheet.len() + 64);
    report.push_str("line,refusal,number,replica,high,low\n");
    match lines(sheet) {
        Ok(lines) => {
            let mut cluster = Cluster::new();
            for (line, bytes) in (2..).zip(lines) {
                match read_line(bytes) {
                    Ok(call) => {
                        let answer = cluster.call(&call);
                        tell(&mut report, line, Named(call.number()), answer)?;
                    }
                    Err(misread) => tell_misread(&mut report, line, &misread)?,
                }
            }
        }
        Err(misread) => tell_misread(&mut report, 1, &misread)?,
    }
    Ok(report)
}

fn tell_misread(report: &mut String, line: usize, misread: &Misread) -> fmt::Result {
    let Misread { refusal, field } = misread;
    writeln!(report, "{line},{refusal},,,,{field}")
}

fn tell(report: &mut String, line: usize, named: Named, answer: Checked<Answer>) -> fmt::Result {
    match answer {
        Ok(Answer::Begun(number)) => writeln!(report, "{line},0,{number},,,"),
        Ok(Answer::Done) => writeln!(report, "{line},0,{named},,,"),
        Ok(Answer::Stepped { replica }) => writeln!(report, "{line},0,{named},{replica},,"),
        Ok(Answer::Found { row, replica }) => {
            let Row { high, low } = row;
            writeln!(report, "{line},0,{named},{replica},{high},{low}")
        }
        Err(refusal) => writeln!(report, "{line},{refusal},{named},,,"),
    }
}

/// The transaction that a line names, told as an empty field where there is none.
struct Named(Option<u32>);

impl fmt::Display for Named {
    fn fmt(&self, f: &mut fmt::Formatter<'_>) -> fmt::Result {
        self.0.map_or(Ok(()), |number| number.fmt(f))
    }
}
