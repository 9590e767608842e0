//! A store of rank tables: series of calls by both groups against a plain model of document 02's E9, and what a group gets whatever the
//! other group calls.
mod common;
mod definitions;

use common::ffi::{self, Answer, Store, TableName};
use common::{kept, Numbers, TableUse, TABLE_USES};
use definitions::{built_in, MAX_LENGTH};
use lyndon::{Error, FactorCount, Factorization, Forest, Group, Group1, Group2, GroupTables, Order, Ranks, Table, TableStore};
use std::borrow::BorrowMut;
use std::collections::BTreeMap;
use std::fmt::Debug;

/// Places more than a buffer needs.
const SPARE: usize = 3;

/// A call, but for the store; buffers with what they hold before it.
#[derive(Clone)]
enum Call {
    Write { group: u32, number: u32, table: Vec<u8> },
    Read { name: TableName, out: Vec<u8> },
    Use { by: &'static TableUse, name: TableName, text: Vec<u8>, buffers: [Vec<u32>; 2] },
}

impl Call {
    fn group(&self) -> u32 {
        match self {
            Call::Write { group, .. } => *group,
            Call::Read { name, .. } | Call::Use { name, .. } => name.group,
        }
    }

    fn kind(&self) -> &'static str {
        match self {
            Call::Write { .. } => "write",
            Call::Read { .. } => "read",
            Call::Use { by, .. } => by.name,
        }
    }

    /// The call as a failure shows it.
    fn shown(&self) -> String {
        let kind = self.kind();
        match self {
            Call::Write { group, number, table } => format!("{kind}, group {group}, number {number}, {} entries", table.len()),
            Call::Read { name, out } => format!("{kind}, {name:?}, {} places", out.len()),
            Call::Use { name, text, buffers: [first, second], .. } => {
                let start = &text[..text.len().min(60)];
                format!("{kind}, {name:?}, {} letters {start:?}.., {} and {} places", text.len(), first.len(), second.len())
            }
        }
    }
}

/// What comes of a call: the answer, and all that its buffers hold afterwards.
#[derive(PartialEq)]
struct Outcome {
    answer: Answer,
    bytes: Vec<u8>,
    buffers: [Vec<u32>; 2],
}

fn accepted(count: u32) -> Answer {
    Answer { number: 0, value: count, comparisons: 0 }
}

fn refused(number: u32) -> Answer {
    Answer { number, value: 0, comparisons: 0 }
}

/// What calls are made on: the library's store, the model, or a group's handle.
trait Tables {
    fn write_table(&mut self, group: u32, number: u32, table: &[u8]) -> Answer;
    fn read_table(&self, name: TableName, out: &mut [u8]) -> Answer;
    fn use_table(&self, by: &TableUse, name: TableName, text: &[u8], first: &mut [u32], second: &mut [u32]) -> Answer;

    /// Makes a call on buffers of its own, with the content lent; table and text are kept.
    fn made(&mut self, call: &Call) -> Outcome {
        let (mut bytes, mut buffers) = (vec![], [vec![], vec![]]);
        let answer = match call {
            Call::Write { group, number, table } => kept(table, || self.write_table(*group, *number, table)),
            Call::Read { name, out } => {
                bytes.clone_from(out);
                self.read_table(*name, &mut bytes)
            }
            Call::Use { by, name, text, buffers: lent } => {
                buffers.clone_from(lent);
                let [first, second] = &mut buffers;
                kept(text, || self.use_table(by, *name, text, first, second))
            }
        };
        Outcome { answer, bytes, buffers }
    }
}

impl Tables for Store {
    fn write_table(&mut self, group: u32, number: u32, table: &[u8]) -> Answer {
        let written = ffi::store_write(self, group, number, table);
        *self = written.store;
        written.answer
    }

    fn read_table(&self, name: TableName, out: &mut [u8]) -> Answer {
        ffi::store_read(self, name, out)
    }

    fn use_table(&self, by: &TableUse, name: TableName, text: &[u8], first: &mut [u32], second: &mut [u32]) -> Answer {
        (by.by_store)(self, name, text, first, second)
    }
}

/// What E9 says: the tables of each group, as far as they are written. Beside them the bytes that the library's store should have.
struct Model {
    tables: [[Option<[u8; 256]>; 3]; 2],
    bytes: Store,
}

impl Model {
    fn new() -> Model {
        Model { tables: [[None; 3]; 2], bytes: Store { tables: [0; 1536], written: [0; 6] } }
    }

    /// Of a store of any bytes: the flag 0 is for unwritten, every other for written.
    fn of(bytes: Store) -> Model {
        let table = |place: usize| (bytes.written[place] != 0).then(|| bytes.tables[place * 256..][..256].try_into().unwrap());
        Model { tables: [[0, 1, 2], [3, 4, 5]].map(|places| places.map(table)), bytes }
    }

    /// The table that a call names, or the number of its refusal.
    fn table(&self, name: TableName) -> Result<[u8; 256], u32> {
        let number = name.number as usize;
        match (name.group, name.built_in, number) {
            (1 | 2, 0, 0..=2) => self.tables[name.group as usize - 1][number].ok_or(22),
            (1 | 2, 1.., 0..=1) => Ok(built_in(number)),
            _ => Err(21),
        }
    }
}

impl Tables for Model {
    fn write_table(&mut self, group: u32, number: u32, table: &[u8]) -> Answer {
        let (1 | 2, 0..=2) = (group, number) else { return refused(21) };
        let Ok(table) = <[u8; 256]>::try_from(table) else { return refused(16) };
        let (group, number) = (group as usize - 1, number as usize);
        self.tables[group][number] = Some(table);
        self.bytes.tables[(group * 3 + number) * 256..][..256].copy_from_slice(&table);
        self.bytes.written[group * 3 + number] = 1;
        accepted(256)
    }

    fn read_table(&self, name: TableName, out: &mut [u8]) -> Answer {
        match (self.table(name), out.len()) {
            (Err(number), _) => refused(number),
            (_, 0..=255) => refused(4),
            (Ok(table), _) => {
                out[..256].copy_from_slice(&table);
                accepted(256)
            }
        }
    }

    /// The ranked call by the table that stands there, in order 2.
    fn use_table(&self, by: &TableUse, name: TableName, text: &[u8], first: &mut [u32], second: &mut [u32]) -> Answer {
        self.table(name).map_or_else(refused, |table| (by.by_table)(text, &table, first, second))
    }
}

fn check_outcome(call: &Call, got: &Outcome, wanted: &Outcome) {
    assert_eq!(got.answer, wanted.answer, "answer of {}", call.shown());
    assert!(got == wanted, "a buffer of {}", call.shown());
}

/// Holds what comes of a call, and the store after it, to the model.
fn check(store: &mut Store, model: &mut Model, call: &Call) -> Answer {
    let got = store.made(call);
    check_outcome(call, &got, &model.made(call));
    assert!(*store == model.bytes, "the store after {}", call.shown());
    got.answer
}

// Calls

const BYTES: [u8; 256] = built_in(0);

fn any_table(numbers: &mut Numbers) -> Vec<u8> {
    let entries = numbers.pick(&[256, 256, 256, 256, 256, 256, 0, 255, 257]);
    let ranks = numbers.pick(&[&[0, 1][..], &[3, 4, 255], &BYTES]);
    numbers.text(ranks, entries)
}

fn any_text(numbers: &mut Numbers) -> Vec<u8> {
    let n = match numbers.below(150) {
        0 => 2000 + numbers.below(3000),
        1..=9 => 0,
        _ => 1 + numbers.below(40),
    };
    let alphabet = numbers.pick(&[b"aAbB".as_slice(), b"ACGTacgtN", &BYTES]);
    numbers.text(alphabet, n)
}

/// Places for a buffer that needs so many: exact, longer, short or none.
fn any_places(numbers: &mut Numbers, needed: usize) -> usize {
    match numbers.below(12) {
        0 => 0,
        1 => needed.saturating_sub(1),
        2..=5 => needed + SPARE,
        _ => needed,
    }
}

/// Buffers for `n` letters, with content that no call leaves by chance.
fn any_buffers(numbers: &mut Numbers, by: &TableUse, n: usize) -> [Vec<u32>; 2] {
    (by.needs)(n).map(|needed| (0..any_places(numbers, needed)).map(|_| numbers.next() as u32 | 1 << 31).collect())
}

fn any_name(numbers: &mut Numbers, groups: &[u32]) -> TableName {
    TableName {
        group: numbers.pick(groups),
        built_in: numbers.pick(&[0, 0, 0, 0, 1, 7]),
        number: numbers.pick(&[0, 0, 0, 0, 0, 1, 1, 1, 1, 1, 2, 2, 3, 4, u32::MAX]),
    }
}

/// Any call by one of these groups.
fn any_call(numbers: &mut Numbers, groups: &[u32]) -> Call {
    let name = any_name(numbers, groups);
    match numbers.below(8) {
        0 | 1 => Call::Write { group: name.group, number: name.number, table: any_table(numbers) },
        2 => {
            let places = any_places(numbers, 256);
            Call::Read { name, out: numbers.text(&BYTES, places) }
        }
        _ => {
            let (by, text) = (&TABLE_USES[numbers.below(5)], any_text(numbers));
            Call::Use { by, name, buffers: any_buffers(numbers, by, text.len()), text }
        }
    }
}

// Series

/// How often each kind of call got each answer.
type Seen = BTreeMap<(&'static str, u32), usize>;

fn check_series(numbers: &mut Numbers, calls: usize, mut store: Store, mut model: Model, seen: &mut Seen) {
    assert!(store == model.bytes);
    for _ in 0..calls {
        let call = any_call(numbers, &[1, 1, 1, 1, 2, 2, 2, 2, 0, 3, u32::MAX]);
        let answer = check(&mut store, &mut model, &call);
        *seen.entry((call.kind(), answer.number)).or_default() += 1;
    }
}

/// How many calls a short series has.
fn few(numbers: &mut Numbers) -> usize {
    20 + numbers.below(80)
}

/// Every answer that there is to each kind of call.
fn answers() -> Vec<(&'static str, u32)> {
    let mut all = [0, 16, 21].map(|number| ("write", number)).to_vec();
    all.extend([0, 4, 21, 22].map(|number| ("read", number)));
    for by in &TABLE_USES {
        all.extend([0, 1, 4, 21, 22].map(|number| (by.name, number)));
    }
    all.push(("runs", 5));
    all.sort_unstable();
    all
}

/// Every answer that there is was seen often, and no other.
fn check_seen(seen: &Seen) {
    assert_eq!(seen.keys().copied().collect::<Vec<_>>(), answers());
    assert!(seen.values().all(|&times| times >= 10), "{seen:?}");
}

#[test]
fn series_on_a_new_store() {
    let (mut numbers, mut seen) = (Numbers::new(31), Seen::new());
    for _ in 0..150 {
        let calls = few(&mut numbers);
        check_series(&mut numbers, calls, ffi::store_new(), Model::new(), &mut seen);
    }
    check_seen(&seen);
}

/// All tables are soon written, so 22 is seen at the start alone; every other answer often.
#[test]
fn a_long_series_on_a_new_store() {
    let (mut numbers, mut seen) = (Numbers::new(39), Seen::new());
    check_series(&mut numbers, 5000, ffi::store_new(), Model::new(), &mut seen);
    let often = |answer: &(&str, u32)| seen.get(answer).is_some_and(|&times| times >= 10);
    assert!(answers().iter().all(|answer| answer.1 == 22 || often(answer)), "{seen:?}");
}

/// Stores that no series of calls makes: any flags, and bytes in tables that are not written.
#[test]
fn series_on_stores_of_any_bytes() {
    let (mut numbers, mut seen) = (Numbers::new(32), Seen::new());
    for _ in 0..150 {
        let (store, calls) = (any_store(&mut numbers), few(&mut numbers));
        check_series(&mut numbers, calls, store, Model::of(store), &mut seen);
    }
    check_seen(&seen);
}

fn any_store(numbers: &mut Numbers) -> Store {
    Store {
        tables: std::array::from_fn(|_| numbers.pick(&BYTES)),
        written: std::array::from_fn(|_| numbers.pick(&[0, 0, 0, 1, 2, 128, 255])),
    }
}

/// Every flag, of every table.
#[test]
fn every_flag() {
    let mut numbers = Numbers::new(33);
    for (place, flag) in (0..6).flat_map(|place| BYTES.map(|flag| (place, flag))) {
        let mut store = any_store(&mut numbers);
        store.written[place] = flag;
        let name = TableName { group: 1 + place as u32 / 3, built_in: 0, number: place as u32 % 3 };
        let mut model = Model::of(store);
        let answer = check(&mut store, &mut model, &Call::Read { name, out: vec![7; 256] });
        assert_eq!(answer, if flag == 0 { refused(22) } else { accepted(256) });
    }
}

#[test]
fn the_longest_text() {
    let mut numbers = Numbers::new(34);
    let mut model = Model::new();
    let mut store = ffi::store_new();
    check(&mut store, &mut model, &Call::Write { group: 2, number: 1, table: numbers.shuffled_bytes() });
    let text = numbers.text(b"ACGTacgt", MAX_LENGTH);
    for by in &TABLE_USES {
        let buffers = (by.needs)(MAX_LENGTH).map(|places| vec![7; places]);
        let name = TableName { group: 2, built_in: 0, number: 1 };
        let answer = check(&mut store, &mut model, &Call::Use { by, name, text: text.clone(), buffers });
        assert_eq!(answer.number, 0);
    }
}

// Isolation

/// A group's tables and their flags.
type Part = (Vec<u8>, Vec<u8>);

fn part(store: &Store, group: u32) -> Part {
    let before = (group as usize - 1) * 3;
    (store.tables[before * 256..][..768].to_vec(), store.written[before..][..3].to_vec())
}

/// What a group gets from a series that begins with a new store, and its part of the store after each of its calls and at the end.
#[derive(PartialEq)]
struct Gets {
    outcomes: Vec<(Outcome, Part)>,
    end: Part,
}

fn gets(group: u32, series: &[Call]) -> Gets {
    let mut store = ffi::store_new();
    let mut outcomes = vec![];
    for call in series {
        let outcome = store.made(call);
        if call.group() == group {
            outcomes.push((outcome, part(&store, group)));
        }
    }
    Gets { outcomes, end: part(&store, group) }
}

/// The calls with others before each and behind the last: none, or up to four.
fn with_others(numbers: &mut Numbers, own: &[Call], others: &[u32]) -> Vec<Call> {
    let mut series = vec![];
    for call in own.iter().map(Some).chain([None]) {
        for _ in 0..numbers.below(5) {
            series.push(any_call(numbers, others));
        }
        series.extend(call.cloned());
    }
    series
}

/// A group's calls alone, and twice with other calls between them, of the other group and of groups that do not exist.
#[test]
fn a_group_gets_the_same_whatever_the_other_calls() {
    let mut numbers = Numbers::new(35);
    let written = |call: &Call, by: u32| matches!(call, Call::Write { group, number: 0..=2, table } if *group == by && table.len() == 256);
    let (mut uses, mut writes) = (0, 0);
    for (group, other) in [(1, 2), (2, 1)].into_iter().cycle().take(500) {
        let calls = 1 + numbers.below(40);
        let own: Vec<Call> = (0..calls).map(|_| any_call(&mut numbers, &[group])).collect();
        let alone = gets(group, &own);
        assert_eq!(alone.outcomes.len(), calls);
        for _ in 0..2 {
            let series = with_others(&mut numbers, &own, &[other, other, other, other, 0, 3, u32::MAX]);
            assert!(gets(group, &series) == alone, "group {group}: {:?}", series.iter().map(Call::shown).collect::<Vec<_>>());
            writes += series.iter().filter(|call| written(call, other)).count();
        }
        let used = |(call, (outcome, _)): &(&Call, &(Outcome, _))| {
            matches!(call, Call::Use { name, .. } if name.built_in == 0) && outcome.answer.number == 0
        };
        uses += own.iter().zip(&alone.outcomes).filter(used).count();
    }
    assert!(uses > 500 && writes > 1000, "{uses} uses of own tables, {writes} writes of the other group");
}

// Refusals

const GROUPS: [u32; 5] = [0, 1, 2, 3, u32::MAX];
/// Each group, and the one table of its own that is written.
const WRITTEN: [(u32, u32); 2] = [(1, 0), (2, 1)];

fn store_of_two_tables() -> Store {
    let mut store = ffi::store_new();
    for (group, number) in WRITTEN {
        assert_eq!(store.write_table(group, number, &[5; 256]), accepted(256));
    }
    store
}

/// The number of the first check that fails, or 0.
fn first_of(checks: &[(bool, u32)]) -> u32 {
    checks.iter().find(|check| check.0).map_or(0, |check| check.1)
}

/// Whether a call that names a table fails by it, and the refusal.
fn table_checks(name: TableName) -> [(bool, u32); 2] {
    let tables = if name.built_in == 0 { 3 } else { 2 };
    let unknown = name.group == 0 || name.group > 2 || name.number >= tables;
    [(unknown, 21), (name.built_in == 0 && !WRITTEN.contains(&(name.group, name.number)), 22)]
}

fn names() -> Vec<TableName> {
    let tables = [0, 1, 7, u32::MAX].into_iter().flat_map(|built_in| [0, 1, 2, 3, 4, u32::MAX].map(|number| (built_in, number)));
    tables.flat_map(|(built_in, number)| GROUPS.map(|group| TableName { group, built_in, number })).collect()
}

/// Makes a call that should be refused with this number, or accepted where it is 0. A refused call changes nothing.
fn check_refusal(call: &Call, number: u32) {
    let before = store_of_two_tables();
    let mut store = before;
    let got = store.made(call);
    if number == 0 {
        assert_eq!(got.answer.number, 0, "{}", call.shown());
    } else {
        let (bytes, buffers) = match call {
            Call::Write { .. } => (vec![], [vec![], vec![]]),
            Call::Read { out, .. } => (out.clone(), [vec![], vec![]]),
            Call::Use { buffers, .. } => (vec![], buffers.clone()),
        };
        check_outcome(call, &got, &Outcome { answer: refused(number), bytes, buffers });
        assert!(store == before, "the store after {}", call.shown());
    }
}

/// 21, then 16.
#[test]
fn refused_writes() {
    for group in GROUPS {
        for (number, entries) in [0, 1, 2, 3, 4, u32::MAX].into_iter().flat_map(|number| [0, 255, 256, 257, 512].map(|n| (number, n))) {
            let refusal = first_of(&[(group == 0 || group > 2 || number > 2, 21), (entries != 256, 16)]);
            check_refusal(&Call::Write { group, number, table: vec![9; entries] }, refusal);
        }
    }
}

/// 21, 22, then 4.
#[test]
fn refused_reads() {
    for name in names() {
        for places in [0, 255, 256, 257] {
            let refusal = first_of(&[&table_checks(name)[..], &[(places < 256, 4)]].concat());
            check_refusal(&Call::Read { name, out: vec![9; places] }, refusal);
        }
    }
}

/// 21, 22, 1, 2, 4, then 5 of the runs: every way to fail several checks.
#[test]
fn refused_uses() {
    let too_long = vec![b'a'; MAX_LENGTH + 1];
    // One name for each way to fail by the table, and to pass.
    let few = [(0, 0, 0), (3, 1, 0), (1, 0, 3), (2, 1, 2), (1, 0, 1), (2, 0, 1), (1, 1, 1)];
    let few = few.map(|(group, built_in, number)| TableName { group, built_in, number }).to_vec();
    for text in [b"".as_slice(), b"a", b"abaab", &too_long] {
        let n = text.len();
        for name in if n > MAX_LENGTH { few.clone() } else { names() } {
            for (by, missing) in TABLE_USES.iter().flat_map(|by| [[0, 0], [1, 0], [0, 1], [1, 1]].map(|missing| (by, missing))) {
                let needs = (by.needs)(n);
                // A short buffer is empty where the text is long.
                let places = [0, 1].map(|b| if missing[b] == 1 && n > MAX_LENGTH { 0 } else { needs[b].saturating_sub(missing[b]) });
                let short = |number: u32| ((0..2).any(|b| places[b] < needs[b] && by.short[b] == number), number);
                let refusal = first_of(&[&table_checks(name)[..], &[(n == 0, 1), (n > MAX_LENGTH, 2), short(4), short(5)]].concat());
                let call = Call::Use { by, name, text: text.to_vec(), buffers: places.map(|places| vec![9; places]) };
                check_refusal(&call, refusal);
            }
        }
    }
}

// Built-in tables

/// Entry by entry, for both groups, whatever the store holds.
#[test]
fn built_in_tables() {
    let mut numbers = Numbers::new(36);
    for (group, built_in) in [1, 2].into_iter().flat_map(|group| [1, 7, u32::MAX].map(|built_in| (group, built_in))) {
        for store in [ffi::store_new(), any_store(&mut numbers)] {
            let mut tables = [[0; 256]; 2];
            for (number, table) in (0..).zip(&mut tables) {
                assert_eq!(ffi::store_read(&store, TableName { group, built_in, number }, table), accepted(256));
            }
            for letter in 0..=255u8 {
                let folded = if letter.is_ascii_lowercase() { letter - 32 } else { letter };
                assert_eq!(tables.map(|table| table[usize::from(letter)]), [letter, folded]);
            }
        }
    }
}

/// By built-in 0 all answers are those in rising order, by built-in 1 those for the text in capitals.
#[test]
fn uses_of_built_in_tables() {
    let mut numbers = Numbers::new(37);
    let store = TableStore::new();
    let group = store.group::<Group2>();
    for _ in 0..300 {
        let text = any_text(&mut numbers);
        for (number, plain) in [(0, text.clone()), (1, text.to_ascii_uppercase())] {
            let (table, plain) = (Table::built_in(number), &plain[..]);
            assert_eq!(group.lyndon_array(table, &text), lyndon::lyndon_array(plain, Order::Rising));
            assert_eq!(group.factorization(table, &text), lyndon::factorization_ranked(plain, Order::Rising));
            assert_eq!(group.suffix_table(table, &text), lyndon::suffix_table_ranked(plain, Order::Rising));
            assert_eq!(group.left_forest(table, &text), lyndon::left_forest_ranked(plain, Order::Rising));
            assert_eq!(group.runs(table, &text), lyndon::runs(plain));
        }
    }
    let arrays = |text: &[u8]| [0, 1].map(|number| group.lyndon_array(Table::built_in(number), text).unwrap());
    assert_eq!(arrays(b"aBc"), [[1, 2, 1], [3, 2, 1]]);
    assert_eq!(arrays(b"ABC"), [[3, 2, 1], [3, 2, 1]]);
}

// The crate's type

/// What a form with buffers answers. The form that allocates gives what was written, or the same refusal, but for that of a short buffer.
fn both<T: PartialEq + Debug>(into: Result<FactorCount, Error>, allocated: Result<T, Error>, written: impl FnOnce(usize) -> T) -> Answer {
    match into {
        Ok(FactorCount { count, comparisons }) => {
            assert_eq!(allocated, Ok(written(count)));
            Answer { number: 0, value: count as u32, comparisons }
        }
        Err(error) => {
            if ![4, 5].contains(&error.number) {
                assert_eq!(allocated, Err(error));
            }
            Answer { number: error.number, value: error.position, comparisons: 0 }
        }
    }
}

/// The count of a form that counts no comparisons.
fn none_compared(count: Result<usize, Error>) -> Result<FactorCount, Error> {
    count.map(|count| FactorCount { count, comparisons: 0 })
}

fn table_of<G: Group>(name: TableName) -> Table<G> {
    assert_eq!(name.group, G::NUMBER);
    if name.built_in == 0 {
        Table::own(name.number)
    } else {
        Table::built_in(name.number)
    }
}

/// A group's handle, with tables of 256 entries.
impl<S: BorrowMut<TableStore>, G: Group> Tables for GroupTables<S, G> {
    fn write_table(&mut self, group: u32, number: u32, table: &[u8]) -> Answer {
        assert_eq!(group, G::NUMBER);
        let name = self.write(number, &Ranks::new(table.try_into().unwrap()));
        name.map_or_else(
            |error| refused(error.number),
            |table| {
                assert_eq!(table, Table::own(number));
                accepted(256)
            },
        )
    }

    fn read_table(&self, name: TableName, out: &mut [u8]) -> Answer {
        let table = table_of(name);
        both(none_compared(self.read_into(table, out)), self.read(table), |count| Ranks::new(out[..count].try_into().unwrap()))
    }

    fn use_table(&self, by: &TableUse, name: TableName, text: &[u8], first: &mut [u32], second: &mut [u32]) -> Answer {
        let table = table_of(name);
        match by.name {
            "array" => {
                let count = self.lyndon_array_into(table, text, first);
                both(none_compared(count), self.lyndon_array(table, text), |count| first[..count].to_vec())
            }
            "factors" => {
                let found = self.factorization_into(table, text, first);
                let comparisons = found.map_or(0, |found| found.comparisons);
                both(found, self.factorization(table, text), |count| Factorization { starts: first[..count].to_vec(), comparisons })
            }
            "suffix table" => {
                let count = self.suffix_table_into(table, text, first);
                both(none_compared(count), self.suffix_table(table, text), |count| first[..count].to_vec())
            }
            "left forest" => {
                let count = self.left_forest_into(table, text, first, second);
                let written = |count: usize| Forest { first: first[..count].to_vec(), past: second[..count].to_vec() };
                both(none_compared(count), self.left_forest(table, text), written)
            }
            "runs" => {
                let count = self.runs_into(table, text, first, second);
                both(none_compared(count), self.runs(table, text), |count| lyndon::listed(&second[..3 * count]).collect())
            }
            other => panic!("no form for {other}"),
        }
    }
}

/// The bytes of a C struct, in the order in which they lie.
fn bytes_of(store: Store) -> [u8; TableStore::BYTES] {
    // Store is repr(C) and bytes throughout, and transmute takes no other size.
    unsafe { std::mem::transmute(store) }
}

/// Both groups by handles, on a new store and on any bytes: all that can be asked by them is answered as the model has it, and the store's
/// bytes are those of the C struct.
#[test]
fn series_by_handles() {
    let mut numbers = Numbers::new(38);
    for series in 0..80 {
        let (mut store, mut model) = if series % 2 == 0 {
            (TableStore::new(), Model::new())
        } else {
            let bytes = any_store(&mut numbers);
            (TableStore::from_bytes(bytes_of(bytes)), Model::of(bytes))
        };
        assert!(store.to_bytes() == bytes_of(model.bytes));
        for _ in 0..50 {
            let call = any_call(&mut numbers, &[1, 2]);
            if matches!(&call, Call::Write { table, .. } if table.len() != 256) {
                continue;
            }
            let got = match call.group() {
                1 => store.group_mut::<Group1>().made(&call),
                _ => store.group_mut::<Group2>().made(&call),
            };
            check_outcome(&call, &got, &model.made(&call));
            assert!(store.to_bytes() == bytes_of(model.bytes), "the store after {}", call.shown());
        }
    }
}

/// The tables of group 1, those of group 2, then the flags: byte by byte, there and back.
#[test]
fn stores_as_bytes() {
    assert_eq!(TableStore::BYTES, 1542);
    assert_eq!(TableStore::new(), TableStore::default());
    assert_eq!(TableStore::new().to_bytes(), [0; 1542]);
    for place in 0..6 {
        let (mut store, number) = (TableStore::new(), place as u32 % 3);
        let written = match place {
            0..=2 => store.group_mut::<Group1>().write(number, &Ranks::new(BYTES)).is_ok(),
            _ => store.group_mut::<Group2>().write(number, &Ranks::new(BYTES)).is_ok(),
        };
        assert!(written);
        let mut expected = [0; 1542];
        expected[256 * place..][..256].copy_from_slice(&BYTES);
        expected[1536 + place] = 1;
        assert_eq!(store.to_bytes(), expected);
        assert_eq!(TableStore::from_bytes(expected), store);
    }
    let mut numbers = Numbers::new(40);
    for _ in 0..100 {
        let store = any_store(&mut numbers);
        let bytes = bytes_of(store);
        assert_eq!((&bytes[..1536], &bytes[1536..]), (&store.tables[..], &store.written[..]));
        assert_eq!(TableStore::from_bytes(bytes).to_bytes(), bytes);
    }
}

/// A handle that can write can also use and read; handles that only read can be copied, and those of both groups can be held at once.
#[test]
fn handles() {
    let mut store = TableStore::new();
    let mut one = store.group_mut::<Group1>();
    let table = one.write(1, &Ranks::from_groups(&["b", "a"]).unwrap()).unwrap();
    assert_eq!(one.lyndon_array(table, b"ba").unwrap(), [2, 1]);
    assert_eq!(one.read(table).unwrap().rank(b'a'), 1);
    let (one, two) = (store.group::<Group1>(), store.group::<Group2>());
    let again = one;
    assert_eq!(one.runs(table, b"abab"), again.runs(table, b"abab"));
    assert_eq!(two.lyndon_array(Table::own(1), b"ba"), Err(Error { number: 22, position: 0 }));
    assert_eq!(two.lyndon_array(Table::built_in(0), b"ba").unwrap(), [1, 1]);
}
