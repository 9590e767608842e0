//! Buffers that end directly before a forbidden page, or start directly behind one: any access past an end faults.
#![cfg(target_os = "linux")]
mod common;
mod definitions;
mod faster;

use common::{ffi, Numbers, RankedInput};
use definitions::{list_length, MAX_INPUT, MAX_LETTERS};
use faster::Lists;
use lyndon::Error;
use std::ffi::c_void;

const PAGE: usize = 4096;
const PROT_NONE: i32 = 0;
const PROT_READ_WRITE: i32 = 3;
const MAP_PRIVATE_ANONYMOUS: i32 = 0x22;

extern "C" {
    fn mmap(address: *mut c_void, length: usize, protection: i32, flags: i32, file: i32, offset: i64) -> *mut c_void;
    fn mprotect(address: *mut c_void, length: usize, protection: i32) -> i32;
    fn munmap(address: *mut c_void, length: usize) -> i32;
}

/// Pages for `n` elements between two forbidden ones.
struct Guarded<T> {
    pages: *mut u8,
    mapped: usize,
    content: *mut T,
    n: usize,
}

#[derive(Clone, Copy, PartialEq, Debug)]
enum Side {
    /// The last element ends where the forbidden page starts.
    End,
    /// The first element starts where the forbidden page ends.
    Start,
}

impl<T: Copy> Guarded<T> {
    fn new(content: &[T], side: Side) -> Guarded<T> {
        let bytes = std::mem::size_of_val(content);
        let inner = bytes.div_ceil(PAGE) * PAGE;
        let mapped = inner + 2 * PAGE;
        unsafe {
            let pages = mmap(std::ptr::null_mut(), mapped, PROT_NONE, MAP_PRIVATE_ANONYMOUS, -1, 0).cast::<u8>();
            assert!(pages as isize != -1);
            if inner > 0 {
                assert_eq!(mprotect(pages.add(PAGE).cast(), inner, PROT_READ_WRITE), 0);
            }
            let start = match side {
                Side::End => pages.add(PAGE + inner - bytes),
                Side::Start => pages.add(PAGE),
            };
            let start = start.cast::<T>();
            std::ptr::copy_nonoverlapping(content.as_ptr(), start, content.len());
            Guarded { pages, mapped, content: start, n: content.len() }
        }
    }

    fn slice(&mut self) -> &mut [T] {
        unsafe { std::slice::from_raw_parts_mut(self.content, self.n) }
    }
}

impl<T> Drop for Guarded<T> {
    fn drop(&mut self) {
        unsafe {
            munmap(self.pages.cast(), self.mapped);
        }
    }
}

fn room(n: usize, side: Side) -> Guarded<u32> {
    Guarded::new(&vec![0u32; n], side)
}

/// All calls on a text, every buffer guarded and exactly as long as needed, then each one place short.
fn check_text(x: &[u8], side: Side) {
    let n = x.len();
    let what = format!("guarded, {side:?}, {n} letters");
    let mut text = Guarded::new(x, side);
    let wide: Vec<u32> = x.iter().map(|&l| u32::from(l)).collect();
    let mut letters = Guarded::new(&wide, side);
    let short = Err(Error { number: if n == 0 { 1 } else { 4 }, position: 0 });
    let lists = Lists::of(x, faster::runs);
    let full = |count: usize| if n == 0 { Err(Error { number: 1, position: 0 }) } else { Ok(count) };

    for order in [0, 1] {
        let mut out = room(n, side);
        let got = common::array8(text.slice(), order, out.slice());
        common::compare(&what, got, &[out.slice()], full(n), &[Some(&lists.arrays[order as usize])]);
        let got = common::array32(letters.slice(), order, out.slice());
        common::compare(&what, got, &[out.slice()], full(n), &[Some(&lists.arrays[order as usize])]);
    }
    let mut out = room(n, side);
    let by_default = lists.in_default_order(x);
    let got = common::factors(text.slice(), out.slice());
    let factors = full(n).map(|_| by_default.factor_count());
    common::compare(&what, got, &[out.slice()], factors, &[Some(&by_default.factors)]);
    let got = common::suffix_table(text.slice(), out.slice());
    common::compare(&what, got, &[out.slice()], full(n), &[Some(&by_default.suffix_table)]);
    let mut second = room(n, side);
    let got = common::left_forest(text.slice(), out.slice(), second.slice());
    common::compare(&what, got, &[out.slice(), second.slice()], full(n), &[Some(&by_default.first), Some(&by_default.past)]);
    let (mut work, mut list) = (room(2 * n, side), room(list_length(n), side));
    let got = common::runs(text.slice(), work.slice(), list.slice());
    let (count, arrays) = (lists.runs.len() / 3, lists.arrays.concat());
    common::compare(&what, got, &[work.slice(), list.slice()], full(count), &[Some(&arrays), Some(&lists.runs)]);
    for input in common::ranked_inputs(&mut Numbers::for_text(x), x) {
        check_ranked(&input, &lists, side);
    }
    for entries in &lists.arrays {
        check_array(entries, side);
    }

    if n > 0 {
        let mut cut = room(n - 1, side);
        common::fill(second.slice());
        for call in 0..6 {
            let got = match call {
                0 => common::array8(text.slice(), 0, cut.slice()),
                1 => common::array32(letters.slice(), 1, cut.slice()),
                2 => common::factors(text.slice(), cut.slice()).map(|(count, _)| count),
                3 => common::suffix_table(text.slice(), cut.slice()),
                4 => common::left_forest(text.slice(), cut.slice(), second.slice()),
                _ => common::left_forest(text.slice(), second.slice(), cut.slice()),
            };
            common::compare(&what, got, &[cut.slice(), second.slice()], short, &[]);
        }
        // The list of one letter has no place that could be missing.
        if n > 1 {
            let mut cut_list = room(list_length(n) - 1, side);
            let got = common::runs(text.slice(), work.slice(), cut_list.slice());
            common::compare(&what, got, &[work.slice(), cut_list.slice()], short, &[]);
        }
        let mut cut_work = room(2 * n - 1, side);
        let got = common::runs(text.slice(), cut_work.slice(), list.slice());
        common::compare(&what, got, &[cut_work.slice(), list.slice()], Err(Error { number: 5, position: 0 }), &[]);
    }
}

/// The ranked calls, the table guarded too: with buffers exactly as long as needed, each one place short, and with other lengths of the table,
/// none and one entry short of 256.
fn check_ranked(input: &RankedInput, lists: &Lists, side: Side) {
    let (n, order) = (input.text.len(), input.order);
    let what = format!("guarded, {side:?}, {n} letters, order {order}");
    let mut text = Guarded::new(&input.text, side);
    for entries in [input.table.len(), 0, 255.min(input.table.len())] {
        let mut table = Guarded::new(&input.table[..entries], side);
        // Output buffers of that many places less than needed.
        for missing in [0, usize::from(n > 0)] {
            let answer = |count: usize, short: u32| match (n, order == 2 && entries != 256, missing) {
                (0, ..) => Err(Error { number: 1, position: 0 }),
                (_, true, _) => Err(Error { number: 16, position: 0 }),
                (.., 0) => Ok(count),
                _ => Err(Error { number: short, position: 0 }),
            };
            let (mut cut, mut out) = (room(n - missing, side), room(n, side));
            for ((name, call), want) in common::RANKED_CALLS.iter().zip(lists.ranked()) {
                let got = call(text.slice(), order, table.slice(), cut.slice());
                common::compare(&format!("{name}, {what}"), got, &[cut.slice()], answer(n, 4), &[Some(want)]);
            }
            let got = common::factors_ranked(text.slice(), order, table.slice(), cut.slice());
            let factors = answer(n, 4).map(|_| lists.factor_count());
            common::compare(&format!("ranked factors, {what}"), got, &[cut.slice()], factors, &[Some(&lists.factors)]);
            let what = format!("ranked left forest, {what}");
            let (first, past) = (Some(&lists.first[..]), Some(&lists.past[..]));
            let got = common::left_forest_ranked(text.slice(), order, table.slice(), cut.slice(), out.slice());
            common::compare(&what, got, &[cut.slice(), out.slice()], answer(n, 4), &[first, past]);
            let got = common::left_forest_ranked(text.slice(), order, table.slice(), out.slice(), cut.slice());
            common::compare(&what, got, &[out.slice(), cut.slice()], answer(n, 4), &[first, past]);
            if order == 2 {
                let what = format!("ranked runs, guarded, {side:?}, {n} letters");
                let (count, arrays) = (lists.runs.len() / 3, lists.arrays.concat());
                for (work_missing, list_missing, short) in [(0, missing, 4), (missing, 0, 5)] {
                    if list_missing > list_length(n) {
                        continue;
                    }
                    let (mut work, mut list) = (room(2 * n - work_missing, side), room(list_length(n) - list_missing, side));
                    let got = common::runs_ranked(text.slice(), table.slice(), work.slice(), list.slice());
                    let written = [Some(&arrays[..]), Some(&lists.runs[..])];
                    common::compare(&what, got, &[work.slice(), list.slice()], answer(count, short), &written);
                }
            }
        }
    }
}

/// In orders 0 and 1 no byte of the table is read: here all of them are forbidden, and what is written is what is written with no table.
#[test]
fn tables_that_no_order_looks_at() {
    let pages = Guarded::new(&[0u8; 0], Side::End);
    let forbidden = pages.content;
    let calls = [ffi::c::lyndon_array_ranked, ffi::c::lyndon_suffix_table_ranked];
    let longest = common::fibonacci(5000);
    for (text, order) in [&b"a"[..], b"abbababaababbaba", b"TtGgCcAa", &longest].into_iter().flat_map(|text| [(text, 0), (text, 1)]) {
        let n = text.len();
        let (mut out, mut other, mut want, mut want_other) = (vec![0; n + 1], vec![0; n + 1], vec![0; n + 1], vec![0; n + 1]);
        for entries in [0, 1, 255, 256, 257, PAGE] {
            for ((name, with_none), call) in common::RANKED_CALLS.iter().zip(calls) {
                let wanted = with_none(text, order, &[], &mut want);
                common::fill(&mut out);
                let answer = unsafe { call(text.as_ptr(), n, order, forbidden, entries, out.as_mut_ptr(), n + 1) };
                assert_eq!((common::result(answer), &out), (wanted, &want), "{name}, order {order}, {entries} entries");
            }
            let wanted = common::factors_ranked(text, order, &[], &mut want);
            common::fill(&mut out);
            let answer =
                unsafe { ffi::c::lyndon_factorization_ranked(text.as_ptr(), n, order, forbidden, entries, out.as_mut_ptr(), n + 1) };
            let got = common::factor_result(n, answer);
            assert_eq!((got, &out), (wanted, &want), "factors, order {order}, {entries} entries");
            let wanted = common::left_forest_ranked(text, order, &[], &mut want, &mut want_other);
            common::fill(&mut out);
            common::fill(&mut other);
            let (first, past) = (out.as_mut_ptr(), other.as_mut_ptr());
            let answer =
                unsafe { ffi::c::lyndon_left_forest_ranked(text.as_ptr(), n, order, forbidden, entries, first, n + 1, past, n + 1) };
            assert_eq!(
                (common::result(answer), &out, &other),
                (wanted, &want, &want_other),
                "left forest, order {order}, {entries} entries"
            );
        }
    }
}

/// The calls of a store: the table that is written, the text and every buffer guarded, exactly as long as needed, then one place short.
fn check_store(x: &[u8], ranks: &[u8], side: Side) {
    let own = ffi::TableName { group: 2, built_in: 0, number: 1 };
    let mut store = ffi::store_new();
    for entries in [0, 255, 256, 257] {
        let mut table = Guarded::new(&ranks[..entries], side);
        let written = ffi::store_write(&store, own.group, own.number, table.slice());
        assert_eq!(written.answer.number, if entries == 256 { 0 } else { 16 });
        store = written.store;
    }
    for places in [0, 255, 256] {
        let lent = vec![9; places];
        let mut out = Guarded::new(&lent, side);
        let answer = ffi::store_read(&store, own, out.slice());
        assert_eq!((answer.number, &*out.slice()), if places == 256 { (0, &ranks[..256]) } else { (4, &lent[..]) });
    }
    let mut text = Guarded::new(x, side);
    for (by, missing) in common::TABLE_USES.iter().flat_map(|by| [[0, 0], [1, 0], [0, 1]].map(|missing| (by, missing))) {
        let needs = (by.needs)(x.len());
        let lent = [0, 1].map(|b| vec![9; needs[b].saturating_sub(missing[b])]);
        let [mut first, mut second] = [0, 1].map(|b| Guarded::new(&lent[b], side));
        let [mut want_first, mut want_second] = lent;
        let got = (by.by_store)(&store, own, text.slice(), first.slice(), second.slice());
        let want = (by.by_table)(x, &ranks[..256], &mut want_first, &mut want_second);
        assert_eq!((got, first.slice(), second.slice()), (want, &mut want_first[..], &mut want_second[..]), "{}, {side:?}, {x:?}", by.name);
    }
}

#[test]
fn tables_of_a_store() {
    let mut numbers = Numbers::new(24);
    for _ in 0..200 {
        let n = numbers.below(20);
        let (x, ranks) = (numbers.text(b"aAbB", n), numbers.text(&[0, 1, 255], 257));
        check_store(&x, &ranks, Side::End);
        check_store(&x, &ranks, Side::Start);
    }
}

/// The calls that take an array, valid or not.
fn check_array(entries: &[u32], side: Side) {
    let n = entries.len();
    let what = format!("guarded array, {side:?}, {n} entries");
    let mut array = Guarded::new(entries, side);
    let fault = if n == 0 { Some((1, 0)) } else { faster::fault(entries) };
    let answer = fault.map_or(Ok(n), |(number, i)| Err(Error { number, position: i as u32 }));
    let written = answer.is_ok().then(|| faster::text_for(entries));
    let (first, past) = answer.is_ok().then(|| faster::right_forest(entries)).unzip();
    let (mut out, mut second) = (room(n, side), room(n, side));
    let got = common::reconstruct(array.slice(), out.slice());
    common::compare(&what, got, &[out.slice()], answer, &[written.as_deref()]);
    let got = common::right_forest(array.slice(), out.slice(), second.slice());
    common::compare(&what, got, &[out.slice(), second.slice()], answer, &[first.as_deref(), past.as_deref()]);
    if n > 0 {
        let mut cut = room(n - 1, side);
        common::fill(second.slice());
        for call in 0..3 {
            let got = match call {
                0 => common::reconstruct(array.slice(), cut.slice()),
                1 => common::right_forest(array.slice(), cut.slice(), second.slice()),
                _ => common::right_forest(array.slice(), second.slice(), cut.slice()),
            };
            common::compare(&what, got, &[cut.slice(), second.slice()], Err(Error { number: 4, position: 0 }), &[]);
        }
    }
}

/// Two texts in infinite order, both guarded, at either side.
fn check_compared(u: &[u8], v: &[u8]) {
    for (one, two) in [(Side::End, Side::End), (Side::End, Side::Start), (Side::Start, Side::End), (Side::Start, Side::Start)] {
        let (mut first, mut second) = (Guarded::new(u, one), Guarded::new(v, two));
        let got = common::compare_infinite(first.slice(), second.slice());
        let want = definitions::comparison_answer(u, v, faster::infinite_compare);
        common::compare_all(&format!("guarded, {one:?} and {two:?}, {u:?}, {v:?}"), got, &[], &want);
    }
}

#[test]
fn compared_texts() {
    let mut numbers = Numbers::new(27);
    for round in 0..2000 {
        let (n, m) = (numbers.below(20), numbers.below(20));
        let w = numbers.text(b"ab", 1 + round % 5);
        check_compared(&common::power(&w, n), &common::power(&w, m));
        check_compared(&numbers.text(b"ab", n), &numbers.text(b"aB", m));
    }
    for (n, m) in [(1, PAGE), (PAGE, PAGE - 1), (PAGE + 3, 3 * PAGE), (PAGE + 1, 2 * PAGE + 2)] {
        check_compared(&common::fibonacci(n), &common::fibonacci(m));
        check_compared(&common::power(b"abb", n), &common::power(b"abb", m));
    }
}

/// The prefixes of a word, Lyndon or not, in a buffer of exactly the places needed and, where there is one, with one place less.
fn check_prefixes(w: &[u8], side: Side) {
    let n = w.len();
    let mut word = Guarded::new(w, side);
    for missing in 0..=usize::from(n > 1) {
        let answer = match (n, missing, common::is_lyndon(w)) {
            (0, ..) => Err(1),
            (_, 0, true) => Ok(n - 1),
            (_, 0, false) => Err(17),
            _ => Err(4),
        };
        let written = answer.is_ok().then(|| faster::prefix_permutation(w));
        let mut out = room(n.saturating_sub(1) - missing, side);
        let got = common::prefix_permutation(word.slice(), out.slice());
        let answer = answer.map_err(|number| Error { number, position: 0 });
        common::compare(&format!("prefixes, guarded, {side:?}, {n} letters"), got, &[out.slice()], answer, &[written.as_deref()]);
    }
}

#[test]
fn prefixes_of_lyndon_words() {
    let mut numbers = Numbers::new(28);
    let short = (0..1500).map(|round| {
        let n = numbers.below(20);
        let x = numbers.text([b"ab".as_slice(), b"abcd", b"aAbB"][round % 3], n);
        if round % 4 == 0 {
            x
        } else {
            common::least_rotation(&x)
        }
    });
    let long = [64, 1023, 1024, 1025, 4099].into_iter().flat_map(|n| common::lyndon_families(n).into_iter().map(|(_, w)| w));
    for w in short.collect::<Vec<_>>().into_iter().chain(long) {
        check_prefixes(&w, Side::End);
        check_prefixes(&w, Side::Start);
    }
}

/// A program that reads one element past an end is stopped: this test starts itself again to do so.
#[test]
fn the_guard_is_real() {
    use std::os::unix::process::ExitStatusExt;
    for side in [Side::End, Side::Start] {
        let name = format!("{side:?}");
        if std::env::var("READ_PAST").as_deref() == Ok(&name) {
            let buffer = room(5, side);
            let past = if side == Side::End { buffer.content.wrapping_add(5) } else { buffer.content.wrapping_sub(1) };
            let read = unsafe { std::ptr::read_volatile(past) };
            println!("{read}");
            std::process::exit(0);
        }
        if std::env::var("READ_PAST").is_err() {
            let mut child = std::process::Command::new(std::env::current_exe().unwrap());
            let status = child.args(["--exact", "the_guard_is_real"]).env("READ_PAST", &name).output().unwrap().status;
            assert_eq!(status.signal(), Some(11));
        }
    }
}

#[test]
fn short_texts() {
    let mut numbers = Numbers::new(21);
    for round in 0..600 {
        let n = numbers.below(20);
        let x = numbers.text([b"ab".as_slice(), b"abcd", b"aAbB", b"@AZ[`az{"][round % 4], n);
        check_text(&x, Side::End);
        check_text(&x, Side::Start);
    }
}

// The measure of how far two words agree, by itself: crates/agreement_c, as `make agreement` writes it.
#[link(name = "agreement", kind = "static")]
extern "C" {
    fn agreement_common_prefix(keys: *const [u8; 256], u: *const u8, u_len: usize, v: *const u8, v_len: usize) -> usize;
    fn agreement_common_prefix_singly(keys: *const [u8; 256], u: *const u8, u_len: usize, v: *const u8, v_len: usize) -> usize;
}

const LONGEST: usize = 40;

/// The letters of all words of the two tests below; they have eight more letters than the words.
fn agreeing_letters() -> Vec<u8> {
    (0..LONGEST + 8).map(|i| b"TtacgGCAxb"[i * i % 10]).collect()
}

/// The word, and words with one letter of it replaced or two: each place in turn, by a letter that differs in a bit and by the same letter in the
/// other case, and behind it none, the next one, or one that may be in the next eight.
fn replaced(word: &[u8]) -> Vec<Vec<u8>> {
    let mut words = vec![word.to_vec()];
    for place in 0..word.len() {
        for (other, further) in [1 << (place % 8), 32].into_iter().flat_map(|bits| [(bits, 0), (bits, 1), (bits, 6)]) {
            let mut letters = word.to_vec();
            letters[place] ^= other;
            match letters.get_mut(place + further) {
                Some(letter) if further > 0 => *letter ^= 1 << (7 - place % 8),
                Some(_) => (),
                None => continue,
            }
            words.push(letters);
        }
    }
    words
}

/// Eight equal bytes at a time and one letter after another, against plain Rust: by the bytes, and by keys that fold cases.
fn check_agreement(u: &[u8], v: &[u8]) {
    let own: [u8; 256] = std::array::from_fn(|a| a as u8);
    for keys in [own, own.map(|a| a.to_ascii_uppercase())] {
        let want = u.iter().zip(v).take_while(|(a, b)| keys[usize::from(**a)] == keys[usize::from(**b)]).count();
        let (n, m) = (u.len(), v.len());
        let got = unsafe {
            (
                agreement_common_prefix(&keys, u.as_ptr(), n, v.as_ptr(), m),
                agreement_common_prefix_singly(&keys, u.as_ptr(), n, v.as_ptr(), m),
            )
        };
        assert_eq!(got, (want, want), "{u:?}, {v:?}");
    }
}

/// Both words end where a forbidden page starts, every pair of lengths.
#[test]
fn agreement_at_guarded_ends() {
    let letters = agreeing_letters();
    let mut firsts: Vec<Guarded<u8>> = (0..=LONGEST).map(|n| Guarded::new(&letters[..n], Side::End)).collect();
    for word in (0..=LONGEST).flat_map(|m| replaced(&letters[..m])) {
        let mut second = Guarded::new(&word, Side::End);
        for first in &mut firsts {
            check_agreement(first.slice(), second.slice());
        }
    }
}

/// The words start at every pair of offsets behind a forbidden page and have every pair of lengths. Their letters go on behind them, so that a
/// letter read past an end would agree.
#[test]
fn agreement_at_every_offset() {
    const OFFSETS: usize = 17;
    let letters = agreeing_letters();
    let behind = |offset: usize| Guarded::new(&[&vec![b'-'; offset], &letters[..]].concat(), Side::Start);
    let (mut firsts, mut seconds): (Vec<Guarded<u8>>, Vec<Guarded<u8>>) =
        ((0..OFFSETS).map(behind).collect(), (0..OFFSETS).map(behind).collect());
    for m in 0..=LONGEST {
        for word in replaced(&letters[..m]) {
            for (to, second) in seconds.iter_mut().enumerate() {
                second.slice()[to..to + m].copy_from_slice(&word);
                for (from, first) in firsts.iter_mut().enumerate() {
                    for n in 0..=LONGEST {
                        check_agreement(&first.slice()[from..from + n], &second.slice()[to..to + m]);
                    }
                }
                second.slice()[to..to + m].copy_from_slice(&letters[..m]);
            }
        }
    }
}

/// All texts of two letters, by byte and by rank, with a run list of exactly the places needed, which ends where the forbidden page starts,
/// and, where there is one, with one place less.
#[test]
fn exact_run_lists() {
    let mut table = vec![7; 256];
    table[usize::from(b'a')] = 9;
    for n in 1..=12 {
        let full = list_length(n);
        for (x, places) in common::all_texts(b"ab", n).flat_map(|x| (full.saturating_sub(1)..=full).map(move |places| (x.clone(), places)))
        {
            let mut text = Guarded::new(&x, Side::End);
            let (mut work, mut list) = (room(2 * n, Side::End), room(places, Side::End));
            let got = common::runs(text.slice(), work.slice(), list.slice());
            let want = definitions::runs_answer(&x, 2 * n, places);
            common::compare_all(&format!("runs of {x:?}, {places} places"), got, &[work.slice(), list.slice()], &want);
            let got = common::runs_ranked(text.slice(), &table, work.slice(), list.slice());
            let want = definitions::runs_ranked_answer(&x, &table, 2 * n, places);
            common::compare_all(&format!("ranked runs of {x:?}, {places} places"), got, &[work.slice(), list.slice()], &want);
        }
    }
}

#[test]
fn families() {
    for n in [9, 64, 1023, 1024, 4096, 4099] {
        for (_, x) in common::families(n) {
            check_text(&x, Side::End);
            check_text(&x, Side::Start);
        }
    }
}

#[test]
fn damaged_arrays() {
    let mut numbers = Numbers::new(22);
    for _ in 0..1500 {
        let n = 1 + numbers.below(40);
        let x = numbers.text(b"ab", n);
        let mut a = faster::array(0, &x);
        for _ in 0..numbers.below(3) {
            let i = numbers.below(n);
            a[i] = numbers.pick(&[0, 1, n as u32, (n - i) as u32, (n - i) as u32 + 1, u32::MAX, u32::MAX - i as u32]);
        }
        check_array(&a, Side::End);
        check_array(&a, Side::Start);
    }
}

#[test]
fn reader() {
    let mut numbers = Numbers::new(23);
    let pieces: [&[u8]; 14] = [b">", b"m", b"m1 x", b"\n", b"\r\n", b"\r", b"A", b"acgt", b"ACGTACGT", b"-", b">", b" ", b"\t", b"\x80"];
    for round in 0..4000 {
        let mut input = if round % 8 == 0 { vec![] } else { b">m".to_vec() };
        for _ in 0..numbers.below(12) {
            input.extend(numbers.pick(&pieces));
        }
        if round % 50 == 0 {
            let letters = numbers.pick(&[MAX_LETTERS - 1, MAX_LETTERS, MAX_LETTERS + 1, MAX_INPUT - 4, MAX_INPUT - 3, MAX_INPUT - 2]);
            input = [b">m\n".as_slice(), &numbers.text(b"ACGTacgt", letters)].concat();
        }
        for side in [Side::End, Side::Start] {
            let mut given = Guarded::new(&input, side);
            for places in [MAX_LETTERS, MAX_LETTERS - 1, 0] {
                let mut letters = Guarded::new(&vec![0u8; places], side);
                let got = common::read_fasta(given.slice(), letters.slice());
                common::compare_all("guarded reader", got, &[letters.slice()], &definitions::read_fasta(&input, places));
            }
        }
    }
}
