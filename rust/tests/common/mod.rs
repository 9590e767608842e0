//! Calls of the library with every buffer compared in full, and texts to call it on.
#![allow(dead_code)]

pub mod json;
pub mod lister;

use crate::definitions::{self, built_in, default_answer, list_length, Expected};
use lyndon::Error;
use std::fmt::Debug;

/// The C interface with slices for pointers, as the crate itself has it: here any order number and any table can be asked for, and the
/// answer is seen whole.
#[path = "../../src/ffi.rs"]
pub mod ffi;

/// What a call answers that counts no comparisons.
pub fn result(answer: ffi::Answer) -> Result<usize, Error> {
    assert_eq!(answer.comparisons, 0, "comparisons of a call that counts none, or of a refusal");
    match answer.number {
        0 => Ok(answer.value as usize),
        number => Err(Error { number, position: answer.value }),
    }
}

/// What the factor list of `n` letters answers: the count, and the comparisons, at most 2n − 2.
pub fn factor_result(n: usize, answer: ffi::Answer) -> Result<(usize, u32), Error> {
    if answer.number != 0 {
        return Err(result(answer).unwrap_err());
    }
    assert!(answer.comparisons as usize + 2 <= 2 * n, "{} comparisons for {n} letters", answer.comparisons);
    Ok((answer.value as usize, answer.comparisons))
}

/// Numbers that no call leaves by chance.
pub trait Filler: Copy + PartialEq + Debug {
    fn filler(i: usize) -> Self;
}

impl Filler for u32 {
    fn filler(i: usize) -> u32 {
        0xa5a5_0000 ^ (i as u32).wrapping_mul(0x9e37_79b1)
    }
}

impl Filler for u8 {
    fn filler(i: usize) -> u8 {
        (i as u8).wrapping_mul(29) ^ 0x81
    }
}

pub fn fill<T: Filler>(buffer: &mut [T]) {
    for (i, place) in buffer.iter_mut().enumerate() {
        *place = T::filler(i);
    }
}

/// Holds the answer and the whole content of every buffer to what is expected. A buffer of `written` that is absent was not stated.
pub fn compare<T: Filler, C: PartialEq + Debug>(
    what: &str,
    got: Result<C, Error>,
    buffers: &[&[T]],
    wanted: Result<C, Error>,
    written: &[Option<&[T]>],
) {
    assert_eq!(got, wanted, "answer of {what}");
    for (b, buffer) in buffers.iter().enumerate() {
        let kept = match (wanted.is_ok(), written.get(b)) {
            (false, _) => 0,
            (true, Some(Some(front))) => {
                assert!(buffer.len() >= front.len(), "buffer {b} of {what} is too short for what is expected");
                if let Some(i) = front.iter().zip(buffer.iter()).position(|(wanted, got)| wanted != got) {
                    panic!("buffer {b} of {what}: place {i} is {:?}, expected {:?}", buffer[i], front[i]);
                }
                front.len()
            }
            (true, _) => continue,
        };
        for (i, place) in buffer.iter().enumerate().skip(kept) {
            assert_eq!(*place, T::filler(i), "buffer {b} of {what}: place {i} has changed");
        }
    }
}

pub fn compare_all<T: Filler, C: Copy + PartialEq + Debug>(what: &str, got: Result<C, Error>, buffers: &[&[T]], expected: &Expected<T, C>) {
    match expected {
        Expected::Accepted { count, written } => {
            let fronts: Vec<Option<&[T]>> = written.iter().map(|w| Some(&w[..])).collect();
            compare(what, got, buffers, Ok(*count), &fronts);
        }
        Expected::Refused { number, position } => {
            compare(what, got, buffers, Err(Error { number: *number, position: *position }), &[]);
        }
    }
}

/// What a call on buffers of these lengths answers, and all of their content afterwards.
pub fn outcome<const N: usize, A>(places: [usize; N], call: impl FnOnce(&mut [Vec<u32>; N]) -> A) -> (A, [Vec<u32>; N]) {
    let mut buffers = places.map(|places| vec![0; places]);
    buffers.iter_mut().for_each(|buffer| fill(buffer));
    (call(&mut buffers), buffers)
}

/// A text as a failure shows it.
pub fn shown(x: &[u8]) -> String {
    format!("{} letters {:?}..", x.len(), &x[..x.len().min(60)])
}

/// Makes a call, and holds its input to what it was before.
pub fn kept<T: Copy + PartialEq, R>(input: &[T], call: impl FnOnce() -> R) -> R {
    let before = input.to_vec();
    let got = call();
    assert!(std::hint::black_box(input) == before, "a call has changed its input");
    got
}

// The calls, by the C interface. Factors, suffix table and left forest without an order are in the default order.

pub fn array8(text: &[u8], order: u32, out: &mut [u32]) -> Result<usize, Error> {
    fill(out);
    kept(text, || result(ffi::array_u8(text, order, out)))
}

pub fn array32(text: &[u32], order: u32, out: &mut [u32]) -> Result<usize, Error> {
    fill(out);
    kept(text, || result(ffi::array_u32(text, order, out)))
}

pub fn factors(text: &[u8], out: &mut [u32]) -> Result<(usize, u32), Error> {
    fill(out);
    kept(text, || factor_result(text.len(), ffi::factorization(text, out)))
}

pub fn suffix_table(text: &[u8], out: &mut [u32]) -> Result<usize, Error> {
    fill(out);
    kept(text, || result(ffi::suffix_table(text, out)))
}

pub fn left_forest(text: &[u8], first: &mut [u32], past: &mut [u32]) -> Result<usize, Error> {
    fill(first);
    fill(past);
    kept(text, || result(ffi::left_forest(text, first, past)))
}

pub fn right_forest(array: &[u32], first: &mut [u32], past: &mut [u32]) -> Result<usize, Error> {
    fill(first);
    fill(past);
    kept(array, || result(ffi::right_forest(array, first, past)))
}

pub fn reconstruct(array: &[u32], text: &mut [u32]) -> Result<usize, Error> {
    fill(text);
    kept(array, || result(ffi::reconstruct(array, text)))
}

pub fn runs(text: &[u8], work: &mut [u32], list: &mut [u32]) -> Result<usize, Error> {
    fill(work);
    fill(list);
    kept(text, || result(ffi::runs(text, work, list)))
}

/// A call of the runs: text, work buffer, list.
pub type RunsCall = fn(&[u8], &mut [u32], &mut [u32]) -> Result<usize, Error>;

/// A ranked call that writes one buffer and counts no comparisons: text, order number, table, buffer.
pub type RankedCall = fn(&[u8], u32, &[u8], &mut [u32]) -> Result<usize, Error>;

/// Each with its name.
pub const RANKED_CALLS: [(&str, RankedCall); 2] = [("ranked array", array_ranked), ("ranked suffix table", suffix_table_ranked)];

pub fn array_ranked(text: &[u8], order: u32, table: &[u8], out: &mut [u32]) -> Result<usize, Error> {
    fill(out);
    kept(text, || kept(table, || result(ffi::array_ranked(text, order, table, out))))
}

pub fn factors_ranked(text: &[u8], order: u32, table: &[u8], out: &mut [u32]) -> Result<(usize, u32), Error> {
    fill(out);
    kept(text, || kept(table, || factor_result(text.len(), ffi::factorization_ranked(text, order, table, out))))
}

pub fn suffix_table_ranked(text: &[u8], order: u32, table: &[u8], out: &mut [u32]) -> Result<usize, Error> {
    fill(out);
    kept(text, || kept(table, || result(ffi::suffix_table_ranked(text, order, table, out))))
}

pub fn left_forest_ranked(text: &[u8], order: u32, table: &[u8], first: &mut [u32], past: &mut [u32]) -> Result<usize, Error> {
    fill(first);
    fill(past);
    kept(text, || kept(table, || result(ffi::left_forest_ranked(text, order, table, first, past))))
}

pub fn runs_ranked(text: &[u8], table: &[u8], work: &mut [u32], list: &mut [u32]) -> Result<usize, Error> {
    fill(work);
    fill(list);
    kept(text, || kept(table, || result(ffi::runs_ranked(text, table, work, list))))
}

pub fn compare_infinite(u: &[u8], v: &[u8]) -> Result<usize, Error> {
    kept(u, || kept(v, || result(ffi::compare_infinite(u, v))))
}

pub fn prefix_permutation(word: &[u8], out: &mut [u32]) -> Result<usize, Error> {
    fill(out);
    kept(word, || result(ffi::prefix_permutation(word, out)))
}

pub fn read_fasta(input: &[u8], letters: &mut [u8]) -> Result<usize, Error> {
    fill(letters);
    kept(input, || result(ffi::read_fasta(input, letters)))
}

/// A use of a table of a store: store, table, text, two buffers. What writes one buffer has no need of the second.
pub type ByStore = fn(&ffi::Store, ffi::TableName, &[u8], &mut [u32], &mut [u32]) -> ffi::Answer;

/// The ranked call that does the same in order 2: text, table, two buffers.
pub type ByTable = fn(&[u8], &[u8], &mut [u32], &mut [u32]) -> ffi::Answer;

/// The call without an order, which does the same by built-in table 1: text, two buffers.
pub type ByDefault = fn(&[u8], &mut [u32], &mut [u32]) -> ffi::Answer;

pub struct TableUse {
    pub name: &'static str,
    pub by_store: ByStore,
    pub by_table: ByTable,
    /// None of the array, which always takes an order, and of the runs, which take none and go by equal bytes.
    pub by_default: Option<ByDefault>,
    /// The places of each buffer that `n` letters need.
    pub needs: fn(usize) -> [usize; 2],
    /// The refusal where a buffer has fewer.
    pub short: [u32; 2],
}

pub static TABLE_USES: [TableUse; 5] = [
    TableUse {
        name: "array",
        by_store: |store, name, text, out, _| ffi::store_array(store, name, text, out),
        by_table: |text, table, out, _| ffi::array_ranked(text, 2, table, out),
        by_default: None,
        needs: |n| [n, 0],
        short: [4, 4],
    },
    TableUse {
        name: "factors",
        by_store: |store, name, text, out, _| ffi::store_factorization(store, name, text, out),
        by_table: |text, table, out, _| ffi::factorization_ranked(text, 2, table, out),
        by_default: Some(|text, out, _| ffi::factorization(text, out)),
        needs: |n| [n, 0],
        short: [4, 4],
    },
    TableUse {
        name: "suffix table",
        by_store: |store, name, text, out, _| ffi::store_suffix_table(store, name, text, out),
        by_table: |text, table, out, _| ffi::suffix_table_ranked(text, 2, table, out),
        by_default: Some(|text, out, _| ffi::suffix_table(text, out)),
        needs: |n| [n, 0],
        short: [4, 4],
    },
    TableUse {
        name: "left forest",
        by_store: ffi::store_left_forest,
        by_table: |text, table, first, past| ffi::left_forest_ranked(text, 2, table, first, past),
        by_default: Some(ffi::left_forest),
        needs: |n| [n, n],
        short: [4, 4],
    },
    TableUse {
        name: "runs",
        by_store: ffi::store_runs,
        by_table: ffi::runs_ranked,
        by_default: None,
        needs: |n| [2 * n, list_length(n)],
        short: [5, 4],
    },
];

/// The calls without an order on buffers of these lengths, the second that of the left forest's PAST: answers, and all that the buffers hold
/// afterwards, are those of order 2 by built-in table 1, given the table and by the store (document 02, E12).
pub fn check_default_by_table(x: &[u8], places: [usize; 2]) {
    let (store, name) = (ffi::store_new(), ffi::TableName { group: 1, built_in: 1, number: 1 });
    for by in &TABLE_USES {
        let Some(by_default) = by.by_default else { continue };
        let got = outcome(places, |[first, second]| kept(x, || by_default(x, first, second)));
        let by_table = outcome(places, |[first, second]| (by.by_table)(x, &built_in(1), first, second));
        let by_store = outcome(places, |[first, second]| (by.by_store)(&store, name, x, first, second));
        assert_eq!((got.0, got.0), (by_table.0, by_store.0), "{} of {}, {places:?} places", by.name, shown(x));
        assert!(got == by_table && got == by_store, "a buffer of {} of {}, {places:?} places", by.name, shown(x));
    }
}

/// Whether factors, suffix table and left forest in the default order are others than in order 0: in answer, comparisons or content.
pub fn moved_by_default(x: &[u8], places: [usize; 2]) -> [bool; 3] {
    let [out, _] = places;
    [
        outcome([out], |[out]| factors(x, out)) != outcome([out], |[out]| factors_ranked(x, 0, &[], out)),
        outcome([out], |[out]| suffix_table(x, out)) != outcome([out], |[out]| suffix_table_ranked(x, 0, &[], out)),
        outcome(places, |[first, past]| left_forest(x, first, past))
            != outcome(places, |[first, past]| left_forest_ranked(x, 0, &[], first, past)),
    ]
}

/// The calls without an order, by built-in table 1 and by the definitions.
pub fn check_default(x: &[u8], places: [usize; 2]) {
    check_default_by_table(x, places);
    let what = format!("{}, {places:?} places, in the default order", shown(x));
    let (mut first, mut past) = (vec![0; places[0]], vec![0; places[1]]);
    let got = factors(x, &mut first);
    let want = default_answer(x, &places[..1], definitions::factors_accepted);
    compare_all(&format!("factors of {what}"), got, &[&first], &want);
    let got = suffix_table(x, &mut first);
    let want = default_answer(x, &places[..1], definitions::suffix_table_accepted);
    compare_all(&format!("suffix table of {what}"), got, &[&first], &want);
    let got = left_forest(x, &mut first, &mut past);
    let want = default_answer(x, &places, definitions::left_forest_accepted);
    compare_all(&format!("left forest of {what}"), got, &[&first, &past], &want);
}

// Texts

/// A generator of numbers with a fixed seed (xorshift64*).
pub struct Numbers(u64);

impl Numbers {
    pub fn new(seed: u64) -> Numbers {
        Numbers(seed.wrapping_mul(0x9e37_79b9_7f4a_7c15) | 1)
    }

    /// Numbers for a text: others for another text, also of the same length.
    pub fn for_text(x: &[u8]) -> Numbers {
        Numbers::new(x.iter().fold(x.len() as u64, |seed, &letter| seed.wrapping_mul(0x0100_0000_01b3) ^ u64::from(letter)))
    }

    pub fn next(&mut self) -> u64 {
        self.0 ^= self.0 >> 12;
        self.0 ^= self.0 << 25;
        self.0 ^= self.0 >> 27;
        self.0.wrapping_mul(0x2545_f491_4f6c_dd1d)
    }

    /// Below `n`.
    pub fn below(&mut self, n: usize) -> usize {
        ((self.next() >> 33) as usize) % n
    }

    pub fn pick<T: Copy>(&mut self, from: &[T]) -> T {
        from[self.below(from.len())]
    }

    pub fn text(&mut self, alphabet: &[u8], n: usize) -> Vec<u8> {
        (0..n).map(|_| self.pick(alphabet)).collect()
    }

    /// All bytes, in any order.
    pub fn shuffled_bytes(&mut self) -> Vec<u8> {
        let mut bytes: Vec<u8> = (0..=255).collect();
        for i in (1..bytes.len()).rev() {
            bytes.swap(i, self.below(i + 1));
        }
        bytes
    }
}

/// All texts of n letters over an alphabet.
pub fn all_texts(alphabet: &[u8], n: usize) -> impl Iterator<Item = Vec<u8>> + '_ {
    let k = alphabet.len();
    (0..k.pow(n as u32)).map(move |mut number| {
        (0..n)
            .map(|_| {
                let letter = alphabet[number % k];
                number /= k;
                letter
            })
            .collect()
    })
}

/// What a ranked call is given.
pub struct RankedInput {
    pub text: Vec<u8>,
    pub order: u32,
    pub table: Vec<u8>,
}

/// Three inputs on which a ranked call answers what it answers on `x` in order 0: `x` in order 0 and its complement in order 1, with tables
/// that are not to be looked at, and in order 2 letters whose ranks are `x`, several to a rank where `x` leaves some over.
pub fn ranked_inputs(numbers: &mut Numbers, x: &[u8]) -> [RankedInput; 3] {
    let mut unused_table = || {
        let entries = numbers.pick(&[0, 255, 256, 257]);
        numbers.text(&[0, 1, 255], entries)
    };
    let rising = RankedInput { text: x.to_vec(), order: 0, table: unused_table() };
    let falling = RankedInput { text: x.iter().map(|&letter| 255 - letter).collect(), order: 1, table: unused_table() };

    let mut ranks = x.to_vec();
    ranks.sort_unstable();
    ranks.dedup();
    let (mut table, mut letters) = (vec![0; 256], vec![vec![]; 256]);
    for (i, letter) in numbers.shuffled_bytes().into_iter().enumerate() {
        let rank = if i < ranks.len() { ranks[i] } else { numbers.pick(if ranks.is_empty() { &[0] } else { &ranks }) };
        table[usize::from(letter)] = rank;
        letters[usize::from(rank)].push(letter);
    }
    let text = x.iter().map(|&rank| numbers.pick(&letters[usize::from(rank)])).collect();
    [rising, falling, RankedInput { text, order: 2, table }]
}

/// The text with each letter in either case.
pub fn in_either_case(numbers: &mut Numbers, x: &[u8]) -> Vec<u8> {
    x.iter().map(|letter| numbers.pick(&[letter.to_ascii_uppercase(), letter.to_ascii_lowercase()])).collect()
}

pub fn fibonacci(n: usize) -> Vec<u8> {
    let (mut a, mut b) = (b"a".to_vec(), b"ab".to_vec());
    while b.len() < n {
        let next = [&b[..], &a[..]].concat();
        a = b;
        b = next;
    }
    b.truncate(n);
    b
}

pub fn thue_morse(n: usize) -> Vec<u8> {
    (0..n).map(|i: usize| b'a' + (i.count_ones() % 2) as u8).collect()
}

pub fn zimin(n: usize) -> Vec<u8> {
    (1..=n).map(|i: usize| b'a' + i.trailing_zeros() as u8).collect()
}

pub fn power(w: &[u8], n: usize) -> Vec<u8> {
    w.iter().copied().cycle().take(n).collect()
}

/// w^k c w^m d of n letters.
pub fn two_powers(w: &[u8], n: usize) -> Vec<u8> {
    let half = n / 2;
    let mut text = power(w, half);
    text.extend(power(w, n - half));
    if half > 0 {
        text[half - 1] = b'c';
    }
    if n > 0 {
        text[n - 1] = b'd';
    }
    text
}

/// Whether a text is a Lyndon word, by number: it has one factor.
pub fn is_lyndon(x: &[u8]) -> bool {
    definitions::duval(0, x).0.len() == 1
}

/// The least rotation, by number: a Lyndon word where the text is no power of a shorter word.
pub fn least_rotation(x: &[u8]) -> Vec<u8> {
    let (starts, _) = definitions::duval(0, &[x, x].concat());
    let last = starts.into_iter().rfind(|&start| (start as usize) < x.len()).unwrap_or(0);
    let mut rotated = x.to_vec();
    rotated.rotate_left(last as usize);
    rotated
}

/// Random letters, gaps and tandem repeats in turn.
pub fn repetitive(numbers: &mut Numbers, n: usize) -> Vec<u8> {
    let mut text = vec![];
    while text.len() < n {
        let k = 1 + numbers.below(n / 8 + 2);
        let unit_length = 1 + numbers.below(12);
        let unit = numbers.text(b"ACGT", unit_length);
        match numbers.below(3) {
            0 => text.extend(numbers.text(b"ACGT", k)),
            1 => text.extend(power(b"N", k)),
            _ => text.extend(power(&unit, k)),
        }
    }
    text.truncate(n);
    text
}

/// The families of texts that are known to be hard, of n letters, with a name for each.
pub fn families(n: usize) -> Vec<(String, Vec<u8>)> {
    let mut numbers = Numbers::new(77);
    let half = n / 2;
    let mut hard_a = power(b"a", n);
    let mut hard_ab = [power(b"ab", half), power(b"ab", n - half)].concat();
    let mut end_b = power(b"a", n);
    let mut agreeing = power(b"b", n);
    if n >= 8 {
        hard_a[half - 1] = b'b';
        hard_a[n - 1] = b'b';
        hard_ab[half - 2] = b'c';
        hard_ab[half - 1] = b'b';
        hard_ab[n - 1] = b'c';
        end_b[n - 1] = b'b';
        agreeing[(n - 3) / 2] = b'd';
        agreeing[n - 3] = b'a';
        agreeing[n - 1] = b'c';
    }
    let turned = |x: &[u8]| x.iter().map(|&c| b'z' - (c - b'a')).collect::<Vec<u8>>();
    let mut list = vec![
        ("fibonacci".to_string(), fibonacci(n)),
        ("thue-morse".to_string(), thue_morse(n)),
        ("zimin".to_string(), zimin(n)),
        ("equal letters".to_string(), power(b"a", n)),
        ("a^n b".to_string(), end_b),
        ("(ab)^k".to_string(), power(b"ab", n)),
        ("(aab)^k".to_string(), power(b"aab", n)),
        ("(ab)^k c (ab)^m d".to_string(), two_powers(b"ab", n)),
        ("(aabab)^k c (aabab)^m d".to_string(), two_powers(b"aabab", n)),
        ("(abb)^k c (abb)^m d".to_string(), two_powers(b"abb", n)),
        ("a^(m-1) b a^m b".to_string(), hard_a),
        ("(ab)^k cb (ab)^k c".to_string(), hard_ab),
        ("b^m d b^m a b c".to_string(), agreeing),
        ("dna, gaps and repeats".to_string(), repetitive(&mut numbers, n)),
    ];
    let turned: Vec<_> = list[..13].iter().map(|(name, x)| (format!("{name}, turned"), turned(x))).collect();
    list.extend(turned);
    list.push(("random, 2 letters".to_string(), numbers.text(b"ab", n)));
    list.push(("random, 4 letters".to_string(), numbers.text(b"ACGT", n)));
    let bytes: Vec<u8> = (0..=255).collect();
    list.push(("random bytes".to_string(), numbers.text(&bytes, n)));
    list.push(("random, 4 letters, either case".to_string(), numbers.text(b"ACGTacgt", n)));
    list.push(("fibonacci, either case".to_string(), in_either_case(&mut numbers, &fibonacci(n))));
    list
}

/// Lyndon words of n letters, at least 16, with a name for each: the least rotations of the families, where these are no powers, and words of
/// many periods.
pub fn lyndon_families(n: usize) -> Vec<(String, Vec<u8>)> {
    let rotated = families(n).into_iter().map(|(name, x)| (format!("{name}, least rotation"), least_rotation(&x)));
    let mut list: Vec<_> = rotated.filter(|(_, x)| is_lyndon(x)).collect();
    let m = (n as f64).sqrt() as usize;
    let a_b = |m: usize| [power(b"a", m), b"b".to_vec()].concat();
    for (name, front, unit, end) in [
        ("a b^(n-1)", b"a".to_vec(), b"b".to_vec(), b"b"),
        ("(ab)^k c", vec![], a_b(1), b"c"),
        ("a^m b (ab)^k c", a_b(n / 2), a_b(1), b"c"),
        ("a^m b (a^(m-1) b)^k c", a_b(m), a_b(m - 1), b"c"),
        ("a fibonacci c", b"a".to_vec(), fibonacci(n), b"c"),
        ("half zimin", vec![], zimin(n), b"z"),
    ] {
        let behind = power(&unit, n - 1 - front.len());
        list.push((name.to_string(), [&front[..], &behind, end].concat()));
    }
    assert!(list.iter().all(|(_, x)| is_lyndon(x)));
    list
}
