//! Lyndon arrays and what stands on them.
//!
//! A text is a row of 1 to 1,048,576 letters, positions count from 0. Each call has two forms: one that allocates what it returns, and
//! one, named `.._into`, that writes into buffers of the caller and returns the count. The second form asks for buffers of the lengths that
//! its description names; places past those written keep their content, and a call that refuses changes no buffer. The factorization
//! also returns, in both forms, the number of letter comparisons of Duval's scan.
//!
//! The calls on texts of bytes have a further form, named `.._ranked`, that can compare letters by ranks of the caller's own: where an order
//! is asked for, give an [`Order`] or `&`[`Ranks`].
//!
//! Where none is asked for, in [`factorization`], [`suffix_table`] and [`left_forest`], letters are compared in the default order, by rank:
//! `a` to `z` as `A` to `Z`, every other letter by its number. Letters go by number where that is asked for:
//! `factorization_ranked(text, Order::Rising)`. A factorization and a Lyndon array go together only where both are in one order; the ranks of the
//! default order are [`Ranks::default`]. [`runs`] depend on no order, only on which bytes are equal: there `a` and `A` are two letters.
//!
//! [`compare_infinite`] and [`prefix_permutation`] are about the infinite order, in which endless copies of two texts are compared. They take no
//! order either, and always compare letters by number, never in the default order.
//!
//! Two groups of users can keep their ranks in one [`TableStore`], and call by the tables that stand there: each group by its own and by two
//! built-in ones, never by the other group's.
//!
//! The functions behind these wrappers are proved to do what the definitions say, for every input. The wrappers themselves are plain Rust.
//!
//! ```
//! use lyndon::{lyndon_array, runs, Order, Run};
//!
//! assert_eq!(lyndon_array(b"abab", Order::Rising)?, [2, 1, 2, 1]);
//! assert_eq!(lyndon_array(b"bab", Order::Falling)?, [2, 1, 1]);
//! assert_eq!(runs(b"aabaab")?, [
//!     Run { start: 0, last: 1, period: 1 },
//!     Run { start: 0, last: 5, period: 3 },
//!     Run { start: 3, last: 4, period: 1 },
//! ]);
//! # Ok::<(), lyndon::Error>(())
//! ```
#![deny(unsafe_code)]
#![warn(missing_docs)]

mod error;
#[allow(unsafe_code)]
mod ffi;
mod ranks;
mod store;

pub use error::Error;
pub use ranks::{GroupError, LetterOrder, Ranks};
pub use store::{Group, Group1, Group2, GroupTables, Table, TableStore};

use std::cmp::Ordering;

/// The largest number of letters of a text, or of entries of an array.
pub const MAX_LENGTH: usize = 1_048_576;
/// The largest number of bytes of a FASTA input.
pub const MAX_INPUT: usize = 16_384;
/// The largest number of letters that [`read_fasta`] reads, and the length of the buffer that [`read_fasta_into`] asks for.
pub const MAX_LETTERS: usize = 4_096;
/// The numbers that the work buffer of [`runs_into`] and [`runs_ranked_into`] needs for each letter of the text.
pub const WORK_PLACES: usize = 2;

/// The numbers that the list of [`runs_into`] and [`runs_ranked_into`] needs for a text of `n` letters: three for each of the at most `n - 1`
/// runs that it has, so none for one letter; 0 for an empty text too, which is refused.
///
/// ```
/// assert_eq!(lyndon::run_list_length(6), 15);
/// assert_eq!(lyndon::run_list_length(1), 0);
/// assert_eq!(lyndon::run_list_length(0), 0);
/// ```
pub const fn run_list_length(n: usize) -> usize {
    n.saturating_sub(1).saturating_mul(3)
}

/// How two letters compare. In both orders a proper prefix is smaller than the longer word. Neither is the default order of the calls that
/// take none: that is by rank, [`Ranks::default`].
#[derive(Clone, Copy, Debug, PartialEq, Eq, Hash)]
pub enum Order {
    /// By number.
    Rising,
    /// By number, turned round.
    Falling,
}

impl Order {
    /// The number that the C interface has for it: 0 or 1.
    pub fn number(self) -> u32 {
        match self {
            Order::Rising => 0,
            Order::Falling => 1,
        }
    }
}

/// A maximal repetition: a span whose smallest period is at most half its length, and which no neighbour letter continues.
#[derive(Clone, Copy, Debug, PartialEq, Eq, PartialOrd, Ord, Hash)]
pub struct Run {
    /// The first position.
    pub start: u32,
    /// The last position.
    pub last: u32,
    /// The smallest period.
    pub period: u32,
}

impl Run {
    /// The span as a range of positions.
    ///
    /// ```
    /// let run = lyndon::Run { start: 1, last: 4, period: 2 };
    /// assert_eq!(&b"xabab"[run.range()], b"abab");
    /// ```
    pub fn range(&self) -> std::ops::Range<usize> {
        self.start as usize..self.last as usize + 1
    }
}

/// The Lyndon factorization of a text, and the number of letter comparisons of Duval's scan.
#[derive(Clone, Debug, PartialEq, Eq)]
pub struct Factorization {
    /// The starts of the factors.
    pub starts: Vec<u32>,
    /// How many times Duval's scan compares two letters of the text. A question for less, equal or greater counts once; there are at most
    /// 2n − 2.
    pub comparisons: u32,
}

/// What [`factorization_into`] and [`factorization_ranked_into`] return.
#[derive(Clone, Copy, Debug, PartialEq, Eq, Hash)]
pub struct FactorCount {
    /// The number of factors.
    pub count: usize,
    /// The number of letter comparisons, as in [`Factorization`].
    pub comparisons: u32,
}

/// A forest of cuts. A position that starts a factor holds itself in both rows; at any other position `j` exactly one cut `u·v` falls
/// before `j`: `first[j]` is the start of `u`, `past[j]` the end of `v` (one past its last position).
#[derive(Clone, Debug, PartialEq, Eq)]
pub struct Forest {
    /// For each position the start of `u`.
    pub first: Vec<u32>,
    /// For each position the end of `v`.
    pub past: Vec<u32>,
}

fn counted(answer: ffi::Answer) -> Result<usize, Error> {
    match answer.number {
        0 => Ok(answer.value as usize),
        number => Err(Error { number, position: answer.value }),
    }
}

fn factors_counted(answer: ffi::Answer) -> Result<FactorCount, Error> {
    counted(answer).map(|count| FactorCount { count, comparisons: answer.comparisons })
}

/// Room for the numbers that a text of `n` letters needs; no more than the longest text does, since a longer one is refused before its
/// buffers are measured.
fn room(n: usize, needed: impl Fn(usize) -> usize) -> Vec<u32> {
    vec![0; needed(n.min(MAX_LENGTH))]
}

/// A place for each letter.
fn row(n: usize) -> Vec<u32> {
    room(n, |n| n)
}

fn filled(n: usize, call: impl FnOnce(&mut [u32]) -> Result<usize, Error>) -> Result<Vec<u32>, Error> {
    let mut out = row(n);
    let count = call(&mut out)?;
    out.truncate(count);
    Ok(out)
}

fn all_factors(n: usize, call: impl FnOnce(&mut [u32]) -> Result<FactorCount, Error>) -> Result<Factorization, Error> {
    let mut comparisons = 0;
    let starts = filled(n, |out| {
        let found = call(out)?;
        comparisons = found.comparisons;
        Ok(found.count)
    })?;
    Ok(Factorization { starts, comparisons })
}

fn forest(n: usize, call: impl FnOnce(&mut [u32], &mut [u32]) -> Result<usize, Error>) -> Result<Forest, Error> {
    let (mut first, mut past) = (row(n), row(n));
    call(&mut first, &mut past)?;
    Ok(Forest { first, past })
}

fn all_runs(n: usize, call: impl FnOnce(&mut [u32], &mut [u32]) -> Result<usize, Error>) -> Result<Vec<Run>, Error> {
    let (mut work, mut list) = (room(n, |n| WORK_PLACES * n), room(n, run_list_length));
    let count = call(&mut work, &mut list)?;
    Ok(listed(&list[..3 * count]).collect())
}

/// The Lyndon array of a text of bytes: entry `i` is the length of the longest Lyndon word that starts at `i`. The array that goes with
/// [`factorization`], which takes no order, is [`lyndon_array_ranked`] by [`Ranks::default`].
///
/// # Errors
///
/// Refuses an empty text (refusal 1) and one of more than [`MAX_LENGTH`] letters (2).
///
/// ```
/// use lyndon::{lyndon_array, Order};
/// assert_eq!(lyndon_array(b"ba", Order::Rising)?, [1, 1]);
/// assert_eq!(lyndon_array(b"ba", Order::Falling)?, [2, 1]);
/// assert_eq!(lyndon_array(b"", Order::Rising).unwrap_err().number, 1);
/// # Ok::<(), lyndon::Error>(())
/// ```
pub fn lyndon_array(text: &[u8], order: Order) -> Result<Vec<u32>, Error> {
    filled(text.len(), |out| lyndon_array_into(text, order, out))
}

/// [`lyndon_array`] into a buffer of at least `n` places. The count is `n`.
///
/// # Errors
///
/// Refuses an empty text (refusal 1) and one of more than [`MAX_LENGTH`] letters (2); also where `out` is too short (4).
///
/// ```
/// use lyndon::{lyndon_array_into, Order};
/// let mut out = [7; 6];
/// assert_eq!(lyndon_array_into(b"abab", Order::Rising, &mut out)?, 4);
/// assert_eq!(out, [2, 1, 2, 1, 7, 7]);
/// assert_eq!(lyndon_array_into(b"abab", Order::Rising, &mut out[..3]).unwrap_err().number, 4);
/// # Ok::<(), lyndon::Error>(())
/// ```
pub fn lyndon_array_into(text: &[u8], order: Order, out: &mut [u32]) -> Result<usize, Error> {
    counted(ffi::array_u8(text, order.number(), out))
}

/// The Lyndon array of a text of 32-bit letters.
///
/// # Errors
///
/// Refuses an empty text (refusal 1) and one of more than [`MAX_LENGTH`] letters (2).
///
/// ```
/// use lyndon::{lyndon_array_u32, Order};
/// assert_eq!(lyndon_array_u32(&[70_000, 1, 70_000], Order::Rising)?, [1, 2, 1]);
/// # Ok::<(), lyndon::Error>(())
/// ```
pub fn lyndon_array_u32(text: &[u32], order: Order) -> Result<Vec<u32>, Error> {
    filled(text.len(), |out| lyndon_array_u32_into(text, order, out))
}

/// [`lyndon_array_u32`] into a buffer of at least `n` places. The count is `n`.
///
/// # Errors
///
/// Refuses an empty text (refusal 1) and one of more than [`MAX_LENGTH`] letters (2); also where `out` is too short (4).
pub fn lyndon_array_u32_into(text: &[u32], order: Order, out: &mut [u32]) -> Result<usize, Error> {
    counted(ffi::array_u32(text, order.number(), out))
}

/// The Lyndon factorization in the default order, by rank: `a` to `z` as `A` to `Z`, every other letter by its number. For another order call
/// [`factorization_ranked`], for letters by number `factorization_ranked(text, Order::Rising)`.
///
/// These are the starts of the factors: each factor is a Lyndon word and none is smaller than the next. Also how many letter comparisons
/// Duval's scan makes to find them. The array that goes with them is [`lyndon_array_ranked`] by [`Ranks::default`].
///
/// # Errors
///
/// Refuses an empty text (refusal 1) and one of more than [`MAX_LENGTH`] letters (2).
///
/// ```
/// let factors = lyndon::factorization(b"abbababaababbaba")?;
/// assert_eq!(factors.starts, [0, 3, 5, 7, 15]);
/// assert_eq!(factors.comparisons, 18);
///
/// // As `AB`, one Lyndon word; by number `B` comes before `a`.
/// use lyndon::{factorization, factorization_ranked, Order};
/// assert_eq!(factorization(b"aB")?.starts, [0]);
/// assert_eq!(factorization_ranked(b"aB", Order::Rising)?.starts, [0, 1]);
/// # Ok::<(), lyndon::Error>(())
/// ```
pub fn factorization(text: &[u8]) -> Result<Factorization, Error> {
    all_factors(text.len(), |out| factorization_into(text, out))
}

/// [`factorization`] into a buffer, in the default order, by rank: `a` to `z` as `A` to `Z`, every other letter by its number. For
/// another order call [`factorization_ranked_into`], for letters by number with `Order::Rising`.
///
/// The buffer has at least `n` places. The count is the number of factors.
///
/// # Errors
///
/// Refuses an empty text (refusal 1) and one of more than [`MAX_LENGTH`] letters (2); also where `out` is too short (4).
///
/// ```
/// use lyndon::{factorization_into, factorization_ranked_into, FactorCount, Order};
/// let mut out = [9; 4];
/// assert_eq!(factorization_into(b"aBAb", &mut out)?, FactorCount { count: 2, comparisons: 3 });
/// assert_eq!(out, [0, 2, 9, 9]);
/// assert_eq!(factorization_ranked_into(b"aBAb", Order::Rising, &mut out)?, FactorCount { count: 3, comparisons: 3 });
/// assert_eq!(out, [0, 1, 2, 9]);
/// # Ok::<(), lyndon::Error>(())
/// ```
pub fn factorization_into(text: &[u8], out: &mut [u32]) -> Result<FactorCount, Error> {
    factors_counted(ffi::factorization(text, out))
}

/// The Lyndon suffix table in the default order, by rank: `a` to `z` as `A` to `Z`, every other letter by its number. For another order call
/// [`suffix_table_ranked`], for letters by number `suffix_table_ranked(text, Order::Rising)`.
///
/// Entry `j` is the length of the longest Lyndon word that ends at `j`.
///
/// # Errors
///
/// Refuses an empty text (refusal 1) and one of more than [`MAX_LENGTH`] letters (2).
///
/// ```
/// use lyndon::{suffix_table, suffix_table_ranked, Order};
/// assert_eq!(suffix_table(b"babbababbaabb")?, [1, 1, 2, 3, 1, 2, 1, 2, 5, 1, 1, 3, 4]);
/// assert_eq!(suffix_table(b"aBAb")?, [1, 2, 1, 2]);
/// assert_eq!(suffix_table_ranked(b"aBAb", Order::Rising)?, [1, 1, 1, 2]);
/// # Ok::<(), lyndon::Error>(())
/// ```
pub fn suffix_table(text: &[u8]) -> Result<Vec<u32>, Error> {
    filled(text.len(), |out| suffix_table_into(text, out))
}

/// [`suffix_table`] into a buffer, in the default order, by rank: `a` to `z` as `A` to `Z`, every other letter by its number. For
/// another order call [`suffix_table_ranked_into`], for letters by number with `Order::Rising`.
///
/// The buffer has at least `n` places. The count is `n`.
///
/// # Errors
///
/// Refuses an empty text (refusal 1) and one of more than [`MAX_LENGTH`] letters (2); also where `out` is too short (4).
///
/// ```
/// use lyndon::{suffix_table_into, suffix_table_ranked_into, Order};
/// let mut out = [9; 3];
/// assert_eq!((suffix_table_into(b"aB", &mut out)?, out), (2, [1, 2, 9]));
/// assert_eq!((suffix_table_ranked_into(b"aB", Order::Rising, &mut out)?, out), (2, [1, 1, 9]));
/// # Ok::<(), lyndon::Error>(())
/// ```
pub fn suffix_table_into(text: &[u8], out: &mut [u32]) -> Result<usize, Error> {
    counted(ffi::suffix_table(text, out))
}

/// The left Lyndon forest in the default order, by rank: `a` to `z` as `A` to `Z`, every other letter by its number. For another order call
/// [`left_forest_ranked`], for letters by number `left_forest_ranked(text, Order::Rising)`.
///
/// Each factor of two letters or more is cut as `u·v`, `u` its longest proper Lyndon prefix, and `u` and `v` likewise.
///
/// # Errors
///
/// Refuses an empty text (refusal 1) and one of more than [`MAX_LENGTH`] letters (2).
///
/// ```
/// use lyndon::{left_forest, left_forest_ranked, Order};
/// let forest = left_forest(b"aabb")?;
/// assert_eq!(forest.first, [0, 0, 1, 0]);
/// assert_eq!(forest.past, [0, 3, 3, 4]);
/// assert_eq!(left_forest(b"aABb")?, forest);
/// // By number the two capitals come first: the factors are `a` and `ABb`.
/// assert_eq!(left_forest_ranked(b"aABb", Order::Rising)?.first, [0, 1, 1, 1]);
/// # Ok::<(), lyndon::Error>(())
/// ```
pub fn left_forest(text: &[u8]) -> Result<Forest, Error> {
    forest(text.len(), |first, past| left_forest_into(text, first, past))
}

/// [`left_forest`] into two buffers, in the default order, by rank: `a` to `z` as `A` to `Z`, every other letter by its number. For
/// another order call [`left_forest_ranked_into`], for letters by number with `Order::Rising`.
///
/// The buffers have at least `n` places each. The count is `n`.
///
/// # Errors
///
/// Refuses an empty text (refusal 1) and one of more than [`MAX_LENGTH`] letters (2); also where a buffer is too short (4).
///
/// ```
/// use lyndon::{left_forest_into, left_forest_ranked_into, Order};
/// let (mut first, mut past) = ([9; 3], [9; 3]);
/// assert_eq!(left_forest_into(b"aB", &mut first, &mut past)?, 2);
/// assert_eq!((first, past), ([0, 0, 9], [0, 2, 9]));
/// assert_eq!(left_forest_ranked_into(b"aB", Order::Rising, &mut first, &mut past)?, 2);
/// assert_eq!((first, past), ([0, 1, 9], [0, 1, 9]));
/// # Ok::<(), lyndon::Error>(())
/// ```
pub fn left_forest_into(text: &[u8], first: &mut [u32], past: &mut [u32]) -> Result<usize, Error> {
    counted(ffi::left_forest(text, first, past))
}

/// The right Lyndon forest of every text that has this Lyndon array: each factor of two letters or more is cut as `u·v`, `v` its longest
/// proper Lyndon suffix, and `u` and `v` likewise.
///
/// # Errors
///
/// Refuses an empty array (refusal 1), one of more than [`MAX_LENGTH`] entries (2), and one that no text has (6, 7, 8).
///
/// ```
/// use lyndon::{lyndon_array, right_forest, Order};
/// let forest = right_forest(&lyndon_array(b"aabb", Order::Rising)?)?;
/// assert_eq!(forest.first, [0, 0, 1, 1]);
/// assert_eq!(forest.past, [0, 4, 3, 4]);
/// # Ok::<(), lyndon::Error>(())
/// ```
pub fn right_forest(array: &[u32]) -> Result<Forest, Error> {
    forest(array.len(), |first, past| right_forest_into(array, first, past))
}

/// [`right_forest`] into two buffers of at least `n` places each. The count is `n`.
///
/// # Errors
///
/// Refuses an empty array (refusal 1), one of more than [`MAX_LENGTH`] entries (2), and one that no text has (6, 7, 8); also where a buffer
/// is too short (4).
pub fn right_forest_into(array: &[u32], first: &mut [u32], past: &mut [u32]) -> Result<usize, Error> {
    counted(ffi::right_forest(array, first, past))
}

/// A text of 32-bit letters that has this Lyndon array; each of the letters 0 to n − 1 is used once.
///
/// # Errors
///
/// Refuses an empty array (refusal 1), one of more than [`MAX_LENGTH`] entries (2), and one that no text has (6, 7, 8).
///
/// ```
/// assert_eq!(lyndon::reconstruct(&[2, 1, 5, 2, 1, 2, 1, 3, 2, 1])?, [8, 9, 3, 6, 7, 4, 5, 0, 1, 2]);
/// let error = lyndon::reconstruct(&[2, 2, 1]).unwrap_err();
/// assert_eq!((error.number, error.position), (8, 1));
/// # Ok::<(), lyndon::Error>(())
/// ```
pub fn reconstruct(array: &[u32]) -> Result<Vec<u32>, Error> {
    filled(array.len(), |out| reconstruct_into(array, out))
}

/// [`reconstruct`] into a buffer of at least `n` places. The count is `n`.
///
/// # Errors
///
/// Refuses an empty array (refusal 1), one of more than [`MAX_LENGTH`] entries (2), and one that no text has (6, 7, 8); also where `text`
/// is too short (4).
pub fn reconstruct_into(array: &[u32], text: &mut [u32]) -> Result<usize, Error> {
    counted(ffi::reconstruct(array, text))
}

/// All runs of a text, by start and then by last position.
///
/// # Errors
///
/// Refuses an empty text (refusal 1) and one of more than [`MAX_LENGTH`] letters (2).
///
/// ```
/// use lyndon::{runs, Run};
/// assert_eq!(runs(b"aaaa")?, [Run { start: 0, last: 3, period: 1 }]);
/// assert_eq!(runs(b"a")?, []);
/// # Ok::<(), lyndon::Error>(())
/// ```
pub fn runs(text: &[u8]) -> Result<Vec<Run>, Error> {
    all_runs(text.len(), |work, list| runs_into(text, work, list))
}

/// [`runs`] into a list of at least `3 (n - 1)` places ([`run_list_length`]), which for one letter may be empty: start, last position and period
/// of each run; [`listed`] reads them. The count is the number of runs. The work buffer has at least `2 n` places, and afterwards holds the
/// rising Lyndon array and then the falling one.
///
/// # Errors
///
/// Refuses an empty text (refusal 1) and one of more than [`MAX_LENGTH`] letters (2); also where `list` (4) or `work` (5) is too short.
///
/// ```
/// let (mut work, mut list) = ([0; 6], [0; 6]);
/// assert_eq!(lyndon::runs_into(b"aab", &mut work, &mut list)?, 1);
/// assert_eq!(list, [0, 1, 1, 0, 0, 0]);
/// assert_eq!(work, [3, 2, 1, 1, 1, 1]);
/// # Ok::<(), lyndon::Error>(())
/// ```
pub fn runs_into(text: &[u8], work: &mut [u32], list: &mut [u32]) -> Result<usize, Error> {
    counted(ffi::runs(text, work, list))
}

/// The runs that a list of numbers holds, three for each.
///
/// ```
/// let runs: Vec<_> = lyndon::listed(&[0, 3, 1]).collect();
/// assert_eq!(runs, [lyndon::Run { start: 0, last: 3, period: 1 }]);
/// ```
pub fn listed(numbers: &[u32]) -> impl Iterator<Item = Run> + '_ {
    numbers.chunks_exact(3).map(|run| Run { start: run[0], last: run[1], period: run[2] })
}

/// [`lyndon_array`] with letters compared in an [`Order`] or by [`Ranks`]. By ranks it is the rising Lyndon array of the row of ranks.
///
/// # Errors
///
/// Refuses an empty text (refusal 1) and one of more than [`MAX_LENGTH`] letters (2). Refusals 3 (order number) and 16 (length of the table)
/// cannot be met, here and in the other ranked calls: the types allow only orders that exist and tables of 256 ranks.
///
/// ```
/// use lyndon::{lyndon_array_ranked, Order, Ranks};
/// let ranks = Ranks::from_groups(&["Tt", "Gg", "Cc", "Aa"])?;
/// assert_eq!(lyndon_array_ranked(b"TaTAt", &ranks)?, [2, 1, 2, 1, 1]);
/// assert_eq!(lyndon_array_ranked(b"TaTAt", Order::Rising)?, [2, 1, 1, 2, 1]);
/// # Ok::<(), Box<dyn std::error::Error>>(())
/// ```
pub fn lyndon_array_ranked<'a>(text: &[u8], order: impl Into<LetterOrder<'a>>) -> Result<Vec<u32>, Error> {
    filled(text.len(), |out| lyndon_array_ranked_into(text, order, out))
}

/// [`lyndon_array_ranked`] into a buffer of at least `n` places. The count is `n`.
///
/// # Errors
///
/// Those of [`lyndon_array_into`].
pub fn lyndon_array_ranked_into<'a>(text: &[u8], order: impl Into<LetterOrder<'a>>, out: &mut [u32]) -> Result<usize, Error> {
    let order = order.into();
    counted(ffi::array_ranked(text, order.number(), order.table(), out))
}

/// [`factorization`] with letters compared in an [`Order`] or by [`Ranks`]. By ranks it is the rising factorization of the row of ranks.
///
/// # Errors
///
/// Those of [`factorization`].
///
/// ```
/// use lyndon::{factorization_ranked, Order, Ranks};
/// let ranks = Ranks::from_groups(&["Tt", "Gg", "Cc", "Aa"])?;
/// assert_eq!(factorization_ranked(b"TaTAt", &ranks)?.starts, [0, 2, 4]);
/// assert_eq!(factorization_ranked(b"TaTAt", Order::Falling)?.starts, [0, 1, 4]);
/// assert_eq!(factorization_ranked(b"abbababaababbaba", Order::Rising)?.comparisons, 18);
/// # Ok::<(), Box<dyn std::error::Error>>(())
/// ```
pub fn factorization_ranked<'a>(text: &[u8], order: impl Into<LetterOrder<'a>>) -> Result<Factorization, Error> {
    all_factors(text.len(), |out| factorization_ranked_into(text, order, out))
}

/// [`factorization_ranked`] into a buffer of at least `n` places. The count is the number of factors.
///
/// # Errors
///
/// Those of [`factorization_into`].
pub fn factorization_ranked_into<'a>(text: &[u8], order: impl Into<LetterOrder<'a>>, out: &mut [u32]) -> Result<FactorCount, Error> {
    let order = order.into();
    factors_counted(ffi::factorization_ranked(text, order.number(), order.table(), out))
}

/// [`suffix_table`] with letters compared in an [`Order`] or by [`Ranks`]. By ranks it is the rising suffix table of the row of ranks.
///
/// # Errors
///
/// Those of [`suffix_table`].
///
/// ```
/// use lyndon::{suffix_table_ranked, Ranks};
/// let ranks = Ranks::from_groups(&["Tt", "Gg", "Cc", "Aa"])?;
/// assert_eq!(suffix_table_ranked(b"TaTAt", &ranks)?, [1, 2, 1, 2, 1]);
/// # Ok::<(), Box<dyn std::error::Error>>(())
/// ```
pub fn suffix_table_ranked<'a>(text: &[u8], order: impl Into<LetterOrder<'a>>) -> Result<Vec<u32>, Error> {
    filled(text.len(), |out| suffix_table_ranked_into(text, order, out))
}

/// [`suffix_table_ranked`] into a buffer of at least `n` places. The count is `n`.
///
/// # Errors
///
/// Those of [`suffix_table_into`].
pub fn suffix_table_ranked_into<'a>(text: &[u8], order: impl Into<LetterOrder<'a>>, out: &mut [u32]) -> Result<usize, Error> {
    let order = order.into();
    counted(ffi::suffix_table_ranked(text, order.number(), order.table(), out))
}

/// [`left_forest`] with letters compared in an [`Order`] or by [`Ranks`]. By ranks it is the rising left forest of the row of ranks.
///
/// # Errors
///
/// Those of [`left_forest`].
///
/// ```
/// use lyndon::{left_forest_ranked, Ranks};
/// let forest = left_forest_ranked(b"bBaA", &Ranks::from_groups(&["Bb", "Aa"])?)?;
/// assert_eq!(forest.first, [0, 0, 1, 0]);
/// assert_eq!(forest.past, [0, 3, 3, 4]);
/// # Ok::<(), Box<dyn std::error::Error>>(())
/// ```
pub fn left_forest_ranked<'a>(text: &[u8], order: impl Into<LetterOrder<'a>>) -> Result<Forest, Error> {
    forest(text.len(), |first, past| left_forest_ranked_into(text, order, first, past))
}

/// [`left_forest_ranked`] into two buffers of at least `n` places each. The count is `n`.
///
/// # Errors
///
/// Those of [`left_forest_into`].
pub fn left_forest_ranked_into<'a>(
    text: &[u8],
    order: impl Into<LetterOrder<'a>>,
    first: &mut [u32],
    past: &mut [u32],
) -> Result<usize, Error> {
    let order = order.into();
    counted(ffi::left_forest_ranked(text, order.number(), order.table(), first, past))
}

/// [`runs`] where letters of one rank are equal: those of the row of ranks.
///
/// # Errors
///
/// Those of [`runs`].
///
/// ```
/// use lyndon::{runs_ranked, Ranks, Run};
/// // Purines and pyrimidines.
/// let ranks = Ranks::from_groups(&["AGag", "CTct"])?;
/// assert_eq!(runs_ranked(b"ACgt", &ranks)?, [Run { start: 0, last: 3, period: 2 }]);
/// # Ok::<(), Box<dyn std::error::Error>>(())
/// ```
pub fn runs_ranked(text: &[u8], ranks: &Ranks) -> Result<Vec<Run>, Error> {
    all_runs(text.len(), |work, list| runs_ranked_into(text, ranks, work, list))
}

/// [`runs_ranked`] into a list and a work buffer as [`runs_into`] has them. Afterwards the work buffer holds the Lyndon array rising by rank
/// and then the one falling by rank.
///
/// # Errors
///
/// Those of [`runs_into`].
pub fn runs_ranked_into(text: &[u8], ranks: &Ranks, work: &mut [u32], list: &mut [u32]) -> Result<usize, Error> {
    counted(ffi::runs_ranked(text, ranks.as_bytes(), work, list))
}

/// Compares two texts in the infinite order, letters by number.
///
/// Endless copies of `u` are compared with endless copies of `v` by the first letter that differs. Where they never differ, the longer
/// text is the smaller one. `Equal` is the answer exactly for equal texts.
///
/// # Errors
///
/// Refuses where either text is empty (refusal 1), then where either has more than [`MAX_LENGTH`] letters (2).
///
/// ```
/// use lyndon::compare_infinite;
/// use std::cmp::Ordering;
/// // `abaaba..` before `ababab..`, though `ab` is a prefix of `aba`.
/// assert_eq!(compare_infinite(b"aba", b"ab")?, Ordering::Less);
/// // `ababab..` both times: the longer text first.
/// assert_eq!(compare_infinite(b"ab", b"abab")?, Ordering::Greater);
/// assert_eq!(compare_infinite(b"ab", b"ab")?, Ordering::Equal);
/// // By number, capitals come before small letters.
/// assert_eq!(compare_infinite(b"B", b"a")?, Ordering::Less);
/// assert_eq!(compare_infinite(b"ab", b"").unwrap_err().number, 1);
/// # Ok::<(), lyndon::Error>(())
/// ```
pub fn compare_infinite(u: &[u8], v: &[u8]) -> Result<Ordering, Error> {
    counted(ffi::compare_infinite(u, v)).map(|count| count.cmp(&1))
}

/// The prefix standard permutation of a word that is a Lyndon word where letters are compared by number: the last positions of its proper
/// non-empty prefixes, 0 to n − 2, in the infinite order ([`compare_infinite`]), the smallest prefix first. For one letter it is empty.
///
/// # Errors
///
/// Refuses an empty text (refusal 1), one of more than [`MAX_LENGTH`] letters (2), and one that is not a Lyndon word by number (17).
///
/// ```
/// use lyndon::prefix_permutation;
/// assert_eq!(prefix_permutation(b"abacabade")?, [0, 2, 1, 4, 6, 5, 3, 7]);
/// // `aa` comes before `a`: endless copies are the same, and it is longer.
/// assert_eq!(prefix_permutation(b"aab")?, [1, 0]);
/// assert_eq!(prefix_permutation(b"a")?, []);
/// // By number `B` comes before `a`, so only one of these is a Lyndon word.
/// assert_eq!(prefix_permutation(b"Ba")?, [0]);
/// assert_eq!(prefix_permutation(b"aB").unwrap_err().number, 17);
/// # Ok::<(), lyndon::Error>(())
/// ```
pub fn prefix_permutation(word: &[u8]) -> Result<Vec<u32>, Error> {
    filled(word.len().saturating_sub(1), |out| prefix_permutation_into(word, out))
}

/// [`prefix_permutation`] into a buffer of at least `n - 1` places, which for one letter may be empty. The count is `n - 1`.
///
/// # Errors
///
/// Refuses an empty text (refusal 1) and one of more than [`MAX_LENGTH`] letters (2); also where `out` is too short (4), and then a text that is
/// not a Lyndon word by number (17).
///
/// ```
/// let mut out = [9; 4];
/// assert_eq!(lyndon::prefix_permutation_into(b"aab", &mut out)?, 2);
/// assert_eq!(out, [1, 0, 9, 9]);
/// assert_eq!(lyndon::prefix_permutation_into(b"aab", &mut out[..1]).unwrap_err().number, 4);
/// assert_eq!(lyndon::prefix_permutation_into(b"aba", &mut out).unwrap_err().number, 17);
/// # Ok::<(), lyndon::Error>(())
/// ```
pub fn prefix_permutation_into(word: &[u8], out: &mut [u32]) -> Result<usize, Error> {
    counted(ffi::prefix_permutation(word, out))
}

/// The letters of a FASTA input of one record, as capitals: a lower-case letter is the same base, masked.
///
/// # Errors
///
/// Refuses an input that is not one record within the limits (refusals 9 to 15).
///
/// ```
/// assert_eq!(lyndon::read_fasta(b">m1 a name\nACgt\r\nNN\n")?, b"ACGTNN");
/// let error = lyndon::read_fasta(b">m1\nAC-GT\n").unwrap_err();
/// assert_eq!((error.number, error.position), (11, 6));
/// # Ok::<(), lyndon::Error>(())
/// ```
pub fn read_fasta(input: &[u8]) -> Result<Vec<u8>, Error> {
    let mut letters = vec![0; MAX_LETTERS];
    let count = read_fasta_into(input, &mut letters)?;
    letters.truncate(count);
    Ok(letters)
}

/// [`read_fasta`] into a buffer of at least [`MAX_LETTERS`] places. The count is the number of letters.
///
/// # Errors
///
/// Refuses an input that is not one record within the limits (refusals 9 to 15); also where `letters` is too short (4).
pub fn read_fasta_into(input: &[u8], letters: &mut [u8]) -> Result<usize, Error> {
    counted(ffi::read_fasta(input, letters))
}
