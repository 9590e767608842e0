//! The definitions of the specification, computed as they are written: slow, and plain enough to be read beside it.
//! Nothing here calls the library.
#![allow(dead_code)]

use std::cmp::Ordering;

/// What a call answers, and what it writes into the front of each of its buffers. The factor list has a pair for its count: the number of
/// factors and of comparisons.
#[derive(Clone, Debug, PartialEq)]
pub enum Expected<T, C = usize> {
    Accepted { count: C, written: Vec<Vec<T>> },
    Refused { number: u32, position: u32 },
}

use Expected::{Accepted, Refused};

fn refused<T, C>(number: u32, position: usize) -> Expected<T, C> {
    Refused { number, position: position as u32 }
}

pub const MAX_LENGTH: usize = 1_048_576;

/// The most letters that the reader hands on, and the length of its buffer; the most bytes of its input (document 02, E4).
pub const MAX_LETTERS: usize = 4_096;
pub const MAX_INPUT: usize = 16_384;

/// The numbers that the run list of n letters needs: three for each of n − 1 runs (document 02, E4).
pub fn list_length(n: usize) -> usize {
    3 * n.saturating_sub(1)
}

// Words

/// Letters compare by number in order 0, the other way in order 1.
pub fn letter_compare<L: Ord>(order: u32, a: &L, b: &L) -> Ordering {
    if order == 0 {
        a.cmp(b)
    } else {
        b.cmp(a)
    }
}

/// By the first letter that differs; a proper prefix is smaller.
pub fn word_less<L: Ord>(order: u32, u: &[L], v: &[L]) -> bool {
    for (a, b) in u.iter().zip(v) {
        if a != b {
            return letter_compare(order, a, b) == Ordering::Less;
        }
    }
    u.len() < v.len()
}

/// Smaller than each of its proper non-empty suffixes.
pub fn is_lyndon<L: Ord>(order: u32, w: &[L]) -> bool {
    !w.is_empty() && (1..w.len()).all(|k| word_less(order, w, &w[k..]))
}

/// Entry i is the length of the longest Lyndon word that starts at i.
pub fn array<L: Ord>(order: u32, x: &[L]) -> Vec<u32> {
    let n = x.len();
    (0..n).map(|i| (i + 1..=n).rev().find(|&e| is_lyndon(order, &x[i..e])).unwrap() - i).map(|l| l as u32).collect()
}

/// Entry j is the length of the longest Lyndon word that ends at j.
pub fn suffix_table(order: u32, x: &[u8]) -> Vec<u32> {
    (0..x.len()).map(|j| j + 1 - (0..=j).find(|&i| is_lyndon(order, &x[i..=j])).unwrap()).map(|l| l as u32).collect()
}

/// The starts of the factors: all ways to cut the text into Lyndon words none of which is smaller than the next; there is one.
pub fn factors(order: u32, x: &[u8]) -> Vec<u32> {
    let n = x.len();
    // ways[i]: the ends of the factors of each way to cut what starts at i.
    let mut ways: Vec<Vec<Vec<usize>>> = vec![vec![]; n + 1];
    ways[n] = vec![vec![]];
    for i in (0..n).rev() {
        for e in i + 1..=n {
            if !is_lyndon(order, &x[i..e]) {
                continue;
            }
            for rest in ways[e].clone() {
                if !rest.first().is_some_and(|&next| word_less(order, &x[i..e], &x[e..next])) {
                    let mut way = vec![e];
                    way.extend(rest);
                    ways[i].push(way);
                }
            }
        }
    }
    assert_eq!(ways[0].len(), 1, "the factorization is unique");
    let ends = &ways[0][0];
    std::iter::once(0).chain(ends[..ends.len() - 1].iter().copied()).map(|i| i as u32).collect()
}

/// Duval's scan, step by step (document 02, E7): the starts that it lists, and how many letter comparisons it makes.
pub fn duval(order: u32, x: &[u8]) -> (Vec<u32>, u32) {
    let n = x.len();
    let (mut starts, mut comparisons) = (vec![], 0);
    let mut start = 0;
    while start < n {
        // The letters from `start` up to `j` have period `p`. At the end of the text nothing is asked.
        let (mut p, mut j) = (1, start + 1);
        while j < n {
            comparisons += 1;
            match letter_compare(order, &x[j], &x[j - p]) {
                Ordering::Less => break,
                Ordering::Equal => j += 1,
                Ordering::Greater => {
                    p = j + 1 - start;
                    j += 1;
                }
            }
        }
        // Every full copy of the period is listed; the next scan begins at the first letter not in one.
        while start + p <= j {
            starts.push(start as u32);
            start += p;
        }
    }
    (starts, comparisons)
}

/// The spans of the factors.
fn factor_spans(order: u32, x: &[u8]) -> Vec<(usize, usize)> {
    let starts = factors(order, x);
    let ends = starts[1..].iter().map(|&e| e as usize).chain(std::iter::once(x.len()));
    starts.iter().map(|&s| s as usize).zip(ends).collect()
}

/// FIRST and PAST of a forest, by the rule that cuts a word of two letters or more.
fn forest(order: u32, x: &[u8], cut: impl Fn(&[u8]) -> usize) -> (Vec<u32>, Vec<u32>) {
    let (mut first, mut past) = (vec![0; x.len()], vec![0; x.len()]);
    let mut open = factor_spans(order, x);
    for &(start, _) in &open {
        first[start] = start as u32;
        past[start] = start as u32;
    }
    while let Some((s, e)) = open.pop() {
        if e - s >= 2 {
            let j = s + cut(&x[s..e]);
            first[j] = s as u32;
            past[j] = e as u32;
            open.push((s, j));
            open.push((j, e));
        }
    }
    (first, past)
}

/// u is the longest proper Lyndon prefix.
pub fn left_forest(order: u32, x: &[u8]) -> (Vec<u32>, Vec<u32>) {
    forest(order, x, |w| (1..w.len()).rev().find(|&k| is_lyndon(order, &w[..k])).unwrap())
}

/// v is the longest proper Lyndon suffix.
pub fn right_forest(x: &[u8]) -> (Vec<u32>, Vec<u32>) {
    forest(0, x, |w| (1..w.len()).find(|&k| is_lyndon(0, &w[k..])).unwrap())
}

/// The smallest period of a word.
pub fn smallest_period(w: &[u8]) -> usize {
    (1..=w.len()).find(|&p| (p..w.len()).all(|i| w[i] == w[i - p])).unwrap()
}

/// Spans whose smallest period p has 2p ≤ their length, and which have no neighbour letter that continues period p.
pub fn runs(x: &[u8]) -> Vec<u32> {
    let n = x.len();
    let mut list = vec![];
    for s in 0..n {
        for e in s + 2..=n {
            let p = smallest_period(&x[s..e]);
            let before = s > 0 && x[s - 1] == x[s - 1 + p];
            let behind = e < n && x[e] == x[e - p];
            if 2 * p <= e - s && !before && !behind {
                list.extend([s as u32, e as u32 - 1, p as u32]);
            }
        }
    }
    list
}

/// The infinite order (document 02, E5): endless copies by the first letter that differs; where they never differ the longer word is smaller.
/// Both repeat from the start after |u| × |v| letters, so that nothing new comes behind those.
pub fn infinite_compare(u: &[u8], v: &[u8]) -> Ordering {
    let letters = u.len() * v.len();
    u.iter().cycle().take(letters).cmp(v.iter().cycle().take(letters)).then(v.len().cmp(&u.len()))
}

/// The last positions of the proper non-empty prefixes, in infinite order.
pub fn prefix_permutation(w: &[u8]) -> Vec<u32> {
    let mut last: Vec<usize> = (0..w.len() - 1).collect();
    last.sort_by(|&i, &j| infinite_compare(&w[..=i], &w[..=j]));
    last.into_iter().map(|i| i as u32).collect()
}

// Arrays

/// The first fault of an array: number and position.
pub fn fault(a: &[u32]) -> Option<(u32, usize)> {
    let n = a.len();
    for (i, &entry) in a.iter().enumerate() {
        if entry == 0 {
            return Some((6, i));
        }
        if entry as usize > n - i {
            return Some((7, i));
        }
    }
    let end = |i: usize| i + a[i] as usize;
    (0..n).find(|&j| (0..j).any(|i| j < end(i) && end(j) > end(i))).map(|j| (8, j))
}

/// Letter i = (number of earlier positions whose span holds i) + n − i − entry i.
pub fn text_for(a: &[u32]) -> Vec<u32> {
    let n = a.len();
    (0..n).map(|i| (0..i).filter(|&h| h + a[h] as usize > i).count() + n - i - a[i] as usize).map(|l| l as u32).collect()
}

/// The right forest of a valid array: that of the text written for it. The letters are few enough for bytes.
fn forest_of_array(a: &[u32]) -> (Vec<u32>, Vec<u32>) {
    let text: Vec<u8> = text_for(a).iter().map(|&l| u8::try_from(l).unwrap()).collect();
    right_forest(&text)
}

// The reader

/// What stands on the first line: where the line ends, or the name's fault.
fn header(input: &[u8]) -> Result<usize, usize> {
    let mut i = 1;
    loop {
        match input.get(i) {
            None | Some(b' ' | b'\t' | b'\r' | b'\n') => break,
            Some(33..=126) if i <= 60 => i += 1,
            Some(_) => return Err(i),
        }
    }
    if i == 1 {
        return Err(1);
    }
    while i < input.len() && input[i] != b'\n' {
        i += 1;
    }
    Ok(i)
}

pub fn read_fasta(input: &[u8], places: usize) -> Expected<u8> {
    if places < MAX_LETTERS {
        return refused(4, 0);
    }
    if input.len() > MAX_INPUT {
        return refused(15, MAX_INPUT);
    }
    if input.first() != Some(&b'>') {
        return refused(9, 0);
    }
    let body = match header(input) {
        Ok(end) => end,
        Err(i) => return refused(10, i),
    };
    let mut letters = vec![];
    for i in body..input.len() {
        match input[i] {
            b'\n' => {}
            b'\r' if input.get(i + 1) == Some(&b'\n') => {}
            b'>' if input[i - 1] == b'\n' => return refused(12, i),
            b'A'..=b'Z' | b'a'..=b'z' if letters.len() == MAX_LETTERS => return refused(14, i),
            b'A'..=b'Z' => letters.push(input[i]),
            b'a'..=b'z' => letters.push(input[i] - b'a' + b'A'),
            _ => return refused(11, i),
        }
    }
    if letters.is_empty() {
        return refused(13, input.len());
    }
    Accepted { count: letters.len(), written: vec![letters] }
}

/// What the lister prints.
pub fn listing(input: &[u8], runs: impl Fn(&[u8]) -> Vec<u32>) -> Vec<u8> {
    match read_fasta(input, MAX_LETTERS) {
        Refused { number, position } => format!("refused {number} at {position}\n").into_bytes(),
        Accepted { written, .. } => {
            let end = input[1..].iter().position(|b| b" \t\r\n".contains(b)).map_or(input.len(), |i| i + 1);
            let mut out = vec![];
            for run in runs(&written[0]).chunks(3) {
                out.extend(&input[1..end]);
                out.extend(format!("\t{}\t{}\tp{}\n", run[0], run[1] + 1, run[2]).into_bytes());
            }
            out
        }
    }
}

// The answers of the other calls: the checks of the table from the top row down, then the definition

type Faults = Vec<(bool, u32)>;

/// The first check that refuses, if one does.
fn refusal<T, C>(rows: &[Faults]) -> Option<Expected<T, C>> {
    rows.concat().iter().find(|fault| fault.0).map(|fault| refused(fault.1, 0))
}

fn length(n: usize) -> Faults {
    vec![(n == 0, 1), (n > MAX_LENGTH, 2)]
}

fn order_number(order: u32) -> Faults {
    vec![(order > 1, 3)]
}

fn rank_table(table: &[u8]) -> Faults {
    vec![(table.len() != 256, 16)]
}

/// The order number of a ranked call, and the table where it is to be used.
fn ranked_order(order: u32, table: &[u8]) -> Faults {
    [vec![(order > 2, 3)], if order == 2 { rank_table(table) } else { vec![] }].concat()
}

fn outputs(n: usize, places: &[usize]) -> Faults {
    vec![(places.iter().any(|&p| p < n), 4)]
}

fn run_buffers(n: usize, work: usize, list: usize) -> Faults {
    vec![(list < list_length(n), 4), (work < 2 * n, 5)]
}

// What an accepted call answers and writes

pub fn array_accepted<L: Ord>(order: u32, x: &[L]) -> Expected<u32> {
    Accepted { count: x.len(), written: vec![array(order, x)] }
}

pub fn factors_accepted(order: u32, x: &[u8]) -> Expected<u32, (usize, u32)> {
    let (starts, comparisons) = duval(order, x);
    assert_eq!(starts, factors(order, x), "the scan lists the factors");
    Accepted { count: (starts.len(), comparisons), written: vec![starts] }
}

pub fn suffix_table_accepted(order: u32, x: &[u8]) -> Expected<u32> {
    Accepted { count: x.len(), written: vec![suffix_table(order, x)] }
}

pub fn left_forest_accepted(order: u32, x: &[u8]) -> Expected<u32> {
    let (first, past) = left_forest(order, x);
    Accepted { count: x.len(), written: vec![first, past] }
}

/// Buffers in the order work, list.
fn runs_accepted(x: &[u8]) -> Expected<u32> {
    let runs = runs(x);
    let arrays = [array(0, x), array(1, x)].concat();
    Accepted { count: runs.len() / 3, written: vec![arrays, runs] }
}

pub fn array_answer<L: Ord>(x: &[L], order: u32, places: usize) -> Expected<u32> {
    refusal(&[length(x.len()), order_number(order), outputs(x.len(), &[places])]).unwrap_or_else(|| array_accepted(order, x))
}

pub fn runs_answer(x: &[u8], work: usize, list: usize) -> Expected<u32> {
    refusal(&[length(x.len()), run_buffers(x.len(), work, list)]).unwrap_or_else(|| runs_accepted(x))
}

/// The row of ranks of a text.
pub fn row(table: &[u8], x: &[u8]) -> Vec<u8> {
    x.iter().map(|&letter| table[usize::from(letter)]).collect()
}

/// The built-in tables (document 02, E9): 0 ranks each byte by its number; 1 ranks a to z as A to Z, and every other byte by its number.
pub const fn built_in(number: usize) -> [u8; 256] {
    let mut table = [0; 256];
    let mut letter = 0;
    while letter < 256 {
        table[letter] = match letter as u8 {
            small @ b'a'..=b'z' if number == 1 => small - b'a' + b'A',
            other => other,
        };
        letter += 1;
    }
    table
}

/// The row of ranks in the default order (document 02, E12).
pub fn default_row(x: &[u8]) -> Vec<u8> {
    row(&built_in(1), x)
}

/// The answer of a call without an order, by what it is accepted with: that of order 0 for the row of ranks in the default order.
pub fn default_answer<C>(x: &[u8], places: &[usize], accepted: fn(u32, &[u8]) -> Expected<u32, C>) -> Expected<u32, C> {
    refusal(&[length(x.len()), outputs(x.len(), places)]).unwrap_or_else(|| accepted(0, &default_row(x)))
}

/// The answer of a ranked call, by what it is accepted with: in order 2 that of order 0 for the row of ranks.
pub fn ranked_answer<C>(
    x: &[u8],
    order: u32,
    table: &[u8],
    places: &[usize],
    accepted: fn(u32, &[u8]) -> Expected<u32, C>,
) -> Expected<u32, C> {
    refusal(&[length(x.len()), ranked_order(order, table), outputs(x.len(), places)]).unwrap_or_else(|| {
        if order == 2 {
            accepted(0, &row(table, x))
        } else {
            accepted(order, x)
        }
    })
}

pub fn runs_ranked_answer(x: &[u8], table: &[u8], work: usize, list: usize) -> Expected<u32> {
    refusal(&[length(x.len()), rank_table(table), run_buffers(x.len(), work, list)]).unwrap_or_else(|| runs_accepted(&row(table, x)))
}

/// The count of a comparison: below, same, above.
pub fn comparison_count(comparison: Ordering) -> usize {
    match comparison {
        Ordering::Less => 0,
        Ordering::Equal => 1,
        Ordering::Greater => 2,
    }
}

/// The answer of a comparison of two texts, by a method that compares them. If either is empty the shorter one is, and that is told first.
pub fn comparison_answer(u: &[u8], v: &[u8], compare: fn(&[u8], &[u8]) -> Ordering) -> Expected<u32> {
    let (shorter, longer) = (u.len().min(v.len()), u.len().max(v.len()));
    refusal(&[length(shorter), length(longer)]).unwrap_or_else(|| Accepted { count: comparison_count(compare(u, v)), written: vec![] })
}

pub fn prefix_permutation_answer(w: &[u8], places: usize) -> Expected<u32> {
    refusal(&[length(w.len()), outputs(w.len().saturating_sub(1), &[places])])
        .or_else(|| (!is_lyndon(0, w)).then(|| refused(17, 0)))
        .unwrap_or_else(|| Accepted { count: w.len() - 1, written: vec![prefix_permutation(w)] })
}

fn array_checks(a: &[u32], places: &[usize]) -> Option<Expected<u32>> {
    refusal(&[length(a.len()), outputs(a.len(), places)]).or_else(|| fault(a).map(|(number, i)| refused(number, i)))
}

pub fn reconstruct_answer(a: &[u32], places: usize) -> Expected<u32> {
    array_checks(a, &[places]).unwrap_or_else(|| Accepted { count: a.len(), written: vec![text_for(a)] })
}

pub fn right_forest_answer(a: &[u32], first: usize, past: usize) -> Expected<u32> {
    array_checks(a, &[first, past]).unwrap_or_else(|| {
        let (first, past) = forest_of_array(a);
        Accepted { count: a.len(), written: vec![first, past] }
    })
}
