//! Other methods for long inputs, by suffix arrays, longest common prefixes and ordered sets. None is the library's.
#![allow(dead_code)]

use crate::definitions::default_row;
use std::borrow::Cow;
use std::cmp::Ordering;
use std::collections::BTreeSet;

/// The ranks of the suffixes of a text, by prefix doubling. `letters` are already numbered in the order wanted.
fn ranks(letters: &[u32]) -> Vec<usize> {
    let n = letters.len();
    let mut order: Vec<usize> = (0..n).collect();
    order.sort_by_key(|&i| letters[i]);
    let mut rank = vec![0; n];
    for place in 1..n {
        rank[order[place]] = rank[order[place - 1]] + usize::from(letters[order[place - 1]] != letters[order[place]]);
    }
    let mut step = 1;
    while n > 0 && rank[order[n - 1]] + 1 < n {
        // By the rank at `step`, suffixes that end before it first; then, keeping that order, by the rank at the start.
        let second: Vec<usize> = (n - step..n).chain(order.iter().filter(|&&i| i >= step).map(|&i| i - step)).collect();
        let mut places = vec![0; n + 1];
        rank.iter().for_each(|&r| places[r + 1] += 1);
        (0..n).for_each(|r| places[r + 1] += places[r]);
        for i in second {
            order[places[rank[i]]] = i;
            places[rank[i]] += 1;
        }
        let key = |i: usize| (rank[i], if i + step < n { rank[i + step] + 1 } else { 0 });
        let mut next = vec![0; n];
        for place in 1..n {
            next[order[place]] = next[order[place - 1]] + usize::from(key(order[place - 1]) != key(order[place]));
        }
        rank = next;
        step *= 2;
    }
    rank
}

/// Letters numbered so that the order asked for is rising.
fn in_order<L: Ord + Copy>(order: u32, x: &[L]) -> Vec<u32> {
    let mut letters: Vec<L> = x.to_vec();
    letters.sort_unstable();
    letters.dedup();
    let number = |l: &L| letters.binary_search(l).unwrap() as u32;
    let last = letters.len() as u32 - 1;
    x.iter().map(|l| if order == 0 { number(l) } else { last - number(l) }).collect()
}

/// The Lyndon array: the distance to the next smaller suffix.
pub fn array<L: Ord + Copy>(order: u32, x: &[L]) -> Vec<u32> {
    let rank = ranks(&in_order(order, x));
    let n = x.len();
    let mut next = vec![n; n];
    let mut open: Vec<usize> = vec![];
    for i in 0..n {
        while open.last().is_some_and(|&j| rank[i] < rank[j]) {
            next[open.pop().unwrap()] = i;
        }
        open.push(i);
    }
    (0..n).map(|i| (next[i] - i) as u32).collect()
}

/// The factors start where a suffix is smaller than all before it.
pub fn factors(x: &[u8]) -> Vec<u32> {
    let rank = ranks(&in_order(0, x));
    let mut least = usize::MAX;
    let mut starts = vec![];
    for (i, &r) in rank.iter().enumerate() {
        if r < least {
            least = r;
            starts.push(i as u32);
        }
    }
    starts
}

/// Longest common prefixes of suffixes: ranks, and a table of least values over the neighbours' common prefixes.
struct Common {
    rank: Vec<usize>,
    least: Vec<Vec<u32>>,
}

impl Common {
    fn new(x: &[u8]) -> Common {
        let n = x.len();
        let rank = ranks(&in_order(0, x));
        let mut order = vec![0; n];
        for (i, &r) in rank.iter().enumerate() {
            order[r] = i;
        }
        let mut neighbours = vec![0u32; n];
        let mut h = 0usize;
        for i in 0..n {
            if rank[i] + 1 == n {
                h = 0;
                continue;
            }
            let j = order[rank[i] + 1];
            while i + h < n && j + h < n && x[i + h] == x[j + h] {
                h += 1;
            }
            neighbours[rank[i]] = h as u32;
            h = h.saturating_sub(1);
        }
        let mut least = vec![neighbours];
        let mut width = 1;
        while 2 * width <= n {
            let row = least.last().unwrap();
            let next = (0..=n - 2 * width).map(|i| row[i].min(row[i + width])).collect();
            least.push(next);
            width *= 2;
        }
        Common { rank, least }
    }

    /// How far the suffixes at i and j agree.
    fn prefix(&self, i: usize, j: usize) -> usize {
        let (low, high) = (self.rank[i].min(self.rank[j]), self.rank[i].max(self.rank[j]));
        let level = (high - low).ilog2() as usize;
        self.least[level][low].min(self.least[level][high - (1 << level)]) as usize
    }
}

/// How many letter comparisons Duval's scan makes, by the rising array and longest common prefixes: a scan asks once for each letter behind
/// its start, up to the one that breaks the period of the factor there, that one too. The next scan begins behind all full copies.
pub fn comparisons(x: &[u8], array: &[u32]) -> u32 {
    let common = Common::new(x);
    let n = x.len();
    let (mut start, mut count) = (0, 0);
    while start < n {
        let p = array[start] as usize;
        let end = start + p + if start + p < n { common.prefix(start, start + p) } else { 0 };
        count += end.min(n - 1) - start;
        start += (end - start) / p * p;
    }
    count as u32
}

/// The suffix table and the left forest: the factors of each prefix, from those of the prefix before and one letter more, where a
/// factor smaller than the next is joined with it.
pub fn suffix_table_and_left_forest(x: &[u8]) -> (Vec<u32>, Vec<u32>, Vec<u32>) {
    let common = Common::new(x);
    let n = x.len();
    let mut table = vec![];
    let (mut first, mut past) = (vec![0; n], vec![0; n]);
    let mut starts: Vec<usize> = vec![];
    for j in 0..n {
        starts.push(j);
        while starts.len() >= 2 {
            let (a, b) = (starts[starts.len() - 2], starts[starts.len() - 1]);
            let (u, v) = (b - a, j + 1 - b);
            let same = common.prefix(a, b).min(u).min(v);
            let smaller = if same < u && same < v { x[a + same] < x[b + same] } else { u < v };
            if !smaller {
                break;
            }
            first[b] = a as u32;
            past[b] = j as u32 + 1;
            starts.pop();
        }
        table.push((j + 1 - starts[starts.len() - 1]) as u32);
    }
    for s in starts {
        first[s] = s as u32;
        past[s] = s as u32;
    }
    (table, first, past)
}

/// The infinite order: endless copies of u are smaller where uv is smaller than vu.
pub fn infinite_compare(u: &[u8], v: &[u8]) -> Ordering {
    [u, v].concat().cmp(&[v, u].concat()).then(v.len().cmp(&u.len()))
}

/// How far the suffix at each position agrees with the word.
fn agreement_with_suffixes(w: &[u8]) -> Vec<usize> {
    let n = w.len();
    let mut agreement = vec![n; n];
    // The letters from `start` up to `end` agree with the front of the word, and no earlier start gives a later end.
    let (mut start, mut end) = (0, 0);
    for i in 1..n {
        let mut k = if i < end { agreement[i - start].min(end - i) } else { 0 };
        while i + k < n && w[k] == w[i + k] {
            k += 1;
        }
        agreement[i] = k;
        if i + k > end {
            (start, end) = (i, i + k);
        }
    }
    agreement
}

/// The prefix standard permutation of a Lyndon word, by periods: of two prefixes the longer one comes first where the length of the shorter one
/// is a period of it, else the shorter one (document 000, section 5).
pub fn prefix_permutation(w: &[u8]) -> Vec<u32> {
    let agreement = agreement_with_suffixes(w);
    let is_period = |p: usize, length: usize| p + agreement[p] >= length;
    let mut last: Vec<u32> = (0..w.len() as u32 - 1).collect();
    last.sort_unstable_by(|&i, &j| {
        let (short, long) = (i.min(j) as usize + 1, i.max(j) as usize + 1);
        let by_length = i.cmp(&j);
        if short < long && is_period(short, long) {
            by_length.reverse()
        } else {
            by_length
        }
    });
    last
}

/// The first fault of an array, with the ends of the open spans in an ordered set.
pub fn fault(a: &[u32]) -> Option<(u32, usize)> {
    let n = a.len();
    if let Some(i) = (0..n).find(|&i| a[i] == 0 || a[i] as usize > n - i) {
        return Some((if a[i] == 0 { 6 } else { 7 }, i));
    }
    let mut ends = BTreeSet::new();
    for (j, &entry) in a.iter().enumerate() {
        ends.remove(&j);
        let end = j + entry as usize;
        if ends.first().is_some_and(|&least| least < end) {
            return Some((8, j));
        }
        ends.insert(end);
    }
    None
}

/// The right forest of a valid array: the innermost open span of each position.
pub fn right_forest(a: &[u32]) -> (Vec<u32>, Vec<u32>) {
    let mut open: Vec<usize> = vec![];
    let (mut first, mut past) = (vec![], vec![]);
    for j in 0..a.len() {
        while open.last().is_some_and(|&i| i + a[i] as usize <= j) {
            open.pop();
        }
        first.push(*open.last().unwrap_or(&j) as u32);
        past.push(if open.is_empty() { j as u32 } else { j as u32 + a[j] });
        open.push(j);
    }
    (first, past)
}

/// The text of a valid array: depths by sums of differences.
pub fn text_for(a: &[u32]) -> Vec<u32> {
    let n = a.len();
    let mut change = vec![0i64; n + 2];
    for (i, &l) in a.iter().enumerate() {
        change[i + 1] += 1;
        change[i + l as usize] -= 1;
    }
    let mut depth = 0;
    (0..n)
        .map(|i| {
            if i > 0 {
                depth += change[i];
            }
            (depth + (n - i) as i64 - a[i] as i64) as u32
        })
        .collect()
}

/// All runs, period by period: stretches in which each letter equals the one p before it; a stretch that a smaller period has too is
/// not listed again.
pub fn runs(x: &[u8]) -> Vec<u32> {
    let n = x.len();
    let mut found = std::collections::BTreeMap::new();
    for p in 1..=n / 2 {
        let mut i = 0;
        while i + p < n {
            if x[i] != x[i + p] {
                i += 1;
                continue;
            }
            let start = i;
            while i + p < n && x[i] == x[i + p] {
                i += 1;
            }
            if i - start >= p {
                found.entry((start as u32, (i + p - 1) as u32)).or_insert(p as u32);
            }
        }
    }
    found.iter().flat_map(|(&(start, last), &p)| [start, last, p]).collect()
}

/// All runs, by extensions: where a stretch of letters that equal those p behind them is at least p long, it has a place that p divides, from
/// which common prefixes and suffixes give both its ends.
pub fn runs_by_extensions(x: &[u8]) -> Vec<u32> {
    let n = x.len();
    let turned: Vec<u8> = x.iter().rev().copied().collect();
    let (ahead, back) = (Common::new(x), Common::new(&turned));
    let mut found = vec![];
    for p in 1..=n / 2 {
        for i in (0..n - p).step_by(p).filter(|&i| x[i] == x[i + p]) {
            let left = if i == 0 { 0 } else { back.prefix(n - i, n - i - p) };
            if left < p {
                let right = ahead.prefix(i, i + p);
                if left + right >= p {
                    found.push((i - left, i + right + p - 1, p));
                }
            }
        }
    }
    found.sort_unstable();
    found.dedup_by_key(|run| (run.0, run.1));
    found.iter().flat_map(|&(start, last, p)| [start as u32, last as u32, p as u32]).collect()
}

/// What the calls write for a text, those of one order in order 0; for an empty text nothing.
#[derive(Clone, Default)]
pub struct Lists {
    pub arrays: [Vec<u32>; 2],
    pub factors: Vec<u32>,
    pub comparisons: u32,
    pub suffix_table: Vec<u32>,
    pub first: Vec<u32>,
    pub past: Vec<u32>,
    pub runs: Vec<u32>,
}

impl Lists {
    pub fn of(x: &[u8], runs: fn(&[u8]) -> Vec<u32>) -> Lists {
        if x.is_empty() {
            return Lists::default();
        }
        let (suffix_table, first, past) = suffix_table_and_left_forest(x);
        let arrays = [array(0, x), array(1, x)];
        Lists { factors: factors(x), comparisons: comparisons(x, &arrays[0]), arrays, suffix_table, first, past, runs: runs(x) }
    }

    /// What the calls without an order write for the text that these are of: the lists of its row of ranks. They are the same where the
    /// letters of both stand in one order.
    pub fn in_default_order(&self, x: &[u8]) -> Cow<'_, Lists> {
        let row = default_row(x);
        if x.is_empty() || in_order(0, &row) == in_order(0, x) {
            return Cow::Borrowed(self);
        }
        Cow::Owned(Lists::of(&row, |_| vec![]))
    }

    /// What the calls of `common::RANKED_CALLS` write.
    pub fn ranked(&self) -> [&[u32]; 2] {
        [&self.arrays[0], &self.suffix_table]
    }

    /// What the factor list answers.
    pub fn factor_count(&self) -> (usize, u32) {
        (self.factors.len(), self.comparisons)
    }
}
