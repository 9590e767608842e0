//! The infinite order of texts, and of the prefixes of a Lyndon word (document 02, E5): against the definitions on short texts, against other
//! methods on long ones.
mod common;
mod definitions;
mod faster;

use common::{all_texts, least_rotation, outcome, power, shown, Numbers};
use definitions::{built_in, Expected, MAX_LENGTH};
use lyndon::Error;
use std::cmp::Ordering;

/// Places more than a buffer needs.
const SPARE: usize = 3;

const BYTES: [u8; 256] = built_in(0);

const ALPHABETS: [&[u8]; 5] = [b"a", b"ab", b"ACGTacgt", &[0, 127, 128, 255], &BYTES];

// Two texts

/// A comparison, held to one by other means, both ways round.
fn check_compared(u: &[u8], v: &[u8], compare: fn(&[u8], &[u8]) -> Ordering) {
    for (u, v) in [(u, v), (v, u)] {
        let what = format!("{} compared with {}", shown(u), shown(v));
        common::compare_all(&what, common::compare_infinite(u, v), &[], &definitions::comparison_answer(u, v, compare));
    }
}

fn check_pair(u: &[u8], v: &[u8]) {
    check_compared(u, v, definitions::infinite_compare);
}

fn check_long_pair(u: &[u8], v: &[u8]) {
    check_compared(u, v, faster::infinite_compare);
}

/// All texts of 1 to `longest` letters over an alphabet.
fn short_texts(alphabet: &[u8], longest: usize) -> Vec<Vec<u8>> {
    (1..=longest).flat_map(|n| all_texts(alphabet, n)).collect()
}

#[test]
fn all_pairs_of_short_texts() {
    for (alphabet, longest) in [(b"ab".as_slice(), 7), (b"aBb", 4), (&[0, 127, 128, 255], 3)] {
        let texts = short_texts(alphabet, longest);
        for (i, u) in texts.iter().enumerate() {
            texts[i..].iter().for_each(|v| check_pair(u, v));
        }
    }
}

/// Letters go by number: of any two bytes, and in all short texts of letters in either case.
#[test]
fn letters_by_number() {
    for (a, b) in BYTES.iter().flat_map(|a| BYTES.iter().map(move |b| (a, b))) {
        assert_eq!(lyndon::compare_infinite(&[*a], &[*b]), Ok(a.cmp(b)));
        assert_eq!(lyndon::compare_infinite(&[7, *a], &[7, *b, 7, *a]), Ok(a.cmp(b).then(Ordering::Greater)));
    }
    let texts = short_texts(b"aAbB[", 3);
    texts.iter().for_each(|u| texts.iter().for_each(|v| check_pair(u, v)));
}

/// By the call alone: in a row where each text was put before the first that it is below, any two stand in infinite order, and a text is the same
/// as itself alone.
#[test]
fn it_is_a_total_order() {
    let mut texts = short_texts(b"ab", 7);
    texts.extend((1..=3).flat_map(|n| all_texts(b"\x00B", n)));
    let compare = |u: &[u8], v: &[u8]| common::compare_infinite(u, v).unwrap();
    let mut sorted: Vec<Vec<u8>> = vec![];
    for u in texts {
        let place = sorted.iter().position(|v| compare(&u, v) == 0).unwrap_or(sorted.len());
        sorted.insert(place, u);
    }
    for (i, u) in sorted.iter().enumerate() {
        for (j, v) in sorted.iter().enumerate() {
            assert_eq!(compare(u, v), definitions::comparison_count(i.cmp(&j)), "{u:?}, {v:?}");
        }
    }
}

/// Texts that agree for long: powers of one word, cut or changed near an end, of lengths with and without a common divisor.
#[test]
fn powers_of_one_word() {
    let mut numbers = Numbers::new(51);
    let (mut same_copies, mut unlike) = (0, 0);
    for round in 0..6000 {
        let p = 1 + numbers.below(6);
        let w = numbers.text(ALPHABETS[round % ALPHABETS.len()], p);
        let mut texts = [0, 1].map(|_| {
            let length = match numbers.below(3) {
                0 => p * (1 + numbers.below(6)),
                _ => 1 + numbers.below(36),
            };
            power(&w, length)
        });
        if round % 4 == 0 {
            let changed = &mut texts[numbers.below(2)];
            let place = changed.len() - 1 - numbers.below(changed.len().min(3));
            changed[place] = numbers.pick(&[b'a', b'b', 0, 255]);
        }
        let [u, v] = texts;
        check_pair(&u, &v);
        assert_eq!(faster::infinite_compare(&u, &v), definitions::infinite_compare(&u, &v), "{u:?}, {v:?}");
        match u.repeat(v.len()) == v.repeat(u.len()) {
            true => same_copies += usize::from(u.len() != v.len()),
            false => unlike += 1,
        }
    }
    assert!(same_copies > 1000 && unlike > 1000, "{same_copies} and {unlike}");
}

/// Two texts of n and m letters, two or more and without a common divisor, whose endless copies agree on n + m − 2 letters, as many as there
/// can be before they differ.
fn agreeing_longest(n: usize, m: usize) -> [Vec<u8>; 2] {
    // The word of n + m − 2 letters that has periods n and m: letters that the periods make equal to the first are one letter, the others
    // another.
    let mut word = vec![b'b'; n + m - 2];
    let mut equal = vec![0];
    while let Some(i) = equal.pop() {
        if word[i] == b'b' {
            word[i] = b'a';
            equal.extend([i + n, i + m, i.wrapping_sub(n), i.wrapping_sub(m)].into_iter().filter(|&j| j < word.len()));
        }
    }
    [word[..n].to_vec(), word[..m].to_vec()]
}

/// How many letters of the endless copies agree, of so many.
fn agreement(u: &[u8], v: &[u8], letters: usize) -> usize {
    u.iter().cycle().zip(v.iter().cycle()).take(letters).take_while(|(a, b)| a == b).count()
}

#[test]
fn texts_that_differ_as_late_as_can_be() {
    let divide = |d: usize, n: usize, m: usize| n % d == 0 && m % d == 0;
    let lengths = (2..40).flat_map(|n| (2..n).map(move |m| (n, m)));
    for (n, m) in lengths.filter(|&(n, m)| !(2..=m).any(|d| divide(d, n, m))) {
        let [u, v] = agreeing_longest(n, m);
        assert_eq!(agreement(&u, &v, 2 * (n + m)), n + m - 2, "{n} and {m} letters");
        check_pair(&u, &v);
    }
}

#[test]
fn random_texts() {
    let mut numbers = Numbers::new(52);
    for round in 0..4000 {
        let alphabet = ALPHABETS[round % ALPHABETS.len()];
        let [n, m] = [0, 1].map(|_| 1 + numbers.below(30));
        let u = numbers.text(alphabet, n);
        // Any text; one that begins as the first does; one that goes on behind it.
        let v = match round % 3 {
            0 => numbers.text(alphabet, m),
            1 => u[..m.min(n)].to_vec(),
            _ => [&u[..], &numbers.text(alphabet, m)].concat(),
        };
        check_pair(&u, &v);
        assert_eq!(faster::infinite_compare(&u, &v), definitions::infinite_compare(&u, &v), "{u:?}, {v:?}");
    }
}

#[test]
fn long_texts() {
    let mut numbers = Numbers::new(53);
    for n in [1000, 4096, 100_000, MAX_LENGTH] {
        for w in [b"a".to_vec(), b"ab".to_vec(), common::fibonacci(377), numbers.text(b"ACGT", n / 3), numbers.text(&BYTES, n)] {
            let u = power(&w, n);
            let copies = n / w.len() * w.len();
            for m in [1, w.len(), n / 2, copies - copies / 2 / w.len() * w.len(), copies, n - 1, n] {
                check_long_pair(&u, &u[..m]);
                check_long_pair(&u[..copies], &u[..m]);
                // Another last letter, and another in the middle.
                for place in [m / 2, m - 1] {
                    let mut changed = u[..m].to_vec();
                    changed[place] ^= 1;
                    check_long_pair(&u, &changed);
                }
            }
        }
        let [u, v] = agreeing_longest(n, n - 1);
        assert_eq!(agreement(&u, &v, 3 * n), n + n - 3);
        check_long_pair(&u, &v);
        check_long_pair(&u, &u[..n - 2]);
    }
}

/// Refusals 1 and 2 for either text, each alone and together, and the longest texts that are accepted.
#[test]
fn refusals_of_a_comparison() {
    let texts = [0, 1, 2, MAX_LENGTH, MAX_LENGTH + 1].map(|n| vec![b'a'; n]);
    let mut seen = [0; 3];
    for (u, v) in texts.iter().flat_map(|u| texts.iter().map(move |v| (u, v))) {
        check_long_pair(u, v);
        seen[common::compare_infinite(u, v).map_or_else(|error| error.number as usize, |_| 0)] += 1;
    }
    assert_eq!(seen, [9, 9, 7]);
}

// The prefixes of a Lyndon word

/// The call with a buffer of so many places, held to the definition.
fn check_prefixes(w: &[u8], places: usize) {
    let mut out = vec![0; places];
    let got = common::prefix_permutation(w, &mut out);
    let what = format!("prefixes of {}, {places} places", shown(w));
    common::compare_all(&what, got, &[&out], &definitions::prefix_permutation_answer(w, places));
}

/// Of a Lyndon word, held to another method.
fn check_long_prefixes(name: &str, w: &[u8]) {
    let n = w.len();
    let want = faster::prefix_permutation(w);
    for places in [n - 1, n - 1 + SPARE] {
        let mut out = vec![0; places];
        let got = common::prefix_permutation(w, &mut out);
        common::compare(&format!("prefixes, {name}, {n} letters"), got, &[&out], Ok(n - 1), &[Some(&want)]);
    }
}

/// All texts, Lyndon words and others. Of the rotations of a text that is no power one is a Lyndon word, which gives the counts.
#[test]
fn all_short_words() {
    let two = [2, 1, 2, 3, 6, 9, 18, 30, 56, 99, 186, 335];
    let three = [3, 3, 8, 18, 48, 116, 312, 810];
    let four = [4, 6, 20, 60, 204];
    for (alphabet, counts) in [(b"ab".as_slice(), &two[..]), (b"abc", &three), (b"aAbB", &four), (&[0, 127, 128, 255], &four)] {
        for (n, &count) in (1..).zip(counts) {
            let mut accepted = 0;
            for w in all_texts(alphabet, n) {
                check_prefixes(&w, n - 1 + SPARE);
                let answer = common::prefix_permutation(&w, &mut vec![0; n - 1]);
                assert!([Ok(n - 1), Err(Error { number: 17, position: 0 })].contains(&answer), "{w:?}: {answer:?}");
                accepted += usize::from(answer.is_ok());
            }
            assert_eq!(accepted, count, "{n} letters");
        }
    }
}

/// Whether a word is a Lyndon word goes by number: of any two bytes, the smaller one first.
#[test]
fn words_by_number() {
    for w in all_texts(&BYTES, 2) {
        let answer = common::prefix_permutation(&w, &mut [0; 1]);
        assert_eq!(answer, if w[0] < w[1] { Ok(1) } else { Err(Error { number: 17, position: 0 }) }, "{w:?}");
    }
    check_prefixes(b"aB", 1);
    check_prefixes(b"Ba", 1);
}

/// One letter, any: no place is needed, and none is written.
#[test]
fn words_of_one_letter() {
    for letter in BYTES {
        for places in [0, 1, SPARE] {
            check_prefixes(&[letter], places);
        }
    }
}

/// Random texts, rotated so that they are Lyndon words or powers of one, and as they are.
#[test]
fn random_words() {
    let mut numbers = Numbers::new(54);
    let mut accepted = 0;
    for round in 0..3000 {
        let n = 1 + numbers.below(40);
        let x = match round % 6 {
            5 => common::repetitive(&mut numbers, n),
            kind => numbers.text(ALPHABETS[kind], n),
        };
        let w = least_rotation(&x);
        check_prefixes(&x, n - 1);
        check_prefixes(&w, n + SPARE);
        if let Expected::Accepted { written, .. } = definitions::prefix_permutation_answer(&w, n - 1) {
            assert_eq!(faster::prefix_permutation(&w), written[0], "{w:?}");
            accepted += 1;
        }
    }
    assert!(accepted > 2000, "{accepted} Lyndon words");
}

/// Families of Lyndon words; with the last letter replaced by the first they are none.
#[test]
fn families() {
    for n in [16, 17, 25, 34, 64] {
        for (name, mut w) in common::lyndon_families(n) {
            check_prefixes(&w, n - 1);
            assert_eq!(faster::prefix_permutation(&w), definitions::prefix_permutation(&w), "{name}");
            w[n - 1] = w[0];
            check_prefixes(&w, n - 1);
        }
    }
}

#[test]
fn long_words() {
    let mut numbers = Numbers::new(55);
    for n in [1000, 4096, 10_000, 100_000] {
        common::lyndon_families(n).iter().for_each(|(name, w)| check_long_prefixes(name, w));
    }
    for _ in 0..300 {
        let n = 100 + numbers.below(2000);
        let x = common::repetitive(&mut numbers, n);
        // A letter that occurs once makes it no power.
        let w = least_rotation(&[&x[..], b"Z"].concat());
        check_long_prefixes("gaps and repeats", &w);
    }
}

/// The longest words: accepted, refused where the last letter makes them no Lyndon words, and one place short.
#[test]
fn longest_words() {
    let n = MAX_LENGTH;
    let chosen = ["a^n b, least rotation", "random, 2 letters, least rotation", "a^m b (ab)^k c", "a fibonacci c", "half zimin"];
    let words: Vec<_> = common::lyndon_families(n).into_iter().filter(|(name, _)| chosen.contains(&&name[..])).collect();
    assert_eq!(words.len(), chosen.len());
    for (name, mut w) in words {
        check_long_prefixes(&name, &w);
        w[n - 1] = w[0];
        for (places, number) in [(n - 2, 4), (n - 1, 17)] {
            let mut out = vec![0; places];
            let got = common::prefix_permutation(&w, &mut out);
            common::compare(&name, got, &[&out], Err(Error { number, position: 0 }), &[]);
        }
    }
}

/// Refusals 1, 2, 4 and 17, each alone and together: every length of buffer, short, exact and longer, for a Lyndon word and for none.
#[test]
fn refusals_of_a_word() {
    let mut seen = [0; 18];
    for n in [0, 1, 2, 3, 6, MAX_LENGTH + 1] {
        let lengths = match n {
            0..=6 => vec![0, n.saturating_sub(2), n.saturating_sub(1), n, n + 1],
            _ => vec![0, n - 2, n - 1, n],
        };
        // A Lyndon word; one in the default order alone; a power. One letter is a Lyndon word.
        for [first, others] in [*b"ab", *b"aB", *b"bb"] {
            let w: Vec<u8> = std::iter::once(first).chain(std::iter::repeat(others)).take(n).collect();
            for &places in &lengths {
                check_prefixes(&w, places);
                seen[common::prefix_permutation(&w, &mut vec![0; places]).map_or_else(|error| error.number as usize, |_| 0)] += 1;
            }
        }
    }
    assert!([0, 1, 2, 4, 17].iter().all(|&number| seen[number] > 4), "{seen:?}");
    assert_eq!(seen.iter().sum::<usize>(), 5 * 15 + 12);
}

/// The two calls together: neighbours in the list of prefixes are in infinite order, and each prefix is listed once.
#[test]
fn prefixes_compared_with_each_other() {
    for (name, w) in [34, 300].into_iter().flat_map(common::lyndon_families) {
        let list = lyndon::prefix_permutation(&w).unwrap();
        for pair in list.windows(2) {
            let [first, second] = [pair[0], pair[1]].map(|last| &w[..=last as usize]);
            assert_eq!(common::compare_infinite(first, second), Ok(0), "{name}: {pair:?}");
        }
        let mut positions = list;
        positions.sort_unstable();
        assert!(positions.into_iter().eq(0..w.len() as u32 - 1), "{name}");
    }
}

// The crate's forms

/// They give what the C interface gives, in buffers that are long enough, longer, and one place short.
#[test]
fn forms_of_the_crate() {
    let mut numbers = Numbers::new(56);
    for _ in 0..600 {
        let (n, m) = (numbers.below(12), numbers.below(12));
        let (u, v) = (numbers.text(b"ab", n), numbers.text(b"ab", m));
        let got = lyndon::compare_infinite(&u, &v).map(definitions::comparison_count);
        assert_eq!(got, common::compare_infinite(&u, &v));
        for w in [&u, &least_rotation(&u)] {
            let full = n.saturating_sub(1);
            for places in [full, full + SPARE, full.saturating_sub(1)] {
                let got = outcome([places], |[out]| lyndon::prefix_permutation_into(w, out));
                assert_eq!(got, outcome([places], |[out]| common::prefix_permutation(w, out)));
            }
            let mut out = vec![0; full];
            let written = common::prefix_permutation(w, &mut out).map(|_| out);
            assert_eq!(lyndon::prefix_permutation(w), written);
        }
    }
}
