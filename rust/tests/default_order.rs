//! The default order of factors, suffix table and left forest (document 02, E12): against the definitions and against order 2 by built-in table 1,
//! where it moves an answer from order 0 and where not, and the arrays that go with it.
mod common;
mod definitions;

use common::{all_texts, check_default, moved_by_default, outcome, Numbers};
use definitions::{built_in, MAX_LENGTH};
use lyndon::{Forest, Order, Ranks};
use std::collections::{BTreeSet, HashMap};

/// Places more than a buffer needs.
const SPARE: usize = 3;

const BYTES: [u8; 256] = built_in(0);

/// The bytes at both ends of the two ranges of letters, and those beside them.
const ENDS: &[u8] = b"@AZ[`az{";

fn check(x: &[u8]) {
    check_default(x, [x.len() + SPARE, x.len() + 1]);
}

#[test]
fn all_short_texts_of_letters_at_the_ends() {
    for n in 0..=4 {
        all_texts(ENDS, n).for_each(|x| check(&x));
    }
}

#[test]
fn all_short_texts_in_either_case() {
    for n in 1..=7 {
        all_texts(b"aAbB", n).for_each(|x| check(&x));
    }
}

/// How any two bytes compare.
#[test]
fn all_texts_of_two_letters() {
    all_texts(&BYTES, 2).for_each(|x| check(&x));
}

#[test]
fn random_texts() {
    let mut numbers = Numbers::new(41);
    let alphabets: [&[u8]; 5] = [b"aAbB", b"ACGTacgtN", ENDS, b"[aA_", &BYTES];
    for round in 0..2000 {
        let n = 1 + numbers.below(40);
        check(&numbers.text(alphabets[round % 5], n));
    }
}

#[test]
fn random_texts_of_some_thousand_letters() {
    let mut numbers = Numbers::new(42);
    for round in 0..300 {
        let n = 1000 + numbers.below(3000);
        let x = match round % 3 {
            0 => numbers.text(&BYTES, n),
            1 => common::repetitive(&mut numbers, n),
            _ => numbers.text(ENDS, n),
        };
        common::check_default_by_table(&common::in_either_case(&mut numbers, &x), [n, n + SPARE]);
        common::check_default_by_table(&x, [n, n + SPARE]);
    }
}

/// Refusals 1, 2 and 4, each alone and together: every length of buffer, short, exact and longer.
#[test]
fn refusals() {
    let mut seen = [0; 5];
    for n in [0, 1, 2, 6, MAX_LENGTH, MAX_LENGTH + 1] {
        let x = vec![b'a'; n];
        let lengths = if n <= 6 { vec![0, n.saturating_sub(1), n, n + 1] } else { vec![0, n - 1, n] };
        for (first, past) in lengths.iter().flat_map(|&first| lengths.iter().map(move |&past| (first, past))) {
            // The definitions are too slow for the longest text where it is accepted.
            let checked = if n == MAX_LENGTH && first == n { common::check_default_by_table } else { check_default };
            checked(&x, [first, past]);
            let answer = common::left_forest(&x, &mut vec![0; first], &mut vec![0; past]);
            seen[answer.map_or_else(|error| error.number as usize, |_| 0)] += 1;
        }
    }
    assert!(seen[3] == 0 && [0, 1, 2, 4].iter().all(|&number| seen[number] > 4), "{seen:?}");
}

/// The case of a letter does not count: in answer, comparisons or content.
#[test]
fn the_same_for_all_cases_of_a_text() {
    let mut numbers = Numbers::new(43);
    for round in 0..2000 {
        let n = 1 + numbers.below(60);
        let x = numbers.text([ENDS, &BYTES, b"aAbB"][round % 3], n);
        for other in [x.to_ascii_uppercase(), x.to_ascii_lowercase(), common::in_either_case(&mut numbers, &x)] {
            assert_eq!(lyndon::factorization(&x), lyndon::factorization(&other), "{x:?}");
            assert_eq!(lyndon::suffix_table(&x), lyndon::suffix_table(&other), "{x:?}");
            assert_eq!(lyndon::left_forest(&x), lyndon::left_forest(&other), "{x:?}");
        }
    }
}

/// A text without a to z, or without bytes 65 to 96, has what it has in order 0.
#[test]
fn nothing_moves_without_letters_of_both_kinds() {
    let small = |letter: &u8| (97..=122).contains(letter);
    let moved_by_small = |letter: &u8| (65..=96).contains(letter);
    let kept = |x: &[u8]| assert_eq!(moved_by_default(x, [x.len() + SPARE; 2]), [false; 3], "{x:?}");
    for alphabet in [b"\0@AZ[`{\xff", b"\0@abyz{\xff"] {
        assert!(!alphabet.iter().any(small) || !alphabet.iter().any(moved_by_small));
        for n in 0..=4 {
            all_texts(alphabet, n).for_each(|x| kept(&x));
        }
    }
    let mut numbers = Numbers::new(44);
    let without = |kind: &dyn Fn(&u8) -> bool| BYTES.into_iter().filter(|letter| !kind(letter)).collect::<Vec<u8>>();
    for alphabet in [without(&small), without(&moved_by_small)] {
        for _ in 0..1000 {
            let n = 1 + numbers.below(200);
            kept(&numbers.text(&alphabet, n));
        }
    }
}

/// No byte could be left out of either kind: each is one of a pair that moves answers. A byte b of 65 to 96 and a letter c of a to z whose capital is b,
/// or comes before b, stand otherwise by number, and each call has another answer on the text bc. Where the capital comes behind b they stand
/// as by number, and no text of the two moves.
#[test]
fn letters_that_move_an_answer() {
    let (mut pairs, mut bytes, mut letters) = (0, BTreeSet::new(), BTreeSet::new());
    for (b, c) in (65..=96).flat_map(|b| (97..=122).map(move |c| (b, c))) {
        if c - 32 <= b {
            assert_eq!(moved_by_default(&[b, c], [2; 2]), [true; 3], "{b}, {c}");
            pairs += 1;
            bytes.insert(b);
            letters.insert(c);
        } else {
            for x in (1..=4).flat_map(|n| all_texts(&[b, c], n).collect::<Vec<_>>()) {
                assert_eq!(moved_by_default(&x, [4; 2]), [false; 3], "{x:?}");
            }
        }
    }
    assert_eq!(pairs, 26 * 27 / 2 + 6 * 26);
    assert!(bytes.into_iter().eq(65..=96) && letters.into_iter().eq(97..=122));
}

// Pairs

/// A text's array by the ranks of the default order; its factors without an order, and the right forest of the array, which is that of the row
/// of ranks.
fn pair(x: &[u8]) -> (Vec<u32>, [Vec<u32>; 3]) {
    let array = lyndon::lyndon_array_ranked(x, &Ranks::default()).unwrap();
    let Forest { first, past } = lyndon::right_forest(&array).unwrap();
    assert_eq!((first.clone(), past.clone()), definitions::right_forest(&definitions::default_row(x)), "{x:?}");
    (array, [lyndon::factorization(x).unwrap().starts, first, past])
}

/// Of any two texts of one length the arrays are equal exactly where factors and right forests are.
#[test]
fn equal_arrays_and_equal_factors_and_forests() {
    for (alphabet, longest) in [(b"aAbB".as_slice(), 6), (ENDS, 4)] {
        for n in 1..=longest {
            let (mut by_array, mut by_lists) = (HashMap::new(), HashMap::new());
            for (array, lists) in all_texts(alphabet, n).map(|x| pair(&x)) {
                assert_eq!(by_array.entry(array.clone()).or_insert_with(|| lists.clone()), &lists);
                assert_eq!(by_lists.entry(lists).or_insert_with(|| array.clone()), &array);
            }
            assert!(by_array.len() > 1 || n == 1);
        }
    }
}

/// With an array of another order beside the factors it fails.
#[test]
fn a_rising_array_beside_factors_of_the_default_order() {
    let starts = |x: &[u8]| lyndon::factorization(x).unwrap().starts;
    let rising = |x: &[u8]| lyndon::lyndon_array(x, Order::Rising).unwrap();
    assert_eq!(rising(b"aB"), rising(b"ba"));
    assert_ne!(starts(b"aB"), starts(b"ba"));
    let mut by_array: HashMap<_, Vec<_>> = HashMap::new();
    all_texts(b"aAbB", 4).for_each(|x| by_array.entry(rising(&x)).or_default().push(starts(&x)));
    let fails = by_array.values().filter(|lists| lists.iter().any(|list| *list != lists[0])).count();
    assert!(fails > 1, "{fails} arrays with unlike factors");
}

/// The factors are the spans of the array's entries, one behind the other; so it is for every text.
#[test]
fn factors_by_the_array() {
    let mut numbers = Numbers::new(45);
    for round in 0..500 {
        let n = 1 + numbers.below(300);
        let x = numbers.text([ENDS, &BYTES, b"ACGTacgtN"][round % 3], n);
        let array = lyndon::lyndon_array_ranked(&x, &Ranks::default()).unwrap();
        let next = |&start: &u32| Some(start + array[start as usize]).filter(|&end| (end as usize) < n);
        assert_eq!(lyndon::factorization(&x).unwrap().starts, std::iter::successors(Some(0), next).collect::<Vec<_>>());
    }
}

// The crate's forms

/// The ranks of the default order are built-in table 1, and by them the ranked forms give what the forms without an order give.
#[test]
fn ranks_of_the_default_order() {
    let ranks = Ranks::default();
    assert_eq!(ranks, Ranks::new(built_in(1)));
    assert_eq!(ranks.as_bytes()[..], BYTES.to_ascii_uppercase());
    let mut numbers = Numbers::new(46);
    for round in 0..600 {
        let n = numbers.below(40);
        let x = numbers.text([ENDS, &BYTES, b"aAbB"][round % 3], n);
        assert_eq!(lyndon::factorization(&x), lyndon::factorization_ranked(&x, &ranks));
        assert_eq!(lyndon::suffix_table(&x), lyndon::suffix_table_ranked(&x, &ranks));
        assert_eq!(lyndon::left_forest(&x), lyndon::left_forest_ranked(&x, &ranks));
        let places = n + numbers.below(2);
        let got = outcome([places], |[out]| lyndon::factorization_into(&x, out));
        assert_eq!(got, outcome([places], |[out]| lyndon::factorization_ranked_into(&x, &ranks, out)));
        let got = outcome([places], |[out]| lyndon::suffix_table_into(&x, out));
        assert_eq!(got, outcome([places], |[out]| lyndon::suffix_table_ranked_into(&x, &ranks, out)));
        let got = outcome([places, n], |[first, past]| lyndon::left_forest_into(&x, first, past));
        assert_eq!(got, outcome([places, n], |[first, past]| lyndon::left_forest_ranked_into(&x, &ranks, first, past)));
    }
}
