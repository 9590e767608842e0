//! The worked examples of the specification, K1 to K12 again and those that are executed only.
mod common;
mod definitions;

use lyndon::{Error, FactorCount, Factorization, Forest, GroupError, LetterOrder, Order, Ranks, Run};

fn refusal<T>(result: Result<T, Error>) -> (u32, u32) {
    result.map(|_| ()).map_err(|e| (e.number, e.position)).expect_err("a refusal")
}

#[test]
fn k1_to_k5_arrays() {
    assert_eq!(lyndon::lyndon_array(b"a", Order::Rising).unwrap(), [1]);
    assert_eq!(lyndon::lyndon_array(b"ba", Order::Rising).unwrap(), [1, 1]);
    assert_eq!(lyndon::lyndon_array(b"ba", Order::Falling).unwrap(), [2, 1]);
    assert_eq!(lyndon::lyndon_array(b"abab", Order::Rising).unwrap(), [2, 1, 2, 1]);
    assert_eq!(lyndon::lyndon_array(b"bab", Order::Falling).unwrap(), [2, 1, 1]);
    assert_eq!(lyndon::lyndon_array_u32(&[98, 97, 98], Order::Falling).unwrap(), [2, 1, 1]);
}

#[test]
fn k6_array_and_factors() {
    let text = b"abbababaababbaba";
    let array = [3, 1, 1, 2, 1, 2, 1, 8, 5, 1, 3, 1, 1, 2, 1, 1];
    assert_eq!(lyndon::lyndon_array(text, Order::Rising).unwrap(), array);
    assert_eq!(lyndon::lyndon_array_ranked(text, &Ranks::default()).unwrap(), array);
    let factors = Factorization { starts: vec![0, 3, 5, 7, 15], comparisons: 18 };
    assert_eq!(lyndon::factorization_ranked(text, Order::Rising).unwrap(), factors);
    assert_eq!(lyndon::factorization(text).unwrap(), factors);
}

/// Document 02, E7, counted by hand, in order 0 and in the default order: the texts have no capitals, so the two are one.
#[test]
fn letters_compared() {
    let compared = |text: &[u8]| {
        let factors = lyndon::factorization_ranked(text, Order::Rising).unwrap();
        assert_eq!(lyndon::factorization(text).unwrap(), factors);
        factors.comparisons as usize
    };
    // One letter is compared with nothing. A scan that reaches the end has asked once for each letter behind its first.
    assert_eq!(compared(b"a"), 0);
    assert_eq!(compared(b"ab"), 1);
    assert_eq!(compared(b"aba"), 2);
    assert_eq!(compared(b"aaaa"), 3);
    // Stops by a smaller letter directly behind the factors listed: the next scan begins with it, and does not ask for it again.
    assert_eq!(compared(b"ba"), 1);
    assert_eq!(compared(b"bbaa"), 3);
    assert_eq!(compared(b"cba"), 2);
    // Stops inside a copy of the period, after 3 questions: the next scan begins with that copy, and asks for the last letter read again.
    assert_eq!(compared(b"abaa"), 3 + 1);
    assert_eq!(compared(b"abaab"), 3 + 2);
    // Of a^m b a^(m+1) the first scan asks for all letters but the first, and stops at the last; the second asks for m of them again.
    for m in [1, 2, 9, 100, LONGEST / 2 - 1] {
        let mut text = vec![b'a'; 2 * m + 2];
        text[m] = b'b';
        assert_eq!(compared(&text), 2 * m + 1 + m);
    }
    // Zimin's word of 2^k - 1 letters, one letter between two of its like, and a smaller letter behind it: a scan asks for all letters but the
    // first, finds one factor of 2^(k-1), and the next scan has the same before it with k - 1.
    for k in 0..=20 {
        let n = 1usize << k;
        let text: Vec<u8> = (1..n).map(|i| b'b' + i.trailing_zeros() as u8).chain([b'a']).collect();
        assert_eq!(compared(&text), 2 * n - 2 - k);
    }
}

#[test]
fn k7_suffix_table() {
    let text = b"babbababbaabb";
    for table in [lyndon::suffix_table_ranked(text, Order::Rising), lyndon::suffix_table(text)] {
        assert_eq!(table.unwrap(), [1, 1, 2, 3, 1, 2, 1, 2, 5, 1, 1, 3, 4]);
    }
}

#[test]
fn k8_right_forest() {
    let array = lyndon::lyndon_array(b"aabb", Order::Rising).unwrap();
    let forest = lyndon::right_forest(&array).unwrap();
    assert_eq!((&forest.first[..], &forest.past[..]), (&[0, 0, 1, 1][..], &[0, 4, 3, 4][..]));
}

#[test]
fn k9_left_forest() {
    for forest in [lyndon::left_forest_ranked(b"aabb", Order::Rising), lyndon::left_forest(b"aabb")] {
        assert_eq!(forest.unwrap(), Forest { first: vec![0, 0, 1, 0], past: vec![0, 3, 3, 4] });
    }
}

/// Document 02, E12: an array that goes with the factors of the default order, and the rising one, which does not. `aB` and `ba` have one rising
/// array and other factors.
#[test]
fn factors_and_array_in_one_order() {
    let starts = |text: &[u8]| lyndon::factorization(text).unwrap().starts;
    let array = |text: &[u8]| lyndon::lyndon_array_ranked(text, &Ranks::default()).unwrap();
    let rising = |text: &[u8]| lyndon::lyndon_array(text, Order::Rising).unwrap();
    assert_eq!((&starts(b"aB")[..], &array(b"aB")[..], &rising(b"aB")[..]), (&[0][..], &[2, 1][..], &[1, 1][..]));
    assert_eq!((&starts(b"ba")[..], &array(b"ba")[..], &rising(b"ba")[..]), (&[0, 1][..], &[1, 1][..], &[1, 1][..]));
    assert_eq!(lyndon::factorization_ranked(b"aB", Order::Rising).unwrap(), Factorization { starts: vec![0, 1], comparisons: 1 });
    assert_eq!(lyndon::factorization(b"aB").unwrap(), Factorization { starts: vec![0], comparisons: 1 });
}

/// Document 02, E12, by hand. `abAa` is `ABAA` in the default order: the first scan stops inside a copy of the period, after 3 questions. By
/// number it is cut as `ab` and `Aa`, and the first scan stops at the `A`, after 2. `[` comes behind `Z` in the default order, and so behind `z`.
#[test]
fn the_default_order() {
    let forest = |first: [u32; 4], past: [u32; 4]| Forest { first: first.to_vec(), past: past.to_vec() };
    assert_eq!(lyndon::factorization(b"abAa").unwrap(), Factorization { starts: vec![0, 2, 3], comparisons: 4 });
    assert_eq!(lyndon::suffix_table(b"abAa").unwrap(), [1, 2, 1, 1]);
    assert_eq!(lyndon::left_forest(b"abAa").unwrap(), forest([0, 0, 2, 3], [0, 2, 2, 3]));
    let rising = Order::Rising;
    assert_eq!(lyndon::factorization_ranked(b"abAa", rising).unwrap(), Factorization { starts: vec![0, 2], comparisons: 3 });
    assert_eq!(lyndon::suffix_table_ranked(b"abAa", rising).unwrap(), [1, 2, 1, 2]);
    assert_eq!(lyndon::left_forest_ranked(b"abAa", rising).unwrap(), forest([0, 0, 2, 2], [0, 2, 2, 4]));
    for (text, starts) in [(b"z[", &[0][..]), (b"[z", &[0, 1]), (b"@a", &[0]), (b"a@", &[0, 1]), (b"z{", &[0]), (b"Aa", &[0, 1])] {
        assert_eq!(lyndon::factorization(text).unwrap().starts, starts);
    }
    // Runs go by equal bytes, not by any order.
    assert_eq!(lyndon::runs(b"aA").unwrap(), []);
    assert_eq!(lyndon::runs_ranked(b"aA", &Ranks::default()).unwrap(), [Run { start: 0, last: 1, period: 1 }]);
}

/// Document 02, E5, and document 000: the definition's two rules, the prefix standard permutations that it prints, words that share one.
#[test]
fn infinite_order() {
    use std::cmp::Ordering::{Equal, Greater, Less};
    let compare = |u: &str, v: &str| lyndon::compare_infinite(u.as_bytes(), v.as_bytes()).unwrap();
    // By the first letter that differs in endless copies: of aba and abaab the seventh, of abaababa and abaab the twelfth. By number B comes
    // before a.
    for (u, v) in [("a", "ab"), ("aab", "ab"), ("aba", "ab"), ("aba", "abaab"), ("abaababa", "abaab"), ("B", "a"), ("aB", "aa")] {
        assert_eq!((compare(u, v), compare(v, u)), (Less, Greater), "{u}, {v}");
    }
    // Copies of one word: the longer text is below. Same only where the texts are equal.
    for (u, v) in [("aa", "a"), ("abab", "ab"), ("ababab", "abab"), ("aaaaa", "aaa")] {
        assert_eq!((compare(u, v), compare(v, u), compare(u, u)), (Less, Greater, Equal), "{u}, {v}");
    }
    let prefixes = |word: &str| lyndon::prefix_permutation(word.as_bytes()).unwrap();
    assert_eq!(prefixes("abacabade"), [0, 2, 1, 4, 6, 5, 3, 7]);
    assert_eq!(prefixes("ababbababbabac"), [0, 2, 3, 1, 5, 7, 8, 6, 10, 12, 11, 9, 4]);
    assert_eq!(prefixes("aabaabbb"), [1, 0, 4, 3, 5, 2, 6]);
    assert_eq!(prefixes("aabababb"), [1, 0, 3, 2, 5, 4, 6]);
    for word in ["ababbb", "ababbc", "ababcb", "ababcc"] {
        assert_eq!(prefixes(word), [0, 2, 3, 1, 4]);
    }
    for word in common::all_texts(b"bc", 4) {
        assert_eq!(lyndon::prefix_permutation(&[b"a", &word[..]].concat()).unwrap(), [0, 1, 2, 3]);
    }
    assert_eq!(prefixes("a"), []);
    assert_eq!(prefixes("Ba"), [0]);
    for word in ["aB", "aa", "ba", "aba", "abab"] {
        assert_eq!(refusal(lyndon::prefix_permutation(word.as_bytes())), (17, 0), "{word}");
    }
    // A short buffer is told before a word that is none.
    assert_eq!(refusal(lyndon::prefix_permutation_into(b"aba", &mut [9])), (4, 0));
    assert_eq!(refusal(lyndon::prefix_permutation_into(b"aba", &mut [9, 9])), (17, 0));
    // So is an empty text before one that is too long, whichever comes first.
    let long = vec![b'a'; LONGEST + 1];
    assert_eq!(refusal(lyndon::compare_infinite(b"", &long)), (1, 0));
    assert_eq!(refusal(lyndon::compare_infinite(&long, b"")), (1, 0));
}

#[test]
fn k10_to_k12_reconstructed() {
    assert_eq!(lyndon::reconstruct(&[2, 1, 5, 2, 1, 2, 1, 3, 2, 1]).unwrap(), [8, 9, 3, 6, 7, 4, 5, 0, 1, 2]);
    assert_eq!(refusal(lyndon::reconstruct(&[2, 2, 1])), (8, 1));
    assert_eq!(refusal(lyndon::right_forest(&[2, 2, 1])), (8, 1));
    assert_eq!(lyndon::reconstruct(&[3, 1, 1]).unwrap(), [0, 2, 1]);
}

#[test]
fn entries() {
    assert_eq!(lyndon::reconstruct(&[1, 1]).unwrap(), [1, 0]);
    assert_eq!(refusal(lyndon::reconstruct(&[1, 2])), (7, 1));
    assert_eq!(refusal(lyndon::reconstruct(&[1, 0])), (6, 1));
    assert_eq!(refusal(lyndon::right_forest(&[1, 2])), (7, 1));
    assert_eq!(refusal(lyndon::right_forest(&[1, 0])), (6, 1));
    // Position and entry are not added in 32 bits.
    assert_eq!(refusal(lyndon::reconstruct(&[1, 4_294_967_295])), (7, 1));
    assert_eq!(refusal(lyndon::right_forest(&[1, 4_294_967_295, 1])), (7, 1));
}

/// K1 to K7 and K9 in the ranked forms: by number, and by ranks that put the letters in that order.
#[test]
fn worked_examples_by_rank() {
    let by_number = Ranks::new(std::array::from_fn(|letter| letter as u8));
    let turned = Ranks::new(std::array::from_fn(|letter| 255 - letter as u8));
    let few = Ranks::from_groups(&["aA", "bB"]).unwrap();
    let folded = Ranks::default();
    for order in [LetterOrder::Rising, LetterOrder::from(&by_number), LetterOrder::from(&few), LetterOrder::from(&folded)] {
        let array = |text: &[u8]| lyndon::lyndon_array_ranked(text, order).unwrap();
        assert_eq!(array(b"a"), [1]);
        assert_eq!(array(b"ba"), [1, 1]);
        assert_eq!(array(b"abab"), [2, 1, 2, 1]);
        assert_eq!(array(b"abbababaababbaba"), [3, 1, 1, 2, 1, 2, 1, 8, 5, 1, 3, 1, 1, 2, 1, 1]);
        let factors = lyndon::factorization_ranked(b"abbababaababbaba", order).unwrap();
        assert_eq!(factors, Factorization { starts: vec![0, 3, 5, 7, 15], comparisons: 18 });
        assert_eq!(lyndon::suffix_table_ranked(b"babbababbaabb", order).unwrap(), [1, 1, 2, 3, 1, 2, 1, 2, 5, 1, 1, 3, 4]);
        let forest = lyndon::left_forest_ranked(b"aabb", order).unwrap();
        assert_eq!((&forest.first[..], &forest.past[..]), (&[0, 0, 1, 0][..], &[0, 3, 3, 4][..]));
    }
    for order in [LetterOrder::Falling, LetterOrder::from(&turned)] {
        assert_eq!(lyndon::lyndon_array_ranked(b"ba", order).unwrap(), [2, 1]);
        assert_eq!(lyndon::lyndon_array_ranked(b"bab", order).unwrap(), [2, 1, 1]);
    }
    for ranks in [&by_number, &turned, &few] {
        assert_eq!(lyndon::runs_ranked(b"aaaa", ranks).unwrap(), [Run { start: 0, last: 3, period: 1 }]);
        assert_eq!(lyndon::runs_ranked(b"a", ranks).unwrap(), []);
    }
    // Letters of one rank are one letter.
    assert_eq!(lyndon::lyndon_array_ranked(b"aBAb", &few).unwrap(), [2, 1, 2, 1]);
    assert_eq!(lyndon::runs_ranked(b"aAaa", &few).unwrap(), [Run { start: 0, last: 3, period: 1 }]);
}

/// The README's group: T first, then G, C and A, in either case.
#[test]
fn a_groups_own_order() {
    let ranks = Ranks::from_groups(&["Tt", "Gg", "Cc", "Aa"]).unwrap();
    assert_eq!(lyndon::lyndon_array_ranked(b"TaTAt", &ranks).unwrap(), [2, 1, 2, 1, 1]);
    let wanted = [Run { start: 0, last: 5, period: 2 }, Run { start: 6, last: 8, period: 1 }];
    assert_eq!(lyndon::runs_ranked(b"GAgaGAttT", &ranks).unwrap(), wanted);
}

/// The ranked forms with buffers: one place short, and with places to spare.
#[test]
fn ranked_forms_with_buffers() {
    let (text, order) = (b"bBaA", LetterOrder::Falling);
    let ranks = Ranks::from_groups(&["aA", "bB"]).unwrap();
    let short = Error { number: 4, position: 0 };
    let (mut cut, mut out, mut other) = ([9; 3], [9; 5], [9; 5]);
    assert_eq!(lyndon::lyndon_array_ranked_into(text, order, &mut cut), Err(short));
    assert_eq!(lyndon::factorization_ranked_into(text, order, &mut cut), Err(short));
    assert_eq!(lyndon::suffix_table_ranked_into(text, order, &mut cut), Err(short));
    assert_eq!(lyndon::left_forest_ranked_into(text, order, &mut out, &mut cut), Err(short));
    assert_eq!(lyndon::left_forest_ranked_into(text, order, &mut cut, &mut out), Err(short));
    let (mut work, mut list, mut cut_work, mut cut_list) = ([9; 9], [9; 10], [9; 7], [9; 8]);
    assert_eq!(lyndon::runs_ranked_into(text, &ranks, &mut work, &mut cut_list), Err(short));
    assert_eq!(lyndon::runs_ranked_into(text, &ranks, &mut cut_work, &mut list), Err(Error { number: 5, position: 0 }));
    assert_eq!((cut, out, work, list, cut_work, cut_list), ([9; 3], [9; 5], [9; 9], [9; 10], [9; 7], [9; 8]));

    assert_eq!((lyndon::lyndon_array_ranked_into(text, order, &mut out), out), (Ok(4), [4, 1, 2, 1, 9]));
    assert_eq!((lyndon::lyndon_array_ranked_into(text, &ranks, &mut out), out), (Ok(4), [1, 1, 1, 1, 9]));
    let factors = |count| Ok(FactorCount { count, comparisons: 3 });
    assert_eq!((lyndon::factorization_ranked_into(text, order, &mut out), out), (factors(1), [0, 1, 1, 1, 9]));
    assert_eq!((lyndon::factorization_ranked_into(text, &ranks, &mut out), out), (factors(4), [0, 1, 2, 3, 9]));
    assert_eq!((lyndon::suffix_table_ranked_into(text, order, &mut out), out), (Ok(4), [1, 2, 3, 4, 9]));
    let forest = lyndon::left_forest_ranked_into(text, &ranks, &mut out, &mut other);
    assert_eq!((forest, out, other), (Ok(4), [0, 1, 2, 3, 9], [0, 1, 2, 3, 9]));
    assert_eq!(lyndon::runs_ranked_into(text, &ranks, &mut work, &mut list), Ok(2));
    assert_eq!((&work, &list[..7]), (&[1, 1, 1, 1, 4, 3, 1, 1, 9], &[0, 1, 1, 2, 3, 1, 9][..]));
}

#[test]
fn ranks_by_groups() {
    let ranks = Ranks::from_groups(&[b"Tt".as_slice(), b"", b"C"]).unwrap();
    let named = [(b'T', 0), (b't', 0), (b'C', 2)];
    for letter in 0..=255 {
        let rank = named.iter().find(|pair| pair.0 == letter).map_or(3, |pair| pair.1);
        assert_eq!((ranks.rank(letter), ranks.as_bytes()[usize::from(letter)]), (rank, rank));
    }
    assert_eq!(Ranks::from_groups::<&str>(&[]), Ok(Ranks::from([0; 256])));
    for groups in [["AC", "GA"], ["AA", "CG"]] {
        let error = Ranks::from_groups(&groups).unwrap_err();
        assert_eq!((error, &error.to_string()[..]), (GroupError::NamedTwice(b'A'), "the letter 'A' (byte 65) is named twice"));
    }
    // A group for each letter; a letter left over has no rank then, nor do letters of groups past the 256th.
    let mut groups: Vec<Vec<u8>> = (0..=255).map(|letter| vec![letter]).collect();
    assert_eq!(Ranks::from_groups(&groups), Ok(Ranks::new(std::array::from_fn(|letter| letter as u8))));
    let last = groups[255].pop();
    let error = Ranks::from_groups(&groups).unwrap_err();
    assert_eq!((error, &error.to_string()[..]), (GroupError::TooMany(256), "256 groups are too many: a rank would be above 255"));
    groups.push(last.into_iter().collect());
    assert_eq!(Ranks::from_groups(&groups), Err(GroupError::TooMany(257)));
    // Groups past the 256th do no harm where they name no letter and none is left over; a letter named twice is told first.
    groups.swap(255, 256);
    assert_eq!(Ranks::from_groups(&groups).unwrap().rank(255), 255);
    groups[256].push(7);
    assert_eq!(Ranks::from_groups(&groups), Err(GroupError::NamedTwice(7)));
    let all: Vec<u8> = (0..=255).collect();
    assert_eq!(Ranks::from_groups(&[all]), Ok(Ranks::from([0; 256])));
    assert_eq!(Ranks::from_groups(&[""]), Ok(Ranks::from([1; 256])));
    groups.truncate(255);
    assert_eq!(Ranks::from_groups(&groups).unwrap().rank(255), 255);
}

const LONGEST: usize = 1_048_576;

#[test]
fn the_longest_text_is_accepted() {
    let text = vec![b'a'; LONGEST];
    let letters = vec![5u32; LONGEST];
    let ones = vec![1u32; LONGEST];
    let mut out = vec![0; LONGEST];
    for order in [0, 1] {
        assert_eq!(common::array8(&text, order, &mut out), Ok(LONGEST));
        assert!(out == ones);
        assert_eq!(common::array32(&letters, order, &mut out), Ok(LONGEST));
        assert!(out == ones);
    }
    assert_eq!(common::factors(&text, &mut out), Ok((LONGEST, LONGEST as u32 - 1)));
    assert!(out.iter().enumerate().all(|(i, &start)| i == start as usize));
    assert_eq!(common::suffix_table(&text, &mut out), Ok(LONGEST));
    assert!(out == ones);
    let (mut first, mut past) = (vec![0; LONGEST], vec![0; LONGEST]);
    assert_eq!(common::left_forest(&text, &mut first, &mut past), Ok(LONGEST));
    assert!(first == past && first.iter().enumerate().all(|(i, &start)| i == start as usize));
    assert_eq!(common::right_forest(&ones, &mut first, &mut past), Ok(LONGEST));
    assert!(first == past && first.iter().enumerate().all(|(i, &start)| i == start as usize));
    assert_eq!(common::reconstruct(&ones, &mut out), Ok(LONGEST));
    assert!(out.iter().enumerate().all(|(i, &letter)| LONGEST - 1 - i == letter as usize));
}

#[test]
fn one_letter_more_is_refused() {
    let n = LONGEST + 1;
    let (text, letters, ones) = (vec![b'a'; n], vec![5u32; n], vec![1u32; n]);
    let long = Err(Error { number: 2, position: 0 });
    // With room, and with a second fault beside it.
    for places in [n, 0] {
        let mut out = vec![0; places];
        for order in [0, 1, 2] {
            let got = common::array8(&text, order, &mut out);
            common::compare("array of bytes", got, &[&out], long, &[]);
            let got = common::array32(&letters, order, &mut out);
            common::compare("array of numbers", got, &[&out], long, &[]);
        }
        let got = common::factors(&text, &mut out).map(|(count, _)| count);
        common::compare("factors", got, &[&out], long, &[]);
        let got = common::suffix_table(&text, &mut out);
        common::compare("suffix table", got, &[&out], long, &[]);
        let got = common::reconstruct(&ones, &mut out);
        common::compare("reconstruct", got, &[&out], long, &[]);
        let mut past = vec![0; places];
        let got = common::left_forest(&text, &mut out, &mut past);
        common::compare("left forest", got, &[&out, &past], long, &[]);
        let got = common::right_forest(&ones, &mut out, &mut past);
        common::compare("right forest", got, &[&out, &past], long, &[]);
        let (mut work, mut list) = (vec![0; 2 * places], vec![0; definitions::list_length(places)]);
        let got = common::runs(&text, &mut work, &mut list);
        common::compare("runs", got, &[&work, &list], long, &[]);
    }
    // The forms that allocate.
    assert_eq!(refusal(lyndon::lyndon_array(&text, Order::Rising)), (2, 0));
    assert_eq!(refusal(lyndon::lyndon_array_u32(&letters, Order::Falling)), (2, 0));
    assert_eq!(refusal(lyndon::factorization(&text)), (2, 0));
    assert_eq!(refusal(lyndon::suffix_table(&text)), (2, 0));
    assert_eq!(refusal(lyndon::left_forest(&text)), (2, 0));
    assert_eq!(refusal(lyndon::right_forest(&ones)), (2, 0));
    assert_eq!(refusal(lyndon::reconstruct(&ones)), (2, 0));
    assert_eq!(refusal(lyndon::runs(&text)), (2, 0));
    assert_eq!(refusal(lyndon::prefix_permutation(&text)), (2, 0));
    assert_eq!(refusal(lyndon::compare_infinite(&text, b"a")), (2, 0));
    assert_eq!(refusal(lyndon::compare_infinite(b"a", &text)), (2, 0));
    let ranks = Ranks::new([0; 256]);
    assert_eq!(refusal(lyndon::lyndon_array_ranked(&text, &ranks)), (2, 0));
    assert_eq!(refusal(lyndon::factorization_ranked(&text, Order::Rising)), (2, 0));
    assert_eq!(refusal(lyndon::suffix_table_ranked(&text, Order::Falling)), (2, 0));
    assert_eq!(refusal(lyndon::left_forest_ranked(&text, &ranks)), (2, 0));
    assert_eq!(refusal(lyndon::runs_ranked(&text, &ranks)), (2, 0));
}

/// Document 01's worked case of refusal 4 with document 02's figure (E4), by byte and by rank: a list of 3 × (n − 1) numbers is accepted, for
/// one letter an empty one; one less is refused with 4.
#[test]
fn a_list_of_three_places_for_each_run() {
    let calls: [(&str, common::RunsCall); 2] =
        [("runs", common::runs), ("ranked runs", |text, work, list| common::runs_ranked(text, &[5; 256], work, list))];
    let refused = |number: u32| Err(Error { number, position: 0 });
    for ((name, call), n) in calls.iter().flat_map(|call| [1, 2, 3, LONGEST].map(|n| (call, n))) {
        let text = vec![b'a'; n];
        let (mut work, mut list) = (vec![0; 2 * n], vec![0; 3 * (n - 1)]);
        let ones = vec![1u32; 2 * n];
        let runs: &[u32] = if n == 1 { &[] } else { &[0, n as u32 - 1, 1] };
        let got = call(&text, &mut work, &mut list);
        common::compare(name, got, &[&work, &list], Ok(runs.len() / 3), &[Some(&ones), Some(runs)]);
        if list.pop().is_some() {
            let got = call(&text, &mut work, &mut list);
            common::compare(&format!("{name}, list short"), got, &[&work, &list], refused(4), &[]);
            // A short work buffer is found after a short list.
            work.pop();
            let got = call(&text, &mut work, &mut list);
            common::compare(&format!("{name}, both short"), got, &[&work, &list], refused(4), &[]);
            work.push(0);
            list.push(0);
        }
        work.pop();
        let got = call(&text, &mut work, &mut list);
        common::compare(&format!("{name}, work short"), got, &[&work, &list], refused(5), &[]);
    }
}

/// Document 02, E4: 4,096 letters and 16,384 bytes are read, one more is refused, and the buffer is asked for whatever the input.
#[test]
fn the_longest_record() {
    let record = |letters: usize, line_ends: usize| [b">m\n".as_slice(), &vec![b'A'; letters], &vec![b'\n'; line_ends]].concat();
    assert_eq!(lyndon::read_fasta(&record(4096, 0)).unwrap().len(), 4096);
    assert_eq!(refusal(lyndon::read_fasta(&record(4097, 0))), (14, 4099));
    assert_eq!(lyndon::read_fasta(&record(1, 16_380)).unwrap().len(), 1);
    assert_eq!(refusal(lyndon::read_fasta(&record(1, 16_381))), (15, 16_384));
    assert_eq!(refusal(lyndon::read_fasta_into(&record(1, 0), &mut [0; 4095])), (4, 0));
    assert_eq!(lyndon::read_fasta_into(&record(1, 0), &mut [0; 4096]), Ok(1));
    // The lister takes them too.
    let program = common::lister::program();
    assert_eq!(common::lister::run(&program, &record(4096, 0)), b"m\t0\t4096\tp1\n");
    assert_eq!(common::lister::run(&program, &record(4097, 0)), b"refused 14 at 4099\n");
    assert_eq!(common::lister::run(&program, &record(2, 16_379)), b"m\t0\t2\tp1\n");
    assert_eq!(common::lister::run(&program, &record(2, 16_380)), b"refused 15 at 16384\n");
}

#[test]
fn short_runs() {
    assert_eq!(lyndon::runs(b"aaaa").unwrap(), [Run { start: 0, last: 3, period: 1 }]);
    assert_eq!(lyndon::runs(b"a").unwrap(), []);
    assert_eq!(lyndon::runs(b"aab").unwrap(), [Run { start: 0, last: 1, period: 1 }]);
}

#[test]
fn the_listing_of_the_specification() {
    let want = b"m1\t0\t2\tp1\nm1\t0\t6\tp3\nm1\t3\t5\tp1\n";
    let input = b">m1\naabaab\n";
    assert_eq!(definitions::listing(input, definitions::runs), want);
    assert_eq!(common::lister::run(&common::lister::program(), input), want);
}

/// Document 02, E2.
#[test]
fn lower_case_is_masking() {
    let program = common::lister::program();
    let listing = |letters: &str| String::from_utf8(common::lister::run(&program, format!(">m1\n{letters}\n").as_bytes())).unwrap();
    assert_eq!(listing("AAbaab"), listing("aabaab"));
    assert_eq!(listing("AABAAB"), listing("aabaab"));
    // A repeat that changes case in the middle.
    assert_eq!(listing("ACGacgACg"), "m1\t0\t9\tp3\n");
    assert_eq!(listing("ACGac\r\ngACg"), "m1\t0\t9\tp3\n");
    // Every letter, and the bytes beside the two ranges.
    let small: Vec<u8> = (b'a'..=b'z').collect();
    let capital: Vec<u8> = (b'A'..=b'Z').collect();
    assert_eq!(lyndon::read_fasta(&[b">m1\n", &small[..], b"\n", &capital[..]].concat()).unwrap(), [&capital[..], &capital[..]].concat());
    for byte in *b"@[`{" {
        assert_eq!(refusal(lyndon::read_fasta(&[b">m1\na", &[byte][..]].concat())), (11, 5));
    }
    // The name is printed as it stands.
    assert_eq!(common::lister::run(&program, b">aB\naA\n"), b"aB\t0\t2\tp1\n");
}

#[test]
fn every_refusal_has_a_sentence() {
    let sentence = |number: u32| Error { number, position: 7 }.to_string();
    for number in (1..=17).chain([21, 22]) {
        assert!(sentence(number).ends_with(&format!("(refusal {number})")));
        assert!(!sentence(number).starts_with("refused at position"), "{}", sentence(number));
    }
    for number in [6, 7, 8, 10, 11, 12, 13, 14] {
        assert!(sentence(number).contains('7'));
    }
    for (number, limit) in [(2, "1048576"), (14, "4096"), (15, "16384")] {
        assert!(sentence(number).contains(limit));
    }
}
