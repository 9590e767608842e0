//! The library against the definitions on many short inputs, and against other methods on long ones.
mod common;
mod definitions;
mod faster;

use common::{all_texts, outcome, shown, Numbers};
use definitions::{list_length, Expected, MAX_INPUT, MAX_LETTERS};
use faster::Lists;
use lyndon::Error;

/// Buffers a little longer than needed, so that what lies past the places written is seen.
const SPARE: usize = 3;

fn room(n: usize) -> Vec<u32> {
    vec![0; n]
}

// Each call on one input, with buffers of the given lengths, held to the definitions.

fn check_array8(x: &[u8], order: u32, places: usize) {
    let mut out = room(places);
    let got = common::array8(x, order, &mut out);
    let what = format!("array of {x:?}, order {order}, {places} places");
    common::compare_all(&what, got, &[&out], &definitions::array_answer(x, order, places));
}

fn check_array32(x: &[u32], order: u32, places: usize) {
    let mut out = room(places);
    let got = common::array32(x, order, &mut out);
    let what = format!("array of {x:?}, order {order}, {places} places");
    common::compare_all(&what, got, &[&out], &definitions::array_answer(x, order, places));
}

fn check_runs(x: &[u8], work_places: usize, list_places: usize) {
    let (mut work, mut list) = (room(work_places), room(list_places));
    let got = common::runs(x, &mut work, &mut list);
    let what = format!("runs of {x:?}, {work_places} and {list_places} places");
    common::compare_all(&what, got, &[&work, &list], &definitions::runs_answer(x, work_places, list_places));
}

fn check_reconstruct(a: &[u32], places: usize) {
    let mut text = room(places);
    let got = common::reconstruct(a, &mut text);
    common::compare_all(&format!("reconstruct {a:?}, {places} places"), got, &[&text], &definitions::reconstruct_answer(a, places));
}

fn check_right_forest(a: &[u32], first_places: usize, past_places: usize) {
    let (mut first, mut past) = (room(first_places), room(past_places));
    let got = common::right_forest(a, &mut first, &mut past);
    let what = format!("right forest of {a:?}, {first_places} and {past_places} places");
    common::compare_all(&what, got, &[&first, &past], &definitions::right_forest_answer(a, first_places, past_places));
}

fn check_reader(input: &[u8], places: usize) {
    let mut letters = vec![0u8; places];
    let got = common::read_fasta(input, &mut letters);
    let what = format!("reading {:?}, {places} places", String::from_utf8_lossy(input));
    common::compare_all(&what, got, &[&letters], &definitions::read_fasta(input, places));
}

/// The ranked calls that take an order; `past_places` is the length of the left forest's second buffer.
fn check_ranked(x: &[u8], order: u32, table: &[u8], places: usize, past_places: usize) {
    let what = format!("{}, order {order}, table {table:?}, {places} and {past_places} places", shown(x));
    let accepted = [definitions::array_accepted::<u8>, definitions::suffix_table_accepted];
    let (mut first, mut past) = (room(places), room(past_places));
    for ((name, call), accepted) in common::RANKED_CALLS.iter().zip(accepted) {
        let got = call(x, order, table, &mut first);
        let want = definitions::ranked_answer(x, order, table, &[places], accepted);
        common::compare_all(&format!("{name} of {what}"), got, &[&first], &want);
    }
    let got = common::factors_ranked(x, order, table, &mut first);
    let want = definitions::ranked_answer(x, order, table, &[places], definitions::factors_accepted);
    common::compare_all(&format!("ranked factors of {what}"), got, &[&first], &want);
    let got = common::left_forest_ranked(x, order, table, &mut first, &mut past);
    let want = definitions::ranked_answer(x, order, table, &[places, past_places], definitions::left_forest_accepted);
    common::compare_all(&format!("ranked left forest of {what}"), got, &[&first, &past], &want);
}

fn check_runs_ranked(x: &[u8], table: &[u8], work_places: usize, list_places: usize) {
    let (mut work, mut list) = (room(work_places), room(list_places));
    let got = common::runs_ranked(x, table, &mut work, &mut list);
    let what = format!("ranked runs of {}, table {table:?}, {work_places} and {list_places} places", shown(x));
    common::compare_all(&what, got, &[&work, &list], &definitions::runs_ranked_answer(x, table, work_places, list_places));
}

/// Every ranked call that looks at a table.
fn check_by_table(x: &[u8], table: &[u8]) {
    check_ranked(x, 2, table, x.len() + SPARE, x.len() + 1);
    check_runs_ranked(x, table, 2 * x.len() + SPARE, list_length(x.len()) + SPARE);
}

/// Every call that takes a text of bytes, those without an order also in order 0 of the ranked form, and those that take its array.
fn check_text(x: &[u8]) {
    let n = x.len() + SPARE;
    for order in [0, 1] {
        check_array8(x, order, n);
        let letters: Vec<u32> = x.iter().map(|&l| u32::from(l) * 0x0101_0101).collect();
        check_array32(&letters, order, n);
    }
    common::check_default(x, [n, n + 1]);
    check_ranked(x, 0, &[], n, n + 1);
    check_runs(x, 2 * x.len() + SPARE, list_length(x.len()) + SPARE);
    if !x.is_empty() {
        for order in [0, 1] {
            check_array_of_text(x, order);
        }
    }
}

/// The array of a text is accepted, the text that is written for it has it, and its right forest is the text's.
fn check_array_of_text(x: &[u8], order: u32) {
    let a = definitions::array(order, x);
    assert_eq!(definitions::fault(&a), None);
    check_reconstruct(&a, a.len() + SPARE);
    check_right_forest(&a, a.len() + 1, a.len() + SPARE);
    let written = lyndon::reconstruct(&a).unwrap();
    assert_eq!(definitions::array(0, &written), a, "the text written for the array of {x:?} has it");
    if order == 0 {
        let forest = lyndon::right_forest(&a).unwrap();
        assert_eq!((forest.first, forest.past), definitions::right_forest(x), "right forest of {x:?}");
    }
}

#[test]
fn all_short_texts_of_two_letters() {
    for n in 0..=12 {
        all_texts(b"ab", n).for_each(|x| check_text(&x));
    }
}

#[test]
fn all_short_texts_of_three_letters() {
    for n in 1..=7 {
        all_texts(b"abc", n).for_each(|x| check_text(&x));
    }
}

#[test]
fn all_short_texts_of_four_far_letters() {
    for n in 1..=5 {
        all_texts(&[0, 127, 128, 255], n).for_each(|x| check_text(&x));
    }
}

/// The largest number of comparisons for each length from 1 on, by trying all texts.
#[test]
fn most_comparisons() {
    let two = [0, 1, 2, 4, 5, 7, 9, 10, 12, 14, 16, 17];
    let three = [0, 1, 2, 4, 5, 7, 9, 11, 12, 14];
    for (alphabet, wanted) in [(&b"ab"[..], &two[..]), (b"abc", &three)] {
        for (n, &most) in (1..).zip(wanted) {
            let counts = all_texts(alphabet, n).map(|x| lyndon::factorization_ranked(&x, lyndon::Order::Rising).unwrap().comparisons);
            assert_eq!(counts.max(), Some(most), "{n} letters, {} different", alphabet.len());
        }
    }
}

/// The largest number of runs for each length from 1 on, by trying all texts.
#[test]
fn most_runs() {
    let two = [0, 1, 1, 2, 2, 3, 4, 5, 5, 6, 7, 8, 8, 10];
    let three = [0, 1, 1, 2, 2, 3, 4, 5, 5];
    for (alphabet, wanted) in [(&b"ab"[..], &two[..]), (b"abc", &three)] {
        for (n, &most) in (1..).zip(wanted) {
            let counts = all_texts(alphabet, n).map(|x| lyndon::runs(&x).unwrap().len());
            assert_eq!(counts.max(), Some(most), "{n} letters, {} different", alphabet.len());
        }
    }
}

#[test]
fn random_texts() {
    let mut numbers = Numbers::new(1);
    let bytes: Vec<u8> = (0..=255).collect();
    let alphabets: [&[u8]; 6] = [b"a", b"ab", b"abc", b"ACGT", b"ACDEFGHIKLMNPQRSTVWY", &bytes];
    for round in 0..600 {
        let n = 1 + numbers.below(40);
        let x = numbers.text(alphabets[round % 6], n);
        check_text(&x);
    }
    for _ in 0..150 {
        let n = 1 + numbers.below(60);
        let x = common::repetitive(&mut numbers, n);
        check_text(&x);
    }
}

#[test]
fn structured_texts() {
    for n in [1, 2, 3, 5, 8, 13, 21, 34, 47, 55] {
        for (_, x) in common::families(n) {
            check_text(&x);
        }
    }
    let mut numbers = Numbers::new(2);
    for _ in 0..200 {
        let n = 4 + numbers.below(50);
        let p = 1 + numbers.below(6);
        let w = numbers.text(b"ab", p);
        check_text(&common::two_powers(&w, n));
        check_text(&common::power(&w, n));
    }
}

#[test]
fn random_texts_of_numbers() {
    let mut numbers = Numbers::new(3);
    let far = [0, 1, 2, 255, 256, 65_535, 65_536, 0x7fff_ffff, 0x8000_0000, 0xffff_fffe, 0xffff_ffff];
    for round in 0..2000 {
        let n = 1 + numbers.below(30);
        let k = 1 + numbers.below(far.len());
        let x: Vec<u32> = (0..n).map(|_| if round % 3 == 0 { numbers.next() as u32 } else { far[numbers.below(k)] }).collect();
        for order in [0, 1] {
            check_array32(&x, order, n + SPARE);
        }
    }
}

#[test]
fn all_short_arrays() {
    for n in 0..=6usize {
        let values = n + 2;
        for mut number in 0..values.pow(n as u32) {
            let a: Vec<u32> = (0..n)
                .map(|_| {
                    let entry = number % values;
                    number /= values;
                    entry as u32
                })
                .collect();
            check_reconstruct(&a, n + 1);
            check_right_forest(&a, n + 1, n);
        }
    }
}

/// The array of a random text, with some entries changed.
fn damaged(numbers: &mut Numbers, n: usize, changes: usize) -> Vec<u32> {
    let alphabet: &[u8] = numbers.pick(&[b"ab".as_slice(), b"abc", b"aab", b"abcdefgh"]);
    let order = numbers.below(2) as u32;
    let x = numbers.text(alphabet, n);
    let mut a = definitions::array(order, &x);
    for _ in 0..changes {
        let i = numbers.below(n);
        let left = (n - i) as u32;
        let any = 1 + numbers.below(n) as u32;
        a[i] = numbers.pick(&[
            0,
            1,
            2,
            left,
            left + 1,
            left.saturating_sub(1),
            any,
            any,
            any,
            a[i] + 1,
            u32::MAX,
            u32::MAX - i as u32 + 1,
            (1 << 31),
        ]);
    }
    a
}

#[test]
fn damaged_arrays() {
    let mut numbers = Numbers::new(4);
    let mut seen = [0; 9];
    for round in 0..20_000 {
        let n = 1 + numbers.below(24);
        let a = damaged(&mut numbers, n, round % 4);
        seen[definitions::fault(&a).map_or(0, |fault| fault.0 as usize)] += 1;
        check_reconstruct(&a, n + SPARE);
        check_right_forest(&a, n + SPARE, n);
    }
    assert!([0, 6, 7, 8].iter().all(|&number| seen[number] > 1000), "all kinds of faults occur: {seen:?}");
}

#[test]
fn two_faults_at_once() {
    let mut numbers = Numbers::new(5);
    for round in 0..6000 {
        let n = if round % 5 == 0 { 0 } else { numbers.below(8) };
        let x = numbers.text(b"ab", n);
        let order = numbers.pick(&[0, 1, 2, 3, 256, u32::MAX]);
        let mut short = |full: usize| -> usize { numbers.pick(&[0, full.saturating_sub(1), full, full + 1, full / 2]) };
        let (p, q) = (short(n), short(n));
        let (work, list) = (short(2 * n), short(list_length(n)));
        check_array8(&x, order, p);
        let letters: Vec<u32> = x.iter().map(|&l| u32::from(l)).collect();
        check_array32(&letters, order, p);
        common::check_default(&x, [p, q]);
        check_runs(&x, work, list);
        let a = if n == 0 { vec![] } else { damaged(&mut numbers, n, 2) };
        check_reconstruct(&a, p);
        check_right_forest(&a, p, q);
    }
}

// Ranks

/// Tables of several kinds: by number, turned round, any permutation, few ranks, one rank, any ranks.
fn rank_tables(numbers: &mut Numbers) -> Vec<Vec<u8>> {
    let by_number: Vec<u8> = (0..=255).collect();
    let turned = by_number.iter().rev().copied().collect();
    let any_rank = numbers.pick(&by_number);
    vec![
        turned,
        numbers.shuffled_bytes(),
        numbers.text(&[3, 4], 256),
        numbers.text(&[0, 127, 128, 255], 256),
        vec![any_rank; 256],
        numbers.text(&by_number, 256),
        by_number,
    ]
}

#[test]
fn random_texts_by_rank() {
    let mut numbers = Numbers::new(15);
    let bytes: Vec<u8> = (0..=255).collect();
    for round in 0..1000 {
        let n = 1 + numbers.below(40);
        let x = match round % 4 {
            0 => numbers.text(b"ab", n),
            1 => numbers.text(b"ACGTacgtN", n),
            2 => numbers.text(&bytes, n),
            _ => common::repetitive(&mut numbers, n),
        };
        for table in rank_tables(&mut numbers) {
            check_by_table(&x, &table);
        }
    }
}

/// Three letters, and all ways to rank them.
#[test]
fn all_short_texts_by_all_ranks() {
    for ranks in all_texts(&[0, 7, 255], 3) {
        let mut table = vec![7; 256];
        table[97..100].copy_from_slice(&ranks);
        for n in 1..=5 {
            all_texts(b"abc", n).for_each(|x| check_by_table(&x, &table));
        }
    }
}

#[test]
fn structured_texts_by_rank() {
    let mut numbers = Numbers::new(16);
    for n in [1, 2, 5, 13, 34, 55] {
        for (_, x) in common::families(n) {
            for input in common::ranked_inputs(&mut numbers, &x) {
                check_ranked(&input.text, input.order, &input.table, n, n + SPARE);
                check_ranked(&x, input.order, &input.table, n + SPARE, n);
            }
        }
    }
}

/// Every order with every length of table and buffers, short, exact and longer: all faults, each alone and together with the others.
#[test]
fn faults_of_ranked_calls() {
    let mut numbers = Numbers::new(17);
    let table = numbers.text(&[0, 1], 257);
    for n in [0, 1, 6, lyndon::MAX_LENGTH + 1] {
        let x = numbers.text(b"abc", n);
        let lengths = |full: usize| match n {
            0..=6 => vec![0, full.saturating_sub(1), full, full + 1],
            _ => vec![0, full],
        };
        for entries in [0, 255, 256, 257] {
            for (order, places) in pairs(&[0, 1, 2, 3, u32::MAX], &lengths(n)) {
                lengths(n).into_iter().for_each(|past_places| check_ranked(&x, order, &table[..entries], places, past_places));
            }
            for (work, list) in pairs(&lengths(2 * n), &lengths(list_length(n))) {
                check_runs_ranked(&x, &table[..entries], work, list);
            }
        }
    }
}

fn pairs<A: Copy, B: Copy>(one: &[A], two: &[B]) -> Vec<(A, B)> {
    one.iter().flat_map(|&a| two.iter().map(move |&b| (a, b))).collect()
}

// The reader

fn valid_input(numbers: &mut Numbers) -> Vec<u8> {
    let mut input = b">".to_vec();
    for _ in 0..numbers.pick(&[1, 2, 3, 10, 58, 59, 60, 61, 62]) {
        input.push(33 + numbers.below(94) as u8);
    }
    if numbers.below(2) == 0 {
        input.push(numbers.pick(b" \t\r"));
        for _ in 0..numbers.below(6) {
            input.push(numbers.pick(b"ab >\r\t\0\x80\xff1"));
        }
    }
    let lines = numbers.below(6);
    for _ in 0..lines {
        input.extend(numbers.pick(&[b"\n".as_slice(), b"\n", b"\r\n", b"\n\n", b"\n\r\n"]));
        for _ in 0..numbers.below(8) {
            input.push(numbers.pick(b"ACGTNacgtnxyzAZaz"));
        }
    }
    input.extend(numbers.pick(&[b"".as_slice(), b"\n", b"\r\n", b"\n\n"]));
    input
}

/// One change: a byte put in, taken out or replaced, or an early end.
fn damage(numbers: &mut Numbers, input: &mut Vec<u8>) {
    let odd = b"\r\n>\n\r\n>@[`{AZaz \t\x00\x1f!~\x7f\x80\xff0-*";
    let i = numbers.below(input.len() + 1);
    match numbers.below(4) {
        0 => input.insert(i, numbers.pick(odd)),
        1 if i < input.len() => {
            input.remove(i);
        }
        2 => input.truncate(i),
        _ if i < input.len() => input[i] = numbers.pick(odd),
        _ => {}
    }
}

#[test]
fn inputs_changed_at_random() {
    let mut numbers = Numbers::new(6);
    let mut seen = [0; 16];
    for round in 0..40_000 {
        let mut input = valid_input(&mut numbers);
        for _ in 0..round % 4 {
            damage(&mut numbers, &mut input);
        }
        let places = numbers.pick(&[MAX_LETTERS, MAX_LETTERS, MAX_LETTERS + 1, MAX_LETTERS + 12, MAX_LETTERS + 12, MAX_LETTERS - 1, 0]);
        if let Expected::Refused { number, .. } = definitions::read_fasta(&input, places) {
            seen[number as usize] += 1;
        } else {
            seen[0] += 1;
        }
        check_reader(&input, places);
    }
    assert!([0, 4, 9, 10, 11, 12, 13].iter().all(|&number| seen[number] > 100), "all kinds of faults occur: {seen:?}");
}

#[test]
fn every_byte_at_every_place() {
    for byte in 0..=255u8 {
        for i in 0..13 {
            let mut input = b">m1 x\nAc\r\nGt\n".to_vec();
            input[i] = byte;
            check_reader(&input, MAX_LETTERS + 2);
            input.insert(i, b'A');
            check_reader(&input, MAX_LETTERS + 2);
            input.truncate(i + 2);
            check_reader(&input, MAX_LETTERS + 2);
        }
    }
}

#[test]
fn inputs_at_the_limits() {
    let mut numbers = Numbers::new(7);
    for name in [1, 59, 60, 61] {
        for letters in MAX_LETTERS - 2..=MAX_LETTERS + 2 {
            for width in [1, 60, 5000] {
                for end in [b"".as_slice(), b"\n", b"\r\n", b"\r", b"\n>", b"!", b"A"] {
                    let mut input = [b">".as_slice(), &vec![b'm'; name], b"\n"].concat();
                    for i in 0..letters {
                        input.push(numbers.pick(b"ACGTacgt"));
                        if i % width == width - 1 {
                            input.push(b'\n');
                        }
                    }
                    input.extend(end);
                    check_reader(&input, MAX_LETTERS);
                    check_reader(&input, MAX_LETTERS - 1);
                }
            }
        }
    }
    // The size of the input, with a fault inside and without.
    for size in [MAX_INPUT - 2, MAX_INPUT - 1, MAX_INPUT, MAX_INPUT + 1, 20_000] {
        for front in [b">m\nACGT".as_slice(), b">m\n", b"m\nA", b"> \nA", b">m\nA-", b">m\nA\n>"] {
            let mut input = front.to_vec();
            input.resize(size, b'\n');
            check_reader(&input, MAX_LETTERS);
            check_reader(&input, 100);
            input[size - 1] = b'-';
            check_reader(&input, MAX_LETTERS);
        }
        let header = [b">m ".as_slice(), &vec![0x80; size - 3]].concat();
        check_reader(&header, MAX_LETTERS);
    }
}

#[test]
fn listings() {
    let program = common::lister::program();
    let mut numbers = Numbers::new(8);
    for round in 0..300 {
        let mut input = valid_input(&mut numbers);
        if round % 3 == 0 {
            let i = numbers.below(input.len());
            input[i] = numbers.pick(b"\r\n>- A");
        }
        if round % 5 == 0 {
            let n = 1 + numbers.below(MAX_LETTERS);
            let x = common::repetitive(&mut numbers, n);
            input = [b">chr1 of a test\n".as_slice(), &x, b"\n"].concat();
        }
        let want = definitions::listing(&input, faster::runs);
        assert_eq!(String::from_utf8_lossy(&common::lister::run(&program, &input)), String::from_utf8_lossy(&want));
    }
}

/// Letters behind the header line in the other case change no answer, no content and no listing, of a refused input neither.
#[test]
fn letters_in_the_other_case() {
    let program = common::lister::program();
    let mut numbers = Numbers::new(25);
    let (mut seen, mut changed) = ([0; 16], 0);
    for round in 0..12_000 {
        let mut input = match round % 8 {
            0 => {
                let n = 1 + numbers.below(MAX_LETTERS);
                let x = common::repetitive(&mut numbers, n);
                [b">Chr1 of a test\n".as_slice(), &x, b"\n"].concat()
            }
            // Letters about as many as there may be, or bytes.
            1 if round % 5 == 0 => {
                let n = numbers.pick(&[MAX_LETTERS - 1, MAX_LETTERS, MAX_LETTERS + 1, MAX_INPUT - 4, MAX_INPUT - 3, MAX_INPUT - 2]);
                [b">m\n".as_slice(), &numbers.text(b"ACGTacgt", n)].concat()
            }
            _ => valid_input(&mut numbers),
        };
        for _ in 0..numbers.below(4) {
            damage(&mut numbers, &mut input);
        }
        let header = input.iter().position(|&byte| byte == b'\n').unwrap_or(input.len());
        let mut other = input.clone();
        for byte in &mut other[header..] {
            if byte.is_ascii_alphabetic() && numbers.below(3) == 0 {
                *byte ^= 32;
            }
        }
        changed += usize::from(input != other);
        let places = numbers.pick(&[MAX_LETTERS, MAX_LETTERS + 2, MAX_LETTERS + 2, MAX_LETTERS + 2, MAX_LETTERS - 1]);
        let mut letters = [vec![0; places], vec![0; places]];
        let [one, two] = &mut letters;
        let got = common::read_fasta(&other, two);
        assert_eq!(common::read_fasta(&input, one), got);
        assert_eq!(one, two);
        check_reader(&other, places);
        seen[got.map_or_else(|error| error.number as usize, |_| 0)] += 1;
        if round % 37 == 0 {
            let listing = common::lister::run(&program, &other);
            assert!(listing == common::lister::run(&program, &input));
            assert!(listing == definitions::listing(&other, faster::runs));
        }
    }
    assert!(changed > 6000, "{changed} inputs were changed");
    assert!([0, 4, 9, 10, 11, 12, 13, 14, 15].iter().all(|&number| seen[number] > 20), "all kinds of answers occur: {seen:?}");
}

// Long texts

/// Every call on one long text, held to other methods.
fn check_long(name: &str, x: &[u8], runs: fn(&[u8]) -> Vec<u32>) {
    let n = x.len();
    let mut out = room(n + SPARE);
    let lists = Lists::of(x, runs);
    let letters: Vec<u32> = x.iter().map(|&l| u32::from(l) << 24 | 7).collect();
    for order in [0, 1] {
        let want = &lists.arrays[order as usize];
        let got = common::array8(x, order, &mut out);
        common::compare(&format!("array, {name}"), got, &[&out], Ok(n), &[Some(want)]);
        let got = common::array32(&letters, order, &mut out);
        common::compare(&format!("array of numbers, {name}"), got, &[&out], Ok(n), &[Some(want)]);
    }
    // In the default order the case of a letter does not count.
    let by_default = lists.in_default_order(x);
    check_long_default(name, x, &by_default);
    let either_case = common::in_either_case(&mut Numbers::for_text(x), x);
    check_long_default(&format!("{name}, either case"), &either_case, &by_default);
    let (mut first, mut past) = (room(n + SPARE), room(n));
    for a in &lists.arrays {
        check_long_array(name, a);
    }
    let (mut work, mut list) = (room(2 * n + SPARE), room(list_length(n) + SPARE));
    let got = common::runs(x, &mut work, &mut list);
    let (count, arrays) = (lists.runs.len() / 3, lists.arrays.concat());
    common::compare(&format!("runs, {name}"), got, &[&work, &list], Ok(count), &[Some(&arrays), Some(&lists.runs)]);

    for input in common::ranked_inputs(&mut Numbers::for_text(x), x) {
        let what = format!("order {}, {name}", input.order);
        for ((call_name, call), want) in common::RANKED_CALLS.iter().zip(lists.ranked()) {
            let got = call(&input.text, input.order, &input.table, &mut out);
            common::compare(&format!("{call_name}, {what}"), got, &[&out], Ok(n), &[Some(want)]);
        }
        let got = common::factors_ranked(&input.text, input.order, &input.table, &mut out);
        common::compare(&format!("ranked factors, {what}"), got, &[&out], Ok(lists.factor_count()), &[Some(&lists.factors)]);
        let got = common::left_forest_ranked(&input.text, input.order, &input.table, &mut first, &mut past);
        common::compare(&format!("ranked left forest, {what}"), got, &[&first, &past], Ok(n), &[Some(&lists.first), Some(&lists.past)]);
        if input.order == 2 {
            let got = common::runs_ranked(&input.text, &input.table, &mut work, &mut list);
            common::compare(&format!("ranked runs, {name}"), got, &[&work, &list], Ok(count), &[Some(&arrays), Some(&lists.runs)]);
        }
    }
}

/// The calls without an order on one long text, held to the lists of its row of ranks.
fn check_long_default(name: &str, x: &[u8], lists: &Lists) {
    let n = x.len();
    let (mut first, mut past) = (room(n + SPARE), room(n));
    let got = common::factors(x, &mut first);
    common::compare(&format!("factors, {name}"), got, &[&first], Ok(lists.factor_count()), &[Some(&lists.factors)]);
    let got = common::suffix_table(x, &mut first);
    common::compare(&format!("suffix table, {name}"), got, &[&first], Ok(n), &[Some(&lists.suffix_table)]);
    let got = common::left_forest(x, &mut first, &mut past);
    common::compare(&format!("left forest, {name}"), got, &[&first, &past], Ok(n), &[Some(&lists.first), Some(&lists.past)]);
}

/// The calls that take an array, held to other methods.
fn check_long_array(name: &str, a: &[u32]) {
    let n = a.len();
    let (mut text, mut first, mut past) = (room(n + SPARE), room(n + SPARE), room(n));
    let answer = match faster::fault(a) {
        None => Ok(n),
        Some((number, i)) => Err(Error { number, position: i as u32 }),
    };
    let written = answer.is_ok().then(|| faster::text_for(a));
    let forest = answer.is_ok().then(|| faster::right_forest(a));
    let got = common::reconstruct(a, &mut text);
    common::compare(&format!("reconstruct, {name}"), got, &[&text], answer, &[written.as_deref()]);
    let got = common::right_forest(a, &mut first, &mut past);
    let (w_first, w_past) = forest.unzip();
    common::compare(&format!("right forest, {name}"), got, &[&first, &past], answer, &[w_first.as_deref(), w_past.as_deref()]);
}

/// The other methods agree with the definitions where both can be had.
#[test]
fn other_methods_agree_with_the_definitions() {
    let mut numbers = Numbers::new(9);
    for round in 0..800 {
        let n = 1 + numbers.below(30);
        let x = numbers.text(if round % 2 == 0 { b"ab" } else { b"abcd" }, n);
        for order in [0, 1] {
            assert_eq!(faster::array(order, &x), definitions::array(order, &x));
        }
        assert_eq!(faster::factors(&x), definitions::factors(0, &x));
        assert_eq!(faster::comparisons(&x, &faster::array(0, &x)), definitions::duval(0, &x).1);
        let (first, past) = definitions::left_forest(0, &x);
        assert_eq!(faster::suffix_table_and_left_forest(&x), (definitions::suffix_table(0, &x), first, past));
        assert_eq!(faster::runs(&x), definitions::runs(&x));
        assert_eq!(faster::runs_by_extensions(&x), definitions::runs(&x));
        let a = definitions::array(0, &x);
        assert_eq!(faster::right_forest(&a), definitions::right_forest(&x));
        assert_eq!(faster::text_for(&a), definitions::text_for(&a));
        let a = damaged(&mut numbers, n, round % 3);
        assert_eq!(faster::fault(&a), definitions::fault(&a));
    }
}

#[test]
fn texts_of_some_hundred_letters() {
    let mut numbers = Numbers::new(10);
    for round in 0..400 {
        let n = 100 + numbers.below(500);
        let x = match round % 4 {
            0 => common::repetitive(&mut numbers, n),
            1 => numbers.text(b"ab", n),
            2 => numbers.text(b"ACGT", n),
            _ => {
                let p = 1 + numbers.below(20);
                let w = numbers.text(b"ab", p);
                common::two_powers(&w, n)
            }
        };
        check_long("a text of some hundred letters", &x, faster::runs);
    }
}

#[test]
fn hard_families_of_10_000_letters() {
    for (name, x) in common::families(10_000) {
        check_long(&name, &x, faster::runs);
    }
}

#[test]
fn families_of_100_000_letters() {
    for (name, x) in common::families(100_000) {
        check_long(&name, &x, faster::runs_by_extensions);
    }
}

/// Texts of the largest length.
#[test]
fn longest_fibonacci() {
    check_long("longest, fibonacci", &common::fibonacci(lyndon::MAX_LENGTH), faster::runs_by_extensions);
}

#[test]
fn longest_random() {
    let x = Numbers::new(14).text(b"ACGT", lyndon::MAX_LENGTH);
    check_long("longest, random", &x, faster::runs_by_extensions);
}

#[test]
fn long_texts_of_many_numbers() {
    let mut numbers = Numbers::new(11);
    let n = 60_000;
    let rising: Vec<u32> = (0..n).collect();
    let falling: Vec<u32> = (0..n).rev().collect();
    let any: Vec<u32> = (0..n).map(|_| numbers.next() as u32).collect();
    let few: Vec<u32> = (0..n).map(|_| u32::MAX - numbers.below(3) as u32).collect();
    for x in [rising, falling, any, few] {
        for order in [0, 1] {
            let mut out = room(x.len() + SPARE);
            let got = common::array32(&x, order, &mut out);
            let want = faster::array(order, &x);
            common::compare("array of many numbers", got, &[&out], Ok(x.len()), &[Some(&want)]);
            check_long_array("array of many numbers", &want);
        }
    }
}

#[test]
fn long_damaged_arrays() {
    let mut numbers = Numbers::new(12);
    for (name, x) in common::families(20_000) {
        let n = x.len();
        let a = faster::array(0, &x);
        for round in 0..12 {
            let mut a = a.clone();
            for _ in 0..1 + round % 3 {
                let i = numbers.below(n);
                a[i] = match round % 4 {
                    0 => 0,
                    1 => (n - i + 1) as u32,
                    2 => 1 + numbers.below(n - i) as u32,
                    _ => (a[i] + 1).min((n - i) as u32),
                };
            }
            check_long_array(&format!("{name}, damaged"), &a);
        }
    }
    // Entries that all cross, or that make a plain walk slow.
    let n = 50_000u32;
    let patterns: [fn(u32, u32) -> u32; 5] = [
        |i, n| [3, n - i, 1][i as usize % 3].min(n - i),
        |i, n| n - i,
        |i, n| 2.min(n - i),
        |i, n| ((n - i) / 2).max(1),
        |i, n| if i % 2 == 0 { n - i } else { 1 },
    ];
    for pattern in patterns {
        let a: Vec<u32> = (0..n).map(|i| pattern(i, n)).collect();
        check_long_array("a pattern of entries", &a);
    }
}

/// The forms that allocate give what the forms with buffers give.
#[test]
fn forms_that_allocate() {
    use lyndon::Order;
    let mut numbers = Numbers::new(13);
    for _ in 0..300 {
        let n = numbers.below(30);
        let x = numbers.text(b"abAB[", n);
        let (mut out, mut other, mut work, mut list) = (room(n), room(n), room(2 * n), room(list_length(n)));
        for order in [Order::Rising, Order::Falling] {
            let written = lyndon::lyndon_array_into(&x, order, &mut out).map(|count| out[..count].to_vec());
            assert_eq!(lyndon::lyndon_array(&x, order), written);
            let letters: Vec<u32> = x.iter().map(|&l| u32::from(l)).collect();
            assert_eq!(lyndon::lyndon_array_u32(&letters, order), written);
        }
        let written = lyndon::factorization_into(&x, &mut out).map(|factors| (out[..factors.count].to_vec(), factors.comparisons));
        assert_eq!(lyndon::factorization(&x).map(|factors| (factors.starts, factors.comparisons)), written);
        assert_eq!(lyndon::suffix_table(&x), lyndon::suffix_table_into(&x, &mut out).map(|count| out[..count].to_vec()));
        let written = lyndon::left_forest_into(&x, &mut out, &mut other).map(|_| (out.clone(), other.clone()));
        assert_eq!(lyndon::left_forest(&x).map(|f| (f.first, f.past)), written);
        let written = lyndon::runs_into(&x, &mut work, &mut list).map(|count| lyndon::listed(&list[..3 * count]).collect::<Vec<_>>());
        assert_eq!(lyndon::runs(&x), written);
        let a = if n == 0 { vec![] } else { damaged(&mut numbers, n, 1) };
        assert_eq!(lyndon::reconstruct(&a), lyndon::reconstruct_into(&a, &mut out).map(|count| out[..count].to_vec()));
        let written = lyndon::right_forest_into(&a, &mut out, &mut other).map(|_| (out.clone(), other.clone()));
        assert_eq!(lyndon::right_forest(&a).map(|f| (f.first, f.past)), written);
        let input = valid_input(&mut numbers);
        let mut letters = vec![0; MAX_LETTERS];
        let written = lyndon::read_fasta_into(&input, &mut letters).map(|count| letters[..count].to_vec());
        assert_eq!(lyndon::read_fasta(&input), written);
    }
}

/// The forms with buffers give what the C interface gives, in buffers that are long enough, longer, and one place short.
#[test]
fn forms_with_buffers() {
    use lyndon::Order;
    let mut numbers = Numbers::new(26);
    for _ in 0..600 {
        let n = numbers.below(30);
        let x = numbers.text(b"abAB[", n);
        let letters: Vec<u32> = x.iter().map(|&l| u32::from(l)).collect();
        let a = if n == 0 { vec![] } else { damaged(&mut numbers, n, 1) };
        let mut near = |full: usize| numbers.pick(&[full, full, full + SPARE, full.saturating_sub(1)]);
        let (p, q, work, list) = (near(n), near(n), near(2 * n), near(list_length(n)));
        for order in [Order::Rising, Order::Falling] {
            let want = outcome([p], |[out]| common::array8(&x, order.number(), out));
            assert_eq!(outcome([p], |[out]| lyndon::lyndon_array_into(&x, order, out)), want);
            assert_eq!(outcome([p], |[out]| lyndon::lyndon_array_u32_into(&letters, order, out)), want);
        }
        let got = outcome([p], |[out]| lyndon::factorization_into(&x, out).map(|factors| (factors.count, factors.comparisons)));
        assert_eq!(got, outcome([p], |[out]| common::factors(&x, out)));
        let got = outcome([p], |[out]| lyndon::suffix_table_into(&x, out));
        assert_eq!(got, outcome([p], |[out]| common::suffix_table(&x, out)));
        let got = outcome([p, q], |[first, past]| lyndon::left_forest_into(&x, first, past));
        assert_eq!(got, outcome([p, q], |[first, past]| common::left_forest(&x, first, past)));
        let got = outcome([work, list], |[work, list]| lyndon::runs_into(&x, work, list));
        assert_eq!(got, outcome([work, list], |[work, list]| common::runs(&x, work, list)));
        let got = outcome([p], |[text]| lyndon::reconstruct_into(&a, text));
        assert_eq!(got, outcome([p], |[text]| common::reconstruct(&a, text)));
        let got = outcome([p, q], |[first, past]| lyndon::right_forest_into(&a, first, past));
        assert_eq!(got, outcome([p, q], |[first, past]| common::right_forest(&a, first, past)));

        let input = valid_input(&mut numbers);
        let places = MAX_LETTERS - 1 + numbers.below(4);
        let (mut one, mut two) = (vec![0; places], vec![0; places]);
        common::fill(&mut two);
        assert_eq!(common::read_fasta(&input, &mut one), lyndon::read_fasta_into(&input, &mut two));
        assert_eq!(one, two);
    }
}

/// The ranked forms of the crate give what the C interface gives.
#[test]
fn ranked_forms_that_allocate() {
    use lyndon::{LetterOrder, Order, Ranks};
    let mut numbers = Numbers::new(18);
    for _ in 0..100 {
        let n = numbers.below(30);
        let x = numbers.text(b"abc", n);
        for table in rank_tables(&mut numbers) {
            let ranks = Ranks::new(table[..].try_into().unwrap());
            for order in [Order::Rising.into(), Order::Falling.into(), LetterOrder::from(&ranks)] {
                let written = common::RANKED_CALLS.map(|(_, call)| {
                    let mut out = room(n);
                    call(&x, order.number(), &table, &mut out).map(|count| out[..count].to_vec())
                });
                assert_eq!([lyndon::lyndon_array_ranked(&x, order), lyndon::suffix_table_ranked(&x, order)], written);
                let (mut first, mut past) = (room(n), room(n));
                let written = common::factors_ranked(&x, order.number(), &table, &mut first);
                let written = written.map(|(count, comparisons)| (first[..count].to_vec(), comparisons));
                assert_eq!(lyndon::factorization_ranked(&x, order).map(|factors| (factors.starts, factors.comparisons)), written);
                let written = common::left_forest_ranked(&x, order.number(), &table, &mut first, &mut past).map(|_| (first, past));
                assert_eq!(lyndon::left_forest_ranked(&x, order).map(|f| (f.first, f.past)), written);
            }
            let (mut work, mut list) = (room(2 * n), room(list_length(n)));
            let written = common::runs_ranked(&x, &table, &mut work, &mut list);
            let written = written.map(|count| lyndon::listed(&list[..3 * count]).collect::<Vec<_>>());
            assert_eq!(lyndon::runs_ranked(&x, &ranks), written);
        }
    }
}
