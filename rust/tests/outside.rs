//! Outputs of programs by other hands, stored in tests/data/outside (scripts/outside/make-anew makes them anew): Lyndon arrays from
//! suffix arrays of libdivsufsort, and what SageMath says of factors, Lyndon words, standard factorizations and squares.
use lyndon::{Order, Ranks};

const TEXTS: &str = include_str!("data/outside/texts.tsv");

fn text(name: &str) -> &'static [u8] {
    let line = TEXTS.lines().find(|line| line.split('\t').next() == Some(name)).expect("a text of that name");
    line.split('\t').nth(1).unwrap().as_bytes()
}

/// The programs compare letters by number.
fn ours(x: &[u8], what: &str) -> Vec<u32> {
    let right = || lyndon::right_forest(&lyndon::lyndon_array(x, Order::Rising).unwrap()).unwrap();
    let left = || lyndon::left_forest_ranked(x, Order::Rising).unwrap();
    match what {
        "array-rising" => lyndon::lyndon_array(x, Order::Rising).unwrap(),
        "array-falling" => lyndon::lyndon_array(x, Order::Falling).unwrap(),
        "factors" => lyndon::factorization_ranked(x, Order::Rising).unwrap().starts,
        "suffix-table" => lyndon::suffix_table_ranked(x, Order::Rising).unwrap(),
        "right-first" => right().first,
        "right-past" => right().past,
        "left-first" => left().first,
        "left-past" => left().past,
        "runs" => lyndon::runs(x).unwrap().iter().flat_map(|run| [run.start, run.last, run.period]).collect(),
        _ => panic!("unknown list: {what}"),
    }
}

/// What a call without an order writes, where there is one, and the array that goes with it.
fn in_default_order(x: &[u8], what: &str) -> Option<Vec<u32>> {
    match what {
        "array-rising" => Some(lyndon::lyndon_array_ranked(x, &Ranks::default()).unwrap()),
        "factors" => Some(lyndon::factorization(x).unwrap().starts),
        "suffix-table" => Some(lyndon::suffix_table(x).unwrap()),
        "left-first" => Some(lyndon::left_forest(x).unwrap().first),
        "left-past" => Some(lyndon::left_forest(x).unwrap().past),
        _ => None,
    }
}

/// The text with every third letter in the other case.
fn cases_mixed(x: &[u8]) -> Vec<u8> {
    x.iter().enumerate().map(|(i, &letter)| if i % 3 == 1 { letter ^ 32 } else { letter }).collect()
}

/// Compares every stored list, and returns how many there are.
fn compare(stored: &str) -> usize {
    for line in stored.lines() {
        let parts: Vec<&str> = line.split('\t').collect();
        let [name, what, numbers] = parts[..] else { panic!("three parts to a line: {line}") };
        let theirs: Vec<u32> = numbers.split_whitespace().map(|number| number.parse().unwrap()).collect();
        let x = text(name);
        assert_eq!(ours(x, what), theirs, "{what} of {name}");
        // The texts are lower case alone, or capitals alone; in the default order the case of a letter does not count.
        assert!(x.iter().all(u8::is_ascii_lowercase) || x.iter().all(u8::is_ascii_uppercase));
        for x in [x, &cases_mixed(x)] {
            assert!(in_default_order(x, what).map_or(true, |list| list == theirs), "{what} of {name}, in the default order");
        }
    }
    stored.lines().count()
}

#[test]
fn libdivsufsort() {
    assert_eq!(compare(include_str!("data/outside/divsufsort.tsv")), 2 * TEXTS.lines().count());
}

#[test]
fn sagemath() {
    let short = TEXTS.lines().filter(|line| line.split('\t').nth(1).unwrap().len() <= 130).count();
    assert_eq!(compare(include_str!("data/outside/sage.tsv")), TEXTS.lines().count() + 7 * short);
}
