//! The outside cases: expected answers of a reference by other hands, of document 01 (tests/data/public_base.jsonl) and of document 02
//! (tests/data/public_ext.jsonl).
mod common;
mod definitions;

use common::json::Json;
use common::Numbers;
use lyndon::Error;
use std::collections::HashMap;

const BASE: &str = include_str!("data/public_base.jsonl");
const LATER: &str = include_str!("data/public_ext.jsonl");

fn wanted(want: &Json) -> Result<usize, Error> {
    match want.get("ok") {
        Some(count) => Ok(count.number() as usize),
        None => Err(Error { number: want.get("no").unwrap().number() as u32, position: want.get("at").unwrap().number() as u32 }),
    }
}

/// The second number of an accepted factor list.
fn comparisons(want: &Json) -> u32 {
    want.get("second").unwrap().number() as u32
}

fn numbers(case: &Json, name: &str) -> Option<Vec<u32>> {
    case.get(name).map(Json::numbers)
}

/// Runs every case of the calls named, each with buffers of the lengths given, and returns how many there were.
fn run_cases(calls: &[&str], mut run: impl FnMut(&str, &str, &Json, &Json)) -> usize {
    let mut count = 0;
    for line in BASE.lines() {
        let case = Json::read(line);
        let call = case.get("call").unwrap().text().to_string();
        if calls.contains(&&call[..]) {
            run(&line[..line.len().min(300)], &call, &case, case.get("want").unwrap());
            count += 1;
        }
    }
    count
}

/// The length of a buffer, where the case gives one.
fn lent(case: &Json, name: &str) -> Option<usize> {
    case.get(name).map(|p| p.number() as usize)
}

fn places(case: &Json, name: &str, ample: usize) -> Vec<u32> {
    vec![0; lent(case, name).unwrap_or(ample)]
}

/// Factors, suffix table and left forest are in rising order in the cases, and are run in order 0 of the ranked forms. The calls without an order
/// (document 02, E12) are held to order 2 by built-in table 1, on the text and with each letter in either case. Returns 1 for each of the
/// three that the default order moves.
fn moved(text: &[u8], places: [usize; 2]) -> [usize; 3] {
    common::check_default_by_table(text, places);
    common::check_default_by_table(&common::in_either_case(&mut Numbers::for_text(text), text), places);
    common::moved_by_default(text, places).map(usize::from)
}

#[test]
fn calls_with_one_buffer() {
    let calls = ["array8", "array32", "factors", "prefix", "judge"];
    let mut moves = [0; 2];
    let count = run_cases(&calls, |line, call, case, want| {
        let text = case.get("text").map(Json::bytes).unwrap_or_default();
        let entries = numbers(case, "array").or(numbers(case, "letters")).unwrap_or_default();
        let order = case.get("order").map_or(0, |o| o.number() as u32);
        let mut out = places(case, "places", text.len().max(entries.len()) + 5);
        let got = match call {
            "array8" => common::array8(&text, order, &mut out),
            "array32" => common::array32(&entries, order, &mut out),
            "factors" => common::factors_ranked(&text, 0, &[], &mut out).map(|(count, _)| count),
            "prefix" => common::suffix_table_ranked(&text, 0, &[], &mut out),
            _ => common::reconstruct(&entries, &mut out),
        };
        let written = numbers(want, "out");
        common::compare(line, got, &[&out], wanted(want), &[written.as_deref()]);
        if let Some(which) = ["factors", "prefix"].iter().position(|name| *name == call) {
            moves[which] += moved(&text, [out.len(); 2])[which];
        }
    });
    assert_eq!(count, 234 + 24 + 115 + 113 + 403);
    assert_eq!(moves, [1, 1]);
}

#[test]
fn forests() {
    let mut moves = 0;
    let count = run_cases(&["left", "right"], |line, call, case, want| {
        let text = case.get("text").map(Json::bytes).unwrap_or_default();
        let entries = numbers(case, "array").unwrap_or_default();
        let ample = text.len().max(entries.len()) + 5;
        let mut past = places(case, "places", ample);
        let mut first = places(case, "first_places", ample);
        let got = match call {
            "left" => common::left_forest_ranked(&text, 0, &[], &mut first, &mut past),
            _ => common::right_forest(&entries, &mut first, &mut past),
        };
        let (w_first, w_past) = (numbers(want, "first"), numbers(want, "past"));
        common::compare(line, got, &[&first, &past], wanted(want), &[w_first.as_deref(), w_past.as_deref()]);
        if call == "left" {
            moves += moved(&text, [first.len(), past.len()])[2];
        }
    });
    assert_eq!((count, moves), (116 + 515, 1));
}

/// A run list needs 3 × (n − 1) numbers (document 02, E4): so many are lent where a case gives no length. Cases that lend 6 × n numbers, or one
/// less, are also run with the new figure, or one less. 6 × n − 1 is now enough: the answer wanted is that of the case that lends one more.
#[test]
fn runs() {
    let work_fits = |case: &Json, n: usize| lent(case, "work").map_or(true, |work| work >= 2 * n);
    let mut enough = HashMap::new();
    run_cases(&["runs"], |_, _, case, want| {
        let text = case.get("text").unwrap().bytes();
        if lent(case, "places") == Some(6 * text.len()) {
            enough.insert((text.clone(), work_fits(case, text.len())), want.clone());
        }
    });
    let mut moved = 0;
    let count = run_cases(&["runs"], |line, _, case, want| {
        let text = case.get("text").unwrap().bytes();
        let n = text.len();
        let check = |list_places: usize, want: &Json| {
            let (mut work, mut list) = (places(case, "work", 2 * n + 5), vec![0; list_places]);
            let got = common::runs(&text, &mut work, &mut list);
            let (w_work, w_list) = (numbers(want, "work"), numbers(want, "list"));
            common::compare(line, got, &[&work, &list], wanted(want), &[w_work.as_deref(), w_list.as_deref()]);
        };
        match lent(case, "places") {
            None => check(definitions::list_length(n), want),
            Some(places) if n > 0 && places == 6 * n => {
                check(places, want);
                check(3 * (n - 1), want);
            }
            Some(places) if n > 0 && places + 1 == 6 * n => {
                moved += 1;
                check(places, &enough[&(text.clone(), work_fits(case, n))]);
                check(3 * (n - 1) - 1, want);
            }
            Some(places) => check(places, want),
        }
    });
    assert_eq!((count, moved), (120, 3));
}

/// Document 02's cases of a call.
fn later(call: &str) -> impl Iterator<Item = Json> + '_ {
    LATER.lines().map(Json::read).filter(move |case| case.get("call").unwrap().text() == call)
}

/// What document 02's cases of a call want, by their inputs.
fn wanted_later(call: &str) -> HashMap<Vec<u8>, Json> {
    later(call).map(|case| (case.get("input").unwrap().bytes(), case.get("want").unwrap().clone())).collect()
}

/// The ranked calls (document 02, E1). A case holds all five, with ample buffers. Order numbers do not concern the runs.
#[test]
fn ranked() {
    let mut count = 0;
    for case in later("e1") {
        let (text, table, want) = (case.get("text").unwrap().bytes(), case.get("table").unwrap().bytes(), case.get("want").unwrap());
        let order = case.get("order").unwrap().number() as u32;
        let n = text.len();
        let what = format!("case {count} of e1");
        let list = |name: &str| numbers(want, name).unwrap_or_default();
        let answer = |count: usize| if want.get("no").is_some() { wanted(want) } else { Ok(count) };
        let (mut first, mut past) = (vec![0; n + 5], vec![0; n + 4]);
        for ((call_name, call), name) in common::RANKED_CALLS.iter().zip(["array", "prefix"]) {
            let got = call(&text, order, &table, &mut first);
            common::compare(&format!("{call_name}, {what}"), got, &[&first], answer(n), &[Some(&list(name))]);
        }
        let got = common::factors_ranked(&text, order, &table, &mut first);
        let factors = answer(list("factors").len()).map(|count| (count, comparisons(want)));
        common::compare(&format!("ranked factors, {what}"), got, &[&first], factors, &[Some(&list("factors"))]);
        let got = common::left_forest_ranked(&text, order, &table, &mut first, &mut past);
        let forest = [Some(&list("first")[..]), Some(&list("past")[..])];
        common::compare(&format!("ranked left forest, {what}"), got, &[&first, &past], answer(n), &forest);
        if order <= 2 {
            let (mut work, mut runs) = (vec![0; 2 * n + 5], vec![0; definitions::list_length(n) + 5]);
            let got = common::runs_ranked(&text, &table, &mut work, &mut runs);
            let written = [Some(&list("work")[..]), Some(&list("runs")[..])];
            common::compare(&format!("ranked runs, {what}"), got, &[&work, &runs], answer(list("runs").len() / 3), &written);
        }
        count += 1;
    }
    assert_eq!(count, 27);
}

/// How many letters were compared (document 02, E7).
#[test]
fn letters_compared() {
    let (mut count, mut moves) = (0, 0);
    for case in later("e7_factors") {
        let (text, want) = (case.get("text").unwrap().bytes(), case.get("want").unwrap());
        let factors = wanted(want).map(|count| (count, comparisons(want)));
        let mut out = vec![0; text.len()];
        let what = format!("case {count} of e7_factors");
        let got = common::factors_ranked(&text, 0, &[], &mut out);
        common::compare(&what, got, &[&out], factors, &[Some(&definitions::duval(0, &text).0)]);
        moves += moved(&text, [text.len(); 2])[0];
        count += 1;
    }
    assert_eq!((count, moves), (110, 1));
}

/// Two texts in infinite order (document 02, E5).
#[test]
fn compared_texts() {
    let mut count = 0;
    for case in later("e5_compare") {
        let (u, v) = (case.get("u").unwrap().bytes(), case.get("v").unwrap().bytes());
        assert_eq!(common::compare_infinite(&u, &v), wanted(case.get("want").unwrap()), "case {count} of e5_compare");
        count += 1;
    }
    assert_eq!(count, 62);
}

/// The prefixes of a Lyndon word (document 02, E5): in a buffer of the length given, else in a longer one and in one of exactly the places needed.
#[test]
fn prefixes() {
    let mut count = 0;
    for case in later("e5_prefixes") {
        let (text, want) = (case.get("text").unwrap().bytes(), case.get("want").unwrap());
        let written = numbers(want, "out");
        let lengths = lent(&case, "places").map_or(vec![text.len() + 5, text.len().saturating_sub(1)], |places| vec![places]);
        for places in lengths {
            let mut out = vec![0; places];
            let got = common::prefix_permutation(&text, &mut out);
            let what = format!("case {count} of e5_prefixes, {places} places");
            common::compare(&what, got, &[&out], wanted(want), &[written.as_deref()]);
        }
        count += 1;
    }
    assert_eq!(count, 137);
}

/// The reader's cases of document 02, with E4's limits: capitals (E2), 4,096 letters and 16,384 bytes.
#[test]
fn reader_of_longer_records() {
    let mut count = 0;
    for case in later("e4_reader") {
        check_reader(&format!("case {count} of e4_reader"), &case, case.get("want").unwrap());
        count += 1;
    }
    assert_eq!(count, 133);
}

fn check_reader(what: &str, case: &Json, want: &Json) {
    let mut letters = vec![0u8; lent(case, "places").unwrap_or(definitions::MAX_LETTERS + 5)];
    let got = common::read_fasta(&case.get("input").unwrap().bytes(), &mut letters);
    let written = want.get("letters").map(Json::bytes);
    common::compare(what, got, &[&letters], wanted(want), &[written.as_deref()]);
}

/// Letters are capitals (E2), and limits those of E4: what is wanted is what document 02's case of the same input and buffer wants. Where there is
/// none, a buffer of fewer than 4,096 places is refused with 4, and nothing else moves.
#[test]
fn reader() {
    let given = |case: &Json| (case.get("input").unwrap().bytes(), lent(case, "places"));
    let later: HashMap<_, _> = later("e4_reader").map(|case| (given(&case), case.get("want").unwrap().clone())).collect();
    let short = Json::read(r#"{"no":4,"at":0}"#);
    let (mut answers_moved, mut letters_moved) = (0, 0);
    let count = run_cases(&["reader"], |line, _, case, before| {
        let now = match (later.get(&given(case)), lent(case, "places")) {
            (Some(want), _) => want,
            (None, Some(places)) if places < definitions::MAX_LETTERS => &short,
            (None, _) => before,
        };
        let letters = |want: &Json| want.get("letters").map(Json::bytes);
        if wanted(now) != wanted(before) {
            answers_moved += 1;
        } else if letters(now) != letters(before) {
            letters_moved += 1;
        }
        check_reader(line, case, now);
    });
    assert_eq!((count, answers_moved, letters_moved), (140, 13, 24));
}

/// A listing whose periods have no unit's name behind them.
fn without_names(listing: &[u8]) -> String {
    let lines = std::str::from_utf8(listing).unwrap().lines();
    let cut = lines.map(|line| match (line.rfind('\t'), line.rfind(':')) {
        (Some(tab), Some(colon)) if tab < colon => &line[..colon],
        _ => line,
    });
    cut.map(|line| format!("{line}\n")).collect()
}

/// Refusals stay, since no case meets a limit that moved. A listing is that of the capitals (E2): what document 02's case of the same input has,
/// without the names (E11).
#[test]
fn lister() {
    let program = common::lister::program();
    let named = wanted_later("e13_lister");
    let mut moved = 0;
    let count = run_cases(&["lister"], |line, _, case, want| {
        let input = case.get("input").unwrap().bytes();
        let out = common::lister::run(&program, &input);
        let before = String::from_utf8(want.get("out").unwrap().bytes()).unwrap();
        let now = match before.starts_with("refused ") {
            true => before.clone(),
            false => without_names(&named[&input].get("out").unwrap().bytes()),
        };
        moved += usize::from(now != before);
        assert_eq!(String::from_utf8_lossy(&out), now, "{line}");
    });
    assert_eq!((count, moved), (110, 20));
}
