//! The library's time beside the same method in Rust, and beside a hash map of sums for checks and
//! beside a naive walk for searches; its checks with a page beside those without.
//!
//!     cargo run --release --bin bench
//!
//! All are given the same sheets in the same run, laid out in several ways by `layouts`, and the
//! library the full profile, whose numbers the methods in Rust have as constants. `judging` is
//! common to both checks in Rust, `scanning` and `hashed` find the shifted weights; `searching` and
//! `evaluation` are the library's methods for floors and values. `timing` takes the CPU time of the
//! thread. `batches` times the command's batches, with one job and with all cores, by the clock.

mod batches;
mod evaluation;
mod fields;
mod hashed;
mod judging;
mod layouts;
mod scanning;
mod searching;
mod timing;

use hashed::Hashed;
use judging::Given;
use layouts::{Layout, SearchLayout, LAYOUTS, SEARCH_LAYOUTS};
use scanning::Scanning;
use searching::{by_checks, by_library, by_same_method, Found, Search};
use sheets::random::Floors;
use sheets::{Claim, Limits, Profile, Proof, PAGE_LENGTH};
use timing::{times, Function, Times, SAMPLES};

type Check = Function<Given, Vec<u8>>;
type PageCheck = Function<Given, (Vec<u8>, Vec<u8>)>;
type Evaluate<'a> = Function<(&'a [u8], &'a [i32]), i64>;

fn main() {
    println!("Thread CPU time of a call in microseconds, of a search in milliseconds, minimum /");
    println!("median of {SAMPLES} samples, of fewer where a call takes long.");
    println!("By minimum: a ratio is the first time over the other, growth is over the k before.");
    println!(
        "\n{:<34}{:^18}  {:^18}  ratio  {:^18}  ratio  growth",
        "check, n 8", "library", "same method", "hash map"
    );
    LAYOUTS.iter().for_each(time_checks);
    println!("\n{:<34}{:^18}  {:^18}  ratio", "library's check, n 8", "with a page", "without");
    time_pages(&LAYOUTS[0]);
    println!("\n{:<34}{:^18}  {:^18}  ratio", "evaluation, n 8, t 64", "library", "same method");
    time_evaluations();
    println!(
        "\n{:<34}{:^18}  {:^18}  ratio  {:^18}   ratio",
        "search of 4,096 floors, n 8", "library", "same method", "naive walk"
    );
    SEARCH_LAYOUTS.iter().for_each(time_searches);
    batches::time(&LAYOUTS[0]);
}

/// Accepted proofs, judged and written.
fn time_checks((name, sheets, limit): &Layout) {
    let mut former: Option<f64> = None;
    let limits = Limits::new(&[*limit; 8]);
    for k in [4, 16, 64, 256] {
        let (claim, proof) = sheets(k);
        let [library, same, hash] = check_times(&claim, &proof, &limits);
        let growth = former.map_or(String::new(), |time| format!("{:.1}", library.minimum / time));
        former = Some(library.minimum);
        println!(
            "{name:<21} k {k:<3} t {:<3}{library}  {same}  {:>5.2}  {hash}  {:>5.2}  {growth:>6}",
            claim.terms.len(),
            library.minimum / same.minimum,
            library.minimum / hash.minimum
        );
    }
}

/// The times of the library, of the same method and of the hash map, which write the proof.
fn check_times(claim: &Claim, proof: &Proof, limits: &Limits) -> [Times; 3] {
    let given = given(claim, proof, limits);
    let output = vec![0; given.proof.len()];
    let checks: [Check; 3] = [
        judging::by_library,
        |given, output| judging::check::<Scanning>(given, output),
        |given, output| judging::check::<Hashed>(given, output),
    ];
    times(checks, &given, output, proof.rows.len() as u64)
}

/// Accepted proofs, written with a page and without.
fn time_pages((name, sheets, limit): &Layout) {
    for k in [4, 16, 64, 256] {
        let (claim, proof) = sheets(k);
        let [with, without] = page_times(&claim, &proof, &Limits::new(&[*limit; 8]));
        let (t, ratio) = (claim.terms.len(), with.minimum / without.minimum);
        println!("{name:<21} k {k:<3} t {t:<3}{with}  {without}  {ratio:>5.2}");
    }
}

/// The times of the library with a page and without. The page is written before, so that both leave
/// the same.
fn page_times(claim: &Claim, proof: &Proof, limits: &Limits) -> [Times; 2] {
    let given = given(claim, proof, limits);
    let mut stored = (vec![0; given.proof.len()], vec![0; PAGE_LENGTH]);
    let checks: [PageCheck; 2] = [
        |Given { claim, proof, limits }, (output, page)| {
            burmelox::check_page(claim, proof, limits, Profile::FULL, output, page)
        },
        |given, (output, _)| judging::by_library(given, output),
    ];
    checks[0](&given, &mut stored);
    times(checks, &given, stored, proof.rows.len() as u64)
}

fn given(claim: &Claim, proof: &Proof, limits: &Limits) -> Given {
    Given { claim: claim.bytes(), proof: proof.bytes(), limits: limits.bytes() }
}

/// Searches that find the last floor or none.
fn time_searches((name, sheets): &SearchLayout) {
    for k in [64, 256] {
        let (claim, proof, floors) = sheets(k);
        let [library, same, naive] = search_times(&claim, &proof, floors);
        println!(
            "{name:<28} k {k:<3} {}  {}  {:>5.2}  {}  {:>6.4}",
            library.in_milliseconds(),
            same.in_milliseconds(),
            library.minimum / same.minimum,
            naive.in_milliseconds(),
            library.minimum / naive.minimum
        );
    }
}

/// The times of the library, of the same method and of a naive walk, which try every floor.
fn search_times(claim: &Claim, proof: &Proof, floors: Floors) -> [Times; 3] {
    let (lo, hi) = floors.into_inner();
    let search = Search { sheets: given(claim, proof, &Limits::none(8)), lo, hi };
    let unfound = Found { output: vec![0; search.sheets.proof.len()], floor: hi, tried: 0 };
    let mut found = unfound.clone();
    let answer = by_same_method(&search, &mut found);
    assert!(found.floor == lo || answer == refusals::code(23, 0), "every floor is tried");
    times([by_library, by_same_method, by_checks], &search, unfound, answer)
}

/// Polynomials of 64 terms in 8 variables: with exponents 0 to 2 and small offsets; with exponents
/// of 120 and offsets of ±1; with terms near 2^56, by exponents of 7 and offsets of ±2 or by one
/// exponent of 53. The first variable's exponents rise from 0 to 63, and its offset is 1.
fn time_evaluations() {
    let small = |term: u8, variable: u8| (term >> variable) % 3;
    let large = |_, _| 120;
    let middle = |_, _| 7;
    let one = |_, variable| if variable == 1 { 53 } else { 0 };
    print_evaluation("exponents 0 to 2", small, [1, 3, -2, 1, -1, 2, 5, -3]);
    print_evaluation("exponents 120", large, [1, -1, 1, -1, 1, -1, 1, -1]);
    print_evaluation("exponents 7", middle, [1, -2, 2, -2, 2, -2, 2, -2]);
    print_evaluation("one exponent of 53", one, [1, -2, 2, -2, 2, -2, 2, -2]);
}

fn print_evaluation(name: &str, exponent: fn(u8, u8) -> u8, offsets: [i32; 8]) {
    let point =
        |term| [term].into_iter().chain((1..8).map(move |variable| exponent(term, variable)));
    let terms = (0..64).map(|term| (point(term).collect(), 7)).collect();
    let claim = Claim { n: 8, mask: 0, floor: 0, terms };
    let [library, same] = evaluation_times(&claim.bytes(), &offsets);
    println!("{name:<34}{library}  {same}  {:>5.2}", library.minimum / same.minimum);
}

/// The times of the library and of the same method, which store the value.
fn evaluation_times(claim: &[u8], offsets: &[i32]) -> [Times; 2] {
    let evaluations: [Evaluate; 2] = [
        |(claim, offsets), value| burmelox::evaluate(claim, Profile::FULL, offsets, value),
        |(claim, offsets), value| evaluation::evaluate(claim, offsets, value),
    ];
    times(evaluations, &(claim, offsets), 0, 0)
}
