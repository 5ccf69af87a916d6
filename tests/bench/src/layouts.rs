//! The sheets that checks and searches are timed with, of `k` pairs in 8 variables. The checks'
//! are accepted.

use sheets::random::{Floors, Plan, Rng, Shape};
use sheets::{Claim, Limit, Limits, Point, Proof, Row, MOST_TERMS};

/// A way to lay out `k` pairs, by name, and the limit of every variable.
pub type Layout = (&'static str, fn(usize) -> (Claim, Proof), Limit);

pub const LAYOUTS: [Layout; 4] = [
    ("points shared", points_shared, Limit::UNLIMITED),
    ("points all different", points_all_different, Limit::UNLIMITED),
    ("rows all alike", rows_all_alike, Limit::UNLIMITED),
    ("the same, limited", rows_alike_limited, LIMIT),
];

/// Every variable is −1, 0 or 1.
const LIMIT: Limit = Limit::new(2, 1, 1);

/// The greatest hi − lo of a search, which then has 4,096 floors.
const SPAN: i64 = 4095;

/// A way to lay out `k` pairs and the floors of a search, by name.
pub type SearchLayout = (&'static str, fn(usize) -> (Claim, Proof, Floors));

pub const SEARCH_LAYOUTS: [SearchLayout; 3] = [
    ("rows hold one after another", rows_hold_in_turn),
    ("no slot at the constant", no_slot_at_constant),
    ("no row holds", no_row_holds),
];

/// The weights proposed for every row of the regular layouts; with targets they become 1, 1, −2.
const PROPOSED: [i32; 3] = [3, 2, -1];

/// As in practice: of many plans the one with the most terms.
fn points_shared(k: usize) -> (Claim, Proof) {
    let mut rng = Rng::new(1);
    let plans = (0..200).filter_map(|_| {
        let shape = Shape::pairs(&mut rng, k);
        Plan::try_new(&mut rng, &shape, &[])
    });
    let plan = plans.max_by_key(|plan| plan.claim.terms.len()).expect("some plan fits");
    (plan.claim, plan.proof)
}

/// No two slots at one point. The first rows have a term at each of their points; from the 22nd
/// on the claim has no room for that, and the shift takes the rows' weights to 0.
fn points_all_different(k: usize) -> (Claim, Proof) {
    let place = |row: usize, step: usize| -> Point {
        let exponents = [4 * (row % 16) + step, 4 * (row / 16) + step, 2, 2, 2, 2, 2, 2];
        exponents.map(|exponent| exponent as u8).to_vec()
    };
    let rows = (0..k).map(|row| (place(row, 0), place(row, 2)));
    let with_terms = 0..k.min(MOST_TERMS / 3);
    let terms =
        with_terms.flat_map(|row| [(place(row, 0), 1), (place(row, 1), -2), (place(row, 2), 1)]);
    sheets(terms.collect(), rows.collect())
}

/// All slots at three points.
fn rows_all_alike(k: usize) -> (Claim, Proof) {
    let [v, u, w] = [2, 3, 4].map(|exponent| vec![exponent; 8]);
    let sum = k as i32;
    let terms = vec![(v.clone(), sum), (u, -2 * sum), (w.clone(), sum)];
    sheets(terms, vec![(v, w); k])
}

/// The same with terms and a floor that make up for the limits.
fn rows_alike_limited(k: usize) -> (Claim, Proof) {
    let (mut claim, proof) = rows_all_alike(k);
    for (point, added) in Limits::new(&[LIMIT; 8]).added() {
        if point == [0; 8] {
            claim.floor = added as i32;
        } else {
            claim.terms.push((point, -added as i32));
        }
    }
    claim.terms.sort();
    (claim, proof)
}

fn sheets(mut terms: Vec<(Point, i32)>, ends: Vec<(Point, Point)>) -> (Claim, Proof) {
    terms.sort();
    let rows = ends.into_iter().map(|(v, w)| Row { v, w, weights: PROPOSED }).collect();
    (Claim { n: 8, mask: 0, floor: 0, terms }, Proof { n: 8, scale: 1, rows })
}

/// Every row has an end at the constant. From one floor down to the next each p rises by one, and a
/// row holds where its p is at least k; so each row waits for some floors more than the one before
/// it, and the last row for the last floor.
fn rows_hold_in_turn(k: usize) -> (Claim, Proof, Floors) {
    let point = |place: usize, half: usize| -> Point {
        let (first, second) = (2 + 4 * (place % 6), 2 + 4 * (place / 6));
        [first, second, 4, 4, 4, 4, 4, 4].map(|exponent| (exponent / half) as u8).to_vec()
    };
    let places = k.min((MOST_TERMS - 1) / 2);
    let constant = vec![0; 8];
    let mut terms = vec![(constant.clone(), 1)];
    for place in 0..places {
        let rows = (place..k).step_by(places).count() as i32;
        terms.extend([(point(place, 1), rows), (point(place, 2), -2 * rows)]);
    }
    let ends = (0..k).map(|row| (constant.clone(), point(row % places, 1)));
    let (claim, mut proof) = sheets(terms, ends.collect());
    let waits: Vec<i32> = (1..=k).map(|rows| (SPAN as usize * rows / k) as i32).collect();
    proof.scale = k as u32;
    for (row, wait) in proof.rows.iter_mut().zip(&waits) {
        row.weights = [-wait, 0, 0];
    }
    let hi = 1 - k as i64 + i64::from(waits.iter().sum::<i32>()) / k as i64;
    (claim, proof, hi - SPAN..=hi)
}

/// Floors over 0, the one that 16 lets pass.
fn no_slot_at_constant(k: usize) -> (Claim, Proof, Floors) {
    let (claim, proof) = points_all_different(k);
    (claim, proof, 1..=1 + SPAN)
}

/// Floors above those at which rows begin to hold.
fn no_row_holds(k: usize) -> (Claim, Proof, Floors) {
    let (claim, proof, floors) = rows_hold_in_turn(k);
    let above = floors.end() + 1;
    (claim, proof, above..=above + SPAN)
}
