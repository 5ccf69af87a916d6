//! Advice on the refusals 16 to 19: the target, or the shifted weights, by how much the rule is
//! missed, and what to try. It goes by `balance` and decides nothing.

use crate::balance::Balance;
use crate::rules::Refusal;
use crate::sheet::{bracketed, Point};
use burmelox::Profile;

/// The greatest scale, and the least floor.
const GREATEST_SCALE: i128 = 1 << 20;
const LEAST_FLOOR: i128 = -(1 << 30);

/// The advice on a refusal of well-formed sheets; none where there is no more to say.
pub fn advice(balance: &Balance, profile: Profile, refusal: Refusal) -> Option<String> {
    let row = refusal.index;
    match refusal.number {
        16 => Some(unheld(balance, row)),
        17 => Some(shifted_words(balance, row, beyond(balance, row, profile))),
        18 => Some(shifted_words(balance, row, negative(balance, row)?)),
        19 => Some(shifted_words(balance, row, indefinite(balance, row))),
        _ => None,
    }
}

fn shifted_words(balance: &Balance, row: usize, rest: String) -> String {
    let [p, q, r] = balance.shifted[row];
    if balance.proof.rows[row].is_lone() {
        return format!("shifted p {p}: {rest}");
    }
    format!("shifted p {p} q {q} r {r}: {rest}")
}

fn unheld(balance: &Balance, index: usize) -> String {
    let point = balance.point(index);
    let target = balance.target(&point);
    let what = if target > 0 {
        "add a lone row there, or a pair with an end there".to_string()
    } else if point == balance.claim.origin() {
        unheld_constant(balance, target)
    } else {
        "add a pair whose midpoint it is".to_string()
    };
    format!("the target at {} is {target}: {what}", bracketed(&point))
}

/// Without a slot at the constant one floor alone will do, which need not be whole.
fn unheld_constant(balance: &Balance, target: i128) -> String {
    let scale = i128::from(balance.proof.scale);
    let floor = i128::from(balance.claim.floor) + target.div_euclid(scale);
    if target % scale == 0 && floor >= LEAST_FLOOR {
        format!("lower the floor: try {floor}")
    } else {
        format!("lower the floor to {floor} and add a lone row there")
    }
}

fn beyond(balance: &Balance, row: usize, profile: Profile) -> String {
    let most = i128::from(profile.weight);
    let weights = balance.shifted[row].iter().zip(["p", "q", "r"]);
    let (weight, name) = weights.max_by_key(|(weight, _)| weight.abs()).expect("three weights");
    let size = weight.abs();
    let scale = i128::from(balance.proof.scale);
    let what = if size <= i128::from(Profile::FULL.weight) {
        format!("a profile with weight {size} takes it")
    } else if scale > 1 {
        format!("take a smaller scale: try {}", (scale * most / size).max(1))
    } else {
        "repeat the row, so that more slots share the target".to_string()
    };
    format!("|{name}| is over {most} by {}; {what}", size - most)
}

/// The end that is negative, p before q.
fn negative(balance: &Balance, row: usize) -> Option<String> {
    let slots = balance.proof.rows[row].slots();
    let ends = slots.iter().zip(balance.shifted[row]).zip(["p", "q"]);
    let ((point, weight), name) = ends.into_iter().find(|((_, weight), _)| *weight < 0)?;
    let target = balance.target(point);
    let odd = balance.claim.odd_unmasked(point);
    let what = if let Some(floor) = lower_floor(balance, point, -weight) {
        format!("lower the floor: try {floor}")
    } else if balance.claim.coefficient(point) > 0 && !odd.is_empty() {
        let odd: Vec<String> = odd.iter().map(usize::to_string).collect();
        format!("mask variable {} if it is never negative", odd.join(" and "))
    } else if let Some(words) = only_ends(balance, point) {
        words
    } else {
        let sum = balance.proposed(point);
        let more = "propose more for this end, or less for the other slots there";
        format!("the slots there were proposed with {sum} in sum: {more}")
    };
    let point = bracketed(point);
    Some(format!(
        "{name} at {point} is under 0 by {}, the target there is {target}; {what}",
        -weight
    ))
}

/// What is said of a point without a positive target where only ends stand, which no weights, scale
/// or floor help; of any other point there is nothing.
fn only_ends(balance: &Balance, point: &Point) -> Option<String> {
    let target = balance.target(point);
    if target > 0 || *point == balance.claim.origin() || balance.is_midpoint(point) {
        return None;
    }
    let has_term = balance.claim.coefficient(point) != 0 || target != 0;
    let named = bracketed(point);
    let what = if has_term { format!("has the target {target}") } else { "has no term".into() };
    let pair = balance.ends_around(point);
    let pair = pair.map(|(v, w)| format!(", as {}{}", bracketed(&v), bracketed(&w)));
    Some(format!(
        "{named} {what} and only ends stand there, so their weights come to {target}: add a pair \
         with r < 0 whose midpoint is {named}{}",
        pair.unwrap_or_default()
    ))
}

/// The floor that gives every slot at the constant so much more, where the point is the constant.
fn lower_floor(balance: &Balance, point: &Point, more: i128) -> Option<i128> {
    let units = more * balance.slots(point);
    let scale = i128::from(balance.proof.scale);
    let floor = i128::from(balance.claim.floor) - (units + scale - 1) / scale;
    (*point == balance.claim.origin() && floor >= LEAST_FLOOR).then_some(floor)
}

/// What is said of a row that its own proposed weights break.
const UNHELD: &str = "as it is proposed the row does not hold either: give p or q more";

fn indefinite(balance: &Balance, row: usize) -> String {
    let [p, q, r] = balance.shifted[row];
    let slots = balance.proof.rows[row].slots();
    let bare = slots.iter().take(2).find_map(|point| only_ends(balance, point));
    let what = bare
        .or_else(|| Some(format!("lower the floor: try {}", floor_for_row(balance, row)?)))
        .or_else(|| far_moved(balance, row))
        .unwrap_or_else(|| rounded_words(balance, row));
    format!("4pq = {} < r² = {}; {what}", 4 * p * q, r * r)
}

/// What is said of a row that the shift moved by more than rounding does: at which point the most,
/// and why.
fn far_moved(balance: &Balance, row: usize) -> Option<String> {
    let slots = balance.proof.rows[row].slots();
    let moved = slots.iter().zip(balance.moved(row)).map(|(point, by)| (by.abs(), point));
    let (_, point) = moved.max_by_key(|(by, _)| *by).filter(|(by, _)| *by > 1)?;
    Some(format!(
        "the slots at {} were proposed with {} in sum, the target there is {}: propose weights \
         that come to the target",
        bracketed(point),
        balance.proposed(point),
        balance.target(point)
    ))
}

/// What is said of a row that the shift moved by no more than rounding does.
fn rounded_words(balance: &Balance, row: usize) -> String {
    let [p, q, r] = balance.proof.rows[row].weights.map(i128::from);
    let holds = |p: i128, q: i128, r: i128| p >= 0 && q >= 0 && r * r <= 4 * p * q;
    let held = holds(p, q, r);
    let nearly = holds(p + 1, q + 1, (r.abs() - 1).max(0));
    match (held, larger_scale(balance, row).filter(|_| nearly)) {
        (true, Some(scale)) => format!("a larger scale leaves less rounding: try {scale}"),
        (true, None) => "leave room in every row, say r² ≤ 0.99 × 4pq".to_string(),
        (false, Some(scale)) => {
            format!("{UNHELD}, or, if they were rounded, take a larger scale: try {scale}")
        }
        (false, None) => UNHELD.to_string(),
    }
}

/// The floor that gives the row's end at the constant what it lacks, where it has such an end.
fn floor_for_row(balance: &Balance, row: usize) -> Option<i128> {
    let [p, q, r] = balance.shifted[row];
    let slots = balance.proof.rows[row].slots();
    let ends = [(&slots[0], p, q), (slots.get(1)?, q, p)];
    let at_constant = ends.into_iter().find(|(point, ..)| **point == balance.claim.origin());
    let (point, end, other) = at_constant.filter(|(.., other)| *other > 0)?;
    let needed = (r * r + 4 * other - 1) / (4 * other);
    lower_floor(balance, point, needed - end)
}

/// A scale that leaves three digits more, where the row's ends have no more than these.
fn larger_scale(balance: &Balance, row: usize) -> Option<i128> {
    let [p, q, _] = balance.proof.rows[row].weights;
    let scale = i128::from(balance.proof.scale);
    (p.min(q) < 1000 && scale < GREATEST_SCALE).then(|| (1000 * scale).min(GREATEST_SCALE))
}
