//! The picture of a claim in two variables: its points, and a proof's rows between them.

use crate::axis::{exact, width, Axis};
use crate::sheet::{bracketed, Claim, Point, Proof, Row, Term};
use crate::svg::{Picture, BOTTOM, GREY, INK, LEFT, RED, TOP};
use std::collections::BTreeMap;

/// The right edge of the frame, which leaves room for a list beside it.
const RIGHT: f64 = 620.0;

/// Where the list begins, and how far its lines are apart.
const LIST: f64 = 650.0;
const LINE: f64 = 20.0;

/// So many rows are listed with their weights; of more, the number is told.
const MOST_LISTED: usize = 16;

/// How much further than a bent line its controls are aside.
const STEEPNESS: f64 = 3.5;

/// The colours of rows, one after another.
const ROWS: [&str; 8] =
    ["#0072b2", "#009e73", "#d17f00", "#8c5fb5", "#3fa7d6", "#c2578f", "#6f8f1f", "#8a5a34"];

/// The claim's points, labelled with their coefficients, and the rows of the proof: a pair as a line
/// with its midpoint marked, a lone row as a ring. Both sheets have two variables.
pub fn svg(claim: &Claim, proof: Option<&Proof>) -> String {
    let rows = proof.map_or(&[][..], |proof| &proof.rows);
    let plane = Plane::around(claim, rows);
    let mut picture = Picture::new();
    picture.heading(&claim_title(claim), &proof.map_or(String::new(), proof_title));
    plane.draw_axes(&mut picture, claim);
    plane.draw_pairs(&mut picture, rows);
    plane.draw_points(&mut picture, claim, rows);
    plane.draw_lone_rows(&mut picture, rows);
    let unlabelled = claim.terms.len() - plane.labelled(claim).len();
    draw_list(&mut picture, claim, rows, unlabelled);
    picture.end()
}

fn claim_title(claim: &Claim) -> String {
    format!("Claim of {} with floor {}", counted(claim.terms.len(), "term"), exact(claim.floor))
}

fn proof_title(proof: &Proof) -> String {
    format!("Proof of {} with scale {}", counted(proof.rows.len(), "row"), exact(proof.scale))
}

/// A number of things.
fn counted(number: usize, thing: &str) -> String {
    format!("{number} {thing}{}", if number == 1 { "" } else { "s" })
}

fn has_term(claim: &Claim, point: &Point) -> bool {
    claim.terms.iter().any(|term| term.point == *point)
}

/// The ends of all rows.
fn ends(rows: &[Row]) -> impl Iterator<Item = &Point> {
    rows.iter().flat_map(|row| [&row.v, &row.w])
}

/// Both are pairs on one straight line, and more than a point of it is common to them.
fn lies_on(row: &Row, other: &Row) -> bool {
    let from = |a: &Point, b: &Point| [0, 1].map(|i| i32::from(b[i]) - i32::from(a[i]));
    let along = from(&row.v, &row.w);
    let turn = |to: [i32; 2]| along[0] * to[1] - along[1] * to[0];
    let place = |to: [i32; 2]| along[0] * to[0] + along[1] * to[1];
    let ends = [from(&row.v, &other.v), from(&row.v, &other.w)];
    let (first, last) = (place(ends[0]).min(place(ends[1])), place(ends[0]).max(place(ends[1])));
    ends.map(turn) == [0, 0] && first.max(0) < last.min(place(along))
}

/// The colour of a row.
fn colour(row: usize) -> &'static str {
    ROWS[row % ROWS.len()]
}

/// A term counts as negative by its sign, and by odd exponents of variables that are not masked.
fn is_negative(claim: &Claim, term: &Term) -> bool {
    term.coefficient < 0 || !claim.odd_unmasked(&term.point).is_empty()
}

/// The colour of a term.
fn sign_colour(is_negative: bool) -> &'static str {
    if is_negative {
        RED
    } else {
        INK
    }
}

/// How far the line of each row is bent: a pair that lies on an earlier one goes around it, the next
/// one with the sides exchanged. A bent line looks the same from both ends.
fn bends(rows: &[Row]) -> Vec<f64> {
    let mut turns: Vec<usize> = Vec::new();
    for (index, row) in rows.iter().enumerate() {
        let earlier = rows[..index].iter().zip(&turns).filter(|(other, _)| lies_on(row, other));
        let taken: Vec<usize> = earlier.map(|(_, turn)| *turn).collect();
        turns.push((0..index).find(|turn| !taken.contains(turn)).unwrap_or(index));
    }
    let bend = |turn: &usize| {
        let bend = 18.0 * turn.div_ceil(2).min(5) as f64;
        if turn % 2 == 1 {
            bend
        } else {
            -bend
        }
    };
    turns.iter().map(bend).collect()
}

/// The plane of the exponents.
struct Plane {
    across: Axis,
    up: Axis,
}

impl Plane {
    /// A plane with room for all points of the claim and of the rows.
    fn around(claim: &Claim, rows: &[Row]) -> Plane {
        let all = || claim.terms.iter().map(|term| &term.point).chain(ends(rows));
        let most = |i: usize| all().map(|point| point[i]).max().unwrap_or(0).max(2).into();
        Plane {
            across: Axis::new(0, most(0), LEFT + 40.0, RIGHT - 40.0),
            up: Axis::new(0, most(1), BOTTOM - 40.0, TOP + 40.0),
        }
    }

    fn at(&self, point: &Point) -> (f64, f64) {
        (self.across.at(point[0].into()), self.up.at(point[1].into()))
    }

    fn draw_axes(&self, picture: &mut Picture, claim: &Claim) {
        self.across.draw_across(picture);
        self.up.draw_up(picture, RIGHT);
        picture.frame(RIGHT);
        let name = |variable| format!("exponent of {}", claim.named(variable));
        picture.axis_names(&name(0), &name(1), RIGHT);
    }

    /// Each pair as a line from v to w, with a mark at its midpoint, where several are around each
    /// other. A line that is bent goes to one side, through its midpoint, and to the other side.
    fn draw_pairs(&self, picture: &mut Picture, rows: &[Row]) {
        let mut marks = Marks::default();
        for (index, (row, bend)) in rows.iter().zip(bends(rows)).enumerate() {
            if row.is_lone() {
                continue;
            }
            let ((x0, y0), (x1, y1)) = (self.at(&row.v), self.at(&row.w));
            let length = (x1 - x0).hypot(y1 - y0);
            let turn = STEEPNESS * bend / length;
            let (aside_x, aside_y) = (turn * (y0 - y1), turn * (x1 - x0));
            let (x, y) = ((x0 + x1) / 2.0, (y0 + y1) / 2.0);
            let (from_x, from_y) = ((x0 + x) / 2.0 + aside_x, (y0 + y) / 2.0 + aside_y);
            let (to_x, to_y) = ((x1 + x) / 2.0 - aside_x, (y1 + y) / 2.0 - aside_y);
            let colour = colour(index);
            picture.put(format_args!(
                "<path class=\"pair\" d=\"M {x0:.1} {y0:.1} C {from_x:.1} {from_y:.1} {to_x:.1} \
                 {to_y:.1} {x1:.1} {y1:.1}\" fill=\"none\" stroke=\"{colour}\" \
                 stroke-width=\"2.5\"/>"
            ));
            picture.diamond("midpoint", (x, y), 10.0 + marks.around((x, y)), colour);
        }
    }

    /// The ends of rows that are no points of the claim, and the claim's points with coefficients.
    fn draw_points(&self, picture: &mut Picture, claim: &Claim, rows: &[Row]) {
        for end in ends(rows).filter(|end| !has_term(claim, end)) {
            picture.dot("end", self.at(end), 4.5, "white", GREY);
        }
        for term in &claim.terms {
            let colour = sign_colour(is_negative(claim, term));
            picture.dot("term", self.at(&term.point), 5.5, colour, "white");
        }
        for (place, term) in self.labelled(claim) {
            let colour = sign_colour(is_negative(claim, term));
            picture.label(place, "start", colour, 14, &exact(term.coefficient));
        }
    }

    /// Where the labels of the claim's points begin, of those that have room beside the others.
    fn labelled<'a>(&self, claim: &'a Claim) -> Vec<((f64, f64), &'a Term)> {
        let mut labels: Vec<((f64, f64), &Term)> = Vec::new();
        let wide = |term: &Term| width(&exact(term.coefficient));
        for term in &claim.terms {
            let ((x, y), wide_here) = (self.at(&term.point), wide(term));
            let place = (beside(x, wide_here), y - 12.0);
            let meets = |&((x, y), other): &((f64, f64), &Term)| {
                (y - place.1).abs() < 15.0 && x < place.0 + wide_here && place.0 < x + wide(other)
            };
            if !labels.iter().any(meets) {
                labels.push((place, term));
            }
        }
        labels
    }

    /// Each lone row as a ring around its point, the next one around the first.
    fn draw_lone_rows(&self, picture: &mut Picture, rows: &[Row]) {
        let mut marks = Marks::default();
        for (index, row) in rows.iter().enumerate().filter(|(_, row)| row.is_lone()) {
            let place = self.at(&row.v);
            picture.ring("lone", place, 11.0 + marks.around(place), colour(index));
        }
    }
}

/// Where a label beside a point begins: to the right of it, unless there is no room; to the left at
/// the left edge, since rows go to the right from there.
fn beside(x: f64, wide: f64) -> f64 {
    let (left, right) = (x - 6.0 - wide, x + 9.0);
    if x < LEFT + 41.0 && left > LEFT {
        left
    } else if right + wide > RIGHT {
        x - wide
    } else {
        right
    }
}

/// How many marks there are in each place.
#[derive(Default)]
struct Marks(BTreeMap<(i64, i64), u8>);

impl Marks {
    /// How much larger the next mark in a place is than the first one there.
    fn around(&mut self, (x, y): (f64, f64)) -> f64 {
        let marks = self.0.entry((x.round() as i64, y.round() as i64)).or_default();
        let larger = 4.0 * f64::from(*marks);
        *marks = (*marks + 1).min(6);
        larger
    }
}

/// What the marks mean, each where it occurs, and the rows with their weights.
fn draw_list(picture: &mut Picture, claim: &Claim, rows: &[Row], unlabelled: usize) {
    let mut lines = Lines { y: TOP + 8.0, size: list_size(rows) };
    for (sign, text) in
        [(false, "term that counts as positive"), (true, "term that counts as negative")]
    {
        if claim.terms.iter().any(|term| is_negative(claim, term) == sign) {
            picture.dot("key", (LIST + 12.0, lines.y), 6.0, sign_colour(sign), "white");
            lines.add(picture, text);
        }
    }
    if ends(rows).any(|end| !has_term(claim, end)) {
        picture.dot("key", (LIST + 12.0, lines.y), 4.5, "white", GREY);
        lines.add(picture, "end of a row, no term there");
    }
    if rows.iter().any(|row| !row.is_lone()) {
        lines.pair(picture, GREY);
        lines.add(picture, "pair, marked at its midpoint");
    }
    if rows.iter().any(Row::is_lone) {
        lines.ring(picture, GREY);
        lines.add(picture, "lone row");
    }
    if unlabelled > 0 {
        lines.add(picture, &format!("{} without room for a label", counted(unlabelled, "term")));
    }
    lines.y += LINE / 2.0;
    for (index, row) in rows.iter().enumerate().take(MOST_LISTED) {
        let mark = if row.is_lone() { Lines::ring } else { Lines::pair };
        mark(&lines, picture, colour(index));
        lines.add(picture, &facts(row, index));
    }
    if rows.len() > MOST_LISTED {
        lines.add(picture, &format!("and {} more", counted(rows.len() - MOST_LISTED, "row")));
    }
}

/// The size of the list's text, by the longest row in it.
fn list_size(rows: &[Row]) -> u8 {
    let rows = rows.iter().enumerate().take(MOST_LISTED);
    let longest = rows.map(|(index, row)| facts(row, index).chars().count()).max();
    (500 / longest.unwrap_or(1)).clamp(6, 13) as u8
}

/// What the list says of a row.
fn facts(row: &Row, index: usize) -> String {
    let [p, q, r] = row.weights.map(exact);
    let (v, w) = (bracketed(&row.v), bracketed(&row.w));
    if row.is_lone() {
        format!("row {index}: {v}, p {p}")
    } else {
        format!("row {index}: {v} to {w}, p {p}, q {q}, r {r}")
    }
}

/// The lines of the list, from the top down.
struct Lines {
    y: f64,
    size: u8,
}

impl Lines {
    fn add(&mut self, picture: &mut Picture, text: &str) {
        picture.label((LIST + 32.0, self.y + 4.5), "start", INK, self.size, text);
        self.y += LINE;
    }

    fn pair(&self, picture: &mut Picture, colour: &str) {
        let (x, y) = (LIST, self.y);
        picture.put(format_args!(
            "<path d=\"M {x} {y} h 24\" stroke=\"{colour}\" stroke-width=\"2.5\"/>"
        ));
        picture.diamond("key", (x + 12.0, y), 6.0, colour);
    }

    fn ring(&self, picture: &mut Picture, colour: &str) {
        picture.ring("key", (LIST + 12.0, self.y), 7.0, colour);
    }
}

#[cfg(test)]
mod tests {
    use super::*;

    /// The ends of a row.
    type Ends = ([u8; 2], [u8; 2]);

    /// The rows of Motzkin's polynomial.
    const ENDS: [Ends; 3] = [([0, 0], [2, 4]), ([1, 2], [3, 2]), ([2, 2], [4, 2])];

    fn claim(terms: &[([u8; 2], i32)]) -> Claim {
        let term = |(point, coefficient): &([u8; 2], i32)| Term {
            point: point.to_vec(),
            coefficient: *coefficient,
        };
        Claim { n: 2, mask: 0, floor: 0, terms: terms.iter().map(term).collect() }
    }

    /// Motzkin's polynomial 1 − 3x²y² + x²y⁴ + x⁴y².
    fn motzkin() -> Claim {
        claim(&[([0, 0], 1), ([2, 2], -3), ([2, 4], 1), ([4, 2], 1)])
    }

    /// A proof of rows with the ends, all with the weights 1, 1 and −2, or 1 and zeros.
    fn proof(ends: &[Ends]) -> Proof {
        let weights = |v: &[u8; 2], w: &[u8; 2]| if v == w { [1, 0, 0] } else { [1, 1, -2] };
        let row = |(v, w): &Ends| Row { v: v.to_vec(), w: w.to_vec(), weights: weights(v, w) };
        Proof { n: 2, scale: 1, rows: ends.iter().map(row).collect() }
    }

    /// How often the text has the part.
    fn count(svg: &str, part: &str) -> usize {
        svg.matches(part).count()
    }

    #[test]
    fn points_and_pairs_are_drawn() {
        let svg = svg(&motzkin(), Some(&proof(&ENDS)));
        for (class, times) in [("term", 4), ("pair", 3), ("midpoint", 3), ("end", 2), ("lone", 0)] {
            assert_eq!(count(&svg, &format!("class=\"{class}\"")), times, "{class}");
        }
        for text in
            ["Claim of 4 terms with floor 0", ">−3<", ">row 1: (1,2) to (3,2), p 1, q 1, r −2<"]
        {
            assert!(svg.contains(text), "{text}");
        }
    }

    #[test]
    fn a_claim_alone_is_drawn() {
        let svg = svg(&motzkin(), None);
        assert_eq!((count(&svg, "class=\"term\""), count(&svg, "class=\"pair\"")), (4, 0));
        assert!(!svg.contains("Proof"));
    }

    #[test]
    fn a_claim_without_terms_is_drawn() {
        let claim = Claim { n: 2, mask: 2, floor: -1, terms: Vec::new() };
        let svg = svg(&claim, Some(&proof(&[])));
        assert!(svg.contains("Claim of 0 terms with floor −1"));
        assert!(svg.contains(">exponent of variable 0<"));
        assert!(svg.contains(">exponent of variable 1, which is never negative<"));
    }

    #[test]
    fn lone_rows_are_rings_around_each_other() {
        let svg = svg(&motzkin(), Some(&proof(&[([2, 2], [2, 2]), ([2, 2], [2, 2])])));
        assert_eq!(count(&svg, "class=\"lone\""), 2);
        assert_eq!(count(&svg, "r=\"11\" fill=\"none\""), 1);
        assert_eq!(count(&svg, "r=\"15\" fill=\"none\""), 1);
        assert!(svg.contains(">row 1: (2,2), p 1<"));
    }

    #[test]
    fn pairs_that_lie_on_others_are_bent() {
        assert_eq!(bends(&proof(&ENDS).rows), [0.0, 0.0, 18.0]);
        let same = [([0, 0], [2, 2]), ([0, 0], [2, 2]), ([2, 2], [0, 0]), ([2, 2], [4, 4])];
        assert_eq!(bends(&proof(&same).rows), [0.0, 18.0, -18.0, 0.0]);
    }

    #[test]
    fn marks_stay_at_the_midpoint() {
        let ends = [([0, 0], [2, 2]), ([0, 0], [2, 2])];
        let svg = svg(&motzkin(), Some(&proof(&ends)));
        let plane = Plane::around(&motzkin(), &proof(&ends).rows);
        let (x, y) = plane.at(&vec![1, 1]);
        for size in [10.0, 14.0] {
            let mark = format!("class=\"midpoint\" d=\"M {x:.1} {:.1} l {size} {size} ", y - size);
            assert_eq!(count(&svg, &mark), 1, "{mark}");
        }
    }

    #[test]
    fn odd_terms_count_as_negative() {
        let mut claim = claim(&[([1, 1], 5)]);
        let red = format!("fill=\"{RED}\"");
        let drawn = svg(&claim, None);
        assert_eq!((count(&drawn, &red), count(&drawn, ">5<")), (3, 1));
        assert!(drawn.contains(">term that counts as negative<"));
        claim.mask = 3;
        assert_eq!(count(&svg(&claim, None), &red), 0);
    }

    #[test]
    fn many_rows_are_counted() {
        let ends: Vec<Ends> = (0..20).map(|i| ([0, i], [2, i])).collect();
        let svg = svg(&motzkin(), Some(&proof(&ends)));
        assert_eq!((count(&svg, "class=\"pair\""), count(&svg, ">row ")), (20, MOST_LISTED));
        assert!(svg.contains(">and 4 rows more<"));
    }

    #[test]
    fn labels_without_room_are_counted() {
        let svg =
            svg(&claim(&[([0, 119], 1 << 30), ([0, 120], 1 << 30), ([120, 0], 1 << 30)]), None);
        assert_eq!(count(&svg, ">1,073,741,824<"), 2);
        assert!(svg.contains(">1 term without room for a label<"));
    }
}
