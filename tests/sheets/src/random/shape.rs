//! How large plans are, and the points of their rows.

use super::limits::planned;
use super::Rng;
use crate::{is_masked, Limits, Point, Row, MOST};

/// How large a plan is to be.
#[derive(Clone, Debug)]
pub struct Shape {
    /// The variables that are never negative.
    pub mask: u8,
    /// How the variables are limited.
    pub limits: Limits,
    /// The points that rows are drawn from, in order.
    pub pool: Vec<Point>,
    /// Midpoints are of the pool too.
    pub closed: bool,
    /// No lone rows are drawn.
    pub only_pairs: bool,
    /// How many rows are drawn, before others make the sums meet the targets.
    pub rows: usize,
    /// How many rows there are to be at least.
    pub least_rows: usize,
    pub scale: u32,
    /// The greatest weight at the ends of a row.
    pub weight: i64,
}

impl Shape {
    /// A shape of any size up to the limits, small ones more often.
    pub fn random(rng: &mut Rng) -> Shape {
        let n = rng.pick(&[1, 1, 2, 2, 3, 4, 6, 8]);
        let sides = [1 + rng.below(8), 1 + rng.below(8)];
        let step = rng.pick(&[1, 1, 1, 2]);
        let top = rng.once_in(4);
        let scale = rng.pick(&[1, 1, 2, 3, 10, 1000, 65_537, 1 << 20]);
        Shape {
            mask: mask(rng, n),
            limits: planned(rng, n, scale),
            pool: grid(rng, &vec![step; n], sides, top),
            closed: rng.once_in(2),
            only_pairs: false,
            rows: rng.pick(&[0, 1, 2, 3, 5, 8, 13, 40]),
            least_rows: 0,
            scale,
            weight: i64::from(MOST) >> rng.below(30),
        }
    }

    /// A shape at the limits: 1 or 8 variables, exponents up to 120, near 64 points, 256 rows, or
    /// few rows with the greatest weights.
    pub fn extreme(rng: &mut Rng) -> Shape {
        let n = rng.pick(&[1, 8]);
        let sides = if n == 1 { [55, 1] } else { [8, 8] };
        let many = rng.once_in(2);
        let top = rng.once_in(2);
        let mask = mask(rng, n);
        let scale = rng.pick(&[(1 << 20) - 1, 1 << 20]);
        Shape {
            mask,
            limits: planned(rng, n, scale),
            pool: grid(rng, &steps(mask, n), sides, top),
            closed: true,
            only_pairs: false,
            rows: if many { 150 } else { 2 },
            least_rows: if many { 256 } else { 0 },
            scale,
            weight: i64::from(MOST),
        }
    }

    /// A shape of few rows with small weights, many of them at the constant.
    pub fn low(rng: &mut Rng) -> Shape {
        let n = rng.pick(&[1, 2, 3]);
        let sides = [1 + rng.below(4), 1 + rng.below(3)];
        let mask = mask(rng, n);
        let scale = rng.pick(&[1, 1, 2, 7, 1 << 20]);
        Shape {
            mask,
            limits: planned(rng, n, scale),
            pool: grid(rng, &steps(mask, n), sides, false),
            closed: rng.once_in(2),
            only_pairs: false,
            rows: 1 + rng.below(12),
            least_rows: 0,
            scale,
            weight: rng.pick(&[9, 99, 999]),
        }
    }

    /// A shape of so many pairs of 8 variables, none of them masked or limited, with terms at up
    /// to 64 points.
    pub fn pairs(rng: &mut Rng, rows: usize) -> Shape {
        Shape {
            mask: 0,
            limits: Limits::none(8),
            pool: grid(rng, &[2; 8], [8, 8], false),
            closed: true,
            only_pairs: true,
            rows,
            least_rows: 0,
            scale: 1,
            weight: 1 << 20,
        }
    }

    /// The shape with fewer rows and smaller weights, for where a larger one does not fit.
    pub fn shrunk(mut self, times: u32) -> Shape {
        self.rows >>= times.min(30);
        self.weight >>= times.min(30);
        self
    }

    /// A point of the pool, twice.
    pub fn lone_ends(&self, rng: &mut Rng) -> (Point, Point) {
        let point = rng.pick(&self.pool);
        (point.clone(), point)
    }

    /// Two points of the pool with a whole midpoint, none where they are hard to find.
    pub fn pair_ends(&self, rng: &mut Rng) -> Option<(Point, Point)> {
        let pair = |_| {
            let row = Row { v: rng.pick(&self.pool), w: rng.pick(&self.pool), weights: [0; 3] };
            let midpoint = row.midpoint()?;
            let fits = !self.closed || self.pool.binary_search(&midpoint).is_ok();
            (fits && !row.is_lone()).then_some((row.v, row.w))
        };
        (0..40).find_map(pair)
    }
}

/// A mask for `n` variables: none of them, all, or any.
pub fn mask(rng: &mut Rng, n: usize) -> u8 {
    let all = u8::MAX >> (8 - n);
    let any = rng.byte() & all;
    rng.pick(&[0, all, any, any])
}

/// Steps for each variable between points whose coefficients keep their signs.
fn steps(mask: u8, n: usize) -> Vec<usize> {
    (0..n).map(|variable| if is_masked(mask, variable) { 1 } else { 2 }).collect()
}

/// Points on a grid with two random directions of the given steps, from the least exponents on or
/// up to the greatest.
fn grid(rng: &mut Rng, steps: &[usize], sides: [usize; 2], top: bool) -> Vec<Point> {
    let n = steps.len();
    let mut direction = || -> Vec<usize> { steps.iter().map(|step| step * rng.below(2)).collect() };
    let (mut first, mut second) = (direction(), direction());
    first[0] = steps[0];
    second[n - 1] = steps[n - 1];
    let span = |i, j| first.iter().zip(&second).map(move |(a, b)| i * a + j * b);
    let start = span(sides[0] - 1, sides[1] - 1).map(|last| if top { 120 - last } else { 0 });
    let start: Vec<usize> = start.collect();
    let point = |i, j| span(i, j).zip(&start).map(|(exponent, start)| (start + exponent) as u8);
    let places = (0..sides[0]).flat_map(|i| (0..sides[1]).map(move |j| (i, j)));
    let mut points: Vec<Point> = places.map(|(i, j)| point(i, j).collect()).collect();
    points.sort();
    points.dedup();
    points
}
