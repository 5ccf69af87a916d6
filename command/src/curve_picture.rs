//! The picture of a polynomial along one variable, against its floor.

use crate::axis::{exact, Axis};
use crate::svg::{Picture, BOTTOM, INK, LEFT, RED, TOP};

/// The right edge of the frame.
const RIGHT: f64 = 920.0;

const BLUE: &str = "#0072b2";

/// An offset of the variable, with the value there, where one is given.
pub type Sample = (i32, Option<i64>);

/// The polynomial's values along a variable against the floor, at rising offsets. A sample without a
/// value leaves a gap in the curve; values under the floor are red.
pub fn svg(samples: &[Sample], floor: i32, variable: &str, title: &str) -> String {
    let curve = Curve::around(samples, floor);
    let mut picture = Picture::new();
    picture.heading(title, &least_of(samples));
    curve.draw_gaps(&mut picture, samples);
    curve.draw_axes(&mut picture, variable);
    curve.draw_floor(&mut picture, floor);
    curve.draw_values(&mut picture, samples, floor);
    picture.end()
}

/// A curve's axes: the variable, and the values.
struct Curve {
    across: Axis,
    up: Axis,
}

impl Curve {
    /// Axes with room for all samples, their values and the floor.
    fn around(samples: &[Sample], floor: i32) -> Curve {
        let offset = |sample: Option<&Sample>| sample.map_or(0, |(x, _)| (*x).into());
        let (first, last): (i128, i128) = (offset(samples.first()), offset(samples.last()));
        let heights = || samples.iter().filter_map(|(_, value)| *value).chain([floor.into()]);
        let least = heights().min().unwrap_or_default().into();
        let most = heights().max().unwrap_or_default().into();
        Curve {
            across: Axis::new(first, last.max(first + 1), LEFT, RIGHT),
            up: Axis::round(least, most, BOTTOM, TOP),
        }
    }

    fn draw_axes(&self, picture: &mut Picture, variable: &str) {
        self.across.draw_across(picture);
        self.up.draw_up(picture, RIGHT);
        picture.frame(RIGHT);
        picture.axis_names(variable, "value", RIGHT);
    }

    /// A grey band over each run of samples without a value, up to the samples beside it.
    fn draw_gaps(&self, picture: &mut Picture, samples: &[Sample]) {
        let mut start = None;
        for (index, (_, value)) in samples.iter().enumerate() {
            let is_last = index + 1 == samples.len();
            if value.is_none() {
                start.get_or_insert(index.saturating_sub(1));
            }
            if let Some(before) = start.take_if(|_| value.is_some() || is_last) {
                let (from, to) = (self.x(samples[before].0), self.x(samples[index].0));
                picture.band(from, to);
            }
        }
    }

    fn draw_floor(&self, picture: &mut Picture, floor: i32) {
        let y = self.up.at(floor.into());
        picture.put(format_args!(
            "<path class=\"floor\" d=\"M {LEFT} {y:.1} H {RIGHT}\" stroke=\"{INK}\" \
             stroke-width=\"2\" stroke-dasharray=\"8 5\"/>"
        ));
        let place = (RIGHT - 8.0, y - 8.0);
        picture.label(place, "end", INK, 14, &format!("floor {}", exact(floor)));
    }

    /// A line through each run of values, and a red one through each run that is under the floor.
    fn draw_values(&self, picture: &mut Picture, samples: &[Sample], floor: i32) {
        let is_under = |value: Option<i64>| value.is_some_and(|value| value < floor.into());
        let with_dots = samples.len() <= 60;
        for run in samples.split(|(_, value)| value.is_none()) {
            self.draw_run(picture, run, BLUE, with_dots);
        }
        for run in samples.split(|(_, value)| !is_under(*value)) {
            self.draw_run(picture, run, RED, with_dots);
        }
    }

    /// A line through samples that have values, with a dot for each where it is asked for and for
    /// one that stands alone.
    fn draw_run(&self, picture: &mut Picture, run: &[Sample], colour: &str, dots: bool) {
        let place = |&(x, value): &Sample| Some((self.x(x), self.up.at(value?.into())));
        let places: Vec<(f64, f64)> = run.iter().filter_map(place).collect();
        let line: Vec<String> = places.iter().map(|(x, y)| format!("{x:.1},{y:.1}")).collect();
        if line.len() > 1 {
            picture.put(format_args!(
                "<polyline class=\"values\" points=\"{}\" fill=\"none\" stroke=\"{colour}\" \
                 stroke-width=\"2.5\" stroke-linejoin=\"round\"/>",
                line.join(" ")
            ));
        }
        for place in places.iter().filter(|_| dots || run.len() == 1) {
            picture.dot("value", *place, 4.5, colour, "white");
        }
    }

    fn x(&self, offset: i32) -> f64 {
        self.across.at(offset.into())
    }
}

/// What is said of the lowest value, and of samples without one.
fn least_of(samples: &[Sample]) -> String {
    let given = samples.iter().filter_map(|&(x, value)| Some((value?, x)));
    let gaps = samples.iter().any(|(_, value)| value.is_none());
    let gaps = if gaps { "; grey where no value is given" } else { "" };
    match given.min_by_key(|(value, _)| *value) {
        None => "no value is given".to_string(),
        Some((value, x)) => {
            let (value, x) = (exact(value), exact(x));
            format!("lowest of these values: {value}, at {x}{gaps}")
        }
    }
}

#[cfg(test)]
mod tests {
    use super::*;

    /// How often the text has the part.
    fn count(svg: &str, part: &str) -> usize {
        svg.matches(part).count()
    }

    #[test]
    fn a_curve_has_gaps_where_no_value_is_given() {
        let samples =
            [(0, Some(4)), (1, Some(1)), (2, None), (3, None), (4, Some(0)), (5, Some(1))];
        let svg = svg(&samples, 0, "x", "f");
        assert_eq!((count(&svg, "<polyline"), count(&svg, "class=\"gap\"")), (2, 1));
        assert_eq!(count(&svg, "class=\"value\""), 4);
        assert!(svg.contains("lowest of these values: 0, at 4; grey"));
    }

    #[test]
    fn values_under_the_floor_are_red() {
        let samples: Vec<Sample> =
            (0..100).map(|x| (x, Some(i64::from((x - 50) * (x - 50) - 1)))).collect();
        let under_0 = svg(&samples, 0, "x", "f");
        assert_eq!(count(&under_0, "class=\"value\""), 1);
        assert_eq!(count(&under_0, &format!("r=\"4.5\" fill=\"{RED}\"")), 1);
        assert_eq!(count(&svg(&samples, 1, "x", "f"), "<polyline class=\"values\""), 2);
    }

    #[test]
    fn curves_at_the_edges_have_numbers() {
        let extreme = [(i32::MIN, Some(i64::MAX)), (0, Some(0)), (i32::MAX, Some(i64::MIN))];
        let edges: [(&[Sample], i32); 5] = [
            (&[], 5),
            (&[(3, None)], 5),
            (&[(3, Some(5))], 5),
            (&extreme, i32::MIN),
            (&extreme, i32::MAX),
        ];
        for (samples, floor) in edges {
            let svg = svg(samples, floor, "x", "f");
            assert!(!svg.contains("NaN") && !svg.contains("inf"), "{samples:?}");
        }
    }

    #[test]
    fn a_title_is_no_markup() {
        let svg = svg(&[(0, Some(0))], 0, "x", "a < b & \"c\"");
        assert!(svg.contains("<title>a &lt; b &amp; &quot;c&quot;</title>"));
    }
}
