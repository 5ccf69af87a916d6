//! The axes of a picture, and the numbers at them.

use crate::svg::{Picture, BOTTOM, INK, LEFT, TOP, WIDTH};

/// A scale from whole numbers to places in the picture, with ticks at the multiples of a step.
pub struct Axis {
    first: i128,
    last: i128,
    step: i128,
    start: f64,
    end: f64,
}

impl Axis {
    pub fn new(first: i128, last: i128, start: f64, end: f64) -> Axis {
        Axis { first, last, step: round_step(last - first), start, end }
    }

    /// An axis that begins and ends at ticks, with the numbers between them.
    pub fn round(least: i128, most: i128, start: f64, end: f64) -> Axis {
        let most = if least == most { most + 1 } else { most };
        let step = round_step(most - least);
        let first = least.div_euclid(step) * step;
        let last = -(-most).div_euclid(step) * step;
        Axis { first, last, step, start, end }
    }

    pub fn at(&self, number: i128) -> f64 {
        let share = (number - self.first) as f64 / (self.last - self.first) as f64;
        self.start + share * (self.end - self.start)
    }

    /// The ticks with their labels, which are all of one kind.
    fn ticks(&self) -> Vec<(i128, String)> {
        let least = -(-self.first).div_euclid(self.step);
        let ticks: Vec<i128> =
            (least..=self.last.div_euclid(self.step)).map(|tick| tick * self.step).collect();
        let are_short = ticks.iter().all(|tick| short(*tick).is_some());
        let label = |tick| short(tick).filter(|_| are_short).unwrap_or_else(|| exact(tick));
        ticks.into_iter().map(|tick| (tick, label(tick))).collect()
    }

    /// Ticks of an axis along the lower edge; where their labels are long, some go without.
    pub fn draw_across(&self, picture: &mut Picture) {
        let ticks = self.ticks();
        let longest = ticks.iter().map(|(_, label)| width(label)).fold(0.0, f64::max);
        let room = (self.end - self.start) / ticks.len() as f64;
        let every = (longest / room).ceil().max(1.0) as usize;
        for (index, (tick, label)) in ticks.iter().enumerate() {
            let (x, half) = (self.at(*tick), width(label) / 2.0);
            picture.rule(format_args!("M {x:.1} {TOP} V {BOTTOM}"));
            if index % every == 0 {
                let place = (x.clamp(half, WIDTH - half), BOTTOM + 24.0);
                picture.label(place, "middle", INK, 13, label);
            }
        }
    }

    /// Ticks of an axis along the left edge; long labels are smaller.
    pub fn draw_up(&self, picture: &mut Picture, right: f64) {
        for (tick, label) in self.ticks() {
            let y = self.at(tick);
            let size = (170 / label.chars().count()).clamp(6, 13) as u8;
            picture.rule(format_args!("M {LEFT} {y:.1} H {right}"));
            picture.label((LEFT - 10.0, y + 4.5), "end", INK, size, &label);
        }
    }
}

/// An axis has at most about so many steps.
const MOST_STEPS: i128 = 10;

/// The least of 1, 2, 5, 10, 20, 50 and so on that goes into the span at most ten times.
fn round_step(span: i128) -> i128 {
    let mut power = 1;
    loop {
        for step in [1, 2, 5] {
            if span <= MOST_STEPS * step * power {
                return step * power;
            }
        }
        power *= 10;
    }
}

/// A number with all its digits, in groups of three.
pub fn exact(number: impl Into<i128>) -> String {
    let number = number.into();
    let digits = number.unsigned_abs().to_string();
    let mut text = String::from(if number < 0 { "−" } else { "" });
    for (place, digit) in digits.chars().enumerate() {
        if place > 0 && (digits.len() - place) % 3 == 0 {
            text.push(',');
        }
        text.push(digit);
    }
    text
}

/// A number in few characters, a large one as some digits times a power of ten; none where these
/// would be many.
fn short(number: i128) -> Option<String> {
    let digits = number.unsigned_abs().to_string();
    if digits.len() <= 7 {
        return Some(exact(number));
    }
    let rest = digits[1..].trim_end_matches('0');
    let sign = if number < 0 { "−" } else { "" };
    let point = if rest.is_empty() { "" } else { "." };
    let power: String = (digits.len() - 1).to_string().chars().map(raised).collect();
    (rest.len() <= 4).then(|| format!("{sign}{}{point}{rest}·10{power}", &digits[..1]))
}

/// About how wide a label is, with some room beside it.
pub fn width(label: &str) -> f64 {
    8.5 * label.chars().count() as f64
}

/// A digit as an exponent.
fn raised(digit: char) -> char {
    let raised = ['⁰', '¹', '²', '³', '⁴', '⁵', '⁶', '⁷', '⁸', '⁹'];
    digit.to_digit(10).map_or(digit, |digit| raised[digit as usize])
}

#[cfg(test)]
mod tests {
    use super::*;

    #[test]
    fn ticks_are_round() {
        let labels = |least, most| -> Vec<String> {
            let ticks = Axis::round(least, most, 0.0, 1.0).ticks();
            ticks.into_iter().map(|(_, label)| label).collect()
        };
        assert_eq!(labels(0, 4), ["0", "1", "2", "3", "4"]);
        assert_eq!(labels(-1, 24), ["−5", "0", "5", "10", "15", "20", "25"]);
        assert_eq!(labels(7, 7), ["7", "8"]);
        assert_eq!(labels(0, 1 << 62).last().unwrap(), "5·10¹⁸");
        assert_eq!(labels(-25_000_000, 0)[1], "−2·10⁷");
        assert_eq!(labels(1_000_000_000, 1_000_000_001), ["1,000,000,000", "1,000,000,001"]);
    }
}
