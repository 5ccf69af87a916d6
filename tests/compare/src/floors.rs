//! What a floor means: where no masked variable is negative and each limited one within its limit,
//! the polynomial is nowhere under it, nor at fractions of an offset. Two posts show what trials
//! cannot tell, a masked cube and a limited square what a floor leaves open.

use crate::answers;
use harness::report::{equal, Outcome, Report};
use oracle::{Integer, Sides};
use sheets::limited::minus_square;
use sheets::masked::cube;
use sheets::posts::{post_4, post_9};
use sheets::random::{offsets, Kind, Rng};
use sheets::{is_masked, Case, Example, Profile};

/// How many accepted sheets of each kind are looked at, and at how many places each.
const SHEETS: usize = 300;
const PLACES: usize = 6;

/// Offsets are whole, or have one of these denominators.
const WHOLE: [u32; 1] = [1];
const DENOMINATORS: [u32; 4] = [1, 2, 3, 1000];

/// The posts' readings are within plus and minus this.
const MOST_READING: i32 = 1023;

/// Where Post 9 is under its floor, which no reading finds.
const LOW_PLACE: [i32; 2] = [2000, 1];

/// Gives a floor under the claim of an accepted case, where there is one.
type FloorOf = fn(&Case, &mut Rng) -> Result<Option<i32>, String>;

pub fn run(report: &mut Report) {
    let floors: [(&str, FloorOf); 2] =
        [("the floor", accepted_floor), ("the found floor", found_floor)];
    let places: [(&str, &[u32]); 2] = [("values", &WHOLE), ("fractions", &DENOMINATORS)];
    for (places, denominators) in places {
        for (floor, floor_of) in floors {
            let name = format!("{places} at least {floor}");
            report.add(&name, are_at_least(&name, floor_of, denominators));
        }
    }
    for (post, low_value) in [(post_4(), 0), (post_9(), -1)] {
        let name = post.name;
        report.add(&format!("{name} within ±{MOST_READING}"), has_no_low_reading(&post));
        report.add(&format!("{name} at {LOW_PLACE:?}"), has_value(&post, &LOW_PLACE, low_value));
    }
    for (example, case, offset, value) in open_places() {
        let name = example.name;
        report.add(
            &format!("{name} at {offset}"),
            is_under_its_floor(&example, &case, offset, value),
        );
    }
}

/// Claims evaluated exactly at numbers over one of the denominators that their masks and limits
/// admit, of any size where nothing limits them; some of the values are the floor.
fn are_at_least(name: &str, floor_of: FloorOf, denominators: &[u32]) -> Outcome {
    let mut rng = Rng::new(1);
    let mut are_floors = Vec::new();
    for kind in [Kind::Accepted, Kind::Extreme, Kind::Found] {
        for _ in 0..SHEETS {
            let case = kind.case(&mut rng);
            let Some(floor) = floor_of(&case, &mut rng)? else { continue };
            for _ in 0..PLACES {
                let d = rng.pick(denominators);
                let numbers = numbers(&mut rng, case.offsets.len(), d);
                let numbers = admitted(&case, &mut rng, numbers, d);
                are_floors.push(is_floor(&floor.into(), &case.claim, &numbers, d)?);
            }
        }
    }
    let floors = are_floors.iter().filter(|&&is_floor| is_floor).count();
    println!("{name}: {}, equal to it: {floors}", are_floors.len());
    equal("some values equal the floor", &true, &(floors > 0))
}

/// The floor of a claim that the oracle and the library accept.
fn accepted_floor(case: &Case, rng: &mut Rng) -> Result<Option<i32>, String> {
    let verdict = answers::check(case, rng)?;
    verdict.map(|accepted| Some(accepted.floor)).map_err(|refusal| refusal.to_string())
}

/// The floor that a search by the oracle and by the library finds, which it does not always.
fn found_floor(case: &Case, rng: &mut Rng) -> Result<Option<i32>, String> {
    Ok(answers::search(case, rng)?.ok().map(|found| found.accepted.floor))
}

/// The polynomial's value at the numbers over `d` is the floor rather than more. Less is a mistake.
fn is_floor(floor: &Integer, claim: &[u8], h: &[Integer], d: u32) -> Result<bool, String> {
    let sides = oracle::sides(claim, floor, h, d).map_err(|refusal| refusal.to_string())?;
    let Sides { floor, value } = sides;
    if value < floor {
        return Err(format!("{value} is under the floor {floor} at {h:?} over {d} of {claim:?}"));
    }
    Ok(value == floor)
}

/// Offsets such as evaluations are given, or, once in four, numbers of up to 64 bits; multiples of
/// `d` once in three.
fn numbers(rng: &mut Rng, count: usize, d: u32) -> Vec<Integer> {
    let numbers: Vec<Integer> = if rng.once_in(4) {
        (0..count).map(|_| Integer::from(rng.bits() as i64 >> rng.below(64))).collect()
    } else {
        offsets(rng, count).into_iter().map(Integer::from).collect()
    };
    let factor = Integer::from(if rng.once_in(3) { d } else { 1 });
    numbers.iter().map(|number| number * &factor).collect()
}

/// The numbers over `d` brought within the limits, often to their ends, and those of masked
/// variables without their signs.
fn admitted(case: &Case, rng: &mut Rng, mut numbers: Vec<Integer>, d: u32) -> Vec<Integer> {
    for (variable, number) in numbers.iter_mut().enumerate() {
        if let Some(limit) = limit_of(case, variable) {
            let most = i64::from(limit) * i64::from(d);
            let is_beyond = number.abs() > Integer::from(most);
            if is_beyond || rng.once_in(4) {
                let within = rng.within(-most..=most);
                *number = Integer::from(rng.pick(&[within, -most, most]));
            }
        }
        if is_masked(case.claim[2], variable) {
            *number = number.abs();
        }
    }
    numbers
}

/// The limit of a variable in an accepted case's limits sheet, where its power is not 0.
fn limit_of(case: &Case, variable: usize) -> Option<u32> {
    let [power, low, high] = case.limits[1 + 3 * variable..][..3] else { return None };
    (power > 0).then_some(u16::from_le_bytes([low, high]).into())
}

/// No reading gives a value under the floor.
fn has_no_low_reading(post: &Example) -> Outcome {
    let (claim, floor) = (post.claim.bytes(), i64::from(post.claim.floor));
    for x in -MOST_READING..=MOST_READING {
        for y in -MOST_READING..=MOST_READING {
            let value = value(&claim, &[x, y])?;
            if value < floor {
                return Err(format!("{value} is under the floor {floor} at ({x}, {y})"));
            }
        }
    }
    Ok(())
}

fn has_value(example: &Example, offsets: &[i32], expected: i64) -> Outcome {
    equal("the value", &expected, &value(&example.claim.bytes(), offsets)?)
}

/// Accepted claims with an offset that mask or limits do not admit, and the value there.
fn open_places() -> [(Example, Case, i32, i64); 2] {
    let (cube, square) = (cube(), minus_square());
    let cube_case = Case::new(&cube.claim, &cube.proof);
    let square_case = square.case();
    [(cube, cube_case, -2, -8), (square.example, square_case, 4, -16)]
}

/// The claim is accepted with its floor, and has its exact value under it at the offset.
fn is_under_its_floor(example: &Example, case: &Case, offset: i32, value: i64) -> Outcome {
    let floor = example.claim.floor;
    equal("the floor", &Some(floor), &accepted_floor(case, &mut Rng::new(0))?)?;
    equal("under the floor", &true, &(value < floor.into()))?;
    has_value(example, &[offset], value)
}

/// The value that the library gives.
fn value(claim: &[u8], offsets: &[i32]) -> Result<i64, String> {
    let mut value = 0;
    match burmelox::evaluate(claim, Profile::FULL, offsets, &mut value) {
        0 => Ok(value),
        answer => Err(format!("the answer is {answer} at {offsets:?}")),
    }
}
