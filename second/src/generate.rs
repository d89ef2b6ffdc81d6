//! The maker of test cases: all cases follow from a seed and a count.

mod changes;
mod conversions;
mod damage;
mod edges;
mod files;
mod float_hours;
mod flows;
pub mod gas_hours;
mod idle_hours;
mod large_flows;
pub mod page;
mod quarters;
pub mod recorder;
pub mod sheets;
pub mod tight;
pub mod tons;
mod years;

use crate::cases::Case;
use crate::random::Random;
use crate::write::Form;
pub use float_hours::FloatHour;
pub use years::Joining;

/// A family makes what its given turn asks for.
type Family<T> = fn(&mut Random, usize) -> T;

/// Where the random numbers of a recorder's hours, of files with idle hours, of
/// files and sheets for NOx tons, of files with gas hours, of files with large flows,
/// of sheets to convert, and of sheets and quarters of the present form start: no
/// other case comes to so high a part.
const FLOAT_HOURS: u64 = 1 << 40;
const IDLE_HOURS: u64 = 1 << 41;
const TONS: u64 = 1 << 42;
const SHEETS_FOR_TONS: u64 = 1 << 43;
const GAS_HOURS: u64 = 1 << 44;
const LARGE_FLOWS: u64 = 1 << 45;
const CONVERSIONS: u64 = 1 << 46;
const PRESENT_SHEETS: u64 = 1 << 47;
const PRESENT_SMALL: u64 = 1 << 48;
const PRESENT_FULL: u64 = 1 << 49;

/// The cases of a seed: `count` files to check, a third as many sheets of the first
/// form to convert and write, reports of all sizes written from such sheets with
/// changes to each, a third as many files with idle hours, some files and sheets for
/// NOx tons, and a fifth as many files with gas hours; then a tenth as many files with
/// large flows, an eighth as many sheets made for the conversion, a third as many
/// sheets of the present form, and some reports written from such with changes.
pub fn cases(seed: u64, count: usize) -> Vec<Case> {
    let mut cases = Vec::new();
    for number in 0..count {
        let random = &mut Random::branch(seed, 4 * number as u64);
        cases.push(Case::File(files::file(random, number)));
    }
    for number in 0..count.div_ceil(3) {
        let random = &mut Random::branch(seed, 4 * number as u64 + 1);
        cases.push(sheets::sheet(random, Form::First, number));
    }
    let groups: [(usize, Family<Vec<Case>>); 3] =
        [(40, quarters::small), (85, quarters::middle), (170, quarters::full)];
    for (part, (share, group)) in groups.into_iter().enumerate() {
        for number in 0..count.div_ceil(share) {
            let random = &mut Random::branch(seed, 4 * (1_000_000 * part + number) as u64 + 2);
            cases.extend(group(random, number));
        }
    }
    for number in 0..count.div_ceil(3) {
        let random = &mut Random::branch(seed, IDLE_HOURS + number as u64);
        cases.push(Case::File(idle_hours::file(random, number)));
    }
    for number in 0..count.div_ceil(11) {
        let random = &mut Random::branch(seed, TONS + number as u64);
        cases.push(Case::File(tons::file(random, number)));
    }
    for number in 0..count.div_ceil(100) {
        let random = &mut Random::branch(seed, SHEETS_FOR_TONS + number as u64);
        cases.push(tons::sheet(random, number));
    }
    for number in 0..count.div_ceil(5) {
        let random = &mut Random::branch(seed, GAS_HOURS + number as u64);
        cases.push(Case::File(gas_hours::file(random, number)));
    }
    for number in 0..count.div_ceil(10) {
        let random = &mut Random::branch(seed, LARGE_FLOWS + number as u64);
        cases.push(Case::File(large_flows::file(random, number)));
    }
    for number in 0..count.div_ceil(8) {
        let random = &mut Random::branch(seed, CONVERSIONS + number as u64);
        cases.push(conversions::sheet(random, number));
    }
    for number in 0..count.div_ceil(3) {
        let random = &mut Random::branch(seed, PRESENT_SHEETS + number as u64);
        cases.push(sheets::sheet(random, Form::Present, number));
    }
    let groups: [(usize, u64, Family<Vec<Case>>); 2] =
        [(100, PRESENT_SMALL, quarters::present_small), (850, PRESENT_FULL, quarters::present_full)];
    for (share, part, group) in groups {
        for number in 0..count.div_ceil(share) {
            let random = &mut Random::branch(seed, part + number as u64);
            cases.extend(group(random, number));
        }
    }
    cases
}

/// So many quarters to join of a seed, from random numbers that no other case
/// uses.
pub fn years(seed: u64, count: usize) -> Vec<Joining> {
    (0..)
        .flat_map(|number| years::joinings(&mut Random::branch(seed, 4 * number as u64 + 3), number))
        .take(count)
        .collect()
}

/// Hours of a recorder: the named ones, which all seeds have, and so many of
/// this seed.
pub fn float_hours(seed: u64, count: usize) -> Vec<FloatHour> {
    let mut hours = float_hours::named();
    hours.extend((0..count).map(|number| {
        let random = &mut Random::branch(seed, FLOAT_HOURS + number as u64);
        float_hours::hour(random, number)
    }));
    hours
}

/// So many numbers, no two of them alike, not even if they are cut to 32 bits.
fn distinct(random: &mut Random, count: usize) -> Vec<u64> {
    let (first, step) = (random.bits(), random.bits() | 1);
    (0..count as u64).map(|place| first.wrapping_add(place.wrapping_mul(step))).collect()
}

/// The family with this number, and its turn. In every round of all families
/// each has as many turns as its share.
fn family_of<T>(families: &[(Family<T>, usize)], number: usize) -> (Family<T>, usize) {
    let shares: usize = families.iter().map(|(_, share)| share).sum();
    let (round, mut place) = (number / shares, number % shares);
    let mut index = 0;
    while place >= families[index].1 {
        place -= families[index].1;
        index += 1;
    }
    let (family, share) = families[index];
    (family, round * share + place)
}
