//! Offers drawn by chance to the archive alone: reads OBJECTIVES ROWS OFFERS from standard input, and prints what came of the
//! offers.

use plain::archive::{Archive, Verdict};
use plain::spaces::{Better, Rule, Space};
use std::error::Error;
use std::io;

/// The greatest figure of an objective.
const HIGHEST: u32 = 65_535;

/// Numbers by chance, which both programs draw alike.
struct Chance(u32);

impl Chance {
    /// The next number, below 65,536: the upper half of the state, since the lower half comes round again sooner.
    fn next(&mut self) -> u32 {
        self.0 = self.0.wrapping_mul(1_664_525).wrapping_add(1_013_904_223);
        self.0 >> 16
    }

    /// A point whose figures have the same sum as those of every other, so that few points dominate another: the last objective
    /// takes what the others leave.
    fn point<const N: usize>(&mut self) -> [u32; N] {
        let mut point = [0; N];
        let mut left = HIGHEST;
        for figure in &mut point[..N - 1] {
            *figure = self.next() / (N as u32 - 1);
            left -= *figure;
        }
        point[N - 1] = left;
        point
    }
}

/// How many offers had each verdict, in the order in which they are printed.
#[derive(Default)]
struct Verdicts([u64; 6]);

impl Verdicts {
    fn count(&mut self, verdict: Verdict) {
        self.0[verdict as usize] += 1;
    }
}

/// Makes an archive and offers it so many points, each with its number as its tag.
fn run<const N: usize>(rows: usize, offers: u32) {
    let rule = Rule::Step {
        better: Better::Larger,
        low: 0,
        high: HIGHEST.cast_signed(),
        step: 64,
    };
    let rules = std::array::from_fn(|_| rule.clone());
    let mut archive = Archive::<N>::new(Space { rules }, rows);
    let mut chance = Chance(1);
    let mut gone = Vec::with_capacity(rows);
    let mut verdicts = Verdicts::default();
    for tag in 0..offers {
        verdicts.count(archive.offer(chance.point(), tag, &mut gone));
    }
    let members = archive.members();
    let sum = members.iter().fold(0u32, |sum, member| {
        sum.wrapping_mul(31).wrapping_add(member.tag)
    });
    println!(
        "verdicts {:?} members {} sum {sum}",
        verdicts.0,
        members.len()
    );
}

fn main() -> Result<(), Box<dyn Error>> {
    let text = io::read_to_string(io::stdin())?;
    let numbers: Vec<u32> = text
        .split_whitespace()
        .map(str::parse)
        .collect::<Result<_, _>>()?;
    let [objectives, rows, offers] = numbers[..] else {
        return Err("wanted on standard input: OBJECTIVES ROWS OFFERS, three numbers".into());
    };
    match objectives {
        2 => run::<2>(rows as usize, offers),
        4 => run::<4>(rows as usize, offers),
        6 => run::<6>(rows as usize, offers),
        _ => return Err("OBJECTIVES is to be 2, 4 or 6".into()),
    }
    Ok(())
}
