//! A search for slow inputs: what takes most time a byte is changed over and over, for each call, until the time is up.

use crate::genome::{Genome, Random, Target, targets};
use crate::hostile;
use crate::timing::usual;
use crate::work::Slots;
use std::time::{Duration, Instant};

const SIZES: [usize; 3] = [4_096, 8_192, 16_384];
const CROWD: usize = 12;

/// So many are looked at for each start, of which the worst make the first crowd.
const SAMPLE: usize = 240;

/// So many children without a better one end a start.
const PATIENCE: usize = 300;

/// Nanoseconds for a first measure, and for one that decides.
const GLANCE: f64 = 3e5;
const LOOK: f64 = 6e6;

/// What a start seeks: the time a byte at the first size, or by how much it grows up to the last.
#[derive(Clone, Copy, PartialEq)]
enum Aim {
    Time,
    Growth,
}

struct Finding {
    genome: Genome,
    /// Nanoseconds at each size, and the bytes given.
    times: [f64; 3],
    bytes: [usize; 3],
    given: bool,
}

impl Finding {
    fn by_byte(&self, size: usize) -> f64 {
        self.times[size] / self.bytes[size] as f64
    }

    fn ratio(&self) -> f64 {
        self.times[2] / self.times[1]
    }
}

struct Search {
    slots: Slots,
    random: Random,
    target: Target,
}

impl Search {
    /// Nanoseconds, and the bytes given.
    fn time(&mut self, genome: &Genome, size: usize, budget: f64) -> (f64, usize) {
        let input = genome.input(self.target, size);
        let slots = &mut self.slots;
        (usual(|| slots.answer(&input), budget), input.bytes())
    }

    fn by_byte(&mut self, genome: &Genome, size: usize, budget: f64) -> f64 {
        let (time, bytes) = self.time(genome, size, budget);
        time / bytes.max(64) as f64
    }

    fn worth(&mut self, genome: &Genome, aim: Aim, budget: f64) -> f64 {
        let small = self.by_byte(genome, SIZES[0], budget);
        match aim {
            Aim::Time => small,
            Aim::Growth => self.by_byte(genome, SIZES[2], budget) - small,
        }
    }

    /// A child of the crowd: one that won against two others, changed, and sometimes crossed before.
    fn child(&mut self, crowd: &[(f64, Genome)]) -> Genome {
        let random = &mut self.random;
        let winner = |random: &mut Random| (0..3).map(|_| random.below(crowd.len())).min().expect("three");
        let (first, second) = (winner(random), winner(random));
        let mut child = if random.once_in(5) {
            crowd[first].1.crossed(&crowd[second].1, random)
        } else {
            crowd[first].1.clone()
        };
        child.mutate(random, self.target);
        child
    }

    /// One start, up to a time: the best of it.
    fn start(&mut self, aim: Aim, seeds: &[Genome], until: Instant) -> Genome {
        let mut crowd: Vec<(f64, Genome)> = Vec::new();
        for k in 0..SAMPLE {
            if k >= CROWD && Instant::now() >= until {
                break;
            }
            let genome = seeds
                .get(k)
                .cloned()
                .unwrap_or_else(|| Genome::random(&mut self.random, self.target));
            crowd.push((self.worth(&genome, aim, GLANCE), genome));
        }
        crowd.sort_by(|a, b| b.0.total_cmp(&a.0));
        crowd.truncate(CROWD);
        let mut idle = 0;
        while idle < PATIENCE && Instant::now() < until {
            crowd.sort_by(|a, b| b.0.total_cmp(&a.0));
            let child = self.child(&crowd);
            idle += 1;
            if crowd.iter().any(|(_, one)| *one == child) {
                continue;
            }
            let mut worth = self.worth(&child, aim, GLANCE);
            if worth > crowd[0].0 {
                // a first that is one by chance would stay for good: both are asked again
                worth = worth.min(self.worth(&child, aim, LOOK));
                let best = crowd[0].1.clone();
                crowd[0].0 = crowd[0].0.min(self.worth(&best, aim, LOOK));
                if worth > crowd[0].0 * 1.01 {
                    idle = 0;
                }
            }
            if worth > crowd[CROWD - 1].0 {
                crowd[CROWD - 1] = (worth, child);
            }
        }
        crowd.sort_by(|a, b| b.0.total_cmp(&a.0));
        crowd.swap_remove(0).1
    }

    /// As little of an input as takes nearly as long.
    fn shrunk(&mut self, genome: Genome, aim: Aim, until: Instant) -> Genome {
        let mut best = genome;
        let mut due = 0.94 * self.worth(&best, aim, LOOK);
        'again: while Instant::now() < until {
            for smaller in best.smaller() {
                let worth = self.worth(&smaller, aim, GLANCE);
                if worth >= due && self.worth(&smaller, aim, LOOK) >= due {
                    due = due.max(0.94 * worth);
                    best = smaller;
                    continue 'again;
                }
                if Instant::now() >= until {
                    break 'again;
                }
            }
            break;
        }
        best
    }

    /// The times at all sizes, which take turns; more of them where a time seems to grow and is short enough.
    fn confirmed(&mut self, genome: Genome) -> Finding {
        let (mut times, mut bytes) = ([f64::INFINITY; 3], [0; 3]);
        for turn in 0..20 {
            if turn >= 4 && (times[2] < 2.1 * times[1] || times[2] > 2e7) {
                break;
            }
            for (k, size) in SIZES.into_iter().enumerate() {
                let (time, given) = self.time(&genome, size, LOOK);
                times[k] = times[k].min(time);
                bytes[k] = given.max(1);
            }
        }
        let answer = self.slots.answer(&genome.input(self.target, SIZES[2]));
        Finding {
            genome,
            times,
            bytes,
            given: answer >> 63 == 0,
        }
    }
}

/// The worst of a call's starts by time a byte, and the one that grows most if that is another.
fn worst(mut findings: Vec<Finding>) -> Vec<Finding> {
    findings.sort_by(|a, b| b.by_byte(2).total_cmp(&a.by_byte(2)));
    let growing = findings
        .iter()
        .enumerate()
        .max_by(|a, b| a.1.ratio().total_cmp(&b.1.ratio()))
        .map_or(0, |(k, _)| k);
    let second = (growing > 0 && findings[growing].ratio() > 2.3).then(|| findings.swap_remove(growing));
    findings.truncate(1);
    findings.extend(second);
    findings
}

fn print(target: Target, finding: &Finding) {
    println!(
        "| {} | {:.1} | {:.1} | {:.2} | {} | {} |",
        target.title,
        finding.by_byte(0),
        finding.by_byte(2),
        finding.ratio(),
        if finding.given { "given" } else { "refused" },
        finding.genome.told(target).replace('|', "\\|")
    );
}

/// Searches for so many seconds, those of all calls together, and prints the worst of each as a table for docs/BENCHMARKS.md.
pub fn run(seconds: u64, seed: u64, fresh: bool) {
    let targets = targets();
    let known = hostile::all();
    // a part of each share is kept for shrinking and for the last measures
    let share = Duration::from_secs(seconds) / targets.len() as u32;
    let mut found = Vec::new();
    for (k, &target) in targets.iter().enumerate() {
        let begin = Instant::now();
        let rows = known.iter().flat_map(|(_, _, rows)| rows);
        let seeds: Vec<Genome> = if fresh {
            Vec::new()
        } else {
            rows.filter_map(|row| Genome::of_row(row, target)).collect()
        };
        let mut search = Search {
            slots: Slots::new(SIZES[2]),
            random: Random(seed.wrapping_mul(1_000).wrapping_add(k as u64)),
            target,
        };
        let mut findings = Vec::new();
        for turn in 0.. {
            if begin.elapsed() >= share * 8 / 10 {
                break;
            }
            let aim = if turn % 4 == 3 { Aim::Growth } else { Aim::Time };
            // every second start is from nothing, so that what is known does not hide what is not
            let from: &[Genome] = if turn % 2 == 0 { &seeds } else { &[] };
            let best = search.start(aim, from, begin + share * 8 / 10);
            let best = search.shrunk(best, aim, begin + share * 9 / 10);
            findings.push(search.confirmed(best));
        }
        eprintln!(
            "{}: {} starts in {:.0} s",
            target.title,
            findings.len(),
            begin.elapsed().as_secs_f64()
        );
        found.push((target, worst(findings)));
    }
    println!("| call | ns a byte at 4,096 | at 16,384 | last two | answer | input |\n|---|--:|--:|--:|---|---|");
    for (target, findings) in &found {
        for finding in findings {
            print(*target, finding);
        }
    }
}
