//! The protocol against a simulated engine, played from seeds: requests are late, lost, done twice or done after they were given up; answers
//! and watches are lost; nodes are killed and paused; leases end at any time, as by a moved clock; the log is dropped; a node lies, and in some runs it changes
//! and deletes what it has put, in any transaction; the engine loses its disks; a node lacks memory for its checkpoints. No promise to a caller may
//! be broken.
//!
//! `simulation [RUNS [STEPS [SEED [SEEDS]]]]`: so many runs of so many steps of a model, from a seed on, and a tenth of them with the proved
//! kernel; until so many seeds have broken a promise.
mod liar;
mod model;
mod player;
#[path = "../../src/sha256.rs"]
#[allow(dead_code)]
mod sha256;
mod world;

use player::{Player, Real};
use world::{Counts, World};

fn digest(bytes: &[u8]) -> sha256::Digest {
    sha256::sha256(bytes)
}

/// Plays a run. A promise that is broken; a panic breaks each.
fn run<P: Player>(seed: u64, steps: u64) -> Result<Counts, String> {
    let played = std::panic::catch_unwind(|| {
        let mut world = World::<P>::new(seed);
        world.run(steps);
        (world.broken, world.counts)
    });
    match played {
        Err(_) => Err("a panic".into()),
        Ok((Some(broken), _)) => Err(broken),
        Ok((None, counts)) => Ok(counts),
    }
}

/// Plays so many runs, until so many seeds have broken a promise. Whether none has.
fn play<P: Player>(what: &str, runs: u64, steps: u64, first: u64, seeds: u64) -> bool {
    let mut all = Counts::default();
    let mut left = seeds;
    for seed in first..first + runs {
        let Counts { faults, answered, never, unseen, unknown, refused, stopped } = match run::<P>(seed, steps) {
            Ok(counts) => counts,
            Err(broken) => {
                println!("seed {seed} of {what}: {broken}");
                left -= 1;
                if left == 0 {
                    return false;
                }
                continue;
            }
        };
        all.faults += faults;
        all.answered += answered;
        all.never += never;
        all.unseen += unseen;
        all.unknown += unknown;
        all.refused += refused;
        all.stopped += stopped;
    }
    println!(
        "{runs} runs of {what}: {} faults; {} submissions answered, {} never made, {} made unseen, {} unknown, {} calls of other nodes' \
         threads refused, {} nodes stopped by what a liar changed; {} promises broken",
        all.faults,
        all.answered,
        all.never,
        all.unseen,
        all.unknown,
        all.refused,
        all.stopped,
        seeds - left
    );
    left == seeds
}

fn main() {
    let words: Vec<u64> = std::env::args().skip(1).filter_map(|word| word.parse().ok()).collect();
    let word = |place: usize, default: u64| words.get(place).copied().unwrap_or(default);
    let (runs, steps, first, seeds) = (word(0, 60), word(1, 6000), word(2, 1), word(3, 1).max(1));
    let is_well = play::<model::Model>("a model", runs, steps, first, seeds)
        && play::<Real>("the kernel", runs / 10, steps, first, seeds);
    std::process::exit(i32::from(!is_well));
}
