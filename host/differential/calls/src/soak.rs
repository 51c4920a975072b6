//! Plays runs of fresh seeds, for SECONDS or until it is stopped. It begins with SEED where that is given. With the name of one of
//! the model's slips as SLIP, the model makes that slip, which shows what a difference looks like.

use std::env;
use std::process::ExitCode;
use std::time::{Duration, Instant, SystemTime, UNIX_EPOCH};

use calls::{play, Coverage};
use model::slips::Slip;
use random::given_seed;

const TOLD_EVERY: Duration = Duration::from_secs(5);

fn main() -> ExitCode {
    let first = given_seed().unwrap_or_else(fresh_seed);
    let seconds: Option<u64> = env::var("SECONDS").ok().and_then(|text| text.parse().ok());
    let slip = env::var("SLIP").ok().map(|name| Slip::named(&name));
    let (start, mut told, mut coverage) = (Instant::now(), Instant::now(), Coverage::default());
    println!("soak: seeds from {first}");
    for seed in first.. {
        if let Err(difference) = play(seed, slip, &mut coverage) {
            println!("{difference}");
            return ExitCode::FAILURE;
        }
        if told.elapsed() >= TOLD_EVERY {
            told = Instant::now();
            println!("soak: {} calls, seeds {first} to {seed}, no difference; {}", coverage.calls, rest(&coverage));
        }
        if seconds.is_some_and(|seconds| start.elapsed().as_secs() >= seconds) {
            break;
        }
    }
    coverage.table().iter().for_each(|(name, count)| println!("{count:9} {name}"));
    println!("soak: {} calls, no difference; {}", coverage.calls, rest(&coverage));
    ExitCode::SUCCESS
}

fn rest(coverage: &Coverage) -> String {
    let missing = coverage.missing();
    match missing.is_empty() {
        true => "all of the table reached".to_string(),
        false => format!("not reached yet: {}", missing.join(", ")),
    }
}

/// The time of day.
fn fresh_seed() -> u64 {
    SystemTime::now().duration_since(UNIX_EPOCH).map_or(0, |time| time.as_millis() as u64)
}
