//! The third demand, on runs of set seeds.

use calls::{later, CALLS_A_RUN};
use model::slips::Slip;
use random::{given_seed, tell};

const RUNS: u64 = 250;
const RUNS_WITH_FLIPS: u64 = 20;
const MOST_RUNS_WITH_SLIP: u64 = 20;

/// Slips of the model that the demand is about.
const SLIPS: [&str; 17] = [
    "LaterVersionMalformed",
    "OffsetIgnored",
    "LengthLowFirst",
    "LongestFrameRefused",
    "OctetsAfterEndRead",
    "SameSubtypeMalformed",
    "OrganizationNotCopied",
    "TimerCopied",
    "IgnoredTimerCopied",
    "CopiedFlagClear",
    "FlagsKept",
    "CopiesReversed",
    "CopiesBeforeTimer",
    "VersionAsReceived",
    "OffsetAsReceived",
    "EndLeftOut",
    "ReplyPadded",
];

#[test]
fn changes_only_copies() {
    let first = given_seed().unwrap_or(1);
    let last = first + RUNS - 1;
    tell(&format!("later: seeds {first} to {last}, {CALLS_A_RUN} calls each"));
    let mut counts = later::Counts::default();
    for seed in first..=last {
        later::play(seed, &mut counts).unwrap_or_else(|difference| panic!("{difference}"));
    }
    for (name, count) in counts.table() {
        tell(&format!("later: {count:7} {name}"));
    }
    let later::Counts { calls, rewritten, replied, .. } = counts;
    tell(&format!(
        "later: {calls} calls, {rewritten} requests rewritten, {replied} of them with a reply; no difference"
    ));
    assert!(calls >= 100_000 && replied >= 20_000, "too few");
    assert!(counts.table().all(|(_, count)| count > 0), "a kind was never reached");
}

#[test]
fn finds_slips() {
    let first = given_seed().unwrap_or(1);
    for slip in SLIPS.map(Slip::named) {
        let mut differences =
            (first..first + MOST_RUNS_WITH_SLIP).filter_map(|seed| later::play_slip(seed, slip).err());
        let difference = differences.next().unwrap_or_else(|| panic!("not found: {slip:?}"));
        tell(&format!("later: {} is found: {}", slip.name, difference.lines().next().unwrap_or_default()));
    }
}

#[test]
fn finds_flips() {
    let first = given_seed().unwrap_or(1);
    let flips = (first..first + RUNS_WITH_FLIPS).map(later::play_flips);
    let count: usize = flips.map(|flips| flips.unwrap_or_else(|difference| panic!("{difference}"))).sum();
    tell(&format!("later: {count} bits flipped, all found; seeds from {first}"));
    assert!(count > 0, "none flipped");
}
