//! Random damage to random images.

use images::compare::{is_taken, tell};
use images::damage::damaged;
use images::query::Query;
use images::random::Random;
use images::states::random_state;

const STATES: usize = 50_000;
const DAMAGES_A_STATE: usize = 10;

#[test]
fn damage() {
    let mut random = Random::for_test("damage", 2);
    let mut taken = 0;
    for _ in 0..STATES {
        let state = random_state(&mut random);
        for _ in 0..DAMAGES_A_STATE {
            let octets = damaged(&state, &mut random);
            taken += usize::from(is_taken(&octets, &Query::random(&state, &mut random)));
        }
    }
    let all = STATES * DAMAGES_A_STATE;
    tell(&format!("damage: {all} images, {taken} taken ({} %), {} refused", taken * 100 / all, all - taken));
    assert!(taken * 100 > 3 * all, "too few damaged images are valid for the comparison to mean much");
}
