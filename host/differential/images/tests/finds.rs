//! What looks at valid states find.

use images::compare::{answer, tell};
use images::query::Query;
use images::random::Random;
use images::samples;
use images::states::random_state;

const STATES: usize = 20_000;
const QUERIES_A_STATE: usize = 50;

#[test]
fn finds() {
    let mut random = Random::for_test("finds", 5);
    let (mut flows, mut mps, mut sessions) = (0, 0, 0);
    for _ in 0..STATES {
        let state = random_state(&mut random);
        let image = state.image();
        for _ in 0..QUERIES_A_STATE {
            let answer = answer(&image, Some(&state), &Query::random(&state, &mut random));
            flows += usize::from(answer >> 8 & 0xFF != 0);
            mps += usize::from(answer >> 16 & 0xFF != 0);
            sessions += usize::from(answer >> 24 & 1 != 0);
        }
    }
    let all = STATES * QUERIES_A_STATE;
    tell(&format!("finds: {all} looks, {flows} at a flow, {mps} at an MP, {sessions} at an open session"));
    for found in [flows, mps, sessions] {
        assert!((all / 10..all * 9 / 10).contains(&found), "looks should both find and miss");
    }
}

/// A source with more than 48 bits is no session's, whatever its lowest 48 bits are: numbers wider than their range are
/// compared whole.
#[test]
fn finds_no_session_of_a_wide_source() {
    let state = samples::bench();
    let image = state.image();
    for bit in 48..64 {
        let source = 0x0200_0000_00AA | 1 << bit;
        let query = Query { port: 1, kind: 2, vid: 20, level: 4, source };
        answer(&image, Some(&state), &query);
    }
}
