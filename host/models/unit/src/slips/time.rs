//! Time.

use super::{slip, Slip};
use crate::time::{left, tick};
use crate::Answer;

pub(super) const SLIPS: [Slip; 7] = [
    slip("ElapsedWithoutWrap", "A reading below the last is no time elapsed.", |rules| {
        rules.time.elapsed = |last, new| new.saturating_sub(last);
    }),
    slip("HalfRangeTaken", "A step of 2,147,483,648 ms is taken.", |rules| rules.refusals.too_far = 2_147_483_649),
    slip("RefusedTickMovesClock", "A refused tick moves the clock.", |rules| {
        rules.calls.tick = |unit, clock| {
            let answer = tick(unit, clock);
            if matches!(answer, Answer::Refused(_)) {
                unit.clock = clock;
            }
            answer
        };
    }),
    slip("WholeSecondsElapse", "Only whole seconds elapse.", |rules| {
        rules.time.left = |ms_left, elapsed| left(ms_left, elapsed / 1000 * 1000);
    }),
    slip("ExpiryOneLate", "A session with just the elapsed time left stays open.", |rules| {
        rules.time.left = |ms_left, elapsed| ms_left.checked_sub(elapsed);
    }),
    slip("ExpiryOneEarly", "A session with 1 ms more than the elapsed time left closes.", |rules| {
        rules.time.left = |ms_left, elapsed| left(ms_left, elapsed + 1).map(|less| less + 1);
    }),
    slip("RemainderKept", "A closed session keeps its time left.", |rules| {
        rules.machine.close = |session, code| session.notice = Some(code);
    }),
];
