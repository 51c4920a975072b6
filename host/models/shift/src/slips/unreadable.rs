//! What is printed for a line that can't be read.

use model::{Answer, Unit};

use super::{slip, Slip};
use crate::event::OUTPUT_LENGTH;
use crate::fields::{number, parted};

const WORDS: [&[u8]; 6] = [b"frame", b"tick", b"allow", b"prohibit", b"notice", b"restart"];
const BAD: Answer = Answer::Refused(9);

pub(super) const SLIPS: [Slip; 9] = [
    slip("BadWordAsItStands", "The word is printed as it stands.", |rules| {
        rules.run.unreadable = |_, line| (parted(line).remove(0), BAD);
    }),
    slip("ListedWordAsItStands", "A word that is listed is printed as it stands.", |rules| {
        rules.run.unreadable = |_, line| {
            let word = parted(line).remove(0);
            (if WORDS.contains(&&word[..]) { word } else { b"bad".to_vec() }, BAD)
        };
    }),
    slip("BadIsEight", "The refusal is 8.", |rules| {
        rules.run.unreadable = |_, _| (b"bad".to_vec(), Answer::Refused(8));
    }),
    slip("BadIsOne", "The refusal is the plan's reason 1.", |rules| {
        rules.run.unreadable = |_, _| (b"bad".to_vec(), Answer::Refused(1));
    }),
    slip("PortBeforeBad", "A port that is not in the plan gives 1 though the frame can't be read.", |rules| {
        rules.run.unreadable = |unit, line| match &parted(line)[..] {
            [word, port, side, _] if word == b"frame" && is_no_place(unit, port, side) => {
                (word.clone(), Answer::Refused(1))
            }
            _ => (b"bad".to_vec(), BAD),
        };
    }),
    slip("NoticeBeforeBad", "A notice that is due gives 4 though the line can't be read.", |rules| {
        rules.run.unreadable = |unit, _| {
            let is_due = unit.clone().notice(OUTPUT_LENGTH).0 != Answer::Refused(7);
            (b"bad".to_vec(), if is_due { Answer::Refused(4) } else { BAD })
        };
    }),
    slip("BadHexIsTwo", "Hex that can't be read gives 2.", |rules| {
        rules.run.unreadable = |_, line| match &parted(line)[..] {
            [word, port, side, _] if word == b"frame" && number(port).is_some() && number(side).is_some() => {
                (word.clone(), Answer::Refused(2))
            }
            _ => (b"bad".to_vec(), BAD),
        };
    }),
    slip("BadFlowIsSix", "A flow that can't be read is not in the plan.", |rules| {
        rules.run.unreadable = |_, line| match &parted(line)[..] {
            [word, _] if word == b"allow" || word == b"prohibit" => (word.clone(), Answer::Refused(6)),
            _ => (b"bad".to_vec(), BAD),
        };
    }),
    slip("BadTickIsFive", "A reading that can't be read moves the clock too far.", |rules| {
        rules.run.unreadable = |_, line| match &parted(line)[..] {
            [word, _] if word == b"tick" => (word.clone(), Answer::Refused(5)),
            _ => (b"bad".to_vec(), BAD),
        };
    }),
];

/// Whether both can be read, and the unit has no such port or side.
fn is_no_place(unit: &Unit, port: &[u8], side: &[u8]) -> bool {
    let (Some(port), Some(side)) = (number(port), number(side)) else {
        return false;
    };
    unit.clone().frame(port, side, &[], OUTPUT_LENGTH).0 == Answer::Refused(1)
}
