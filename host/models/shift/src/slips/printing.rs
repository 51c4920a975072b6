//! What is printed for a line that is served, and around all lines.

use model::Answer;

use super::{slip, Slip};
use crate::event::{Event, OUTPUT_LENGTH};
use crate::printing::{hex, outcome, places};

pub(super) const SLIPS: [Slip; 20] = [
    slip("UpperHexPrinted", "Hex is printed in upper case.", |rules| {
        rules.printing.hex = |octets| hex(octets).to_ascii_uppercase();
    }),
    slip("EmptyHexPrinted", "No octets are printed as an empty place.", |rules| {
        rules.printing.hex = |octets| if octets.is_empty() { String::new() } else { hex(octets) };
    }),
    slip("CountInHex", "The count is printed in hex.", |rules| rules.printing.count = |count| format!("{count:x}")),
    slip("CountOfDigits", "The count is that of hex digits.", |rules| {
        rules.printing.count = |count| (2 * count).to_string();
    }),
    slip("ReplyForwardWithBlank", "Reply and forward is printed as two words.", |rules| {
        rules.printing.outcome = |answer| match answer {
            Answer::ReplyAndForward { .. } => "reply forward",
            _ => outcome(answer),
        };
    }),
    slip("ReplyForwardIsReply", "Reply and forward is printed as a reply.", |rules| {
        rules.printing.outcome = |answer| match answer {
            Answer::ReplyAndForward { .. } => "reply",
            _ => outcome(answer),
        };
    }),
    slip("NoticeIsDone", "A notice that is taken is printed as done.", |rules| {
        rules.printing.outcome = |answer| match answer {
            Answer::Notice { .. } => "done",
            _ => outcome(answer),
        };
    }),
    slip("LoopIsReply", "A loop is printed as a reply.", |rules| {
        rules.printing.outcome = |answer| match answer {
            Answer::Loop { .. } => "reply",
            _ => outcome(answer),
        };
    }),
    slip("NoticePlacePrinted", "The port and the side of a notice are printed.", |rules| {
        rules.printing.places = |rules, told| {
            let mut all = places(rules, told);
            if let Answer::Notice { port, side, .. } = told.answer {
                all.extend([port.to_string().into_bytes(), side.to_string().into_bytes()]);
            }
            all
        };
    }),
    slip("ForwardedOctetsPrinted", "The octets of a frame that is forwarded are printed.", |rules| {
        rules.printing.places = |rules, told| {
            let mut told = told.clone();
            if let (Answer::Forward, Some(Event::Frame { octets, .. })) = (told.answer, &told.event) {
                told.octets = octets.clone();
            }
            places(rules, &told)
        };
    }),
    slip("DroppedOctetsPrinted", "The octets of a frame that is dropped are printed.", |rules| {
        rules.printing.places = |rules, told| {
            let mut told = told.clone();
            if let (Answer::Drop, Some(Event::Frame { octets, .. })) = (told.answer, &told.event) {
                told.octets = octets.clone();
            }
            places(rules, &told)
        };
    }),
    slip("LoopedOctetsLeftOut", "The octets of a loop are not printed.", |rules| {
        rules.printing.places = |rules, told| {
            let mut all = places(rules, told);
            if matches!(told.answer, Answer::Loop { .. }) {
                all[4] = b"-".to_vec();
            }
            all
        };
    }),
    slip("WholeOutputPrinted", "All of the lent output is printed.", |rules| {
        rules.printing.hex = |octets| {
            let rest = vec![0; OUTPUT_LENGTH - octets.len()];
            if octets.is_empty() {
                hex(octets)
            } else {
                hex(&[octets, &rest].concat())
            }
        };
    }),
    slip("DoneWithoutCount", "`done` is the last place of its line.", |rules| {
        rules.printing.places = |rules, told| {
            let mut all = places(rules, told);
            all.truncate(if told.answer == Answer::Done { 3 } else { all.len() });
            all
        };
    }),
    slip("WordBeforeNumber", "A line's word stands before its number.", |rules| {
        rules.printing.places = |rules, told| {
            let mut all = places(rules, told);
            all.swap(0, 1);
            all
        };
    }),
    slip("BlanksPrinted", "Places are parted by blanks.", |rules| rules.printing.parting = b" "),
    slip("CarriageReturnPrinted", "A printed line is ended by CR and LF.", |rules| rules.printing.ending = b"\r\n"),
    slip("TrailingTabPrinted", "Each place is ended by a tab.", |rules| rules.printing.ending = b"\t\n"),
    slip("HeaderPrinted", "A header is printed.", |rules| {
        rules.printing.whole = |lines| [&b"line\tword\toutcome\tcount\toctets\n"[..], &lines.concat()].concat();
    }),
    slip("LastLineOpen", "The last line is printed without LF.", |rules| {
        rules.printing.whole = |lines| {
            let all = lines.concat();
            all.strip_suffix(b"\n").unwrap_or(&all).to_vec()
        };
    }),
];
