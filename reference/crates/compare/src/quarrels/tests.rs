//! Whether made-up answers of the library are told.
use super::*;

const TEXT: &str = "equation=0,2,14,1\n";
const COUNTS: [usize; 10] = [0, 0, 0, 0, 3, 5, 1, 1, 1, 2];

/// Answer 0 with a text.
fn answered() -> Given {
    Given { answer: 0, place: None, text: TEXT.to_string() }
}

fn refused(answer: u8, place: Option<usize>) -> Given {
    Given { answer, place, text: String::new() }
}

/// A call that leaves what is wanted, in an output of so many bytes.
fn right(wanted: &Given, counts: &[usize], room: usize) -> Called {
    let mut told = [0; TOLD];
    told[0] = usize::from(wanted.answer);
    told[1] = usize::from(wanted.place.is_some());
    told[2] = wanted.place.unwrap_or(0);
    told[3..TOLD - 1].copy_from_slice(counts);
    told[TOLD - 1] = wanted.text.len();
    let mut out = vec![if wanted.answer == 0 { BEFORE } else { 0 }; room];
    out[..wanted.text.len()].copy_from_slice(wanted.text.as_bytes());
    Called { returned: told[0], told, out }
}

/// That a right call has no fault, and an altered one this single fault.
fn told(wanted: &Given, counts: &[usize], room: usize, alter: impl Fn(&mut Called), what: &str) {
    let mut called = right(wanted, counts, room);
    assert_eq!(faults(wanted, counts, &called), Vec::<String>::new());
    alter(&mut called);
    let faults = faults(wanted, counts, &called);
    assert!(faults.len() == 1 && faults[0].contains(what), "{what}: {faults:?}");
}

#[test]
fn what_is_told_of_an_answer() {
    for room in [TEXT.len(), 40] {
        told(&answered(), &COUNTS, room, |c| c.returned = 14, "14 is returned, not 0");
        told(&answered(), &COUNTS, room, |c| c.told[0] = 12, "the answer 12 is told, not 0");
        told(&answered(), &COUNTS, room, |c| c.told[1] = 1, "the place [1, 0] is told, not [0, 0]");
        told(&answered(), &COUNTS, room, |c| c.told[2] = 4, "the place [0, 4] is told, not [0, 0]");
        told(&answered(), &COUNTS, room, |c| c.told[13] -= 1, "17 bytes of text are told, not 18");
        for count in 3..13 {
            told(&answered(), &COUNTS, room, |c| c.told[count] += 1, "is told, check");
        }
    }
}

#[test]
fn what_is_told_of_the_output() {
    for byte in 0..TEXT.len() {
        told(&answered(), &COUNTS, 40, |c| c.out[byte] += 1, "another text");
    }
    for byte in [TEXT.len(), 39] {
        told(&answered(), &COUNTS, 40, |c| c.out[byte] = 0, "a byte behind the text was changed");
    }
}

#[test]
fn what_is_told_of_a_refusal() {
    for wanted in [refused(14, None), refused(9, None), refused(10, Some(3)), refused(3, Some(1)), refused(1, None)] {
        let counts = if [9, 14].contains(&wanted.answer) { COUNTS } else { [0; 10] };
        told(&wanted, &counts, 40, |c| c.returned = 0, "0 is returned");
        told(&wanted, &counts, 40, |c| c.told[0] = 0, "the answer 0 is told");
        told(&wanted, &counts, 40, |c| c.told[2] += 1, "is told, not");
        told(&wanted, &counts, 40, |c| c.told[13] = 11, "11 bytes of text are told, not 0");
        told(&wanted, &counts, 40, |c| c.told[5] = 7, "is told, check");
        for byte in [0, 39] {
            told(&wanted, &counts, 40, |c| c.out[byte] = BEFORE, "the output is not zero throughout");
        }
    }
}

/// The answer line of the report is no part of this output, and 0 and 14 are no alike.
#[test]
fn another_call_is_told() {
    let nothing_to_tell = right(&refused(14, None), &COUNTS, 40);
    assert!(faults(&answered(), &COUNTS, &nothing_to_tell).len() >= 3);
    let mut with_answer_line = right(&answered(), &COUNTS, 40);
    let text = format!("answer=0,-\n{TEXT}");
    with_answer_line.out[..text.len()].copy_from_slice(text.as_bytes());
    assert!(!faults(&answered(), &COUNTS, &with_answer_line).is_empty());
}
