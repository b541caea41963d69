//! Trials and commits: their values, what is held, and refusals 30 to 35.

#[path = "common/calls.rs"]
mod calls;
mod common;
#[path = "common/folders.rs"]
mod folders;

use calls::Call::{self, Begin, Commit, Instant, Trial};
use calls::{answer, begun, holding, padded, past};
use folders::named;
use reference::answer::{Place, Refusal};
use reference::build::proof::two_bands_node;
use reference::build::{NodeFile, Record as R, BOOL, INT};
use reference::session::{begin, Record};

/// The call is refused, and leaves record and slice as they were.
#[track_caller]
fn refused(record: &mut Record, call: Call, number: u8, place: Place) {
    let answer = answer(record, call);
    assert_eq!(answer, Err(Refusal { number, place }), "{call:?}");
}

/// The commit is answered.
#[track_caller]
fn committed(record: &mut Record) {
    assert_eq!(answer(record, Commit), Ok(Vec::new()));
}

/// The values of an answered trial on a node of `count` streams.
#[track_caller]
fn tried(record: &mut Record, inputs: &[i64], count: usize) -> Vec<i64> {
    answer(record, Trial(inputs, count)).unwrap()
}

/// The values of an answered old call.
#[track_caller]
fn called(record: &mut Record, inputs: &[i64], count: usize) -> Vec<i64> {
    answer(record, Instant(inputs, count)).unwrap()
}

/// Minutes booked: 0 asked, an input; 1 zero; 2 before = zero -> pre total; 3
/// total = before + asked; 4 sure, an input; 5 sure or not, the property.
fn minutes() -> NodeFile {
    let records = vec![
        R::input(INT),
        R::constant(INT, 0),
        R::arrow_pre(INT, 1, 3),
        R::sum(2, 0),
        R::input(BOOL),
        R::same(4, 4),
    ];
    NodeFile::new(records, 5)
}

/// A counter: 0 zero, 1 one, 2 c = zero -> pre d, 3 d = c + one, 4 c at
/// least zero, the property.
fn counter() -> NodeFile {
    let records = vec![
        R::constant(INT, 0),
        R::constant(INT, 1),
        R::arrow_pre(INT, 0, 3),
        R::sum(2, 1),
        R::at_most(0, 2),
    ];
    NodeFile::new(records, 4)
}

#[test]
fn a_counter_counts_commits_alone() {
    let mut record = begun(&counter());
    for c in 0..5 {
        let before = record.clone();
        let values = [0, 1, c, c + 1, 1];
        for _ in 0..3 {
            assert_eq!(tried(&mut record, &[], 5), values);
            assert_eq!(record, holding(&before, &values));
        }
        committed(&mut record);
        assert_eq!(record, past(&before, &values));
    }
}

/// 02: "Trial fills the value slice and keeps the values in the session without
/// advancing. Commit advances to the last trial".
#[test]
fn a_second_trial_replaces_the_first() {
    let mut record = begun(&minutes());
    let fresh = record.clone();
    assert_eq!(tried(&mut record, &[30, 1], 6), [30, 0, 0, 30, 1, 1]);
    assert_eq!(record, holding(&fresh, &[30, 0, 0, 30, 1, 1]));
    // Stream 2 is still at instant 0, and 30 is not added.
    assert_eq!(tried(&mut record, &[20, 0], 6), [20, 0, 0, 20, 0, 1]);
    assert_eq!(record, holding(&fresh, &[20, 0, 0, 20, 0, 1]));
    committed(&mut record);
    assert_eq!(record, past(&fresh, &[20, 0, 0, 20, 0, 1]));
    assert_eq!(tried(&mut record, &[5, 1], 6), [5, 0, 20, 25, 1, 1]);
    assert_eq!(tried(&mut record, &[-5, 1], 6), [-5, 0, 20, 15, 1, 1]);
    assert_eq!(tried(&mut record, &[7, 0], 6), [7, 0, 20, 27, 0, 1]);
    committed(&mut record);
    assert_eq!(called(&mut record, &[1, 1], 6), [1, 0, 27, 28, 1, 1]);
}

#[test]
fn a_trial_and_its_commit_are_an_old_call() {
    let mut long = begun(&minutes());
    // Numbers after the last stream are nobody's; they too end up equal.
    long.last[6..].fill(9);
    let mut short = long.clone();
    for (asked, sure) in [(30, 1), (-4, 0), (0, 1), (1 << 62, 0)] {
        tried(&mut long, &[17, 0], 6);
        let values = tried(&mut long, &[asked, sure], 6);
        committed(&mut long);
        assert_eq!(called(&mut short, &[asked, sure], 6), values);
        assert_eq!(long, short);
        assert_eq!(short.last, padded(&values));
    }
    assert_eq!(short.last[3], (1 << 62) + 26);
}

#[test]
fn sixty_four_streams_are_held() {
    let mut records = vec![R::input(INT); 63];
    records.push(R::input(BOOL));
    let mut record = begun(&NodeFile::new(records, 63));
    let fresh = record.clone();
    let mut inputs = [i64::MIN; 64];
    inputs[63] = 1;
    assert_eq!(tried(&mut record, &inputs, 64), inputs);
    assert_eq!(record, holding(&fresh, &inputs));
    committed(&mut record);
    assert_eq!(record, past(&fresh, &inputs));
}

/// Operators 12 and 13 take their first operand until something is committed.
#[test]
fn a_trial_at_instant_0_does_not_leave_it() {
    let records = vec![
        R::input(INT),
        R::input(INT),
        R::arrow(INT, 0, 1),
        R::arrow_pre(INT, 0, 1),
        R::input(BOOL),
        R::arrow_pre(BOOL, 4, 6),
        R::not(5),
    ];
    let mut record = begun(&NodeFile::new(records, 6));
    assert_eq!(tried(&mut record, &[1, 2, 1], 7), [1, 2, 1, 1, 1, 1, 0]);
    assert_eq!(tried(&mut record, &[3, 4, 0], 7), [3, 4, 3, 3, 0, 0, 1]);
    // An old call there is at instant 0 as well.
    let mut other = record.clone();
    assert_eq!(called(&mut other, &[5, 6, 1], 7), [5, 6, 5, 5, 1, 1, 0]);
    assert_eq!(tried(&mut other, &[1, 2, 1], 7), [1, 2, 2, 6, 1, 0, 1]);
    committed(&mut record);
    assert_eq!(tried(&mut record, &[5, 6, 1], 7), [5, 6, 6, 4, 1, 1, 0]);
    assert_eq!(tried(&mut record, &[7, 8, 1], 7), [7, 8, 8, 4, 1, 1, 0]);
    committed(&mut record);
    assert_eq!(called(&mut record, &[9, 9, 0], 7), [9, 9, 9, 8, 0, 0, 1]);
}

/// A trial and an old call are refused alike, and leave the record.
#[track_caller]
fn both_refused(record: &mut Record, inputs: &[i64], count: usize, number: u8, place: Place) {
    refused(record, Trial(inputs, count), number, place);
    refused(record, Instant(inputs, count), number, place);
}

/// Refusals 31 to 34, after minutes that add up to 40.
#[track_caller]
fn each_refusal(record: &mut Record) {
    let most = i64::MAX;
    for inputs in [&[][..], &[1], &[1, 1, 1], &[most, 2, 2]] {
        both_refused(record, inputs, 6, 31, Place::File);
        both_refused(record, inputs, 0, 31, Place::File);
    }
    for count in [0, 5, 7, 64] {
        both_refused(record, &[1, 1], count, 32, Place::File);
        both_refused(record, &[most, 2], count, 32, Place::File);
    }
    for sure in [2, -1, i64::MIN, most] {
        both_refused(record, &[1, sure], 6, 33, Place::Record(4));
        both_refused(record, &[most, sure], 6, 33, Place::Record(4));
    }
    both_refused(record, &[most, 1], 6, 34, Place::Record(3));
    both_refused(record, &[most - 39, 0], 6, 34, Place::Record(3));
}

/// 02: "a refused trial keeps the earlier one". So does a refused old call.
#[test]
fn a_refused_call_keeps_the_earlier_trial() {
    let mut record = begun(&minutes());
    called(&mut record, &[40, 1], 6);
    each_refusal(&mut record);
    let before = record.clone();
    tried(&mut record, &[10, 0], 6);
    each_refusal(&mut record);
    assert_eq!(record, holding(&before, &[10, 0, 40, 50, 0, 1]));
    committed(&mut record);
    assert_eq!(record, past(&before, &[10, 0, 40, 50, 0, 1]));
}

/// 34 too goes by what is committed, not by what is held.
#[test]
fn the_most_that_fits_is_tried_again_and_again() {
    let most = i64::MAX;
    let mut record = begun(&minutes());
    called(&mut record, &[40, 1], 6);
    for _ in 0..3 {
        let values = tried(&mut record, &[most - 40, 0], 6);
        assert_eq!(values, [most - 40, 0, 40, most, 0, 1]);
        both_refused(&mut record, &[most - 39, 0], 6, 34, Place::Record(3));
    }
    committed(&mut record);
    both_refused(&mut record, &[1, 0], 6, 34, Place::Record(3));
    assert_eq!(tried(&mut record, &[0, 0], 6), [0, 0, most, most, 0, 1]);
}

/// "35, commit with no trial held".
#[test]
fn refusal_35_no_trial_held() {
    let mut record = begun(&minutes());
    refused(&mut record, Commit, 35, Place::File);
    refused(&mut record, Trial(&[1, 2], 6), 33, Place::Record(4));
    refused(&mut record, Commit, 35, Place::File);
    tried(&mut record, &[1, 1], 6);
    committed(&mut record);
    refused(&mut record, Commit, 35, Place::File);
    called(&mut record, &[1, 1], 6);
    refused(&mut record, Commit, 35, Place::File);
    tried(&mut record, &[1, 1], 6);
    called(&mut record, &[2, 1], 6);
    refused(&mut record, Commit, 35, Place::File);
    tried(&mut record, &[1, 1], 6);
    begin(&mut record, &minutes().bytes()).unwrap();
    refused(&mut record, Commit, 35, Place::File);
    // A commit looks at nothing that is not held.
    record.trial = [-1; 64];
    refused(&mut record, Commit, 35, Place::File);
    assert_eq!(tried(&mut record, &[1, 1], 6), [1, 0, 0, 1, 1, 1]);
}

/// An answered old call works from what is committed and drops what is held.
#[test]
fn an_old_call_drops_the_trial() {
    let mut record = begun(&minutes());
    for total in [3, 6, 9] {
        let before = record.clone();
        tried(&mut record, &[100, 0], 6);
        let values = [3, 0, total - 3, total, 1, 1];
        assert_eq!(called(&mut record, &[3, 1], 6), values);
        assert_eq!(record, past(&before, &values));
    }
}

#[test]
fn a_beginning_drops_the_trial_unless_refused() {
    let mut record = begun(&minutes());
    called(&mut record, &[40, 1], 6);
    let before = record.clone();
    let values = tried(&mut record, &[2, 1], 6);
    let file = minutes().bytes();
    refused(&mut record, Begin(&[]), 1, Place::File);
    refused(&mut record, Begin(&file[1..]), 4, Place::File);
    let wrong = common::patched(&file, 5 * 16 + 1, &[1]);
    refused(&mut record, Begin(&wrong), 7, Place::Record(5));
    assert_eq!(record, holding(&before, &values));
    let mut other = record.clone();
    assert_eq!(answer(&mut record, Begin(&file)), Ok(Vec::new()));
    assert_eq!(record, begun(&minutes()));
    assert_eq!((record.held, record.trial), (false, [0; 64]));
    committed(&mut other);
    assert_eq!(other.last, padded(&[2, 0, 40, 42, 1, 1]));
}

/// Every call that looks at the record is refused with 30.
#[track_caller]
fn holds_no_node(record: &Record) {
    let calls = [
        Trial(&[1, 1], 6),
        Trial(&[], 0),
        Commit,
        Instant(&[1, 1], 6),
    ];
    for call in calls {
        refused(&mut record.clone(), call, 30, Place::File);
    }
}

/// 30 comes first, 35 after it.
#[test]
fn refusal_30_no_node() {
    let mut good = begun(&two_bands_node());
    for held in [false, true] {
        if held {
            tried(&mut good, &[1, 0], 6);
        }
        for length in [0, 15, 16, 111, 113, 1040, 1041, usize::MAX] {
            let mut record = good.clone();
            record.length = length;
            holds_no_node(&record);
        }
        // One fault for each of 2 to 7 and 23, and below for 8.
        let faults = [
            (96, 0),
            (100, 0),
            (104, 0),
            (0, 16),
            (34, 6),
            (34, 2),
            (49, 1),
        ];
        for (at, byte) in faults {
            let mut record = good.clone();
            record.bytes[at] = byte;
            holds_no_node(&record);
        }
    }
    let mut int_property = begun(&counter());
    int_property.bytes[5 * 16 + 6] = 3;
    for record in [int_property, Record::new()] {
        holds_no_node(&record);
        holds_no_node(&holding(&record, &[]));
    }
}

/// 30 looks at the last committed bools, whether or not a trial is held.
#[test]
fn refusal_30_last_bool() {
    let mut good = begun(&two_bands_node());
    called(&mut good, &[1, 0], 6);
    for held in [false, true] {
        if held {
            tried(&mut good, &[0, 1], 6);
        }
        for (stream, value) in [(0, 2), (3, -1), (5, i64::MIN), (5, i64::MAX)] {
            let mut record = good.clone();
            record.last[stream] = value;
            holds_no_node(&record);
            // Before instant 0 they are not looked at.
            record.answered = false;
            tried(&mut record, &[0, 1], 6);
            committed(&mut record);
            assert_eq!(record, past(&good, &[0, 1, 1, 1, 0, 1]));
        }
    }
}

/// 02: 30 "looks at a held trial's bools too", before instant 0 as well.
#[test]
fn refusal_30_held_bool() {
    let mut good = begun(&two_bands_node());
    for started in [false, true] {
        if started {
            called(&mut good, &[1, 0], 6);
        }
        let values = tried(&mut good, &[1, 1], 6);
        assert_eq!(values, [1, 1, 0, 0, 0, 1]);
        for stream in 0..6 {
            for value in [2, -1, i64::MIN, i64::MAX] {
                let mut record = good.clone();
                record.trial[stream] = value;
                holds_no_node(&record);
                assert_eq!(begin(&mut record, &two_bands_node().bytes()), Ok(()));
                assert_eq!(record, begun(&two_bands_node()));
            }
        }
        // A held bool of 0 for 1 is some trial's.
        let mut other = good.clone();
        other.trial[1] = 0;
        committed(&mut other);
        assert_eq!(other, past(&good, &[1, 0, 0, 0, 0, 1]));
    }
}

/// Where no trial is held, nothing of the slot is looked at, and an answered
/// call clears it.
#[test]
fn the_slot_of_no_trial_is_free() {
    for started in [false, true] {
        let mut good = begun(&two_bands_node());
        if started {
            called(&mut good, &[1, 0], 6);
        }
        let mut record = good.clone();
        record.trial = [-1; 64];
        refused(&mut record, Commit, 35, Place::File);
        refused(&mut record, Trial(&[1, 2], 6), 33, Place::Record(1));
        let mut other = record.clone();
        assert_eq!(tried(&mut record, &[0, 1], 6), [0, 1, 1, 1, 0, 1]);
        assert_eq!(record, holding(&good, &[0, 1, 1, 1, 0, 1]));
        assert_eq!(called(&mut other, &[0, 1], 6), [0, 1, 1, 1, 0, 1]);
        assert_eq!(other, past(&good, &[0, 1, 1, 1, 0, 1]));
    }
}

/// 30 looks at no int, and at no number after the last stream; a commit takes
/// them along.
#[test]
fn held_ints_are_free() {
    let mut good = begun(&counter());
    for started in [false, true] {
        if started {
            assert_eq!(called(&mut good, &[], 5), [0, 1, 0, 1, 1]);
        }
        let mut record = good.clone();
        tried(&mut record, &[], 5);
        record.trial[3] = -9;
        record.trial[5..].fill(2);
        let lent = record.trial;
        committed(&mut record);
        assert_eq!(record.last, lent);
        assert_eq!((record.answered, record.held), (true, false));
        assert_eq!(record.trial, [0; 64]);
        assert_eq!(tried(&mut record, &[], 5), [0, 1, -9, -8, 0]);
        assert_eq!(record.trial, padded(&[0, 1, -9, -8, 0]));
        assert_eq!(record.last, lent);
        committed(&mut record);
        assert_eq!(record, past(&good, &[0, 1, -9, -8, 0]));
    }
}

#[test]
fn a_grant_is_seen_before_it_is_given() {
    let mut record = Record::new();
    begin(&mut record, &named("two-bands").node).unwrap();
    let seen = [[0, 0], [0, 1], [1, 0], [1, 1]].map(|asked| tried(&mut record, &asked, 6));
    let granted = [
        [0, 0, 1, 0, 0, 1],
        [0, 1, 1, 1, 0, 1],
        [1, 0, 0, 0, 0, 1],
        [1, 1, 0, 0, 0, 1],
    ];
    assert_eq!(seen, granted);
    committed(&mut record);
    assert_eq!(record.last, padded(&granted[3]));
}

/// Without a certificate that is accepted a trial may show it false: the
/// licence that is withdrawn at instant 0 is known at instant 2.
#[test]
fn a_trial_may_show_a_forged_property_false() {
    let mut record = Record::new();
    begin(&mut record, &named("forged").node).unwrap();
    assert_eq!(tried(&mut record, &[0], 4), [1, 0, 1, 1]);
    committed(&mut record);
    assert_eq!(tried(&mut record, &[1], 4), [1, 1, 0, 1]);
    assert_eq!(tried(&mut record, &[1], 4), [1, 1, 0, 1]);
    committed(&mut record);
    assert_eq!(tried(&mut record, &[1], 4), [1, 1, 1, 0]);
}
