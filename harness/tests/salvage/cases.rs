//! The library against the model, and what is proved of it as checks: kept and dropped stretches cover the file once and in order,
//! an undamaged file comes back unchanged, and what is written is read to its end.

use crate::calls::{peer, subject, Call, Outcome};
use crate::files::{damage, stray_bytes, whole, worst};
use hoengtila_harness::compare::Comparison;
use hoengtila_harness::files::stored;
use hoengtila_harness::header::{each_set, numbers};
use hoengtila_harness::model::file::fields;
use hoengtila_harness::subject::{Answered, Asked};

const FILES: usize = 10_000;

/// "seconds on a slow machine are too many"
const MOST_MICROSECONDS: u32 = 500_000;

fn is_undamaged(file: &[u8]) -> bool {
    fields(file).all(|(_, advance)| advance.number == 0)
}

/// The file without its dropped stretches, which have bytes, lie in it, and stand in order and apart.
fn without(file: &[u8], dropped: &[(usize, usize)]) -> Vec<u8> {
    let (mut rest, mut at) = (vec![], 0);
    for &(offset, length) in dropped {
        assert!(offset >= at && length > 0 && offset + length <= file.len());
        rest.extend(&file[at..offset]);
        at = offset + length;
    }
    rest.extend(&file[at..]);
    rest
}

fn check_theorems(c: &mut Comparison, call: &Call, outcome: &Outcome) {
    if outcome.number() != 0 {
        assert_eq!([outcome.told.bytes, outcome.told.stretches], [0, 0]);
        assert_eq!((&outcome.out, &outcome.list), (&call.out, &call.list));
        return;
    }
    let saved = outcome.saved();
    assert_eq!(without(&call.file, &outcome.dropped()), saved);
    assert_eq!(is_undamaged(&call.file), outcome.told.stretches == 0);
    assert!(is_undamaged(saved));
    let again = c.other(&Call::of(saved));
    assert_eq!((again.saved(), again.told.stretches), (saved, 0));
}

/// Compared with the model, and the theorems on it.
fn compare(c: &mut Comparison, call: &Call) -> Outcome {
    let outcome = c.outcome(call);
    check_theorems(c, call, &outcome);
    outcome
}

#[test]
fn broken_files() {
    let mut c = Comparison::of(subject(), "salvage: stored and broken files");
    let (mut dropped, mut bytes) = (0, 0);
    for case in stored() {
        compare(&mut c, &Call::of(&case.file));
    }
    for _ in 0..FILES {
        let mut file = whole(&mut c.random);
        for _ in 0..c.random.below(5) {
            damage(&mut c.random, &mut file);
        }
        let outcome = compare(&mut c, &Call::of(&file));
        dropped += outcome.told.stretches;
        bytes += file.len();
    }
    println!(
        "salvage: {FILES} files of {bytes} bytes, {dropped} dropped stretches, are the model's"
    );
    c.close(&[0, 14]);
}

#[test]
fn refusals() {
    let mut c = Comparison::of(subject(), "salvage: files about each refusal");
    let mut number = |call: Call| compare(&mut c, &call).number();
    let with = |file: Vec<u8>, out: usize, list: usize| Call {
        file,
        out: vec![0xEE; out],
        list: vec![7; list],
    };
    assert_eq!(number(with(vec![9; 65_536], 65_536, 2048)), 0);
    assert_eq!(number(with(vec![9; 65_537], 65_537, 2048)), 14);
    assert_eq!(number(with(vec![9; 65_537], 0, 0)), 14);
    assert_eq!(number(with(stray_bytes(1024), 45_056, 2048)), 0);
    assert_eq!(number(with(stray_bytes(1024), 45_055, 2048)), 7);
    assert_eq!(number(with(stray_bytes(1024), 45_056, 2047)), 7);
    assert_eq!(number(with(stray_bytes(1025), 45_100, 2050)), 26);
    assert_eq!(number(with(stray_bytes(1025), 45_099, 2050)), 7);
    assert_eq!(number(with(stray_bytes(1489), 65_536, 2978)), 26);
    assert_eq!(number(with(vec![], 0, 2048)), 0);
    c.close(&numbers(&["salvage"]));
}

/// Every set of refusals. For 14 a file goes on with bytes that belong to the last stretch.
#[test]
fn orders() {
    let title = "salvage: every set of refusals, in the header's order";
    let mut c = Comparison::of(subject(), title);
    each_set("salvage", |set| {
        let mut file = stray_bytes(set.pick(26, 1025, 3));
        file.resize(set.pick(14, 65_537, file.len()), 9);
        let call = Call {
            out: vec![0xEE; file.len() - set.pick(7, 1, 0)],
            list: vec![7; 2048],
            file,
        };
        compare(&mut c, &call).number()
    });
    c.close(&numbers(&["salvage"]));
}

#[test]
fn worst_files() {
    let mut c = Comparison::of(subject(), "salvage: the worst files");
    let mut peer = peer();
    let mut most = (0, "");
    for (name, file) in worst() {
        assert_eq!(file.len(), 65_536);
        let call = Call::of(&file);
        compare(&mut c, &call);
        let mut timed = |_| {
            peer.exchange(call.request(), |replies| call.timed(replies))
                .1
        };
        let took = (0..3).map(&mut timed).min().expect("a run");
        assert!(took < MOST_MICROSECONDS, "{name}: {took} microseconds");
        most = most.max((took, name));
    }
    c.close(&[0, 26]);
    println!(
        "salvage: the worst file of 65,536 bytes ({}) takes {} ms",
        most.1,
        most.0.div_ceil(1000)
    );
}
