//! Every refusal that a meter can give, what it leaves, and what a list of numbers can be refused for.

use meter::{Answer, Call, Key, Meter, NotCarriedOut, Refusal, Value};

fn key(index: u32) -> Key {
    Key::from_index(index)
}

/// The rows, the count and the open snapshots: what a refusal must leave.
fn seen(meter: &Meter) -> String {
    format!("{meter:?}")
}

/// The call is refused so, answers nothing else and changes nothing.
fn refused(meter: &mut Meter, call: Call, refusal: Refusal) {
    let before = seen(meter);
    let answer = meter.call(call);
    let nothing = Answer {
        refusal: Some(refusal),
        ..Answer::default()
    };
    assert_eq!(answer, nothing, "{call:?}");
    assert_eq!(seen(meter), before, "{call:?}");
}

#[test]
fn names_and_numbers_are_the_documents() {
    let names: Vec<(u64, &str)> = Refusal::ALL.map(|r| (r.number(), r.name())).to_vec();
    let wanted = [
        (1, "NO_KEY"),
        (2, "KEYS_FULL"),
        (3, "LOG_FULL"),
        (4, "OWNER_CLASH"),
        (5, "TOO_MUCH"),
        (6, "NOT_INNERMOST"),
        (7, "TOO_DEEP"),
        (8, "BROKEN_TABLE"),
        (9, "BAD_STATE"),
        (10, "SERIALS_SPENT"),
        (11, "NOT_OPEN"),
        (12, "BAD_JOURNAL"),
        (16, "NO_ROOM"),
    ];
    assert_eq!(names, wanted);
    for refusal in Refusal::ALL {
        assert_eq!(Refusal::from_number(refusal.number()), Some(refusal));
    }
    assert_eq!((Refusal::from_number(0), Refusal::from_number(13)), (None, None));
    assert_eq!(Refusal::NoKey.to_string(), "NO_KEY (1)");
}

#[test]
fn keys_that_are_not_live() {
    let mut meter = Meter::new(4, 4).unwrap();
    let live = meter.new_key(Value::new(1, 1)).unwrap();
    for dead in [key(1), key(4), key(u32::MAX)] {
        for call in [
            Call::Find(dead),
            Call::Unioned(dead, live),
            Call::Unioned(live, dead),
            Call::Join(dead, live),
            Call::Join(live, dead),
            Call::Post(dead, Value::default()),
            Call::Probe(dead),
            Call::ProbeKey(dead),
            Call::TryProbe(dead),
        ] {
            refused(&mut meter, call, Refusal::NoKey);
        }
        assert_eq!(meter.row(dead), None);
    }
}

#[test]
fn rows_and_log_that_are_full() {
    let mut meter = Meter::new(2, 1).unwrap();
    meter.new_key(Value::default()).unwrap();
    let token = meter.snapshot().unwrap();
    meter.new_key(Value::default()).unwrap();
    refused(&mut meter, Call::New(Value::default()), Refusal::KeysFull);
    refused(&mut meter, Call::Post(key(0), Value::new(0, 1)), Refusal::LogFull);
    meter.commit(token).unwrap();
    assert_eq!(meter.unify_var_value(key(0), Value::new(0, 1)), Ok(()));
}

#[test]
fn a_failed_merge_keeps_both_values() {
    let mut meter = Meter::new(2, 0).unwrap();
    let a = meter.new_key(Value::new(1, u64::MAX)).unwrap();
    let b = meter.new_key(Value::new(2, 1)).unwrap();
    // A clash is a clash whatever the sum.
    assert_eq!(meter.unify_var_var(a, b), Err(Refusal::OwnerClash));
    assert_eq!(meter.unify_var_value(a, Value::new(1, 1)), Err(Refusal::TooMuch));
    assert_eq!(meter.probe_value(a), Ok(Value::new(1, u64::MAX)));
    assert_eq!(meter.probe_value(b), Ok(Value::new(2, 1)));
}

#[test]
fn tokens_that_are_not_open() {
    let mut meter = Meter::new(1, 1).unwrap();
    let old = meter.snapshot().unwrap();
    meter.commit(old).unwrap();
    for call in [Call::Keys(old), Call::Actions(old), Call::Changes(old)] {
        refused(&mut meter, call, Refusal::NotOpen);
    }
    for call in [Call::Rollback(old), Call::Commit(old)] {
        refused(&mut meter, call, Refusal::NotInnermost);
    }
}

#[test]
fn above_the_limits() {
    for (rows, log) in [(65_537, 0), (0, 1_048_577), (usize::MAX, usize::MAX)] {
        assert_eq!(Meter::new(rows, log).unwrap_err(), Refusal::BadState);
    }
    assert!(Meter::new(Meter::ROWS_LIMIT, Meter::LOG_LIMIT).is_ok());
}

#[test]
fn numbers_that_are_no_list() {
    let mut meter = Meter::new(4, 4).unwrap();
    meter.new_key(Value::new(1, 1)).unwrap();
    let mut answers = [77; 18];
    let before = seen(&meter);
    let wide = 1 << 32;
    let new_then = |then: [u64; 4]| [[0, 0, 5, 0], then].concat();
    for list in [
        new_then([15, 0, 0, 0]),
        new_then([2, wide, 0, 0]),
        new_then([4, 0, wide, 0]),
        new_then([5, 0, wide, 0]),
        new_then([0, wide, 0, 0]),
        new_then([1, 0, 0, 1]),
        new_then([9, 1, 0, 0]),
        new_then([10, 1, 1, 0]),
        vec![1, 0, 0],
        vec![1, 0, 0, 0, 1],
    ] {
        assert_eq!(
            meter.run_numbers(&list, &mut answers),
            Err(NotCarriedOut::NoCall),
            "{list:?}"
        );
    }
    let two = new_then([1, 0, 0, 0]);
    assert_eq!(
        meter.run_numbers(&two, &mut answers[..17]),
        Err(NotCarriedOut::NoAnswers)
    );
    assert_eq!((answers, seen(&meter)), ([77; 18], before));
    assert_eq!(meter.run_numbers(&two, &mut answers), Ok(()));
    assert_eq!(answers[9..], [0, 0, 0, 0, 0, 0, 0, 0, 2]);
    assert_eq!(meter.run_numbers(&[], &mut []), Ok(()));
}
