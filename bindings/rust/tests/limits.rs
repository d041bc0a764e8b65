//! Document 01's example 15, and tables at its limits.

use meter::{Call, Key, Meter, Refusal, UndoLog, Value};

fn key(index: usize) -> Key {
    Key::from_index(index as u32)
}

/// All rows live, joined root to root in equal pairs; the root of each tree is its last key.
fn one_group_of_all() -> Meter {
    let all = Meter::ROWS_LIMIT;
    let mut meter = Meter::new(all, Meter::LOG_LIMIT).unwrap();
    let mut calls = vec![Call::New(Value::new(0, 1)); all];
    let mut half = 1;
    while half < all {
        calls.extend(
            (0..all)
                .step_by(2 * half)
                .map(|i| Call::Join(key(i + half - 1), key(i + 2 * half - 1))),
        );
        half *= 2;
    }
    assert!(meter.run(&calls).unwrap().iter().all(|answer| answer.refusal.is_none()));
    meter
}

#[test]
fn all_keys_in_one_group() {
    let all = Meter::ROWS_LIMIT;
    let mut meter = one_group_of_all();
    let root = meter.row(key(all - 1)).unwrap();
    assert_eq!(
        (root.parent, root.rank, root.value.amount),
        (key(all - 1), 16, all as u64)
    );
    assert_eq!(meter.new_key(Value::default()), Err(Refusal::KeysFull));

    let walk = meter.call(Call::Find(key(0)));
    assert_eq!((walk.key, walk.steps), (key(all - 1), 16));
    let answers = meter
        .run(&(0..all).map(|k| Call::Find(key(k))).collect::<Vec<_>>())
        .unwrap();
    assert!(answers
        .iter()
        .all(|answer| answer.key == key(all - 1) && answer.steps <= 16));
}

#[test]
fn a_rollback_of_all_rewrites() {
    let all = Meter::ROWS_LIMIT;
    let mut meter = one_group_of_all();
    let parents = |meter: &Meter| (0..all).map(|k| meter.row(key(k)).unwrap().parent).collect::<Vec<_>>();
    let before = parents(&meter);
    let token = meter.snapshot().unwrap();
    meter
        .run(&(0..all).map(|k| Call::Find(key(k))).collect::<Vec<_>>())
        .unwrap();
    // Every key below the root's children was rewritten, once: 65,535 less the root's 16 children.
    assert_eq!(meter.actions_since_snapshot(token).unwrap().len(), all - 1 - 16);
    assert_ne!(parents(&meter), before);
    meter.rollback_to(token).unwrap();
    assert_eq!(parents(&meter), before);
}

#[test]
fn thirty_two_snapshots() {
    let mut meter = Meter::new(1, 1).unwrap();
    let tokens: Vec<_> = (0..Meter::SNAPSHOTS_LIMIT).map(|_| meter.snapshot().unwrap()).collect();
    assert_eq!(meter.snapshot(), Err(Refusal::TooDeep));
    assert_eq!(meter.num_open_snapshots(), 32);
    for token in tokens.into_iter().rev() {
        meter.commit(token).unwrap();
    }
    assert!(!meter.in_snapshot());
    assert_eq!(meter.snapshot().unwrap().serial(), 33);
}

/// The log holds an amount as two words.
#[test]
fn a_logged_amount_is_whole() {
    let mut meter = Meter::new(1, 1).unwrap();
    let a = meter.new_key(Value::new(0, u64::MAX - 1)).unwrap();
    let before = meter.row(a).unwrap();
    let token = meter.snapshot().unwrap();
    meter.unify_var_value(a, Value::new(0, 1)).unwrap();
    let actions: Vec<UndoLog> = meter.actions_since_snapshot(token).unwrap().collect();
    assert_eq!(actions, [UndoLog::SetElem(a, before)]);
    meter.rollback_to(token).unwrap();
    assert_eq!(meter.row(a), Some(before));
}
