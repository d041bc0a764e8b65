//! Document 01's examples 1 to 14, each answer and row worked out by hand; example 15 is in `limits`.

use meter::{Call, Key, Meter, Refusal, Row, UndoLog, Value};

fn key(index: u32) -> Key {
    Key::from_index(index)
}

fn row(parent: u32, rank: u32, owner: u32, amount: u64) -> Row {
    Row {
        parent: key(parent),
        rank,
        value: Value::new(owner, amount),
    }
}

/// Four new keys with amounts 1, 2, 4, 8 and no owner, then join(0,1), join(2,3), join(0,2).
fn table_t(log: usize) -> Meter {
    let mut meter = Meter::new(8, log).unwrap();
    for amount in [1, 2, 4, 8] {
        meter.new_key(Value::new(0, amount)).unwrap();
    }
    for (a, b) in [(0, 1), (2, 3), (0, 2)] {
        meter.unify_var_var(key(a), key(b)).unwrap();
    }
    meter
}

#[test]
fn example_1_first_join() {
    let mut meter = Meter::new(2, 0).unwrap();
    let a = meter.new_key(Value::new(0, 1)).unwrap();
    let b = meter.new_key(Value::new(0, 2)).unwrap();
    meter.unify_var_var(a, b).unwrap();
    assert_eq!(meter.row(a), Some(row(1, 0, 0, 1)));
    assert_eq!(meter.row(b), Some(row(1, 1, 0, 3)));
}

#[test]
fn example_2_table_t() {
    let mut meter = Meter::new(4, 0).unwrap();
    let mut calls: Vec<Call> = [1, 2, 4, 8].map(|amount| Call::New(Value::new(0, amount))).to_vec();
    calls.extend([(0, 1), (2, 3), (0, 2)].map(|(a, b)| Call::Join(key(a), key(b))));
    let answers = meter.run(&calls).unwrap();
    assert_eq!(answers[6].steps, 2);
    let parents: Vec<u32> = (0..4).map(|k| meter.row(key(k)).unwrap().parent.index()).collect();
    assert_eq!(parents, [1, 3, 3, 3]);
    assert_eq!(meter.row(key(3)), Some(row(3, 2, 0, 15)));
}

#[test]
fn example_3_find_compresses() {
    let mut meter = table_t(0);
    for steps in [2, 1] {
        let answer = meter.call(Call::Find(key(0)));
        assert_eq!((answer.refusal, answer.key, answer.steps), (None, key(3), steps));
        assert_eq!(meter.row(key(0)).unwrap().parent, key(3));
    }
}

#[test]
fn example_4_join_of_equal_roots() {
    let mut meter = table_t(0);
    let answer = meter.call(Call::Join(key(0), key(0)));
    assert_eq!((answer.refusal, answer.steps), (None, 3));
    assert_eq!(meter.probe_value(key(0)), Ok(Value::new(0, 15)));
}

#[test]
fn example_5_find_in_a_snapshot() {
    let mut meter = table_t(4);
    let token = meter.snapshot().unwrap();
    meter.find(key(0)).unwrap();
    let actions: Vec<UndoLog> = meter.actions_since_snapshot(token).unwrap().collect();
    assert_eq!(actions, [UndoLog::SetElem(key(0), row(1, 0, 0, 1))]);
    meter.rollback_to(token).unwrap();
    assert_eq!(meter.row(key(0)).unwrap().parent, key(1));
}

#[test]
fn example_6_log_full() {
    let mut meter = table_t(0);
    meter.snapshot().unwrap();
    assert_eq!(meter.find(key(0)), Err(Refusal::LogFull));
    assert_eq!(meter.row(key(0)).unwrap().parent, key(1));
    assert_eq!(meter.find(key(1)), Ok(key(3)));
}

#[test]
fn example_7_owner_clash_keeps_the_walk() {
    let mut meter = table_t(0);
    meter.unify_var_value(key(3), Value::new(9, 0)).unwrap();
    meter.new_key(Value::new(7, 0)).unwrap();
    let answer = meter.call(Call::Join(key(0), key(4)));
    assert_eq!((answer.refusal, answer.steps), (Some(Refusal::OwnerClash), 2));
    assert_eq!(meter.row(key(0)).unwrap().parent, key(3));
}

#[test]
fn examples_8_and_9_exact_sums() {
    for (amount, joined) in [(4_294_967_295, Ok(4_294_967_296)), (u64::MAX, Err(Refusal::TooMuch))] {
        let mut meter = Meter::new(2, 0).unwrap();
        let a = meter.new_key(Value::new(0, amount)).unwrap();
        let b = meter.new_key(Value::new(0, 1)).unwrap();
        let outcome = meter.unify_var_var(a, b).and_then(|()| meter.probe_value(a));
        assert_eq!(outcome.map(|value| value.amount), joined);
    }
}

#[test]
fn example_10_nested_snapshots() {
    let mut meter = Meter::new(1, 4).unwrap();
    let a = meter.new_key(Value::new(9, 5)).unwrap();
    let s1 = meter.snapshot().unwrap();
    let s2 = meter.snapshot().unwrap();
    meter.unify_var_value(a, Value::new(9, 7)).unwrap();
    assert_eq!(meter.probe_value(a), Ok(Value::new(9, 12)));
    meter.commit(s2).unwrap();
    assert_eq!(meter.probe_value(a), Ok(Value::new(9, 12)));
    meter.rollback_to(s1).unwrap();
    assert_eq!(meter.probe_value(a), Ok(Value::new(9, 5)));
}

#[test]
fn examples_11_and_12_tokens_out_of_order() {
    let mut meter = Meter::new(1, 1).unwrap();
    let s1 = meter.snapshot().unwrap();
    let s2 = meter.snapshot().unwrap();
    assert_eq!(meter.rollback_to(s1), Err(Refusal::NotInnermost));
    meter.rollback_to(s2).unwrap();
    meter.rollback_to(s1).unwrap();
    meter.snapshot().unwrap();
    assert_eq!(meter.rollback_to(s1), Err(Refusal::NotInnermost));
}

#[test]
fn example_13_empty_table() {
    let mut meter = Meter::new(0, 0).unwrap();
    assert_eq!(meter.find(key(0)), Err(Refusal::NoKey));
}

#[test]
fn example_14_room_for_a_join() {
    for (room, outcome) in [(2, Ok(())), (1, Err(Refusal::LogFull))] {
        let mut meter = Meter::new(2, room).unwrap();
        let a = meter.new_key(Value::default()).unwrap();
        let b = meter.new_key(Value::default()).unwrap();
        meter.snapshot().unwrap();
        assert_eq!(meter.unify_var_var(a, b), outcome);
    }
}
