//! A meter moves between threads, and is shared behind a lock.

use std::sync::Mutex;
use std::thread;

use meter::{Call, Key, Meter, Value};

#[test]
fn posts_of_four_threads_to_one_group() {
    let mut fresh = Meter::new(4, 0).unwrap();
    for _ in 0..4 {
        fresh.new_key(Value::new(7, 0)).unwrap();
    }
    let meter = Mutex::new(fresh);
    thread::scope(|threads| {
        for k in 0..4 {
            let meter = &meter;
            threads.spawn(move || {
                let key = Key::from_index(k);
                for _ in 0..1_000 {
                    meter.lock().unwrap().unify_var_value(key, Value::new(7, 3)).unwrap();
                }
                meter.lock().unwrap().unify_var_var(key, Key::from_index(0)).unwrap();
            });
        }
    });
    let mut meter = meter.into_inner().unwrap();
    assert_eq!(meter.probe_value(Key::from_index(2)), Ok(Value::new(7, 12_000)));
}

#[test]
fn a_table_for_each_thread() {
    let tables = (1..=4).map(|owner| {
        thread::spawn(move || {
            let mut meter = Meter::new(1_000, 0).unwrap();
            let calls: Vec<Call> = (0..1_000).map(|amount| Call::New(Value::new(owner, amount))).collect();
            meter.run(&calls).unwrap();
            let joins: Vec<Call> = (1..1_000)
                .map(|k| Call::Join(Key::from_index(k - 1), Key::from_index(k)))
                .collect();
            meter.run(&joins).unwrap();
            (owner, meter)
        })
    });
    for table in tables.collect::<Vec<_>>() {
        let (owner, mut meter) = table.join().unwrap();
        assert_eq!(meter.probe_value(Key::from_index(500)), Ok(Value::new(owner, 499_500)));
    }
}
