//! The meter beside a naive model, over random calls: each key carries its group's number, a join renumbers all keys,
//! and a snapshot is a copy of everything. Roots follow document 01's rule of ranks, so the model foretells them.

use meter::{Answer, Call, Key, Meter, Refusal, Token, Value};

/// Small and repeatable; the tests print the seed by the round in which they fail.
struct Random(u64);

impl Random {
    fn below(&mut self, limit: u64) -> u64 {
        self.0 = self
            .0
            .wrapping_mul(6_364_136_223_846_793_005)
            .wrapping_add(1_442_695_040_888_963_407);
        (self.0 >> 33) % limit
    }
}

#[derive(Clone, Copy)]
struct Group {
    root: usize,
    rank: u32,
    value: Value,
}

#[derive(Clone, Default)]
struct Keys {
    /// Each key's group, by its place in `groups`. A joined group is left behind.
    group_of: Vec<usize>,
    groups: Vec<Group>,
}

struct Open {
    serial: u64,
    keys: Keys,
    /// Whether something changed while this was the innermost.
    changed: bool,
}

#[derive(Default)]
struct Model {
    now: Keys,
    last_serial: u64,
    open: Vec<Open>,
}

fn merge(a: Value, b: Value) -> Result<Value, Refusal> {
    let owner = match (a.owner, b.owner) {
        (Some(x), Some(y)) if x != y => return Err(Refusal::OwnerClash),
        (x, y) => x.or(y),
    };
    let amount = a.amount.checked_add(b.amount).ok_or(Refusal::TooMuch)?;
    Ok(Value { owner, amount })
}

impl Model {
    fn group(&self, key: Key) -> Result<usize, Refusal> {
        self.now
            .group_of
            .get(key.index() as usize)
            .copied()
            .ok_or(Refusal::NoKey)
    }

    fn size(&self, group: usize) -> usize {
        self.now.group_of.iter().filter(|&&other| other == group).count()
    }

    fn join(&mut self, a: Key, b: Key) -> Result<(), Refusal> {
        let (a, b) = (self.group(a)?, self.group(b)?);
        if a == b {
            return Ok(());
        }
        let (x, y) = (self.now.groups[a], self.now.groups[b]);
        let value = merge(x.value, y.value)?;
        self.now.groups[b] = Group {
            root: if x.rank > y.rank { x.root } else { y.root },
            rank: if x.rank == y.rank {
                x.rank + 1
            } else {
                x.rank.max(y.rank)
            },
            value,
        };
        self.now
            .group_of
            .iter_mut()
            .filter(|group| **group == a)
            .for_each(|group| *group = b);
        self.change();
        Ok(())
    }

    /// Walks that compress are changes too, which the model doesn't know of.
    fn change(&mut self) {
        if let Some(open) = self.open.last_mut() {
            open.changed = true;
        }
    }

    fn innermost(&mut self, token: Token) -> Result<Open, Refusal> {
        match self.open.last() {
            Some(open) if open.serial == token.serial() => Ok(self.open.pop().expect("it is the last")),
            _ => Err(Refusal::NotInnermost),
        }
    }

    /// The open snapshots from the token's on, inwards.
    fn since(&self, token: Token) -> Result<&[Open], Refusal> {
        let at = self.open.iter().position(|open| open.serial == token.serial());
        Ok(&self.open[at.ok_or(Refusal::NotOpen)?..])
    }

    /// Whether there is a change for sure.
    fn changed(&self, token: Token) -> Result<bool, Refusal> {
        Ok(self.since(token)?.iter().any(|open| open.changed))
    }

    fn new_key(&mut self, value: Value, rows: usize) -> Result<u32, Refusal> {
        let key = self.now.group_of.len();
        if key == rows {
            return Err(Refusal::KeysFull);
        }
        self.now.group_of.push(self.now.groups.len());
        self.now.groups.push(Group {
            root: key,
            rank: 0,
            value,
        });
        self.change();
        Ok(key as u32)
    }

    fn snapshot(&mut self) -> Result<u64, Refusal> {
        if self.open.len() == Meter::SNAPSHOTS_LIMIT {
            return Err(Refusal::TooDeep);
        }
        self.last_serial += 1;
        self.open.push(Open {
            serial: self.last_serial,
            keys: self.now.clone(),
            changed: false,
        });
        Ok(self.last_serial)
    }

    fn post(&mut self, key: Key, value: Value) -> Result<(), Refusal> {
        let group = self.group(key)?;
        self.now.groups[group].value = merge(self.now.groups[group].value, value)?;
        self.change();
        Ok(())
    }

    fn rollback(&mut self, token: Token) -> Result<(), Refusal> {
        self.now = self.innermost(token)?.keys;
        Ok(())
    }

    fn commit(&mut self, token: Token) -> Result<(), Refusal> {
        if self.innermost(token)?.changed {
            self.change();
        }
        Ok(())
    }
}

const ROWS: usize = 40;

/// Whether the meter's answer is the model's, in all that the model knows.
fn same(model: &mut Model, call: Call, answer: &Answer) -> Result<(), Refusal> {
    match call {
        Call::New(value) => assert_eq!(answer.key.index(), model.new_key(value, ROWS)?),
        Call::Len => assert_eq!(answer.to as usize, model.now.group_of.len()),
        Call::Find(key) => {
            let group = model.group(key)?;
            assert_eq!(answer.key.index() as usize, model.now.groups[group].root);
            assert!(
                1 << answer.steps <= model.size(group),
                "a walk is at most log2 of its group"
            );
        }
        Call::Unioned(a, b) => {
            let (a, b) = (model.group(a)?, model.group(b)?);
            assert_eq!(answer.yes, a == b);
        }
        Call::Join(a, b) => model.join(a, b)?,
        Call::Post(key, value) => model.post(key, value)?,
        Call::Probe(key) => {
            let group = model.group(key)?;
            assert_eq!(answer.value, model.now.groups[group].value);
        }
        Call::ProbeKey(key) => {
            let group = model.now.groups[model.group(key)?];
            assert_eq!((answer.key.index() as usize, answer.value), (group.root, group.value));
        }
        Call::TryProbe(key) => {
            let group = model.now.groups[model.group(key)?];
            let is_root = group.root == key.index() as usize;
            let value = if is_root { group.value } else { Value::default() };
            assert_eq!((answer.yes, answer.value), (is_root, value));
        }
        _ => return same_of_tokens(model, call, answer),
    }
    Ok(())
}

fn same_of_tokens(model: &mut Model, call: Call, answer: &Answer) -> Result<(), Refusal> {
    match call {
        Call::Snapshot => assert_eq!(answer.token.serial(), model.snapshot()?),
        Call::Rollback(token) => model.rollback(token)?,
        Call::Commit(token) => model.commit(token)?,
        Call::Keys(token) => {
            let before = model.since(token)?[0].keys.group_of.len();
            assert_eq!(
                (answer.from as usize, answer.to as usize),
                (before, model.now.group_of.len())
            );
        }
        Call::Actions(token) => {
            let changed = model.changed(token)?;
            assert!(answer.from < answer.to || !changed);
        }
        Call::Changes(token) => {
            let changed = model.changed(token)?;
            assert!(answer.yes || !changed);
        }
        _ => unreachable!("the other calls name no token"),
    }
    Ok(())
}

fn any_call(random: &mut Random, tokens: &[Token]) -> Call {
    let a = Key::from_index(random.below(ROWS as u64 + 1) as u32);
    let b = Key::from_index(random.below(ROWS as u64 + 1) as u32);
    let amount = [random.below(1_000), u64::MAX - random.below(3)][usize::from(random.below(50) == 0)];
    let value = Value::new(random.below(4).saturating_sub(1) as u32, amount);
    // Mostly the innermost open one.
    let innermost = tokens.len().saturating_sub(1 + random.below(4) as usize / 3);
    let token = tokens.get(innermost).copied().unwrap_or_default();
    match random.below(22) {
        0..=2 => Call::New(value),
        3 => Call::Len,
        4 | 5 => Call::Find(a),
        6 => Call::Unioned(a, b),
        7..=9 => Call::Join(a, b),
        10 => Call::Post(a, value),
        11 => Call::Probe(a),
        12 => Call::ProbeKey(a),
        13 => Call::TryProbe(a),
        14..=16 => Call::Snapshot,
        17 => Call::Rollback(token),
        18 => Call::Commit(token),
        19 => Call::Keys(token),
        20 => Call::Actions(token),
        _ => Call::Changes(token),
    }
}

/// The open tokens as the answers tell them.
fn note_token(tokens: &mut Vec<Token>, call: Call, answer: &Answer) {
    match call {
        Call::Snapshot if answer.refusal.is_none() => tokens.push(answer.token),
        Call::Rollback(_) | Call::Commit(_) if answer.refusal.is_none() => drop(tokens.pop()),
        _ => {}
    }
}

#[test]
fn random_calls_answer_as_the_model() {
    let mut met = [0u32; 12];
    for round in 0..200 {
        let (mut random, mut model) = (Random(round), Model::default());
        let mut meter = Meter::new(ROWS, 10_000).unwrap();
        let mut tokens = Vec::new();
        for at in 0..400 {
            let call = any_call(&mut random, &tokens);
            let answer = meter.call(call);
            note_token(&mut tokens, call, &answer);
            let foretold = same(&mut model, call, &answer).err();
            assert_eq!(answer.refusal, foretold, "round {round}, call {at}: {call:?}");
            assert_eq!(meter.len(), model.now.group_of.len());
            assert_eq!(meter.num_open_snapshots(), model.open.len());
            met[answer.refusal.map_or(0, |refusal| refusal.number() as usize)] += 1;
        }
    }
    for number in [0, 1, 2, 4, 5, 6, 7, 11] {
        assert!(met[number] > 20, "number {number} was met {} times", met[number]);
    }
}

#[test]
fn a_list_answers_as_its_calls_one_by_one() {
    for round in 0..50 {
        let mut random = Random(1_000 + round);
        // A short log, so that LOG_FULL is met too.
        let mut meter = Meter::new(ROWS, 30).unwrap();
        let mut together = meter.clone();
        let (mut calls, mut answers, mut tokens) = (Vec::new(), Vec::new(), Vec::new());
        for _ in 0..300 {
            let call = any_call(&mut random, &tokens);
            let answer = meter.call(call);
            note_token(&mut tokens, call, &answer);
            calls.push(call);
            answers.push(answer);
        }
        assert_eq!(together.run(&calls), Ok(answers), "round {round}");
        assert_eq!(format!("{together:?}"), format!("{meter:?}"), "round {round}");
    }
}

#[test]
fn nested_snapshots_give_back_the_very_rows() {
    let mut random = Random(7);
    let mut meter = Meter::new(ROWS, 10_000).unwrap();
    let mut saved = Vec::new();
    for _ in 0..Meter::SNAPSHOTS_LIMIT {
        for _ in 0..10 {
            let call = match any_call(&mut random, &[]) {
                Call::Snapshot => Call::Len,
                call => call,
            };
            meter.call(call);
        }
        let rows: Vec<_> = (0..meter.len() as u32).map(|k| meter.row(Key::from_index(k))).collect();
        saved.push((meter.snapshot().unwrap(), rows));
    }
    while let Some((token, rows)) = saved.pop() {
        meter.rollback_to(token).unwrap();
        let now: Vec<_> = (0..meter.len() as u32).map(|k| meter.row(Key::from_index(k))).collect();
        assert_eq!(now, rows);
    }
}
