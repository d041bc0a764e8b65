//! What is measured: a table to start from, and the calls made on it.

use crate::random::Random;

/// A call as it is lent: code, a, b, c.
pub type Numbers = [u64; 4];

pub const NEW: u64 = 0;
pub const FIND: u64 = 2;
pub const JOIN: u64 = 4;
pub const POST: u64 = 5;
pub const PROBE_KEY: u64 = 7;
pub const SNAPSHOT: u64 = 9;
pub const ROLLBACK: u64 = 10;
pub const COMMIT: u64 = 11;

/// Owners are none or this tenant, so that owners are merged and never clash.
const TENANT: u32 = 7;

/// The calls by their kind, so that each side can make them in a plain loop.
pub enum Calls {
    News(Vec<(u32, u64)>),
    Finds(Vec<u32>),
    Joins(Vec<(u32, u32)>),
    Posts(Vec<(u32, u32, u64)>),
    /// Rounds of a snapshot, so many joins each, and a rollback or a commit.
    Trials {
        joins: Vec<(u32, u32)>,
        in_each: usize,
        end: End,
    },
}

#[derive(Clone, Copy, PartialEq)]
pub enum End {
    Rollback,
    Commit,
}

pub struct Work {
    pub name: String,
    /// Carried out by both sides to make the table that each run starts from.
    pub before: Vec<Numbers>,
    pub calls: Calls,
}

impl Calls {
    /// The same calls as a list of lent numbers. Tokens begin with 1: no work has had a snapshot of its own before.
    pub fn numbers(&self) -> Vec<Numbers> {
        match self {
            Calls::News(values) => values.iter().map(|&(owner, amount)| new(owner, amount)).collect(),
            Calls::Finds(keys) => keys.iter().map(|&key| find(key)).collect(),
            Calls::Joins(pairs) => pairs.iter().map(|&pair| join(pair)).collect(),
            Calls::Posts(posts) => posts
                .iter()
                .map(|&(key, owner, amount)| [POST, u64::from(key), u64::from(owner), amount])
                .collect(),
            Calls::Trials { joins, in_each, end } => {
                let code = if *end == End::Rollback { ROLLBACK } else { COMMIT };
                let trials = joins.chunks(*in_each).zip(1..);
                trials.flat_map(|(joins, token)| trial(joins, code, token)).collect()
            }
        }
    }
}

fn new(owner: u32, amount: u64) -> Numbers {
    [NEW, u64::from(owner), amount, 0]
}

fn find(key: u32) -> Numbers {
    [FIND, u64::from(key), 0, 0]
}

fn join((a, b): (u32, u32)) -> Numbers {
    [JOIN, u64::from(a), u64::from(b), 0]
}

fn trial(joins: &[(u32, u32)], code: u64, token: u64) -> Vec<Numbers> {
    let mut calls = vec![[SNAPSHOT, 0, 0, 0]];
    calls.extend(joins.iter().map(|&pair| join(pair)));
    calls.push([code, token, 0, 0]);
    calls
}

fn any_value(random: &mut Random) -> (u32, u64) {
    (TENANT * random.below(2), u64::from(random.below(1_000)))
}

fn values(keys: u32, random: &mut Random) -> Vec<(u32, u64)> {
    (0..keys).map(|_| any_value(random)).collect()
}

fn fresh_keys(keys: u32, random: &mut Random) -> Vec<Numbers> {
    Calls::News(values(keys, random)).numbers()
}

/// Half as many random joins as keys, then every path is shortened: each key is a root or just below one.
fn compressed_forest(keys: u32, random: &mut Random) -> Vec<Numbers> {
    let mut before = fresh_keys(keys, random);
    before.extend((0..keys / 2).map(|_| join((random.below(keys), random.below(keys)))));
    before.extend((0..keys).map(find));
    before
}

/// Keys joined root to root in equal pairs, to trees of so many keys. A tree's first key is its deepest.
fn deep_trees(keys: u32, tree: usize, random: &mut Random) -> Vec<Numbers> {
    let mut before = fresh_keys(keys, random);
    let mut roots: Vec<(u32, u32)> = (0..keys).map(|key| (key, 0)).collect();
    let mut size = 1;
    while size < tree && roots.len() > 1 {
        let pairs = roots.chunks_exact(2);
        before.extend(pairs.clone().map(|pair| join((pair[0].0, pair[1].0))));
        let odd = pairs.remainder().to_vec();
        roots = pairs.map(|pair| root_of(pair[0], pair[1])).chain(odd).collect();
        size *= 2;
    }
    before
}

/// The root and rank of two joined roots, by document 01's rule.
fn root_of((a, a_rank): (u32, u32), (b, b_rank): (u32, u32)) -> (u32, u32) {
    match a_rank.cmp(&b_rank) {
        std::cmp::Ordering::Greater => (a, a_rank),
        std::cmp::Ordering::Less => (b, b_rank),
        std::cmp::Ordering::Equal => (b, b_rank + 1),
    }
}

fn fresh_pairs(keys: u32) -> Vec<(u32, u32)> {
    (0..keys / 2).map(|i| (2 * i, 2 * i + 1)).collect()
}

/// The edges of a random tree over all keys, in random order: each join joins two groups, the last one all.
fn random_tree(keys: u32, random: &mut Random) -> Vec<(u32, u32)> {
    let mut edges: Vec<(u32, u32)> = (1..keys).map(|key| (key, random.below(key))).collect();
    random.shuffle(&mut edges);
    edges
}

/// Joins of fresh pairs; where there are too few keys for one trial, joins at random, the last made twice.
fn trials(keys: u32, in_each: usize, end: End, random: &mut Random) -> Calls {
    let mut joins = fresh_pairs(keys);
    if joins.len() < in_each {
        joins = random_tree(keys, random);
        joins.extend(joins.last().copied());
    }
    joins.truncate(joins.len() / in_each * in_each);
    Calls::Trials { joins, in_each, end }
}

/// All that is measured at so many keys. The calls that log are there twice: with no snapshot open, and inside one.
pub fn all(keys: u32) -> Vec<Work> {
    let random = &mut Random::seeded(u64::from(keys));
    let mut works = vec![
        work(
            "find, compressed",
            compressed_forest(keys, random),
            Calls::Finds(any_keys(keys, random)),
        ),
        work(
            "find, 6 redirects",
            deep_trees(keys, 64, random),
            Calls::Finds(first_keys(keys, 64)),
        ),
        work(
            "find, each key of one deep tree",
            deep_trees(keys, usize::MAX, random),
            Calls::Finds(shuffled(keys, random)),
        ),
        work(
            "join, fresh pairs",
            fresh_keys(keys, random),
            Calls::Joins(fresh_pairs(keys)),
        ),
        work(
            "join, at random to one group",
            fresh_keys(keys, random),
            Calls::Joins(random_tree(keys, random)),
        ),
        work(
            "post",
            compressed_forest(keys, random),
            Calls::Posts(any_posts(keys, random)),
        ),
        work("new key", Vec::new(), Calls::News(values(keys, random))),
    ];
    works = works.into_iter().flat_map(with_logged).collect();
    for (end, ended) in [(End::Rollback, "rolled back"), (End::Commit, "committed")] {
        for in_each in [1, 10, 1_000] {
            let name = format!("snapshot, {in_each} joins {ended}").replace(" 1 joins", " 1 join");
            works.push(work(
                &name,
                fresh_keys(keys, random),
                trials(keys, in_each, end, random),
            ));
        }
    }
    works
}

fn work(name: &str, before: Vec<Numbers>, calls: Calls) -> Work {
    Work {
        name: name.to_string(),
        before,
        calls,
    }
}

/// The work itself, and the same inside a snapshot.
fn with_logged(plain: Work) -> [Work; 2] {
    let mut before = plain.before.clone();
    before.push([SNAPSHOT, 0, 0, 0]);
    let logged = Work {
        name: format!("{}, logged", plain.name),
        before,
        calls: plain.calls.again(),
    };
    [plain, logged]
}

impl Calls {
    /// A copy, for calls that name no token.
    fn again(&self) -> Calls {
        match self {
            Calls::News(values) => Calls::News(values.clone()),
            Calls::Finds(keys) => Calls::Finds(keys.clone()),
            Calls::Joins(pairs) => Calls::Joins(pairs.clone()),
            Calls::Posts(posts) => Calls::Posts(posts.clone()),
            Calls::Trials { .. } => unreachable!("a trial has a snapshot of its own"),
        }
    }
}

fn any_keys(keys: u32, random: &mut Random) -> Vec<u32> {
    (0..keys).map(|_| random.below(keys)).collect()
}

fn first_keys(keys: u32, tree: u32) -> Vec<u32> {
    (0..keys / tree).map(|i| i * tree).collect()
}

fn shuffled(keys: u32, random: &mut Random) -> Vec<u32> {
    let mut all: Vec<u32> = (0..keys).collect();
    random.shuffle(&mut all);
    all
}

fn any_posts(keys: u32, random: &mut Random) -> Vec<(u32, u32, u64)> {
    (0..keys)
        .map(|_| {
            let (owner, amount) = any_value(random);
            (random.below(keys), owner, amount)
        })
        .collect()
}
