//! A table with its memory.

use std::ops::Range;

use crate::actions::{Actions, Row};
use crate::call::{Answer, Call, Key, Token, Value};
use crate::ffi::{self, Memory};
use crate::journal::{refusal, Journal, Stopped};
use crate::journal_ffi;
use crate::refusal::{NotCarriedOut, Refusal};

/// Places of the state's numbers.
const COUNT: usize = 0;
const OPEN: usize = 2;

/// A meter's table that owns its memory. Nothing is allocated after [`Meter::new`], but for the answers of
/// [`Meter::run`].
///
/// Methods have ena's names and take `&mut self` also where nothing changes: all of the table is lent to the archive.
#[derive(Clone, Debug)]
pub struct Meter {
    memory: Memory,
}

impl Meter {
    /// The most rows that a table can have.
    pub const ROWS_LIMIT: usize = 65_536;
    /// The most log entries that a table can have.
    pub const LOG_LIMIT: usize = 1_048_576;
    /// The most snapshots that can be open.
    pub const SNAPSHOTS_LIMIT: usize = 32;

    /// A fresh table with room for so many keys, and for so many log entries while a snapshot is open. Above the
    /// limits it is [`Refusal::BadState`].
    ///
    /// ```
    /// use meter::{Meter, Refusal};
    /// assert!(Meter::new(1_000, 4_000).is_ok());
    /// assert_eq!(Meter::new(65_537, 0).unwrap_err(), Refusal::BadState);
    /// ```
    pub fn new(rows: usize, log: usize) -> Result<Meter, Refusal> {
        if rows > Meter::ROWS_LIMIT || log > Meter::LOG_LIMIT {
            return Err(Refusal::BadState);
        }
        Ok(Meter {
            memory: Memory::fresh(rows, log),
        })
    }

    /// How many keys are live.
    pub fn len(&self) -> usize {
        self.memory.numbers[COUNT] as usize
    }

    /// Whether no key is live.
    pub fn is_empty(&self) -> bool {
        self.len() == 0
    }

    /// How many snapshots are open.
    pub fn num_open_snapshots(&self) -> usize {
        self.memory.numbers[OPEN] as usize
    }

    /// Whether a snapshot is open.
    pub fn in_snapshot(&self) -> bool {
        self.num_open_snapshots() > 0
    }

    /// A live key's row as it stands in memory.
    pub fn row(&self, key: Key) -> Option<Row> {
        let at = key.index() as usize;
        (at < self.len()).then(|| Row {
            parent: Key::from_index(self.memory.parents[at]),
            rank: self.memory.crowns[ffi::CROWN * at],
            value: Value::new(self.memory.crowns[ffi::CROWN * at + 1], self.memory.amounts[at]),
        })
    }

    /// A new key, a group of its own.
    pub fn new_key(&mut self, value: Value) -> Result<Key, Refusal> {
        Ok(self.ask(Call::New(value))?.key)
    }

    /// The root of the key's group: one key that stands for all of its keys.
    pub fn find(&mut self, key: Key) -> Result<Key, Refusal> {
        Ok(self.ask(Call::Find(key))?.key)
    }

    /// Whether two keys are of one group.
    pub fn unioned(&mut self, a: Key, b: Key) -> Result<bool, Refusal> {
        Ok(self.ask(Call::Unioned(a, b))?.yes)
    }

    /// Joins the groups of two keys. Amounts add; a named owner wins over none. Keys of one group already are left
    /// as they are.
    ///
    /// ```
    /// use meter::{Meter, Refusal, Value};
    /// let mut meter = Meter::new(2, 0)?;
    /// let a = meter.new_key(Value::new(7, 100))?;
    /// let b = meter.new_key(Value::new(8, 100))?;
    /// assert_eq!(meter.unify_var_var(a, b), Err(Refusal::OwnerClash));
    /// assert!(!meter.unioned(a, b)?);
    /// # Ok::<(), Refusal>(())
    /// ```
    pub fn unify_var_var(&mut self, a: Key, b: Key) -> Result<(), Refusal> {
        self.ask(Call::Join(a, b)).map(drop)
    }

    /// Posts a value to the key's group: it is merged with the group's as in a join.
    pub fn unify_var_value(&mut self, key: Key, value: Value) -> Result<(), Refusal> {
        self.ask(Call::Post(key, value)).map(drop)
    }

    /// The value of the key's group.
    pub fn probe_value(&mut self, key: Key) -> Result<Value, Refusal> {
        Ok(self.ask(Call::Probe(key))?.value)
    }

    /// The root of the key's group, and the group's value.
    pub fn probe_key_value(&mut self, key: Key) -> Result<(Key, Value), Refusal> {
        let answer = self.ask(Call::ProbeKey(key))?;
        Ok((answer.key, answer.value))
    }

    /// The group's value where the key is its root, without a walk; else nothing.
    pub fn try_probe_value(&mut self, key: Key) -> Result<Option<Value>, Refusal> {
        let answer = self.ask(Call::TryProbe(key))?;
        Ok(answer.yes.then_some(answer.value))
    }

    /// Opens a snapshot. Snapshots are ended innermost first.
    ///
    /// ```
    /// use meter::{Meter, Refusal, Value};
    /// let mut meter = Meter::new(8, 8)?;
    /// let a = meter.new_key(Value::new(0, 5))?;
    /// let outer = meter.snapshot()?;
    /// let inner = meter.snapshot()?;
    /// meter.unify_var_value(a, Value::new(9, 7))?;
    /// assert_eq!(meter.rollback_to(outer), Err(Refusal::NotInnermost));
    /// meter.commit(inner)?;
    /// assert_eq!(meter.probe_value(a)?, Value::new(9, 12));
    /// meter.rollback_to(outer)?;
    /// assert_eq!(meter.probe_value(a)?, Value::new(0, 5));
    /// # Ok::<(), Refusal>(())
    /// ```
    pub fn snapshot(&mut self) -> Result<Token, Refusal> {
        Ok(self.ask(Call::Snapshot)?.token)
    }

    /// Takes back all that happened since the innermost snapshot, and ends it. Keys made since are gone.
    pub fn rollback_to(&mut self, token: Token) -> Result<(), Refusal> {
        self.ask(Call::Rollback(token)).map(drop)
    }

    /// Ends the innermost snapshot and keeps what happened since. A snapshot further out can still take it back.
    pub fn commit(&mut self, token: Token) -> Result<(), Refusal> {
        self.ask(Call::Commit(token)).map(drop)
    }

    /// The keys made since an open snapshot.
    pub fn vars_since_snapshot(&mut self, token: Token) -> Result<Range<Key>, Refusal> {
        let answer = self.ask(Call::Keys(token))?;
        Ok(Key::from_index(answer.from)..Key::from_index(answer.to))
    }

    /// What was logged since an open snapshot, oldest first.
    ///
    /// ```
    /// use meter::{Meter, Refusal, UndoLog, Value};
    /// let mut meter = Meter::new(8, 8)?;
    /// let token = meter.snapshot()?;
    /// let key = meter.new_key(Value::new(3, 30))?;
    /// let actions: Vec<UndoLog> = meter.actions_since_snapshot(token)?.collect();
    /// assert_eq!(actions, [UndoLog::NewElem(key)]);
    /// # Ok::<(), Refusal>(())
    /// ```
    pub fn actions_since_snapshot(&mut self, token: Token) -> Result<Actions<'_>, Refusal> {
        let answer = self.ask(Call::Actions(token))?;
        Ok(Actions::new(&self.memory.log, answer.from as usize, answer.to as usize))
    }

    /// Whether anything was logged since an open snapshot.
    pub fn has_changes(&mut self, token: Token) -> Result<bool, Refusal> {
        Ok(self.ask(Call::Changes(token))?.yes)
    }

    fn ask(&mut self, call: Call) -> Result<Answer, Refusal> {
        self.call(call).done()
    }

    /// Carries out any call and gives all of its answer, the steps of its walks too.
    ///
    /// ```
    /// use meter::{Call, Meter, Refusal, Value};
    /// let mut meter = Meter::new(2, 0)?;
    /// let a = meter.new_key(Value::new(0, 1))?;
    /// let b = meter.new_key(Value::new(0, 2))?;
    /// meter.unify_var_var(a, b)?;
    /// let answer = meter.call(Call::ProbeKey(a));
    /// assert_eq!((answer.key, answer.value.amount, answer.steps), (b, 3, 1));
    /// # Ok::<(), Refusal>(())
    /// ```
    pub fn call(&mut self, call: Call) -> Answer {
        let mut answer = [0; ffi::ANSWER];
        NotCarriedOut::check(self.memory.call(&call.numbers(), &mut answer)).expect("a call by its type is always one");
        Answer::read(&answer)
    }

    /// Carries out a list of calls in one go, which is quicker than one by one. A refused call doesn't stop the list:
    /// its refusal stands in its answer.
    ///
    /// Calls by their type are always carried out, so an error would mean an archive of another layout.
    ///
    /// ```
    /// use meter::{Call, Key, Meter, Refusal, Value};
    /// let mut meter = Meter::new(2, 0)?;
    /// let (a, b) = (Key::from_index(0), Key::from_index(1));
    /// let calls = [
    ///     Call::New(Value::new(0, 1)),
    ///     Call::New(Value::new(7, 2)),
    ///     Call::Join(a, b),
    ///     Call::Probe(a),
    ///     Call::New(Value::default()),
    /// ];
    /// let answers = meter.run(&calls).unwrap();
    /// assert_eq!(answers[3].value, Value::new(7, 3));
    /// assert_eq!(answers[4].refusal, Some(Refusal::KeysFull));
    /// # Ok::<(), Refusal>(())
    /// ```
    pub fn run(&mut self, calls: &[Call]) -> Result<Vec<Answer>, NotCarriedOut> {
        let numbers: Vec<u64> = calls.iter().flat_map(|call| call.numbers()).collect();
        let mut answers = vec![0; ffi::ANSWER * calls.len()];
        self.run_numbers(&numbers, &mut answers)?;
        Ok(answers.chunks_exact(ffi::ANSWER).map(Answer::read).collect())
    }

    /// Carries out a list that is numbers already: four for each call, as [`Call::numbers`] gives them, and room for
    /// nine for each answer. Where the list isn't carried out nothing is written, neither to the table nor to the
    /// answers.
    ///
    /// ```
    /// use meter::{Meter, NotCarriedOut};
    /// let mut meter = Meter::new(1, 0).unwrap();
    /// let mut answers = [0; 18];
    /// let two = [0, 7, 500, 0, 6, 0, 0, 0]; // new(7, 500), probe(0)
    /// meter.run_numbers(&two, &mut answers).unwrap();
    /// assert_eq!(answers[9..], [0, 0, 0, 7, 500, 0, 0, 0, 0]);
    /// assert_eq!(meter.run_numbers(&two, &mut [0; 17]), Err(NotCarriedOut::NoAnswers));
    /// assert_eq!(meter.run_numbers(&two[1..], &mut answers), Err(NotCarriedOut::NoCall));
    /// ```
    pub fn run_numbers(&mut self, calls: &[u64], answers: &mut [u64]) -> Result<(), NotCarriedOut> {
        NotCarriedOut::check(self.memory.calls(calls, answers))
    }

    /// Carries out a list of calls as [`Meter::run`] does, and writes to the journal those that change the table and
    /// are done. Such a call is not carried out, and answers [`Refusal::BadJournal`], where the journal has another
    /// number of open snapshots than the meter; else [`Refusal::NoRoom`], where the journal has a limit that its entry
    /// would pass.
    ///
    /// ```
    /// use meter::{Call, Journal, Meter, Refusal, Value};
    /// let mut meter = Meter::new(1, 0)?;
    /// let mut journal = Journal::empty();
    /// let calls = [Call::New(Value::new(7, 5)), Call::New(Value::default()), Call::Len];
    /// let answers = meter.record(&mut journal, &calls).unwrap();
    /// assert_eq!(answers[1].refusal, Some(Refusal::KeysFull));
    /// assert_eq!((journal.len(), journal.waiting()), (1, 1)); // a refused call and a question aren't written
    /// # Ok::<(), Refusal>(())
    /// ```
    pub fn record(&mut self, journal: &mut Journal, calls: &[Call]) -> Result<Vec<Answer>, NotCarriedOut> {
        let mut answers = vec![0; ffi::ANSWER * calls.len()];
        journal.record(&mut self.memory, calls, &mut answers)?;
        Ok(answers.chunks_exact(ffi::ANSWER).map(Answer::read).collect())
    }

    /// Carries out the entries of a journal, and says how many they were. It stops at the first that isn't done. Into a
    /// fresh meter with as many rows, and with a log of 32 for each entry, it gives the groups, owners and amounts that
    /// the recorded meter had.
    ///
    /// ```
    /// use meter::{Entry, Journal, Meter, Refusal, Stopped, Value};
    /// let mut journal = Journal::empty();
    /// journal.append(&[Entry::New(Value::new(7, 5)), Entry::New(Value::new(0, 6))])?;
    /// assert_eq!(Meter::new(2, 0)?.replay(journal.bytes()), Ok(2));
    /// assert_eq!(Meter::new(1, 0)?.replay(journal.bytes()), Err(Stopped { refusal: Refusal::KeysFull, entry: 1 }));
    /// assert_eq!(Meter::new(2, 0)?.replay(b"?"), Err(Stopped { refusal: Refusal::BadJournal, entry: 0 }));
    /// # Ok::<(), Refusal>(())
    /// ```
    pub fn replay(&mut self, journal: &[u8]) -> Result<usize, Stopped> {
        let [no, entry] = journal_ffi::replay(&mut self.memory, journal);
        let entry = entry as usize;
        refusal(no).map_or(Ok(entry), |refusal| Err(Stopped { refusal, entry }))
    }
}
