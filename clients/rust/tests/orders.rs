//! The steps in which threads share an interner, for few texts and threads, in each order in which they may run and read. The page
//! `src/sync/orders.rs` has the argument that this checks, and names these steps. With an order that is weaker than those there, or a
//! step that is left out, something goes wrong, and is seen.
//!
//! Memory is that of C11, but for loads that would see what comes later in their own thread. A place is a list of messages, each with
//! the view that its writer released. A view has, of each place, the least message that a thread may still read. What is not atomic
//! has to be seen by whoever reads or overwrites it; otherwise it is a race. Each state that can be reached is visited once.
//!
//! There are two shards, whose tables have two words and then four. Segments have one entry, then two, then four.

use std::collections::hash_map::DefaultHasher;
use std::collections::HashSet;
use std::hash::{Hash, Hasher};

const TEXTS: usize = 3;
const SHARDS: usize = 2;
const THREADS: usize = 3;
/// How many words a table has, and how many of them may be filled.
const WORDS: [usize; 2] = [2, 4];
const ENTRIES: [usize; 2] = [1, 3];

/// What is right, and what would be wrong.
#[derive(Clone, Copy, PartialEq)]
enum Wrong {
    Nothing,
    EntryStoredRelaxed,
    EntryLoadedRelaxed,
    TableShownRelaxed,
    TableLoadedRelaxed,
    SegmentStoredRelaxed,
    SegmentLoadedRelaxed,
    ShardsAreNotLocked,
    SegmentsAreMadeWithoutALock,
    EntryBeforeWord,
    EntryBeforeTableIsShown,
    TableShownBeforeItIsFilled,
    OldTableIsFreed,
    WordsAreMoved,
    EmptyWordMeansNew,
    BytesAreNotCompared,
    NumberByLoadAndStore,
    NoRoomForTheNumber,
    WaitsForNoLock,
    LocksInTheOrderOfTexts,
}

use Wrong::*;

/// What a thread does: texts and numbers are from 0 on.
#[derive(Clone, Copy, Debug)]
enum Call {
    Intern(u8),
    /// Two texts, which are looked for before locks are taken.
    InternAll([u8; 2]),
    /// Memory is refused once the table has grown.
    Refused(u8),
    Get(u8),
    /// Sends the number that the last call returned, in an order.
    Send(bool),
    /// Takes a number, in an order, and resolves it. If it must be there, it is.
    Receive(bool),
    /// Looks the text up that was received.
    GetReceived,
    /// Resolves each number below `len`, and waits for what is not there.
    Iterate,
    /// Resolves a number that it was not told, and looks the text up.
    Peek(u8),
}

use Call::*;

/// Where a thread is within a call.
#[derive(Clone, Copy, PartialEq, Eq, Hash)]
enum Step {
    Begin,
    Look,
    Word,
    Segment,
    Entry,
    Lock,
    LockAll,
    Search,
    Grow,
    Fill,
    Copy,
    RoomSegment,
    RoomLock,
    RoomMake,
    Take,
    Put,
    Show,
    Publish,
    Unlock,
    UnlockAll,
    ResolveSegment,
    ResolveEntry,
    WaitLock,
}

// The places. Locks, tables and segments are 0, and otherwise which it is or which one comes, plus one.
const COUNT: usize = 0;
const MAIL: usize = 1;
const MAKER: usize = 2;
const LOCKS: usize = 3;
const GUARDED: usize = LOCKS + SHARDS;
const SHOWN: usize = GUARDED + SHARDS;
const ZEROS: usize = SHOWN + SHARDS;
const WORD: usize = ZEROS + 2 * SHARDS;
const SEGMENT: usize = WORD + 6 * SHARDS;
const SEGMENT_ZEROS: usize = SEGMENT + 3;
const ENTRY: usize = SEGMENT_ZEROS + 3 * THREADS;
const BYTES: usize = ENTRY + TEXTS + 1;
const PLACES: usize = BYTES + 3 * THREADS;

fn word(shard: usize, table: usize, at: usize) -> usize {
    WORD + 6 * shard + 2 * table + at
}

fn zeros(shard: usize, table: usize) -> usize {
    ZEROS + 2 * shard + table
}

fn segment_of(number: u8) -> usize {
    (number as usize + 1).ilog2() as usize
}

fn segment_zeros(segment: usize, maker: u8) -> usize {
    SEGMENT_ZEROS + THREADS * segment + maker as usize
}

type View = [u8; PLACES];

#[derive(Clone, Hash)]
struct Message {
    value: u8,
    view: Box<View>,
}

#[derive(Clone, Hash)]
struct Thread {
    call: u8,
    step: Step,
    text: u8,
    table: u8,
    at: u8,
    number: u8,
    count: u8,
    block: u8,
    maker: u8,
    /// Of the texts of a call: which comes now, and for each whether it was not found.
    turn: u8,
    missed: [bool; 2],
    /// What the call returns: a number plus one, or 0.
    returned: u8,
    received: u8,
    /// The numbers plus one of the texts of which the thread knows.
    known: [u8; TEXTS],
    view: Box<View>,
}

/// What the lock of a shard guards: the table, and the texts in it with their numbers.
#[derive(Clone, Default, Hash)]
struct Guarded {
    table: u8,
    texts: Vec<(u8, u8)>,
}

#[derive(Clone, Hash)]
struct State {
    memory: Vec<Vec<Message>>,
    guarded: [Guarded; SHARDS],
    threads: Vec<Thread>,
    /// The numbers plus one of all texts that a call returned.
    numbers: [u8; TEXTS],
}

struct Case {
    name: &'static str,
    scripts: &'static [&'static [Call]],
    shards: [usize; TEXTS],
    homes: [usize; TEXTS],
    codes: [u8; TEXTS],
}

type Found<T> = Result<T, String>;

impl State {
    fn new(case: &Case) -> State {
        let message = Message {
            value: 0,
            view: Box::new([0; PLACES]),
        };
        let thread = Thread {
            call: 0,
            step: Step::Begin,
            text: 0,
            table: 0,
            at: 0,
            number: 0,
            count: 0,
            block: 0,
            maker: 0,
            turn: 0,
            missed: [false; 2],
            returned: 0,
            received: 0,
            known: [0; TEXTS],
            view: Box::new([0; PLACES]),
        };
        State {
            memory: vec![vec![message]; PLACES],
            guarded: Default::default(),
            threads: vec![thread; case.scripts.len()],
            numbers: [0; TEXTS],
        }
    }

    fn last(&self, place: usize) -> u8 {
        self.memory[place].last().unwrap().value
    }

    fn read(&mut self, thread: usize, place: usize, message: usize, acquires: bool) -> u8 {
        let read = &self.memory[place][message];
        let view = &mut self.threads[thread].view;
        view[place] = view[place].max(message as u8);
        if acquires {
            let both = view.iter_mut().zip(read.view.iter());
            both.for_each(|(own, released)| *own = (*own).max(*released));
        }
        read.value
    }

    /// Returns the states after a load, each with what was read.
    fn load(&self, thread: usize, place: usize, acquires: bool) -> Vec<(State, u8)> {
        let least = self.threads[thread].view[place] as usize;
        let messages = least..self.memory[place].len();
        messages
            .map(|message| {
                let mut next = self.clone();
                let value = next.read(thread, place, message, acquires);
                (next, value)
            })
            .collect()
    }

    fn store(&mut self, thread: usize, place: usize, value: u8, releases: bool) {
        let message = self.memory[place].len() as u8;
        let own = &mut self.threads[thread].view;
        own[place] = message;
        let mut view = if releases {
            own.clone()
        } else {
            Box::new([0; PLACES])
        };
        view[place] = message;
        self.memory[place].push(Message { value, view });
    }

    /// Replaces the last message, whose view goes on.
    fn exchange(&mut self, thread: usize, place: usize, value: u8, acquires: bool) {
        let last = self.memory[place].len() - 1;
        self.read(thread, place, last, acquires);
        let before = self.memory[place][last].view.clone();
        self.store(thread, place, value, false);
        let both = self.memory[place].last_mut().unwrap();
        let views = both.view.iter_mut().zip(before.iter());
        views.for_each(|(own, before)| *own = (*own).max(*before));
    }

    /// Reads what is not atomic.
    fn see(&self, thread: usize, place: usize, what: &str) -> Found<u8> {
        let seen = self.threads[thread].view[place] as usize;
        if seen + 1 < self.memory[place].len() {
            return Err(format!("a race for {what}"));
        }
        Ok(self.last(place))
    }

    /// Writes what is not atomic.
    fn write(&mut self, thread: usize, place: usize, value: u8, what: &str) -> Found<()> {
        self.see(thread, place, what)?;
        self.store(thread, place, value, false);
        Ok(())
    }

    /// Goes on at another step.
    fn at(mut self, thread: usize, step: Step) -> State {
        self.threads[thread].step = step;
        self
    }
}

/// One thread's part of a state, from which it takes a step.
struct Turn<'a> {
    state: &'a State,
    case: &'a Case,
    wrong: Wrong,
    thread: usize,
}

impl Turn<'_> {
    fn me(&self) -> &Thread {
        &self.state.threads[self.thread]
    }

    fn call(&self) -> Option<Call> {
        self.case.scripts[self.thread]
            .get(self.me().call as usize)
            .copied()
    }

    fn shard(&self) -> usize {
        self.case.shards[self.me().text as usize]
    }

    fn home(&self) -> usize {
        self.case.homes[self.me().text as usize]
    }

    fn code(&self) -> u8 {
        self.case.codes[self.me().text as usize]
    }

    /// Whether a text that is not found is done with for now.
    fn only_looks(&self) -> bool {
        !matches!(self.call(), Some(Intern(_) | Refused(_)))
    }

    /// Ends what a call did for a text, with its number plus one, or 0.
    fn end(&self, state: State, returned: u8) -> Found<Vec<State>> {
        let mut state = self.note(state, returned)?;
        let me = &mut state.threads[self.thread];
        match self.call() {
            Some(InternAll(texts)) => Ok(vec![self.go_on(state, texts, returned == 0)]),
            _ => {
                me.call += 1;
                Ok(vec![state.at(self.thread, Step::Begin)])
            }
        }
    }

    /// Goes on with the next text of a call: looks for each, then takes the locks that are needed, then interns each that was missed.
    fn go_on(&self, mut state: State, texts: [u8; 2], is_missed: bool) -> State {
        let me = &mut state.threads[self.thread];
        let turn = me.turn as usize;
        let is_first = turn == 0;
        let next = match me.step {
            // It was interned.
            Step::Unlock => {
                let next = is_first && me.missed[1];
                me.turn += 1;
                if next {
                    Step::Search
                } else {
                    Step::UnlockAll
                }
            }
            // It was looked for.
            _ => {
                me.missed[turn] = is_missed;
                me.turn += 1;
                if is_first {
                    Step::Look
                } else {
                    Step::LockAll
                }
            }
        };
        if next == Step::LockAll {
            if me.missed == [false; 2] {
                (me.turn, me.call) = (0, me.call + 1);
                return state.at(self.thread, Step::Begin);
            }
            me.turn = u8::from(!me.missed[0]);
        }
        if let Some(text) = texts.get(me.turn as usize) {
            me.text = *text;
        }
        me.at = 0;
        state.at(self.thread, next)
    }

    /// Checks what was found of a text: its number plus one, or 0.
    fn note(&self, mut state: State, returned: u8) -> Found<State> {
        let me = &mut state.threads[self.thread];
        let text = me.text as usize;
        if me.known[text] != 0 && me.known[text] != returned {
            return Err(format!(
                "text {text} had {}, and has {returned}",
                me.known[text]
            ));
        }
        me.returned = returned;
        if returned > 0 {
            me.known[text] = returned;
            let numbers = &mut state.numbers;
            let is_other = (0..TEXTS).any(|other| other != text && numbers[other] == returned);
            if is_other || numbers[text] != 0 && numbers[text] != returned {
                return Err(format!("text {text} has {returned}, of {numbers:?}"));
            }
            numbers[text] = returned;
        }
        Ok(state)
    }

    /// Returns the states after this thread's next step: none if it waits or has ended.
    fn take(&self) -> Found<Vec<State>> {
        let Some(call) = self.call() else {
            return Ok(vec![]);
        };
        match self.me().step {
            Step::Begin => self.begin(call),
            Step::Look => self.look(),
            Step::Word => self.word(),
            Step::Segment => self.segment(),
            Step::Entry => self.entry(),
            Step::Lock => Ok(self.lock()),
            Step::Search => self.search(),
            Step::Grow => self.grow(),
            Step::Fill => self.fill(self.state.clone()),
            Step::RoomSegment => Ok(self.room_segment()),
            Step::RoomLock => Ok(self.room_lock()),
            Step::RoomMake => self.room_make(),
            Step::LockAll => Ok(self.lock_all()),
            Step::UnlockAll => Ok(self.unlock_all()),
            Step::Copy => self.copy(),
            Step::Take => Ok(self.take_number()),
            Step::Put => self.put(),
            Step::Show => Ok(self.show()),
            Step::Publish => self.publish(),
            Step::Unlock => self.unlock(),
            Step::ResolveSegment => self.resolve_segment(call),
            Step::ResolveEntry => self.resolve_entry(call),
            Step::WaitLock => Ok(self.wait_lock()),
        }
    }

    fn begin(&self, call: Call) -> Found<Vec<State>> {
        let mut state = self.state.clone();
        let me = &mut state.threads[self.thread];
        let returned = me.returned;
        match call {
            Intern(text) | Refused(text) | Get(text) | InternAll([text, _]) => {
                me.text = text;
                me.step = Step::Look;
            }
            GetReceived => {
                let known = me.known.iter().position(|number| *number == me.received);
                me.text = known.expect("it was resolved") as u8;
                me.step = Step::Look;
            }
            Send(releases) => {
                me.call += 1;
                state.store(self.thread, MAIL, returned, releases);
            }
            Peek(number) => {
                me.number = number;
                me.step = Step::ResolveSegment;
            }
            Receive(acquires) => {
                let loads = self.state.load(self.thread, MAIL, acquires).into_iter();
                let sent = loads.filter(|(_, value)| *value > 0);
                return Ok(sent
                    .map(|(state, value)| self.received(state, value))
                    .collect());
            }
            Iterate => {
                let loads = self.state.load(self.thread, COUNT, false).into_iter();
                return Ok(loads
                    .map(|(state, count)| self.counted(state, count))
                    .collect());
            }
        }
        Ok(vec![state])
    }

    fn received(&self, mut state: State, value: u8) -> State {
        let me = &mut state.threads[self.thread];
        (me.received, me.number) = (value, value - 1);
        state.at(self.thread, Step::ResolveSegment)
    }

    fn counted(&self, mut state: State, count: u8) -> State {
        let me = &mut state.threads[self.thread];
        (me.count, me.number) = (count, 0);
        if count == 0 {
            me.call += 1;
            return state;
        }
        state.at(self.thread, Step::ResolveSegment)
    }

    /// Goes on where no number is shown for the text.
    fn absent(&self, state: State) -> Found<Vec<State>> {
        if self.only_looks() {
            return self.end(state, 0);
        }
        Ok(vec![state.at(self.thread, Step::Lock)])
    }

    fn look(&self) -> Found<Vec<State>> {
        let acquires = self.wrong != TableLoadedRelaxed;
        let mut next = vec![];
        for (mut state, table) in self.state.load(self.thread, SHOWN + self.shard(), acquires) {
            let me = &mut state.threads[self.thread];
            (me.table, me.at) = (table, 0);
            match table {
                0 => next.extend(self.absent(state)?),
                _ => next.push(state.at(self.thread, Step::Word)),
            }
        }
        Ok(next)
    }

    /// Goes on with the next word, if there is one.
    fn pass(&self, mut state: State) -> Found<Vec<State>> {
        let me = &mut state.threads[self.thread];
        me.at += 1;
        if me.at as usize == WORDS[me.table as usize - 1] {
            return self.absent(state);
        }
        Ok(vec![state.at(self.thread, Step::Word)])
    }

    fn word(&self) -> Found<Vec<State>> {
        let (me, shard) = (self.me(), self.shard());
        let table = me.table as usize - 1;
        self.state
            .see(self.thread, zeros(shard, table), "a table")?;
        let at = (self.home() + me.at as usize) % WORDS[table];
        let mut next = vec![];
        for (mut state, value) in self.state.load(self.thread, word(shard, table, at), false) {
            if value == 0 {
                next.extend(self.absent(state)?);
            } else if value >> 4 != self.code() {
                next.extend(self.pass(state)?);
            } else if self.wrong == BytesAreNotCompared {
                next.extend(self.end(state, value & 15)?);
            } else {
                state.threads[self.thread].number = (value & 15) - 1;
                next.push(state.at(self.thread, Step::Segment));
            }
        }
        Ok(next)
    }

    fn load_segment(&self, number: u8) -> Vec<(State, u8)> {
        let acquires = self.wrong != SegmentLoadedRelaxed;
        let mut loads = self
            .state
            .load(self.thread, SEGMENT + segment_of(number), acquires);
        for (state, maker) in &mut loads {
            state.threads[self.thread].maker = *maker;
        }
        loads
    }

    fn load_entry(&self) -> Found<Vec<(State, u8)>> {
        let me = self.me();
        let made = segment_zeros(segment_of(me.number), me.maker - 1);
        self.state.see(self.thread, made, "a segment")?;
        let acquires = self.wrong != EntryLoadedRelaxed;
        let mut texts = vec![];
        let place = ENTRY + me.number as usize;
        for (state, block) in self.state.load(self.thread, place, acquires) {
            let text = match block {
                0 => 0,
                _ => state.see(self.thread, BYTES + block as usize - 1, "bytes")?,
            };
            texts.push((state, text));
        }
        Ok(texts)
    }

    fn segment(&self) -> Found<Vec<State>> {
        let mut next = vec![];
        for (state, maker) in self.load_segment(self.me().number) {
            match maker {
                0 => next.extend(self.pass(state)?),
                _ => next.push(state.at(self.thread, Step::Entry)),
            }
        }
        Ok(next)
    }

    fn entry(&self) -> Found<Vec<State>> {
        let me = self.me();
        let mut next = vec![];
        for (state, text) in self.load_entry()? {
            next.extend(match text == me.text + 1 {
                true => self.end(state, me.number + 1)?,
                false => self.pass(state)?,
            });
        }
        Ok(next)
    }

    fn lock(&self) -> Vec<State> {
        let lock = LOCKS + self.shard();
        if self.wrong == ShardsAreNotLocked {
            return vec![self.state.clone().at(self.thread, Step::Search)];
        }
        self.take_lock(lock, Step::Search)
    }

    /// Takes a lock if no thread has it, and goes on with a step.
    fn take_lock(&self, lock: usize, step: Step) -> Vec<State> {
        if self.state.last(lock) == 1 {
            return vec![];
        }
        let mut state = self.state.clone();
        state.exchange(self.thread, lock, 1, true);
        vec![state.at(self.thread, step)]
    }

    /// The proved index finds the text, or tells that it is new.
    fn search(&self) -> Found<Vec<State>> {
        let (me, shard) = (self.me(), self.shard());
        self.state
            .see(self.thread, GUARDED + shard, "what a lock guards")?;
        let mut state = self.state.clone();
        let texts = &self.state.guarded[shard].texts;
        let known = texts.iter().find(|(text, _)| *text == me.text);
        if let (Some((_, number)), true) = (known, self.wrong != EmptyWordMeansNew) {
            state.threads[self.thread].returned = number + 1;
            return Ok(vec![state.at(self.thread, Step::Unlock)]);
        }
        Ok(vec![state.at(self.thread, Step::Grow)])
    }

    /// The proved index makes a larger table, if one text more would be too many.
    fn grow(&self) -> Found<Vec<State>> {
        let (shard, mut state) = (self.shard(), self.state.clone());
        let guarded = &state.guarded[shard];
        let table = guarded.table;
        let is_full = table == 0 || guarded.texts.len() >= ENTRIES[table as usize - 1];
        if !is_full || table == 2 {
            return Ok(vec![state.at(self.thread, Step::Copy)]);
        }
        if self.wrong == TableShownBeforeItIsFilled {
            state.store(self.thread, SHOWN + shard, table + 1, true);
            return Ok(vec![state.at(self.thread, Step::Fill)]);
        }
        self.fill(state)
    }

    /// Fills the larger table with all texts.
    fn fill(&self, mut state: State) -> Found<Vec<State>> {
        let (me, shard) = (self.thread, self.shard());
        let table = state.guarded[shard].table as usize;
        state.write(me, zeros(shard, table), 1, "a table")?;
        for (text, number) in state.guarded[shard].texts.clone() {
            let (home, code) = (
                self.case.homes[text as usize],
                self.case.codes[text as usize],
            );
            let places = (0..4).map(|at| word(shard, table, (home + at) % WORDS[table]));
            let empty = places
                .clone()
                .find(|place| state.last(*place) == 0)
                .unwrap();
            state.store(me, empty, code << 4 | (number + 1), false);
        }
        if self.wrong == OldTableIsFreed && table > 0 {
            state.write(me, zeros(shard, table - 1), 2, "a table")?;
        }
        state.write(me, GUARDED + shard, 0, "what a lock guards")?;
        state.guarded[shard].table += 1;
        if let Some(Refused(_)) = self.call() {
            state.threads[me].returned = 0;
            return Ok(vec![state.at(me, Step::Unlock)]);
        }
        Ok(vec![state.at(me, Step::Copy)])
    }

    fn room_segment(&self) -> Vec<State> {
        let me = self.me();
        let makes = match self.wrong {
            SegmentsAreMadeWithoutALock => Step::RoomMake,
            _ => Step::RoomLock,
        };
        let loads = self.load_segment(me.count).into_iter();
        loads
            .map(|(state, maker)| {
                state.at(self.thread, if maker == 0 { makes } else { Step::Take })
            })
            .collect()
    }

    fn room_lock(&self) -> Vec<State> {
        self.take_lock(MAKER, Step::RoomMake)
    }

    /// Makes a segment, unless another thread has done so.
    fn room_make(&self) -> Found<Vec<State>> {
        let segment = segment_of(self.me().count);
        let mut next = vec![];
        for (mut state, maker) in self.state.load(self.thread, SEGMENT + segment, false) {
            if maker == 0 {
                if state.last(SEGMENT + segment) != 0 {
                    return Err("a segment takes the place of another".into());
                }
                let made = segment_zeros(segment, self.thread as u8);
                state.write(self.thread, made, 1, "a segment")?;
                let releases = self.wrong != SegmentStoredRelaxed;
                state.store(
                    self.thread,
                    SEGMENT + segment,
                    self.thread as u8 + 1,
                    releases,
                );
            }
            if self.wrong != SegmentsAreMadeWithoutALock {
                state.store(self.thread, MAKER, 0, true);
            }
            next.push(state.at(self.thread, Step::Take));
        }
        Ok(next)
    }

    fn copy(&self) -> Found<Vec<State>> {
        let me = self.me();
        let block = 3 * self.thread as u8 + (me.call + me.turn) % 3;
        let mut next = vec![];
        for (mut state, count) in self.state.load(self.thread, COUNT, false) {
            state.write(self.thread, BYTES + block as usize, me.text + 1, "bytes")?;
            let me = &mut state.threads[self.thread];
            (me.block, me.count) = (block + 1, count);
            let makes_room = self.wrong != NoRoomForTheNumber;
            next.push(state.at(
                self.thread,
                if makes_room {
                    Step::RoomSegment
                } else {
                    Step::Take
                },
            ));
        }
        Ok(next)
    }

    fn take_number(&self) -> Vec<State> {
        let count = self.me().count;
        let first = match self.wrong {
            EntryBeforeWord => Step::Publish,
            _ => Step::Put,
        };
        let mut next = vec![];
        let mut state = self.state.clone();
        state.threads[self.thread].number = count;
        if self.wrong == NumberByLoadAndStore {
            state.store(self.thread, COUNT, count + 1, false);
            return vec![state.at(self.thread, first)];
        }
        if self.state.last(COUNT) == count {
            state.exchange(self.thread, COUNT, count + 1, false);
            next.push(state.at(self.thread, first));
        }
        for (mut state, now) in self.state.load(self.thread, COUNT, false) {
            if now != count {
                state.threads[self.thread].count = now;
                let makes_room = self.wrong != NoRoomForTheNumber;
                next.push(state.at(
                    self.thread,
                    if makes_room {
                        Step::RoomSegment
                    } else {
                        Step::Take
                    },
                ));
            }
        }
        next
    }

    /// The proved index writes the first empty word from the text's home on.
    fn put(&self) -> Found<Vec<State>> {
        let (me, shard, mut state) = (self.me(), self.shard(), self.state.clone());
        state.write(self.thread, GUARDED + shard, 0, "what a lock guards")?;
        state.guarded[shard].texts.push((me.text, me.number));
        let table = state.guarded[shard].table as usize - 1;
        state.see(self.thread, zeros(shard, table), "a table")?;
        let places =
            (0..WORDS[table]).map(|at| word(shard, table, (self.home() + at) % WORDS[table]));
        let places: Vec<usize> = places.collect();
        let empty = places.iter().position(|place| state.last(*place) == 0);
        let empty = empty.ok_or("a table is full")?;
        let own = self.code() << 4 | (me.number + 1);
        if self.wrong == WordsAreMoved && empty > 0 {
            let moved = state.last(places[0]);
            state.store(self.thread, places[empty], moved, false);
            state.store(self.thread, places[0], own, false);
        } else {
            state.store(self.thread, places[empty], own, false);
        }
        let after = match self.wrong {
            EntryBeforeTableIsShown => Step::Publish,
            _ => Step::Show,
        };
        Ok(vec![state.at(self.thread, after)])
    }

    /// Shows the table, if it is a larger one.
    fn show(&self) -> Vec<State> {
        let (shard, mut state) = (self.shard(), self.state.clone());
        let table = state.guarded[shard].table;
        if state.last(SHOWN + shard) != table {
            state.store(
                self.thread,
                SHOWN + shard,
                table,
                self.wrong != TableShownRelaxed,
            );
        }
        let published = matches!(self.wrong, EntryBeforeWord | EntryBeforeTableIsShown);
        let after = if published {
            Step::Unlock
        } else {
            Step::Publish
        };
        vec![state.at(self.thread, after)]
    }

    fn publish(&self) -> Found<Vec<State>> {
        let mut next = vec![];
        for (mut state, maker) in self.load_segment(self.me().number) {
            let me = state.threads[self.thread].clone();
            if maker == 0 {
                return Err("there is no room for an entry".into());
            }
            let made = segment_zeros(segment_of(me.number), maker - 1);
            state.see(self.thread, made, "a segment")?;
            let entry = ENTRY + me.number as usize;
            if state.last(entry) != 0 {
                return Err("an entry is written twice".into());
            }
            state.store(
                self.thread,
                entry,
                me.block,
                self.wrong != EntryStoredRelaxed,
            );
            state.threads[self.thread].returned = me.number + 1;
            next.push(state.at(
                self.thread,
                match self.wrong {
                    EntryBeforeWord => Step::Put,
                    EntryBeforeTableIsShown => Step::Show,
                    _ => Step::Unlock,
                },
            ));
        }
        Ok(next)
    }

    /// Takes the next lock that the texts of a call need, which it missed: that of the first shard.
    fn lock_all(&self) -> Vec<State> {
        let (me, mut state) = (self.me(), self.state.clone());
        let mut shards = self.shards_missed();
        if self.wrong != LocksInTheOrderOfTexts {
            shards.sort();
        }
        shards.dedup();
        let Some(shard) = shards.get(me.at as usize) else {
            return vec![state.at(self.thread, Step::Search)];
        };
        if state.last(LOCKS + shard) == 1 {
            return vec![];
        }
        state.exchange(self.thread, LOCKS + shard, 1, true);
        state.threads[self.thread].at += 1;
        vec![state]
    }

    /// The shards of the texts of a call that were missed.
    fn shards_missed(&self) -> Vec<usize> {
        let Some(InternAll(texts)) = self.call() else {
            return vec![];
        };
        let missed = texts.iter().zip(self.me().missed).filter(|it| it.1);
        missed
            .map(|(text, _)| self.case.shards[*text as usize])
            .collect()
    }

    /// Gives the locks back, one after another.
    fn unlock_all(&self) -> Vec<State> {
        let mut state = self.state.clone();
        let held = (0..SHARDS).filter(|shard| self.shards_missed().contains(shard));
        let held: Vec<usize> = held.collect();
        let me = &mut state.threads[self.thread];
        let Some(shard) = held.get(me.at as usize) else {
            (me.turn, me.at, me.call) = (0, 0, me.call + 1);
            return vec![state.at(self.thread, Step::Begin)];
        };
        me.at += 1;
        state.store(self.thread, LOCKS + shard, 0, true);
        vec![state]
    }

    fn unlock(&self) -> Found<Vec<State>> {
        if let Some(InternAll(_)) = self.call() {
            return self.end(self.state.clone(), self.me().returned);
        }
        let mut state = self.state.clone();
        if self.wrong != ShardsAreNotLocked {
            state.store(self.thread, LOCKS + self.shard(), 0, true);
        }
        if self.me().returned == 0 {
            state.threads[self.thread].call += 1;
            return Ok(vec![state.at(self.thread, Step::Begin)]);
        }
        self.end(state, self.me().returned)
    }

    fn resolve_segment(&self, call: Call) -> Found<Vec<State>> {
        let mut next = vec![];
        for (state, maker) in self.load_segment(self.me().number) {
            match maker {
                0 => next.extend(self.resolved(state, call, 0)?),
                _ => next.push(state.at(self.thread, Step::ResolveEntry)),
            }
        }
        Ok(next)
    }

    fn resolve_entry(&self, call: Call) -> Found<Vec<State>> {
        let mut next = vec![];
        for (state, text) in self.load_entry()? {
            next.extend(self.resolved(state, call, text)?);
        }
        Ok(next)
    }

    /// Takes the lock of one shard after another for a moment, as many as `at` says, and then resolves once more.
    fn wait_lock(&self) -> Vec<State> {
        let shard = self.me().at as usize;
        let mut state = self.state.clone();
        if shard == SHARDS || self.wrong == WaitsForNoLock {
            state.threads[self.thread].at = SHARDS as u8 + 1;
            return vec![state.at(self.thread, Step::ResolveSegment)];
        }
        if state.last(LOCKS + shard) == 1 {
            return vec![];
        }
        state.exchange(self.thread, LOCKS + shard, 1, true);
        state.store(self.thread, LOCKS + shard, 0, true);
        state.threads[self.thread].at += 1;
        vec![state]
    }

    /// Goes on after a number was resolved to a text plus one, or to 0.
    fn resolved(&self, mut state: State, call: Call, text: u8) -> Found<Vec<State>> {
        let me = &mut state.threads[self.thread];
        if text == 0 {
            return match call {
                Receive(true) => Err("what was received has no text".into()),
                Iterate if me.at as usize > SHARDS => Err("it was waited for in vain".into()),
                Iterate => {
                    me.at = 0;
                    Ok(vec![state.at(self.thread, Step::WaitLock)])
                }
                _ => {
                    me.call += if let Receive(_) = call { 2 } else { 1 };
                    Ok(vec![state.at(self.thread, Step::Begin)])
                }
            };
        }
        let (text, number) = (text as usize - 1, me.number + 1);
        if me.known[text] != 0 && me.known[text] != number {
            return Err(format!("text {text} has {number}, and {}", me.known[text]));
        }
        me.known[text] = number;
        me.at = 0;
        if let Peek(_) = call {
            me.text = text as u8;
            return Ok(vec![state.at(self.thread, Step::Look)]);
        }
        if let Iterate = call {
            me.number += 1;
            if me.number < me.count {
                return Ok(vec![state.at(self.thread, Step::ResolveSegment)]);
            }
        }
        me.call += 1;
        Ok(vec![state.at(self.thread, Step::Begin)])
    }
}

/// Checks a state in which no thread can go on.
fn check_end(state: &State, case: &Case) -> Found<()> {
    for (thread, script) in state.threads.iter().zip(case.scripts) {
        if (thread.call as usize) < script.len() {
            return Err("a thread waits for ever".into());
        }
    }
    let texts = state.guarded.iter().flat_map(|guarded| &guarded.texts);
    let mut numbers: Vec<u8> = texts.clone().map(|(_, number)| *number).collect();
    numbers.sort();
    if !numbers.iter().copied().eq(0..state.last(COUNT)) {
        return Err(format!("the numbers are {numbers:?}"));
    }
    for (text, number) in texts {
        let block = state.last(ENTRY + *number as usize);
        if block == 0 || state.last(BYTES + block as usize - 1) != text + 1 {
            return Err(format!("{number} is not the number of text {text}"));
        }
    }
    Ok(())
}

fn key_of(state: &State) -> u128 {
    let half = |seed: u8| {
        let mut hasher = DefaultHasher::new();
        (seed, state).hash(&mut hasher);
        u128::from(hasher.finish())
    };
    half(0) << 64 | half(1)
}

/// Visits each state that can be reached, and returns how many there are.
fn explore(case: &Case, wrong: Wrong) -> Found<usize> {
    let first = State::new(case);
    let mut seen = HashSet::from([key_of(&first)]);
    let mut open = vec![first];
    while let Some(state) = open.pop() {
        let mut moves = false;
        for thread in 0..case.scripts.len() {
            let turn = Turn {
                state: &state,
                case,
                wrong,
                thread,
            };
            for next in turn.take()? {
                moves = true;
                if seen.insert(key_of(&next)) {
                    open.push(next);
                }
            }
        }
        if !moves {
            check_end(&state, case)?;
        }
    }
    Ok(seen.len())
}

const SAME: ([usize; TEXTS], [usize; TEXTS], [u8; TEXTS]) = ([0; 3], [0; 3], [1; 3]);
const APART: ([usize; TEXTS], [usize; TEXTS], [u8; TEXTS]) = ([0, 1, 0], [0; 3], [1; 3]);
const OTHER_CODES: ([usize; TEXTS], [usize; TEXTS], [u8; TEXTS]) = ([0; 3], [0, 1, 0], [1, 2, 3]);

const fn case(
    name: &'static str,
    (shards, homes, codes): ([usize; TEXTS], [usize; TEXTS], [u8; TEXTS]),
    scripts: &'static [&'static [Call]],
) -> Case {
    Case {
        name,
        scripts,
        shards,
        homes,
        codes,
    }
}

const CASES: &[Case] = &[
    case(
        "a text that both intern",
        SAME,
        &[&[Intern(0), Get(0)], &[Intern(0), Get(0)]],
    ),
    case(
        "two texts of one code, while the index grows",
        SAME,
        &[&[Intern(0), Intern(1)], &[Intern(1), Intern(0)]],
    ),
    case(
        "two shards",
        APART,
        &[&[Intern(0), Get(1)], &[Intern(1), Get(0)]],
    ),
    case(
        "three texts of one code",
        SAME,
        &[&[Intern(0), Intern(1), Get(2)], &[Intern(2), Get(0)]],
    ),
    case(
        "three texts of other codes",
        OTHER_CODES,
        &[&[Intern(0), Intern(1)], &[Intern(2), Get(0), Get(1)]],
    ),
    case(
        "a symbol by a channel",
        SAME,
        &[
            &[Intern(0), Intern(1), Send(true)],
            &[Receive(true), GetReceived],
        ],
    ),
    case(
        "a symbol by a relaxed atomic",
        SAME,
        &[
            &[Intern(0), Intern(1), Send(false)],
            &[Receive(false), GetReceived],
        ],
    ),
    case(
        "what was resolved is found, while the index grows",
        SAME,
        &[&[Intern(0), Intern(1)], &[Peek(0), Peek(1)]],
    ),
    case(
        "what was resolved is found, while words are filled",
        SAME,
        &[&[Intern(0), Intern(1), Intern(2)], &[Peek(1)]],
    ),
    case(
        "what was resolved is found, in words of other codes",
        OTHER_CODES,
        &[&[Intern(0), Intern(2)], &[Peek(0), Get(0)]],
    ),
    case(
        "memory is refused once the index has grown",
        SAME,
        &[&[Refused(0), Intern(1)], &[Intern(0), Get(1)]],
    ),
    case(
        "it has grown, and is shown by another thread",
        SAME,
        &[&[Intern(0), Refused(1)], &[Peek(0), Intern(1), Get(0)]],
    ),
    case(
        "iterating, while others intern",
        APART,
        &[&[Intern(0)], &[Intern(1)], &[Iterate]],
    ),
    case(
        "three threads, one text",
        SAME,
        &[&[Intern(0)], &[Intern(0)], &[Intern(0)]],
    ),
    case(
        "one interns, one sends what it found, one reads",
        SAME,
        &[
            &[Intern(0)],
            &[Intern(0), Send(true)],
            &[Receive(true), GetReceived],
        ],
    ),
    case(
        "two texts of two shards at once",
        APART,
        &[&[InternAll([0, 1]), Get(1)], &[InternAll([1, 0]), Get(0)]],
    ),
    case(
        "two texts of one shard at once, while another thread interns one",
        SAME,
        &[&[InternAll([0, 1])], &[Intern(1), Get(0)]],
    ),
    case(
        "one text twice at once, while another thread interns it",
        SAME,
        &[&[InternAll([0, 0])], &[Intern(0), Get(0)]],
    ),
    case(
        "iterating, while two texts are interned at once",
        APART,
        &[&[InternAll([0, 1])], &[Iterate], &[Get(1)]],
    ),
    case(
        "two texts of one shard, and looks",
        SAME,
        &[&[Intern(0)], &[Intern(1)], &[Get(0), Get(0)]],
    ),
];

#[test]
#[cfg_attr(debug_assertions, ignore = "it takes minutes")]
fn the_orders_suffice() {
    for case in CASES {
        let states =
            explore(case, Nothing).unwrap_or_else(|wrong| panic!("{}: {wrong}", case.name));
        println!("{states} states: {}", case.name);
    }
}

/// Each order is needed, and each step.
#[test]
#[cfg_attr(debug_assertions, ignore = "it takes minutes")]
fn what_is_left_out_is_seen() {
    for (name, wrong) in [
        ("an entry is stored relaxed", EntryStoredRelaxed),
        ("an entry is loaded relaxed", EntryLoadedRelaxed),
        ("a table is shown relaxed", TableShownRelaxed),
        ("which table is shown is loaded relaxed", TableLoadedRelaxed),
        ("a segment is stored relaxed", SegmentStoredRelaxed),
        ("a segment is loaded relaxed", SegmentLoadedRelaxed),
        ("shards are not locked", ShardsAreNotLocked),
        (
            "segments are made without a lock",
            SegmentsAreMadeWithoutALock,
        ),
        ("an entry comes before its word", EntryBeforeWord),
        (
            "an entry comes before its table is shown",
            EntryBeforeTableIsShown,
        ),
        (
            "a table is shown before it is filled",
            TableShownBeforeItIsFilled,
        ),
        ("an old table is freed", OldTableIsFreed),
        ("words are moved", WordsAreMoved),
        ("an empty word means that a text is new", EmptyWordMeansNew),
        ("bytes are not compared", BytesAreNotCompared),
        (
            "a number is taken by a load and a store",
            NumberByLoadAndStore,
        ),
        (
            "no room is made for the number that is taken",
            NoRoomForTheNumber,
        ),
        ("who waits takes no lock", WaitsForNoLock),
        (
            "locks are taken in the order of texts",
            LocksInTheOrderOfTexts,
        ),
    ] {
        let seen = CASES.iter().find_map(|case| explore(case, wrong).err());
        println!("{name}: {}", seen.as_deref().unwrap_or("not seen"));
        assert!(seen.is_some(), "{name}");
    }
}
