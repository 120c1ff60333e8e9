//! Steps of interning a text, in each order in which two threads may take them, and how texts are spread over shards.

use super::shared::{shard_of, SHARDS};
use super::*;
use crate::erased::dedup::shown;
use crate::erased::hash::TextHasher as _;
use crate::erased::symbol::Symbol as _;
use crate::hasher::HasherAdapter;
use std::boxed::Box;
use std::format;
use std::string::{String, ToString as _};
use std::thread;
use std::time::{Duration, Instant};
use std::vec::Vec;

/// A text that is interned step by step.
struct Writer {
    text: &'static str,
    code: u64,
    number: Option<u32>,
    steps: usize,
}

impl Writer {
    fn new(names: &Interner, text: &'static str) -> Self {
        Writer {
            text,
            code: names.shared.code_of(text),
            number: None,
            steps: 0,
        }
    }

    /// Takes the next of three steps, in the order in which `Shard::intern` takes them.
    fn step(&mut self, names: &Interner) {
        let shard = shard_of(self.code);
        match self.steps {
            0 => {
                let taken = names.shared.take_number(names.memory.texts());
                self.number = Some(taken.unwrap().number);
            }
            1 => names.memory.with_locked(shard, |shard, mut store| {
                store.show(shard.insert(self.code, self.number.unwrap()));
            }),
            _ => names.memory.with_locked(shard, |_, mut store| {
                let (entry, ()) = store.keep(self.text, || Ok(())).unwrap();
                let room = store.texts().make_room(self.number.unwrap());
                entry.publish(room.unwrap());
            }),
        }
        self.steps += 1;
    }

    /// Compares what a thread that reads is told with the steps that were taken.
    fn check(&self, names: &Interner) {
        let number = self
            .number
            .and_then(|number| DefaultSymbol::try_from_usize(number as usize));
        // `resolve` waits for a text whose number is taken.
        let resolved = match self.steps {
            0 | 3 => number.and_then(|symbol| names.resolve(symbol)),
            _ => names.memory.texts().get(self.number.unwrap()),
        };
        assert_eq!(resolved, (self.steps > 2).then_some(self.text));
        // A number that has no text yet is passed.
        assert_eq!(names.get(self.text), number.filter(|_| self.steps > 2));
    }
}

/// All orders of three steps of each of two threads: bit `k` says which of them takes step `k`.
fn orders() -> impl Iterator<Item = u32> {
    (0..1_u32 << 6).filter(|order| order.count_ones() == 3)
}

#[test]
fn each_order_of_steps() {
    for order in orders() {
        let names = Interner::new();
        let mut writers = ["one", "other"].map(|text| Writer::new(&names, text));
        for step in 0..6 {
            writers[(order >> step & 1) as usize].step(&names);
            writers.iter().for_each(|writer| writer.check(&names));
            assert_eq!(
                names.len(),
                writers.iter().filter(|writer| writer.steps > 0).count()
            );
        }
        assert!(names
            .iter()
            .all(|(symbol, text)| names.get(text) == Some(symbol)));
        assert_eq!(names.iter().len(), 2);
    }
}

/// A text whose number is taken is about to be published. Whoever resolves the number waits for that.
#[test]
fn a_number_that_is_taken_is_waited_for() {
    let names = &Interner::new();
    thread::scope(|scope| {
        let reader = names.memory.with_locked(0, |_, mut store| {
            let texts = store.texts();
            let kept = store.keep("Tiger", || names.shared.take_number(texts));
            let (entry, taken) = kept.unwrap();
            let symbol = taken.symbol;
            let reader = scope.spawn(move || names.resolve(symbol));
            thread::sleep(Duration::from_millis(100));
            assert!(!reader.is_finished());
            entry.publish(taken.room);
            reader
        });
        assert_eq!(reader.join().unwrap(), Some("Tiger"));
    });
}

/// Many known texts are found together while another thread has each lock.
#[test]
fn many_known_texts_take_no_lock() {
    let texts: [String; 700] = std::array::from_fn(|number| format!("text {number}"));
    let names: &'static Interner = Box::leak(Box::default());
    let symbols = names.intern_all(&texts);
    let _held = names.memory.lock(u32::MAX);
    let reader = thread::spawn(move || names.intern_all(texts));
    let until = Instant::now() + Duration::from_secs(600);
    while !reader.is_finished() {
        assert!(Instant::now() < until, "it waits");
        thread::sleep(Duration::from_millis(5));
    }
    assert_eq!(reader.join().unwrap(), symbols);
}

/// No thread that has a shard will publish a text of this number. Who waits for it has had the lock of each, and does not go on waiting.
#[test]
fn nothing_is_waited_for_without_end() {
    let names: &'static Interner = Box::leak(Box::default());
    let taken = names.shared.take_number(names.memory.texts()).unwrap();
    let symbol = taken.symbol;
    let readers = [
        thread::spawn(move || names.resolve(symbol).is_some()),
        thread::spawn(move || names.iter().next().is_some()),
    ];
    let until = Instant::now() + Duration::from_secs(600);
    while !readers.iter().all(|reader| reader.is_finished()) {
        assert!(Instant::now() < until, "they wait");
        thread::sleep(Duration::from_millis(5));
    }
    assert!(readers.into_iter().all(|reader| reader.join().is_err()));
}

/// A look that began before its index grew finds all that was there when it began.
#[test]
fn a_look_goes_on_while_the_index_grows() {
    let names = Interner::new();
    let text_of = |number: usize| format!("text {number}");
    let mut looks = Vec::new();
    for number in 0..3_000 {
        let text = text_of(number);
        names.get_or_intern(&text);
        let code = names.shared.code_of(&text);
        // The words that the look has when the other thread goes on.
        looks.push((names.memory.table(shard_of(code)), code, text));
    }
    let texts = names.memory.texts();
    for (number, (table, code, text)) in looks.iter().enumerate() {
        let found = shown::look(table, texts, *code, text);
        assert_eq!(found.map(|symbol| symbol.to_usize()), Some(number));
        assert_eq!(shown::look(table, texts, *code, "unknown"), None);
    }
    // The first words of a shard were replaced many times.
    assert!(looks[0].0.len() < names.memory.table(shard_of(looks[0].1)).len());
}

#[test]
fn texts_are_spread_over_shards() {
    let families: [fn(usize) -> String; 6] = [
        |number| number.to_string(),
        |number| format!("{number:08}"),
        |number| format!("a long prefix of all texts {number}"),
        |number| format!("{number:x} with a long end that all texts have"),
        |number| "z".repeat(number),
        |number| char::from_u32(0x4E00 + number as u32).unwrap().to_string(),
    ];
    let hasher = HasherAdapter(DefaultHashBuilder);
    for (family, spell) in families.into_iter().enumerate() {
        let mut counts = [0; SHARDS];
        for number in 0..100 * SHARDS {
            counts[shard_of(hasher.hash_text(&spell(number)))] += 1;
        }
        // 100 in each in the mean. By chance none has this many.
        assert!(
            counts.iter().all(|count| *count < 200),
            "{family}: {counts:?}"
        );
    }
}
