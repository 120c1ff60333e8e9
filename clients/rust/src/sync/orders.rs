//! In which order threads see each other's writes. `tests/orders.rs` checks this page, for few texts and threads, in each order in
//! which they may run and read; the names in brackets are those of its steps.
//!
//! A thread that interns a new text holds the lock of its shard, and writes in this order:
//!
//! 1. the bytes of the text, where nobody else writes, and where they are, if the text stands in the list of long ones (`COPY`);
//! 2. the text's code and number, into an empty word of the shard's table, or of a larger one with all words of that (`PUT`);
//! 3. which table is shown, by [`RELEASE`], if it is a larger one (`SHOW`);
//! 4. where the bytes are, into an entry of the table of texts, by `RELEASE` (`PUBLISH`). From then on the text is known.
//!
//! A thread that looks a text up reads which table is shown by [`ACQUIRE`] (`LOOK`), then words of it (`WORD`), the entry of a number
//! by `ACQUIRE` (`ENTRY`), and the bytes. Whoever sees what a `RELEASE` wrote by an `ACQUIRE` also sees all that was written before. So
//! whoever finds an entry finds the bytes. A word orders nothing: a number that has no entry yet, or no room for one, is passed, since
//! its text is not known.
//!
//! A word that is not 0 and an entry are written once. So a thread that found the entry of a number finds its text, and so does one
//! that was told of the symbol by what synchronizes threads: a channel, a lock, or a store that releases and a load that acquires. It
//! sees the word that was written before, in the table that the number was put into, or in a later one, which has all its words. Words
//! before it are not 0, and stay. These are the words and texts that it is sure of, as `dedup/shown` of the proved library says: there
//! a look finds the number. A thread that was told by a relaxed store alone may find nothing.
//!
//! A call for many texts looks for all, and then holds the locks of all shards that it needs, while it adds one text after another. It
//! takes them in the order of the shards (`LOCK_ALL`), and nobody who has one waits for one before it. So no two wait for each other.
//!
//! Numbers are taken from the count of texts in no order with other writes (`TAKE`): what a number names is seen by its entry. Whoever
//! read a greater count waits for it. Once it has had the lock of each shard, it sees the entry: had it got a lock before the thread
//! that took the number, then that thread would have taken it after the count was read.

use std::sync::atomic::Ordering;

pub(super) const ACQUIRE: Ordering = Ordering::Acquire;
pub(super) const RELEASE: Ordering = Ordering::Release;
