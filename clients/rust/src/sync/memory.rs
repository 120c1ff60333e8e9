//! All of a shared interner that is unsafe: arrays and words that are read while they grow, and texts that are lent without a lock.
//!
//! Nothing is moved or freed that a thread may still read: only a call that takes `&mut self` frees, and what is lent borrows the whole.
//! Why a read finds what lies behind a pointer, [`orders`](super::orders) says. What is unsafe here rests on:
//!
//! - **Boxes**: an array's pointer is to a box that was taken apart, and is put together again to be dropped. Its length follows from
//!   its place among the others.
//! - **Words**: what threads are shown of a shard are the words of a list of its own, taken apart into a name. Only `&mut` of the whole,
//!   or its end, puts one together again.
//! - **Bytes**: an entry is made of a text that is static or in a block of bytes. These live as long as the table of entries, because
//!   [`Memory`] has both, and lends the bytes only as a [`Store`], which cannot take them away. The bytes of a block never move, are
//!   handed out once, and no call changes a text once there is an entry for it.
//! - **Zeros**: items of an array are made of bytes that are 0, which are a value of [each such type](Zeroed).
//!
//! An interner without texts is all bytes of 0, so that a `static` takes no room in the program's file.
//!
//! An entry of the table has eight bytes: the address of a text of less than 2¹⁶ − 1 bytes, shifted by 16 bits, and one more than its
//! length. A text that is longer, or whose address has more than 48 bits, stands in a list of its own, and the entry has one more than
//! its number there, and no length. If a `usize` has 32 bits, an entry has the address and the length of any text.

#![allow(unsafe_code)]

use super::orders::{ACQUIRE, RELEASE};
use super::shard::Shard;
use super::shared::SHARDS;
use crate::error::InternError;
use crate::rt::words::{parts_of_name, size_of_words, Word, Words};
use crate::unchecked::ask_for;
use core::hint::assert_unchecked;
use core::marker::PhantomData;
use core::ptr::NonNull;
use core::{array, mem, ptr, slice, str};
use std::alloc::{alloc, alloc_zeroed, dealloc, Layout};
use std::boxed::Box;
#[cfg(target_pointer_width = "64")]
use std::sync::atomic::AtomicU32;
use std::sync::atomic::{
    AtomicPtr, AtomicUsize,
    Ordering::{self, Relaxed},
};
use std::sync::{Mutex, MutexGuard, PoisonError};
use std::thread;

/// How many bytes are in use, and how many of all may not be.
pub(super) struct Budget {
    used: AtomicUsize,
    forbidden: AtomicUsize,
}

impl Budget {
    const fn new() -> Self {
        Budget {
            used: AtomicUsize::new(0),
            forbidden: AtomicUsize::new(0),
        }
    }

    /// Counts so many bytes more, unless that would pass the limit.
    fn take(&self, bytes: usize) -> Result<(), InternError> {
        let limit = usize::MAX - self.forbidden.load(Relaxed);
        let add = |used: usize| used.checked_add(bytes).filter(|used| *used <= limit);
        match self.used.fetch_update(Relaxed, Relaxed, add) {
            Ok(_) => Ok(()),
            Err(_) => Err(InternError::Memory),
        }
    }

    /// Counts so many bytes less.
    fn give_back(&self, bytes: usize) {
        self.used.fetch_sub(bytes, Relaxed);
    }

    /// Makes a call for which so many bytes are counted, unless it fails.
    fn spend<T, E>(
        &self,
        bytes: usize,
        call: impl FnOnce() -> Result<T, E>,
    ) -> Result<T, InternError> {
        self.take(bytes)?;
        call().map_err(|_| {
            self.give_back(bytes);
            InternError::Memory
        })
    }
}

/// The first two segments have so many items each, and each later one as many as all before.
const FIRST: u32 = 64;

/// So many segments have an item for each number of 32 bits.
const SEGMENTS: usize = 27;

/// A type whose bytes may all be 0.
///
/// # Safety
///
/// Such bytes are a value of it.
unsafe trait Zeroed {}

#[cfg(target_pointer_width = "64")]
// SAFETY: null.
unsafe impl Zeroed for AtomicPtr<u8> {}

/// Items by number, made of bytes that are 0, which never move.
struct Segments<T> {
    /// Each segment by [`name_of`], or null.
    segments: [AtomicPtr<T>; SEGMENTS],
    /// Its lock is held by who makes a segment.
    maker: Mutex<()>,
    items: PhantomData<Box<[T]>>,
}

/// Makes items, if memory for them is granted. The system has no pages for a large array until they are written to.
fn make_items<T: Zeroed>(count: usize) -> Result<Box<[T]>, InternError> {
    let layout = Layout::array::<T>(count).map_err(|_| InternError::Memory)?;
    assert_ne!(layout.size(), 0);
    // SAFETY: the size is not 0.
    let items = unsafe { alloc_zeroed(layout) }.cast::<T>();
    if items.is_null() {
        return Err(InternError::Memory);
    }
    // SAFETY: a box of so many items has this layout, and the bytes are 0.
    Ok(unsafe { Box::from_raw(ptr::slice_from_raw_parts_mut(items, count)) })
}

/// Drops items.
///
/// # Safety
///
/// They were a box of so many items, and nobody has or gets them any more.
unsafe fn drop_items<T>(items: *mut T, count: usize) {
    // SAFETY: this is the box that was taken apart.
    drop(unsafe { Box::from_raw(ptr::slice_from_raw_parts_mut(items, count)) });
}

/// Returns the segment of a number. The difference is a `usize` from the start, which saves an instruction.
#[inline(always)]
fn segment_of(number: u32) -> usize {
    (number | (FIRST - 1)).ilog2() as usize - (FIRST - 1).ilog2() as usize
}

/// Returns the numbers of a segment's items: the first, and how many there are.
fn numbers_of(segment: usize) -> (usize, usize) {
    let half = FIRST as usize / 2;
    let first = (half << segment) & !half;
    (first, first.max(FIRST as usize))
}

/// Returns the pointer by which a segment's items are found: that of the number 0, so that who reads one computes nothing more, and
/// one byte behind, so that it is not null.
fn name_of<T>(items: *mut T, first: usize) -> *mut T {
    items.wrapping_sub(first).wrapping_byte_add(1)
}

/// Returns where the item of a number is, in a segment of this name.
#[inline(always)]
fn item_at<T>(name: *mut T, number: usize) -> *mut T {
    name.wrapping_byte_sub(1).wrapping_add(number)
}

impl<T> Segments<T> {
    const fn new() -> Self {
        Segments {
            segments: [const { AtomicPtr::new(ptr::null_mut()) }; SEGMENTS],
            maker: Mutex::new(()),
            items: PhantomData,
        }
    }
}

impl<T: Zeroed> Segments<T> {
    /// Makes room for the item of a number, and returns it. Any thread may call it at any time.
    #[inline(always)]
    fn make_room(&self, number: u32, budget: &Budget) -> Result<&T, InternError> {
        match self.get(number) {
            Some(item) => Ok(item),
            None => {
                self.add(segment_of(number), budget)?;
                Ok(self.get(number).expect("there is room"))
            }
        }
    }

    /// Makes room for the items of a number and of all below.
    fn make_room_up_to(&self, number: u32, budget: &Budget) -> Result<(), InternError> {
        (0..=segment_of(number)).try_for_each(|segment| self.add(segment, budget))
    }

    /// Adds a segment, unless another thread has done so. One thread makes it while the others wait, because memory for one may be
    /// all that there is.
    #[cold]
    fn add(&self, segment: usize, budget: &Budget) -> Result<(), InternError> {
        let _held = self.maker.lock().unwrap_or_else(PoisonError::into_inner);
        let place = &self.segments[segment];
        if place.load(Relaxed).is_null() {
            let (first, count) = numbers_of(segment);
            let bytes = count.saturating_mul(size_of::<T>());
            let items = budget.spend(bytes, || make_items::<T>(count))?;
            let items = Box::into_raw(items).cast::<T>();
            place.store(name_of(items, first), RELEASE);
        }
        Ok(())
    }

    /// Returns the item of a number, if room was made for it.
    #[inline(always)]
    fn get(&self, number: u32) -> Option<&T> {
        let name = self.segments[segment_of(number)].load(ACQUIRE);
        if name.is_null() {
            return None;
        }
        let item = item_at(name, number as usize);
        // SAFETY: the number is one of those of the segment's items. These are not at null, and stay until `self` is dropped.
        unsafe {
            assert_unchecked(!item.is_null());
            Some(&*item)
        }
    }
}

impl<T> Drop for Segments<T> {
    fn drop(&mut self) {
        for (segment, name) in self.segments.iter_mut().enumerate() {
            let (name, (first, count)) = (*name.get_mut(), numbers_of(segment));
            if !name.is_null() {
                // SAFETY: `add` made them, and whoever drops `self` has it alone.
                unsafe { drop_items(item_at(name, first), count) };
            }
        }
    }
}

/// Returns the numbers in words, with the low 32 bits of the codes of their texts, as `item_of` in `dedup/words` of the proved library
/// reads them.
fn items_in(words: impl Iterator<Item = u64>) -> impl Iterator<Item = (u32, u32)> {
    let words = words.filter(|word| *word != 0);
    words.map(|word| (word as u32 - 1, (word >> 32) as u32))
}

/// The same of the words of a list.
pub(super) fn items_of(words: &Words) -> impl Iterator<Item = (u32, u32)> + '_ {
    items_in(words.as_slice().iter().map(Word::load))
}

/// The words of a shard that threads are shown, by the name of a list of them, which remembers the one that was shown before.
struct Shown(AtomicPtr<Word>);

/// Words that threads read.
#[derive(Clone, Copy)]
pub(super) struct Table<'a> {
    words: *const Word,
    count: usize,
    shown: PhantomData<&'a Shown>,
}

impl Table<'_> {
    /// Returns how many words there are.
    #[inline(always)]
    pub(super) fn len(self) -> usize {
        self.count
    }

    /// Returns a word.
    #[inline(always)]
    pub(super) fn load(self, at: usize) -> u64 {
        assert!(at < self.count);
        // SAFETY: there are more than `at`, and they stay, as `Shown::table` says.
        unsafe { &*self.words.add(at) }.load()
    }

    /// Has the processor fetch a word.
    #[inline(always)]
    pub(super) fn ask_for(self, at: usize) {
        assert!(at < self.count);
        // SAFETY: as above.
        ask_for(slice::from_ref(unsafe { &*self.words.add(at) }), 0);
    }
}

impl Shown {
    const fn new() -> Self {
        Shown(AtomicPtr::new(ptr::null_mut()))
    }

    /// Returns the words that are shown: those of a list that `self` has until `&mut` takes it away.
    #[inline(always)]
    fn table(&self) -> Table<'_> {
        let (words, count) = parts_of_name(self.0.load(ACQUIRE));
        Table {
            words,
            count,
            shown: PhantomData,
        }
    }

    /// Shows words, which are not those that are shown, from now on. One thread at a time calls this.
    #[cold]
    fn show(&self, words: &Words) {
        let before = self.0.load(Relaxed);
        self.0.store(words.share().into_name(before), RELEASE);
    }

    /// Takes the lists of this name and of those that were shown before away, and calls with each.
    ///
    /// # Safety
    ///
    /// Nobody has a table of them, and `self` has the name no longer.
    unsafe fn take(mut name: *mut Word, mut call: impl FnMut(Words)) {
        // SAFETY: `show` took the list apart, and whoever calls has it alone.
        while let Some((words, before)) = unsafe { Words::of_name(name) } {
            name = before;
            call(words);
        }
    }

    /// Drops the words that were shown before, and calls with the size of each list.
    fn forget_old(&mut self, mut call: impl FnMut(usize)) {
        let name = mem::replace(self.0.get_mut(), ptr::null_mut());
        // SAFETY: `self` had the name until now, and nobody has a table of what is borrowed as `&mut`.
        if let Some((words, before)) = unsafe { Words::of_name(name) } {
            *self.0.get_mut() = words.into_name(ptr::null_mut());
            // SAFETY: as above.
            unsafe { Self::take(before, |words| call(words.size())) };
        }
    }
}

impl Drop for Shown {
    fn drop(&mut self) {
        // SAFETY: whoever drops `self` has it alone.
        unsafe { Self::take(*self.0.get_mut(), drop) };
    }
}

#[cfg(target_pointer_width = "64")]
const LENGTH_BITS: u32 = 16;

/// What an entry has in these bits, where a text has one more than its length.
#[cfg(target_pointer_width = "64")]
const LENGTH: usize = (1 << LENGTH_BITS) - 1;

/// Where the bytes of a text are: null before it is written, which is done once.
struct Place {
    bytes: AtomicPtr<u8>,
    len: AtomicUsize,
}

// SAFETY: null, and a number.
unsafe impl Zeroed for Place {}

impl Place {
    #[inline]
    fn set(&self, text: &'static str, order: Ordering) {
        self.len.store(text.len(), Relaxed);
        self.bytes.store(text.as_ptr().cast_mut(), order);
    }

    /// Lends the text, if there is one.
    ///
    /// # Safety
    ///
    /// Whoever sees the address sees the length, and the bytes stay as long as they are lent.
    #[inline(always)]
    unsafe fn get<'a>(&self, order: Ordering) -> Option<&'a str> {
        let bytes = self.bytes.load(order);
        // SAFETY: `set` wrote both, and the rest is owed by the caller.
        unsafe { lend(bytes, self.len.load(Relaxed)) }
    }
}

/// Where a text of the table is.
#[cfg(target_pointer_width = "64")]
type Item = AtomicPtr<u8>;

/// Without 48 bits of an address and 16 of a length in one word, it has two words.
#[cfg(not(target_pointer_width = "64"))]
type Item = Place;

/// Texts by number. Their bytes belong to someone else.
pub(super) struct Texts {
    entries: Segments<Item>,
    #[cfg(target_pointer_width = "64")]
    elsewhere: Elsewhere,
    budget: Budget,
}

/// The list of long texts.
#[cfg(target_pointer_width = "64")]
struct Elsewhere {
    places: Segments<Place>,
    count: AtomicU32,
    /// The number plus one of a place that a call took which failed, or 0. That place has the next such number as a length.
    spare: Mutex<u32>,
}

/// A place in the list of long texts, which is spare again when this is dropped.
#[cfg(target_pointer_width = "64")]
struct Taken<'a> {
    list: &'a Elsewhere,
    place: &'a Place,
    number: u32,
}

#[cfg(target_pointer_width = "64")]
impl Elsewhere {
    const fn new() -> Self {
        Elsewhere {
            places: Segments::new(),
            count: AtomicU32::new(0),
            spare: Mutex::new(0),
        }
    }

    /// Takes a place for a text.
    fn take(&self, budget: &Budget) -> Result<Taken<'_>, InternError> {
        let mut spare = self.spare.lock().unwrap_or_else(PoisonError::into_inner);
        let number = match spare.checked_sub(1) {
            Some(number) => number,
            None => self.count.load(Relaxed),
        };
        let place = self.places.make_room(number, budget)?;
        match *spare {
            0 => self
                .count
                .store(number.checked_add(1).ok_or(InternError::Memory)?, Relaxed),
            _ => *spare = place.len.load(Relaxed) as u32,
        }
        Ok(Taken {
            list: self,
            place,
            number,
        })
    }
}

#[cfg(target_pointer_width = "64")]
impl Taken<'_> {
    /// Gives the place for good, and returns its number.
    fn keep(self) -> u32 {
        mem::ManuallyDrop::new(self).number
    }
}

#[cfg(target_pointer_width = "64")]
impl Drop for Taken<'_> {
    fn drop(&mut self) {
        let spare = self.list.spare.lock();
        let mut spare = spare.unwrap_or_else(PoisonError::into_inner);
        self.place.len.store(*spare as usize, Relaxed);
        *spare = self.number + 1;
    }
}

/// An entry that is about to be published. It is not null, which stands for no text.
pub(super) struct Entry<'a> {
    #[cfg(target_pointer_width = "64")]
    packed: *mut u8,
    #[cfg(not(target_pointer_width = "64"))]
    text: &'static str,
    texts: PhantomData<&'a Texts>,
}

/// Where the entry of a number comes, in the table of the same texts.
#[derive(Clone, Copy)]
pub(super) struct Room<'a>(&'a Item);

impl<'a> Entry<'a> {
    /// Publishes the text.
    #[inline]
    pub(super) fn publish(self, room: Room<'a>) {
        #[cfg(target_pointer_width = "64")]
        room.0.store(self.packed, RELEASE);
        #[cfg(not(target_pointer_width = "64"))]
        room.0.set(self.text, RELEASE);
    }
}

/// Returns what an entry has of a text, unless it has to stand elsewhere. The pointer keeps the right to read the text's bytes.
#[cfg(target_pointer_width = "64")]
#[inline(always)]
fn pack(text: &str) -> Option<*mut u8> {
    let bytes = text.as_ptr().cast_mut();
    let fits = text.len() < LENGTH && bytes.addr().leading_zeros() >= LENGTH_BITS;
    fits.then(|| bytes.map_addr(|address| address << LENGTH_BITS | (text.len() + 1)))
}

/// Lends a text, unless its pointer is null.
///
/// # Safety
///
/// Otherwise the pointer and the length are those of a text whose bytes stay as long as they are lent.
#[inline(always)]
unsafe fn lend<'a>(bytes: *const u8, len: usize) -> Option<&'a str> {
    // SAFETY: owed by the caller.
    (!bytes.is_null())
        .then(|| unsafe { str::from_utf8_unchecked(slice::from_raw_parts(bytes, len)) })
}

impl Texts {
    const fn new() -> Self {
        Texts {
            entries: Segments::new(),
            #[cfg(target_pointer_width = "64")]
            elsewhere: Elsewhere::new(),
            budget: Budget::new(),
        }
    }

    /// Makes room for the text of a number.
    #[inline(always)]
    pub(super) fn make_room(&self, number: u32) -> Result<Room<'_>, InternError> {
        self.entries.make_room(number, &self.budget).map(Room)
    }

    /// Has the processor fetch the entry of a number, if there is room for it.
    #[inline(always)]
    pub(super) fn ask_for(&self, number: u32) {
        if let Some(item) = self.entries.get(number) {
            ask_for(slice::from_ref(item), 0);
        }
    }

    /// Makes room for the texts of a number and of all below.
    pub(super) fn make_room_up_to(&self, number: u32) -> Result<(), InternError> {
        self.entries.make_room_up_to(number, &self.budget)
    }
}

#[cfg(target_pointer_width = "64")]
impl Texts {
    /// Returns an entry for a text, and what a call returns that may fail or panic.
    #[inline(always)]
    fn keep<T>(
        &self,
        text: &'static str,
        call: impl FnOnce() -> Result<T, InternError>,
    ) -> Result<(Entry<'_>, T), InternError> {
        let (packed, returned) = match pack(text) {
            Some(packed) => (packed, call()?),
            None => self.keep_elsewhere(text, call)?,
        };
        let texts = PhantomData;
        Ok((Entry { packed, texts }, returned))
    }

    #[cold]
    fn keep_elsewhere<T>(
        &self,
        text: &'static str,
        call: impl FnOnce() -> Result<T, InternError>,
    ) -> Result<(*mut u8, T), InternError> {
        let taken = self.elsewhere.take(&self.budget)?;
        taken.place.set(text, Relaxed);
        let returned = call()?;
        let place = taken.keep() as usize + 1;
        let packed = ptr::without_provenance_mut(place << LENGTH_BITS);
        Ok((packed, returned))
    }

    /// Returns the text of a number, if it was published.
    #[inline(always)]
    pub(super) fn get(&self, number: u32) -> Option<&str> {
        let entry = self.entries.get(number)?.load(ACQUIRE);
        let Some(len) = (entry.addr() & LENGTH).checked_sub(1) else {
            return self.get_elsewhere(entry);
        };
        let bytes = entry.map_addr(|packed| packed >> LENGTH_BITS);
        // SAFETY: `pack` made the entry of a text with this address, which is not null, and this length. `Store` took care that the bytes
        // stay as long as this table.
        unsafe {
            assert_unchecked(!bytes.is_null());
            lend(bytes, len)
        }
    }

    /// Returns the text of an entry without a length: it stands elsewhere, unless the entry is null.
    #[cold]
    fn get_elsewhere(&self, entry: *mut u8) -> Option<&str> {
        let number = (entry.addr() >> LENGTH_BITS).checked_sub(1)?;
        // SAFETY: `keep_elsewhere` wrote it before there was an entry with this number, and nobody writes it afterwards. `Store` took
        // care that the bytes stay as long as this table.
        unsafe { self.elsewhere.places.get(number as u32)?.get(Relaxed) }
    }
}

#[cfg(not(target_pointer_width = "64"))]
impl Texts {
    /// Returns an entry for a text, and what a call returns that may fail or panic.
    #[inline(always)]
    fn keep<T>(
        &self,
        text: &'static str,
        call: impl FnOnce() -> Result<T, InternError>,
    ) -> Result<(Entry<'_>, T), InternError> {
        let texts = PhantomData;
        Ok((Entry { text, texts }, call()?))
    }

    /// Returns the text of a number, if it was published.
    #[inline(always)]
    pub(super) fn get(&self, number: u32) -> Option<&str> {
        // SAFETY: the length was written before the address. `Store` took care that the bytes stay as long as this table.
        unsafe { self.entries.get(number)?.get(ACQUIRE) }
    }
}

/// A block of memory: this, and so many bytes behind it.
struct Header {
    before: *mut Header,
    size: usize,
}

/// A block that nobody else has.
struct Block(NonNull<Header>);

impl Block {
    fn layout(size: usize) -> Option<Layout> {
        let bytes = Layout::array::<u8>(size).ok()?;
        Some(Layout::new::<Header>().extend(bytes).ok()?.0)
    }

    /// Makes a block of so many bytes, if memory for it is granted.
    fn new(size: usize, budget: &Budget) -> Result<Block, InternError> {
        let layout = Self::layout(size).ok_or(InternError::Memory)?;
        let make = || {
            // SAFETY: the size is not 0.
            let header = NonNull::new(unsafe { alloc(layout) }.cast::<Header>()).ok_or(())?;
            let before = ptr::null_mut();
            // SAFETY: the block begins with a header.
            unsafe { header.write(Header { before, size }) };
            Ok::<_, ()>(Block(header))
        };
        budget.spend(layout.size(), make)
    }

    /// Returns where its bytes are.
    fn bytes(&self) -> *mut u8 {
        // SAFETY: they are behind the header.
        unsafe { self.0.add(1) }.cast().as_ptr()
    }

    /// Returns how many bytes it takes.
    fn taken(&self) -> usize {
        // SAFETY: `new` wrote it.
        size_of::<Header>() + unsafe { self.0.as_ref() }.size
    }
}

impl Drop for Block {
    fn drop(&mut self) {
        // SAFETY: `new` made the block by this layout, and nobody else has it.
        unsafe {
            let layout = Self::layout(self.0.as_ref().size);
            dealloc(self.0.as_ptr().cast(), layout.expect("it was made"));
        }
    }
}

/// All blocks that are kept, the last one first.
struct Blocks(AtomicPtr<Header>);

impl Blocks {
    const fn new() -> Self {
        Blocks(AtomicPtr::new(ptr::null_mut()))
    }

    /// Keeps a block as long as `self`, and returns where its bytes are.
    fn keep(&self, block: Block) -> *mut u8 {
        let (bytes, header) = (block.bytes(), mem::ManuallyDrop::new(block).0.as_ptr());
        let mut before = self.0.load(Relaxed);
        loop {
            // SAFETY: nobody else has the header before the exchange, and nobody reads it after that but to drop `self`.
            unsafe { (*header).before = before };
            match self
                .0
                .compare_exchange_weak(before, header, Relaxed, Relaxed)
            {
                Ok(_) => return bytes,
                Err(now) => before = now,
            }
        }
    }
}

impl Drop for Blocks {
    fn drop(&mut self) {
        let mut next = NonNull::new(*self.0.get_mut());
        while let Some(header) = next {
            let block = Block(header);
            // SAFETY: `keep` was given the block, and whoever drops `self` has it alone.
            next = NonNull::new(unsafe { header.as_ref() }.before);
            drop(block);
        }
    }
}

/// The least size of a part that a shard takes of a block in common, the least of such a block, and the greatest of both.
const LEAST: usize = 32;
const LEAST_IN_COMMON: usize = 512 - size_of::<Header>();
const GREATEST: usize = 1 << 14;

/// What is left of a block or a part of one, to be handed out from the front on.
struct Rest {
    bytes: *mut u8,
    left: u16,
    /// The sizes of all parts before, as far as this counts.
    size: u16,
    /// One more than the logarithm of the slots for which bytes were counted, or 0.
    paid: u8,
}

// SAFETY: the bytes are those of nobody else.
unsafe impl Send for Rest {}

/// Bytes for a text.
enum Bytes {
    /// The first of the rest.
    First(*mut u8),
    /// A part of a block that is kept.
    Part(*mut u8),
    Alone(Block),
}

impl Rest {
    const fn new() -> Self {
        Rest {
            bytes: ptr::null_mut(),
            left: 0,
            size: 0,
            paid: 0,
        }
    }

    /// Hands out the first bytes.
    #[inline(always)]
    fn advance(&mut self, len: usize) {
        self.bytes = self.bytes.wrapping_add(len);
        self.left -= len as u16;
    }

    /// Takes a part of a block for its rest, unless it has more.
    fn refill(&mut self, bytes: *mut u8, len: usize) {
        if len > self.left as usize {
            (self.bytes, self.left) = (bytes, len as u16);
        }
    }

    /// Returns the size of the next part, if so many bytes do not fit: half that of all before. There is none for more bytes than an
    /// eighth of that, which are taken for themselves. So less is left over of a part than an eighth of the next one.
    fn next_size(&self, len: usize, least: usize) -> Option<usize> {
        let size = (self.size as usize / 2).clamp(least, GREATEST);
        (len <= size / 8).then_some(size)
    }

    /// Counts a part that was taken.
    fn count(&mut self, size: usize) {
        let size = u16::try_from(size).unwrap_or(u16::MAX);
        self.size = self.size.saturating_add(size);
    }

    /// Begins with a part, of so many bytes.
    fn begin(&mut self, bytes: *mut u8, size: usize) {
        self.count(size);
        (self.bytes, self.left) = (bytes, size as u16);
    }
}

/// The blocks, and the rest of the last one that shards take small parts of.
struct Common {
    blocks: Blocks,
    rest: Mutex<Rest>,
}

impl Common {
    const fn new() -> Self {
        Common {
            blocks: Blocks::new(),
            rest: Mutex::new(Rest::new()),
        }
    }

    /// Returns so many bytes: a part of a block, or a block of their own if they are many.
    fn take(&self, len: usize, budget: &Budget) -> Result<Bytes, InternError> {
        let mut rest = self.rest.lock().unwrap_or_else(PoisonError::into_inner);
        if len > rest.left as usize {
            let Some(size) = rest.next_size(len, LEAST_IN_COMMON) else {
                return Ok(Bytes::Alone(Block::new(len, budget)?));
            };
            let block = Block::new(size, budget)?;
            rest.begin(self.blocks.keep(block), size);
        }
        let bytes = rest.bytes;
        rest.advance(len);
        Ok(Bytes::Part(bytes))
    }
}

/// A copy of a text, which is taken back when this is dropped.
struct Copied<'a> {
    texts: &'a Texts,
    common: &'a Common,
    rest: &'a mut Rest,
    bytes: Bytes,
    len: usize,
}

impl<'a> Copied<'a> {
    /// Copies a text. If the copy is kept, its bytes stay where they are as long as the blocks.
    #[inline(always)]
    fn new(
        text: &str,
        texts: &'a Texts,
        common: &'a Common,
        rest: &'a mut Rest,
    ) -> Result<Self, InternError> {
        let len = text.len();
        // No bytes do not fit here, since there may be no part of a block.
        let fits = len.wrapping_sub(1) < rest.left as usize;
        let bytes = match fits {
            true => Bytes::First(rest.bytes),
            false => Self::take(len, texts, common, rest)?,
        };
        let copied = Copied {
            texts,
            common,
            rest,
            bytes,
            len,
        };
        // SAFETY: there are so many bytes, which nobody else has.
        unsafe { copy_text(text, copied.bytes()) };
        Ok(copied)
    }

    /// Takes bytes for a text that does not fit the rest, which is replaced unless they are for this text alone. They are not null.
    #[cold]
    fn take(
        len: usize,
        texts: &Texts,
        common: &Common,
        rest: &mut Rest,
    ) -> Result<Bytes, InternError> {
        if len == 0 {
            return Ok(Bytes::Part(NonNull::dangling().as_ptr()));
        }
        let Some(size) = rest.next_size(len, LEAST) else {
            return common.take(len, &texts.budget);
        };
        let bytes = match common.take(size, &texts.budget)? {
            Bytes::First(bytes) | Bytes::Part(bytes) => bytes,
            Bytes::Alone(block) => common.blocks.keep(block),
        };
        rest.begin(bytes, size);
        Ok(Bytes::First(bytes))
    }

    #[inline(always)]
    fn bytes(&self) -> *mut u8 {
        match &self.bytes {
            Bytes::First(bytes) | Bytes::Part(bytes) => *bytes,
            Bytes::Alone(block) => block.bytes(),
        }
    }

    #[inline(always)]
    fn text(&self) -> &str {
        // SAFETY: `new` copied a text there.
        unsafe { str::from_utf8_unchecked(slice::from_raw_parts(self.bytes(), self.len)) }
    }

    /// Keeps the copy for good.
    #[inline(always)]
    fn keep(mut self) {
        match mem::replace(&mut self.bytes, Bytes::First(ptr::null_mut())) {
            Bytes::First(_) => self.rest.advance(self.len),
            Bytes::Part(_) => self.rest.count(self.len),
            Bytes::Alone(block) => {
                self.rest.count(self.len);
                self.common.blocks.keep(block);
            }
        }
        mem::forget(self);
    }
}

impl Drop for Copied<'_> {
    fn drop(&mut self) {
        match &self.bytes {
            Bytes::First(_) => (),
            Bytes::Part(bytes) => self.rest.refill(*bytes, self.len),
            Bytes::Alone(block) => self.texts.budget.give_back(block.taken()),
        }
    }
}

/// Copies a text. Most texts are short, and a call that copies so few bytes takes longer than the copy.
///
/// # Safety
///
/// There is room for it, which no part of the text is in.
#[inline(always)]
unsafe fn copy_text(text: &str, to: *mut u8) {
    let (from, len) = (text.as_ptr(), text.len());
    // SAFETY: as many bytes as the text has are read and written, some of them twice.
    unsafe {
        match len {
            8..=16 => copy_ends::<8>(from, to, len),
            4..=7 => copy_ends::<4>(from, to, len),
            _ => to.copy_from_nonoverlapping(from, len),
        }
    }
}

/// Copies the first `N` of so many bytes and the last `N`, which overlap.
///
/// # Safety
///
/// There are `N` to `2 * N` bytes, and there is room for them, which is apart.
#[inline(always)]
unsafe fn copy_ends<const N: usize>(from: *const u8, to: *mut u8, len: usize) {
    debug_assert!(N <= len && len <= 2 * N);
    // SAFETY: both are within, without a claim how they are aligned.
    unsafe {
        let (first, last) = (from.cast::<[u8; N]>(), from.add(len - N).cast::<[u8; N]>());
        let (first, last) = (first.read(), last.read());
        to.cast::<[u8; N]>().write(first);
        to.add(len - N).cast::<[u8; N]>().write(last);
    }
}

/// So often a thread that waits for a text looks for it before it takes locks.
const TURNS: usize = 64;

/// What the lock of a shard guards. With the lock it takes one cache line, and whoever adds a text writes no other one of the shard
/// but that of a word.
struct Guarded {
    shard: Shard,
    rest: Rest,
}

/// A value in a cache line of its own.
#[repr(align(64))]
struct Line<T>(T);

/// Texts by number, and the shards with the bytes of their texts.
pub(super) struct Memory {
    texts: Texts,
    shown: [Shown; SHARDS],
    shards: [Line<Mutex<Guarded>>; SHARDS],
    common: Common,
}

/// Where a shard that nobody else has meanwhile stores its texts.
pub(super) struct Store<'a> {
    texts: &'a Texts,
    shown: &'a Shown,
    common: &'a Common,
    rest: &'a mut Rest,
}

impl Guarded {
    const fn new() -> Self {
        Guarded {
            shard: Shard::new(),
            rest: Rest::new(),
        }
    }
}

/// Shards whose locks are taken.
pub(super) struct Locked<'a> {
    memory: &'a Memory,
    shards: [Option<MutexGuard<'a, Guarded>>; SHARDS],
}

impl Locked<'_> {
    /// Returns a shard whose lock is one of them.
    #[inline(always)]
    pub(super) fn shard(&mut self, shard: usize) -> (&mut Shard, Store<'_>) {
        let guarded = self.shards[shard].as_mut().expect("its lock was taken");
        self.memory.parts_of(guarded, shard)
    }
}

impl Memory {
    pub(super) const fn new() -> Self {
        Memory {
            texts: Texts::new(),
            shown: [const { Shown::new() }; SHARDS],
            shards: [const { Line(Mutex::new(Guarded::new())) }; SHARDS],
            common: Common::new(),
        }
    }

    #[inline(always)]
    pub(super) fn texts(&self) -> &Texts {
        &self.texts
    }

    /// Returns the words of a shard that threads are shown.
    #[inline(always)]
    pub(super) fn table(&self, shard: usize) -> Table<'_> {
        self.shown[shard].table()
    }

    /// Makes a call with a shard, whose lock is taken. No panic leaves a shard half changed, so a lock that somebody panicked under is
    /// as good.
    #[inline(always)]
    pub(super) fn with_locked<T>(
        &self,
        shard: usize,
        call: impl FnOnce(&mut Shard, Store<'_>) -> T,
    ) -> T {
        let locked = self.shards[shard].0.lock();
        let mut guarded = locked.unwrap_or_else(PoisonError::into_inner);
        let (shard, store) = self.parts_of(&mut guarded, shard);
        call(shard, store)
    }

    #[inline(always)]
    fn parts_of<'a>(
        &'a self,
        guarded: &'a mut Guarded,
        shard: usize,
    ) -> (&'a mut Shard, Store<'a>) {
        let store = Store {
            texts: &self.texts,
            shown: &self.shown[shard],
            common: &self.common,
            rest: &mut guarded.rest,
        };
        (&mut guarded.shard, store)
    }

    /// Takes the locks of shards, of which each bit says whether it is one of them. All threads take them in the same order, so that none
    /// waits for another without end.
    pub(super) fn lock(&self, shards: u32) -> Locked<'_> {
        let lock = |shard: usize| {
            let locked = self.shards[shard].0.lock();
            locked.unwrap_or_else(PoisonError::into_inner)
        };
        Locked {
            memory: self,
            shards: array::from_fn(|shard| (shards >> shard & 1 == 1).then(|| lock(shard))),
        }
    }

    /// Frees the words that threads are no longer shown.
    pub(super) fn forget_old_words(&mut self) {
        let budget = &self.texts.budget;
        for shown in &mut self.shown {
            shown.forget_old(|size| budget.give_back(size));
        }
    }

    /// Returns the numbers of all texts, with the low 32 bits of their codes, in the order of the words of each shard.
    pub(super) fn items(&self) -> impl Iterator<Item = (u32, u32)> + '_ {
        let tables = self.shown.iter().map(Shown::table);
        tables.flat_map(|table| items_in((0..table.len()).map(move |at| table.load(at))))
    }

    /// Returns how many bytes are in use.
    pub(super) fn used(&self) -> usize {
        self.texts.budget.used.load(Relaxed)
    }

    /// Lets no more bytes be used from now on.
    pub(super) fn set_limit(&self, bytes: usize) {
        let forbidden = usize::MAX - bytes;
        self.texts.budget.forbidden.store(forbidden, Relaxed);
    }

    /// Returns the text of a number that was taken, as the caller knows from the count. The thread that took it publishes the text next,
    /// and allocates nothing before.
    #[inline]
    pub(super) fn wait_for(&self, number: u32) -> &str {
        match self.texts.get(number) {
            Some(text) => text,
            None => self.wait_long_for(number),
        }
    }

    /// Lets other threads run, and then takes the lock of each shard once: the thread that took the number has one of them until it has
    /// published the text. Who waits for a lock lets threads of less priority run, too.
    #[cold]
    fn wait_long_for(&self, number: u32) -> &str {
        for _ in 0..TURNS {
            thread::yield_now();
            if let Some(text) = self.texts.get(number) {
                return text;
            }
        }
        self.shards.iter().for_each(|shard| drop(shard.0.lock()));
        self.texts
            .get(number)
            .expect("whoever took the number published its text")
    }

    /// The same as `with_locked` for who has the interner alone: no lock is taken.
    #[inline(always)]
    pub(super) fn hold(&mut self, shard: usize) -> (&mut Shard, Store<'_>) {
        let held = self.shards[shard].0.get_mut();
        let guarded = held.unwrap_or_else(PoisonError::into_inner);
        let store = Store {
            texts: &self.texts,
            shown: &self.shown[shard],
            common: &self.common,
            rest: &mut guarded.rest,
        };
        (&mut guarded.shard, store)
    }
}

impl<'a> Store<'a> {
    #[inline(always)]
    pub(super) fn texts(&self) -> &'a Texts {
        self.texts
    }

    /// Returns the words of the shard that threads are shown.
    pub(super) fn table(&self) -> Table<'a> {
        self.shown.table()
    }

    /// Counts the bytes of an index with so many slots, unless that was done: their count is a power of two.
    #[inline(always)]
    pub(super) fn pay(&mut self, slots: usize) -> Result<(), InternError> {
        match slots.trailing_zeros() < u32::from(self.rest.paid) {
            true => Ok(()),
            false => self.pay_now(slots),
        }
    }

    #[cold]
    fn pay_now(&mut self, slots: usize) -> Result<(), InternError> {
        self.texts.budget.take(size_of_words(slots))?;
        self.rest.paid = slots.trailing_zeros() as u8 + 1;
        Ok(())
    }

    /// Shows these words of the shard to all threads, if they are more than those that are shown.
    #[inline(always)]
    pub(super) fn show(&mut self, words: &Words) {
        if words.len() != self.shown.table().len() {
            self.shown.show(words);
        }
    }

    /// Copies a text, and returns an entry for the copy and what a call returns that may fail or panic. The copy is taken back then.
    #[inline(always)]
    pub(super) fn copy<T>(
        &mut self,
        text: &str,
        call: impl FnOnce() -> Result<T, InternError>,
    ) -> Result<(Entry<'a>, T), InternError> {
        let copied = Copied::new(text, self.texts, self.common, self.rest)?;
        // SAFETY: there is an entry only if the copy is kept. As `Copied::new` says, its bytes stay then as long as all blocks. `Memory`
        // drops these with the table, and nobody can take them out of there.
        let text = unsafe { mem::transmute::<&str, &'static str>(copied.text()) };
        let kept = self.texts.keep(text, call)?;
        copied.keep();
        Ok(kept)
    }

    /// The same for a static text, which is not copied.
    #[inline]
    pub(super) fn keep<T>(
        &mut self,
        text: &'static str,
        call: impl FnOnce() -> Result<T, InternError>,
    ) -> Result<(Entry<'a>, T), InternError> {
        self.texts.keep(text, call)
    }
}
