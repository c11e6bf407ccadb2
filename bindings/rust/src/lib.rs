//! An ordered key-value store in one file, for Rust: [`Store`].
//!
//! The store is for a number of keys that is chosen when its file is made. Keys are ordered byte by byte. They have from 1 to
//! 24 bytes and values up to 32, or up to 40 and 72 in a file of version 2. Every call is bounded: a put makes at most 40 cell
//! accesses for each level of the store, a get at most 8, and neither waits for a merge.
//!
//! ```
//! # fn main() -> cola::Result<()> {
//! # let folder = std::env::temp_dir().join(format!("cola-doc-{}", std::process::id()));
//! # std::fs::create_dir_all(&folder)?;
//! # let path = folder.join("notes");
//! # let _ = std::fs::remove_file(&path);
//! use cola::{Options, Store};
//!
//! Store::create(&path, &Options { keys: 1000, ..Options::default() })?;
//! let mut store = Store::open(&path)?;
//! store.put("user:1001", "Ada")?;
//! store.put("user:1002", "Grace")?;
//! assert_eq!(store.get("user:1001")?.as_deref(), Some(&b"Ada"[..]));
//! for row in store.range("user:".."user;") {
//!     let (key, value) = row?;
//!     println!("{} {}", String::from_utf8_lossy(&key), String::from_utf8_lossy(&value));
//! }
//! store.checkpoint_to(folder.join("notes.copy"))?;
//! store.close()?;
//! # std::fs::remove_dir_all(&folder)?;
//! # Ok(())
//! # }
//! ```
//!
//! A process that dies with a mapped store, which [`Store::open`] gives, leaves a file that is refused from then on
//! ([`Error::NotClosed`]): go back to the copy of the last [`Store::checkpoint_to`]. The file of a resident store
//! ([`Options::resident`]) has its last [`Store::checkpoint`], and that of one with a log ([`Options::logged`],
//! [`Options::synced`]) each call that was answered. A dropped store is closed. The library behind it is proved but for the
//! calls that have the file; this crate is not.

use std::cell::UnsafeCell;
use std::ffi::{CStr, CString};
use std::os::raw::{c_char, c_int, c_long, c_void};
use std::os::unix::ffi::OsStrExt;
use std::path::Path;
use std::{fmt, io, ptr};

mod info;
mod range;
mod tools;

pub use info::{Info, Level};
pub use range::Range;
pub use tools::{Flaw, Loader, Verdict};

/// The bytes that a key may have in a file of version 2; 24 in one of version 1.
pub const KEY_MAX: usize = 40;
/// The bytes that a value may have in a file of version 2; 32 in one of version 1.
pub const VALUE_MAX: usize = 72;
/// The keys that a store may be for.
pub const KEYS_MAX: u64 = 1 << 24;

/// How many rows are put, or looked up, at once.
const MANY: usize = 512;

/// What include/cola.h and bindings/c/cola_file.h declare.
mod c {
    use super::*;

    #[repr(C)]
    pub struct Cola {
        is_open: bool,
        is_read_only: bool,
        is_unfinished: bool,
        is_logged: bool,
        at: *mut c_void,
    }

    #[repr(C)]
    pub struct File {
        pub store: Cola,
        bytes: *mut c_void,
        length: usize,
        descriptor: c_int,
        is_resident: bool,
        owner: c_long,
    }

    /// COLA_FILE_INIT.
    pub const CLOSED: File = File {
        store: Cola { is_open: false, is_read_only: false, is_unfinished: false, is_logged: false, at: ptr::null_mut() },
        bytes: ptr::null_mut(),
        length: 0,
        descriptor: -1,
        is_resident: false,
        owner: 0,
    };
    pub const READ_ONLY: u32 = 1;
    pub const RESIDENT: u32 = 2;
    pub const LOGGED: u32 = 4;
    pub const SYNCED: u32 = 8;

    #[repr(C)]
    #[derive(Clone, Copy)]
    pub struct Row {
        pub key_len: u8,
        pub value_len: u8,
        pub key: [u8; KEY_MAX],
        pub value: [u8; VALUE_MAX],
    }

    #[repr(C)]
    #[derive(Clone, Copy)]
    pub struct Cursor {
        pub from_len: u8,
        pub until_len: u8,
        pub behind: bool,
        pub bounded: bool,
        pub from: [u8; KEY_MAX],
        pub until: [u8; KEY_MAX],
    }

    #[repr(C)]
    #[derive(Default)]
    pub struct StoreInfo {
        pub keys: u64,
        pub count: u64,
        pub bytes: u64,
        pub write_bound: u64,
        pub get_bound: u64,
        pub version: u8,
        pub block: u8,
        pub levels: u8,
    }

    #[repr(C)]
    #[derive(Default)]
    pub struct LevelInfo {
        pub visible: u64,
        pub shadow: u64,
        pub room: u64,
    }

    #[repr(C)]
    #[derive(Default)]
    pub struct Verdict {
        pub count: u64,
        pub cell: u64,
        pub flaw: u32,
        pub level: u32,
    }

    #[repr(C)]
    pub struct Load {
        is_open: bool,
        at: *mut c_void,
    }

    #[repr(C)]
    pub struct FileLoad {
        pub load: Load,
        bytes: *mut c_void,
        length: usize,
        name: *mut c_char,
        descriptor: c_int,
        owner: c_long,
    }

    /// COLA_FILE_LOAD_INIT.
    pub const NO_LOAD: FileLoad = FileLoad {
        load: Load { is_open: false, at: ptr::null_mut() },
        bytes: ptr::null_mut(),
        length: 0,
        name: ptr::null_mut(),
        descriptor: -1,
        owner: 0,
    };

    pub const ROW: Row = Row { key_len: 0, value_len: 0, key: [0; KEY_MAX], value: [0; VALUE_MAX] };
    pub const CURSOR: Cursor =
        Cursor { from_len: 0, until_len: 0, behind: false, bounded: false, from: [0; KEY_MAX], until: [0; KEY_MAX] };

    extern "C" {
        pub fn cola_size(keys: u64, block: u8, version: u8, bytes: *mut u64) -> i32;
        pub fn cola_put(store: *mut Cola, key: *const u8, key_len: usize, value: *const u8, value_len: usize, was: *mut bool) -> i32;
        pub fn cola_put_if(
            store: *mut Cola, key: *const u8, key_len: usize, seen: u64, value: *const u8, value_len: usize, stamp: *mut u64,
        ) -> i32;
        pub fn cola_get(store: *mut Cola, key: *const u8, key_len: usize, value: *mut u8, value_len: *mut usize) -> i32;
        pub fn cola_stamp(store: *mut Cola, key: *const u8, key_len: usize, stamp: *mut u64) -> i32;
        pub fn cola_delete(store: *mut Cola, key: *const u8, key_len: usize) -> i32;
        pub fn cola_count(store: *mut Cola, count: *mut u64) -> i32;
        pub fn cola_seek_prefix(cursor: *mut Cursor, prefix: *const u8, prefix_len: usize) -> i32;
        pub fn cola_seek_last(cursor: *mut Cursor, high: *const u8, high_len: usize) -> i32;
        pub fn cola_put_many(store: *mut Cola, rows: *const Row, count: usize, was: *mut bool, done: *mut usize) -> i32;
        pub fn cola_get_many(store: *mut Cola, rows: *mut Row, count: usize, there: *mut bool, done: *mut usize) -> i32;
        pub fn cola_next(store: *mut Cola, cursor: *mut Cursor, rows: *mut Row, most: usize, given: *mut usize) -> i32;
        pub fn cola_prev(store: *mut Cola, cursor: *mut Cursor, rows: *mut Row, most: usize, given: *mut usize) -> i32;
        pub fn cola_info(store: *mut Cola, info: *mut StoreInfo) -> i32;
        pub fn cola_level(store: *mut Cola, level: u8, info: *mut LevelInfo) -> i32;
        pub fn cola_strerror(answer: i32) -> *const c_char;
        pub fn cola_file_create(path: *const c_char, keys: u64, block: u8, version: u8) -> i32;
        pub fn cola_file_open_as(file: *mut File, path: *const c_char, flags: u32) -> i32;
        pub fn cola_file_checkpoint(file: *mut File, copy: *const c_char) -> i32;
        pub fn cola_file_close(file: *mut File) -> i32;
        pub fn cola_file_check(path: *const c_char, verdict: *mut Verdict) -> i32;
        pub fn cola_file_grow(path: *const c_char, keys: u64, block: u8, rows: *mut u64) -> i32;
        pub fn cola_file_load_begin(load: *mut FileLoad, path: *const c_char, keys: u64, block: u8, version: u8) -> i32;
        pub fn cola_load_row(load: *mut Load, key: *const u8, key_len: usize, value: *const u8, value_len: usize) -> i32;
        pub fn cola_load_many(load: *mut Load, rows: *const Row, count: usize, done: *mut usize) -> i32;
        pub fn cola_file_load_end(load: *mut FileLoad, rows: *mut u64) -> i32;
        pub fn cola_file_load_drop(load: *mut FileLoad) -> i32;
        pub fn cola_file_discard(file: *mut File) -> i32;
        pub fn cola_file_sync(file: *mut File) -> i32;
    }
}

const NONE: i32 = 1;
const OTHER: i32 = 2;
const BROKEN: i32 = 21;

/// Why a call was refused. Nothing changed then, but where it is said.
#[derive(Debug)]
#[non_exhaustive]
pub enum Error {
    /// The key is new, and the store has as many keys as it is for.
    Full,
    /// No stamp is left to give.
    Worn,
    /// A checkpoint had no memory to open the store again: it is closed.
    Closed,
    /// A key has no byte or more, or a value more, than the file's version allows.
    Length,
    /// No store has these keys, this block or this version.
    Options,
    /// The file that was to be made is not empty.
    NotEmpty,
    /// The file has no store's header.
    NotStore,
    /// The file has fewer bytes than its store.
    Small,
    /// The store was not closed: a process has it open, or died.
    NotClosed,
    /// A cell of the file is damaged.
    BadCell,
    /// The levels of the file are damaged.
    Overfull,
    /// There was no memory.
    Memory,
    /// A call of the system failed. A path with a zero byte is one too.
    System(io::Error),
    /// The store is open to be read alone ([`Store::open_read_only`]).
    ReadOnly,
    /// The key of a row is not above that of the row before ([`Loader`]).
    Order,
    /// The new store is for fewer keys than there are ([`Store::grow`]).
    Fewer,
    /// A checkpoint holds in the journal beside the file of a resident store, and not in the file, or what the disk has of its log is
    /// not known: nothing is put until a checkpoint has succeeded.
    Unfinished,
    /// The file of a store that is not resident has no checkpoint of its own: [`Store::checkpoint_to`] makes a copy.
    NotResident,
    /// An answer that this crate doesn't know.
    Unknown(i32),
}

/// What a call of a store gives.
pub type Result<T> = std::result::Result<T, Error>;

impl Error {
    /// The error of an answer that is none of those that the call expects.
    fn of(answer: i32) -> Error {
        match answer {
            3 => Error::Full,
            4 => Error::Worn,
            5 => Error::Closed,
            7 => Error::Length,
            8 => Error::NotResident, // (the only pointer that may be NULL here is that of the copy of a checkpoint)
            9 => Error::Options,
            10 => Error::NotEmpty,
            11 => Error::NotStore,
            12 => Error::Small,
            13 => Error::NotClosed,
            14 => Error::BadCell,
            15 => Error::Overfull,
            16 => Error::Memory,
            17 => Error::System(io::Error::last_os_error()),
            18 => Error::ReadOnly,
            19 => Error::Order,
            20 => Error::Fewer,
            22 => Error::Unfinished,
            _ => Error::Unknown(answer),
        }
    }

    /// The number of the answer in cola.h.
    pub fn answer(&self) -> i32 {
        match self {
            Error::Full => 3,
            Error::Worn => 4,
            Error::Closed => 5,
            Error::Length => 7,
            Error::NotResident => 8,
            Error::Options => 9,
            Error::NotEmpty => 10,
            Error::NotStore => 11,
            Error::Small => 12,
            Error::NotClosed => 13,
            Error::BadCell => 14,
            Error::Overfull => 15,
            Error::Memory => 16,
            Error::System(_) => 17,
            Error::ReadOnly => 18,
            Error::Order => 19,
            Error::Fewer => 20,
            Error::Unfinished => 22,
            Error::Unknown(answer) => *answer,
        }
    }
}

impl fmt::Display for Error {
    fn fmt(&self, out: &mut fmt::Formatter) -> fmt::Result {
        match self {
            Error::System(cause) => return cause.fmt(out),
            Error::NotResident => return out.write_str("the store is not resident: make a copy of it in another file, by checkpoint_to"),
            _ => {}
        }
        // SAFETY: cola_strerror gives a text that ends with a zero byte and stays.
        let text = unsafe { CStr::from_ptr(c::cola_strerror(self.answer())) };
        out.write_str(&text.to_string_lossy())
    }
}

impl std::error::Error for Error {
    fn source(&self) -> Option<&(dyn std::error::Error + 'static)> {
        match self {
            Error::System(cause) => Some(cause),
            _ => None,
        }
    }
}

impl From<io::Error> for Error {
    fn from(cause: io::Error) -> Error {
        Error::System(cause)
    }
}

/// Why [`Store::update`] or [`Loader::update`] ended before its last pair. It is an [`Error`] where one is wanted, as behind `?`.
#[derive(Debug)]
pub struct Stopped {
    /// How many pairs were put before the one that was refused.
    pub done: usize,
    /// Why that one was.
    pub error: Error,
}

impl fmt::Display for Stopped {
    fn fmt(&self, out: &mut fmt::Formatter) -> fmt::Result {
        write!(out, "{} (behind {} pairs that were put)", self.error, self.done)
    }
}

impl std::error::Error for Stopped {
    fn source(&self) -> Option<&(dyn std::error::Error + 'static)> {
        Some(&self.error)
    }
}

impl From<Stopped> for Error {
    fn from(stopped: Stopped) -> Error {
        stopped.error
    }
}

/// `Ok` at the answer 0.
fn done(answer: i32) -> Result<()> {
    if answer == 0 { Ok(()) } else { Err(Error::of(answer)) }
}

/// Whether the answer is 0, and not that other one.
fn done_or(answer: i32, other: i32) -> Result<bool> {
    if answer == other { Ok(false) } else { done(answer).map(|()| true) }
}

/// Whether a file is not there, or is empty.
fn is_to_be_made(path: &Path) -> Result<bool> {
    match path.metadata() {
        Ok(about) => Ok(about.len() == 0),
        Err(cause) if cause.kind() == io::ErrorKind::NotFound => Ok(true),
        Err(cause) => Err(cause.into()),
    }
}

fn text(path: &Path) -> Result<CString> {
    CString::new(path.as_os_str().as_bytes()).map_err(|_| Error::System(io::ErrorKind::InvalidInput.into()))
}

/// The row of a pair. A length above the limit stays above it, and no more bytes are taken than a row has room for.
fn row(key: &[u8], value: &[u8]) -> c::Row {
    let mut row = c::ROW;
    let (key_room, value_room) = (key.len().min(KEY_MAX), value.len().min(VALUE_MAX));
    row.key_len = key.len().min(u8::MAX.into()) as u8;
    row.value_len = value.len().min(u8::MAX.into()) as u8;
    row.key[..key_room].copy_from_slice(&key[..key_room]);
    row.value[..value_room].copy_from_slice(&value[..value_room]);
    row
}

/// Calls with the rows of the pairs, some at once, up to the first that is refused, and says how many were before it.
fn in_batches<K, V, I, F>(pairs: I, mut call: F) -> std::result::Result<usize, Stopped>
where
    K: AsRef<[u8]>,
    V: AsRef<[u8]>,
    I: IntoIterator<Item = (K, V)>,
    F: FnMut(&[c::Row], &mut usize) -> i32,
{
    let (mut pairs, mut rows, mut all) = (pairs.into_iter(), Vec::with_capacity(MANY), 0);
    loop {
        rows.clear();
        rows.extend(pairs.by_ref().take(MANY).map(|(key, value)| row(key.as_ref(), value.as_ref())));
        let mut now = 0;
        let answer = call(&rows, &mut now);
        all += now;
        done(answer).map_err(|error| Stopped { done: all, error })?;
        if rows.len() < MANY {
            return Ok(all);
        }
    }
}

/// What a new store is: for how many keys, with blocks of 2^`block` cells, and of which version; and how a file is opened
/// ([`Options::open`]).
#[derive(Clone, Copy, Debug, PartialEq, Eq)]
pub struct Options {
    /// From 1 to [`KEYS_MAX`].
    pub keys: u64,
    /// From 3 to 9, and at most the logarithm of `keys` to the base 2, rounded up, where that is above 5. A larger block makes the worst call longer.
    pub block: u8,
    /// 1 or 2: cells of 64 or of 128 bytes. Stamps, longer keys and longer values are in version 2.
    pub version: u8,
    /// Whether a file that is not there, or is empty, is made first.
    pub create: bool,
    /// Whether the store is open to be read alone, as by [`Store::open_read_only`].
    pub read_only: bool,
    /// Whether the store is kept in memory, as by [`Store::open_resident`]. One that is read alone is not ([`Error::Options`]).
    pub resident: bool,
    /// Whether it is, and what was answered since its last checkpoint is in a log beside the file, and outlives the process.
    pub logged: bool,
    /// Whether it has a log, and what was answered is on the disk, and outlives the machine.
    pub synced: bool,
}

impl Default for Options {
    /// 65,536 keys, blocks of 32 cells, version 1; no file is made, and the store is open to be read and written.
    fn default() -> Options {
        Options { keys: 65_536, block: 5, version: 1, create: false, read_only: false, resident: false, logged: false, synced: false }
    }
}

impl Options {
    /// These, with the store kept in memory or not.
    pub fn resident(self, resident: bool) -> Options {
        Options { resident, ..self }
    }

    /// These, with a log or not.
    pub fn logged(self, logged: bool) -> Options {
        Options { logged, ..self }
    }

    /// These, with each call on the disk or not.
    pub fn synced(self, synced: bool) -> Options {
        Options { synced, ..self }
    }

    /// The flags of cola_file_open_as. The library refuses a store that is read alone and is to be more.
    fn flags(&self) -> u32 {
        let asked = [(self.read_only, c::READ_ONLY), (self.resident, c::RESIDENT), (self.logged, c::LOGGED), (self.synced, c::SYNCED)];
        asked.iter().map(|&(is_asked, flag)| if is_asked { flag } else { 0 }).sum()
    }

    /// Opens the store in a file, so. A file that is there is opened as it is, whatever it was made with.
    ///
    /// ```no_run
    /// # fn main() -> cola::Result<()> {
    /// let store = cola::Options { keys: 1000, create: true, ..Default::default() }.open("notes")?;
    /// # Ok(())
    /// # }
    /// ```
    pub fn open(&self, path: impl AsRef<Path>) -> Result<Store> {
        let path = path.as_ref();
        if self.create && is_to_be_made(path)? {
            match Store::create(path, self) {
                Err(Error::NotEmpty) => {} // (another process has made it, or makes it)
                Err(Error::System(cause)) if cause.kind() == io::ErrorKind::WouldBlock => {}
                other => other?,
            }
        }
        Store::open_as(path, self.flags())
    }

    /// The bytes of the file.
    pub fn size(&self) -> Result<u64> {
        let mut bytes = 0;
        // SAFETY: the pointer is that of a number here.
        done(unsafe { c::cola_size(self.keys, self.block, self.version, &mut bytes) })?;
        Ok(bytes)
    }
}

/// An open store in a file. It is closed when it is dropped; [`Store::close`] says whether that was done.
///
/// It may be moved to another thread, and be shared by threads behind a lock.
pub struct Store {
    file: Box<UnsafeCell<c::File>>,
}

// SAFETY: the library has no global state and none of a thread.
unsafe impl Send for Store {}

impl fmt::Debug for Store {
    fn fmt(&self, out: &mut fmt::Formatter) -> fmt::Result {
        out.debug_struct("Store").field("count", &self.count()).finish()
    }
}

impl Store {
    /// Makes the file of a new, closed store. A file that is there has to be empty ([`Error::NotEmpty`]).
    pub fn create(path: impl AsRef<Path>, options: &Options) -> Result<()> {
        let path = text(path.as_ref())?;
        // SAFETY: the path ends with a zero byte.
        done(unsafe { c::cola_file_create(path.as_ptr(), options.keys, options.block, options.version) })
    }

    /// Opens the store in a file, for this process alone, and maps it into memory: [`Options::open`] does so in other ways too.
    pub fn open(path: impl AsRef<Path>) -> Result<Store> {
        Store::open_as(path.as_ref(), 0)
    }

    /// Opens the store in a file to be read alone, beside others that read it: no byte of the file is written, and what would
    /// change the store is [`Error::ReadOnly`]. The file may be one that this process may not write.
    pub fn open_read_only(path: impl AsRef<Path>) -> Result<Store> {
        Store::open_as(path.as_ref(), c::READ_ONLY)
    }

    /// Opens the store in a file and keeps it in memory, as much as the file has: no call on it waits for the disk. The file has
    /// its last [`Store::checkpoint`] whenever the process dies, once it is opened; the close is one too, but the drop
    /// of a thread that panics is none.
    pub fn open_resident(path: impl AsRef<Path>) -> Result<Store> {
        Store::open_as(path.as_ref(), c::RESIDENT)
    }

    fn open_as(path: &Path, flags: u32) -> Result<Store> {
        let path = text(path)?;
        let store = Store { file: Box::new(UnsafeCell::new(c::CLOSED)) };
        // SAFETY: the handle is a closed one, and stays where it is, in its box.
        done(unsafe { c::cola_file_open_as(store.file.get(), path.as_ptr(), flags) })?;
        Ok(store)
    }

    /// The handle for the calls of cola.h. No reference to what it points to is ever made, and no two threads have a `&Store`.
    fn handle(&self) -> *mut c::Cola {
        // SAFETY: the box lives as long as self.
        unsafe { ptr::addr_of_mut!((*self.file.get()).store) }
    }

    /// Gives the key a value, and says whether the key was there before.
    pub fn put(&mut self, key: impl AsRef<[u8]>, value: impl AsRef<[u8]>) -> Result<bool> {
        let (key, value, mut was) = (key.as_ref(), value.as_ref(), false);
        // SAFETY: pointers with the lengths of their slices.
        done(unsafe { c::cola_put(self.handle(), key.as_ptr(), key.len(), value.as_ptr(), value.len(), &mut was) })?;
        Ok(was)
    }

    /// A put that is made only where the key has the stamp that was seen, 0 where it is absent. `None` where it was made;
    /// `Some` is another stamp that the key has, and nothing changed. In a file of version 1 each stamp is 0.
    pub fn put_if(&mut self, key: impl AsRef<[u8]>, seen: u64, value: impl AsRef<[u8]>) -> Result<Option<u64>> {
        let (key, value, mut stamp) = (key.as_ref(), value.as_ref(), 0);
        // SAFETY: pointers with the lengths of their slices.
        let answer =
            unsafe { c::cola_put_if(self.handle(), key.as_ptr(), key.len(), seen, value.as_ptr(), value.len(), &mut stamp) };
        Ok(if done_or(answer, OTHER)? { None } else { Some(stamp) })
    }

    /// The value of the key, `None` where it is absent.
    pub fn get(&self, key: impl AsRef<[u8]>) -> Result<Option<Vec<u8>>> {
        let (key, mut value, mut length) = (key.as_ref(), [0; VALUE_MAX], 0);
        // SAFETY: a value has at most VALUE_MAX bytes.
        let answer = unsafe { c::cola_get(self.handle(), key.as_ptr(), key.len(), value.as_mut_ptr(), &mut length) };
        Ok(done_or(answer, NONE)?.then(|| value[..length].to_vec()))
    }

    /// The stamp of the key, the number of the put that gave its value; `None` where it is absent. 0 in a file of version 1.
    pub fn stamp(&self, key: impl AsRef<[u8]>) -> Result<Option<u64>> {
        let (key, mut stamp) = (key.as_ref(), 0);
        // SAFETY: a pointer with the length of its slice.
        let answer = unsafe { c::cola_stamp(self.handle(), key.as_ptr(), key.len(), &mut stamp) };
        Ok(done_or(answer, NONE)?.then_some(stamp))
    }

    /// Takes the key out, and says whether it was there.
    pub fn delete(&mut self, key: impl AsRef<[u8]>) -> Result<bool> {
        let key = key.as_ref();
        // SAFETY: a pointer with the length of its slice.
        done_or(unsafe { c::cola_delete(self.handle(), key.as_ptr(), key.len()) }, NONE)
    }

    /// Puts the pairs, one by one in their order, up to the first that is refused, and says how many they were. They are taken
    /// some at a time: where one is refused, or the iterator panics, others may have been taken and not put.
    ///
    /// ```no_run
    /// # fn main() -> cola::Result<()> {
    /// # let mut store = cola::Store::open("notes")?;
    /// store.update([("user:1001", "Ada"), ("user:1002", "Grace")])?;
    /// # Ok(())
    /// # }
    /// ```
    pub fn update<K, V, I>(&mut self, pairs: I) -> std::result::Result<usize, Stopped>
    where
        K: AsRef<[u8]>,
        V: AsRef<[u8]>,
        I: IntoIterator<Item = (K, V)>,
    {
        // SAFETY: a pointer with the number of its rows.
        in_batches(pairs, |rows, put| unsafe { c::cola_put_many(self.handle(), rows.as_ptr(), rows.len(), ptr::null_mut(), put) })
    }

    /// The values of the keys, in their order; `None` where a key is absent.
    pub fn get_many<K: AsRef<[u8]>>(&self, keys: impl IntoIterator<Item = K>) -> Result<Vec<Option<Vec<u8>>>> {
        let (mut keys, mut rows, mut values) = (keys.into_iter(), Vec::with_capacity(MANY), Vec::new());
        loop {
            rows.clear();
            rows.extend(keys.by_ref().take(MANY).map(|key| row(key.as_ref(), &[])));
            let (mut there, mut asked) = ([false; MANY], 0);
            // SAFETY: pointers to as many rows and bools, or more.
            done(unsafe { c::cola_get_many(self.handle(), rows.as_mut_ptr(), rows.len(), there.as_mut_ptr(), &mut asked) })?;
            let rows_there = rows.iter().zip(there);
            values.extend(rows_there.map(|(row, is_there)| is_there.then(|| row.value[..usize::from(row.value_len)].to_vec())));
            if rows.len() < MANY {
                return Ok(values);
            }
        }
    }

    /// The number of keys.
    pub fn count(&self) -> Result<u64> {
        let mut count = 0;
        // SAFETY: the pointer is that of a number here.
        done(unsafe { c::cola_count(self.handle(), &mut count) })?;
        Ok(count)
    }

    /// Makes the file of a resident store have what the store has, and waits until it is on the disk: what changed is written.
    /// After [`Error::System`] the store goes on, and the file has its last checkpoint, or this one. Of any other store it is
    /// [`Error::NotResident`].
    ///
    /// ```no_run
    /// # fn main() -> cola::Result<()> {
    /// let mut store = cola::Options::default().resident(true).open("notes")?;
    /// store.put("user:1001", "Ada")?;
    /// store.checkpoint()?;
    /// # Ok(())
    /// # }
    /// ```
    pub fn checkpoint(&mut self) -> Result<()> {
        // SAFETY: no copy is asked for.
        done(unsafe { c::cola_file_checkpoint(self.file.get(), ptr::null()) })
    }

    /// [`Store::checkpoint`], by another name.
    pub fn save(&mut self) -> Result<()> {
        self.checkpoint()
    }

    /// Makes a copy of any store as it is now, a closed store, in a file that is replaced as a whole, and waits until it is on
    /// the disk. It writes as many bytes as the file has.
    pub fn checkpoint_to(&mut self, copy: impl AsRef<Path>) -> Result<()> {
        let copy = text(copy.as_ref())?;
        // SAFETY: the path ends with a zero byte.
        done(unsafe { c::cola_file_checkpoint(self.file.get(), copy.as_ptr()) })
    }

    /// Waits until what was answered by a store with a log is on the disk. A store without one: [`Error::Options`].
    pub fn sync(&mut self) -> Result<()> {
        // SAFETY: the handle is that of a store here.
        done(unsafe { c::cola_file_sync(self.file.get()) })
    }

    /// Closes a resident store without a checkpoint: what changed since the last one is gone, but stays in the log of a store that
    /// has one. Any other is closed.
    pub fn discard(self) -> Result<()> {
        // SAFETY: as a close.
        done(unsafe { c::cola_file_discard(self.file.get()) })
    }

    /// Closes the store; after `Ok` all is on the disk.
    pub fn close(mut self) -> Result<()> {
        self.shut()
    }

    fn shut(&mut self) -> Result<()> {
        // SAFETY: a closed handle is refused, and an open one is closed whatever the answer is.
        done(unsafe { c::cola_file_close(self.file.get()) })
    }
}

impl Drop for Store {
    fn drop(&mut self) {
        if std::thread::panicking() {
            // SAFETY: as a close.
            unsafe { c::cola_file_discard(self.file.get()) };
        }
        let _ = self.shut();
    }
}
