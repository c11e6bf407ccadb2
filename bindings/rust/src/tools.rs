//! Whole stores: tested, grown, and filled with sorted rows.

use crate::{c, done, done_or, in_batches, text, Options, Result, Stopped, Store, BROKEN};
use std::path::Path;

/// What [`Store::check`] says of a closed store.
#[derive(Clone, Copy, Debug, PartialEq, Eq)]
pub enum Verdict {
    /// It stands for a map of so many keys.
    Sound(u64),
    /// It stands for none: the first flaw, with the level and the cell of the file where it shows.
    Broken(Flaw, u32, u64),
}

/// What is wrong with a store.
#[derive(Clone, Copy, Debug, PartialEq, Eq)]
#[non_exhaustive]
pub enum Flaw {
    /// A cell of a run is none.
    Cell,
    /// In a run keys do not rise, or a link is wrong.
    Order,
    /// A run has other lookahead cells than the run below gives.
    Sample,
    /// A run has more items than its level may have.
    Length,
    /// The run that a level builds is not what it builds.
    Shadow,
    /// There are more keys than the store is for.
    Live,
    /// The header has another number of keys.
    Count,
    /// A stamp is above the last one that was given.
    Stamp,
    /// A number that this crate doesn't know.
    Unknown(u32),
}

impl Flaw {
    fn of(number: u32) -> Flaw {
        match number {
            1 => Flaw::Cell,
            2 => Flaw::Order,
            3 => Flaw::Sample,
            4 => Flaw::Length,
            5 => Flaw::Shadow,
            6 => Flaw::Live,
            7 => Flaw::Count,
            8 => Flaw::Stamp,
            _ => Flaw::Unknown(number),
        }
    }
}

impl Store {
    /// Tests the closed store in a file, all of it, beside others that read it. It writes nothing but what a journal or a log beside
    /// the file has, as an opening does.
    pub fn check(path: impl AsRef<Path>) -> Result<Verdict> {
        let (path, mut verdict) = (text(path.as_ref())?, c::Verdict::default());
        // SAFETY: the path ends with a zero byte.
        let is_sound = done_or(unsafe { c::cola_file_check(path.as_ptr(), &mut verdict) }, BROKEN)?;
        Ok(if is_sound { Verdict::Sound(verdict.count) } else { Verdict::Broken(Flaw::of(verdict.flaw), verdict.level, verdict.cell) })
    }

    /// Makes the closed store in a file one for so many keys, with blocks of 2^`block` cells, and says how many rows it has. The file
    /// is replaced as a whole, and is on the disk then; a refusal leaves it. It writes as many bytes as the new file has.
    pub fn grow(path: impl AsRef<Path>, keys: u64, block: u8) -> Result<u64> {
        let (path, mut rows) = (text(path.as_ref())?, 0);
        // SAFETY: the path ends with a zero byte.
        done(unsafe { c::cola_file_grow(path.as_ptr(), keys, block, &mut rows) })?;
        Ok(rows)
    }
}

/// A new store that is filled with rows by rising keys. Its file is there once [`Loader::finish`] has ended; a loader that
/// is dropped before leaves nothing.
///
/// ```
/// # fn main() -> cola::Result<()> {
/// # let path = std::env::temp_dir().join(format!("cola-load-{}", std::process::id()));
/// # let _ = std::fs::remove_file(&path);
/// use cola::{Loader, Options, Store, Verdict};
///
/// let mut loader = Loader::create(&path, &Options { keys: 1000, ..Options::default() })?;
/// loader.row("user:1001", "Ada")?;
/// loader.update([("user:1002", "Grace"), ("user:1003", "Edsger")])?;
/// assert_eq!(loader.finish()?, 3);
/// assert_eq!(Store::check(&path)?, Verdict::Sound(3));
/// # std::fs::remove_file(&path)?;
/// # Ok(())
/// # }
/// ```
pub struct Loader {
    load: c::FileLoad,
}

// SAFETY: the library has no global state and none of a thread.
unsafe impl Send for Loader {}

impl Loader {
    /// Begins the file of a new store. A file that is there has to be empty ([`crate::Error::NotEmpty`]).
    pub fn create(path: impl AsRef<Path>, options: &Options) -> Result<Loader> {
        let (path, mut load) = (text(path.as_ref())?, c::NO_LOAD);
        // SAFETY: the path ends with a zero byte, and the handle is a closed one.
        done(unsafe { c::cola_file_load_begin(&mut load, path.as_ptr(), options.keys, options.block, options.version) })?;
        Ok(Loader { load })
    }

    /// The next row. One that is refused is left out: [`crate::Error::Order`], where its key is not above the one before, `Length`, `Full`.
    pub fn row(&mut self, key: impl AsRef<[u8]>, value: impl AsRef<[u8]>) -> Result<()> {
        let (key, value) = (key.as_ref(), value.as_ref());
        // SAFETY: pointers with the lengths of their slices.
        done(unsafe { c::cola_load_row(&mut self.load.load, key.as_ptr(), key.len(), value.as_ptr(), value.len()) })
    }

    /// The next rows, up to the first that is refused, and how many they were.
    pub fn update<K, V, I>(&mut self, pairs: I) -> std::result::Result<usize, Stopped>
    where
        K: AsRef<[u8]>,
        V: AsRef<[u8]>,
        I: IntoIterator<Item = (K, V)>,
    {
        // SAFETY: a pointer with the number of its rows.
        in_batches(pairs, |rows, loaded| unsafe { c::cola_load_many(&mut self.load.load, rows.as_ptr(), rows.len(), loaded) })
    }

    /// Ends it, and says how many rows the store has: it is closed, and its file on the disk. Where it fails nothing is left of it.
    pub fn finish(mut self) -> Result<u64> {
        let mut rows = 0;
        // SAFETY: the handle is open; it is closed then, whatever the answer is.
        done(unsafe { c::cola_file_load_end(&mut self.load, &mut rows) })?;
        Ok(rows)
    }
}

impl Drop for Loader {
    fn drop(&mut self) {
        // SAFETY: a handle that is closed is refused.
        unsafe { c::cola_file_load_drop(&mut self.load) };
    }
}
