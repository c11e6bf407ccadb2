//! What a store tells of itself.

use crate::{c, done, Result, Store};

impl Store {
    /// What the store is, and how full.
    pub fn info(&self) -> Result<Info> {
        let mut info = c::StoreInfo::default();
        // SAFETY: the pointer is that of a struct here, and so are those below.
        done(unsafe { c::cola_info(self.handle(), &mut info) })?;
        let mut levels = Vec::with_capacity(info.levels.into());
        for number in 0..info.levels {
            let mut level = c::LevelInfo::default();
            done(unsafe { c::cola_level(self.handle(), number, &mut level) })?;
            levels.push(Level { visible: level.visible, shadow: level.shadow, room: level.room });
        }
        Ok(Info {
            keys: info.keys,
            count: info.count,
            bytes: info.bytes,
            write_bound: info.write_bound,
            get_bound: info.get_bound,
            version: info.version,
            block: info.block,
            levels,
        })
    }
}

/// What a store is, and how full ([`Store::info`]).
#[derive(Clone, Debug, PartialEq, Eq)]
#[non_exhaustive]
pub struct Info {
    /// The keys that it is for.
    pub keys: u64,
    /// The keys that it has.
    pub count: u64,
    /// Its bytes in the file.
    pub bytes: u64,
    /// The cell accesses that a put or a delete makes at most.
    pub write_bound: u64,
    /// The cell accesses that a get makes at most.
    pub get_bound: u64,
    /// The version of its file.
    pub version: u8,
    /// Its blocks have 2^`block` cells.
    pub block: u8,
    /// Its levels, from the one that takes a put on.
    pub levels: Vec<Level>,
}

/// How far a level is filled, in cells.
#[derive(Clone, Copy, Debug, PartialEq, Eq)]
#[non_exhaustive]
pub struct Level {
    /// The cells of the run that searches read.
    pub visible: u64,
    /// The cells of the run that the level builds.
    pub shadow: u64,
    /// The cells that either run may have.
    pub room: u64,
}
