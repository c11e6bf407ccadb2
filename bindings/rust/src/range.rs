//! Rows of a store in order, from either end.

use crate::{c, done_or, Result, Store, KEY_MAX, NONE};
use std::iter::FusedIterator;
use std::ops::{Bound, RangeBounds};
use std::{ptr, vec};

/// How many rows an iterator asks for at once.
const ROWS: usize = 32;

impl Store {
    /// All rows, by rising keys.
    pub fn iter(&self) -> Range<'_> {
        self.between(Place::FIRST, Place::LAST)
    }

    /// The rows whose keys lie in the range, by rising keys, or with `rev` by falling ones. The bounds may be of any length.
    ///
    /// ```no_run
    /// # fn main() -> cola::Result<()> {
    /// # let store = cola::Store::open("notes")?;
    /// let below = store.range(.."b").collect::<cola::Result<Vec<_>>>()?;
    /// let among = store.range([1, 2, 3]..=[1, 9, 9]).next();
    /// let newest = store.range("log:".."log;").rev().take(100);
    /// # Ok(())
    /// # }
    /// ```
    pub fn range<K: AsRef<[u8]>, R: RangeBounds<K>>(&self, range: R) -> Range<'_> {
        let low = match range.start_bound() {
            Bound::Included(key) => Place::before(key.as_ref()),
            Bound::Excluded(key) => Place::behind(key.as_ref()),
            Bound::Unbounded => Place::FIRST,
        };
        let high = match range.end_bound() {
            Bound::Included(key) => Place::behind(key.as_ref()),
            Bound::Excluded(key) => Place::before(key.as_ref()),
            Bound::Unbounded => Place::LAST,
        };
        self.between(low, high)
    }

    /// The rows whose keys begin with these bytes, by rising keys; all rows, where there is none.
    pub fn prefix(&self, prefix: impl AsRef<[u8]>) -> Range<'_> {
        let prefix = prefix.as_ref();
        let mut cursor = c::CURSOR;
        // SAFETY: a pointer with the length of its slice. One that is longer than any key is refused, and no key begins so.
        if unsafe { c::cola_seek_prefix(&mut cursor, prefix.as_ptr(), prefix.len()) } != 0 {
            return self.between(Place::FIRST, Place::FIRST);
        }
        let high = if cursor.bounded { Place::before(&cursor.until[..cursor.until_len.into()]) } else { Place::LAST };
        self.between(Place::before(prefix), high)
    }

    fn between(&self, low: Place, high: Place) -> Range<'_> {
        let is_over = !low.is_before(&high);
        let (front, back) = (Side::new(c::cola_next, low, &high, is_over), Side::new(c::cola_prev, high, &high, is_over));
        Range { store: self, low, high, front, back }
    }

    /// The row of the greatest key, `None` where there is no key.
    pub fn last(&self) -> Result<Option<(Vec<u8>, Vec<u8>)>> {
        let (mut cursor, mut row, mut given) = (c::CURSOR, c::ROW, 0);
        // SAFETY: there is no bound and room for a row.
        let answer = unsafe {
            c::cola_seek_last(&mut cursor, ptr::null(), 0);
            c::cola_prev(self.handle(), &mut cursor, &mut row, 1, &mut given)
        };
        Ok(done_or(answer, NONE)?.then(|| pair(&row)))
    }
}

impl<'a> IntoIterator for &'a Store {
    type Item = Result<(Vec<u8>, Vec<u8>)>;
    type IntoIter = Range<'a>;

    fn into_iter(self) -> Range<'a> {
        self.iter()
    }
}

/// A place between two keys: before a key that may be there, or behind it.
#[derive(Clone, Copy)]
struct Place {
    len: u8,
    is_behind: bool,
    key: [u8; KEY_MAX],
}

impl Place {
    /// Before all keys.
    const FIRST: Place = Place { len: 0, is_behind: false, key: [0; KEY_MAX] };
    /// Behind all keys.
    const LAST: Place = Place { len: KEY_MAX as u8, is_behind: true, key: [u8::MAX; KEY_MAX] };

    /// No key is longer than KEY_MAX: the place of a longer key is behind its first KEY_MAX bytes.
    fn of(key: &[u8], is_behind: bool) -> Place {
        let mut place = Place { len: key.len().min(KEY_MAX) as u8, is_behind: is_behind || key.len() > KEY_MAX, ..Place::FIRST };
        place.key[..place.len.into()].copy_from_slice(&key[..place.len.into()]);
        place
    }

    fn before(key: &[u8]) -> Place {
        Place::of(key, false)
    }

    fn behind(key: &[u8]) -> Place {
        Place::of(key, true)
    }

    fn key(&self) -> &[u8] {
        &self.key[..self.len.into()]
    }

    /// Whether the key lies behind this place.
    fn is_below(&self, key: &[u8]) -> bool {
        if self.is_behind { self.key() < key } else { self.key() <= key }
    }

    fn is_before(&self, other: &Place) -> bool {
        (self.key(), self.is_behind) < (other.key(), other.is_behind)
    }
}

type Walk = unsafe extern "C" fn(*mut c::Cola, *mut c::Cursor, *mut c::Row, usize, *mut usize) -> i32;

/// One end of a range, from which rows are asked for, some at once.
struct Side {
    walk: Walk,
    cursor: c::Cursor,
    rows: vec::IntoIter<c::Row>,
    is_over: bool,
}

impl Side {
    /// From a place on, of a range that ends at the high one.
    fn new(walk: Walk, from: Place, high: &Place, is_over: bool) -> Side {
        let mut cursor = c::Cursor { from_len: from.len, behind: from.is_behind, from: from.key, ..c::CURSOR };
        // (The cursor's own end is one before a key: it saves the rows behind it.)
        if !high.is_behind {
            cursor = c::Cursor { bounded: true, until_len: high.len, until: high.key, ..cursor };
        }
        Side { walk, cursor, rows: Vec::new().into_iter(), is_over }
    }

    /// The next row, `None` where there is none.
    fn next(&mut self, store: &Store) -> Result<Option<c::Row>> {
        if self.rows.len() == 0 && !self.is_over {
            let (mut rows, mut given) = (vec![c::ROW; ROWS], 0);
            // SAFETY: there is room for ROWS rows.
            let answer = unsafe { (self.walk)(store.handle(), &mut self.cursor, rows.as_mut_ptr(), ROWS, &mut given) };
            self.is_over = !done_or(answer, NONE)?;
            rows.truncate(if self.is_over { 0 } else { given });
            self.rows = rows.into_iter();
        }
        Ok(self.rows.next())
    }

    fn end(&mut self) {
        self.is_over = true;
        self.rows = Vec::new().into_iter();
    }
}

/// Rows of a store, each a key with its value, by rising keys, or with [`Iterator::rev`] by falling ones. After an error it gives none.
pub struct Range<'a> {
    store: &'a Store,
    /// What was given lies before `low` or behind `high`.
    low: Place,
    high: Place,
    front: Side,
    back: Side,
}

impl Range<'_> {
    /// What one side gives: a row between the two places, or nothing more from either side.
    fn given(&mut self, row: Result<Option<c::Row>>) -> Option<Result<c::Row>> {
        match row {
            Ok(Some(row)) if self.low.is_below(key(&row)) && !self.high.is_below(key(&row)) => Some(Ok(row)),
            Ok(_) => {
                self.end();
                None
            }
            Err(error) => {
                self.end();
                Some(Err(error))
            }
        }
    }

    fn end(&mut self) {
        self.front.end();
        self.back.end();
    }
}

fn key(row: &c::Row) -> &[u8] {
    &row.key[..row.key_len.into()]
}

fn pair(row: &c::Row) -> (Vec<u8>, Vec<u8>) {
    (key(row).to_vec(), row.value[..row.value_len.into()].to_vec())
}

impl Iterator for Range<'_> {
    type Item = Result<(Vec<u8>, Vec<u8>)>;

    fn next(&mut self) -> Option<Self::Item> {
        let row = self.front.next(self.store);
        let given = self.given(row)?;
        Some(given.map(|row| {
            self.low = Place::behind(key(&row));
            pair(&row)
        }))
    }
}

impl DoubleEndedIterator for Range<'_> {
    fn next_back(&mut self) -> Option<Self::Item> {
        let row = self.back.next(self.store);
        let given = self.given(row)?;
        Some(given.map(|row| {
            self.high = Place::before(key(&row));
            pair(&row)
        }))
    }
}

impl FusedIterator for Range<'_> {}
