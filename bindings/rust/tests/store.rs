//! What a store answers, beside a `BTreeMap`; each error that a file gives; that a dropped store is closed.

use cola::{Error, Flaw, Loader, Options, Store, Verdict};
use std::collections::BTreeMap;
use std::fs;
use std::ops::Bound;
use std::path::PathBuf;

/// A folder of one test, removed at its end.
struct Folder(PathBuf);

impl Folder {
    fn new(name: &str) -> Folder {
        let path = std::env::temp_dir().join(format!("cola-{name}-{}", std::process::id()));
        let _ = fs::remove_dir_all(&path);
        fs::create_dir_all(&path).unwrap();
        Folder(path)
    }

    fn path(&self, name: &str) -> PathBuf {
        self.0.join(name)
    }

    fn store(&self, options: &Options) -> Store {
        Store::create(self.path("store"), options).unwrap();
        Store::open(self.path("store")).unwrap()
    }
}

impl Drop for Folder {
    fn drop(&mut self) {
        let _ = fs::remove_dir_all(&self.0);
    }
}

type Rows = Vec<(Vec<u8>, Vec<u8>)>;

fn rows(range: cola::Range) -> Rows {
    range.collect::<cola::Result<_>>().unwrap()
}

struct Random(u64);

impl Random {
    fn below(&mut self, most: u64) -> u64 {
        self.0 ^= self.0 << 13;
        self.0 ^= self.0 >> 7;
        self.0 ^= self.0 << 17;
        (self.0 >> 11) % most
    }

    fn key(&mut self) -> Vec<u8> {
        let number = self.below(500);
        (0..1 + number % 9).map(|at| (number * 31 + at * at) as u8).collect()
    }
}

#[test]
fn it_answers_as_a_map() {
    let folder = Folder::new("map");
    let mut store = folder.store(&Options { keys: 1000, version: 2, ..Options::default() });
    let mut map: BTreeMap<Vec<u8>, Vec<u8>> = BTreeMap::new();
    let mut random = Random(20261128);
    for step in 0..5000u32 {
        let key = random.key();
        match random.below(4) {
            0 | 1 => {
                let value = step.to_be_bytes().repeat(random.below(19) as usize);
                assert_eq!(store.put(&key, &value).unwrap(), map.insert(key, value).is_some());
            }
            2 => assert_eq!(store.delete(&key).unwrap(), map.remove(&key).is_some()),
            _ => assert_eq!(store.get(&key).unwrap(), map.get(&key).cloned()),
        }
        if step % 250 == 0 {
            let (low, high) = (random.key(), random.key());
            let (low, high) = (low.as_slice(), high.as_slice());
            assert_eq!(rows(store.iter()), map.clone().into_iter().collect::<Rows>());
            for bounds in [
                (Bound::Included(low), Bound::Excluded(high)),
                (Bound::Excluded(low), Bound::Included(high)),
                (Bound::Unbounded, Bound::Included(high)),
                (Bound::Excluded(low), Bound::Unbounded),
            ] {
                let wanted: Rows = map.iter().filter(|(key, _)| within(key, bounds)).map(|(k, v)| (k.clone(), v.clone())).collect();
                assert_eq!(rows(store.range::<&[u8], _>(bounds)), wanted);
                from_both_ends(&mut store.range::<&[u8], _>(bounds), &wanted, &mut random);
            }
            assert_eq!(store.last().unwrap(), map.clone().into_iter().next_back());
            store.close().unwrap();
            store = Store::open(folder.path("store")).unwrap();
        }
    }
    assert_eq!(store.count().unwrap(), map.len() as u64);
}

/// Takes rows from either end, in turns of some, until none is left.
fn from_both_ends(range: &mut cola::Range, wanted: &Rows, random: &mut Random) {
    let mut wanted = wanted.iter().cloned();
    while wanted.len() > 0 {
        let falls = random.below(2) == 1;
        for _ in 0..1 + random.below(50) {
            let (row, plain) = if falls { (range.next_back(), wanted.next_back()) } else { (range.next(), wanted.next()) };
            assert_eq!(row.transpose().unwrap(), plain);
        }
    }
    assert!(range.next_back().is_none() && range.next().is_none());
}

fn within(key: &[u8], bounds: (Bound<&[u8]>, Bound<&[u8]>)) -> bool {
    let above = match bounds.0 {
        Bound::Included(low) => key >= low,
        Bound::Excluded(low) => key > low,
        Bound::Unbounded => true,
    };
    above
        && match bounds.1 {
            Bound::Included(high) => key <= high,
            Bound::Excluded(high) => key < high,
            Bound::Unbounded => true,
        }
}

#[test]
fn bounds_may_be_longer_than_keys() {
    for version in [1, 2] {
        let folder = Folder::new(&format!("bounds-{version}"));
        let mut store = folder.store(&Options { keys: 10, version, ..Options::default() });
        let longest = vec![b'a'; if version == 1 { 24 } else { 40 }];
        store.put(&longest, "longest").unwrap();
        store.put("b", "behind").unwrap();
        for length in [24, 25, 39, 40, 41, 100] {
            let bound = &vec![b'a'; length][..];
            let has_longest = length <= longest.len();
            assert_eq!(rows(store.range(bound..)).len(), 1 + usize::from(has_longest));
            assert_eq!(rows(store.range(..bound)).len(), usize::from(length > longest.len()));
            assert_eq!(rows(store.range(..=bound)).len(), usize::from(length >= longest.len()));
            assert_eq!(store.range(bound..).rev().count(), 1 + usize::from(has_longest));
            assert_eq!(store.range(..bound).rev().count(), usize::from(length > longest.len()));
            assert_eq!(store.range(..=bound).rev().count(), usize::from(length >= longest.len()));
        }
    }
}

#[test]
fn a_prefix_has_the_keys_that_begin_so() {
    let folder = Folder::new("prefix");
    let mut store = folder.store(&Options { keys: 1000, version: 2, ..Options::default() });
    let mut map: BTreeMap<Vec<u8>, Vec<u8>> = BTreeMap::new();
    let mut random = Random(20261129);
    for step in 0..900u32 {
        let mut key = random.key();
        if step % 3 == 0 {
            key.splice(0..0, [[255, 255, 255], [255, 255, 0], [254, 255, 255]][random.below(3) as usize]);
        }
        store.put(&key, step.to_be_bytes()).unwrap();
        map.insert(key, step.to_be_bytes().to_vec());
    }
    let mut prefixes: Vec<Vec<u8>> = map.keys().step_by(7).map(|key| key[..key.len() / 2].to_vec()).collect();
    prefixes.extend([vec![], vec![0], vec![255], vec![255; 2], vec![255; 3], vec![255; 4], vec![254, 255], vec![7; 40], vec![7; 41]]);
    prefixes.extend(map.keys().step_by(11).cloned());
    for prefix in prefixes {
        let wanted: Rows = map.iter().filter(|(key, _)| key.starts_with(&prefix)).map(|(k, v)| (k.clone(), v.clone())).collect();
        assert_eq!(rows(store.prefix(&prefix)), wanted, "{prefix:?}");
        from_both_ends(&mut store.prefix(&prefix), &wanted, &mut random);
        let fallen = store.prefix(&prefix).rev().collect::<cola::Result<Rows>>().unwrap();
        assert_eq!(fallen, wanted.into_iter().rev().collect::<Rows>(), "{prefix:?}");
    }
    store.put([9; 40], "longest").unwrap();
    assert_eq!(rows(store.prefix([9; 40])).len(), 1);
    assert_eq!(rows(store.prefix([9; 41])).len(), 0);
    assert_eq!(rows(store.prefix([9; 1000])).len(), 0);
    assert_eq!(store.prefix([9; 41]).next_back().transpose().unwrap(), None);
}

#[test]
fn a_store_says_what_it_is() {
    let folder = Folder::new("info");
    let options = Options { keys: 1000, block: 4, version: 2, ..Options::default() };
    let mut store = folder.store(&options);
    assert_eq!(store.last().unwrap(), None);
    let empty = store.info().unwrap();
    assert_eq!((empty.keys, empty.block, empty.version, empty.count), (1000, 4, 2, 0));
    assert_eq!(empty.bytes, options.size().unwrap());
    assert_eq!(empty.bytes, fs::metadata(folder.path("store")).unwrap().len());
    store.update((0..700u32).map(|at| (at.to_be_bytes(), "value"))).unwrap();
    let info = store.info().unwrap();
    assert_eq!(info.count, 700);
    let levels = info.levels.len() as u64;
    assert_eq!((info.write_bound, info.get_bound), (40 * levels, 8 * levels));
    assert!(info.levels.iter().zip(2..).all(|(level, power)| level.room == 1 << power && level.visible.max(level.shadow) <= level.room));
    assert!(info.levels.iter().map(|level| level.visible).sum::<u64>() >= 700);
    assert_eq!(store.last().unwrap(), Some((699u32.to_be_bytes().to_vec(), b"value".to_vec())));
    assert_eq!(store.iter().rev().take(3).map(|row| row.unwrap().0[3]).collect::<Vec<_>>(), [187, 186, 185]);
}

#[test]
fn many_rows_go_at_once() {
    let folder = Folder::new("many");
    let mut store = folder.store(&Options { keys: 1500, ..Options::default() });
    let pairs: Vec<(String, String)> = (0..1300).map(|at| (format!("k{:05}", at * 7919 % 1300), format!("v{at}"))).collect();
    assert_eq!(store.update(pairs.iter().map(|(key, value)| (key, value))).unwrap(), 1300);
    assert_eq!(store.update(Vec::<(&str, &str)>::new()).unwrap(), 0);
    assert_eq!(store.update([("k00000", "again"), ("k00000", "and again")]).unwrap(), 2);
    assert_eq!(store.count().unwrap(), 1300);
    let keys: Vec<String> = (0..1536).map(|at| format!("k{at:05}")).collect();
    let values = store.get_many(&keys).unwrap();
    assert_eq!(values.len(), 1536);
    for (key, value) in keys.iter().zip(&values) {
        assert_eq!(value, &store.get(key).unwrap());
    }
    assert_eq!(values[0].as_deref(), Some(&b"and again"[..]));
    assert_eq!(values[1300], None);
    assert_eq!(store.get_many(Vec::<&str>::new()).unwrap(), Vec::new());
    assert!(matches!(store.get_many(["k00001", ""]), Err(Error::Length)));
    assert!(matches!(store.get_many([[7; 25]]), Err(Error::Length)));
    let stopped = store.update([("a", &b"1"[..]), ("b", &[0; 33][..]), ("c", &b"3"[..])]).unwrap_err();
    assert_eq!(stopped.done, 1);
    assert!(matches!(Error::from(stopped), Error::Length));
    assert_eq!(store.get_many(["a", "b", "c"]).unwrap(), [Some(b"1".to_vec()), None, None]);
    for length in [255, 256, 1000] {
        assert!(matches!(store.update([(vec![7; length], "")]), Err(stopped) if stopped.done == 0 && stopped.error.answer() == 7));
    }
    let stopped = store.update((0..1000).map(|at| (format!("n{at}"), ""))).unwrap_err();
    assert_eq!((stopped.done, stopped.error.answer()), (199, 3));
    assert!(stopped.to_string().contains("199 pairs"));
    assert_eq!(store.count().unwrap(), 1500);
}

#[test]
fn a_store_that_is_read_alone_is_read_by_many() {
    let folder = Folder::new("readers");
    let mut store = folder.store(&Options { keys: 100, version: 2, ..Options::default() });
    let path = folder.path("store");
    store.update([("a", "1"), ("b", "2")]).unwrap();
    let is_in_use = |error: &Error| matches!(error, Error::System(cause) if cause.kind() == std::io::ErrorKind::WouldBlock);
    assert!(is_in_use(&Store::open_read_only(&path).unwrap_err()));
    store.close().unwrap();
    let bytes = fs::read(&path).unwrap();
    let (mut one, two) = (Store::open_read_only(&path).unwrap(), Store::open_read_only(&path).unwrap());
    assert!(is_in_use(&Store::open(&path).unwrap_err()));
    assert!(matches!(one.put("a", "2"), Err(Error::ReadOnly)));
    assert!(matches!(one.put_if("a", 1, "2"), Err(Error::ReadOnly)));
    assert!(matches!(one.delete("a"), Err(Error::ReadOnly)));
    assert!(matches!(one.update([("a", "2")]), Err(stopped) if matches!(stopped.error, Error::ReadOnly)));
    assert!(matches!(one.checkpoint_to(folder.path("copy")), Err(Error::ReadOnly)));
    assert_eq!(one.put("a", "2").unwrap_err().to_string(), "the store is open to be read alone");
    assert_eq!(rows(one.iter()), rows(two.range("a"..)));
    assert_eq!(one.get_many(["b", "c"]).unwrap(), [Some(b"2".to_vec()), None]);
    assert_eq!(two.stamp("b").unwrap(), Some(2));
    one.close().unwrap();
    assert_eq!(two.count().unwrap(), 2);
    drop(two);
    assert_eq!(fs::read(&path).unwrap(), bytes);
    Store::open(&path).unwrap().put("a", "3").unwrap();
}

#[test]
fn a_store_is_made_where_there_is_none() {
    let folder = Folder::new("made");
    let path = folder.path("store");
    let small = Options { keys: 1, version: 2, ..Options::default() };
    let made = Options { create: true, ..small };
    assert!(matches!(small.open(&path), Err(Error::System(cause)) if cause.kind() == std::io::ErrorKind::NotFound));
    assert!(matches!(Options { keys: 0, ..made }.open(&path), Err(Error::Options)));
    assert!(matches!(made.open(folder.path("none/store")), Err(Error::System(_))));
    fs::write(&path, "").unwrap();
    let mut store = made.open(&path).unwrap();
    store.put("a", "1").unwrap();
    assert!(matches!(made.open(&path), Err(Error::System(cause)) if cause.kind() == std::io::ErrorKind::WouldBlock));
    drop(store);
    let mut store = Options { keys: 9, read_only: true, ..made }.open(&path).unwrap();
    assert!(matches!(store.put("a", "2"), Err(Error::ReadOnly)));
    drop(store);
    let mut store = small.open(&path).unwrap();
    assert!(matches!(store.put("b", "2"), Err(Error::Full)));
    assert_eq!(store.stamp("a").unwrap(), Some(1));
    fs::remove_file(&path).unwrap();
    drop(store);
    assert!(matches!(Options { read_only: true, ..made }.open(&path).unwrap().put("a", "1"), Err(Error::ReadOnly)));
    fs::write(&path, "no store").unwrap();
    assert!(matches!(made.open(&path), Err(Error::Small)));
}

#[test]
fn stamps_make_puts_conditional() {
    let folder = Folder::new("stamps");
    let mut store = folder.store(&Options { keys: 10, version: 2, ..Options::default() });
    assert_eq!(store.stamp("hits").unwrap(), None);
    assert_eq!(store.put_if("hits", 0, "1").unwrap(), None);
    let seen = store.stamp("hits").unwrap().unwrap();
    assert_eq!(store.put_if("hits", seen + 1, "2").unwrap(), Some(seen));
    assert_eq!(store.put_if("hits", seen, "2").unwrap(), None);
    assert_eq!(store.get("hits").unwrap().unwrap(), b"2");
    assert!(store.stamp("hits").unwrap().unwrap() > seen);
}

#[test]
fn what_is_refused_is_an_error() {
    let folder = Folder::new("errors");
    let path = folder.path("store");
    let small = Options { keys: 1, ..Options::default() };
    assert!(matches!(Store::create(&path, &Options { keys: 0, ..small }), Err(Error::Options)));
    assert!(matches!(Store::open(&path), Err(Error::System(cause)) if cause.kind() == std::io::ErrorKind::NotFound));
    assert!(matches!(Store::open("a\0b"), Err(Error::System(_))));
    let mut store = folder.store(&small);
    assert!(matches!(Store::create(&path, &small), Err(Error::System(_)) | Err(Error::NotEmpty)));
    assert!(matches!(Store::open(&path), Err(Error::System(cause)) if cause.kind() == std::io::ErrorKind::WouldBlock));
    assert!(!store.put("a", "1").unwrap());
    assert!(store.put("a", "2").unwrap());
    assert!(matches!(store.put("b", "1"), Err(Error::Full)));
    assert!(matches!(store.put("", "1"), Err(Error::Length)));
    assert!(matches!(store.put("a", [0; 33]), Err(Error::Length)));
    assert!(matches!(store.get([0; 25]), Err(Error::Length)));
    assert_eq!(store.put("b", "1").unwrap_err().to_string(), "the store has as many keys as it is for");
    assert!(matches!(store.checkpoint_to(folder.path("none/copy")), Err(Error::System(_))));
    store.close().unwrap();
    assert!(matches!(Store::create(&path, &small), Err(Error::NotEmpty)));
    let bytes = fs::read(&path).unwrap();
    fs::write(&path, &bytes[1..]).unwrap();
    assert!(matches!(Store::open(&path), Err(Error::NotStore)));
    fs::write(&path, &bytes[..600]).unwrap();
    assert!(matches!(Store::open(&path), Err(Error::Small)));
}

#[test]
fn a_dropped_store_is_closed_and_a_leaked_one_is_not() {
    let folder = Folder::new("drop");
    let mut store = folder.store(&Options { keys: 100, ..Options::default() });
    store.put("a", "1").unwrap();
    drop(store);
    let mut store = Store::open(folder.path("store")).unwrap();
    assert_eq!(store.get("a").unwrap().unwrap(), b"1");
    store.checkpoint_to(folder.path("copy")).unwrap();
    store.put("a", "2").unwrap();
    // A copy of the bytes as a process that died would leave them.
    fs::copy(folder.path("store"), folder.path("died")).unwrap();
    assert!(matches!(Store::open(folder.path("died")), Err(Error::NotClosed)));
    assert_eq!(Store::open(folder.path("copy")).unwrap().get("a").unwrap().unwrap(), b"1");
    std::thread::spawn(move || store.put("b", "3").unwrap()).join().unwrap();
    assert_eq!(Store::open(folder.path("store")).unwrap().count().unwrap(), 2);
}

#[test]
fn a_store_is_loaded_checked_and_grown() {
    let folder = Folder::new("tools");
    let path = folder.path("store");
    let options = Options { keys: 1500, version: 2, ..Options::default() };
    let pairs = (0..1400u32).map(|at| (at.to_be_bytes(), at.to_string()));
    let is_alone = || fs::read_dir(&folder.0).unwrap().count() == 1;
    assert!(matches!(Loader::create(&path, &Options { keys: 0, ..options }), Err(Error::Options)));
    assert!(matches!(Loader::create(folder.path("none/store"), &options), Err(Error::System(_))));
    let mut loader = Loader::create(&path, &options).unwrap();
    loader.row("a", "1").unwrap();
    assert!(matches!(loader.row("a", "2"), Err(Error::Order)));
    assert!(!path.exists());
    drop(loader);
    assert!(fs::read_dir(&folder.0).unwrap().next().is_none());
    let mut loader = Loader::create(&path, &options).unwrap();
    assert_eq!(loader.update(pairs.clone()).unwrap(), 1400);
    assert!(matches!(loader.row([0, 0, 5, 119], "2"), Err(Error::Order)));
    assert_eq!(loader.row("", "").unwrap_err().answer(), 7);
    let stopped = loader.update([("x", "1"), ("z", "2"), ("y", "3")]).unwrap_err();
    assert_eq!((stopped.done, stopped.error.answer()), (2, 19));
    assert_eq!(loader.finish().unwrap(), 1402);
    assert!(is_alone());
    assert!(matches!(Loader::create(&path, &options), Err(Error::NotEmpty)));
    assert_eq!(Store::check(&path).unwrap(), Verdict::Sound(1402));
    assert!(matches!(Store::grow(&path, 1401, 5), Err(Error::Fewer)));
    assert!(matches!(Store::grow(&path, 1500, 99), Err(Error::Options)));
    assert_eq!(Store::grow(&path, 100_000, 6).unwrap(), 1402);
    assert!(is_alone());
    let mut store = Store::open(&path).unwrap();
    assert!(matches!(Store::check(&path), Err(Error::System(cause)) if cause.kind() == std::io::ErrorKind::WouldBlock));
    assert!(matches!(Store::grow(&path, 9999, 5), Err(Error::System(cause)) if cause.kind() == std::io::ErrorKind::WouldBlock));
    let info = store.info().unwrap();
    assert_eq!((info.keys, info.block, info.version, info.count), (100_000, 6, 2, 1402));
    let mut wanted: Rows = pairs.map(|(key, value)| (key.to_vec(), value.into_bytes())).collect();
    wanted.extend([(b"x".to_vec(), b"1".to_vec()), (b"z".to_vec(), b"2".to_vec())]);
    assert_eq!(rows(store.iter()), wanted);
    store.put("w", "3").unwrap();
    store.close().unwrap();
    let mut bytes = fs::read(&path).unwrap();
    bytes[24] ^= 1; // (of the number of keys)
    fs::write(&path, &bytes).unwrap();
    assert!(matches!(Store::check(&path).unwrap(), Verdict::Broken(Flaw::Count, _, _)));
    fs::write(&path, &bytes[..600]).unwrap();
    assert!(matches!(Store::check(&path), Err(Error::Small)));
    assert!(matches!(Store::grow(&path, 9999, 5), Err(Error::Small)));
}

#[test]
fn the_file_of_a_resident_store_has_its_last_checkpoint() {
    let folder = Folder::new("resident");
    let path = folder.path("store");
    drop(folder.store(&Options { keys: 100, ..Options::default() }));
    let resident = Options::default().resident(true);
    assert!(resident.resident && !resident.resident(false).resident);
    let mut store = resident.open(&path).unwrap();
    let made = fs::read(&path).unwrap();
    store.put("a", "1").unwrap();
    assert_eq!(fs::read(&path).unwrap(), made);
    store.checkpoint().unwrap();
    assert!(matches!(Options { read_only: true, resident: true, ..Options::default() }.open(&path), Err(Error::Options)));
    let saved = fs::read(&path).unwrap();
    assert_ne!(saved, made);
    store.put("b", "2").unwrap();
    store.checkpoint_to(folder.path("copy")).unwrap();
    assert_eq!(rows(Store::open(folder.path("copy")).unwrap().iter()), rows(store.iter()));
    store.discard().unwrap();
    assert_eq!(fs::read(&path).unwrap(), saved);
    let mut store = Store::open_resident(&path).unwrap();
    store.put("c", "3").unwrap();
    std::thread::spawn(move || {
        let _store = store;
        panic!("(a panic that is wanted)")
    })
    .join()
    .unwrap_err();
    assert_eq!(fs::read(&path).unwrap(), saved);
    let mut store = Store::open_resident(&path).unwrap();
    store.put("d", "4").unwrap();
    drop(store);
    assert_eq!(rows(Store::open(&path).unwrap().iter()), [(b"a".to_vec(), b"1".to_vec()), (b"d".to_vec(), b"4".to_vec())]);
    assert!(!folder.path("store-journal").exists());
    let refused = Store::open(&path).unwrap().checkpoint().unwrap_err();
    assert!(matches!(refused, Error::NotResident));
    assert_eq!(refused.to_string(), "the store is not resident: make a copy of it in another file, by checkpoint_to");
    assert!(matches!(Store::open_read_only(&path).unwrap().save(), Err(Error::ReadOnly)));
}

#[test]
fn a_store_with_a_log_keeps_what_it_answered() {
    let folder = Folder::new("logged");
    let path = folder.path("store");
    drop(folder.store(&Options { keys: 100, version: 2, ..Options::default() }));
    let options = Options::default();
    for logged in [options.logged(true), options.synced(true)] {
        let mut store = logged.open(&path).unwrap();
        store.put("a", "1").unwrap();
        store.update([("b", "2"), ("c", "3")]).unwrap();
        assert!(store.delete("a").unwrap());
        let stamp = store.stamp("c").unwrap().unwrap();
        assert_eq!(store.put_if("c", stamp, "4").unwrap(), None);
        store.sync().unwrap();
        let made = fs::read(&path).unwrap();
        store.discard().unwrap();
        assert_eq!(fs::read(&path).unwrap(), made);
        assert!(folder.path("store-log").exists());
        let mut store = logged.open(&path).unwrap();
        assert_eq!(rows(store.iter()), [(b"b".to_vec(), b"2".to_vec()), (b"c".to_vec(), b"4".to_vec())]);
        store.put("d", "5").unwrap();
        store.discard().unwrap();
        assert_eq!(Store::open_read_only(&path).unwrap().count().unwrap(), 3);
        assert!(!folder.path("store-log").exists());
        let mut store = logged.open(&path).unwrap();
        for key in ["b", "c", "d"] {
            store.delete(key).unwrap();
        }
        store.save().unwrap();
        store.close().unwrap();
    }
    assert!(matches!(Options { read_only: true, ..options.logged(true) }.open(&path), Err(Error::Options)));
    assert!(matches!(Store::open_resident(&path).unwrap().sync(), Err(Error::Options)));
}
