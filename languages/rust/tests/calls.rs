//! Each call and each refusal, by one thread.

use samvolip::{key_of, Error, Keys, Map, Options, WrongOption, KEY_MAX, VALUE_MAX};
use std::collections::hash_map::RandomState;
use std::collections::BTreeMap;
use std::hash::{BuildHasherDefault, Hasher};
use std::panic::{catch_unwind, RefUnwindSafe, UnwindSafe};

/// The text of the panic that this ends in.
fn panic_of<T>(call: impl FnOnce() -> T + UnwindSafe) -> String {
    let panicked = catch_unwind(call).map(|_| ()).unwrap_err();
    *panicked.downcast::<String>().unwrap()
}

fn sorted(map: &Map) -> Vec<(u64, u64)> {
    let mut entries = map.snapshot();
    entries.sort();
    entries
}

#[test]
fn each_call_of_a_key() {
    let map = Map::new();
    assert_eq!((map.get(1), map.contains_key(1)), (None, false));
    assert_eq!(map.insert(1, 2), None);
    assert_eq!((map.get(1), map.contains_key(1)), (Some(2), true));
    assert_eq!(map.insert_if_absent(1, 3), Some(2));
    assert_eq!((map.replace(1, 4), map.replace(2, 4)), (Some(2), None));
    assert_eq!((map.replace_if(1, 2, 5), map.replace_if(1, 4, 5)), (false, true));
    assert_eq!(map.add(1, 1), Some(5));
    assert_eq!((map.remove_if(1, 4), map.remove_if(1, 6)), (false, true));
    assert_eq!((map.remove(1), map.remove_if(1, 6)), (None, false));
    assert_eq!(map.add(1, 3), None);
    assert_eq!(map.remove(1), Some(3));
    assert_eq!((map.fetch_max(1, 5), map.fetch_max(1, 4), map.fetch_max(1, 6)), (None, Some(5), Some(5)));
    assert_eq!((map.fetch_min(2, 5), map.fetch_min(2, 6), map.fetch_min(2, 4)), (None, Some(5), Some(5)));
    assert_eq!((map.get_or_insert(1, 9), map.get_or_insert(3, 9)), (6, 9));
    assert_eq!(map.get_or_insert_with(3, || unreachable!()), 9);
    assert_eq!(map.get_or_insert_with(5, || map.get(3).unwrap() + 1), 10);
    assert_eq!(sorted(&map), [(1, 6), (2, 4), (3, 9), (5, 10)]);
}

#[test]
fn exchanges_and_updates() {
    let map = Map::new();
    assert_eq!(map.compare_exchange(1, None, None), Ok(None));
    assert_eq!(map.compare_exchange(1, Some(1), Some(2)), Err(None));
    assert_eq!(map.compare_exchange(1, None, Some(2)), Ok(None));
    assert_eq!(map.compare_exchange(1, None, Some(3)), Err(Some(2)));
    assert_eq!(map.compare_exchange(1, Some(2), Some(3)), Ok(Some(2)));
    assert_eq!(map.compare_exchange(1, Some(2), None), Err(Some(3)));
    assert_eq!(map.update(1, |found| found.map(|value| value + map.len() as u64)), Some(3));
    assert_eq!(map.compare_exchange(1, Some(4), None), Ok(Some(4)));
    assert_eq!(map.update(1, |found| found), None);
    assert_eq!(map.update(1, |_| Some(7)), None);
    // a function that writes the key itself is called again
    let mut calls = 0;
    let answered = map.update(1, |found| {
        calls += 1;
        if calls < 3 {
            map.add(1, 1);
        }
        found.map(|value| 10 * value)
    });
    assert_eq!((answered, calls, map.get(1)), (Some(9), 3, Some(90)));
    assert_eq!(map.update(1, |_| None), Some(90));
    assert!(map.is_empty());
}

#[test]
fn the_whole_map() {
    let map = Map::default();
    assert_eq!((map.len(), map.len_estimate(), map.is_empty()), (0, 0, true));
    assert_eq!((map.snapshot(), map.drain(), map.iter().next()), (vec![], vec![], None));
    assert_eq!(format!("{map:?}"), "{}");
    map.insert(1, 5);
    assert_eq!(format!("{map:?}, {:?}", map.iter()), "{1: 5}, Iter { .. }");
    (&map).extend((2..1000).map(|key| (key, key + 4)));
    assert_eq!((map.len(), map.len_estimate(), map.is_empty()), (999, 999, false));
    assert!(sorted(&map).into_iter().eq((1..1000).map(|key| (key, key + 4))));
    assert_eq!((map.keys().sum::<u64>(), map.values().sum::<u64>()), (499_500, 503_496));
    assert_eq!(map.retain(|key, value| key < 10 || value == 504 || !map.contains_key(key)), 989);
    let mut drained = map.drain();
    drained.sort();
    assert!(drained.into_iter().eq((1..10).chain([500]).map(|key| (key, key + 4))));
    assert_eq!((map.len(), map.get(1)), (0, None));
    map.insert(1, 2);
    map.clear();
    assert_eq!(map.snapshot(), []);
}

/// A key that is written after `keep` saw it is asked about again, and one that is gone isn't.
#[test]
fn retained_while_keys_change() {
    let map: Map = (0..100).map(|key| (key, 0)).collect();
    let mut asked = 0;
    let removed = map.retain(|key, value| {
        asked += 1;
        match key % 4 {
            0 => map.insert(key, 5) == Some(5),
            1 => value < 3 && map.add(key, 1).is_none(),
            2 => map.remove(key).is_none(),
            _ => true,
        }
    });
    assert_eq!((removed, asked), (25, 25 * (2 + 4 + 1 + 1)));
    assert!(sorted(&map)
        .into_iter()
        .eq((0..100).filter(|key| key % 4 % 3 == 0).map(|key| (key, if key % 4 == 0 { 5 } else { 0 }))));
}

#[test]
fn maps_of_entries() {
    let squares: Map = (0..5000).map(|i| (i, i * i)).collect();
    assert_eq!((squares.len(), squares.get(70)), (5000, Some(4900)));
    let mut few = Map::from([(1, 2), (3, 4), (1, 5)]);
    few.extend([(6, 7)]);
    assert_eq!(sorted(&few), [(1, 5), (3, 4), (6, 7)]);
    let mut shown = vec![];
    for entry in &few {
        shown.push(entry);
    }
    shown.sort();
    assert_eq!(shown, sorted(&few));
}

#[test]
fn a_clone_is_a_handle() {
    let map = Map::new();
    let other = map.clone();
    map.insert(1, 2);
    assert_eq!(other.get(1), Some(2));
    drop(map);
    assert_eq!(other.add(1, 3), Some(2));
    let copy: Map = other.iter().collect();
    other.clear();
    assert_eq!(copy.get(1), Some(5));
}

/// Five hundred maps of a MiB each, one after another, don't take 500 MiB.
#[test]
fn maps_are_freed() {
    let resident = || {
        let told = std::fs::read_to_string("/proc/self/statm").unwrap();
        told.split(' ').nth(1).unwrap().parse::<u64>().unwrap() / 256
    };
    let before = resident();
    for _ in 0..500 {
        let map = Map::with_options(Options::new().room(40_000)).unwrap();
        map.try_extend((0..1000).map(|key| (key, key))).unwrap();
        let other = map.clone();
        drop(map);
        assert_eq!(other.len_estimate(), 1000);
    }
    assert!(resident() < before + 200, "{before} MiB before and {} after", resident());
}

#[test]
fn the_greatest_key_and_value() {
    for keys in [Keys::Secret, Keys::Mixed, Keys::AsTheyAre] {
        let map = Map::with_options(Options::new().keys(keys)).unwrap();
        assert_eq!(map.insert(KEY_MAX, VALUE_MAX), None);
        assert_eq!(map.try_add(KEY_MAX, 1), Err(Error::SumRange));
        assert_eq!(map.add(KEY_MAX, 0), Some(VALUE_MAX));
        assert_eq!(map.snapshot(), [(KEY_MAX, VALUE_MAX)]);
        for past in [KEY_MAX + 1, u64::MAX] {
            assert_eq!((map.get(past), map.try_get(past), map.contains_key(past)), (None, Ok(None), false));
            assert_eq!((map.remove(past), map.remove_if(past, 1)), (None, false));
            assert_eq!(map.try_insert(past, 1), Err(Error::KeyRange));
        }
        for past in [VALUE_MAX + 1, u64::MAX] {
            assert_eq!(map.try_insert(1, past), Err(Error::ValueRange));
            assert!(!map.remove_if(KEY_MAX, past));
        }
        assert_eq!(map.drain(), [(KEY_MAX, VALUE_MAX)]);
    }
}

/// Two keys are mixed by the known rule to numbers that are no keys; each is a key of its own all the same.
#[test]
fn all_keys_are_keys() {
    let odd = [1_504_646_209_777_642_070, 5_863_696_168_926_310_861, 17_684_271_367_961_033_934, KEY_MAX];
    for keys in [Keys::Secret, Keys::Mixed, Keys::AsTheyAre] {
        let map = Map::with_options(Options::new().keys(keys)).unwrap();
        map.try_extend(odd.map(|key| (key, key % 1000))).unwrap();
        let mut shown: Vec<_> = map.iter().collect();
        shown.sort();
        assert_eq!(shown, odd.map(|key| (key, key % 1000)));
        assert_eq!(sorted(&map), shown);
        assert_eq!(odd.map(|key| map.remove(key)), odd.map(|key| Some(key % 1000)));
    }
}

/// In which order two maps list the same keys says what becomes of keys.
#[test]
fn orders_of_keys() {
    let listed = |keys| {
        let map = Map::with_options(Options::new().keys(keys)).unwrap();
        map.try_extend((0..100).map(|key| (key, 0))).unwrap();
        map.keys().collect::<Vec<_>>()
    };
    assert!(listed(Keys::AsTheyAre).into_iter().eq(0..100));
    assert_eq!(listed(Keys::Mixed), listed(Keys::Mixed));
    assert_ne!(listed(Keys::Mixed), listed(Keys::AsTheyAre));
    assert_ne!(listed(Keys::Secret), listed(Keys::Secret));
}

#[test]
fn refusals() {
    let map = Map::from([(1, VALUE_MAX)]);
    let (key, value) = (KEY_MAX + 1, VALUE_MAX + 1);
    assert_eq!(map.try_insert_if_absent(key, 1), Err(Error::KeyRange));
    assert_eq!(map.try_insert_if_absent(1, value), Err(Error::ValueRange));
    assert_eq!(map.try_replace(key, 1), Err(Error::KeyRange));
    assert_eq!(map.try_replace(2, value), Err(Error::ValueRange));
    assert_eq!(map.try_replace_if(1, VALUE_MAX, value), Err(Error::ValueRange));
    assert_eq!(map.try_fetch_max(1, value), Err(Error::ValueRange));
    assert_eq!(map.try_fetch_min(1, value), Err(Error::ValueRange));
    assert_eq!(map.try_add(2, value), Err(Error::ValueRange));
    assert_eq!(map.try_add(1, 1), Err(Error::SumRange));
    assert_eq!(map.try_compare_exchange(1, Some(VALUE_MAX), Some(value)), Err(Error::ValueRange));
    assert_eq!(map.try_update(1, |_| Some(value)), Err(Error::ValueRange));
    assert_eq!(map.try_update(key, |_| Some(1)), Err(Error::KeyRange));
    assert_eq!(map.try_extend([(2, 3), (4, value), (5, 6)]), Err(Error::ValueRange));
    assert_eq!(sorted(&map), [(1, VALUE_MAX), (2, 3)]);
}

/// All panics are in one test, since the thread sanitizer doesn't see how `std` keeps those of several threads apart.
#[test]
fn panics() {
    let map = Map::from([(1, VALUE_MAX)]);
    let (key, value) =
        ("samvolip: the key is past KEY_MAX, which is 2^64 - 3", "samvolip: the value is past VALUE_MAX, which is 2^60 - 1");
    assert_eq!(panic_of(|| map.insert(u64::MAX, 1)), key);
    assert_eq!(panic_of(|| map.insert(1, u64::MAX)), value);
    assert_eq!(panic_of(|| map.insert_if_absent(u64::MAX, 1)), key);
    assert_eq!(panic_of(|| map.get_or_insert(1, u64::MAX)), value);
    assert_eq!(panic_of(|| map.get_or_insert_with(2, || u64::MAX)), value);
    assert_eq!(panic_of(|| map.replace(u64::MAX, 1)), key);
    assert_eq!(panic_of(|| map.replace_if(1, u64::MAX, 1)), value);
    assert_eq!(panic_of(|| map.add(1, 1)), "samvolip: the sum is past VALUE_MAX, which is 2^60 - 1");
    assert_eq!(panic_of(|| map.fetch_max(u64::MAX, 1)), key);
    assert_eq!(panic_of(|| map.fetch_min(1, u64::MAX)), value);
    assert_eq!(panic_of(|| map.compare_exchange(1, None, Some(u64::MAX))), value);
    assert_eq!(panic_of(|| map.update(1, |_| Some(u64::MAX))), value);
    assert_eq!(panic_of(|| (&map).extend([(u64::MAX, 1)])), key);
    assert_eq!(panic_of(|| Map::from([(u64::MAX, 1)])), key);
    let full = Map::with_options(Options::new().room(21).memory(64 * 16)).unwrap();
    full.try_extend((0..32).map(|key| (key, key))).unwrap();
    let memory = "samvolip: there is no memory for the map's tables";
    assert_eq!(panic_of(|| full.insert(32, 1)), memory);
    let (full, _) = large_and_full();
    assert_eq!(panic_of(|| full.clear()), memory);
    assert_eq!(panic_of(|| full.drain()), memory);
    // so may the functions that are given to a call
    assert_eq!(panic_of(|| map.update(1, |_| panic!("{}", 1))), "1");
    assert_eq!(panic_of(|| map.retain(|_, _| panic!("{}", 2))), "2");
    assert_eq!(map.snapshot(), [(1, VALUE_MAX)]);
}

#[test]
fn options() {
    let refused = |options: Options| Map::with_options(options).unwrap_err();
    for growth in [0, 1, 65] {
        assert_eq!(refused(Options::new().growth(growth)), Error::Options(WrongOption::Growth));
    }
    for threads in [0, 241, u32::MAX] {
        assert_eq!(refused(Options::new().threads(threads)), Error::Options(WrongOption::Threads));
    }
    assert_eq!(refused(Options::new().room(usize::MAX)), Error::Options(WrongOption::Room));
    assert_eq!(refused(Options::new().memory(0)), Error::Options(WrongOption::Memory));
    assert_eq!(refused(Options::new().memory(64 * 1024 - 1)), Error::Options(WrongOption::Memory));
    let text = |options: Options| refused(options).to_string();
    assert_eq!(text(Options::new().threads(1000)), "threads: from 1 to 240");
    assert_eq!(text(Options::new().growth(65)), "growth: from 2 to 64 times");
    assert_eq!(text(Options::new().room(178_956_971)), "room: for at most 178956970 keys");
    assert!(text(Options::new().memory(9)).starts_with("memory: at least that of two first tables"));
    let slots = |options: Options| Map::with_options(options).unwrap().figures().slots;
    assert_eq!(
        (slots(Options::new()), slots(Options::new().room(0)), slots(Options::new().room(100_000))),
        (2048, 32, 1 << 18)
    );
    let largest = Options::new().growth(64).threads(240).memory(usize::MAX);
    assert_eq!(slots(largest.growth(2).threads(1).memory(64 * 1024)), 2048);
    assert_eq!(slots(largest), 2048);
}

/// A map in parts that has no memory left, not even for empty tables in place of what it has; and how many keys, from 0 on.
fn large_and_full() -> (Map, u64) {
    let map = Map::with_options(Options::new().room(100_000).memory(2 * 262_144 * 16)).unwrap();
    let count = (0..).find(|&key| map.try_insert(key, key).is_err()).unwrap();
    (map, count)
}

/// A map that may have no more memory than two first tables take, of 32 slots each.
#[test]
fn no_memory() {
    let map = Map::with_options(Options::new().room(21).memory(64 * 16)).unwrap();
    let refused = (0..).find(|&key| map.try_insert(key, key) == Err(Error::OutOfMemory)).unwrap();
    assert_eq!(refused, 32);
    assert!(sorted(&map).into_iter().eq((0..refused).map(|key| (key, key))));
    for call in [Map::try_insert_if_absent, Map::try_add, Map::try_fetch_max, Map::try_fetch_min] {
        assert_eq!(call(&map, refused, 1), Err(Error::OutOfMemory));
    }
    assert_eq!(map.try_compare_exchange(refused, None, Some(1)), Err(Error::OutOfMemory));
    assert_eq!(map.try_update(refused, |_| Some(1)), Err(Error::OutOfMemory));
    assert_eq!(map.try_extend([(1, 9), (refused, 1)]), Err(Error::OutOfMemory));
    assert_eq!(map.renew(0), Err(Error::OutOfMemory));
    let (large, count) = large_and_full();
    assert_eq!((large.try_drain(), large.try_clear()), (Err(Error::OutOfMemory), Err(Error::OutOfMemory)));
    assert_eq!((large.len(), large.get(0), large.get(count - 1)), (count as usize, Some(0), Some(count - 1)));
    assert_eq!((map.figures().renewals, map.figures().refused > 0), (0, true));
    // all that needs no slot is made
    assert_eq!((map.insert(1, 2), map.replace(refused, 1), map.remove(2), map.insert(2, 3)), (Some(9), None, Some(2), None));
    assert_eq!((map.try_snapshot().unwrap().len(), map.len()), (32, 32));
}

#[test]
fn renewals() {
    let map = Map::with_options(Options::new().room(21).growth(2)).unwrap();
    assert_eq!((map.figures().renewals, map.figures().slots), (0, 32));
    map.renew(1000).unwrap();
    assert_eq!((map.figures().renewals, map.figures().slots), (1, 2048));
    assert_eq!(map.renew(usize::MAX), Err(Error::OutOfMemory));
    map.try_extend((0..20_000).map(|key| (key, key))).unwrap();
    let figures = map.figures();
    assert!(figures.renewals > 2 && figures.slots >= 32_768 && figures.keys == 20_000, "{figures:?}");
    assert!(figures.own_threads == 1 && figures.refused == 0, "{figures:?}");
    assert!(figures.longest_stop_of_reads <= figures.longest_stop_of_writes, "{figures:?}");
    assert!(figures.longest_stop_of_writes <= figures.all_stops_of_writes, "{figures:?}");
    // it becomes small again, and keys may come and go for ever
    for key in 0..100_000 {
        assert_eq!(map.remove(key), Some(key));
        assert_eq!(map.insert(key + 20_000, key + 20_000), None);
    }
    assert_eq!((map.len(), map.retain(|key, _| key < 100_010)), (20_000, 19_990));
    map.renew(0).unwrap();
    assert_eq!(map.figures().slots, 32);
    assert!(sorted(&map).into_iter().eq((100_000..100_010).map(|key| (key, key))));
}

#[test]
fn walks_within_walks() {
    let map: Map = (0..8).map(|key| (key, key)).collect();
    let mut pairs = BTreeMap::new();
    for (outer, _) in &map {
        for (middle, _) in &map {
            assert_eq!(map.iter().count(), 8);
            *pairs.entry((outer, middle)).or_insert(0) += 1;
        }
    }
    assert!(pairs.len() == 64 && pairs.values().all(|&times| times == 1));
    let mut many: Vec<_> = (0..100).map(|_| map.iter()).collect();
    for _ in 0..8 {
        assert!(many.iter_mut().all(|walk| walk.next().is_some()));
    }
    assert!(many.iter_mut().all(|walk| walk.next().is_none() && walk.next().is_none()));
}

/// A walk stays with the tables in which it began, and outlives them.
#[test]
fn walks_across_renewals() {
    let map: Map = (0..1000).map(|key| (key, key)).collect();
    let (mut first, mut second) = (map.iter(), map.iter());
    let mut shown: Vec<_> = first.by_ref().take(300).collect();
    second.next().unwrap();
    map.try_extend((1000..50_000).map(|key| (key, key))).unwrap();
    assert!(map.figures().renewals > 0);
    let third = map.iter();
    map.clear();
    assert_eq!((map.iter().count(), third.count()), (0, 50_000));
    map.insert(1, 2);
    shown.extend(first.by_ref());
    shown.retain(|&(key, _)| key < 1000);
    shown.sort();
    assert!(shown.into_iter().eq((0..1000).map(|key| (key, key))));
    drop(second);
    assert_eq!((first.next(), map.snapshot()), (None, vec![(1, 2)]));
}

#[test]
fn keys_of_words() {
    let hasher = RandomState::new();
    let map = Map::new();
    for i in 0..1000 {
        assert_eq!(map.insert(key_of(&hasher, &format!("word {i}")), i), None);
    }
    assert_eq!(map.get(key_of(&hasher, "word 7")), Some(7));
    assert_eq!(map.get(key_of(&hasher, "word 1000")), None);
    assert_ne!(key_of(&hasher, "word"), key_of(&RandomState::new(), "word"));
    // a hash that is a number's own
    let plain = BuildHasherDefault::<Own>::default();
    assert_eq!([0, 7, KEY_MAX, KEY_MAX + 1, u64::MAX].map(|hash| key_of(&plain, &hash)), [0, 7, KEY_MAX, 0, 1]);
}

#[derive(Default)]
struct Own(u64);

impl Hasher for Own {
    fn write(&mut self, _: &[u8]) {}
    fn write_u64(&mut self, number: u64) {
        self.0 = number;
    }
    fn finish(&self) -> u64 {
        self.0
    }
}

#[test]
fn what_goes_between_threads() {
    fn is<T: Send + Sync + UnwindSafe + RefUnwindSafe>() {}
    fn goes<T: Send + Sync>() {}
    is::<Map>();
    is::<Options>();
    is::<Error>();
    goes::<samvolip::Iter<'_>>();
}
