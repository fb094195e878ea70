// The workloads of nb_bench for peers in Rust: the same keys, the same random numbers, the same lines of output.
//   PROG WORKLOAD THREADS SECONDS [--keys dense|spread|zipf] [--live N] [--calls N]
// Each line is   NAME WHAT THREADS OPS NUMBER  , where docs/speed.md says what is measured and NUMBER is in nanoseconds or bytes.
use std::sync::atomic::{AtomicU64, Ordering};
use std::time::{Duration, Instant};
use std::{fs, hint, process, thread};

/// A map that is measured.
pub trait Peer: Sync {
    /// A map with room for so many keys; with as little room as it can have where that is `SMALLEST`.
    fn new(size: usize) -> Self;
    /// The number of a key, 0 if it has none.
    fn get(&self, key: u64) -> u64;
    fn put(&self, key: u64, number: u64);
    fn remove(&self, key: u64);
}

/// The size of a map that grows from its smallest.
pub const SMALLEST: usize = 4;

const BATCH: u64 = 1024;
const ONE_PLACE: u64 = 4242;

/// How many draws by zipf's law are made before the clock starts.
const SAMPLES: u64 = 1 << 20;

/// In G, how often each key's place in the map is taken by a new key in a round.
const TURNS: u64 = 8;

fn scattered(z: u64) -> u64 {
    let z = (z ^ (z >> 30)).wrapping_mul(0xbf58476d1ce4e5b9);
    let z = (z ^ (z >> 27)).wrapping_mul(0x94d049bb133111eb);
    z ^ (z >> 31)
}

/// The key with this place, where keys are from all over the range.
fn spread_key(place: u64) -> u64 {
    scattered(place) >> 1
}

#[derive(Clone, Copy)]
struct Random(u64);

impl Random {
    fn new(seed: u64) -> Random {
        Random(scattered(seed + 1))
    }

    fn draw(&mut self) -> u64 {
        self.0 = self.0.wrapping_add(0x9e3779b97f4a7c15);
        scattered(self.0)
    }
}

#[derive(Clone, Copy, PartialEq)]
enum Keys {
    Dense,
    Spread,
    Zipf,
}

/// What is to be run.
#[derive(Clone, Copy)]
struct Options {
    name: &'static str,
    workload: char,
    threads: usize,
    time: Duration,
    keys: Keys,
    /// How many keys there are.
    live: u64,
    /// How many calls each thread makes at most.
    calls: u64,
}

impl Options {
    #[inline(always)]
    fn key(&self, place: u64) -> u64 {
        match self.keys {
            Keys::Spread => spread_key(place),
            _ => place,
        }
    }

    /// The slots of a table that has two for each key, and more by the next power of two.
    fn room(&self) -> usize {
        (2 * self.live).next_power_of_two() as usize
    }

    fn print(&self, what: &str, calls: u64, number: u128) {
        println!("{} {what} {} {calls} {number}", self.name, self.threads);
    }
}

fn shuffle<T>(places: &mut [T]) {
    let mut random = Random::new(999);
    for i in (1..places.len() as u64).rev() {
        places.swap(i as usize, (random.draw() % (i + 1)) as usize);
    }
}

fn shuffled(count: u64) -> Vec<u64> {
    let mut places: Vec<u64> = (0..count).collect();
    shuffle(&mut places);
    places
}

/// The place of the key of a rank: by turns one from the first half, whose keys have numbers, and one from the second half.
fn ranked(places: &[u64], rank: usize) -> u64 {
    places[if rank % 2 == 0 { rank / 2 } else { places.len() - 1 - rank / 2 }]
}

/// Draws by zipf's law with exponent 1, in an order that looks random: the key of rank r, from 1 on, is there in proportion to 1 / r.
fn samples_of(places: &[u64]) -> Vec<u32> {
    let share = |rank: usize| (1 << 36) / (rank as u64 + 1);
    let all: u64 = (0..places.len()).map(share).sum();
    let mut samples = Vec::with_capacity(SAMPLES as usize);
    let mut sum = 0;
    for rank in 0..places.len() {
        sum += share(rank);
        samples.resize((SAMPLES * sum / all) as usize, ranked(places, rank) as u32);
    }
    shuffle(&mut samples);
    samples
}

/// Does `work` in each thread, given its number, and answers what each answers. They begin at the same time.
fn all_work<T: Send>(threads: usize, work: impl Fn(usize) -> T + Sync) -> Vec<T> {
    let arrived = AtomicU64::new(0);
    let begin = |number| {
        arrived.fetch_add(1, Ordering::SeqCst);
        let mut looks = 0;
        while arrived.load(Ordering::SeqCst) < threads as u64 {
            looks += 1;
            if looks > 2000 {
                thread::yield_now();
            }
        }
        work(number)
    };
    let begin = &begin;
    thread::scope(|scope| {
        let all: Vec<_> = (0..threads).map(|number| scope.spawn(move || begin(number))).collect();
        all.into_iter().map(|one| one.join().unwrap()).collect()
    })
}

// ---- A, B, C and E: calls at keys that are drawn, for a while.

/// How many of a hundred calls are gets and puts; the others are removals.
#[derive(Clone, Copy)]
struct Mix {
    gets: u64,
    puts: u64,
}

/// Makes the call that was drawn, at a key; answers what it read.
#[inline(always)]
fn call_drawn<P: Peer>(map: &P, key: u64, drawn: u64, mix: Mix) -> u64 {
    let percent = (drawn >> 32) * 100 >> 32;
    if percent < mix.gets {
        return map.get(key);
    }
    if percent < mix.gets + mix.puts {
        map.put(key, drawn >> 32);
    } else {
        map.remove(key);
    }
    0
}

/// A batch of calls at keys of which each is as likely. Each spacing has a loop of its own, which doesn't ask for it.
#[inline(never)]
fn draw_batch<P: Peer, const SPREAD: bool>(map: &P, live: u64, random: &mut Random, mix: Mix) -> u64 {
    let mut sum = 0u64;
    let mut own = *random;
    for _ in 0..BATCH {
        let drawn = own.draw();
        let place = (drawn & 0xffff_ffff) * live >> 32;
        let key = if SPREAD { spread_key(place) } else { place };
        sum = sum.wrapping_add(call_drawn(map, key, drawn, mix));
    }
    *random = own;
    sum
}

/// A batch of calls at dense keys that were drawn before.
#[inline(never)]
fn sample_batch<P: Peer>(map: &P, random: &mut Random, mix: Mix, samples: &[u32]) -> u64 {
    let mut sum = 0u64;
    let mut own = *random;
    for &place in samples {
        sum = sum.wrapping_add(call_drawn(map, place.into(), own.draw(), mix));
    }
    *random = own;
    sum
}

#[inline(never)]
fn put_batch<P: Peer>(map: &P, given: &Options) -> u64 {
    for i in 0..BATCH {
        map.put(given.key(ONE_PLACE), i % 2);
    }
    0
}

/// Makes batches until the time is up, and answers how many calls they were and how long they took.
fn call_on(mut batch: impl FnMut() -> u64, time: Duration, batches: u64) -> (u64, u128) {
    let start = Instant::now();
    let (mut calls, mut spent) = (0, Duration::ZERO);
    for _ in 0..batches {
        hint::black_box(batch());
        calls += BATCH;
        spent = start.elapsed();
        if spent >= time {
            break;
        }
    }
    (calls, spent.as_nanos())
}

fn timed<P: Peer>(given: &Options) {
    let mix = match given.workload {
        'B' => Mix { gets: 90, puts: 9 },
        'C' => Mix { gets: 50, puts: 25 },
        _ => Mix { gets: 100, puts: 0 },
    };
    let map = P::new(given.room());
    let places = shuffled(given.live);
    for &place in &places[..places.len() / 2] {
        map.put(given.key(place), place);
    }
    let samples = if given.keys == Keys::Zipf { samples_of(&places) } else { Vec::new() };
    let batches = given.calls / BATCH + u64::from(given.calls % BATCH != 0);
    let work = |number: usize| {
        let mut random = Random::new(number as u64);
        let chunks = samples.chunks(BATCH as usize);
        let mut chunks = chunks.cycle().skip(SAMPLES as usize / BATCH as usize * number / given.threads);
        let mut batch = || match (given.workload, given.keys) {
            ('E', _) => put_batch(&map, given),
            (_, Keys::Zipf) => sample_batch(&map, &mut random, mix, chunks.next().unwrap()),
            (_, Keys::Spread) => draw_batch::<P, true>(&map, given.live, &mut random, mix),
            (_, Keys::Dense) => draw_batch::<P, false>(&map, given.live, &mut random, mix),
        };
        call_on(&mut batch, given.time / 10, batches / 10);
        call_on(&mut batch, given.time, batches)
    };
    let work = &work;
    let tallies: Vec<_> = thread::scope(|scope| {
        let all: Vec<_> = (0..given.threads).map(|number| scope.spawn(move || work(number))).collect();
        all.into_iter().map(|one| one.join().unwrap()).collect()
    });
    let calls: u64 = tallies.iter().map(|tally| tally.0).sum();
    let longest = tallies.iter().map(|tally| tally.1).max().unwrap();
    given.print(&given.workload.to_string(), calls, longest);
}

// ---- D and F: calls at all keys, each thread at its part of them.

#[derive(Clone, Copy)]
enum Pass {
    Puts,
    Gets,
    LongestPut,
}

/// The sum of what the gets of a pass found.
static FOUND: AtomicU64 = AtomicU64::new(0);

/// Puts at a key, and answers how long that took.
#[inline(always)]
fn timed_put<P: Peer>(map: &P, given: &Options, place: u64) -> u128 {
    let before = Instant::now();
    map.put(given.key(place), place);
    before.elapsed().as_nanos()
}

/// What a thread measures of its part: how long its calls take, or the longest of its puts.
fn pass_on<P: Peer>(map: &P, given: &Options, pass: Pass, part: &[u64]) -> u128 {
    let start = Instant::now();
    match pass {
        Pass::Puts => {
            for &place in part {
                map.put(given.key(place), place);
            }
        }
        Pass::Gets => {
            let mut sum = 0u64;
            for &place in part {
                sum = sum.wrapping_add(map.get(given.key(place)));
            }
            FOUND.fetch_add(sum, Ordering::SeqCst);
        }
        Pass::LongestPut => {
            return part.iter().fold(0, |longest, &place| longest.max(timed_put(map, given, place)));
        }
    }
    start.elapsed().as_nanos()
}

/// The part of the places that a thread has.
fn part_of<'a>(given: &Options, places: &'a [u64], number: usize) -> &'a [u64] {
    let size = (places.len() + given.threads - 1) / given.threads;
    let first = (number * size).min(places.len());
    &places[first..(first + size).min(places.len())]
}

/// What the slowest of the threads measures. Gets have to find the number of each key, which is its place.
fn all_pass<P: Peer>(map: &P, given: &Options, pass: Pass, places: &[u64]) -> u128 {
    FOUND.store(0, Ordering::SeqCst);
    let work = |number| pass_on(map, given, pass, part_of(given, places, number));
    let longest = all_work(given.threads, work).into_iter().max().unwrap();
    let all = places.len() as u64;
    if matches!(pass, Pass::Gets) && FOUND.load(Ordering::SeqCst) != all * (all - 1) / 2 {
        eprintln!("the sum isn't what was put");
        process::exit(2);
    }
    longest
}

/// How long each put takes in a new map, sorted.
fn times_of_puts<P: Peer>(given: &Options, places: &[u64]) -> Vec<u128> {
    let map = P::new(SMALLEST);
    let work = |number| {
        let part = part_of(given, places, number);
        let mut times = Vec::with_capacity(part.len());
        times.extend(part.iter().map(|&place| timed_put(&map, given, place)));
        times
    };
    let mut times = all_work(given.threads, work).concat();
    times.sort_unstable();
    times
}

/// A round of D: how long all puts take in a new map, and in another one how long a put takes.
fn grow_once<P: Peer>(given: &Options, places: &[u64]) -> [u128; 5] {
    let whole = all_pass(&P::new(SMALLEST), given, Pass::Puts, places);
    let times = times_of_puts::<P>(given, places);
    // the time that so many thousandths of them are within
    let within = |thousandths: usize| times[(times.len() * thousandths / 1000).min(times.len() - 1)];
    [whole, within(500), within(990), within(999), within(1000)]
}

/// The middle time of many rounds, for each of their times.
fn growth<P: Peer>(given: &Options) {
    let places = shuffled(given.live);
    let most = given.calls / given.live + u64::from(given.calls % given.live != 0);
    let start = Instant::now();
    let mut rounds = vec![grow_once::<P>(given, &places)];
    while start.elapsed() < given.time && (rounds.len() as u64) < most {
        rounds.push(grow_once::<P>(given, &places));
    }
    for (which, name) in ["D", "p50", "p99", "p99.9", "max"].into_iter().enumerate() {
        let mut times: Vec<_> = rounds.iter().map(|round| round[which]).collect();
        times.sort_unstable();
        given.print(name, if which == 0 { given.live } else { 1 }, times[times.len() / 2]);
    }
}

/// The bytes of this process that are in memory, as Linux tells it.
fn resident() -> Option<u128> {
    let text = fs::read_to_string("/proc/self/statm").ok()?;
    Some(text.split(' ').nth(1)?.parse::<u128>().ok()? * 4096)
}

/// The shortest times of maps of all keys, and what memory the first of them took.
fn fill<P: Peer>(given: &Options) {
    let places = shuffled(given.live);
    let base = resident();
    let mut memory = None;
    let mut least = [u128::MAX; 4];
    let begin = Instant::now();
    while least[0] == u128::MAX || begin.elapsed() < given.time {
        let before = Instant::now();
        let map = P::new(SMALLEST);
        let made = before.elapsed().as_nanos();
        let filled = all_pass(&map, given, Pass::Puts, &places);
        memory = memory.or_else(|| Some(resident()?.saturating_sub(base?)));
        let read = all_pass(&map, given, Pass::Gets, &places);
        drop(map);
        let longest = all_pass(&P::new(SMALLEST), given, Pass::LongestPut, &places);
        for (one, now) in least.iter_mut().zip([made, filled, read, longest]) {
            *one = now.min(*one);
        }
    }
    for ((name, calls), time) in [("make", 1), ("fill", given.live), ("read", given.live), ("longest", 1)].into_iter().zip(least) {
        given.print(name, calls, time);
    }
    if let Some(memory) = memory {
        given.print("memory", given.live, memory);
    }
}

// ---- G: keys come and go.

/// Each thread of T has a T-th of the keys, every T-th number from its own on. In a step it puts its next key, and takes out its
/// oldest one.
fn churn_once<P: Peer>(given: &Options) -> (u128, u64) {
    let threads = given.threads as u64;
    let part = (given.live / threads).max(1);
    let steps = match given.calls {
        u64::MAX => TURNS * part,
        calls => calls / 2 + calls % 2,
    };
    let map = P::new(given.room());
    for place in 0..part * threads {
        map.put(given.key(place), place & 0xffff_ffff);
    }
    let work = |number: usize| {
        let start = Instant::now();
        for step in 0..steps {
            let place = (part + step) * threads + number as u64;
            map.put(given.key(place), place & 0xffff_ffff);
            map.remove(given.key(step * threads + number as u64));
        }
        start.elapsed().as_nanos()
    };
    let longest = all_work(given.threads, work).into_iter().max().unwrap();
    (longest, 2 * steps * threads)
}

/// The round of middle time of many.
fn churn<P: Peer>(given: &Options) {
    let start = Instant::now();
    let mut rounds = vec![churn_once::<P>(given)];
    while start.elapsed() < given.time {
        rounds.push(churn_once::<P>(given));
    }
    rounds.sort_unstable();
    let (time, calls) = rounds[rounds.len() / 2];
    given.print("G", calls, time);
}

// ---- The words.

/// The options that the words give.
fn options(name: &'static str, words: &[String]) -> Option<Options> {
    let mut given = Options {
        name,
        workload: words.get(1)?.parse().ok().filter(|letter| ('A'..='G').contains(letter))?,
        threads: words.get(2)?.parse().ok().filter(|&threads| threads > 0)?,
        time: Duration::from_secs_f64(words.get(3)?.parse().ok()?),
        keys: Keys::Dense,
        live: 0,
        calls: u64::MAX,
    };
    given.live = match given.workload {
        'D' => 32768,
        'F' => 1_000_000,
        _ => 65536,
    };
    for pair in words[4..].chunks(2) {
        match (pair[0].as_str(), pair.get(1)?.as_str()) {
            ("--live", number) => given.live = number.parse().ok()?,
            ("--calls", number) => given.calls = number.parse().ok()?,
            ("--keys", "dense") => given.keys = Keys::Dense,
            ("--keys", "spread") => given.keys = Keys::Spread,
            ("--keys", "zipf") => given.keys = Keys::Zipf,
            _ => return None,
        }
    }
    Some(given).filter(|given| given.live > 0 && given.live <= u32::MAX.into())
}

/// Runs what the command line asks for.
pub fn run<P: Peer>(name: &'static str) {
    let words: Vec<String> = std::env::args().collect();
    match options(name, &words) {
        None => {
            eprintln!("PROG A|B|C|D|E|F|G THREADS SECONDS [--keys dense|spread|zipf] [--live N] [--calls N]");
            process::exit(3);
        }
        Some(given) => match given.workload {
            'D' => growth::<P>(&given),
            'F' => fill::<P>(&given),
            'G' => churn::<P>(&given),
            _ => timed::<P>(&given),
        },
    }
}
