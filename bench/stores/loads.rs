//! The loads that `crates/bench` puts on the running store, told in the same lines.
use super::drafts::{read_draft, Draft, Key, POD};
use super::store::{Caller, Kept, Reply, Request, Store};
use std::env;
use std::sync::Barrier;
use std::thread::{self, ScopedJoinHandle};
use std::time::{Duration, Instant};

const PODS: u64 = 2_000;

/// How many of them a namespace has.
const SPACE: u64 = 100;

/// How often a pod is updated between its creation and its removal.
const UPDATES: u64 = 4;

const SHARDS: [usize; 2] = [8, 64];

/// One read in so many is a list, where there are lists.
const LISTS: u64 = 50;

/// Where there are lists, there are so many times fewer reads.
const FEWER: u64 = 4;

/// How many threads write and how many read in each load, one read in how many is a list, and whether all requests are made
/// before.
const CREWS: [(u64, u64, u64, bool); 19] = [
    (1, 0, 0, false),
    (2, 0, 0, false),
    (4, 0, 0, false),
    (8, 0, 0, false),
    (1, 0, 0, true),
    (2, 0, 0, true),
    (4, 0, 0, true),
    (8, 0, 0, true),
    (0, 1, 0, false),
    (0, 2, 0, false),
    (0, 4, 0, false),
    (0, 8, 0, false),
    (0, 1, LISTS, false),
    (0, 2, LISTS, false),
    (0, 4, LISTS, false),
    (0, 8, LISTS, false),
    (1, 1, 0, false),
    (2, 2, 0, false),
    (4, 4, 0, false),
];

fn key(pod: u64) -> Key {
    Key { kind: POD, namespace: format!("ns-{}", pod / SPACE), name: format!("web-{pod}") }
}

/// A pod of some 170 bytes with that label.
fn draft(pod: u64, label: u64) -> Draft {
    let space = pod / SPACE;
    let text = format!(
        r#"{{"kind":"Pod","metadata":{{"labels":{{"app":"web","turn":"{label}"}},"name":"web-{pod}","namespace":"ns-{space}"}},"spec":{{"containers":[{{"image":"web:1","name":"web"}}],"nodeName":"n-1"}}}}"#
    );
    read_draft(&text).expect("a pod")
}

fn creation(pod: u64, label: u64) -> Request {
    Request::Create(draft(pod, label))
}

fn update(pod: u64, label: u64, revision: Option<u64>) -> Request {
    let version = revision.map(|revision| revision.to_string());
    Request::Update(Draft { version, ..draft(pod, label) })
}

fn removal(pod: u64) -> Request {
    Request::Delete { key: key(pod), uid: None, version: None }
}

/// The pods of a writer, with the first label of each.
fn pods(writes: u64, index: u64, writers: u64) -> impl Iterator<Item = (u64, u64)> + Clone {
    (0..writes.div_ceil(UPDATES + 2)).map(move |taken| ((taken * writers + index) % PODS, taken))
}

/// Asks a write, which has to be accepted, and answers its revision.
fn accepted<K: Kept>(store: &Store<K>, caller: &mut Caller, request: Request) -> u64 {
    match store.write(caller, request) {
        Reply::Created(object) | Reply::Updated(object) | Reply::Removed(object) => object.revision,
        Reply::Unchanged(_) => panic!("a write changed nothing"),
        Reply::Refused(code) => panic!("a write was refused with {code}"),
    }
}

/// Creates each pod, updates it, each time at the version that it has, and deletes it.
fn write_all<K: Kept>(store: &Store<K>, caller: &mut Caller, pods: impl Iterator<Item = (u64, u64)>) -> u64 {
    let mut count = 0;
    for (pod, label) in pods {
        let mut revision = accepted(store, caller, creation(pod, label));
        for update_label in label + 1..=label + UPDATES {
            revision = accepted(store, caller, update(pod, update_label, Some(revision)));
        }
        accepted(store, caller, removal(pod));
        count += UPDATES + 2;
    }
    count
}

/// The same requests, but that no update names a version.
fn requests(pods: impl Iterator<Item = (u64, u64)>) -> Vec<Request> {
    let of = |(pod, label): (u64, u64)| {
        let updates = (label + 1..=label + UPDATES).map(move |label| update(pod, label, None));
        [creation(pod, label)].into_iter().chain(updates).chain([removal(pod)])
    };
    pods.flat_map(of).collect()
}

/// Reads pods by chance, and answers how many objects the reads found. The next number is made by the multiplier and the
/// increment of Knuth's MMIX.
fn read_all<K: Kept>(store: &Store<K>, caller: &mut Caller, reads: u64, lists: u64, seed: u64) -> usize {
    let mut found = 0;
    let mut state = seed;
    for index in 0..reads {
        state = state.wrapping_mul(6_364_136_223_846_793_005).wrapping_add(1_442_695_040_888_963_407);
        let pod = (state >> 33) % PODS;
        if lists != 0 && index % lists == 0 {
            found += store.list(caller, POD, &format!("ns-{}", pod / SPACE)).len();
        } else {
            found += usize::from(store.get(caller, &key(pod)).is_some());
        }
    }
    found
}

/// The threads of a load, and how much they do in all.
#[derive(Clone, Copy)]
struct Crew {
    shards: usize,
    writers: u64,
    readers: u64,
    lists: u64,
    is_made: bool,
    writes: u64,
    reads: u64,
}

impl Crew {
    fn name(self) -> String {
        let made = if self.is_made { " with requests made before" } else { "" };
        let listing = if self.lists > 0 { " with lists" } else { "" };
        let Crew { shards, writers, readers, .. } = self;
        match (writers, readers) {
            (_, 0) => format!("{shards} shards, {writers} writers{made}"),
            (0, _) => format!("{shards} shards, {readers} readers{listing}"),
            _ => format!("{shards} shards, {writers} writers and {readers} readers"),
        }
    }
}

/// What a thread did, and when since the load began.
struct Done {
    count: u64,
    begun: Duration,
    ended: Duration,
}

/// Where the threads of a load begin together.
struct Start {
    at: Instant,
    barrier: Barrier,
}

impl Start {
    fn time(&self, work: impl FnOnce() -> u64) -> Done {
        self.barrier.wait();
        let begun = self.at.elapsed();
        let count = work();
        Done { count, begun, ended: self.at.elapsed() }
    }
}

/// What the writer of that index does.
fn write<K: Kept>(store: &Store<K>, crew: Crew, start: &Start, index: u64) -> Done {
    let mut caller = Caller::default();
    let pods = pods(crew.writes / crew.writers, index, crew.writers);
    if crew.is_made {
        let made = requests(pods);
        return start.time(|| made.into_iter().map(|request| accepted(store, &mut caller, request)).count() as u64);
    }
    start.time(|| write_all(store, &mut caller, pods))
}

/// What the reader of that index does.
fn read<K: Kept>(store: &Store<K>, crew: Crew, start: &Start, index: u64) -> Done {
    let mut caller = Caller::default();
    let all = if crew.lists == 0 { crew.reads } else { crew.reads / FEWER };
    let reads = all / crew.readers;
    start.time(|| {
        let found = read_all(store, &mut caller, reads, crew.lists, index + 1);
        assert!(crew.writers > 0 || found as u64 >= reads);
        reads
    })
}

fn tell(load: &str, done: &[Done]) {
    let Some(begun) = done.iter().map(|done| done.begun).min() else {
        return;
    };
    let ended = done.iter().map(|done| done.ended).max().expect("there is a first");
    let count: u64 = done.iter().map(|done| done.count).sum();
    let rate = u128::from(count) * 1_000_000 / (ended - begun).as_micros().max(1);
    eprintln!("{load}: {:?}, {rate} a second", ended - begun);
}

/// Runs a load over a new store, which has all pods at first if nobody writes.
fn run<K: Kept>(crew: Crew) {
    let store = Store::<K>::new(crew.shards);
    if crew.writers == 0 {
        let mut caller = Caller::default();
        for pod in 0..PODS {
            accepted(&store, &mut caller, creation(pod, 0));
        }
    }
    let start = Start { at: Instant::now(), barrier: Barrier::new((crew.writers + crew.readers) as usize) };
    let (store, start) = (&store, &start);
    let joined = |threads: Vec<ScopedJoinHandle<Done>>| threads.into_iter().map(|thread| thread.join().unwrap()).collect();
    let (written, read): (Vec<Done>, Vec<Done>) = thread::scope(|scope| {
        let writing = (0..crew.writers).map(|index| scope.spawn(move || write(store, crew, start, index))).collect();
        let reading = (0..crew.readers).map(|index| scope.spawn(move || read(store, crew, start, index))).collect();
        (joined(writing), joined(reading))
    });
    tell(&format!("{}: writes", crew.name()), &written);
    tell(&format!("{}: reads", crew.name()), &read);
}

/// Runs all loads, with as many writes and reads as the words say.
pub fn measure<K: Kept>() {
    let words: Vec<u64> = env::args().skip(1).map(|word| word.parse().expect("a number")).collect();
    let (writes, reads) = match words[..] {
        [writes, reads] => (writes, reads),
        _ => (12_000, 24_000),
    };
    for shards in SHARDS {
        for (writers, readers, lists, is_made) in CREWS {
            run::<K>(Crew { shards, writers, readers, lists, is_made, writes, reads });
        }
    }
}
