//! A store that threads share: shards of versions by key, each behind a `Mutex`, and numbers, marks and a frontier in
//! `AtomicU64`s and `AtomicBool`s, all steps sequentially consistent. It owes what the running store owes: a write is judged
//! over the newest object, draws a number, and is answered with the object once the frontier has reached it; a read is of the
//! frontier.
use super::drafts::{Draft, Key};
use std::collections::{BTreeMap, VecDeque};
use std::ops::Bound::{Excluded, Unbounded};
use std::sync::atomic::{AtomicBool, AtomicU64, Ordering::SeqCst};
use std::sync::Mutex;
use std::thread;

const CAPACITY: u64 = 1_048_576;

/// How an object is kept, but for what the store sets.
pub trait Kept: Clone + Send + Sync {
    /// What a creation makes: no status.
    fn created(draft: Draft) -> Self;

    /// What an update makes of it, with the status that it has, and whether `spec` changed; none where nothing changed.
    fn updated(&self, draft: Draft) -> Option<(Self, bool)>;

    fn name(&self) -> &str;
}

#[derive(Clone)]
pub struct Object<K> {
    pub uid: u64,
    pub revision: u64,
    generation: u64,
    deletion: Option<String>,
    pub kept: K,
}

pub enum Request {
    Create(Draft),
    Update(Draft),
    Delete { key: Key, uid: Option<String>, version: Option<String> },
}

impl Request {
    fn key(&self) -> &Key {
        match self {
            Request::Create(draft) | Request::Update(draft) => &draft.key,
            Request::Delete { key, .. } => key,
        }
    }
}

pub enum Reply<K> {
    Created(Object<K>),
    Updated(Object<K>),
    Unchanged(Object<K>),
    Removed(Object<K>),
    /// With the code of HTTP.
    Refused(u16),
}

/// What a request comes to over the newest object.
enum Verdict<K> {
    Create(Object<K>),
    Update(Object<K>),
    Remove(Object<K>),
    Same(Object<K>),
    Refuse(u16),
}

impl<K: Kept> Object<K> {
    fn conflicts(&self, uid: &Option<String>, version: &Option<String>) -> bool {
        let differs = |asked: &Option<String>, is: u64| asked.as_ref().is_some_and(|text| text.parse() != Ok(is));
        differs(version, self.revision) || differs(uid, self.uid)
    }
}

fn judge<K: Kept>(current: Option<&Object<K>>, request: Request) -> Verdict<K> {
    match (request, current) {
        (Request::Create(draft), _) if draft.version.is_some() => Verdict::Refuse(422),
        (Request::Create(_), Some(_)) => Verdict::Refuse(409),
        (Request::Create(draft), None) => {
            Verdict::Create(Object { uid: 0, revision: 0, generation: 1, deletion: None, kept: K::created(draft) })
        }
        (_, None) => Verdict::Refuse(404),
        (Request::Update(draft), Some(object)) if object.conflicts(&draft.uid, &draft.version) => Verdict::Refuse(409),
        (Request::Update(draft), Some(object)) => match object.kept.updated(draft) {
            None => Verdict::Same(object.clone()),
            Some((kept, is_respecified)) => Verdict::Update(Object {
                uid: object.uid,
                revision: 0,
                generation: object.generation + u64::from(is_respecified),
                deletion: object.deletion.clone(),
                kept,
            }),
        },
        (Request::Delete { uid, version, .. }, Some(object)) if object.conflicts(&uid, &version) => Verdict::Refuse(409),
        (Request::Delete { .. }, Some(object)) => Verdict::Remove(object.clone()),
    }
}

struct Record<K> {
    number: u64,
    /// None where the object was removed.
    object: Option<Object<K>>,
}

struct Shard<K> {
    chains: BTreeMap<Key, Vec<Record<K>>>,
    /// The versions that follow another of their key, for a compaction.
    superseding: VecDeque<(u64, Key)>,
}

/// The newest object up to that number.
fn object_at<K>(records: &[Record<K>], number: u64) -> Option<&Object<K>> {
    let end = records.partition_point(|record| record.number <= number);
    records[..end].last().and_then(|record| record.object.as_ref())
}

pub struct Store<K> {
    shards: Vec<Mutex<Shard<K>>>,
    count: AtomicU64,
    marks: Vec<AtomicBool>,
    frontier: AtomicU64,
}

/// One client, and the frontier that it loaded last.
#[derive(Default)]
pub struct Caller {
    seen: u64,
}

/// A reply that waits for the frontier.
struct Ticket<K> {
    saw: u64,
    reply: Reply<K>,
}

impl<K: Kept> Store<K> {
    pub fn new(shards: usize) -> Store<K> {
        let empty = || Mutex::new(Shard { chains: BTreeMap::new(), superseding: VecDeque::new() });
        Store {
            shards: (0..shards).map(|_| empty()).collect(),
            count: AtomicU64::new(0),
            marks: (0..=CAPACITY).map(|_| AtomicBool::new(false)).collect(),
            frontier: AtomicU64::new(0),
        }
    }

    fn shard(&self, key: &Key) -> &Mutex<Shard<K>> {
        let sum = |text: &str| text.bytes().map(usize::from).sum::<usize>();
        &self.shards[(usize::from(key.kind) + 47 + sum(&key.namespace) + 47 + sum(&key.name)) % self.shards.len()]
    }

    fn submit(&self, caller: &mut Caller, request: Request) -> Ticket<K> {
        let key = request.key().clone();
        let mut shard = self.shard(&key).lock().unwrap();
        let Shard { chains, superseding } = &mut *shard;
        caller.seen = self.frontier.load(SeqCst);
        let records = chains.entry(key.clone()).or_default();
        let saw = records.last().map_or(0, |record| record.number);
        let (mut object, reply): (Object<K>, fn(Object<K>) -> Reply<K>) =
            match judge(records.last().and_then(|record| record.object.as_ref()), request) {
                Verdict::Create(object) => (object, Reply::Created),
                Verdict::Update(object) => (object, Reply::Updated),
                Verdict::Remove(object) => (object, Reply::Removed),
                Verdict::Same(object) => return Ticket { saw, reply: Reply::Unchanged(object) },
                Verdict::Refuse(code) => return Ticket { saw, reply: Reply::Refused(code) },
            };
        let number = self.count.fetch_add(1, SeqCst) + 1;
        assert!(number <= CAPACITY);
        object.revision = number;
        if object.uid == 0 {
            object.uid = number;
        }
        if !records.is_empty() {
            superseding.push_back((number, key));
        }
        let reply = reply(object);
        let object = match &reply {
            Reply::Created(object) | Reply::Updated(object) => Some(object.clone()),
            _ => None,
        };
        records.push(Record { number, object });
        self.marks[number as usize].store(true, SeqCst);
        Ticket { saw: number, reply }
    }

    fn is_filled(&self, number: u64) -> bool {
        number <= CAPACITY && self.marks[number as usize].load(SeqCst)
    }

    /// Raises the frontier by one, if the next number is filled.
    fn raise(&self, caller: &mut Caller) {
        let next = caller.seen + 1;
        if self.is_filled(next) {
            caller.seen = self.frontier.fetch_max(next, SeqCst).max(next);
        }
    }

    fn answer(&self, caller: &mut Caller, ticket: Ticket<K>) -> Reply<K> {
        loop {
            self.raise(caller);
            caller.seen = self.frontier.load(SeqCst);
            if caller.seen >= ticket.saw {
                return ticket.reply;
            }
            if !self.is_filled(caller.seen + 1) {
                thread::yield_now();
            }
        }
    }

    pub fn write(&self, caller: &mut Caller, request: Request) -> Reply<K> {
        let ticket = self.submit(caller, request);
        self.answer(caller, ticket)
    }

    pub fn get(&self, caller: &mut Caller, key: &Key) -> Option<Object<K>> {
        caller.seen = self.frontier.load(SeqCst);
        let shard = self.shard(key).lock().unwrap();
        shard.chains.get(key).and_then(|records| object_at(records, caller.seen)).cloned()
    }

    /// The objects of a namespace, by name.
    pub fn list(&self, caller: &mut Caller, kind: u8, namespace: &str) -> Vec<Object<K>> {
        caller.seen = self.frontier.load(SeqCst);
        let mut objects = Vec::new();
        for shard in &self.shards {
            let from = Key { kind, namespace: namespace.to_string(), name: String::new() };
            let shard = shard.lock().unwrap();
            let behind = shard.chains.range((Excluded(from), Unbounded));
            let here = behind.take_while(|(key, _)| key.kind == kind && key.namespace == namespace);
            objects.extend(here.filter_map(|(_, records)| object_at(records, caller.seen)).cloned());
        }
        objects.sort_by(|one, other| one.kept.name().cmp(other.kept.name()));
        objects
    }
}
