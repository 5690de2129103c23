//! The atomic step: one tenant's part of one node, and the node of all tenants.

use crate::hash::FastMap;
use crate::types::{Fault, Key, Pairs, Quota, Shape, Tenant, Version};
use std::collections::VecDeque;
use std::sync::Arc;

/// What a put stores: shared by the record, the queued entries and the audit.
#[derive(Clone, PartialEq, Eq, Debug)]
pub struct Body {
    pub key: Key,
    pub value: Box<[u8]>,
    pub deps: Pairs,
    pub near: Pairs,
}

impl Body {
    fn bytes(&self) -> u64 {
        (self.key.bytes().len() + self.value.len()) as u64
    }
}

/// A put on its way to an equivalent node.
#[derive(Clone, PartialEq, Eq, Debug)]
pub struct Entry {
    pub version: Version,
    /// The version that the same origin sent before this one.
    pub prev: Version,
    pub body: Arc<Body>,
}

#[derive(Clone, PartialEq, Eq, Debug)]
pub enum Call {
    Latest(Key),
    Exactly(Key, Version),
    Put(Arc<Body>),
    DepCheck(Key, Version),
    Pull { dc: usize },
    Commit(Entry),
    Ack { dc: usize, version: Version },
    Collect,
}

#[derive(Clone, PartialEq, Eq, Debug)]
pub enum Reply {
    Found(Version, Arc<Body>),
    Absent,
    Gone(u64),
    NotYet,
    Stored(Version),
    Checked(bool),
    Pulled(Entry),
    Nothing,
    Committed,
    Already,
    OutOfOrder(Version),
    Acked,
    NotFront,
    Removed(u64),
    Refused(Fault),
}

#[derive(Clone, Debug)]
pub struct AuditEntry {
    pub moment: u64,
    pub call: Call,
    pub reply: Reply,
}

/// The tenant's own audit. Its length counts against the quota even if the
/// entries themselves are not kept.
#[derive(Debug)]
struct Audit {
    keep: bool,
    len: u64,
    entries: Vec<AuditEntry>,
}

#[derive(Debug)]
struct Record {
    version: Version,
    body: Arc<Body>,
}

/// The kept versions of one key; the greatest one is never removed.
#[derive(Debug)]
struct Chain {
    latest: Record,
    older: VecDeque<Record>,
}

impl Chain {
    /// Adds a record and answers the version that became stale by it.
    fn insert(&mut self, record: Record) -> Version {
        if record.version > self.latest.version {
            let before = std::mem::replace(&mut self.latest, record);
            let stale = before.version;
            self.older.push_back(before);
            return stale;
        }
        let stale = record.version;
        let place = self.older.partition_point(|older| older.version < stale);
        self.older.insert(place, record);
        stale
    }

    fn exactly(&self, version: Version) -> Option<&Record> {
        if self.latest.version == version {
            return Some(&self.latest);
        }
        let place = self
            .older
            .binary_search_by_key(&version, |older| older.version)
            .ok()?;
        Some(&self.older[place])
    }

    fn remove(&mut self, version: Version) -> Option<Record> {
        if self.older.front()?.version == version {
            return self.older.pop_front();
        }
        let place = self
            .older
            .binary_search_by_key(&version, |older| older.version)
            .ok()?;
        self.older.remove(place)
    }
}

/// A stale record and the moment since which it is stale.
#[derive(Debug)]
struct Due {
    since: u64,
    version: Version,
    chain: u32,
}

/// All kept records of a tenant on a node.
#[derive(Default, Debug)]
struct Store {
    places: FastMap<Key, u32>,
    chains: Vec<Chain>,
    /// In order of `since`, as a node's `now` never falls.
    due: VecDeque<Due>,
    records: u64,
    bytes: u64,
}

impl Store {
    fn chain(&self, key: &Key) -> Option<&Chain> {
        self.places
            .get(key)
            .map(|&place| &self.chains[place as usize])
    }

    fn refuses(&self, body: &Body, quota: &Quota) -> Option<Fault> {
        if self.records >= quota.versions {
            Some(Fault::VersionQuota)
        } else if self.bytes + body.bytes() > quota.bytes {
            Some(Fault::ByteQuota)
        } else {
            None
        }
    }

    fn insert(&mut self, version: Version, body: Arc<Body>, now: u64) {
        self.records += 1;
        self.bytes += body.bytes();
        let record = Record { version, body };
        match self.places.get(&record.body.key) {
            Some(&chain) => {
                let version = self.chains[chain as usize].insert(record);
                self.due.push_back(Due {
                    since: now,
                    version,
                    chain,
                });
            }
            None => {
                self.places
                    .insert(record.body.key.clone(), self.chains.len() as u32);
                self.chains.push(Chain {
                    latest: record,
                    older: VecDeque::new(),
                });
            }
        }
    }

    fn collect(&mut self, now: u64, trans_time: u64) -> u64 {
        let mut removed = 0;
        while let Some(due) = self.due.pop_front_if(|due| now - due.since > trans_time) {
            if let Some(record) = self.chains[due.chain as usize].remove(due.version) {
                self.bytes -= record.body.bytes();
                removed += 1;
            }
        }
        self.records -= removed;
        removed
    }
}

/// What one tenant has on one node.
#[derive(Debug)]
struct SoloNode {
    quota: Quota,
    clock: u64,
    now: u64,
    /// Per data centre, the greatest version of its equivalent node here.
    marks: Box<[Version]>,
    /// Per data centre, the entries that it has not acknowledged.
    queues: Box<[VecDeque<Entry>]>,
    store: Store,
    audit: Audit,
}

impl SoloNode {
    fn new(place: &Place, tenant: &Tenant, keep_audit: bool) -> Self {
        let dcs = place.shape.dcs;
        SoloNode {
            quota: tenant.quota,
            clock: tenant.first_clock,
            now: 0,
            marks: vec![Version::NONE; dcs].into(),
            queues: vec![VecDeque::new(); dcs].into(),
            store: Store::default(),
            audit: Audit {
                keep: keep_audit,
                len: 0,
                entries: Vec::new(),
            },
        }
    }

    fn step(&mut self, place: &Place, moment: u64, call: Call) -> Reply {
        if self.audit.len >= self.quota.audit {
            return Reply::Refused(Fault::AuditFull);
        }
        self.now = self.now.max(moment);
        let reply = match &call {
            Call::Latest(key) => match self.store.chain(key) {
                Some(chain) => Reply::Found(chain.latest.version, chain.latest.body.clone()),
                None => Reply::Absent,
            },
            Call::Exactly(key, version) => self.exactly(place, key, *version),
            Call::Put(body) => match self.put(place, body) {
                Ok(version) => Reply::Stored(version),
                Err(fault) => Reply::Refused(fault),
            },
            Call::DepCheck(_, version) => Reply::Checked(self.mark(place, *version) >= *version),
            Call::Pull { dc } => match self.queues[*dc].front() {
                Some(entry) => Reply::Pulled(entry.clone()),
                None => Reply::Nothing,
            },
            Call::Commit(entry) => self.commit(place, entry),
            Call::Ack { dc, version } => {
                match self.queues[*dc].pop_front_if(|front| front.version == *version) {
                    Some(_) => Reply::Acked,
                    None => Reply::NotFront,
                }
            }
            Call::Collect => Reply::Removed(self.store.collect(self.now, place.shape.trans_time)),
        };
        self.audit.len += 1;
        if self.audit.keep {
            self.audit.entries.push(AuditEntry {
                moment,
                call,
                reply: reply.clone(),
            });
        }
        reply
    }

    /// The greatest version here of the node that made `version`.
    fn mark(&self, place: &Place, version: Version) -> Version {
        match place.equivalent(version) {
            Some(dc) => self.marks[dc],
            None => Version::NONE,
        }
    }

    fn exactly(&self, place: &Place, key: &Key, version: Version) -> Reply {
        if let Some(record) = self
            .store
            .chain(key)
            .and_then(|chain| chain.exactly(version))
        {
            return Reply::Found(version, record.body.clone());
        }
        if self.mark(place, version) >= version {
            Reply::Gone(self.now)
        } else {
            Reply::NotYet
        }
    }

    fn put(&mut self, place: &Place, body: &Arc<Body>) -> Result<Version, Fault> {
        let layout = place.shape.layout;
        let greatest = body
            .deps
            .iter()
            .map(|pair| pair.version)
            .max()
            .unwrap_or_default();
        let version = Version::next(
            layout,
            self.clock,
            greatest.clock(layout),
            place.number() as u64,
        )?;
        if let Some(fault) = self.store.refuses(body, &self.quota) {
            return Err(fault);
        }
        let mut others = self
            .queues
            .iter()
            .enumerate()
            .filter(|(dc, _)| *dc != place.dc);
        if others.any(|(_, queue)| queue.len() as u64 >= self.quota.outbox) {
            return Err(Fault::OutboxFull);
        }
        let prev = std::mem::replace(&mut self.marks[place.dc], version);
        for (dc, queue) in self.queues.iter_mut().enumerate() {
            if dc != place.dc {
                queue.push_back(Entry {
                    version,
                    prev,
                    body: body.clone(),
                });
            }
        }
        self.clock = version.clock(layout);
        self.store.insert(version, body.clone(), self.now);
        Ok(version)
    }

    fn commit(&mut self, place: &Place, entry: &Entry) -> Reply {
        let Some(origin) = place.equivalent(entry.version) else {
            return Reply::Refused(Fault::Torn);
        };
        let mark = self.marks[origin];
        if entry.version <= mark {
            return Reply::Already;
        }
        if entry.prev != mark {
            return Reply::OutOfOrder(mark);
        }
        if let Some(fault) = self.store.refuses(&entry.body, &self.quota) {
            return Reply::Refused(fault);
        }
        self.marks[origin] = entry.version;
        self.clock = self.clock.max(entry.version.clock(place.shape.layout));
        self.store
            .insert(entry.version, entry.body.clone(), self.now);
        Reply::Committed
    }
}

/// Where a node stands in its cluster.
#[derive(Clone, Copy, Debug)]
struct Place {
    shape: Shape,
    dc: usize,
    shard: usize,
}

impl Place {
    fn number(&self) -> usize {
        self.shape.node(self.dc, self.shard)
    }

    /// The data centre that made the version, if this shard's node there did.
    #[inline]
    fn equivalent(&self, version: Version) -> Option<usize> {
        let node = version.node(self.shape.layout) as usize;
        let (dc, shard) = (node / self.shape.shards, node % self.shape.shards);
        (shard == self.shard && dc < self.shape.dcs).then_some(dc)
    }

    fn is_other(&self, dc: usize) -> bool {
        dc < self.shape.dcs && dc != self.dc
    }
}

/// One shard of one data centre, shared by all tenants.
#[derive(Debug)]
pub struct Node {
    place: Place,
    keep_audit: bool,
    slots: Vec<Option<Box<SoloNode>>>,
}

impl Node {
    /// An empty node. Without `keep_audit` only the length of audits is kept.
    pub fn new(shape: Shape, number: usize, keep_audit: bool) -> Self {
        let place = Place {
            shape,
            dc: number / shape.shards,
            shard: number % shape.shards,
        };
        Node {
            place,
            keep_audit,
            slots: Vec::new(),
        }
    }

    /// Opens an empty solo node in a free slot.
    pub fn admit(&mut self, slot: usize, tenant: &Tenant) {
        if slot >= self.slots.len() {
            self.slots.resize_with(slot + 1, || None);
        }
        self.slots[slot] = Some(Box::new(SoloNode::new(
            &self.place,
            tenant,
            self.keep_audit,
        )));
    }

    /// Drops all of a slot.
    pub fn close(&mut self, slot: usize) {
        if let Some(solo) = self.slots.get_mut(slot) {
            *solo = None;
        }
    }

    /// Whether the call's key, version and data centre have their place here.
    pub fn fits(&self, call: &Call) -> bool {
        let place = &self.place;
        let placed = |key: &Key| key.shard(place.shape.shards) == place.shard;
        match call {
            Call::Latest(key) | Call::Exactly(key, _) | Call::DepCheck(key, _) => placed(key),
            Call::Put(body) => placed(&body.key),
            Call::Pull { dc } | Call::Ack { dc, .. } => place.is_other(*dc),
            Call::Commit(entry) => {
                placed(&entry.body.key)
                    && place
                        .equivalent(entry.version)
                        .is_some_and(|dc| place.is_other(dc))
            }
            Call::Collect => true,
        }
    }

    /// One call of the tenant in `slot`; the caller sees to it that it fits.
    pub fn step(&mut self, slot: usize, moment: u64, call: Call) -> Reply {
        match self.slots.get_mut(slot) {
            Some(Some(solo)) => solo.step(&self.place, moment, call),
            _ => Reply::Refused(Fault::UnknownTenant),
        }
    }

    pub fn audit(&self, slot: usize) -> &[AuditEntry] {
        match self.slots.get(slot) {
            Some(Some(solo)) => &solo.audit.entries,
            _ => &[],
        }
    }
}

/// The nodes as sessions and carriers see them: one call at a time.
pub trait Nodes {
    fn step(&mut self, node: usize, slot: usize, moment: u64, call: Call) -> Reply;
}

impl Nodes for [Node] {
    #[inline]
    fn step(&mut self, node: usize, slot: usize, moment: u64, call: Call) -> Reply {
        self[node].step(slot, moment, call)
    }
}

#[cfg(test)]
mod tests {
    use super::*;
    use crate::types::{Layout, Name};

    const SHAPE: Shape = Shape {
        layout: Layout::Two,
        dcs: 2,
        shards: 1,
        trans_time: 100,
        restarts: 1,
    };

    fn tenant() -> Tenant {
        let quota = Quota {
            versions: 100,
            bytes: 10_000,
            outbox: 10,
            contexts: 4,
            deps: 20,
            actors: 8,
            audit: 1000,
        };
        Tenant {
            name: Name::new(b"acme").unwrap(),
            token: [1; 16],
            first_clock: 0,
            quota,
        }
    }

    fn node(dcs: usize, number: usize, slots: usize) -> Node {
        let mut node = Node::new(Shape { dcs, ..SHAPE }, number, true);
        (0..slots).for_each(|slot| node.admit(slot, &tenant()));
        node
    }

    fn key(text: &str) -> Key {
        Key::new(text.as_bytes()).unwrap()
    }

    fn v(clock: u64, node: u64) -> Version {
        Version::of(Layout::Two, clock, node)
    }

    fn body(text: &str) -> Arc<Body> {
        let (deps, near) = (Pairs::default(), Pairs::default());
        Arc::new(Body {
            key: key(text),
            value: b"10".as_slice().into(),
            deps,
            near,
        })
    }

    fn put(text: &str) -> Call {
        Call::Put(body(text))
    }

    fn entry(clock: u64, prev: u64) -> Call {
        let prev = if prev == 0 { Version::NONE } else { v(prev, 0) };
        Call::Commit(Entry {
            version: v(clock, 0),
            prev,
            body: body("x"),
        })
    }

    #[test]
    fn chains_and_collection() {
        let mut store = Store::default();
        store.insert(v(2, 0), body("x"), 5);
        store.insert(v(1, 0), body("x"), 9);
        let chain = store.chain(&key("x")).unwrap();
        assert_eq!(chain.latest.version, v(2, 0));
        assert!(chain.exactly(v(1, 0)).is_some());
        assert_eq!((store.records, store.bytes), (2, 6));
        assert_eq!(store.collect(109, 100), 0);
        assert_eq!(store.collect(110, 100), 1);
        assert_eq!((store.records, store.bytes), (1, 3));
        assert!(store.chain(&key("y")).is_none());
    }

    #[test]
    fn queues_of_slots() {
        let mut node = Node::new(SHAPE, 0, true);
        for slot in 0..2 {
            let mut tenant = tenant();
            tenant.quota.outbox = 1;
            node.admit(slot, &tenant);
        }
        assert_eq!(node.step(0, 0, put("x")), Reply::Stored(v(1, 0)));
        assert_eq!(node.step(0, 0, put("x")), Reply::Refused(Fault::OutboxFull));
        assert_eq!(node.step(1, 0, put("y")), Reply::Stored(v(1, 0)));
        let ack = |clock| Call::Ack {
            dc: 1,
            version: v(clock, 0),
        };
        assert!(matches!(
            node.step(1, 0, Call::Pull { dc: 1 }),
            Reply::Pulled(_)
        ));
        assert_eq!(node.step(0, 0, ack(2)), Reply::NotFront);
        assert_eq!(node.step(0, 0, ack(1)), Reply::Acked);
        assert_eq!(node.step(0, 0, Call::Pull { dc: 1 }), Reply::Nothing);
        assert!(matches!(
            node.step(1, 0, Call::Pull { dc: 1 }),
            Reply::Pulled(_)
        ));
    }

    #[test]
    fn commits_in_order() {
        let mut node = node(2, 1, 2);
        assert_eq!(
            node.step(0, 0, entry(2, 1)),
            Reply::OutOfOrder(Version::NONE)
        );
        assert_eq!(node.step(0, 0, entry(1, 0)), Reply::Committed);
        assert_eq!(node.step(0, 0, entry(2, 1)), Reply::Committed);
        assert_eq!(node.step(0, 0, entry(1, 0)), Reply::Already);
        assert_eq!(
            node.step(0, 0, Call::DepCheck(key("x"), v(2, 0))),
            Reply::Checked(true)
        );
        assert_eq!(
            node.step(0, 0, Call::DepCheck(key("x"), v(3, 0))),
            Reply::Checked(false)
        );
        assert_eq!(
            node.step(0, 0, Call::Exactly(key("x"), v(3, 0))),
            Reply::NotYet
        );

        let mut node = self::node(2, 1, 2);
        let greatest = Layout::Two.greatest_clock();
        assert_eq!(node.step(0, 0, entry(greatest, 0)), Reply::Committed);
        assert_eq!(node.step(0, 0, put("x")), Reply::Refused(Fault::ClockFull));
        assert_eq!(node.step(1, 0, put("x")), Reply::Stored(v(1, 1)));
    }

    #[test]
    fn exact_versions() {
        let mut node = node(1, 0, 1);
        assert_eq!(node.step(0, 7, put("x")), Reply::Stored(v(1, 0)));
        let exactly = |text, clock| Call::Exactly(key(text), v(clock, 0));
        assert!(matches!(node.step(0, 7, exactly("x", 1)), Reply::Found(..)));
        assert_eq!(node.step(0, 7, exactly("x", 2)), Reply::NotYet);
        assert_eq!(node.step(0, 7, exactly("y", 1)), Reply::Gone(7));
    }

    #[test]
    fn slots_grow_stale_apart() {
        let mut node = node(1, 0, 2);
        for (slot, moment) in [(0, 500), (0, 500), (1, 1), (1, 1)] {
            node.step(slot, moment, put("x"));
        }
        for (slot, moment, removed) in [(1, 101, 0), (1, 102, 1), (0, 600, 0), (0, 601, 1)] {
            assert_eq!(
                node.step(slot, moment, Call::Collect),
                Reply::Removed(removed)
            );
        }
    }

    #[test]
    fn slots_open_and_close() {
        let mut node = node(1, 0, 1);
        let refused = Reply::Refused(Fault::UnknownTenant);
        assert_eq!(node.step(2, 0, put("x")), refused);
        for _ in 0..2 {
            node.admit(2, &tenant());
            assert_eq!(node.step(2, 0, put("x")), Reply::Stored(v(1, 0)));
            node.close(2);
            assert_eq!(node.step(2, 0, put("x")), refused);
        }
        assert!(node.audit(2).is_empty());
    }
}
