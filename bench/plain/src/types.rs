//! Faults, versions, keys, names and the configuration.

use crate::hash::FastMap;
use std::cmp::Ordering;
use std::fmt;
use std::hash::{Hash, Hasher};
use std::sync::Arc;

/// A refusal; its number is the discriminant, its text `E` and two digits.
#[derive(Clone, Copy, PartialEq, Eq, Debug)]
#[repr(u8)]
pub enum Fault {
    Syntax = 1,
    UnknownTenant = 2,
    UnknownName = 3,
    NameTaken = 4,
    Busy = 5,
    Idle = 6,
    NoContext = 7,
    TooManyContexts = 8,
    TooManyKeys = 9,
    BadKey = 10,
    ValueTooLong = 11,
    VersionQuota = 12,
    ByteQuota = 13,
    OutboxFull = 14,
    DependenciesFull = 15,
    ClockFull = 16,
    AuditFull = 17,
    Overrun = 18,
    Torn = 19,
    IdsSpent = 20,
    GateSpent = 21,
    NoSuchPlace = 22,
    OutOfMemory = 23,
    RepeatedKey = 24,
    ActorsFull = 25,
    ReadFault = 26,
    WriteFault = 27,
    NoSlot = 28,
    ClockTooGreat = 29,
}

impl Fault {
    pub fn number(self) -> u8 {
        self as u8
    }
}

impl fmt::Display for Fault {
    fn fmt(&self, f: &mut fmt::Formatter<'_>) -> fmt::Result {
        write!(f, "E{:02}", self.number())
    }
}

/// How a version's 64 bits are split into clock and node.
#[derive(Clone, Copy, PartialEq, Eq, Debug)]
pub enum Layout {
    /// 56 bits of clock, 8 of node.
    One,
    /// 48 bits of clock, 16 of node.
    Two,
}

impl Layout {
    pub const fn node_bits(self) -> u32 {
        match self {
            Layout::One => 8,
            Layout::Two => 16,
        }
    }

    pub const fn greatest_clock(self) -> u64 {
        u64::MAX >> self.node_bits()
    }

    pub const fn greatest_node(self) -> u64 {
        (1 << self.node_bits()) - 1
    }

    pub const fn most_shards(self) -> u64 {
        match self {
            Layout::One => 16,
            Layout::Two => 64,
        }
    }

    pub const fn hello_tag(self) -> u8 {
        match self {
            Layout::One => 0x01,
            Layout::Two => 0x07,
        }
    }
}

/// Clock and node in one word; zero means no version.
#[derive(Clone, Copy, PartialEq, Eq, PartialOrd, Ord, Hash, Default, Debug)]
pub struct Version(pub u64);

impl Version {
    pub const NONE: Version = Version(0);

    #[inline]
    pub fn of(layout: Layout, clock: u64, node: u64) -> Version {
        Version((clock << layout.node_bits()) | node)
    }

    #[inline]
    pub fn clock(self, layout: Layout) -> u64 {
        self.0 >> layout.node_bits()
    }

    #[inline]
    pub fn node(self, layout: Layout) -> u64 {
        self.0 & layout.greatest_node()
    }

    /// The version after both clocks, made at `node`.
    pub fn next(layout: Layout, clock: u64, other: u64, node: u64) -> Result<Version, Fault> {
        match clock.max(other) {
            greatest if greatest >= layout.greatest_clock() => Err(Fault::ClockFull),
            greatest => Ok(Version::of(layout, greatest + 1, node)),
        }
    }
}

fn is_name_byte(byte: &u8) -> bool {
    matches!(byte, b'a'..=b'z' | b'0'..=b'9' | b'_')
}

const LONGEST_INLINE: usize = 14;
const LONGEST_KEY: usize = 64;

/// A key of 1 to 64 bytes; short ones are kept in place, padded with zeros.
#[derive(Clone)]
pub struct Key(KeyBytes);

#[derive(Clone)]
enum KeyBytes {
    Short {
        len: u8,
        bytes: [u8; LONGEST_INLINE],
    },
    /// Doubly boxed, so that a key is two words.
    Long(Arc<Box<[u8]>>),
}

impl Key {
    pub fn new(bytes: &[u8]) -> Result<Key, Fault> {
        if bytes.is_empty() || bytes.len() > LONGEST_KEY || !bytes.iter().all(is_name_byte) {
            return Err(Fault::BadKey);
        }
        Ok(Key(if bytes.len() <= LONGEST_INLINE {
            let mut short = [0; LONGEST_INLINE];
            short[..bytes.len()].copy_from_slice(bytes);
            KeyBytes::Short {
                len: bytes.len() as u8,
                bytes: short,
            }
        } else {
            KeyBytes::Long(Arc::new(bytes.into()))
        }))
    }

    #[inline]
    pub fn bytes(&self) -> &[u8] {
        match &self.0 {
            KeyBytes::Short { len, bytes } => &bytes[..usize::from(*len)],
            KeyBytes::Long(bytes) => bytes,
        }
    }

    #[inline]
    pub fn shard(&self, shards: usize) -> usize {
        if shards == 1 {
            return 0;
        }
        self.bytes()
            .iter()
            .map(|&byte| usize::from(byte))
            .sum::<usize>()
            % shards
    }
}

impl PartialEq for Key {
    #[inline]
    fn eq(&self, other: &Key) -> bool {
        match (&self.0, &other.0) {
            (KeyBytes::Short { bytes, .. }, KeyBytes::Short { bytes: others, .. }) => {
                bytes == others
            }
            _ => self.bytes() == other.bytes(),
        }
    }
}

impl Eq for Key {}

impl PartialOrd for Key {
    #[inline]
    fn partial_cmp(&self, other: &Key) -> Option<Ordering> {
        Some(self.cmp(other))
    }
}

impl Ord for Key {
    #[inline]
    fn cmp(&self, other: &Key) -> Ordering {
        match (&self.0, &other.0) {
            // Padding is less than every byte of a key.
            (KeyBytes::Short { bytes, .. }, KeyBytes::Short { bytes: others, .. }) => {
                bytes.cmp(others)
            }
            _ => self.bytes().cmp(other.bytes()),
        }
    }
}

impl Hash for Key {
    #[inline]
    fn hash<H: Hasher>(&self, state: &mut H) {
        match &self.0 {
            KeyBytes::Short { bytes, .. } => {
                let mut word = [0; 16];
                word[..LONGEST_INLINE].copy_from_slice(bytes);
                state.write_u128(u128::from_le_bytes(word));
            }
            KeyBytes::Long(bytes) => state.write(bytes),
        }
    }
}

impl fmt::Debug for Key {
    fn fmt(&self, f: &mut fmt::Formatter<'_>) -> fmt::Result {
        f.write_str(&String::from_utf8_lossy(self.bytes()))
    }
}

pub const LONGEST_VALUE: usize = 4096;

/// A tenant's or an actor's name: 1 to 16 bytes, padded with zeros.
#[derive(Clone, Copy, PartialEq, Eq, Debug)]
pub struct Name([u8; 16]);

impl Name {
    pub fn new(bytes: &[u8]) -> Option<Name> {
        if bytes.is_empty() || bytes.len() > 16 || !bytes.iter().all(is_name_byte) {
            return None;
        }
        let mut padded = [0; 16];
        padded[..bytes.len()].copy_from_slice(bytes);
        Some(Name(padded))
    }

    pub fn bytes(&self) -> &[u8] {
        let len = self.0.iter().position(|&byte| byte == 0).unwrap_or(16);
        &self.0[..len]
    }
}

impl Hash for Name {
    #[inline]
    fn hash<H: Hasher>(&self, state: &mut H) {
        state.write_u128(u128::from_le_bytes(self.0));
    }
}

#[derive(Clone, PartialEq, Eq, Debug)]
pub struct Pair {
    pub key: Key,
    pub version: Version,
}

/// A list of pairs that is shared by a record, its queued copies and the audit.
/// Dependencies have rising keys; near lists rise by key, then version.
pub type Pairs = Arc<[Pair]>;

/// The version of `key` in a list with one version per key, sorted by key.
pub fn version_of(pairs: &[Pair], key: &Key) -> Option<Version> {
    match pairs.binary_search_by(|pair| pair.key.cmp(key)) {
        Ok(place) => Some(pairs[place].version),
        Err(_) => None,
    }
}

#[derive(Clone, Copy, PartialEq, Eq, Debug)]
pub struct Quota {
    pub versions: u64,
    pub bytes: u64,
    pub outbox: u64,
    pub contexts: u64,
    pub deps: usize,
    pub actors: u64,
    pub audit: u64,
}

pub type Token = [u8; 16];

#[derive(Clone, PartialEq, Eq, Debug)]
pub struct Tenant {
    pub name: Name,
    pub token: Token,
    pub first_clock: u64,
    pub quota: Quota,
}

/// The shape of the cluster: what every node, session and carrier goes by.
#[derive(Clone, Copy, PartialEq, Eq, Debug)]
pub struct Shape {
    pub layout: Layout,
    pub dcs: usize,
    pub shards: usize,
    pub trans_time: u64,
    pub restarts: u64,
}

impl Shape {
    #[inline]
    pub fn nodes(&self) -> usize {
        self.dcs * self.shards
    }

    #[inline]
    pub fn node(&self, dc: usize, shard: usize) -> usize {
        dc * self.shards + shard
    }

    #[inline]
    pub fn node_of_key(&self, dc: usize, key: &Key) -> usize {
        self.node(dc, key.shard(self.shards))
    }
}

pub const MOST_TENANTS: usize = 64;

/// The open tenants by slot, name and token.
#[derive(Clone, Default, Debug)]
pub struct Tenants {
    slots: Vec<Option<Tenant>>,
    names: FastMap<Name, usize>,
}

impl Tenants {
    pub fn slot_of_name(&self, name: Name) -> Option<usize> {
        self.names.get(&name).copied()
    }

    pub fn slot_of_token(&self, token: &Token) -> Option<usize> {
        self.slots
            .iter()
            .position(|slot| slot.as_ref().is_some_and(|tenant| tenant.token == *token))
    }

    pub fn tenant(&self, slot: usize) -> Option<&Tenant> {
        self.slots.get(slot)?.as_ref()
    }

    /// The open tenants with their slots, in slot order.
    pub fn iter(&self) -> impl Iterator<Item = (usize, &Tenant)> {
        self.slots
            .iter()
            .enumerate()
            .filter_map(|(slot, tenant)| Some((slot, tenant.as_ref()?)))
    }

    pub fn len(&self) -> usize {
        self.names.len()
    }

    pub fn is_empty(&self) -> bool {
        self.len() == 0
    }

    /// Takes the least free slot: a taken name or token, then want of a slot,
    /// are refused.
    pub fn admit(&mut self, tenant: Tenant) -> Result<usize, Fault> {
        if self.slot_of_name(tenant.name).is_some() || self.slot_of_token(&tenant.token).is_some() {
            return Err(Fault::NameTaken);
        }
        let slot = self
            .slots
            .iter()
            .position(Option::is_none)
            .unwrap_or(self.slots.len());
        if slot >= MOST_TENANTS {
            return Err(Fault::NoSlot);
        }
        if slot == self.slots.len() {
            self.slots.push(None);
        }
        self.names.insert(tenant.name, slot);
        self.slots[slot] = Some(tenant);
        Ok(slot)
    }

    pub fn close(&mut self, slot: usize) -> Option<Tenant> {
        let tenant = self.slots.get_mut(slot)?.take()?;
        self.names.remove(&tenant.name);
        Some(tenant)
    }
}

#[derive(Clone, Debug)]
pub struct Config {
    pub shape: Shape,
    pub tenants: Tenants,
}

#[cfg(test)]
mod tests {
    use super::*;

    #[test]
    fn sizes_stay_small() {
        assert_eq!(size_of::<Key>(), 16);
        assert_eq!(size_of::<Pair>(), 24);
    }

    #[test]
    fn keys_are_ordered_by_their_bytes() {
        let mut texts: Vec<String> = Vec::new();
        for len in [1, 2, 13, 14, 15, 16, 63, 64] {
            for last in ["0", "9", "_", "a", "z"] {
                texts.push(format!("{}{last}", "m".repeat(len - 1)));
            }
        }
        for left in &texts {
            for right in &texts {
                let [a, b] = [left, right].map(|text| Key::new(text.as_bytes()).unwrap());
                assert_eq!(a.bytes(), left.as_bytes());
                assert_eq!(
                    a.cmp(&b),
                    left.as_bytes().cmp(right.as_bytes()),
                    "{left} {right}"
                );
                assert_eq!(a == b, left == right);
            }
        }
        for bad in ["", "X", "a b", &"m".repeat(65)] {
            assert!(Key::new(bad.as_bytes()).is_err());
        }
    }

    #[test]
    fn versions() {
        let next = Version::next;
        assert_eq!(
            next(Layout::One, 0, 1, 1),
            Ok(Version::of(Layout::One, 2, 1))
        );
        assert_eq!(
            next(Layout::One, 5, 3, 2),
            Ok(Version::of(Layout::One, 6, 2))
        );
        assert_eq!(
            next(Layout::One, 72057594037927935, 0, 0),
            Err(Fault::ClockFull)
        );
        assert_eq!(Version::of(Layout::One, 1, 0).0, 256);
        assert_eq!(Version::of(Layout::Two, 1, 0).0, 65536);
        assert_eq!(
            next(Layout::Two, 281474976710655, 0, 0),
            Err(Fault::ClockFull)
        );
    }
}
