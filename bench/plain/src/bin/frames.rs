//! How long frames take, as the proved program of `bench/wire.sh` is asked: `frames decode|encode|serve put|get THOUSANDS`. It decodes into
//! owned messages, as that does, and prints the same lines: how many messages came, or how many bytes there were.
use plain::node::Node;
use plain::session::Session;
use plain::types::{Config, Layout, Name, Quota, Shape, Tenant, Tenants};
use plain::wire::{Connection, Desk};
use std::io::Write;

const PIECE: usize = 4096;
const LONGEST_BODY: usize = 4_000_000;
const REQUESTS: u64 = 8;
const KEYS: u64 = 10_000;
const VALUE: &[u8] = b"a_value_of_thirty_two_bytes_0123";
const MOST: u64 = 4_294_967_295;

#[allow(dead_code)]
enum Message {
    CreateContext,
    DeleteContext([u8; 9]),
    Put([u8; 9], Vec<u8>, Vec<u8>),
    GetTrans([u8; 9], Vec<Vec<u8>>),
}

/// What of a body is still to be read.
struct Rest<'a>(&'a [u8]);

impl<'a> Rest<'a> {
    fn bytes(&mut self, count: usize) -> Option<&'a [u8]> {
        let (bytes, rest) = self.0.split_at_checked(count)?;
        self.0 = rest;
        Some(bytes)
    }

    fn byte(&mut self) -> Option<u8> {
        Some(self.bytes(1)?[0])
    }

    fn handle(&mut self) -> Option<[u8; 9]> {
        self.bytes(9)?.try_into().ok()
    }

    fn key(&mut self) -> Option<Vec<u8>> {
        let len = self.byte()?;
        Some(self.bytes(len.into())?.to_vec())
    }

    fn value(&mut self) -> Option<Vec<u8>> {
        let len = u16::from_be_bytes(self.bytes(2)?.try_into().ok()?);
        Some(self.bytes(len.into())?.to_vec())
    }
}

fn message_of(body: &[u8]) -> Option<Message> {
    let mut rest = Rest(body);
    let message = match rest.byte()? {
        2 => Message::CreateContext,
        3 => Message::DeleteContext(rest.handle()?),
        4 => Message::Put(rest.handle()?, rest.key()?, rest.value()?),
        5 => {
            let (handle, count) = (rest.handle()?, rest.byte()?);
            let keys = (0..count).map(|_| rest.key()).collect::<Option<_>>()?;
            Message::GetTrans(handle, keys)
        }
        _ => return None,
    };
    rest.0.is_empty().then_some(message)
}

/// The message at the front, and the length of its frame. None if less than a frame is there; an error if it is none.
fn front_of(bytes: &[u8]) -> Result<Option<(Message, usize)>, ()> {
    let Some((head, rest)) = bytes.split_first_chunk::<4>() else {
        return Ok(None);
    };
    let len = u32::from_be_bytes(*head) as usize;
    if !(1..=LONGEST_BODY).contains(&len) {
        return Err(());
    }
    match rest.get(..len) {
        None => Ok(None),
        Some(body) => message_of(body).map(|message| Some((message, 4 + len))).ok_or(()),
    }
}

/// Decodes a stream in pieces. Frames that lie whole in a piece are decoded in place.
#[derive(Default)]
struct Decoder {
    rest: Vec<u8>,
}

impl Decoder {
    fn part(messages: &mut Vec<Message>, bytes: &[u8]) -> Result<usize, ()> {
        let mut taken = 0;
        while let Some((message, size)) = front_of(&bytes[taken..])? {
            messages.push(message);
            taken += size;
        }
        Ok(taken)
    }

    fn feed(&mut self, mut piece: &[u8]) -> Result<Vec<Message>, ()> {
        let mut messages = Vec::new();
        if !self.rest.is_empty() {
            let used = self.lacks().min(piece.len());
            self.rest.extend_from_slice(&piece[..used]);
            piece = &piece[used..];
            let taken = Self::part(&mut messages, &self.rest)?;
            self.rest.drain(..taken);
            if !self.rest.is_empty() {
                self.rest.extend_from_slice(piece);
                return Ok(messages);
            }
        }
        let taken = Self::part(&mut messages, piece)?;
        self.rest.extend_from_slice(&piece[taken..]);
        Ok(messages)
    }

    /// How many bytes the frame lacks that has begun: those of its length first.
    fn lacks(&self) -> usize {
        match self.rest.first_chunk::<4>() {
            None => 4 - self.rest.len(),
            Some(head) => (4 + u32::from_be_bytes(*head) as usize).saturating_sub(self.rest.len()),
        }
    }
}

fn push_key(out: &mut Vec<u8>, n: u64) {
    write!(out, "\x0akey_{:06}", n % KEYS).expect("memory");
}

fn push_request(out: &mut Vec<u8>, gets: bool, context: u64, key: u64) {
    out.extend_from_slice(b"\x00\x00\x00\x37");
    out.push(if gets { 5 } else { 4 });
    out.push(b'C');
    out.extend_from_slice(&context.to_be_bytes());
    if gets {
        out.push(4);
        (0..4).for_each(|place| push_key(out, key + place * 2_500));
    } else {
        push_key(out, key);
        out.extend_from_slice(b"\x00\x20");
        out.extend_from_slice(VALUE);
    }
}

/// A greeting, and so many requests. Each eight have a context of their own.
fn requests(gets: bool, count: u64) -> Vec<u8> {
    let mut out = b"\x00\x00\x00\x12\x07".to_vec();
    out.extend_from_slice(&1u128.to_be_bytes());
    out.push(0);
    for n in 0..count {
        let context = n / REQUESTS + 1;
        if n % REQUESTS == 0 {
            out.extend_from_slice(b"\x00\x00\x00\x01\x02");
        }
        push_request(&mut out, gets, context, n * 7_919);
        if n % REQUESTS == REQUESTS - 1 {
            out.extend_from_slice(b"\x00\x00\x00\x0a\x03C");
            out.extend_from_slice(&context.to_be_bytes());
        }
    }
    out
}

fn decode(gets: bool, times: u64) -> u64 {
    let mut frames = Vec::new();
    (0..1000).for_each(|n| push_request(&mut frames, gets, 1, n));
    let mut decoder = Decoder::default();
    let mut count = 0;
    for _ in 0..times {
        for piece in frames.chunks(PIECE) {
            count += decoder.feed(piece).expect("frames").len() as u64;
        }
    }
    count
}

fn push_text(out: &mut Vec<u8>, key: &[u8]) {
    out.push(key.len() as u8);
    out.extend_from_slice(key);
}

/// Puts the frame of a message at the end.
fn encode(message: &Message, out: &mut Vec<u8>) {
    let start = out.len();
    out.extend_from_slice(&[0; 4]);
    match message {
        Message::CreateContext => out.push(2),
        Message::DeleteContext(handle) => {
            out.push(3);
            out.extend_from_slice(handle);
        }
        Message::Put(handle, key, value) => {
            out.push(4);
            out.extend_from_slice(handle);
            push_text(out, key);
            out.extend_from_slice(&(value.len() as u16).to_be_bytes());
            out.extend_from_slice(value);
        }
        Message::GetTrans(handle, keys) => {
            out.push(5);
            out.extend_from_slice(handle);
            out.push(keys.len() as u8);
            keys.iter().for_each(|key| push_text(out, key));
        }
    }
    let len = (out.len() - start - 4) as u32;
    out[start..start + 4].copy_from_slice(&len.to_be_bytes());
}

fn encode_all(gets: bool, times: u64) -> u64 {
    let handle = [b'C', 0, 0, 0, 0, 0, 0, 0, 1];
    let key = |n: u8| format!("key_00000{n}").into_bytes();
    let message = if gets {
        Message::GetTrans(handle, (1..5).map(key).collect())
    } else {
        Message::Put(handle, key(1), VALUE.to_vec())
    };
    let message = std::hint::black_box(message);
    let mut out = Vec::new();
    let mut bytes = 0;
    for _ in 0..times {
        out.clear();
        (0..1000).for_each(|_| encode(&message, &mut out));
        bytes += out.len() as u64;
    }
    bytes
}

/// Counts the bytes that are written.
struct Counter(u64);

impl Write for &mut Counter {
    fn write(&mut self, buf: &[u8]) -> std::io::Result<usize> {
        self.0 += buf.len() as u64;
        Ok(buf.len())
    }

    fn flush(&mut self) -> std::io::Result<()> {
        Ok(())
    }
}

/// One data centre of one shard, and one tenant.
fn config() -> Config {
    let quota = Quota {
        versions: MOST,
        bytes: MOST,
        outbox: MOST,
        contexts: MOST,
        deps: 1024,
        actors: MOST,
        audit: MOST,
    };
    let tenant = Tenant {
        name: Name::new(b"acme").expect("a name"),
        token: 1u128.to_be_bytes(),
        first_clock: 0,
        quota,
    };
    let mut tenants = Tenants::default();
    tenants.admit(tenant).expect("a slot");
    let shape = Shape {
        layout: Layout::Two,
        dcs: 1,
        shards: 1,
        trans_time: 5000,
        restarts: 1,
    };
    Config { shape, tenants }
}

fn serve(config: &Config, node: &mut Node, client: &[u8]) -> u64 {
    let mut counter = Counter(0);
    let mut connection = Connection::new(client, &mut counter);
    let (slot, dc) = connection.greet(&config.tenants, &config.shape).expect("a greeting");
    let mut desk = Desk {
        session: Session::new(dc),
        nodes: OneNode(node),
        shape: &config.shape,
        slot,
        quota: &config.tenants.tenant(slot).expect("a tenant").quota,
        moments: || 0,
    };
    connection.serve(&mut desk).expect("a connection");
    drop(connection);
    counter.0
}

/// The node of a cluster that has no other.
struct OneNode<'a>(&'a mut Node);

impl plain::node::Nodes for OneNode<'_> {
    fn step(&mut self, _node: usize, slot: usize, moment: u64, call: plain::node::Call) -> plain::node::Reply {
        self.0.step(slot, moment, call)
    }
}

fn serve_all(gets: bool, times: u64) -> u64 {
    let config = config();
    let mut node = Node::new(std::hint::black_box(config.shape), 0, true);
    node.admit(0, config.tenants.tenant(0).expect("a tenant"));
    if gets {
        serve(&config, &mut node, &requests(false, KEYS));
    }
    serve(&config, &mut node, &requests(gets, times * 1000))
}

fn main() {
    let words: Vec<String> = std::env::args().skip(1).collect();
    let [what, kind, thousands] = &words[..] else {
        panic!("usage: frames decode|encode|serve put|get THOUSANDS");
    };
    let (gets, times) = (kind == "get", thousands.parse().expect("a number"));
    let count = match what.as_str() {
        "decode" => decode(gets, times),
        "encode" => encode_all(gets, times),
        _ => serve_all(gets, times),
    };
    println!("{count}");
}
