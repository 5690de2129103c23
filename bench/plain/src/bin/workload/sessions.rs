//! Scripts of many sessions whose requests overlap.
//!
//! Each context works on one small group of keys and is renewed from time to
//! time, so that dependency lists stay as short as the group. Carriers take
//! entries in the order of their puts, so that none of them waits.

use crate::random::Random;
use crate::{MOST, options, shard_of};
use std::collections::VecDeque;
use std::io::{self, Write};
use std::ops::Range;

#[derive(Clone, Debug)]
pub struct Plan {
    /// About how many event lines are written.
    events: u64,
    tenants: usize,
    dcs: usize,
    shards: usize,
    /// Keys per tenant, rounded up to whole groups.
    keys: u64,
    /// Keys that one context touches.
    group: u64,
    value: usize,
    /// Percentage of get transactions among requests.
    reads: u64,
    get_keys: u64,
    /// Sessions per tenant and data centre.
    sessions: usize,
    /// Percentage of queued entries that are carried while the script goes on.
    carry: u64,
    /// Requests between two collections, 0 for none.
    collect: u64,
    /// Requests of a session between two contexts.
    renew: u64,
    trans_time: u64,
    seed: u64,
    /// Whether every key is put once before anything else.
    fill: bool,
    /// Whether all nodes are collected at the end.
    sweep: bool,
    /// Whether the first tenant leaves all its entries queued and stale in the
    /// first half, and the others work beside them in the second.
    crowd: bool,
    head_alone: bool,
}

impl Plan {
    /// The plan of a preset and options; None if they aren't known.
    pub fn of(preset: &str, words: &[String]) -> Option<Plan> {
        let mut plan = Plan::preset(preset)?;
        options(words, |option, number| plan.set(option, number))?;
        plan.is_valid().then_some(plan)
    }

    pub fn write(self, out: impl Write) -> io::Result<()> {
        Generator::new(self, out).script()
    }

    fn preset(name: &str) -> Option<Plan> {
        let plain = Plan {
            events: 1_000_000,
            tenants: 1,
            dcs: 1,
            shards: 1,
            keys: 1000,
            group: 8,
            value: 64,
            reads: 0,
            get_keys: 1,
            sessions: 1,
            carry: 100,
            collect: 0,
            renew: 32,
            trans_time: 5000,
            seed: 1,
            fill: false,
            sweep: false,
            crowd: false,
            head_alone: false,
        };
        let mixed = Plan {
            tenants: 8,
            dcs: 2,
            shards: 4,
            reads: 50,
            get_keys: 3,
            sessions: 4,
            collect: 1000,
            fill: true,
            ..plain.clone()
        };
        Some(match name {
            "puts" => Plan {
                events: 2_000_000,
                ..plain
            },
            "gets" => Plan {
                reads: 100,
                get_keys: 4,
                fill: true,
                ..plain
            },
            "mixed" => mixed,
            "growth" => Plan {
                keys: 64,
                fill: false,
                ..mixed
            },
            "crowd" => Plan {
                tenants: 2,
                dcs: 2,
                keys: 64,
                collect: 16,
                trans_time: 10,
                crowd: true,
                ..plain
            },
            "deep" => Plan {
                events: 206_300,
                keys: 1,
                group: 1,
                value: 16,
                sweep: true,
                ..plain
            },
            "wide" => Plan {
                tenants: 64,
                shards: 4,
                reads: 50,
                get_keys: 2,
                sessions: 2,
                ..plain
            },
            "audit" => Plan {
                events: 200_000,
                value: 256,
                ..mixed
            },
            "serve" => Plan {
                tenants: 8,
                head_alone: true,
                ..plain
            },
            _ => return None,
        })
    }

    fn set(&mut self, option: &str, number: u64) -> Option<()> {
        let count = usize::try_from(number).ok()?;
        match option {
            "--events" => self.events = number,
            "--tenants" => self.tenants = count,
            "--dcs" => self.dcs = count,
            "--shards" => self.shards = count,
            "--keys" => self.keys = number.max(1),
            "--group" => self.group = number.max(1),
            "--value" => self.value = count,
            "--reads" => self.reads = number,
            "--get-keys" => self.get_keys = number.max(1),
            "--sessions" => self.sessions = count.max(1),
            "--carry" => self.carry = number,
            "--collect" => self.collect = number,
            "--renew" => self.renew = number.max(1),
            "--trans-time" => self.trans_time = number,
            "--seed" => self.seed = number,
            _ => return None,
        }
        Some(())
    }

    fn is_valid(&self) -> bool {
        (1..=64).contains(&self.tenants)
            && (1..=8).contains(&self.dcs)
            && (1..=64).contains(&self.shards)
            && (1..=4096).contains(&self.value)
            && self.group <= 256
            && self.get_keys <= self.group.min(32)
            && self.renew * self.get_keys <= 1024
            && self.sessions <= 256
            && (!self.crowd || self.tenants > 1)
            && self.reads <= 100
    }
}

struct Session {
    tenant: usize,
    dc: usize,
    name: String,
    context: u64,
    group: u64,
    left: u64,
    /// The put under way: its shard.
    running: Option<Option<usize>>,
}

struct Generator<W> {
    plan: Plan,
    out: W,
    random: Random,
    sessions: Vec<Session>,
    /// Per tenant and destination, the origins of entries in order of their puts.
    queues: Vec<Vec<VecDeque<(usize, usize)>>>,
    moment: u64,
    written: u64,
    requests: u64,
    carriers: u64,
    line: Vec<u8>,
}

fn key_name(number: u64) -> String {
    format!("k{number}")
}

impl<W: Write> Generator<W> {
    fn new(plan: Plan, out: W) -> Self {
        let mut sessions = Vec::new();
        for tenant in 0..plan.tenants {
            for dc in 0..plan.dcs {
                for number in 0..plan.sessions {
                    let name = format!("s{dc}_{number}");
                    let (context, group, left, running) = (0, 0, 0, None);
                    sessions.push(Session {
                        tenant,
                        dc,
                        name,
                        context,
                        group,
                        left,
                        running,
                    });
                }
            }
        }
        let queues = vec![vec![VecDeque::new(); plan.dcs]; plan.tenants];
        let random = Random(plan.seed);
        Generator {
            plan,
            out,
            random,
            sessions,
            queues,
            moment: 1_000_000,
            written: 0,
            requests: 0,
            carriers: 0,
            line: Vec::new(),
        }
    }

    fn head(&mut self) -> io::Result<()> {
        let plan = &self.plan;
        writeln!(
            self.out,
            "cluster {} {} {} 3",
            plan.dcs, plan.shards, plan.trans_time
        )?;
        for tenant in 0..plan.tenants {
            writeln!(
                self.out,
                "tenant t{tenant} 00000000-0000-0000-0000-{:012x} 0 {MOST} {MOST} {MOST} 64 1024 4096 {MOST}",
                tenant + 1
            )?;
        }
        writeln!(self.out, "begin")
    }

    fn event(&mut self, tenant: usize, text: std::fmt::Arguments) -> io::Result<()> {
        self.written += 1;
        if self.written.is_multiple_of(16) {
            self.moment += 1;
        }
        writeln!(self.out, "t{tenant} {text}")
    }

    fn script(&mut self) -> io::Result<()> {
        self.head()?;
        if self.plan.head_alone {
            return Ok(());
        }
        for place in 0..self.sessions.len() {
            let Session {
                tenant,
                dc,
                ref name,
                ..
            } = self.sessions[place];
            let name = name.clone();
            self.event(tenant, format_args!("open {name} {dc}"))?;
        }
        if self.plan.fill {
            self.fill()?;
        }
        let (all, events) = (self.sessions.len(), self.plan.events);
        if self.plan.crowd {
            let first = self.plan.sessions * self.plan.dcs;
            self.work(0..first, events / 2)?;
            self.work(first..all, events)?;
        } else {
            self.work(0..all, events)?;
        }
        if self.plan.sweep {
            self.moment += self.plan.trans_time + 1;
            self.collect_all()?;
        }
        Ok(())
    }

    /// These sessions at random, until so many events are written.
    fn work(&mut self, places: Range<usize>, until: u64) -> io::Result<()> {
        while self.written < until {
            let place = places.start + self.random.below(places.len() as u64) as usize;
            match self.sessions[place].running {
                Some(_) => self.finish(place)?,
                None => self.begin(place)?,
            }
        }
        for place in places {
            if self.sessions[place].running.is_some() {
                self.finish(place)?;
            }
        }
        Ok(())
    }

    /// Puts every key once, by each tenant's first session.
    fn fill(&mut self) -> io::Result<()> {
        let each = self.plan.sessions * self.plan.dcs;
        for tenant in 0..self.plan.tenants {
            for key in 0..self.plan.keys {
                self.renew(tenant * each, key / self.plan.group)?;
                self.begin_put(tenant * each, key)?;
                self.finish(tenant * each)?;
            }
        }
        Ok(())
    }

    /// Sees to it that the session has a context for some group.
    fn renew(&mut self, place: usize, group: u64) -> io::Result<()> {
        let session = &mut self.sessions[place];
        if session.left > 0 && session.group == group {
            session.left -= 1;
            return Ok(());
        }
        let (tenant, name, old) = (session.tenant, session.name.clone(), session.context);
        session.context += 1;
        session.group = group;
        session.left = self.plan.renew - 1;
        if old > 0 {
            self.event(tenant, format_args!("drop {name} {old}"))?;
        }
        self.event(tenant, format_args!("ctx {name}"))
    }

    fn begin(&mut self, place: usize) -> io::Result<()> {
        self.requests += 1;
        let session = &self.sessions[place];
        let group = match session.left {
            0 => self.random.below(self.plan.keys.div_ceil(self.plan.group)),
            _ => session.group,
        };
        self.renew(place, group)?;
        let size = self
            .plan
            .group
            .min(self.plan.keys - group * self.plan.group);
        let first = group * self.plan.group;
        if self.random.below(100) < self.plan.reads {
            let count = self.plan.get_keys.min(size);
            let offset = self.random.below(size);
            self.line.clear();
            for number in 0..count {
                write!(self.line, " {}", key_name(first + (offset + number) % size))?;
            }
            let Session {
                tenant,
                context,
                ref name,
                ..
            } = self.sessions[place];
            let (name, keys) = (
                name.clone(),
                String::from_utf8_lossy(&self.line).into_owned(),
            );
            self.sessions[place].running = Some(None);
            self.event(tenant, format_args!("get {name} {context}{keys}"))?;
        } else {
            let key = first + self.random.below(size);
            self.begin_put(place, key)?;
        }
        if self.plan.collect > 0 && self.requests.is_multiple_of(self.plan.collect) {
            self.collect_one()?;
        }
        Ok(())
    }

    fn begin_put(&mut self, place: usize, key: u64) -> io::Result<()> {
        self.line.clear();
        write!(self.line, "v{}_", self.written)?;
        while self.line.len() < self.plan.value {
            let byte = b'a' + self.random.below(26) as u8;
            self.line.push(byte);
        }
        self.line.truncate(self.plan.value);
        let value = String::from_utf8_lossy(&self.line).into_owned();
        let key = key_name(key);
        let Session {
            tenant,
            context,
            ref name,
            ..
        } = self.sessions[place];
        let name = name.clone();
        self.sessions[place].running = Some(Some(shard_of(&key, self.plan.shards as u64) as usize));
        self.event(tenant, format_args!("put {name} {context} {key} {value}"))
    }

    fn finish(&mut self, place: usize) -> io::Result<()> {
        let Session {
            tenant,
            dc,
            ref name,
            running,
            ..
        } = self.sessions[place];
        let name = name.clone();
        self.sessions[place].running = None;
        let moment = self.moment;
        self.event(tenant, format_args!("done {name} {moment}"))?;
        if let Some(Some(shard)) = running {
            for to_dc in (0..self.plan.dcs).filter(|&other| other != dc) {
                self.queues[tenant][to_dc].push_back((dc, shard));
            }
        }
        let stays = self.plan.crowd && tenant == 0;
        for to_dc in 0..self.plan.dcs {
            if !stays && self.random.below(100) < self.plan.carry {
                self.carry(tenant, to_dc)?;
            }
        }
        Ok(())
    }

    fn carry(&mut self, tenant: usize, to_dc: usize) -> io::Result<()> {
        if let Some((dc, shard)) = self.queues[tenant][to_dc].pop_front() {
            self.carriers += 1;
            let (name, moment) = (self.carriers % 1000, self.moment);
            self.event(tenant, format_args!("carry c{name} {dc} {shard} {to_dc}"))?;
            self.event(tenant, format_args!("done c{name} {moment}"))?;
        }
        Ok(())
    }

    fn collect_one(&mut self) -> io::Result<()> {
        let others = usize::from(self.plan.crowd);
        let tenant = others + self.random.below((self.plan.tenants - others) as u64) as usize;
        let dc = self.random.below(self.plan.dcs as u64);
        let shard = self.random.below(self.plan.shards as u64);
        let moment = self.moment;
        self.event(tenant, format_args!("collect {dc} {shard} {moment}"))
    }

    fn collect_all(&mut self) -> io::Result<()> {
        let moment = self.moment;
        for tenant in 0..self.plan.tenants {
            for dc in 0..self.plan.dcs {
                for shard in 0..self.plan.shards {
                    self.event(tenant, format_args!("collect {dc} {shard} {moment}"))?;
                }
            }
        }
        Ok(())
    }
}
