//! Scripts of requests one after another: each is begun and at once stepped to
//! its end, a moment after the one before.

use crate::random::Random;
use crate::{MOST, options, shard_of};
use std::io::{self, Write};

const VALUE: &str = "a_value_of_thirty_two_bytes_0123";

#[derive(Clone, Copy, Debug)]
pub enum Case {
    ManyKeys,
    FewKeys,
    LongLists,
    ManyGets,
    TwoDataCentres,
    ManyTenants,
    Collected,
    Beside,
    Alone,
    Lives,
    LivesBeside,
}

impl Case {
    pub fn named(name: &str) -> Option<Case> {
        Some(match name {
            "many_keys" => Case::ManyKeys,
            "few_keys" => Case::FewKeys,
            "long_lists" => Case::LongLists,
            "many_gets" => Case::ManyGets,
            "two_data_centres" => Case::TwoDataCentres,
            "many_tenants" => Case::ManyTenants,
            "collected" => Case::Collected,
            "beside" => Case::Beside,
            "alone" => Case::Alone,
            "lives" => Case::Lives,
            "lives_beside" => Case::LivesBeside,
            _ => return None,
        })
    }

    /// How many requests there are if no option says so; in `lives` and
    /// `lives_beside`, how many lives.
    fn usual_requests(self) -> u64 {
        match self {
            Case::ManyKeys | Case::FewKeys => 1_000_000,
            Case::LongLists | Case::Lives | Case::LivesBeside => 100_000,
            Case::ManyGets => 250_000,
            Case::TwoDataCentres => 400_000,
            Case::ManyTenants => 500_000,
            Case::Collected => 200_000,
            Case::Beside | Case::Alone => 20_000,
        }
    }
}

#[derive(Clone, Debug)]
pub struct Plan {
    case: Case,
    requests: u64,
    seed: u64,
}

impl Plan {
    /// The plan of a case and options; None if they aren't known.
    pub fn of(case: Case, words: &[String]) -> Option<Plan> {
        let mut plan = Plan {
            case,
            requests: case.usual_requests(),
            seed: 1,
        };
        options(words, |option, number| {
            match option {
                "--requests" => plan.requests = number,
                "--seed" => plan.seed = number,
                _ => return None,
            }
            Some(())
        })?;
        Some(plan)
    }

    pub fn write(self, out: impl Write) -> io::Result<()> {
        let shards = match self.case {
            Case::TwoDataCentres | Case::ManyTenants => 4,
            _ => 1,
        };
        let mut script = Script {
            out,
            random: Random(self.seed),
            shards,
            moment: 0,
        };
        let requests = self.requests;
        match self.case {
            Case::ManyKeys => script.puts(requests, 10_000, 8),
            Case::FewKeys => script.puts(requests, 8, u64::MAX),
            Case::LongLists => script.puts(requests, 100, u64::MAX),
            Case::ManyGets => script.gets(requests),
            Case::TwoDataCentres => script.shared(requests, 8, 2),
            Case::ManyTenants => script.shared(requests, 64, 1),
            Case::Collected => script.collected(requests),
            Case::Beside => script.beside(requests, 100_000),
            Case::Alone => script.beside(requests, 0),
            Case::Lives => script.lives(requests, 0),
            Case::LivesBeside => script.lives(requests, 5_000),
        }
    }
}

/// Lines of one script, and what of its state they depend on.
struct Script<W> {
    out: W,
    random: Random,
    shards: u64,
    moment: u64,
}

/// A session of a tenant, and the context that it uses.
#[derive(Clone)]
struct Client {
    tenant: String,
    session: &'static str,
    dc: u64,
    context: u64,
    requests: u64,
}

fn key(number: u64) -> String {
    format!("item_{number:06}")
}

impl<W: Write> Script<W> {
    fn head(&mut self, data_centres: u64, tenants: &[String]) -> io::Result<()> {
        let shards = self.shards;
        writeln!(self.out, "cluster {data_centres} {shards} 5000 1")?;
        for (number, tenant) in tenants.iter().enumerate() {
            write!(self.out, "tenant ")?;
            self.terms(tenant, number as u64)?;
        }
        writeln!(self.out, "begin")
    }

    /// The ten words of a tenant.
    fn terms(&mut self, tenant: &str, token: u64) -> io::Result<()> {
        let quotas = format!("{MOST} {MOST} {MOST} {MOST} 1024 {MOST} {MOST}");
        writeln!(self.out, "{tenant} {token:032x} 0 {quotas}")
    }

    fn client(&mut self, tenant: &str, session: &'static str, dc: u64) -> io::Result<Client> {
        writeln!(self.out, "{tenant} open {session} {dc}")?;
        writeln!(self.out, "{tenant} ctx {session}")?;
        Ok(Client {
            tenant: tenant.to_string(),
            session,
            dc,
            context: 1,
            requests: 0,
        })
    }

    /// Counts a request, and gives the client a new context after each `life` of them.
    fn count(&mut self, client: &mut Client, life: u64) -> io::Result<()> {
        self.moment += 1;
        if client.requests > 0 && client.requests.is_multiple_of(life) {
            let Client {
                tenant,
                session,
                context,
                ..
            } = client;
            writeln!(self.out, "{tenant} drop {session} {context}")?;
            writeln!(self.out, "{tenant} ctx {session}")?;
            client.context += 1;
        }
        client.requests += 1;
        Ok(())
    }

    fn put(&mut self, client: &Client, key: &str) -> io::Result<()> {
        let Client {
            tenant,
            session,
            context,
            ..
        } = client;
        let moment = self.moment;
        writeln!(self.out, "{tenant} put {session} {context} {key} {VALUE}")?;
        writeln!(self.out, "{tenant} step {session} {moment}")
    }

    /// A get of some of the first keys, which are all different.
    fn get(&mut self, client: &Client, count: u64, keys: u64) -> io::Result<()> {
        let Client {
            tenant,
            session,
            context,
            ..
        } = client;
        let moment = self.moment;
        write!(self.out, "{tenant} get {session} {context}")?;
        let first = self.random.below(keys);
        for place in 0..count {
            write!(
                self.out,
                " {}",
                key((first + place * (keys / count)) % keys)
            )?;
        }
        writeln!(self.out, "\n{tenant} done {session} {moment}")
    }

    /// Takes the front of the stream on which a key's entry went out to the other one of two data centres.
    fn carry(&mut self, client: &Client, key: &str) -> io::Result<()> {
        let Client { tenant, dc, .. } = client;
        let moment = self.moment;
        let shard = shard_of(key, self.shards);
        writeln!(self.out, "{tenant} carry carrier {dc} {shard} {}", 1 - dc)?;
        writeln!(self.out, "{tenant} done carrier {moment}")
    }

    fn collect(&mut self, tenant: &str, data_centres: u64) -> io::Result<()> {
        for dc in 0..data_centres {
            for shard in 0..self.shards {
                let moment = self.moment;
                writeln!(self.out, "{tenant} collect {dc} {shard} {moment}")?;
            }
        }
        Ok(())
    }

    /// Puts of one tenant on one node.
    fn puts(&mut self, requests: u64, keys: u64, life: u64) -> io::Result<()> {
        self.head(1, &["acme".to_string()])?;
        let mut client = self.client("acme", "a", 0)?;
        for _ in 0..requests {
            self.count(&mut client, life)?;
            let key = key(self.random.below(keys));
            self.put(&client, &key)?;
        }
        Ok(())
    }

    /// Each of 10,000 keys is put once, and then four are read at a time.
    fn gets(&mut self, requests: u64) -> io::Result<()> {
        self.head(1, &["acme".to_string()])?;
        let mut client = self.client("acme", "a", 0)?;
        for number in 0..10_000 {
            self.count(&mut client, 8)?;
            self.put(&client, &key(number))?;
        }
        for _ in 0..requests {
            self.count(&mut client, 8)?;
            self.get(&client, 4, 10_000)?;
        }
        Ok(())
    }

    /// Tenants in turn, half of whose requests are gets of two keys. In two data centres each has a client in both,
    /// carries what it puts, and collects now and then.
    fn shared(&mut self, requests: u64, tenants: u64, data_centres: u64) -> io::Result<()> {
        let names: Vec<String> = (0..tenants).map(|n| format!("tenant{n}")).collect();
        self.head(data_centres, &names)?;
        let mut clients = Vec::new();
        for name in &names {
            for dc in 0..data_centres {
                let session = if dc == 0 { "here" } else { "there" };
                clients.push(self.client(name, session, dc)?);
            }
        }
        for number in 0..requests {
            let place = self.random.below(clients.len() as u64) as usize;
            let mut client = clients[place].clone();
            self.count(&mut client, 2)?;
            if self.random.below(2) == 0 {
                self.get(&client, 2, 1_000)?;
            } else {
                let key = key(self.random.below(1_000));
                self.put(&client, &key)?;
                if data_centres > 1 {
                    self.carry(&client, &key)?;
                }
            }
            if number % 10_000 == 9_999 {
                self.collect(&client.tenant, data_centres)?;
            }
            clients[place] = client;
        }
        Ok(())
    }

    /// Puts of one tenant who collects after every 50.
    fn collected(&mut self, requests: u64) -> io::Result<()> {
        self.head(1, &["acme".to_string()])?;
        let mut client = self.client("acme", "a", 0)?;
        for number in 0..requests {
            self.count(&mut client, 1)?;
            let key = key(self.random.below(8));
            self.put(&client, &key)?;
            if number % 50 == 49 {
                self.collect("acme", 1)?;
            }
        }
        Ok(())
    }

    /// Tenants one after another, each of whom comes, puts, gets and goes. Beside them there may be a tenant with so
    /// many sessions, each of which has put once; one of them puts again after every ten lives.
    fn lives(&mut self, lives: u64, sessions: u64) -> io::Result<()> {
        let others: &[String] = if sessions > 0 {
            &["acme".to_string()]
        } else {
            &[]
        };
        self.head(1, others)?;
        for number in 0..sessions {
            let key = key(self.random.below(1_000));
            self.moment += 1;
            let moment = self.moment;
            writeln!(self.out, "acme open s{number} 0\nacme ctx s{number}")?;
            writeln!(
                self.out,
                "acme put s{number} 1 {key} {VALUE}\nacme step s{number} {moment}"
            )?;
        }
        for number in 0..lives {
            write!(self.out, "+ ")?;
            self.terms("guest", number + 1)?;
            let guest = self.client("guest", "a", 0)?;
            self.moment += 1;
            let key = key(self.random.below(1_000));
            self.put(&guest, &key)?;
            let moment = self.moment;
            writeln!(self.out, "guest get a 1 {key}\nguest done a {moment}")?;
            writeln!(self.out, "- guest")?;
            if sessions > 0 && number % 10 == 9 {
                let (session, moment) = (self.random.below(sessions), self.moment);
                writeln!(
                    self.out,
                    "acme put s{session} 1 {key} {VALUE}\nacme step s{session} {moment}"
                )?;
            }
        }
        Ok(())
    }

    /// A tenant who puts, carries, reads and collects, after another one who put so many entries that nobody carried
    /// or collected.
    fn beside(&mut self, requests: u64, waiting: u64) -> io::Result<()> {
        self.head(2, &["acme".to_string(), "beta".to_string()])?;
        let mut other = self.client("beta", "b", 0)?;
        for _ in 0..waiting {
            self.count(&mut other, 8)?;
            let key = key(self.random.below(10));
            self.put(&other, &key)?;
        }
        let mut client = self.client("acme", "a", 0)?;
        for number in 0..requests {
            self.count(&mut client, 1)?;
            let key = key(self.random.below(1_000));
            self.put(&client, &key)?;
            self.carry(&client, &key)?;
            self.get(&client, 2, 1_000)?;
            if number % 100 == 99 {
                self.collect("acme", 2)?;
            }
        }
        Ok(())
    }
}
