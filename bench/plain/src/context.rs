//! What a context has seen: the greatest version per key, and the nearest pairs.

use crate::node::Body;
use crate::types::{Fault, Key, Pair, Pairs, Version, version_of};

#[derive(Clone, Default, Debug)]
pub struct Context {
    /// Sorted by key, one version per key.
    all: Vec<Pair>,
    /// Sorted by key, then version.
    near: Vec<Pair>,
}

impl Context {
    pub fn all(&self) -> &[Pair] {
        &self.all
    }

    pub fn near(&self) -> &[Pair] {
        &self.near
    }

    /// Observes all reads in order, or refuses and stays as it was.
    pub fn observe_all<'a, I>(&mut self, reads: I, limit: usize) -> Result<(), Fault>
    where
        I: Iterator<Item = (Version, &'a Body)> + Clone,
    {
        let (count, pairs) = reads.clone().fold((0, 0), |(count, pairs), (_, body)| {
            (count + 1, pairs + 1 + body.deps.len())
        });
        let has_room = self.all.len() + pairs <= limit
            || self.all.len()
                + reads
                    .clone()
                    .map(|(_, body)| self.unknown(body))
                    .sum::<usize>()
                <= limit;
        if has_room && self.near.len() + count <= limit {
            reads.for_each(|(version, body)| self.observe(&body.key, version, &body.deps));
            return Ok(());
        }
        let mut next = self.clone();
        for (version, body) in reads {
            next.observe(&body.key, version, &body.deps);
            if next.all.len() > limit || next.near.len() > limit {
                return Err(Fault::DependenciesFull);
            }
        }
        *self = next;
        Ok(())
    }

    /// How many keys of a read are not in `all`.
    fn unknown(&self, body: &Body) -> usize {
        let keys = body.deps.iter().map(|pair| &pair.key).chain([&body.key]);
        keys.filter(|key| version_of(&self.all, key).is_none())
            .count()
    }

    fn observe(&mut self, key: &Key, version: Version, deps: &[Pair]) {
        if !deps.is_empty() {
            self.near
                .retain(|pair| version_of(deps, &pair.key) != Some(pair.version));
        }
        if version_of(&self.all, key) != Some(version) {
            let pair = Pair {
                key: key.clone(),
                version,
            };
            let place = self
                .near
                .binary_search_by(|near| (&near.key, near.version).cmp(&(key, version)));
            if let Err(place) = place {
                self.near.insert(place, pair.clone());
            }
            join_pair(&mut self.all, pair);
        }
        join(&mut self.all, deps);
    }

    /// The lists that a put sends, or a refusal if its key has no room.
    pub fn check_put(&self, key: &Key, limit: usize) -> Result<(), Fault> {
        if self.all.len() >= limit && version_of(&self.all, key).is_none() {
            return Err(Fault::DependenciesFull);
        }
        Ok(())
    }

    pub fn put_lists(&self) -> (Pairs, Pairs) {
        (self.all.as_slice().into(), self.near.as_slice().into())
    }

    pub fn after_put(&mut self, key: &Key, version: Version) {
        let pair = Pair {
            key: key.clone(),
            version,
        };
        self.near.clear();
        self.near.push(pair.clone());
        join_pair(&mut self.all, pair);
    }
}

fn join_pair(all: &mut Vec<Pair>, pair: Pair) {
    match all.binary_search_by(|own| own.key.cmp(&pair.key)) {
        Ok(place) => all[place].version = all[place].version.max(pair.version),
        Err(place) => all.insert(place, pair),
    }
}

/// Joins two sorted lists by the greatest version per key.
fn join(all: &mut Vec<Pair>, deps: &[Pair]) {
    let mut missing = Vec::new();
    let mut place = 0;
    for pair in deps {
        // Lists of like length are walked; a short one is looked up in a long one.
        place += if all.len() > 8 * deps.len() {
            all[place..].partition_point(|own| own.key < pair.key)
        } else {
            all[place..]
                .iter()
                .take_while(|own| own.key < pair.key)
                .count()
        };
        match all.get_mut(place) {
            Some(own) if own.key == pair.key => own.version = own.version.max(pair.version),
            _ => missing.push(pair.clone()),
        }
    }
    if !missing.is_empty() {
        all.append(&mut missing);
        all.sort_by(|left, right| left.key.cmp(&right.key));
    }
}

#[cfg(test)]
mod tests {
    use super::*;
    use crate::types::Layout;

    fn pair(key: &str, clock: u64, node: u64) -> Pair {
        let key = Key::new(key.as_bytes()).unwrap();
        Pair {
            key,
            version: Version::of(Layout::Two, clock, node),
        }
    }

    fn observe(
        context: &mut Context,
        seen: Pair,
        deps: &[Pair],
        limit: usize,
    ) -> Result<(), Fault> {
        let (value, near) = (Box::default(), Pairs::default());
        let body = Body {
            key: seen.key,
            value,
            deps: deps.into(),
            near,
        };
        context.observe_all([(seen.version, &body)].into_iter(), limit)
    }

    #[test]
    fn joins() {
        let mut all = vec![pair("x", 1, 0)];
        join(&mut all, &[pair("x", 2, 1), pair("y", 1, 0)]);
        assert_eq!(all, [pair("x", 2, 1), pair("y", 1, 0)]);
        let mut long: Vec<_> = (0..100)
            .map(|number| pair(&format!("k{number:03}"), 5, 0))
            .collect();
        join(
            &mut long,
            &[pair("k005", 9, 0), pair("k0055", 1, 0), pair("k099", 1, 0)],
        );
        assert_eq!(long.len(), 101);
        assert_eq!(long[5], pair("k005", 9, 0));
        assert_eq!(long[6], pair("k0055", 1, 0));
        assert_eq!(long[100], pair("k099", 5, 0));
    }

    #[test]
    fn observations_in_either_order() {
        for first_y in [true, false] {
            let mut context = Context::default();
            for y in [first_y, !first_y] {
                let (seen, deps) = match y {
                    true => (pair("y", 2, 1), vec![pair("x", 1, 0)]),
                    false => (pair("x", 1, 0), vec![]),
                };
                observe(&mut context, seen, &deps, 20).unwrap();
            }
            assert_eq!(context.all, [pair("x", 1, 0), pair("y", 2, 1)]);
            assert_eq!(context.near, [pair("y", 2, 1)]);
            let z = pair("z", 3, 0);
            assert_eq!(context.check_put(&z.key, 20), Ok(()));
            context.after_put(&z.key, z.version);
            assert_eq!(
                context.all,
                [pair("x", 1, 0), pair("y", 2, 1), pair("z", 3, 0)]
            );
            assert_eq!(context.near, [z]);
        }
    }

    #[test]
    fn a_refused_observation_changes_nothing() {
        let mut context = Context::default();
        observe(&mut context, pair("a", 1, 0), &[], 2).unwrap();
        let refused = observe(&mut context, pair("b", 3, 0), &[pair("c", 2, 0)], 2);
        assert_eq!(refused, Err(Fault::DependenciesFull));
        assert_eq!(context.all, [pair("a", 1, 0)]);
        assert_eq!(context.near, [pair("a", 1, 0)]);
    }
}
