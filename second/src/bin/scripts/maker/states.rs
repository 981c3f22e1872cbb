//! Keys in every stage of life, found in the table or brought there.

use super::{Maker, Signer};
use crate::desk::Pair;
use crate::wire;

impl Maker<'_> {
    /// A key in its fresh time.
    pub fn live(&mut self) -> Signer {
        let time = self.tick();
        if !self.rng.chance(4) {
            if let Some(pair) = self.some_pair(|p| p.is_fresh(time)) {
                return self.signer(pair, time);
            }
        }
        let pair = self.any_pair();
        self.issued(pair)
    }

    /// Keys of so many pairs, in no order, all of them fresh at one time. A fresh key has no
    /// waiting one beside it.
    pub fn fresh_keys(&mut self, count: u64) -> Vec<Signer> {
        let time = self.tick();
        while self.count() < count {
            self.enrol_fresh(time);
        }
        let mut pairs: Vec<u64> = (1..=self.count()).collect();
        for place in 0..count {
            let other = self.rng.within(place, pairs.len() as u64 - 1);
            pairs.swap(place as usize, other as usize);
        }
        pairs.truncate(count as usize);
        for &pair in &pairs {
            if !self.pair(pair).is_fresh(time) {
                let algorithm = self.rng.algorithm();
                self.issue(time, pair, algorithm);
            }
        }
        pairs.iter().map(|&pair| self.signer(pair, time)).collect()
    }

    /// A key just made that is fresh for ten minutes, the table's time being as long.
    pub fn lasting(&mut self) -> Signer {
        self.time_for(1000);
        if let Some(pair) = self.some_pair(|p| p.fresh > 600) {
            return self.issued(pair);
        }
        self.with_space();
        let (time, suffix) = (self.tick(), self.fresh_suffix(6));
        let algorithm = self.rng.algorithm();
        self.enrol(time, &suffix, (900, 700), algorithm);
        self.signer(self.count(), time)
    }

    pub fn issued(&mut self, pair: u64) -> Signer {
        let algorithm = self.rng.algorithm();
        self.issued_with(pair, algorithm)
    }

    pub fn issued_with(&mut self, pair: u64, algorithm: u64) -> Signer {
        let time = self.tick();
        self.issue(time, pair, algorithm);
        self.signer(pair, time)
    }

    /// A fresh key of this algorithm.
    pub fn live_with(&mut self, algorithm: u64) -> Signer {
        let time = self.tick();
        let fits = |p: &Pair| {
            p.is_fresh(time) && p.adopted.as_ref().is_some_and(|k| k.algorithm == algorithm)
        };
        match self.some_pair(fits) {
            Some(pair) => self.signer(pair, time),
            None => {
                let pair = self.any_pair();
                self.issued_with(pair, algorithm)
            }
        }
    }

    /// A key just made, by the operator or by renewal and adoption, of a pair that fits.
    pub fn renewed(&mut self, pair: u64) -> Signer {
        let signer = self.issued(pair);
        if self.rng.chance(50) {
            return signer;
        }
        self.grant(&signer);
        self.adopt_waiting(&signer);
        self.signer(pair, signer.time)
    }

    pub fn grant(&mut self, signer: &Signer) {
        let ask = self.renewal(signer);
        let call = self.call_for(&ask, signer.time);
        self.send(&call, &ask.octets());
    }

    pub fn adopt_waiting(&mut self, signer: &Signer) {
        if let Some(key) = self.pair(signer.pair).waiting.clone() {
            let name = wire::key_name(key.serial, &signer.suffix);
            let ask = self.adoption(signer, &name, key.algorithm);
            let call = self.call(signer.time);
            self.send(&call, &ask.octets());
        }
    }

    /// A live signing key with a waiting key beside it.
    pub fn with_waiting(&mut self) -> Signer {
        let time = self.tick();
        if let Some(pair) = self.some_pair(|p| p.waiting.is_some() && p.is_live(time)) {
            return self.signer(pair, time);
        }
        let signer = self.live();
        self.grant(&signer);
        signer
    }

    /// A live signing key without a waiting one.
    pub fn without_waiting(&mut self) -> Signer {
        let time = self.tick();
        match self.some_pair(|p| p.waiting.is_none() && p.is_live(time)) {
            Some(pair) => self.signer(pair, time),
            None => {
                let pair = self.any_pair();
                self.issued(pair)
            }
        }
    }

    /// A key that has had another before it in its pair.
    pub fn with_old(&mut self) -> Signer {
        let time = self.tick();
        let fits = |p: &Pair| p.is_fresh(time) && p.adopted.as_ref().is_some_and(|k| k.serial > 1);
        match self.some_pair(fits) {
            Some(pair) => self.signer(pair, time),
            None => {
                let pair = self.any_pair();
                self.issued(pair)
            }
        }
    }

    /// A key past its fresh time and before its expiry.
    pub fn revoked(&mut self) -> Signer {
        let time = self.tick();
        if let Some(pair) = self.some_pair(|p| p.is_revoked(time)) {
            return self.signer(pair, time);
        }
        let signer = self.live();
        self.revoke(signer.time, signer.pair);
        signer
    }

    pub fn expired(&mut self) -> Signer {
        let time = self.tick();
        if let Some(pair) = self.some_pair(|p| p.adopted.is_some() && !p.is_live(time)) {
            return self.signer(pair, time);
        }
        self.time_for(10_000);
        let pair = self.short_pair();
        let signer = self.issued(pair);
        let life = self.pair(pair).life;
        signer.at(signer.time + life)
    }

    /// A pair whose times can be waited for; every era enrols one.
    pub fn short_pair(&mut self) -> u64 {
        let fits = |p: &Pair| p.life <= 5000 && p.fresh >= 2 && p.life - p.fresh >= 2;
        match self.some_pair(fits) {
            Some(pair) => pair,
            None => {
                self.era();
                self.short_pair()
            }
        }
    }

    /// A pair without a key.
    pub fn keyless(&mut self) -> u64 {
        if let Some(pair) = self.some_pair(|p| p.adopted.is_none()) {
            return pair;
        }
        let pair = self.any_pair();
        let signer = self.issued(pair);
        let ask = self.deletion(&signer, &signer.name());
        let call = self.call(signer.time);
        self.send(&call, &ask.octets());
        signer.pair
    }

    /// A key of another pair than the signer's.
    pub fn stranger(&mut self, signer: &Signer) -> Signer {
        if self.count() < 2 {
            self.enrol_fresh(signer.time);
        }
        let count = self.count();
        let other = 1 + (signer.pair + self.rng.below(count - 1)) % count;
        if self.pair(other).adopted.is_none() {
            let algorithm = self.rng.algorithm();
            self.issue(signer.time, other, algorithm);
        }
        self.signer(other, signer.time)
    }
}
