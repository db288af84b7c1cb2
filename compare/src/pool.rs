//! Elements found by their places, for readings that chance hardly brings.

use crate::filters;
use crate::malicious::Plan;
use crate::model;
use crate::quick;
use crate::random::Random;
use crate::sets::table_of;
use std::collections::HashMap;

/// Many salted IDs at one size, found by two or by all three of their places (ascending).
pub struct Pool {
    pub size: u32,
    pub keys: Vec<u64>,
    pub by_two: HashMap<[u32; 2], Vec<u64>>,
    by_three: HashMap<[u32; 3], Vec<u64>>,
}

pub fn ascending(key: u64, size: u32) -> [u32; 3] {
    let mut places = quick::places(key, size);
    places.sort_unstable();
    places
}

impl Pool {
    pub fn new(random: &mut Random, size: u32, n: usize) -> Pool {
        let keys = random.numbers(n);
        let (mut by_two, mut by_three) = (HashMap::new(), HashMap::new());
        for &key in &keys {
            let [a, b, c] = ascending(key, size);
            for two in [[a, b], [a, c], [b, c]] {
                by_two.entry(two).or_insert_with(Vec::new).push(key);
            }
            by_three.entry([a, b, c]).or_insert_with(Vec::new).push(key);
        }
        Pool {
            size,
            keys,
            by_two,
            by_three,
        }
    }

    /// An element with these two places, and its third.
    pub fn with_two(&self, random: &mut Random, mut two: [u32; 2]) -> (u64, u32) {
        two.sort_unstable();
        let key = random.pick(&self.by_two[&two]);
        let places = quick::places(key, self.size);
        let third = places.into_iter().find(|place| !two.contains(place));
        (key, third.expect("three are distinct"))
    }

    /// All elements with these three places.
    pub fn with_three(&self, mut three: [u32; 3]) -> &[u64] {
        three.sort_unstable();
        self.by_three.get(&three).map_or(&[], |keys| keys)
    }

    /// Elements that share their three places with a random one, itself among them.
    pub fn alike(&self, random: &mut Random, n: usize) -> Vec<u64> {
        loop {
            let key = random.pick(&self.keys);
            let alike = self.with_three(quick::places(key, self.size));
            if alike.len() >= n {
                let from = random.below((alike.len() - n) as u64 + 1) as usize;
                return alike[from..from + n].to_vec();
            }
        }
    }

    /// A plan in whose table these elements (salted) and n others stand.
    pub fn plan(&self, random: &mut Random, keys: &[u64], n: usize) -> Plan {
        let mut plan = Plan::new(random, self.size, n);
        let unsalted = keys.iter().map(|&key| model::unsalt(key, plan.salt));
        let mut ids = filters::ids(&plan.table);
        ids.extend(unsalted);
        plan.table = table_of(random, &ids);
        plan.held.extend(keys);
        plan
    }
}
