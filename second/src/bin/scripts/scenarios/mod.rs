//! The groups of scenarios. Each group has a fixed list of items; running an item brings the
//! desk into the state it needs, makes the call, and says whether the papers' outcome came.

mod answers;
mod batch_keys;
mod batches;
mod broken;
mod closings;
mod comparing;
mod comparing_ends;
mod comparing_lines;
mod damage;
mod exchange;
mod keying;
mod large;
mod lines;
mod listing_lines;
mod listings;
mod loaded;
mod mending;
mod mixture;
mod names;
mod places;
mod refusals;
mod requests;
mod rooms;
mod signing;
mod tables;
mod times;
mod tkeys;
mod tsigs;
mod unread;
mod unsigning;

use crate::desk::read_number;
use crate::maker::Maker;
use crate::reached::Reached;

pub struct Group {
    pub name: &'static str,
    /// How often it is picked among all groups.
    pub weight: u64,
    pub items: fn() -> Vec<String>,
    pub run: fn(&mut Maker, &str) -> bool,
}

impl Group {
    pub fn item(&self, variant: &str) -> String {
        format!("{}: {}", self.name, variant)
    }
}

/// Every word of the first list with every word of the second.
fn cross(first: &[&str], second: &[&str]) -> Vec<String> {
    first
        .iter()
        .flat_map(|a| second.iter().map(move |b| format!("{a}, {b}")))
        .collect()
}

fn list(items: &[&str]) -> Vec<String> {
    items.iter().map(|i| i.to_string()).collect()
}

/// Takes an item of `cross` apart again.
fn two_words(item: &str) -> (&str, &str) {
    item.split_once(", ").expect("two words")
}

/// Rooms to lend, by number or by the octets that are to be written.
const ROOMS: [&str; 8] = [
    "0",
    "11",
    "one short",
    "exact",
    "one more",
    "65535",
    "65536",
    "2^64 - 1",
];

/// Such a room for so many octets.
fn room_for(length: u64, room: &str) -> u64 {
    match room {
        "one short" => length.saturating_sub(1),
        "exact" => length,
        "one more" => length + 1,
        "2^64 - 1" => u64::MAX,
        number => read_number(number),
    }
}

pub fn groups() -> Vec<Group> {
    let mut all = Vec::new();
    all.extend(refusals::groups());
    all.extend(tables::groups());
    all.extend(closings::groups());
    all.extend(times::groups());
    all.extend(names::groups());
    all.extend(damage::groups());
    all.extend(places::groups());
    all.extend(tsigs::groups());
    all.extend(tkeys::groups());
    all.extend(keying::groups());
    all.extend(rooms::groups());
    all.extend(large::groups());
    all.extend(lines::groups());
    all.extend(mixture::groups());
    all.extend(exchange::groups());
    all.extend(requests::groups());
    all.extend(answers::groups());
    all.extend(signing::groups());
    all.extend(unsigning::groups());
    all.extend(batches::groups());
    all.extend(batch_keys::groups());
    all.extend(listings::groups());
    all.extend(unread::groups());
    all.extend(broken::groups());
    all.extend(mending::groups());
    all.extend(loaded::groups());
    all.extend(listing_lines::groups());
    all.extend(comparing::groups());
    all.extend(comparing_ends::groups());
    all.extend(comparing_lines::groups());
    all
}

pub fn list_items(groups: &[Group], reached: &mut Reached) {
    for group in groups {
        for variant in (group.items)() {
            reached.add(group.item(&variant), None);
        }
    }
}

/// Half of the time the item least reached, so that no chance leaves one out.
fn pick_item(maker: &mut Maker, group: &Group) -> String {
    let variants = (group.items)();
    if maker.rng.chance(50) {
        return maker.rng.pick(&variants).clone();
    }
    let least = variants
        .iter()
        .min_by_key(|v| maker.reached.count(&group.item(v)));
    least.expect("a group has items").clone()
}

fn pick_group<'a>(maker: &mut Maker, groups: &'a [Group]) -> &'a Group {
    let total = groups.iter().map(|g| g.weight).sum();
    let mut at = maker.rng.below(total);
    for group in groups {
        if at < group.weight {
            return group;
        }
        at -= group.weight;
    }
    unreachable!("the weights sum to the total")
}

/// One scenario, with a new table first when the old one has done its time.
pub fn step(maker: &mut Maker, groups: &[Group]) {
    if maker.era_is_over() {
        maker.era();
    }
    if maker.rng.chance(10) {
        maker.line(b"list");
    }
    let group = pick_group(maker, groups);
    let variant = pick_item(maker, group);
    let item = group.item(&variant);
    let as_wanted = (group.run)(maker, &variant);
    if !maker.counts() {
        return;
    }
    if as_wanted {
        maker.hit(&item);
    } else {
        maker.surprise(&format!("{item}: not the outcome that the papers give"));
    }
}
