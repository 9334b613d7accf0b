//! The store of four windows of so many customers, and starts over it, in Rust that nobody proved, with std alone: the rows
//! of each table are copied and held to what the rules of form ask of them, with a hash map over the keys of hubs and links
//! and a sorted vector over the parents of the other tables. Takes the customers and the number of starts as its arguments,
//! waits where the Rattle program does, and prints what it prints.
#[path = "../md5.rs"]
mod md5;

use md5::{Digest, Md5};
use std::collections::{HashMap, HashSet};
use std::io::stdin;
use std::time::Instant;

type Text = Vec<u8>;

const WINDOWS: u64 = 4;
const PHONES: u64 = 2;
/// The end of a run that goes on, in seconds since 1900.
const OPEN: u64 = 255_611_289_599;
const SOURCES: [&[u8]; 3] = [b"crm.customers", b"crm.phones", b"crm.visits"];

#[derive(Clone)]
struct HubRow {
    digest: Digest,
    load: u64,
    source: Text,
    key: Vec<Text>,
}

#[derive(Clone)]
struct LinkRow {
    digest: Digest,
    load: u64,
    source: Text,
    hubs: Vec<Digest>,
}

/// A row of a satellite; that of a plain one has no sub.
#[derive(Clone)]
struct SatRow {
    parent: Digest,
    load: u64,
    source: Text,
    diff: Digest,
    sub: Vec<Text>,
    attrs: Vec<Text>,
}

#[derive(Clone)]
struct StatusRow {
    parent: Digest,
    load: u64,
    source: Text,
    appeared: bool,
}

#[derive(Clone)]
struct EffectRow {
    parent: Digest,
    load: u64,
    source: Text,
    begin: u64,
    end: u64,
}

trait Row: Clone {
    fn digest(&self) -> &Digest;
    fn load(&self) -> u64;
    fn source(&self) -> &Text;
    /// What the row weighs besides its own 128 and its source.
    fn further_weight(&self) -> u64;
    fn sub(&self) -> &[Text] {
        &[]
    }
}

fn weight_of(texts: &[Text]) -> u64 {
    texts.iter().map(|text| 16 + text.len() as u64).sum()
}

macro_rules! row {
    ($kind:ident, $digest:ident, $weight:expr $(, $sub:ident)?) => {
        impl Row for $kind {
            fn digest(&self) -> &Digest {
                &self.$digest
            }
            fn load(&self) -> u64 {
                self.load
            }
            fn source(&self) -> &Text {
                &self.source
            }
            fn further_weight(&self) -> u64 {
                let weight: fn(&$kind) -> u64 = $weight;
                weight(self)
            }
            $(fn sub(&self) -> &[Text] {
                &self.$sub
            })?
        }
    };
}

row!(HubRow, digest, |row| weight_of(&row.key));
row!(LinkRow, digest, |row| 32 * row.hubs.len() as u64);
row!(SatRow, parent, |row| 32 + weight_of(&row.sub) + weight_of(&row.attrs), sub);
row!(StatusRow, parent, |_| 0);
row!(EffectRow, parent, |_| 0);

fn weight<R: Row>(rows: &[R]) -> u64 {
    rows.iter().map(|row| 128 + 16 + row.source().len() as u64 + row.further_weight()).sum()
}

fn check_sum<R: Row>(rows: &[R]) -> u64 {
    let with_digest = |sum: u64, digest: &Digest| digest.iter().fold(sum, |sum, byte| sum.wrapping_mul(31).wrapping_add(u64::from(*byte)));
    rows.iter().fold(0, |sum, row| with_digest(sum, row.digest()).wrapping_add(row.load()))
}

/// What a keeper has of the four windows: of each a load date, and the rows of the tables.
#[derive(Default)]
struct Store {
    loads: Vec<u64>,
    customers: Vec<HubRow>,
    sites: Vec<HubRow>,
    visits: Vec<LinkRow>,
    names: Vec<SatRow>,
    phones: Vec<SatRow>,
    statuses: [Vec<StatusRow>; 3],
    effects: Vec<EffectRow>,
}

impl Store {
    fn print(&self) {
        let statuses = |of: fn(&[StatusRow]) -> u64| self.statuses.iter().fold(0u64, |sum, rows| sum.wrapping_add(of(rows)));
        let keys = self.customers.len() + self.sites.len() + self.visits.len();
        let rows = keys + self.names.len() + self.phones.len() + self.effects.len();
        let rows = rows as u64 + statuses(|rows| rows.len() as u64);
        let weighs = [weight(&self.customers), weight(&self.sites), weight(&self.visits), weight(&self.names), weight(&self.phones), weight(&self.effects)];
        let sums = [check_sum(&self.customers), check_sum(&self.sites), check_sum(&self.visits), check_sum(&self.names), check_sum(&self.phones), check_sum(&self.effects)];
        let sum = sums.iter().fold(statuses(check_sum), |sum, one| sum.wrapping_add(*one));
        println!("store {rows} {} {sum}", weighs.iter().sum::<u64>() + statuses(weight));
    }
}

// ---- the windows

fn numbered(letter: char, number: u64) -> Text {
    format!("{letter}{number:09}").into_bytes()
}

/// How often a customer changed up to a window: a twentieth changes with each window but the first.
fn changes(customer: u64, window: u64) -> u64 {
    u64::from((1..=window).contains(&(customer % 20)))
}

/// Puts the rows of a window behind those of a table, in the order of their digests and subs.
fn put<R: Row>(rows: &mut Vec<R>, mut batch: Vec<R>) {
    batch.sort_by(|a, b| (a.digest(), a.sub()).cmp(&(b.digest(), b.sub())));
    rows.extend(batch);
}

/// What is known of the windows before: the keys that have a row, what describes parents, and since when each is there.
#[derive(Default)]
struct Loading {
    md5: Option<Md5>,
    keys: HashSet<Digest>,
    described: HashMap<(u8, Digest), Vec<Vec<Text>>>,
    present: [HashMap<Digest, u64>; 3],
}

impl Loading {
    fn md5(&mut self, texts: &[Text]) -> Digest {
        self.md5.get_or_insert_with(Md5::new).of(texts)
    }

    fn hub(&mut self, load: u64, source: usize, keys: &[Text]) -> Vec<HubRow> {
        let mut made = Vec::new();
        for key in keys {
            let digest = self.md5(&[key.clone()]);
            if self.keys.insert(digest) {
                made.push(HubRow { digest, load, source: SOURCES[source].to_vec(), key: vec![key.clone()] });
            }
        }
        made
    }

    fn link(&mut self, load: u64, lists: &[[Text; 2]]) -> Vec<LinkRow> {
        let mut made = Vec::new();
        for list in lists {
            let digest = self.md5(list);
            if self.keys.insert(digest) {
                let hubs = list.iter().map(|key| self.md5(&[key.clone()])).collect();
                made.push(LinkRow { digest, load, source: SOURCES[2].to_vec(), hubs });
            }
        }
        made
    }

    /// The rows of a key where one of them is another one; each is a sub and attributes.
    fn sat(&mut self, load: u64, feed: u8, key: &Text, rows: Vec<(Vec<Text>, Vec<Text>)>) -> Vec<SatRow> {
        let parent = self.md5(&[key.clone()]);
        let now: Vec<Vec<Text>> = rows.iter().map(|(_, attrs)| attrs.clone()).collect();
        if self.described.get(&(feed, parent)) == Some(&now) {
            return Vec::new();
        }
        self.described.insert((feed, parent), now);
        let row = |(sub, attrs): (Vec<Text>, Vec<Text>)| SatRow { parent, load, source: SOURCES[feed as usize].to_vec(), diff: self.md5(&attrs), sub, attrs };
        rows.into_iter().map(row).collect()
    }

    /// The parents that appear, and those that vanish, with the date since when each was there.
    fn tracked(&mut self, load: u64, feed: usize, parents: Vec<Digest>) -> (Vec<StatusRow>, Vec<EffectRow>) {
        let now: HashSet<Digest> = parents.into_iter().collect();
        let before = std::mem::take(&mut self.present[feed]);
        let (mut statuses, mut effects) = (Vec::new(), Vec::new());
        let mut changed = |parent: &Digest, begin, end| {
            let source = SOURCES[feed].to_vec();
            statuses.push(StatusRow { parent: *parent, load, source: source.clone(), appeared: end == OPEN });
            effects.push(EffectRow { parent: *parent, load, source, begin, end });
        };
        now.iter().filter(|parent| !before.contains_key(*parent)).for_each(|parent| changed(parent, load, OPEN));
        before.iter().filter(|(parent, _)| !now.contains(*parent)).for_each(|(parent, begin)| changed(parent, *begin, load));
        self.present[feed] = now.iter().map(|parent| (*parent, *before.get(parent).unwrap_or(&load))).collect();
        (statuses, effects)
    }

    fn load(&mut self, store: &mut Store, count: u64, window: u64) {
        let first = count / 50 * window;
        let numbers: Vec<u64> = (first..first + count).collect();
        let keys: Vec<Text> = numbers.iter().map(|customer| numbered('C', *customer)).collect();
        let site = |customer: &u64| numbered('S', (customer + changes(*customer, window)) % (count / 10 + 1));
        let lists: Vec<[Text; 2]> = numbers.iter().map(|customer| [numbered('C', *customer), site(customer)]).collect();
        let sites: Vec<Text> = lists.iter().map(|list| list[1].clone()).collect();
        let phone = |customer: u64, kind: u64| numbered('P', customer * PHONES + kind + changes(customer, window) * kind);
        let phones = |customer: u64| (0..PHONES).map(|kind| (vec![numbered('K', kind)], vec![phone(customer, kind)])).collect();
        let name = |customer: u64| vec![(Vec::new(), vec![numbered('N', customer + changes(customer, window)), b"Trondheim".to_vec()])];
        store.loads.push(window);
        put(&mut store.customers, self.hub(window, 0, &keys));
        put(&mut store.sites, self.hub(window, 2, &sites));
        put(&mut store.visits, self.link(window, &lists));
        let (mut named, mut called) = (Vec::new(), Vec::new());
        for (key, customer) in keys.iter().zip(&numbers) {
            named.extend(self.sat(window, 0, key, name(*customer)));
            called.extend(self.sat(window, 1, key, phones(*customer)));
        }
        put(&mut store.names, named);
        put(&mut store.phones, called);
        let digests: Vec<Digest> = keys.iter().map(|key| self.md5(&[key.clone()])).collect();
        let linked: Vec<Digest> = lists.iter().map(|list| self.md5(list)).collect();
        for (feed, parents) in [digests.clone(), digests, linked].into_iter().enumerate() {
            let (statuses, effects) = self.tracked(window, feed, parents);
            put(&mut store.statuses[feed], statuses);
            if feed == 2 {
                put(&mut store.effects, effects);
            }
        }
    }
}

fn load_all(count: u64) -> Store {
    let (mut store, mut loading) = (Store::default(), Loading::default());
    (0..WINDOWS).for_each(|window| loading.load(&mut store, count, window));
    store
}

// ---- the start

/// Whether the rows of a table stand in order, each of a load date and a source that are known.
fn are_placed<R: Row>(store: &Store, rows: &[R]) -> bool {
    let is_behind = |a: &R, b: &R| (a.load(), a.digest(), a.sub()) < (b.load(), b.digest(), b.sub());
    rows.windows(2).all(|two| is_behind(&two[0], &two[1]))
        && rows.iter().all(|row| store.loads.contains(&row.load()) && SOURCES.contains(&&row.source()[..]))
}

/// The rows of a hub or a link, and where each hash key stands.
struct Keys<R> {
    rows: Vec<R>,
    places: HashMap<Digest, u32>,
}

impl<R: Row> Keys<R> {
    fn read(store: &Store, rows: &[R], mut is_sound: impl FnMut(&R) -> bool) -> Keys<R> {
        let rows = rows.to_vec();
        assert!(are_placed(store, &rows) && rows.iter().all(|row| is_sound(row)), "damaged");
        let places: HashMap<Digest, u32> = rows.iter().enumerate().map(|(place, row)| (*row.digest(), place as u32)).collect();
        assert!(places.len() == rows.len(), "a hash key twice");
        Keys { rows, places }
    }

    fn has(&self, digest: &Digest) -> bool {
        self.places.contains_key(digest)
    }
}

/// The rows of a feed's table, and where those of each parent stand, by parent.
#[allow(dead_code)]
struct Feed<R> {
    rows: Vec<R>,
    places: Vec<(Digest, u32)>,
}

impl<R: Row> Feed<R> {
    fn read(store: &Store, rows: &[R], mut is_sound: impl FnMut(&R) -> bool) -> Feed<R> {
        let rows = rows.to_vec();
        assert!(are_placed(store, &rows) && rows.iter().all(|row| is_sound(row)), "damaged");
        let mut places: Vec<(Digest, u32)> = rows.iter().enumerate().map(|(place, row)| (*row.digest(), place as u32)).collect();
        places.sort_unstable();
        Feed { rows, places }
    }
}

#[allow(dead_code)]
struct Vault {
    weight: u64,
    loads: Vec<u64>,
    customers: Keys<HubRow>,
    sites: Keys<HubRow>,
    visits: Keys<LinkRow>,
    sats: [Feed<SatRow>; 2],
    statuses: Vec<(Feed<StatusRow>, HashSet<Digest>)>,
    effects: (Feed<EffectRow>, HashMap<Digest, u64>),
}

fn statuses(store: &Store, rows: &[StatusRow], has: impl Fn(&Digest) -> bool) -> (Feed<StatusRow>, HashSet<Digest>) {
    let mut present = HashSet::new();
    let mut takes_turn = |row: &StatusRow| if row.appeared { present.insert(row.parent) } else { present.remove(&row.parent) };
    let table = Feed::read(store, rows, |row| has(&row.parent) && takes_turn(row));
    (table, present)
}

fn effects(store: &Store, rows: &[EffectRow], has: impl Fn(&Digest) -> bool) -> (Feed<EffectRow>, HashMap<Digest, u64>) {
    let mut since = HashMap::new();
    let mut is_span = |row: &EffectRow| {
        let opens = row.begin == row.load && row.end == OPEN;
        if opens {
            since.insert(row.parent, row.begin);
        } else {
            since.remove(&row.parent);
        }
        opens || (row.begin < row.load && row.end == row.load)
    };
    let table = Feed::read(store, rows, |row| has(&row.parent) && is_span(row));
    (table, since)
}

fn start(store: &Store) -> Vault {
    let mut md5 = Md5::new();
    let customers = Keys::read(store, &store.customers, |row| md5.of(&row.key) == row.digest);
    let sites = Keys::read(store, &store.sites, |row| md5.of(&row.key) == row.digest);
    let visits = Keys::read(store, &store.visits, |row| row.hubs.len() == 2 && customers.has(&row.hubs[0]) && sites.has(&row.hubs[1]));
    let sats = [&store.names, &store.phones].map(|rows| Feed::read(store, rows, |row| customers.has(&row.parent) && md5.of(&row.attrs) == row.diff));
    let [first, second, third] = &store.statuses;
    let tracked = vec![statuses(store, first, |parent| customers.has(parent)), statuses(store, second, |parent| customers.has(parent)), statuses(store, third, |parent| visits.has(parent))];
    let effects = effects(store, &store.effects, |parent| visits.has(parent));
    let keys = weight(&customers.rows) + weight(&sites.rows) + weight(&visits.rows) + weight(&effects.0.rows);
    let weight = keys + sats.iter().map(|table| weight(&table.rows)).sum::<u64>() + tracked.iter().map(|(table, _)| weight(&table.rows)).sum::<u64>();
    Vault { weight, loads: store.loads.clone(), customers, sites, visits, sats, statuses: tracked, effects }
}

fn wait() {
    let mut line = String::new();
    stdin().read_line(&mut line).expect("a line");
}

fn main() {
    let words: Vec<u64> = std::env::args().skip(1).map(|word| word.parse().expect("a number")).collect();
    let store = load_all(words[0]);
    store.print();
    for _ in 0..words[1] {
        wait();
        let begin = Instant::now();
        let vault = start(&store);
        println!("start {} {}", begin.elapsed().as_nanos(), vault.loads.len());
        wait();
    }
}
