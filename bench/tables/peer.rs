//! What a satellite, a multi-active satellite, a status table and an effectivity table do with a window, in Rust that nobody proved, with std
//! alone: the rows in load order, and an ordered map from each parent to its last row or rows, or an ordered set of the
//! parents that are present. Takes the sizes as its arguments, and prints what the Rattle program prints.
#[path = "../md5.rs"]
mod md5;

use md5::{Digest, Md5};
use std::collections::{BTreeMap, BTreeSet};
use std::ops::Range;
use std::time::Instant;

type Text = Vec<u8>;

const WINDOW: u64 = 10_000;
const KINDS: u64 = 4;
const MEASURED: u64 = 3;
/// The end of a run that goes on, in seconds since 1900.
const OPEN: u64 = 255_611_289_599;
const SOURCE: &[u8] = b"crm.customers";
const SOURCE_OF_KINDS: &[u8] = b"crm.contacts";

/// A row of an extract.
struct Row {
    refs: Vec<Text>,
    sub: Vec<Text>,
    attrs: Vec<Text>,
}

#[allow(dead_code)]
struct MultiRow {
    parent: Digest,
    load: u64,
    source: Text,
    diff: Digest,
    sub: Vec<Text>,
    attrs: Vec<Text>,
}

#[allow(dead_code)]
struct SatRow {
    parent: Digest,
    load: u64,
    source: Text,
    diff: Digest,
    attrs: Vec<Text>,
}

#[allow(dead_code)]
struct EffectRow {
    parent: Digest,
    load: u64,
    source: Text,
    begin: u64,
    end: u64,
}

#[allow(dead_code)]
struct StatusRow {
    parent: Digest,
    load: u64,
    source: Text,
    appeared: bool,
}

fn numbered(letter: char, number: u64) -> Text {
    format!("{letter}{number:09}").into_bytes()
}

/// The row of a key, with a name that has a window's number.
fn row(key: u64, sub: Vec<Text>, window: u64) -> Row {
    Row { refs: vec![numbered('C', key)], sub, attrs: vec![numbered('N', window), b"Trondheim".to_vec()] }
}

/// An extract of 10,000 keys, from the first one in steps.
fn extract(first: u64, step: u64, window: u64) -> Vec<Row> {
    (0..WINDOW).map(|i| row(first + i * step, Vec::new(), window)).collect()
}

/// An extract of 10,000 rows, four of each key: those of the last kind alone have the window's number.
fn extract_of_kinds(first: u64, step: u64, window: u64) -> Vec<Row> {
    let of = |i: u64| {
        let kind = i % KINDS;
        row(first + i / KINDS * step, vec![numbered('K', kind)], if kind + 1 == KINDS { window } else { 0 })
    };
    (0..WINDOW).map(of).collect()
}

fn with_digest(sum: u64, digest: &Digest) -> u64 {
    digest.iter().fold(sum, |sum, byte| sum.wrapping_mul(31).wrapping_add(u64::from(*byte)))
}

trait Table: Default {
    type Added;
    const NAME: &'static str;
    fn count(&self) -> usize;
    fn delta(&self, load: u64, extract: &[Row], md5: &mut Md5) -> Vec<Self::Added>;
    fn apply(&mut self, rows: Vec<Self::Added>);
    fn check_sum(rows: &[Self::Added]) -> u64;
}

#[derive(Default)]
struct Sats {
    rows: Vec<SatRow>,
    last: BTreeMap<Digest, usize>,
}

impl Table for Sats {
    type Added = SatRow;
    const NAME: &'static str = "sat";

    fn count(&self) -> usize {
        self.rows.len()
    }

    fn delta(&self, load: u64, extract: &[Row], md5: &mut Md5) -> Vec<SatRow> {
        let mut made = Vec::new();
        for row in extract {
            let parent = md5.of(&row.refs);
            if self.last.get(&parent).is_none_or(|place| self.rows[*place].attrs != row.attrs) {
                let diff = md5.of(&row.attrs);
                made.push(SatRow { parent, load, source: SOURCE.to_vec(), diff, attrs: row.attrs.clone() });
            }
        }
        made.sort_by(|a, b| a.parent.cmp(&b.parent));
        made.dedup_by(|later, kept| later.parent == kept.parent);
        made
    }

    fn apply(&mut self, rows: Vec<SatRow>) {
        for row in rows {
            self.last.insert(row.parent, self.rows.len());
            self.rows.push(row);
        }
    }

    fn check_sum(rows: &[SatRow]) -> u64 {
        rows.iter().fold(0, |sum, row| with_digest(with_digest(sum, &row.parent), &row.diff))
    }
}

/// The rows of a parent stand together.
#[derive(Default)]
struct Multis {
    rows: Vec<MultiRow>,
    last: BTreeMap<Digest, Range<usize>>,
}

impl Multis {
    /// Whether the last rows of a parent are these.
    fn has(&self, parent: &Digest, rows: &[Row]) -> bool {
        let Some(last) = self.last.get(parent) else { return false };
        let same = |(kept, row): (&MultiRow, &Row)| kept.sub == row.sub && kept.attrs == row.attrs;
        last.len() == rows.len() && self.rows[last.clone()].iter().zip(rows).all(same)
    }
}

impl Table for Multis {
    type Added = MultiRow;
    const NAME: &'static str = "multi";

    fn count(&self) -> usize {
        self.rows.len()
    }

    fn delta(&self, load: u64, extract: &[Row], md5: &mut Md5) -> Vec<MultiRow> {
        let mut made = Vec::new();
        for rows in extract.chunk_by(|a, b| a.refs == b.refs) {
            let parent = md5.of(&rows[0].refs);
            if self.has(&parent, rows) {
                continue;
            }
            for row in rows {
                let (diff, source) = (md5.of(&row.attrs), SOURCE_OF_KINDS.to_vec());
                made.push(MultiRow { parent, load, source, diff, sub: row.sub.clone(), attrs: row.attrs.clone() });
            }
        }
        made.sort_by(|a, b| (&a.parent, &a.sub).cmp(&(&b.parent, &b.sub)));
        made
    }

    fn apply(&mut self, rows: Vec<MultiRow>) {
        let before = self.rows.len();
        self.rows.extend(rows);
        let mut end = before;
        for rows in self.rows[before..].chunk_by(|a, b| a.parent == b.parent) {
            end += rows.len();
            self.last.insert(rows[0].parent, end - rows.len()..end);
        }
    }

    fn check_sum(rows: &[MultiRow]) -> u64 {
        rows.iter().fold(0, |sum, row| with_digest(with_digest(sum, &row.parent), &row.diff))
    }
}

#[derive(Default)]
struct Statuses {
    rows: Vec<StatusRow>,
    present: BTreeSet<Digest>,
}

impl Table for Statuses {
    type Added = StatusRow;
    const NAME: &'static str = "status";

    fn count(&self) -> usize {
        self.rows.len()
    }

    fn delta(&self, load: u64, extract: &[Row], md5: &mut Md5) -> Vec<StatusRow> {
        let now: BTreeSet<Digest> = extract.iter().map(|row| md5.of(&row.refs)).collect();
        let changed = now.symmetric_difference(&self.present);
        let row = |parent: &Digest| StatusRow { parent: *parent, load, source: SOURCE.to_vec(), appeared: now.contains(parent) };
        changed.map(row).collect()
    }

    fn apply(&mut self, rows: Vec<StatusRow>) {
        for row in &rows {
            if row.appeared {
                self.present.insert(row.parent);
            } else {
                self.present.remove(&row.parent);
            }
        }
        self.rows.extend(rows);
    }

    fn check_sum(rows: &[StatusRow]) -> u64 {
        rows.iter().fold(0, |sum, row| with_digest(sum, &row.parent).wrapping_add(u64::from(row.appeared)))
    }
}

/// From when on each parent is in effect.
#[derive(Default)]
struct Effects {
    rows: Vec<EffectRow>,
    since: BTreeMap<Digest, u64>,
}

impl Table for Effects {
    type Added = EffectRow;
    const NAME: &'static str = "effect";

    fn count(&self) -> usize {
        self.rows.len()
    }

    fn delta(&self, load: u64, extract: &[Row], md5: &mut Md5) -> Vec<EffectRow> {
        let now: BTreeSet<Digest> = extract.iter().map(|row| md5.of(&row.refs)).collect();
        let row = |parent: &Digest, begin, end| EffectRow { parent: *parent, load, source: SOURCE.to_vec(), begin, end };
        let opening = now.iter().filter(|parent| !self.since.contains_key(*parent)).map(|parent| row(parent, load, OPEN));
        let closing = self.since.iter().filter(|(parent, _)| !now.contains(*parent)).map(|(parent, begin)| row(parent, *begin, load));
        let mut made: Vec<EffectRow> = opening.chain(closing).collect();
        made.sort_by(|a, b| a.parent.cmp(&b.parent));
        made
    }

    fn apply(&mut self, rows: Vec<EffectRow>) {
        for row in &rows {
            if row.end == OPEN {
                self.since.insert(row.parent, row.begin);
            } else {
                self.since.remove(&row.parent);
            }
        }
        self.rows.extend(rows);
    }

    fn check_sum(rows: &[EffectRow]) -> u64 {
        rows.iter().fold(0, |sum, row| with_digest(sum, &row.parent).wrapping_add(row.begin))
    }
}

impl Effects {
    /// The end of each run, by its parent and its begin.
    fn periods(&self) -> BTreeMap<(Digest, u64), u64> {
        self.rows.iter().map(|row| ((row.parent, row.begin), row.end)).collect()
    }
}

/// Adds an extract to the table, and prints what that cost where the window is a measured one.
fn take_in<T: Table>(table: &mut T, load: u64, extract: &[Row], md5: &mut Md5, is_measured: bool) {
    let before = table.count();
    let start = Instant::now();
    let rows = table.delta(load, extract, md5);
    let delta = start.elapsed().as_nanos();
    let (count, sum) = (rows.len(), T::check_sum(&rows));
    let start = Instant::now();
    table.apply(rows);
    let apply = start.elapsed().as_nanos();
    if is_measured {
        println!("rust {} {before} {delta} {apply} {count} {sum}", T::NAME);
    }
}

fn time_sats(count: u64, md5: &mut Md5) {
    let (mut table, windows) = (Sats::default(), count / WINDOW);
    for number in 0..windows {
        take_in(&mut table, number, &extract(number * WINDOW, 1, number), md5, false);
    }
    for number in windows..windows + MEASURED {
        take_in(&mut table, number, &extract(0, windows, number), md5, true);
    }
}

fn time_multis(count: u64, md5: &mut Md5) {
    let (mut table, windows) = (Multis::default(), count / WINDOW);
    for number in 0..windows {
        take_in(&mut table, number, &extract_of_kinds(number * (WINDOW / KINDS), 1, number), md5, false);
    }
    for number in windows..windows + MEASURED {
        take_in(&mut table, number, &extract_of_kinds(0, windows, number), md5, true);
    }
}

fn time_statuses(count: u64, md5: &mut Md5) {
    let (mut table, windows) = (Statuses::default(), (count / WINDOW + 1) / 2);
    for number in 0..windows + MEASURED {
        take_in(&mut table, number, &extract(number * WINDOW, 1, number), md5, number >= windows);
    }
}

fn time_effects(count: u64, md5: &mut Md5) {
    let (mut table, windows) = (Effects::default(), (count / WINDOW + 1) / 2);
    for number in 0..windows + MEASURED {
        take_in(&mut table, number, &extract(number * WINDOW, 1, number), md5, number >= windows);
    }
    let (before, start) = (table.count(), Instant::now());
    let periods = table.periods();
    let taken = start.elapsed().as_nanos();
    let sum = periods.iter().fold(0, |sum, ((parent, _), end)| with_digest(sum, parent).wrapping_add(*end));
    println!("rust periods {before} {taken} 0 {} {sum}", periods.len());
}

fn main() {
    let mut md5 = Md5::new();
    for word in std::env::args().skip(1) {
        let count = word.parse().expect("a number of rows");
        time_sats(count, &mut md5);
        time_multis(count, &mut md5);
        time_statuses(count, &mut md5);
        time_effects(count, &mut md5);
    }
}
