//! A load of the windows that phones.py writes, in Rust that nobody proved, with std alone and no keeper: the rows of each
//! table in load order, and ordered maps from each key to what it has.
//!
//!     phones_peer DATA OUT WINDOWS [--tables FOLDER]
//!
//! Writes the mart at the last date to OUT/mart_last.csv and, with --tables, the text of each raw table; prints a line for
//! each measured step.
#[path = "../md5.rs"]
mod md5;

use md5::{Digest, Md5};
use std::collections::BTreeMap;
use std::fmt::Write;
use std::fs;
use std::ops::Range;
use std::time::Instant;

/// A record in normal form; rows are ordered by key, then kind, as in the mart.
#[derive(PartialEq, Eq, PartialOrd, Ord)]
struct Row {
    key: String,
    kind: String,
    attrs: [String; 2],
}

/// The fields of a line, which has no line end inside quotes.
fn fields(line: &str) -> Vec<String> {
    let (mut made, mut field, mut inside, mut letters) = (Vec::new(), String::new(), false, line.chars().peekable());
    while let Some(letter) = letters.next() {
        match letter {
            '"' if inside && letters.peek() == Some(&'"') => {
                letters.next();
                field.push('"');
            }
            '"' => inside = !inside,
            ',' if !inside => made.push(std::mem::take(&mut field)),
            _ => field.push(letter),
        }
    }
    made.push(field);
    made
}

fn row(line: &str) -> Row {
    let made = fields(line);
    let [key, kind, phone, note] = &made[..] else { panic!("not four fields: {line}") };
    let attrs = [phone.trim().to_string(), note.trim().to_string()];
    Row { key: key.trim().to_ascii_uppercase(), kind: kind.trim().to_string(), attrs }
}

/// The distinct rows of an extract, in order.
fn stage(text: &str) -> Vec<Row> {
    let mut rows: Vec<Row> = text.lines().skip(1).map(row).collect();
    rows.sort_unstable();
    rows.dedup();
    assert!(rows.windows(2).all(|two| (&two[0].key, &two[0].kind) != (&two[1].key, &two[1].kind)), "W16 TwoRows");
    rows
}

struct HubRow {
    digest: Digest,
    window: usize,
    key: String,
}

struct MultiRow {
    parent: Digest,
    window: usize,
    diff: Digest,
    kind: String,
    attrs: [String; 2],
}

struct StatusRow {
    parent: Digest,
    window: usize,
    appeared: bool,
}

/// What is known of a parent: its place in the hub, the last rows that it had, and whether it is present.
struct Known {
    hub: usize,
    last: Range<usize>,
    present: bool,
}

#[derive(Default)]
struct Vault {
    loads: Vec<String>,
    hub: Vec<HubRow>,
    multi: Vec<MultiRow>,
    status: Vec<StatusRow>,
    known: BTreeMap<Digest, Known>,
}

impl Vault {
    fn rows(&self) -> usize {
        self.hub.len() + self.multi.len() + self.status.len()
    }

    fn has(&self, last: &Range<usize>, rows: &[Row]) -> bool {
        let same = |(kept, row): (&MultiRow, &Row)| kept.kind == row.kind && kept.attrs == row.attrs;
        last.len() == rows.len() && self.multi[last.clone()].iter().zip(rows).all(same)
    }

    /// Adds a window's rows, which are taken by hash key.
    fn load(&mut self, load: &str, rows: &[Row], md5: &mut Md5) {
        let (window, before) = (self.loads.len(), self.status.len());
        self.loads.push(load.to_string());
        let of_key = |rows| (md5.of(&[&(rows as &[Row])[0].key]), rows);
        let delivered: BTreeMap<Digest, &[Row]> = rows.chunk_by(|a, b| a.key == b.key).map(of_key).collect();
        for (parent, known) in &mut self.known {
            if known.present && !delivered.contains_key(parent) {
                known.present = false;
                self.status.push(StatusRow { parent: *parent, window, appeared: false });
            }
        }
        for (parent, rows) in delivered {
            self.take(parent, rows, window, md5);
        }
        self.status[before..].sort_by_key(|row| row.parent);
    }

    /// Adds what the rows of one parent change.
    fn take(&mut self, parent: Digest, rows: &[Row], window: usize, md5: &mut Md5) {
        let before = self.known.get(&parent);
        let hub = before.map_or(self.hub.len(), |known| known.hub);
        if hub == self.hub.len() {
            self.hub.push(HubRow { digest: parent, window, key: rows[0].key.clone() });
        }
        let before = self.known.get(&parent);
        if before.is_none_or(|known| !known.present) {
            self.status.push(StatusRow { parent, window, appeared: true });
        }
        let last = match before {
            Some(known) if self.has(&known.last, rows) => known.last.clone(),
            _ => {
                for row in rows {
                    let diff = md5.of(&[&row.attrs[0], &row.attrs[1]]);
                    self.multi.push(MultiRow { parent, window, diff, kind: row.kind.clone(), attrs: row.attrs.clone() });
                }
                self.multi.len() - rows.len()..self.multi.len()
            }
        };
        self.known.insert(parent, Known { hub, last, present: true });
    }

    /// The mart at the last date.
    fn mart(&self) -> String {
        let mut present: Vec<&Known> = self.known.values().filter(|known| known.present).collect();
        present.sort_unstable_by_key(|known| &self.hub[known.hub].key);
        let mut out = "CUST_NO,KIND,PHONE,NOTE\n".to_string();
        for known in present {
            for row in &self.multi[known.last.clone()] {
                put(&mut out, &[&self.hub[known.hub].key, &row.kind, &row.attrs[0], &row.attrs[1]]);
            }
        }
        out
    }

    fn texts(&self) -> [(&str, String); 3] {
        let mut hub = "hash_key,load_date,record_source,part_1\n".to_string();
        for row in &self.hub {
            put(&mut hub, &[&hex(&row.digest), &self.loads[row.window], "crm.phones", &row.key]);
        }
        let mut multi = "hash_key,load_date,record_source,hash_diff,KIND,PHONE,NOTE\n".to_string();
        for row in &self.multi {
            let [phone, note] = &row.attrs;
            put(&mut multi, &[&hex(&row.parent), &self.loads[row.window], "crm.phones", &hex(&row.diff), &row.kind, phone, note]);
        }
        let mut status = "hash_key,load_date,record_source,status\n".to_string();
        for row in &self.status {
            put(&mut status, &[&hex(&row.parent), &self.loads[row.window], "crm.phones", if row.appeared { "I" } else { "D" }]);
        }
        [("hub_customer", hub), ("msat_phones", multi), ("status_phones", status)]
    }
}

fn hex(digest: &Digest) -> String {
    digest.iter().fold(String::new(), |mut text, byte| {
        write!(text, "{byte:02x}").unwrap();
        text
    })
}

/// A record, with quotes where a field needs them.
fn put(out: &mut String, fields: &[&str]) {
    for (i, field) in fields.iter().enumerate() {
        if i > 0 {
            out.push(',');
        }
        if field.contains(['"', ',']) {
            out.push('"');
            out.push_str(&field.replace('"', "\"\""));
            out.push('"');
        } else {
            out.push_str(field);
        }
    }
    out.push('\n');
}

fn read(data: &str, number: usize) -> (String, String) {
    let manifest = fs::read_to_string(format!("{data}/w{number}.toml")).expect("a manifest");
    let load = manifest.split('"').nth(1).expect("a load date").to_string();
    (load, fs::read_to_string(format!("{data}/w{number}_phones.csv")).expect("an extract"))
}

fn main() {
    let words: Vec<String> = std::env::args().collect();
    let (data, out, windows) = (&words[1], &words[2], words[3].parse::<usize>().expect("a number of windows"));
    let (mut vault, mut md5) = (Vault::default(), Md5::new());
    for number in 1..=windows {
        let (start, before) = (Instant::now(), vault.rows());
        let (load, text) = read(data, number);
        vault.load(&load, &stage(&text), &mut md5);
        println!("window {number} {:.6}", start.elapsed().as_secs_f64());
        println!("note added_{number} {}", vault.rows() - before);
    }
    let start = Instant::now();
    fs::write(format!("{out}/mart_last.csv"), vault.mart()).expect("a mart");
    println!("mart last {:.6}", start.elapsed().as_secs_f64());
    if let Some(folder) = words.get(5) {
        for (name, text) in vault.texts() {
            fs::write(format!("{folder}/{name}.csv"), text).expect("a table");
        }
    }
}
