//! What `stage` does, in Rust that nobody proved, with std alone: once with a text on the heap for each field, and once
//! with fields that borrow from the extract where they can. Stages standard input nine times in each way, and prints each
//! time who did, the records, the nanoseconds, the rows and a check sum of them.
use std::borrow::Cow;
use std::io::Read;
use std::time::Instant;

const KEYS: [&str; 1] = ["CUST_NO"];
const ATTRS: [&str; 3] = ["NAME", "CITY", "NOTE"];
const ROUNDS: u32 = 9;
const MOST: usize = 200_000;

type Bytes<'a> = Cow<'a, [u8]>;

trait Field<'a>: Ord {
    fn of(bytes: Bytes<'a>) -> Self;
    fn bytes(&self) -> &[u8];
}

impl<'a> Field<'a> for Vec<u8> {
    fn of(bytes: Bytes<'a>) -> Self {
        bytes.into_owned()
    }
    fn bytes(&self) -> &[u8] {
        self
    }
}

impl<'a> Field<'a> for Bytes<'a> {
    fn of(bytes: Bytes<'a>) -> Self {
        bytes
    }
    fn bytes(&self) -> &[u8] {
        self
    }
}

#[derive(PartialEq, Eq, PartialOrd, Ord)]
struct Row<F> {
    keys: Vec<F>,
    attrs: Vec<F>,
}

/// CSV as RFC 4180 has it, of which the rest is still to be read. Empty lines are no records.
struct Reader<'a> {
    rest: &'a [u8],
}

impl<'a> Reader<'a> {
    fn next(&mut self, fields: &mut Vec<Bytes<'a>>) -> bool {
        while let [b'\r' | b'\n', rest @ ..] = self.rest {
            self.rest = rest;
        }
        if self.rest.is_empty() {
            return false;
        }
        fields.clear();
        loop {
            let field = self.field();
            fields.push(field);
            match self.rest {
                [b',', rest @ ..] => self.rest = rest,
                _ => return true,
            }
        }
    }

    fn field(&mut self) -> Bytes<'a> {
        match self.rest {
            [b'"', rest @ ..] => {
                self.rest = rest;
                self.quoted()
            }
            _ => Cow::Borrowed(self.up_to(|byte| matches!(byte, b',' | b'\r' | b'\n'))),
        }
    }

    fn quoted(&mut self) -> Bytes<'a> {
        let mut made = Cow::Borrowed(self.up_to(|byte| byte == b'"'));
        while let [b'"', b'"', rest @ ..] = self.rest {
            self.rest = rest;
            let more = self.up_to(|byte| byte == b'"');
            made.to_mut().push(b'"');
            made.to_mut().extend_from_slice(more);
        }
        self.rest = self.rest.get(1..).unwrap_or(&[]);
        made
    }

    fn up_to(&mut self, ends: impl Fn(u8) -> bool) -> &'a [u8] {
        let end = self.rest.iter().position(|byte| ends(*byte)).unwrap_or(self.rest.len());
        let (front, rest) = self.rest.split_at(end);
        self.rest = rest;
        front
    }
}

fn trimmed(mut text: &[u8]) -> &[u8] {
    while let [b' ' | b'\t' | b'\r' | b'\n', rest @ ..] | [rest @ .., b' ' | b'\t' | b'\r' | b'\n'] = text {
        text = rest;
    }
    text
}

fn trim(bytes: Bytes) -> Bytes {
    match bytes {
        Cow::Borrowed(text) => Cow::Borrowed(trimmed(text)),
        Cow::Owned(text) => Cow::Owned(trimmed(&text).to_vec()),
    }
}

fn raised(mut bytes: Bytes) -> Bytes {
    if bytes.iter().any(u8::is_ascii_lowercase) {
        bytes.to_mut().make_ascii_uppercase();
    }
    bytes
}

/// Where the columns stand, or the rule that the header breaks.
fn places(names: &[Bytes]) -> Result<(Vec<usize>, Vec<usize>), String> {
    for (i, name) in names.iter().enumerate() {
        if names[..i].contains(name) {
            return Err("ColumnTwice".into());
        }
        if !KEYS.iter().chain(&ATTRS).any(|column| column.as_bytes() == &**name) {
            return Err("UnmappedColumn".into());
        }
    }
    let place = |column: &&str| names.iter().position(|name| &**name == column.as_bytes()).ok_or(format!("MissingColumn {column}"));
    Ok((KEYS.iter().map(place).collect::<Result<_, _>>()?, ATTRS.iter().map(place).collect::<Result<_, _>>()?))
}

fn check(row_no: usize, width: usize, fields: &[Bytes]) -> Result<(), String> {
    if fields.len() != width {
        return Err(format!("Ragged row_no={row_no}"));
    }
    if fields.iter().any(|field| std::str::from_utf8(field).is_err()) {
        return Err(format!("NotUtf8 row_no={row_no}"));
    }
    if fields.iter().any(|field| field.len() > 4096) {
        return Err(format!("FieldLong row_no={row_no}"));
    }
    if row_no > MOST {
        return Err(format!("TooManyRows row_no={row_no}"));
    }
    Ok(())
}

fn stage<'a, F: Field<'a>>(bytes: &'a [u8]) -> Result<(Vec<Row<F>>, usize), String> {
    let mut reader = Reader { rest: bytes };
    let mut fields = Vec::new();
    if !reader.next(&mut fields) {
        return Err("NoHeader".into());
    }
    let names: Vec<_> = fields.drain(..).map(trim).collect();
    let (keys, attrs) = places(&names)?;
    let mut rows: Vec<Row<F>> = Vec::new();
    while reader.next(&mut fields) {
        check(rows.len() + 1, names.len(), &fields)?;
        let mut take = |place: &usize| trim(std::mem::take(&mut fields[*place]));
        let keys: Vec<F> = keys.iter().map(|place| F::of(raised(take(place)))).collect();
        if keys.iter().all(|key| key.bytes().is_empty()) {
            return Err(format!("EmptyKey row_no={}", rows.len() + 1));
        }
        rows.push(Row { keys, attrs: attrs.iter().map(|place| F::of(take(place))).collect() });
    }
    let records = rows.len();
    rows.sort_unstable();
    rows.dedup();
    if rows.windows(2).any(|pair| pair[0].keys == pair[1].keys) {
        return Err("TwoRows".into());
    }
    Ok((rows, records))
}

/// The check sum that goes over the bytes of each field, and an end behind them.
fn check_sum<'a, F: Field<'a>>(rows: &[Row<F>]) -> u64 {
    let step = |sum: u64, byte: &u8| sum.wrapping_mul(31).wrapping_add(u64::from(*byte));
    let fields = rows.iter().flat_map(|row| row.keys.iter().chain(&row.attrs));
    fields.fold(0, |sum, field| step(field.bytes().iter().fold(sum, step), &255))
}

fn time_stage<'a, F: Field<'a>>(who: &str, bytes: &'a [u8]) {
    let start = Instant::now();
    let (rows, records) = stage::<F>(bytes).expect("an extract that breaks no rule");
    let taken = start.elapsed().as_nanos();
    println!("{who} {records} {taken} {} {}", rows.len(), check_sum(&rows));
}

fn main() {
    let mut bytes = Vec::new();
    std::io::stdin().read_to_end(&mut bytes).expect("standard input");
    for _ in 0..ROUNDS {
        time_stage::<Vec<u8>>("rust_texts", &bytes);
        time_stage::<Bytes>("rust_slices", &bytes);
    }
}
