// The plain Rust twin of `bench_compiler tables`: the same text, the same reading, the same sum.

use std::collections::BTreeSet;
use std::io::Write;

struct Table {
    #[allow(dead_code)]
    name: Vec<u8>,
    #[allow(dead_code)]
    rows: u32,
    #[allow(dead_code)]
    cols: u32,
    cells: Vec<i64>,
}

const MAX: u64 = 4_000_000;

fn is_blank(byte: u8) -> bool {
    byte == b' ' || byte == b'\t' || byte == b'\r' || byte == b'\n'
}

fn skip(text: &[u8], mut at: usize) -> usize {
    while at < text.len() && is_blank(text[at]) {
        at += 1;
    }
    at
}

fn word(text: &[u8], from: usize) -> Option<(usize, &[u8], usize)> {
    let start = skip(text, from);
    let mut end = start;
    while end < text.len() && !is_blank(text[end]) {
        end += 1;
    }
    if start == end { None } else { Some((start, &text[start..end], end)) }
}

fn size(text: &[u8], from: usize) -> Result<(u64, usize), usize> {
    let (at, bytes, end) = word(text, from).ok_or(text.len())?;
    let mut value = 0u64;
    for byte in bytes {
        if !byte.is_ascii_digit() {
            return Err(at);
        }
        value = (value * 10 + u64::from(byte - b'0')).min(MAX + 1);
    }
    if value > MAX { Err(at) } else { Ok((value, end)) }
}

fn number(text: &[u8], from: usize) -> Result<(i64, usize), usize> {
    let start = skip(text, from);
    if start == text.len() {
        return Err(start);
    }
    let negative = text[start] == b'-';
    let first = start + usize::from(negative);
    let mut at = first;
    let mut value = 0u64;
    while at < text.len() && text[at].is_ascii_digit() {
        value = match value.checked_mul(10).and_then(|v| v.checked_add(u64::from(text[at] - b'0'))) {
            Some(v) => v,
            None => return Err(start),
        };
        at += 1;
    }
    if at == first || (at < text.len() && !is_blank(text[at])) {
        return Err(start);
    }
    if negative {
        if value > 1 << 63 { Err(start) } else { Ok(((value as i64).wrapping_neg(), at)) }
    } else {
        i64::try_from(value).map(|v| (v, at)).map_err(|_| start)
    }
}

fn read_tables(text: &[u8]) -> Result<Vec<Table>, usize> {
    let mut tables = Vec::new();
    let mut names = BTreeSet::new();
    let mut sum = 0;
    let mut at = 0;
    while let Some((start, first, end)) = word(text, at) {
        if first != b"table" {
            return Err(start);
        }
        let (start, name, end) = word(text, end).ok_or(text.len())?;
        if !name.iter().all(|b| b.is_ascii_alphanumeric() || *b == b'_') || name[0].is_ascii_digit() {
            return Err(start);
        }
        if !names.insert(name) {
            return Err(start);
        }
        let (rows, end) = size(text, end)?;
        let (cols, mut end) = size(text, end)?;
        sum += rows * cols;
        if sum > MAX {
            return Err(end);
        }
        let mut cells = Vec::with_capacity((rows * cols) as usize);
        for _ in 0..rows * cols {
            let (value, next) = number(text, end)?;
            cells.push(value);
            end = next;
        }
        tables.push(Table { name: name.to_vec(), rows: rows as u32, cols: cols as u32, cells });
        at = end;
    }
    Ok(tables)
}

fn text_of(side: u32) -> Vec<u8> {
    let mut text = format!("table a {side} {side}\n").into_bytes();
    let mut x = 1u32;
    for _ in 0..side {
        for column in 0..side {
            if column > 0 {
                text.push(b' ');
            }
            x = x.wrapping_mul(1664525).wrapping_add(1013904223);
            write!(text, "{}", x / 65536 % 1000).unwrap();
        }
        text.push(b'\n');
    }
    text
}

fn main() {
    let mut words = std::env::args().skip(1);
    let side = words.next().and_then(|w| w.parse().ok()).unwrap_or(0);
    let times: u32 = words.next().and_then(|w| w.parse().ok()).unwrap_or(0);
    let text = text_of(side);
    let mut sum = 0i64;
    for _ in 0..times {
        for table in read_tables(&text).unwrap() {
            for cell in &table.cells {
                sum = sum.wrapping_add(*cell);
            }
        }
    }
    println!("{sum}");
}
