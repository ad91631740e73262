//! Reads a decision file with derived types and judges it by the same rules; prints what our program
//! tells of it: `test_driver`, to the event `decisions`.
use serde::Deserialize;
use std::collections::HashSet;
use std::io::{self, BufWriter, Read, Write};

#[derive(Deserialize)]
struct File {
    breaks: Vec<Break>,
}
#[derive(Deserialize)]
struct Break {
    id: String,
    ads: Vec<Ad>,
}
#[derive(Deserialize)]
struct Ad {
    segments: Vec<Segment>,
    map: Option<Map>,
    key: Option<Key>,
}
#[derive(Deserialize)]
struct Map {
    uri: String,
    offset: Option<u64>,
    length: Option<u64>,
}
#[derive(Deserialize)]
struct Key {
    method: String,
    uri: String,
    iv: String,
    format: Option<String>,
}
#[derive(Deserialize)]
struct Segment {
    uri: String,
    duration: String,
    offset: Option<u64>,
    length: Option<u64>,
}

fn is_quotable(text: &str) -> bool {
    !text.chars().any(|c| c.is_control() || c == '"')
}
fn is_id(id: &str) -> bool {
    (1..=255).contains(&id.len()) && is_quotable(id)
}
fn is_uri(uri: &str) -> bool {
    let rest = uri.strip_prefix("http://").or_else(|| uri.strip_prefix("https://"));
    rest.is_some_and(|rest| !rest.is_empty()) && uri.bytes().all(|b| (33..=126).contains(&b) && b != b'"')
}
fn is_range(offset: Option<u64>, length: Option<u64>) -> bool {
    match (offset, length) {
        (None, None) => true,
        (Some(offset), Some(length)) => offset.checked_add(length).is_some(),
        _ => false,
    }
}
fn is_key(key: &Key) -> bool {
    let hex = key.iv.strip_prefix("0x").or_else(|| key.iv.strip_prefix("0X"));
    let is_word = |b: u8| b.is_ascii_uppercase() || b.is_ascii_digit() || b == b'-';
    !key.method.is_empty() && key.method.bytes().all(is_word) && key.method != "NONE" && is_uri(&key.uri)
        && hex.is_some_and(|hex| (1..=32).contains(&hex.len()) && u128::from_str_radix(hex, 16).is_ok())
        && key.format.as_ref().map_or(true, |f| !f.is_empty() && is_quotable(f))
}
fn nanos(text: &str) -> Option<u64> {
    let (whole, fraction) = text.split_once('.').unwrap_or((text, ""));
    if whole.is_empty() && fraction.is_empty() || !text.bytes().all(|b| b.is_ascii_digit() || b == b'.') || fraction.contains('.') {
        return None;
    }
    let whole: u64 = if whole.is_empty() { 0 } else { whole.parse().ok()? };
    let front = &fraction[..fraction.len().min(9)];
    let fraction = format!("{front:0<9}").parse::<u64>().ok()?;
    (whole < 1_000_000).then_some(whole * 1_000_000_000 + fraction)
}

/// How many segments a break has, and how long they last.
fn judged(b: &Break) -> Option<(usize, u64)> {
    let (mut count, mut total) = (0, 0);
    for ad in &b.ads {
        let is_well = ad.map.as_ref().map_or(true, |m| is_uri(&m.uri) && is_range(m.offset, m.length))
            && ad.key.as_ref().map_or(true, is_key) && !ad.segments.is_empty();
        if !is_well {
            return None;
        }
        for s in &ad.segments {
            if !is_uri(&s.uri) || !is_range(s.offset, s.length) {
                return None;
            }
            count += 1;
            total += nanos(&s.duration)?;
        }
    }
    (is_id(&b.id) && !b.ads.is_empty() && count <= 500).then_some((count, total))
}

fn main() -> io::Result<()> {
    let mut bytes = Vec::new();
    io::stdin().lock().read_to_end(&mut bytes)?;
    let mut out = BufWriter::new(io::stdout().lock());
    let Ok(file) = serde_json::from_slice::<File>(&bytes) else {
        return writeln!(out, "refused");
    };
    let mut ids = HashSet::new();
    let mut lines = Vec::new();
    for b in &file.breaks {
        match judged(b) {
            Some(found) if ids.insert(b.id.as_str()) => lines.push((b, found)),
            _ => return writeln!(out, "refused"),
        }
    }
    for (b, (segments, total)) in lines {
        writeln!(out, "break {} ads {} segments {segments} total {total}", b.id, b.ads.len())?;
    }
    Ok(())
}
