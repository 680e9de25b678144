//! The floors that the agent is measured beside. Each takes a log and writes, byte for byte, what the agent writes for it with
//! the settings of one job of jobs.py, and does nothing else: it reads no settings, keeps no checkpoint and knows one file. The
//! time at which lines are taken, where it is told, is its own.
//!
//!     floors JOB LOG OUTPUT
//!
//! A line has at most 1 MiB and is UTF-8; else it gives up with status 1. What stands behind the last line feed waits. It is for
//! x86-64, whose SSE2 looks at 16 bytes at once.
#![allow(unused_unsafe)]

use std::arch::x86_64::*;
use std::collections::HashMap;
use std::fs::File;
use std::io::{self, Read, Write};
use std::time::{SystemTime, UNIX_EPOCH};
use std::{env, mem, process, str};

/// How many bytes are read at once, and how many are gathered before they are written.
const PIECE: usize = 64 << 10;
const GATHERED: usize = 256 << 10;
const LONGEST: usize = 1 << 20;

fn main() {
    let words: Vec<String> = env::args().collect();
    let [_, job, log, output] = words.as_slice() else {
        give_up("usage: floors JOB LOG OUTPUT");
    };
    if let Err(fault) = run(job, log, output) {
        give_up(&fault.to_string());
    }
}

fn give_up(what: &str) -> ! {
    eprintln!("floors: {what}");
    process::exit(1)
}

fn run(job: &str, path: &str, output: &str) -> io::Result<()> {
    let mut log = File::open(path)?;
    let mut out = Output::new(File::create(output)?, path, job == "container-pod");
    let mut members = Members::default();
    match job {
        "plain" => each_line(&mut log, |line| out.plain(line))?,
        "plain-observed" => {
            let end = body_end(now());
            each_line(&mut log, |line| out.record(line, &end))?
        }
        "filter" => each_line(&mut log, |line| filter(&mut out, line))?,
        "router" => each_line(&mut log, |line| router(&mut out, line))?,
        "json" => each_line(&mut log, |line| json(&mut out, &mut members, line))?,
        "json-stamped" => each_line(&mut log, |line| json_stamped(&mut out, &mut members, line))?,
        "nginx" => each_line(&mut log, |line| nginx(&mut out, line))?,
        "syslog-5424" => each_line(&mut log, |line| syslog_5424(&mut out, &mut members, line))?,
        "syslog-3164" => each_line(&mut log, |line| syslog_3164(&mut out, line))?,
        "csv" => each_line(&mut log, |line| csv(&mut out, &mut members, line))?,
        "key-value" => each_line(&mut log, |line| key_value(&mut out, &mut members, line))?,
        "container" | "container-pod" => {
            let mut streams = Streams::new(pod_resource(path, job == "container-pod"));
            each_line(&mut log, |line| container(&mut out, &mut streams, &mut members, line))?
        }
        "recombine" => {
            let mut group = Group::default();
            each_line(&mut log, |line| recombine(&mut out, &mut group, line))?
        }
        "recombine-sources" => {
            let mut groups = Groups::default();
            each_line(&mut log, |line| recombine_sources(&mut out, &mut groups, line))?
        }
        "multiline" => each_block(&mut log, |block| multiline(&mut out, block))?,
        _ => give_up("there is no such job"),
    }
    out.write()
}

// ---- reading

/// Hands on what was read up to the last line feed, and what was left of it before. `take` answers how much of it it used.
fn each_block(log: &mut File, mut take: impl FnMut(&[u8]) -> usize) -> io::Result<()> {
    let mut held = vec![0; LONGEST + PIECE];
    let mut length = 0;
    loop {
        let got = log.read(&mut held[length..length + PIECE])?;
        if got == 0 {
            return Ok(());
        }
        length += got;
        let end = held[..length].iter().rposition(|byte| *byte == b'\n').map_or(0, |last| last + 1);
        if str::from_utf8(&held[..end]).is_err() {
            give_up("the log isn't UTF-8");
        }
        let used = take(&held[..end]);
        held.copy_within(used..length, 0);
        length -= used;
        if length > LONGEST {
            give_up("a line is too long");
        }
    }
}

/// Hands on each line without the blanks at its ends, but for those that are empty then.
fn each_line(log: &mut File, mut take: impl FnMut(&[u8])) -> io::Result<()> {
    each_block(log, |block| {
        let mut at = 0;
        while let Some(length) = find(&block[at..], b'\n') {
            let line = trim(&block[at..at + length]);
            if !line.is_empty() {
                take(line);
            }
            at += length + 1;
        }
        at
    })
}

fn is_blank(byte: u8) -> bool {
    matches!(byte, b' ' | b'\t' | b'\r' | b'\n')
}

fn trim(mut text: &[u8]) -> &[u8] {
    while let [first, rest @ ..] = text {
        if !is_blank(*first) {
            break;
        }
        text = rest;
    }
    while let [rest @ .., last] = text {
        if !is_blank(*last) {
            break;
        }
        text = rest;
    }
    text
}

// ---- looking for bytes, 16 at a time

#[inline(always)]
fn lanes_at(text: &[u8], at: usize) -> __m128i {
    debug_assert!(at + 16 <= text.len());
    // SAFETY: callers have 16 bytes from there on.
    unsafe { _mm_loadu_si128(text.as_ptr().add(at).cast()) }
}

#[inline(always)]
fn equal(lanes: __m128i, byte: u8) -> __m128i {
    unsafe { _mm_cmpeq_epi8(lanes, _mm_set1_epi8(byte as i8)) }
}

#[inline(always)]
fn at_most(lanes: __m128i, byte: u8) -> __m128i {
    unsafe { _mm_cmpeq_epi8(_mm_min_epu8(lanes, _mm_set1_epi8(byte as i8)), lanes) }
}

#[inline(always)]
fn either(one: __m128i, other: __m128i) -> __m128i {
    unsafe { _mm_or_si128(one, other) }
}

#[inline(always)]
fn both(one: __m128i, other: __m128i) -> __m128i {
    unsafe { _mm_and_si128(one, other) }
}

#[inline(always)]
fn mask(lanes: __m128i) -> u32 {
    unsafe { _mm_movemask_epi8(lanes) as u32 }
}

/// The first place of a byte that is so.
#[inline(always)]
fn first(text: &[u8], in_lanes: impl Fn(__m128i) -> __m128i, is: impl Fn(u8) -> bool) -> Option<usize> {
    let mut at = 0;
    while text.len() - at >= 16 {
        let found = mask(in_lanes(lanes_at(text, at)));
        if found != 0 {
            return Some(at + found.trailing_zeros() as usize);
        }
        at += 16;
    }
    text[at..].iter().position(|byte| is(*byte)).map(|place| at + place)
}

#[inline(always)]
fn find(text: &[u8], byte: u8) -> Option<usize> {
    first(text, |lanes| equal(lanes, byte), |other| other == byte)
}

/// The first place of a text that isn't empty: where its first and its last byte stand as they should, it is looked at.
#[inline(always)]
fn find_text(text: &[u8], wanted: &[u8]) -> Option<usize> {
    let last = wanted.len() - 1;
    let mut at = 0;
    while text.len() >= at + last + 16 {
        let mut found = mask(both(equal(lanes_at(text, at), wanted[0]), equal(lanes_at(text, at + last), wanted[last])));
        while found != 0 {
            let place = at + found.trailing_zeros() as usize;
            if text[place..].starts_with(wanted) {
                return Some(place);
            }
            found &= found - 1;
        }
        at += 16;
    }
    text[at..].windows(wanted.len()).position(|part| part == wanted).map(|place| at + place)
}

/// A text that is read from the left.
struct Scan<'t> {
    rest: &'t [u8],
}

impl<'t> Scan<'t> {
    /// What stands in front of the first such byte, which is passed over.
    #[inline(always)]
    fn until(&mut self, byte: u8) -> Option<&'t [u8]> {
        let place = find(self.rest, byte)?;
        let part = &self.rest[..place];
        self.rest = &self.rest[place + 1..];
        Some(part)
    }

    /// The same, where it isn't empty.
    #[inline(always)]
    fn some_until(&mut self, byte: u8) -> Option<&'t [u8]> {
        self.until(byte).filter(|part| !part.is_empty())
    }

    /// What stands in front of the first such byte, which is passed over, where all of it is so.
    #[inline(always)]
    fn made_of(&mut self, is: impl Fn(&u8) -> bool, byte: u8) -> Option<&'t [u8]> {
        let count = self.rest.iter().take_while(|byte| is(byte)).count();
        let part = &self.rest[..count];
        self.rest = self.rest[count..].strip_prefix(&[byte])?;
        Some(part).filter(|part| !part.is_empty())
    }

    #[inline(always)]
    fn expect(&mut self, text: &[u8]) -> Option<()> {
        self.rest = self.rest.strip_prefix(text)?;
        Some(())
    }
}

// ---- writing

/// How a JSON string has each byte, with the number of bytes behind it; 0 where it stands for itself.
static ESCAPES: [[u8; 8]; 256] = escapes();

const fn escapes() -> [[u8; 8]; 256] {
    const HEX: &[u8; 16] = b"0123456789abcdef";
    let mut table = [[0; 8]; 256];
    let mut byte = 0;
    while byte < 0x20 {
        table[byte] = [b'\\', b'u', b'0', b'0', HEX[byte / 16], HEX[byte % 16], 0, 6];
        byte += 1;
    }
    let short = [(b'"', b'"'), (b'\\', b'\\'), (8, b'b'), (12, b'f'), (b'\n', b'n'), (b'\r', b'r'), (b'\t', b't')];
    let mut at = 0;
    while at < short.len() {
        table[short[at].0 as usize] = [b'\\', short[at].1, 0, 0, 0, 0, 0, 2];
        at += 1;
    }
    table
}

#[inline(always)]
fn escaped(lanes: __m128i) -> u32 {
    mask(either(either(equal(lanes, b'"'), equal(lanes, b'\\')), at_most(lanes, 0x1f)))
}

fn is_escaped(byte: u8) -> bool {
    byte == b'"' || byte == b'\\' || byte < 0x20
}

/// Appends a text as a JSON string has it. Bytes are copied first and looked at then, up to 16 at once.
fn append_escaped(made: &mut Vec<u8>, text: &[u8]) {
    made.reserve(6 * text.len() + 16);
    // SAFETY: there is room for six bytes in place of each, and for the end of a store of 16.
    unsafe {
        let start = made.as_mut_ptr();
        let mut to = start.add(made.len());
        let mut from = text.as_ptr();
        let end = from.add(text.len());
        loop {
            let left = end.offset_from(from) as usize;
            let plain;
            if left >= 16 {
                let lanes = _mm_loadu_si128(from.cast());
                _mm_storeu_si128(to.cast(), lanes);
                plain = (escaped(lanes) | 1 << 16).trailing_zeros() as usize;
                if plain == 16 {
                    (from, to) = (from.add(16), to.add(16));
                    continue;
                }
            } else if left >= 8 {
                let lanes = _mm_loadl_epi64(from.cast());
                _mm_storel_epi64(to.cast(), lanes);
                plain = (escaped(lanes) & 0xff | 1 << 8).trailing_zeros() as usize;
                if plain == 8 {
                    (from, to) = (from.add(8), to.add(8));
                    continue;
                }
            } else if left >= 4 {
                let lanes = _mm_cvtsi32_si128(from.cast::<i32>().read_unaligned());
                to.cast::<i32>().write_unaligned(_mm_cvtsi128_si32(lanes));
                plain = (escaped(lanes) & 0xf | 1 << 4).trailing_zeros() as usize;
                if plain == 4 {
                    (from, to) = (from.add(4), to.add(4));
                    continue;
                }
            } else if left == 0 {
                break;
            } else if is_escaped(*from) {
                plain = 0;
            } else {
                *to = *from;
                (from, to) = (from.add(1), to.add(1));
                continue;
            }
            let escape = &ESCAPES[*from.add(plain) as usize];
            to = to.add(plain);
            to.cast::<[u8; 8]>().write(*escape);
            (from, to) = (from.add(plain + 1), to.add(escape[7] as usize));
        }
        made.set_len(to.offset_from(start) as usize);
    }
}

/// The numbers below 100, two digits each.
static PAIRS: [[u8; 2]; 100] = pairs_of_digits();

const fn pairs_of_digits() -> [[u8; 2]; 100] {
    let mut table = [[0; 2]; 100];
    let mut number = 0;
    while number < 100 {
        table[number] = [b'0' + number as u8 / 10, b'0' + number as u8 % 10];
        number += 1;
    }
    table
}

fn append_decimal(made: &mut Vec<u8>, mut number: u64) {
    let mut digits = [0; 20];
    let mut at = digits.len();
    while number >= 100 {
        at -= 2;
        digits[at..at + 2].copy_from_slice(&PAIRS[(number % 100) as usize]);
        number /= 100;
    }
    at -= 2;
    digits[at..at + 2].copy_from_slice(&PAIRS[number as usize]);
    at += usize::from(number < 10);
    made.extend_from_slice(&digits[at..]);
}

const FRONT: &str = r#"{"resourceLogs":[{"resource":{"attributes":["#;
const RECORD: &str = r#"]},"scopeLogs":[{"logRecords":[{"attributes":["#;
const BODY: &str = r#"],"body":{"stringValue":""#;
const BODY_END: &str = "\"}";
const SCOPE: &str = concat!(
    r#"}],"scope":{"attributes":[{"key":"agent.file","value":{"intValue":"1"}},"#,
    r#"{"key":"agent.line","value":{"intValue":""#
);
const END: &str = "\"}}],\"name\":\"stanza_agent\"}}]}]}\n";
const TEXT_END: &str = r#""}}"#;

/// The beginning of an attribute with this name, up to its text.
macro_rules! text_of {
    ($name:literal) => {
        concat!(r#"{"key":""#, $name, r#"","value":{"stringValue":""#)
    };
    (, $name:literal) => {
        concat!(r#",{"key":""#, $name, r#"","value":{"stringValue":""#)
    };
}

/// The same, up to its whole number.
macro_rules! number_of {
    (, $name:literal) => {
        concat!(r#",{"key":""#, $name, r#"","value":{"intValue":""#)
    };
}

/// The lines that are made and not yet written.
struct Output {
    file: File,
    made: Vec<u8>,
    /// The attributes that tell the file.
    names: Vec<u8>,
    /// What a line has in front of its body that has these attributes alone.
    front: Vec<u8>,
    number: u64,
}

impl Output {
    fn new(file: File, path: &str, with_path: bool) -> Output {
        let mut names = Vec::from(text_of!("log.file.name"));
        append_escaped(&mut names, path.rsplit('/').next().unwrap_or(path).as_bytes());
        names.extend_from_slice(TEXT_END.as_bytes());
        if with_path {
            names.extend_from_slice(text_of!(, "log.file.path").as_bytes());
            append_escaped(&mut names, path.as_bytes());
            names.extend_from_slice(TEXT_END.as_bytes());
        }
        let front = [FRONT.as_bytes(), RECORD.as_bytes(), &names, BODY.as_bytes()].concat();
        Output { file, made: Vec::with_capacity(2 * GATHERED), names, front, number: 1 }
    }

    fn write(&mut self) -> io::Result<()> {
        self.file.write_all(&self.made)?;
        self.made.clear();
        Ok(())
    }

    #[inline(always)]
    fn push(&mut self, text: &str) {
        self.made.extend_from_slice(text.as_bytes());
    }

    /// Up to the record's first attribute, where the resource has none.
    #[inline(always)]
    fn begin(&mut self) {
        self.push(FRONT);
        self.push(RECORD);
    }

    #[inline(always)]
    fn names(&mut self) {
        self.made.extend_from_slice(&self.names);
    }

    #[inline(always)]
    fn text(&mut self, opening: &str, value: &[u8]) {
        self.push(opening);
        append_escaped(&mut self.made, value);
        self.push(TEXT_END);
    }

    #[inline(always)]
    fn number(&mut self, opening: &str, value: u64) {
        self.push(opening);
        append_decimal(&mut self.made, value);
        self.push(TEXT_END);
    }

    #[inline(always)]
    fn body(&mut self, text: &[u8]) {
        self.push(BODY);
        append_escaped(&mut self.made, text);
        self.push(BODY_END);
    }

    fn severity(&mut self, number: u8, name: &[u8]) {
        if number > 0 {
            self.push(r#","severityNumber":"#);
            append_decimal(&mut self.made, u64::from(number));
        }
        if !name.is_empty() {
            self.push(r#","severityText":""#);
            append_escaped(&mut self.made, name);
            self.push("\"");
        }
    }

    fn time(&mut self, nanoseconds: u64) {
        self.push(r#","timeUnixNano":""#);
        append_decimal(&mut self.made, nanoseconds);
        self.push("\"");
    }

    #[inline(always)]
    fn end(&mut self) {
        self.push(SCOPE);
        append_decimal(&mut self.made, self.number);
        self.push(END);
        self.number += 1;
        if self.made.len() >= GATHERED && self.write().is_err() {
            give_up("a write failed");
        }
    }

    /// The line of a text of which nothing more is told.
    fn plain(&mut self, text: &[u8]) {
        self.record(text, BODY_END);
    }

    /// The line of a text with the file's attributes alone, and with this behind the text.
    #[inline(always)]
    fn record(&mut self, text: &[u8], end: &str) {
        self.made.extend_from_slice(&self.front);
        append_escaped(&mut self.made, text);
        self.push(end);
        self.end();
    }
}

// ---- the time at which lines are taken

/// What stands behind a text that was taken at this time.
fn body_end(nanoseconds: u128) -> String {
    format!(r#"{BODY_END},"observedTimeUnixNano":"{nanoseconds}""#)
}

fn now() -> u128 {
    SystemTime::now().duration_since(UNIX_EPOCH).map_or(0, |since| since.as_nanos())
}

// ---- filter and router

fn filter(out: &mut Output, line: &[u8]) {
    if find_text(line, b"GET /health").is_none() {
        out.plain(line);
    }
}

fn router(out: &mut Output, line: &[u8]) {
    match worker(line) {
        Some(worker) if find_text(line, b"INFO").is_some() => {
            out.begin();
            out.names();
            out.number(number_of!(, "worker"), u64::from(worker));
            out.body(line);
            out.end();
        }
        _ => out.plain(line),
    }
}

/// The least digit between `worker-` and a space.
fn worker(line: &[u8]) -> Option<u8> {
    let mut least = None;
    let mut rest = line;
    while let Some(place) = find_text(rest, b"worker-") {
        rest = &rest[place + 7..];
        if let [digit @ b'0'..=b'9', b' ', ..] = rest {
            let worker = digit - b'0';
            least = Some(least.map_or(worker, |other: u8| other.min(worker)));
        }
    }
    least
}

// ---- members, by names that the text has

/// A part of the text that is read, or of what was made beside it.
#[derive(Clone, Copy)]
struct Part {
    start: u32,
    end: u32,
    beside: bool,
    /// No byte of it is escaped in a JSON string.
    plain: bool,
}

#[derive(Clone, Copy)]
enum Value {
    Text(Part),
    /// Its digits.
    Whole(Part),
    Bool(bool),
    Null,
    /// A list or a map, as the output has it.
    Rendered(Part),
}

#[derive(Clone, Copy)]
struct Member {
    name: Part,
    value: Value,
    /// The first bytes of the name, by which most members are ordered.
    key: u64,
}

#[derive(Default)]
struct Members {
    list: Vec<Member>,
    beside: Vec<u8>,
    scratch: Vec<u8>,
}

const FILE_NAME: &[u8] = b"log.file.name";

impl Members {
    fn clear(&mut self) {
        self.list.clear();
        self.beside.clear();
    }

    fn add(&mut self, text: &[u8], name: Part, value: Value) {
        let key = key_of(bytes_of(text, &self.beside, name));
        self.list.push(Member { name, value, key });
    }

    fn bytes<'a>(&'a self, text: &'a [u8], part: Part) -> &'a [u8] {
        bytes_of(text, &self.beside, part)
    }

    /// What was put beside the text from a place on.
    fn beside_from(&self, start: usize, plain: bool) -> Part {
        Part { beside: true, plain, ..part_of(start, self.beside.len()) }
    }

    /// The value of a name, of which the last one counts.
    fn value_of(&self, text: &[u8], name: &[u8]) -> Option<Value> {
        self.list.iter().rev().find(|member| self.bytes(text, member.name) == name).map(|member| member.value)
    }

    fn text_of<'a>(&'a self, text: &'a [u8], name: &[u8]) -> Option<&'a [u8]> {
        match self.value_of(text, name)? {
            Value::Text(part) => Some(self.bytes(text, part)),
            _ => None,
        }
    }

    /// Orders the members from one on by their names. Of one name the last stays.
    fn order(&mut self, text: &[u8], from: usize) {
        let beside = &self.beside;
        let order = |one: &Member, other: &Member| {
            let names = || bytes_of(text, beside, one.name).cmp(bytes_of(text, beside, other.name));
            one.key.cmp(&other.key).then_with(names)
        };
        self.list[from..].sort_by(order);
        let mut kept = from;
        for at in from..self.list.len() {
            if at + 1 == self.list.len() || order(&self.list[at], &self.list[at + 1]).is_ne() {
                self.list[kept] = self.list[at];
                kept += 1;
            }
        }
        self.list.truncate(kept);
    }

    /// Makes the members from one on the value of a map.
    fn close_map(&mut self, text: &[u8], from: usize) -> Value {
        self.order(text, from);
        let mut made = mem::take(&mut self.scratch);
        made.extend_from_slice(br#"{"kvlistValue":{"values":["#);
        append_members(&mut made, text, &self.beside, &self.list[from..]);
        self.close(made, from)
    }

    /// Makes the values of the members from one on that of a list.
    fn close_list(&mut self, text: &[u8], from: usize) -> Value {
        let mut made = mem::take(&mut self.scratch);
        made.extend_from_slice(br#"{"arrayValue":{"values":["#);
        for (at, member) in self.list[from..].iter().enumerate() {
            if at > 0 {
                made.push(b',');
            }
            append_value(&mut made, text, &self.beside, member.value);
        }
        self.close(made, from)
    }

    fn close(&mut self, mut made: Vec<u8>, from: usize) -> Value {
        made.extend_from_slice(b"]}}");
        self.list.truncate(from);
        let start = self.beside.len();
        self.beside.extend_from_slice(&made);
        made.clear();
        self.scratch = made;
        Value::Rendered(self.beside_from(start, true))
    }

    /// All members as attributes, with that of the file's name among them.
    fn write(&mut self, out: &mut Output, text: &[u8]) {
        self.order(text, 0);
        let place = self.list.partition_point(|member| self.bytes(text, member.name) < FILE_NAME);
        append_members(&mut out.made, text, &self.beside, &self.list[..place]);
        if place > 0 {
            out.push(",");
        }
        if self.list.get(place).is_none_or(|member| self.bytes(text, member.name) != FILE_NAME) {
            out.names();
            if place < self.list.len() {
                out.push(",");
            }
        }
        append_members(&mut out.made, text, &self.beside, &self.list[place..]);
    }
}

#[inline(always)]
fn bytes_of<'a>(text: &'a [u8], beside: &'a [u8], part: Part) -> &'a [u8] {
    let whole = if part.beside { beside } else { text };
    &whole[part.start as usize..part.end as usize]
}

/// Keys are ordered as names are, but for names that begin with the same eight bytes, or end within them.
#[inline(always)]
fn key_of(name: &[u8]) -> u64 {
    if let Some(front) = name.first_chunk() {
        return u64::from_be_bytes(*front);
    }
    name.iter().enumerate().fold(0, |key, (at, byte)| key | u64::from(*byte) << (56 - 8 * at))
}

#[inline(always)]
fn append_part(made: &mut Vec<u8>, text: &[u8], beside: &[u8], part: Part) {
    let bytes = bytes_of(text, beside, part);
    if part.plain {
        made.extend_from_slice(bytes);
    } else {
        append_escaped(made, bytes);
    }
}

fn append_members(made: &mut Vec<u8>, text: &[u8], beside: &[u8], members: &[Member]) {
    for (at, member) in members.iter().enumerate() {
        made.extend_from_slice(if at > 0 { br#",{"key":""# } else { br#"{"key":""# });
        append_part(made, text, beside, member.name);
        match member.value {
            Value::Text(part) => {
                made.extend_from_slice(br#"","value":{"stringValue":""#);
                append_part(made, text, beside, part);
                made.extend_from_slice(TEXT_END.as_bytes());
            }
            Value::Whole(part) => {
                made.extend_from_slice(br#"","value":{"intValue":""#);
                append_part(made, text, beside, part);
                made.extend_from_slice(TEXT_END.as_bytes());
            }
            value => {
                made.extend_from_slice(br#"","value":"#);
                append_value(made, text, beside, value);
                made.push(b'}');
            }
        }
    }
}

fn append_value(made: &mut Vec<u8>, text: &[u8], beside: &[u8], value: Value) {
    match value {
        Value::Text(part) => {
            made.extend_from_slice(br#"{"stringValue":""#);
            append_part(made, text, beside, part);
            made.extend_from_slice(br#""}"#);
        }
        Value::Whole(part) => {
            made.extend_from_slice(br#"{"intValue":""#);
            append_part(made, text, beside, part);
            made.extend_from_slice(br#""}"#);
        }
        Value::Bool(true) => made.extend_from_slice(br#"{"boolValue":true}"#),
        Value::Bool(false) => made.extend_from_slice(br#"{"boolValue":false}"#),
        Value::Null => made.extend_from_slice(b"{}"),
        Value::Rendered(part) => append_part(made, text, beside, part),
    }
}

// ---- JSON

/// One JSON object (RFC 8259), nested at most 64 deep, whose members become `members`.
fn json_members(text: &[u8], members: &mut Members) -> Option<()> {
    members.clear();
    let mut json = Json { text, at: 0, members };
    json.blanks();
    json.byte(b'{')?;
    json.object(63)?;
    json.blanks();
    (json.at == text.len()).then_some(())
}

struct Json<'a> {
    text: &'a [u8],
    at: usize,
    members: &'a mut Members,
}

impl Json<'_> {
    fn next(&self) -> Option<u8> {
        self.text.get(self.at).copied()
    }

    #[inline(always)]
    fn byte(&mut self, byte: u8) -> Option<()> {
        (self.next()? == byte).then(|| self.at += 1)
    }

    #[inline(always)]
    fn blanks(&mut self) {
        while self.next().is_some_and(is_blank) {
            self.at += 1;
        }
    }

    /// The members behind `{`, and its bracket.
    fn object(&mut self, levels: usize) -> Option<()> {
        self.blanks();
        if self.byte(b'}').is_some() {
            return Some(());
        }
        loop {
            self.blanks();
            self.byte(b'"')?;
            let name = self.string()?;
            self.blanks();
            self.byte(b':')?;
            let value = self.value(levels)?;
            self.members.add(self.text, name, value);
            self.blanks();
            if self.byte(b'}').is_some() {
                return Some(());
            }
            self.byte(b',')?;
        }
    }

    /// The values behind `[`, and its bracket, as members without a name.
    fn list(&mut self, levels: usize) -> Option<()> {
        let name = part_of(0, 0);
        self.blanks();
        if self.byte(b']').is_some() {
            return Some(());
        }
        loop {
            let value = self.value(levels)?;
            self.members.add(self.text, name, value);
            self.blanks();
            if self.byte(b']').is_some() {
                return Some(());
            }
            self.byte(b',')?;
        }
    }

    fn value(&mut self, levels: usize) -> Option<Value> {
        self.blanks();
        let from = self.members.list.len();
        match self.next()? {
            b'"' => {
                self.at += 1;
                Some(Value::Text(self.string()?))
            }
            b'-' | b'0'..=b'9' => self.number(),
            b't' => self.word(b"true", Value::Bool(true)),
            b'f' => self.word(b"false", Value::Bool(false)),
            b'n' => self.word(b"null", Value::Null),
            b'{' if levels > 0 => {
                self.at += 1;
                self.object(levels - 1)?;
                Some(self.members.close_map(self.text, from))
            }
            b'[' if levels > 0 => {
                self.at += 1;
                self.list(levels - 1)?;
                Some(self.members.close_list(self.text, from))
            }
            _ => None,
        }
    }

    fn word(&mut self, word: &[u8], value: Value) -> Option<Value> {
        self.text[self.at..].starts_with(word).then(|| self.at += word.len())?;
        Some(value)
    }

    /// What stands behind a quote, up to the next one.
    #[inline(always)]
    fn string(&mut self) -> Option<Part> {
        let start = self.at;
        let rest = &self.text[start..];
        let special =
            first(rest, |lanes| either(either(equal(lanes, b'"'), equal(lanes, b'\\')), at_most(lanes, 0x1f)), is_escaped)?;
        if rest[special] != b'"' {
            return self.string_with_escapes();
        }
        self.at += special + 1;
        Some(Part { plain: true, ..part_of(start, start + special) })
    }

    /// The same where some of it has to be read otherwise than it stands: it is made beside the text.
    fn string_with_escapes(&mut self) -> Option<Part> {
        let start = self.members.beside.len();
        loop {
            let rest = &self.text[self.at..];
            let plain = rest.iter().position(|byte| is_escaped(*byte))?;
            self.members.beside.extend_from_slice(&rest[..plain]);
            self.at += plain + 1;
            match rest[plain] {
                b'"' => break,
                b'\\' => self.escape()?,
                _ => return None,
            }
        }
        Some(self.members.beside_from(start, false))
    }

    /// What stands behind a backslash.
    fn escape(&mut self) -> Option<()> {
        let byte = self.next()?;
        self.at += 1;
        let meant = match byte {
            b'"' | b'\\' | b'/' => byte,
            b'b' => 8,
            b'f' => 12,
            b'n' => b'\n',
            b'r' => b'\r',
            b't' => b'\t',
            b'u' => return self.unicode(),
            _ => return None,
        };
        self.members.beside.push(meant);
        Some(())
    }

    /// A character of UTF-16; half a pair is U+FFFD.
    fn unicode(&mut self) -> Option<()> {
        let mut code = self.unit()?;
        if (0xd800..0xdc00).contains(&code) && self.text[self.at..].starts_with(b"\\u") {
            let behind = self.at;
            self.at += 2;
            let low = self.unit()?;
            if (0xdc00..0xe000).contains(&low) {
                code = 0x10000 + ((code - 0xd800) << 10) + (low - 0xdc00);
            } else {
                self.at = behind;
            }
        }
        let character = char::from_u32(code).unwrap_or('\u{fffd}');
        self.members.beside.extend_from_slice(character.encode_utf8(&mut [0; 4]).as_bytes());
        Some(())
    }

    fn unit(&mut self) -> Option<u32> {
        let digits = self.text.get(self.at..self.at + 4)?;
        self.at += 4;
        digits.iter().try_fold(0, |code, digit| Some(16 * code + (*digit as char).to_digit(16)?))
    }

    fn number(&mut self) -> Option<Value> {
        let start = self.at;
        self.at += usize::from(self.next() == Some(b'-'));
        match self.next()? {
            b'0' => self.at += 1,
            _ => self.digits()?,
        }
        let whole = self.at;
        if self.byte(b'.').is_some() {
            self.digits()?;
        }
        if let Some(b'e' | b'E') = self.next() {
            self.at += 1;
            self.at += usize::from(matches!(self.next(), Some(b'+' | b'-')));
            self.digits()?;
        }
        let part = Part { plain: true, ..part_of(start, self.at) };
        if self.at > whole {
            return Some(Value::Text(part));
        }
        Some(self.whole(part))
    }

    fn digits(&mut self) -> Option<()> {
        let count = self.text[self.at..].iter().take_while(|byte| byte.is_ascii_digit()).count();
        self.at += count;
        (count > 0).then_some(())
    }

    /// A whole number, which is a text where 64 bits don't hold it.
    fn whole(&mut self, part: Part) -> Value {
        match bytes_of(self.text, b"", part) {
            b"-0" => Value::Whole(Part { start: part.start + 1, ..part }),
            few if few.len() < 19 => Value::Whole(part),
            many => match str::from_utf8(many).map(str::parse::<i64>) {
                Ok(Ok(_)) => Value::Whole(part),
                _ => Value::Text(part),
            },
        }
    }
}

fn part_of(start: usize, end: usize) -> Part {
    Part { start: start as u32, end: end as u32, beside: false, plain: false }
}

fn json(out: &mut Output, members: &mut Members, line: &[u8]) {
    if json_members(line, members).is_none() {
        return out.plain(line);
    }
    out.begin();
    members.write(out, line);
    out.body(line);
    out.end();
}

fn json_stamped(out: &mut Output, members: &mut Members, line: &[u8]) {
    let Some((time, severity, level)) = json_stamps(line, members) else {
        return out.plain(line);
    };
    out.begin();
    members.write(out, line);
    out.body(line);
    out.severity(severity, members.bytes(line, level));
    out.time(time);
    out.end();
}

/// The members with their time, and their severity with what names it.
fn json_stamps(line: &[u8], members: &mut Members) -> Option<(u64, u8, Part)> {
    json_members(line, members)?;
    let time = utc_with_fraction(members.text_of(line, b"time")?)?;
    match members.value_of(line, b"level")? {
        Value::Text(part) => Some((time, severity_named(members.bytes(line, part)), part)),
        Value::Whole(part) => Some((time, 0, part)),
        _ => None,
    }
}

/// The severity of a short name or of another name that is known, in any case; else 0.
fn severity_named(name: &[u8]) -> u8 {
    let mut lower = [0; 16];
    if name.len() > lower.len() {
        return 0;
    }
    for (to, byte) in lower.iter_mut().zip(name) {
        *to = byte.to_ascii_lowercase();
    }
    let (word, step) = match &lower[..name.len()] {
        [word @ .., digit @ b'2'..=b'4'] => (word, digit - b'1'),
        word => (word, 0),
    };
    match word {
        b"trace" => 1 + step,
        b"debug" => 5 + step,
        b"info" => 9 + step,
        b"warn" => 13 + step,
        b"error" => 17 + step,
        b"fatal" => 21 + step,
        _ if step > 0 => 0,
        b"information" | b"informational" => 9,
        b"notice" => 10,
        b"warning" => 13,
        b"err" => 17,
        b"crit" | b"critical" => 18,
        b"alert" => 19,
        b"emerg" | b"panic" => 21,
        _ => 0,
    }
}

// ---- times

/// A number of so many digits.
#[inline(always)]
fn digits_at(text: &[u8], at: usize, count: usize) -> Option<u64> {
    let mut value = 0;
    for byte in text.get(at..at + count)? {
        value = 10 * value + u64::from(Some(byte.wrapping_sub(b'0')).filter(|digit| *digit < 10)?);
    }
    Some(value)
}

/// The first 19 bytes as `2026-11-27T08:00:00`, in seconds since 1970-01-01 in UTC.
fn seconds_told(text: &[u8]) -> Option<i64> {
    let front = text.get(..19)?;
    let stands = front[4] == b'-' && front[7] == b'-' && front[10] == b'T' && front[13] == b':' && front[16] == b':';
    let day = day_number(digits_at(front, 0, 4)?, digits_at(front, 5, 2)?, digits_at(front, 8, 2)?)?;
    stands.then_some(86_400 * day + second_of_day(front, 11)?)
}

/// `08:00:00`, from a place on.
fn second_of_day(text: &[u8], at: usize) -> Option<i64> {
    let (hour, minute, second) = (digits_at(text, at, 2)?, digits_at(text, at + 3, 2)?, digits_at(text, at + 6, 2)?);
    (hour < 24 && minute < 60 && second < 60).then_some((3_600 * hour + 60 * minute + second) as i64)
}

/// The days from 1970-01-01 to that of the calendar, where it has the day.
fn day_number(year: u64, month: u64, day: u64) -> Option<i64> {
    const LENGTHS: [u64; 12] = [31, 28, 31, 30, 31, 30, 31, 31, 30, 31, 30, 31];
    let is_leap = year % 4 == 0 && (year % 100 != 0 || year % 400 == 0);
    let length = *LENGTHS.get((month as usize).wrapping_sub(1))? + u64::from(month == 2 && is_leap);
    if day < 1 || day > length {
        return None;
    }
    // Years begin in March, so that a leap day ends one.
    let (year, month) = if month > 2 { (year as i64, month - 3) } else { (year as i64 - 1, month + 9) };
    let of_year = ((153 * month + 2) / 5 + day - 1) as i64;
    Some(365 * year + year.div_euclid(4) - year.div_euclid(100) + year.div_euclid(400) + of_year - 719_468)
}

/// One to so many digits in front, as nanoseconds, and how many they are.
fn fraction(text: &[u8], most: usize) -> Option<(u64, usize)> {
    let count = text.iter().take(most).take_while(|byte| byte.is_ascii_digit()).count();
    const SCALES: [u64; 10] = [1_000_000_000, 100_000_000, 10_000_000, 1_000_000, 100_000, 10_000, 1_000, 100, 10, 1];
    (count > 0).then_some((digits_at(text, 0, count)? * SCALES[count], count))
}

fn instant(seconds: i64, nanoseconds: u64) -> Option<u64> {
    u64::try_from(seconds).ok()?.checked_mul(1_000_000_000)?.checked_add(nanoseconds)
}

/// The layout `%Y-%m-%dT%H:%M:%S.%LZ`.
fn utc_with_fraction(text: &[u8]) -> Option<u64> {
    let seconds = seconds_told(text)?;
    let behind = text[19..].strip_prefix(b".")?;
    let (nanoseconds, count) = fraction(behind, 9)?;
    (&behind[count..] == b"Z").then_some(instant(seconds, nanoseconds)?)
}

/// A time of RFC 3339 with at most so many digits of a fraction.
fn rfc3339(text: &[u8], most: usize) -> Option<u64> {
    let seconds = seconds_told(text)?;
    let mut rest = &text[19..];
    let mut nanoseconds = 0;
    if let Some(behind) = rest.strip_prefix(b".") {
        let (value, count) = fraction(behind, most)?;
        (nanoseconds, rest) = (value, &behind[count..]);
    }
    instant(seconds - zone(rest)?, nanoseconds)
}

/// `Z`, or a sign with hours and minutes, in seconds.
fn zone(text: &[u8]) -> Option<i64> {
    match text {
        b"Z" => Some(0),
        [sign @ (b'+' | b'-'), _, _, b':', _, _] => {
            let (hours, minutes) = (digits_at(text, 1, 2)?, digits_at(text, 4, 2)?);
            let seconds = (3_600 * hours + 60 * minutes) as i64;
            (hours < 24 && minutes < 60).then_some(if *sign == b'+' { seconds } else { -seconds })
        }
        _ => None,
    }
}

// ---- access lines of nginx

struct Access<'t> {
    remote_addr: &'t [u8],
    remote_user: &'t [u8],
    time_local: &'t [u8],
    method: &'t [u8],
    path: &'t [u8],
    status: &'t [u8],
    bytes: &'t [u8],
    referer: &'t [u8],
    agent: &'t [u8],
}

fn nginx(out: &mut Output, line: &[u8]) {
    let Some(access) = access_of(line) else {
        return out.plain(line);
    };
    out.begin();
    out.text(text_of!("agent"), access.agent);
    out.text(text_of!(, "bytes"), access.bytes);
    out.push(",");
    out.names();
    out.text(text_of!(, "method"), access.method);
    out.text(text_of!(, "path"), access.path);
    out.text(text_of!(, "referer"), access.referer);
    out.text(text_of!(, "remote_addr"), access.remote_addr);
    out.text(text_of!(, "remote_user"), access.remote_user);
    out.text(text_of!(, "status"), access.status);
    out.text(text_of!(, "time_local"), access.time_local);
    out.body(line);
    out.end();
}

/// What the expression of the settings finds, of which each group ends at the first byte that it can't have.
fn access_of(line: &[u8]) -> Option<Access<'_>> {
    let mut scan = Scan { rest: line };
    let remote_addr = scan.some_until(b' ')?;
    scan.expect(b"- ")?;
    let remote_user = scan.some_until(b' ')?;
    scan.expect(b"[")?;
    let time_local = scan.some_until(b']')?;
    scan.expect(b" \"")?;
    let method = scan.made_of(u8::is_ascii_uppercase, b' ')?;
    let path = scan.some_until(b' ')?;
    scan.some_until(b'"')?;
    scan.expect(b" ")?;
    let status = scan.made_of(u8::is_ascii_digit, b' ')?;
    let bytes = scan.made_of(u8::is_ascii_digit, b' ')?;
    scan.expect(b"\"")?;
    let referer = scan.until(b'"')?;
    scan.expect(b" \"")?;
    let agent = scan.until(b'"')?;
    scan.rest.is_empty().then_some(Access { remote_addr, remote_user, time_local, method, path, status, bytes, referer, agent })
}

// ---- syslog

/// The severities of syslog, from 0 on, with their numbers and names.
const SEVERITIES: [(u8, &[u8]); 8] =
    [(21, b"emerg"), (19, b"alert"), (18, b"crit"), (17, b"err"), (13, b"warning"), (10, b"notice"), (9, b"info"), (5, b"debug")];

fn priority(scan: &mut Scan) -> Option<u8> {
    scan.expect(b"<")?;
    let digits = scan.made_of(u8::is_ascii_digit, b'>')?;
    let value = digits_at(digits, 0, digits.len())?;
    (digits.len() <= 3 && value <= 191).then_some(value as u8)
}

fn append_severity(out: &mut Output, priority: u8) {
    let (number, name) = SEVERITIES[usize::from(priority % 8)];
    out.severity(number, name);
}

/// What a message of RFC 5424 tells but for its structured data. A field that it leaves out is empty.
struct Message<'t> {
    priority: u8,
    time: Option<u64>,
    hostname: &'t [u8],
    appname: &'t [u8],
    proc_id: &'t [u8],
    msg_id: &'t [u8],
    message: &'t [u8],
}

fn syslog_5424(out: &mut Output, members: &mut Members, line: &[u8]) {
    let Some((said, data)) = message_of(line, members) else {
        return out.plain(line);
    };
    out.begin();
    if !said.appname.is_empty() {
        out.text(text_of!("appname"), said.appname);
        out.push(",");
    }
    out.push(r#"{"key":"facility","value":{"intValue":""#);
    append_decimal(&mut out.made, u64::from(said.priority / 8));
    out.push(TEXT_END);
    append_unless_empty(out, text_of!(, "hostname"), said.hostname);
    out.push(",");
    out.names();
    append_unless_empty(out, text_of!(, "message"), said.message);
    append_unless_empty(out, text_of!(, "msg_id"), said.msg_id);
    out.number(number_of!(, "priority"), u64::from(said.priority));
    append_unless_empty(out, text_of!(, "proc_id"), said.proc_id);
    if let Some(Value::Rendered(part)) = data {
        out.push(r#",{"key":"structured_data","value":"#);
        out.made.extend_from_slice(members.bytes(line, part));
        out.push("}");
    }
    out.number(number_of!(, "version"), 1);
    out.body(line);
    append_severity(out, said.priority);
    if let Some(time) = said.time {
        out.time(time);
    }
    out.end();
}

fn append_unless_empty(out: &mut Output, opening: &str, value: &[u8]) {
    if !value.is_empty() {
        out.text(opening, value);
    }
}

fn message_of<'t>(line: &'t [u8], members: &mut Members) -> Option<(Message<'t>, Option<Value>)> {
    members.clear();
    let mut scan = Scan { rest: line };
    let priority = priority(&mut scan)?;
    scan.expect(b"1 ")?;
    let time = match scan.until(b' ')? {
        b"-" => None,
        told => Some(rfc3339(told, 6)?),
    };
    let hostname = header_field(&mut scan, 255)?;
    let appname = header_field(&mut scan, 48)?;
    let proc_id = header_field(&mut scan, 128)?;
    let msg_id = header_field(&mut scan, 32)?;
    let data = structured_data(&mut scan, line, members)?;
    if !scan.rest.is_empty() {
        scan.expect(b" ")?;
    }
    let said = Message {
        priority,
        time,
        hostname,
        appname,
        proc_id,
        msg_id,
        message: scan.rest.strip_prefix("\u{feff}".as_bytes()).unwrap_or(scan.rest),
    };
    Some((said, data))
}

fn header_field<'t>(scan: &mut Scan<'t>, most: usize) -> Option<&'t [u8]> {
    match scan.made_of(u8::is_ascii_graphic, b' ')? {
        b"-" => Some(b""),
        field => (field.len() <= most).then_some(field),
    }
}

/// Nothing for `-`, or a map of elements, which are maps of parameters.
fn structured_data(scan: &mut Scan, line: &[u8], members: &mut Members) -> Option<Option<Value>> {
    if scan.expect(b"-").is_some() {
        return Some(None);
    }
    loop {
        scan.expect(b"[")?;
        let name = data_name(scan, line)?;
        let from = members.list.len();
        while scan.expect(b"]").is_none() {
            scan.expect(b" ")?;
            let name = data_name(scan, line)?;
            scan.expect(b"=\"")?;
            let value = Value::Text(parameter_value(scan, line, members)?);
            members.add(line, name, value);
        }
        let value = members.close_map(line, from);
        members.add(line, name, value);
        if !scan.rest.starts_with(b"[") {
            return Some(Some(members.close_map(line, 0)));
        }
    }
}

fn data_name(scan: &mut Scan, line: &[u8]) -> Option<Part> {
    let is_of_name = |byte: &&u8| byte.is_ascii_graphic() && !matches!(**byte, b'=' | b']' | b'"');
    let count = scan.rest.iter().take_while(is_of_name).count();
    let start = line.len() - scan.rest.len();
    scan.rest = &scan.rest[count..];
    (1..=32).contains(&count).then_some(part_of(start, start + count))
}

/// What stands behind a quote, up to the next one that no backslash escapes.
fn parameter_value(scan: &mut Scan, line: &[u8], members: &mut Members) -> Option<Part> {
    let start = line.len() - scan.rest.len();
    let special = special_in_value(scan.rest)?;
    if scan.rest[special] == b'"' {
        scan.rest = &scan.rest[special + 1..];
        return Some(part_of(start, start + special));
    }
    let start = members.beside.len();
    loop {
        let special = special_in_value(scan.rest)?;
        members.beside.extend_from_slice(&scan.rest[..special]);
        let behind = &scan.rest[special + 1..];
        match (scan.rest[special], behind) {
            (b'"', _) => {
                scan.rest = behind;
                break;
            }
            (b'\\', [meant @ (b'"' | b'\\' | b']'), rest @ ..]) => {
                members.beside.push(*meant);
                scan.rest = rest;
            }
            (b'\\', [_, ..]) => {
                members.beside.push(b'\\');
                scan.rest = behind;
            }
            _ => return None,
        }
    }
    Some(members.beside_from(start, false))
}

fn special_in_value(text: &[u8]) -> Option<usize> {
    let in_lanes = |lanes| either(either(equal(lanes, b'"'), equal(lanes, b'\\')), equal(lanes, b']'));
    first(text, in_lanes, |byte| matches!(byte, b'"' | b'\\' | b']'))
}

/// What a message of RFC 3164 tells. What it leaves out is empty.
struct OldMessage<'t> {
    priority: u8,
    time: u64,
    hostname: &'t [u8],
    appname: &'t [u8],
    proc_id: &'t [u8],
    message: &'t [u8],
}

fn syslog_3164(out: &mut Output, line: &[u8]) {
    let Some(said) = old_message_of(line) else {
        return out.plain(line);
    };
    out.begin();
    out.text(text_of!("appname"), said.appname);
    out.number(number_of!(, "facility"), u64::from(said.priority / 8));
    out.text(text_of!(, "hostname"), said.hostname);
    out.push(",");
    out.names();
    append_unless_empty(out, text_of!(, "message"), said.message);
    out.number(number_of!(, "priority"), u64::from(said.priority));
    append_unless_empty(out, text_of!(, "proc_id"), said.proc_id);
    out.body(line);
    append_severity(out, said.priority);
    out.time(said.time);
    out.end();
}

fn old_message_of(line: &[u8]) -> Option<OldMessage<'_>> {
    let mut scan = Scan { rest: line };
    let priority = priority(&mut scan)?;
    let time = date_of_2026(scan.rest)?;
    scan.rest = &scan.rest[16..];
    let hostname = scan.some_until(b' ')?;
    let count = scan.rest.iter().take_while(|byte| !matches!(byte, b' ' | b'[' | b':')).count();
    let (appname, behind) = scan.rest.split_at(count);
    scan.rest = behind;
    let mut proc_id: &[u8] = b"";
    if scan.expect(b"[").is_some() {
        proc_id = scan.some_until(b']')?;
    }
    scan.expect(b":")?;
    (count > 0).then_some(OldMessage {
        priority,
        time,
        hostname,
        appname,
        proc_id,
        message: scan.rest.strip_prefix(b" ").unwrap_or(scan.rest),
    })
}

/// `Nov 27 08:00:00 `, in UTC.
fn date_of_2026(text: &[u8]) -> Option<u64> {
    const MONTHS: &[u8; 36] = b"JanFebMarAprMayJunJulAugSepOctNovDec";
    let front = text.get(..16)?;
    let month = MONTHS.chunks_exact(3).position(|name| name == &front[..3])?;
    let day = match front[4] {
        b' ' => digits_at(front, 5, 1)?,
        _ => digits_at(front, 4, 2)?,
    };
    let stands = front[3] == b' ' && front[6] == b' ' && front[9] == b':' && front[12] == b':' && front[15] == b' ';
    let seconds = 86_400 * day_number(2026, month as u64 + 1, day)? + second_of_day(front, 7)?;
    stands.then_some(instant(seconds, 0)?)
}

// ---- comma-separated values

/// The header is `time,host,level,service,path,status,bytes,agent`.
const COLUMNS: usize = 8;

/// The attributes in their order, each with its column.
const BEFORE_NAME: [(&str, usize); 4] =
    [(text_of!("agent"), 7), (text_of!(, "bytes"), 6), (text_of!(, "host"), 1), (text_of!(, "level"), 2)];
const BEHIND_NAME: [(&str, usize); 4] =
    [(text_of!(, "path"), 4), (text_of!(, "service"), 3), (text_of!(, "status"), 5), (text_of!(, "time"), 0)];

fn csv(out: &mut Output, members: &mut Members, line: &[u8]) {
    members.clear();
    let Some(fields) = csv_fields(line, members) else {
        return out.plain(line);
    };
    out.begin();
    for (opening, column) in BEFORE_NAME {
        out.text(opening, bytes_of(line, &members.beside, fields[column]));
    }
    out.push(",");
    out.names();
    for (opening, column) in BEHIND_NAME {
        out.text(opening, bytes_of(line, &members.beside, fields[column]));
    }
    out.body(line);
    out.end();
}

/// The fields of one record, where it has as many as the header (RFC 4180).
fn csv_fields(line: &[u8], members: &mut Members) -> Option<[Part; COLUMNS]> {
    let mut fields = [part_of(0, 0); COLUMNS];
    let mut count = 0;
    let mut at = if line.starts_with("\u{feff}".as_bytes()) { 3 } else { 0 };
    loop {
        let field;
        (field, at) = match line.get(at) {
            Some(b'"') => quoted_field(line, at + 1, members)?,
            _ => {
                let end = field_end(line, at)?;
                (part_of(at, end), end)
            }
        };
        *fields.get_mut(count)? = field;
        count += 1;
        if at == line.len() {
            return (count == COLUMNS).then_some(fields);
        }
        at += 1;
    }
}

/// The next comma or the end, where no line end stands in front of it.
fn field_end(line: &[u8], at: usize) -> Option<usize> {
    let in_lanes = |lanes| either(equal(lanes, b','), equal(lanes, b'\r'));
    match first(&line[at..], in_lanes, |byte| matches!(byte, b',' | b'\r')) {
        None => Some(line.len()),
        Some(length) => (line[at + length] == b',').then_some(at + length),
    }
}

/// A field from behind its quote on, and its end. What stands behind the second quote belongs to it too.
fn quoted_field(line: &[u8], start: usize, members: &mut Members) -> Option<(Part, usize)> {
    let made = members.beside.len();
    let mut at = start;
    loop {
        let Some(length) = find(&line[at..], b'"') else {
            members.beside.extend_from_slice(&line[at..]);
            return Some((members.beside_from(made, false), line.len()));
        };
        let quote = at + length;
        if line.get(quote + 1) == Some(&b'"') {
            members.beside.extend_from_slice(&line[at..=quote]);
            at = quote + 2;
            continue;
        }
        let end = field_end(line, quote + 1)?;
        if members.beside.len() == made && end == quote + 1 {
            return Some((part_of(start, quote), end));
        }
        members.beside.extend_from_slice(&line[at..quote]);
        members.beside.extend_from_slice(&line[quote + 1..end]);
        return Some((members.beside_from(made, false), end));
    }
}

// ---- keys with values

fn key_value(out: &mut Output, members: &mut Members, line: &[u8]) {
    if pairs(line, members).is_none() {
        return out.plain(line);
    }
    out.begin();
    members.write(out, line);
    out.body(line);
    out.end();
}

fn pairs(line: &[u8], members: &mut Members) -> Option<()> {
    members.clear();
    let mut at = 0;
    while at < line.len() {
        if is_blank(line[at]) {
            at += 1;
            continue;
        }
        let pair = pair_at(line, at)?;
        if pair.name.start == pair.name.end {
            return None;
        }
        members.add(line, pair.name, Value::Text(pair.value));
        at = pair.end;
    }
    (!members.list.is_empty()).then_some(())
}

struct Pair {
    name: Part,
    value: Part,
    end: usize,
}

/// The pair that begins here. A part in quotes has neither a `=` nor an end.
fn pair_at(line: &[u8], start: usize) -> Option<Pair> {
    let mut equals = None;
    let mut plain = true;
    let mut at = start;
    while let Some(length) = special_in_pair(&line[at..]) {
        at += length;
        match line[at] {
            b'=' => equals = equals.or(Some(at)),
            byte if is_blank(byte) => return Some(pair_of(line, start, equals?, at, plain)),
            quote @ (b'"' | b'\'') => {
                at += 1 + find(&line[at + 1..], quote)?;
                plain = false;
            }
            _ => plain = false,
        }
        at += 1;
    }
    Some(pair_of(line, start, equals?, line.len(), plain))
}

fn pair_of(line: &[u8], start: usize, equals: usize, end: usize, plain: bool) -> Pair {
    Pair {
        name: unquoted(line, Part { plain, ..part_of(start, equals) }),
        value: unquoted(line, Part { plain, ..part_of(equals + 1, end) }),
        end,
    }
}

/// A byte that is escaped in a JSON string is among these.
fn special_in_pair(text: &[u8]) -> Option<usize> {
    let in_lanes = |lanes| either(at_most(lanes, b'\''), either(equal(lanes, b'='), equal(lanes, b'\\')));
    first(text, in_lanes, |byte| byte <= b'\'' || byte == b'=' || byte == b'\\')
}

fn unquoted(line: &[u8], part: Part) -> Part {
    if part.plain {
        return part;
    }
    match bytes_of(line, b"", part) {
        [one @ (b'"' | b'\''), .., other] if one == other => part_of(part.start as usize + 1, part.end as usize - 1),
        _ => part,
    }
}

// ---- lines of containers

/// A line whose last part didn't come yet.
#[derive(Default)]
struct Parts {
    time: u64,
    text: Vec<u8>,
    count: u32,
    opened: u64,
}

/// The open lines of `stdout` and `stderr`.
struct Streams {
    open: [Parts; 2],
    opened: u64,
    resource: Vec<u8>,
}

const STREAMS: [&[u8]; 2] = [b"stdout", b"stderr"];
const MOST_PARTS: u32 = 1_000;

impl Streams {
    fn new(resource: Vec<u8>) -> Streams {
        Streams { open: Default::default(), opened: 0, resource }
    }

    fn write(&self, out: &mut Output, stream: &[u8], time: u64, text: &[u8]) {
        out.push(FRONT);
        out.made.extend_from_slice(&self.resource);
        out.push(RECORD);
        out.names();
        out.text(text_of!(, "log.iostream"), stream);
        out.body(text);
        out.time(time);
        out.end();
    }

    fn end(&mut self, out: &mut Output, stream: usize) {
        let parts = mem::take(&mut self.open[stream]);
        if parts.count > 0 {
            self.write(out, STREAMS[stream], parts.time, &parts.text);
        }
    }

    fn join(&mut self, out: &mut Output, line: CriLine) {
        if self.open[0].text.len() + self.open[1].text.len() + line.text.len() > LONGEST {
            let first = usize::from(self.open[1].opened < self.open[0].opened);
            self.end(out, first);
            self.end(out, 1 - first);
        }
        let parts = &mut self.open[line.stream];
        if parts.count == 0 {
            self.opened += 1;
            (parts.time, parts.opened) = (line.time, self.opened);
        }
        parts.text.extend_from_slice(line.text);
        parts.count += 1;
        if !line.partial || parts.count == MOST_PARTS {
            self.end(out, line.stream);
        }
    }
}

struct CriLine<'t> {
    time: u64,
    stream: usize,
    partial: bool,
    text: &'t [u8],
}

/// A `{` begins a line of Docker.
fn container(out: &mut Output, streams: &mut Streams, members: &mut Members, line: &[u8]) {
    if line[0] == b'{' {
        return match docker_line(line, members) {
            Some((time, stream, text)) => streams.write(out, stream, time, text),
            None => out.plain(line),
        };
    }
    match cri_line(line) {
        Some(said) if said.partial || streams.open[said.stream].count > 0 => streams.join(out, said),
        Some(said) => streams.write(out, STREAMS[said.stream], said.time, said.text),
        None => out.plain(line),
    }
}

fn cri_line(line: &[u8]) -> Option<CriLine<'_>> {
    let mut scan = Scan { rest: line };
    let time = rfc3339(scan.until(b' ')?, 9)?;
    let stream = match scan.until(b' ')? {
        b"stdout" => 0,
        b"stderr" => 1,
        _ => return None,
    };
    let tag = find(scan.rest, b' ').unwrap_or(scan.rest.len());
    let partial = match &scan.rest[..tag] {
        [b'P'] | [b'P', b':', ..] => true,
        [b'F'] | [b'F', b':', ..] => false,
        _ => return None,
    };
    let text = scan.rest.get(tag + 1..).unwrap_or_default();
    Some(CriLine { time, stream, partial, text })
}

/// The attributes of the pod to which the path of a log belongs.
fn pod_resource(path: &str, asked: bool) -> Vec<u8> {
    let mut made = Vec::new();
    if let Some([namespace, pod, uid, container, restarts]) = pod_names(path).filter(|_| asked) {
        let attributes = [
            (text_of!("k8s.container.name"), container),
            (text_of!(, "k8s.container.restart_count"), restarts),
            (text_of!(, "k8s.namespace.name"), namespace),
            (text_of!(, "k8s.pod.name"), pod),
            (text_of!(, "k8s.pod.uid"), uid),
        ];
        for (opening, value) in attributes {
            made.extend_from_slice(opening.as_bytes());
            append_escaped(&mut made, value.as_bytes());
            made.extend_from_slice(TEXT_END.as_bytes());
        }
    }
    made
}

/// Namespace, pod, uid, container and restarts, of `<namespace>_<pod>_<uid>/<container>/<restarts>.log`.
fn pod_names(path: &str) -> Option<[&str; 5]> {
    let mut names = path.rsplit('/');
    let (file, container, folder) = (names.next()?, names.next()?, names.next()?);
    let mut parts = folder.split('_');
    let (namespace, pod, uid) = (parts.next()?, parts.next()?, parts.next()?);
    Some([namespace, pod, uid, container, file.strip_suffix(".log")?])
}

/// The time, the stream and the text.
fn docker_line<'a>(line: &'a [u8], members: &'a mut Members) -> Option<(u64, &'a [u8], &'a [u8])> {
    json_members(line, members)?;
    let time = rfc3339(members.text_of(line, b"time")?, 9)?;
    Some((time, members.text_of(line, b"stream")?, members.text_of(line, b"log")?))
}

// ---- joined lines

/// The texts that were joined and wait for their last one.
#[derive(Default)]
struct Group {
    text: Vec<u8>,
    count: u32,
    opened: u64,
}

const MOST_ENTRIES: u32 = 1_000;
const MOST_GROUPS: usize = 1_000;

impl Group {
    fn add(&mut self, line: &[u8]) {
        if self.count > 0 {
            self.text.push(b'\n');
        }
        self.text.extend_from_slice(line);
        self.count += 1;
    }

    /// Whether the line that was joined ends it.
    fn is_done(&self, line: &[u8]) -> bool {
        line.ends_with(b";") || self.count == MOST_ENTRIES
    }
}

fn recombine(out: &mut Output, group: &mut Group, line: &[u8]) {
    if group.count > 0 && group.text.len() + 1 + line.len() > LONGEST {
        end_group(out, group);
    }
    group.add(line);
    if group.is_done(line) {
        end_group(out, group);
    }
}

fn end_group(out: &mut Output, group: &mut Group) {
    out.plain(&group.text);
    group.text.clear();
    group.count = 0;
}

#[derive(Default)]
struct Groups {
    open: HashMap<Vec<u8>, Group>,
    opened: u64,
    bytes: usize,
}

/// The source of a line is what stands in front of its first space.
fn recombine_sources(out: &mut Output, groups: &mut Groups, line: &[u8]) {
    let source = &line[..find(line, b' ').unwrap_or(line.len())];
    let has_group = groups.open.contains_key(source);
    let has_room = groups.bytes + usize::from(has_group) + line.len() <= LONGEST;
    if !has_room || !has_group && groups.open.len() == MOST_GROUPS {
        end_all(out, groups);
    }
    let Some(group) = groups.open.get_mut(source) else {
        return open_group(out, groups, source, line);
    };
    group.add(line);
    groups.bytes += 1 + line.len();
    if group.is_done(line) {
        groups.bytes -= group.text.len();
        write_group(out, source, &group.text);
        groups.open.remove(source);
    }
}

fn open_group(out: &mut Output, groups: &mut Groups, source: &[u8], line: &[u8]) {
    let mut group = Group { opened: groups.opened, ..Group::default() };
    group.add(line);
    if group.is_done(line) {
        return write_group(out, source, line);
    }
    groups.opened += 1;
    groups.bytes += line.len();
    groups.open.insert(source.to_vec(), group);
}

fn end_all(out: &mut Output, groups: &mut Groups) {
    let mut all: Vec<(Vec<u8>, Group)> = groups.open.drain().collect();
    all.sort_by_key(|(_, group)| group.opened);
    for (source, group) in all {
        write_group(out, &source, &group.text);
    }
    groups.bytes = 0;
}

fn write_group(out: &mut Output, source: &[u8], text: &[u8]) {
    out.begin();
    out.names();
    out.text(text_of!(, "source"), source);
    out.body(text);
    out.end();
}

/// An entry begins at each line that begins with a day as `2026-11-27T`; the last one waits.
fn multiline(out: &mut Output, block: &[u8]) -> usize {
    let mut start = 0;
    let mut at = 0;
    while let Some(length) = find(&block[at..], b'\n') {
        if at > start && begins_with_day(&block[at..]) {
            let entry = trim(&block[start..at]);
            if !entry.is_empty() {
                out.plain(entry);
            }
            start = at;
        }
        at += length + 1;
    }
    start
}

fn begins_with_day(line: &[u8]) -> bool {
    let is_day = |(byte, form): (&u8, &u8)| if *form == b'0' { byte.is_ascii_digit() } else { byte == form };
    line.len() >= 11 && line.iter().zip(b"0000-00-00T").all(is_day)
}
