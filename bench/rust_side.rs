// The Rust's side of the bench: the same functions as crates/test_bench and ours.c have, over the two Rust files, which stand unchanged in the folder `shared`
// that bench/run lays beside a copy of this file.
#![allow(dead_code)]
#[path = "shared/docs/src/src/models/rpki/rtr.rs"]
pub mod models_rtr;
#[path = "shared/docs/src/src/parser/rpki/rtr.rs"]
pub mod parser_rtr;
pub mod models {
    // what the two files ask of the rest of their crate
    #[derive(Debug, Clone, Copy, PartialEq, Eq, Hash, PartialOrd, Ord)]
    pub struct Asn(u32);
    impl From<u32> for Asn {
        #[inline]
        fn from(x: u32) -> Self {
            Asn(x)
        }
    }
    impl Asn {
        #[inline]
        pub fn to_u32(self) -> u32 {
            self.0
        }
    }
    pub mod rpki {
        pub use crate::models_rtr as rtr;
    }
}
pub mod parser {
    pub mod rpki {
        pub use crate::parser_rtr as rtr;
    }
}
use models::rpki::rtr::*;
use parser::rpki::rtr::{parse_rtr_pdu, read_rtr_pdu, RtrEncode};
use std::collections::BTreeSet;
use std::hint::black_box;
use std::io::Cursor;
use std::slice::{from_raw_parts, from_raw_parts_mut};
use std::sync::Mutex;

// ---- Sums: three times the sum and the next number

fn mix(sum: u64, x: u64) -> u64 {
    sum.wrapping_mul(3).wrapping_add(x)
}

// A payload: its length, its first and its last byte.
fn mix_ends(sum: u64, part: &[u8]) -> u64 {
    let sum = mix(sum, part.len() as u64);
    match (part.first(), part.last()) {
        (Some(a), Some(b)) => mix(mix(sum, *a as u64), *b as u64),
        _ => sum,
    }
}

fn mix_lengths(sum: u64, flags: u8, length: u8, max: u8) -> u64 {
    mix(mix(mix(sum, flags as u64), length as u64), max as u64)
}

fn mix_pdu(sum: u64, pdu: &RtrPdu) -> u64 {
    let sum = mix(mix(sum, pdu.pdu_type().to_u8() as u64), pdu.version().to_u8() as u64);
    match pdu {
        RtrPdu::SerialNotify(p) => mix(mix(sum, p.session_id as u64), p.serial_number as u64),
        RtrPdu::SerialQuery(p) => mix(mix(sum, p.session_id as u64), p.serial_number as u64),
        RtrPdu::ResetQuery(_) | RtrPdu::CacheReset(_) => sum,
        RtrPdu::CacheResponse(p) => mix(sum, p.session_id as u64),
        RtrPdu::IPv4Prefix(p) => {
            let sum = mix_lengths(sum, p.flags, p.prefix_length, p.max_length);
            mix(mix(sum, u32::from(p.prefix) as u64), p.asn.to_u32() as u64)
        }
        RtrPdu::IPv6Prefix(p) => {
            let mut sum = mix_lengths(sum, p.flags, p.prefix_length, p.max_length);
            let a = u128::from(p.prefix);
            for k in [96, 64, 32, 0] {
                sum = mix(sum, (a >> k) as u32 as u64);
            }
            mix(sum, p.asn.to_u32() as u64)
        }
        RtrPdu::EndOfData(p) => {
            let sum = mix(mix(sum, p.session_id as u64), p.serial_number as u64);
            let sum = mix(sum, p.refresh_interval_or_default() as u64);
            let sum = mix(sum, p.retry_interval_or_default() as u64);
            mix(sum, p.expire_interval_or_default() as u64)
        }
        RtrPdu::RouterKey(p) => {
            let sum = mix(mix(sum, p.flags as u64), p.asn.to_u32() as u64);
            mix_ends(mix_ends(sum, &p.subject_key_identifier), &p.subject_public_key_info)
        }
        RtrPdu::ErrorReport(p) => {
            let sum = mix(sum, p.error_code.to_u16() as u64);
            mix_ends(mix_ends(sum, &p.erroneous_pdu), p.error_text.as_bytes())
        }
    }
}

// ---- Reading, encoding, the stream

#[no_mangle]
pub unsafe extern "C" fn bench_read(bytes: *const u8, n: usize) -> u64 {
    let mut rest = from_raw_parts(bytes, n);
    let mut sum = 0;
    while !rest.is_empty() {
        match parse_rtr_pdu(rest) {
            Ok((pdu, n)) => {
                sum = mix_pdu(sum, &pdu);
                rest = &rest[n..];
            }
            Err(_) => break,
        }
    }
    sum
}

// What is read must be made, though only its length is used.
#[no_mangle]
pub unsafe extern "C" fn bench_pass(bytes: *const u8, n: usize) -> u64 {
    let mut rest = from_raw_parts(bytes, n);
    let mut sum = 0;
    while !rest.is_empty() {
        match parse_rtr_pdu(rest) {
            Ok((pdu, n)) => {
                black_box(&pdu);
                sum = mix(sum, n as u64);
                rest = &rest[n..];
            }
            Err(_) => break,
        }
    }
    sum
}

#[no_mangle]
pub unsafe extern "C" fn bench_recode(bytes: *const u8, n: usize, _out: *mut u8, _size: usize) -> u64 {
    let mut rest = from_raw_parts(bytes, n);
    let mut sum = 0;
    while !rest.is_empty() {
        match parse_rtr_pdu(rest) {
            Ok((pdu, n)) => {
                sum = mix_ends(sum, &black_box(&pdu).encode());
                rest = &rest[n..];
            }
            Err(_) => break,
        }
    }
    sum
}

// The reader is a cursor over the bytes in memory: it has no pieces. The sum has where each PDU ends, counted from the start of its piece.
#[no_mangle]
pub unsafe extern "C" fn bench_stream(_hold: *mut u8, _size: usize, bytes: *const u8, n: usize, piece: usize) -> u64 {
    let mut reader = Cursor::new(from_raw_parts(bytes, n));
    let mut sum = 0;
    while let Ok(pdu) = read_rtr_pdu(&mut reader) {
        black_box(&pdu);
        let mut end = reader.position();
        if end > piece as u64 {
            end = (end - 1) % piece as u64 + 1;
        }
        sum = mix(sum, end);
    }
    sum
}

// ---- A full load into a BTreeSet, ordered as a room is: family, address, prefix length, max length, AS number

#[derive(Clone, Copy, PartialEq, Eq, PartialOrd, Ord)]
struct Record {
    family: u8,
    address: [u32; 4],
    length: u8,
    max: u8,
    asn: u32,
}

impl Record {
    fn ipv4(p: &RtrIPv4Prefix) -> Record {
        Record { family: 4, address: [u32::from(p.prefix), 0, 0, 0], length: p.prefix_length, max: p.max_length, asn: p.asn.to_u32() }
    }

    fn ipv6(p: &RtrIPv6Prefix) -> Record {
        let a = u128::from(p.prefix);
        let address = [(a >> 96) as u32, (a >> 64) as u32, (a >> 32) as u32, a as u32];
        Record { family: 6, address, length: p.prefix_length, max: p.max_length, asn: p.asn.to_u32() }
    }
}

static LIVE: Mutex<BTreeSet<Record>> = Mutex::new(BTreeSet::new());

// A record that is in may not be announced, one that is not may not be withdrawn; at most 1,024.
fn change(table: &mut BTreeSet<Record>, announced: bool, record: Record) -> bool {
    if announced {
        table.len() < 1024 && table.insert(record)
    } else {
        table.remove(&record)
    }
}

// One PDU of a load: false ends it.
fn on_pdu(table: &mut BTreeSet<Record>, session: &mut Option<u16>, pdu: &RtrPdu) -> bool {
    if pdu.version() != RtrProtocolVersion::V1 {
        return false;
    }
    match pdu {
        RtrPdu::CacheResponse(p) => {
            let first = session.is_none();
            *session = Some(p.session_id);
            first
        }
        RtrPdu::IPv4Prefix(p) => session.is_some() && change(table, p.is_announcement(), Record::ipv4(p)),
        RtrPdu::IPv6Prefix(p) => session.is_some() && change(table, p.is_announcement(), Record::ipv6(p)),
        RtrPdu::RouterKey(_) => session.is_some(),
        RtrPdu::SerialNotify(_) => true,
        RtrPdu::EndOfData(p) => {
            if *session == Some(p.session_id) {
                *LIVE.lock().unwrap() = std::mem::take(table);
                *session = None;
            }
            false
        }
        _ => false,
    }
}

#[no_mangle]
pub unsafe extern "C" fn bench_load(
    _live: *mut u32,
    _l: usize,
    _working: *mut u32,
    _w: usize,
    _hold: *mut u8,
    _h: usize,
    bytes: *const u8,
    n: usize,
    _piece: usize,
) -> u64 {
    let mut reader = Cursor::new(from_raw_parts(bytes, n));
    let mut table = BTreeSet::new();
    let mut session = None;
    while let Ok(pdu) = read_rtr_pdu(&mut reader) {
        if !on_pdu(&mut table, &mut session, &pdu) {
            break;
        }
    }
    LIVE.lock().unwrap().len() as u64
}

// The same, with each PDU read out of the slice itself: no bytes are copied first. A router that has the whole answer in memory can do so.
#[no_mangle]
pub unsafe extern "C" fn bench_load_slice(
    _live: *mut u32,
    _l: usize,
    _working: *mut u32,
    _w: usize,
    _hold: *mut u8,
    _h: usize,
    bytes: *const u8,
    n: usize,
    _piece: usize,
) -> u64 {
    let mut rest = from_raw_parts(bytes, n);
    let mut table = BTreeSet::new();
    let mut session = None;
    while let Ok((pdu, n)) = parse_rtr_pdu(rest) {
        rest = &rest[n..];
        if !on_pdu(&mut table, &mut session, &pdu) {
            break;
        }
    }
    LIVE.lock().unwrap().len() as u64
}

// The live table as a room's numbers.
#[no_mangle]
pub unsafe extern "C" fn bench_table(live: *mut u32, n: usize) {
    let room = from_raw_parts_mut(live, n);
    room.fill(0);
    for (r, at) in LIVE.lock().unwrap().iter().zip(room.chunks_exact_mut(6)) {
        at[0] = r.family as u32 * 65536 + r.length as u32 * 256 + r.max as u32;
        at[1..5].copy_from_slice(&r.address);
        at[5] = r.asn;
    }
}
