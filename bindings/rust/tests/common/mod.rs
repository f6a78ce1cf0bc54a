//! Document 01's loads, tables to read them into, and what a test compares.
#![allow(dead_code)] // each test file takes what it needs

use takzulit::{Head, Refusal, RefusalKind, Transaction, INPUT_WIDTH, ITEM_WIDTH, OUTPUT_WIDTH};

pub fn bytes(hex: &str) -> Vec<u8> {
    let digits: Vec<u8> = hex.bytes().filter(|b| !b.is_ascii_whitespace()).collect();
    digits.chunks(2).map(|d| u8::from_str_radix(std::str::from_utf8(d).unwrap(), 16).unwrap()).collect()
}

pub fn load_11() -> Vec<u8> {
    bytes("02000000 00 00 00 00000000")
}

pub fn load_96() -> Vec<u8> {
    let mut b = bytes("02000000 00 01");
    b.extend([0x11; 32]);
    b.extend(bytes("00000000 00 feffffff 01 01"));
    b.extend([0x22; 32]);
    b.extend(bytes("01 0000000000000190 00 00 00000000"));
    assert_eq!(b.len(), 96);
    b
}

pub fn load_103() -> Vec<u8> {
    let mut b = load_96();
    b[4] = 1;
    b.extend(bytes("00000100000000"));
    b
}

/// An input with an issuance of 2^32 + 7 and a null number of keys, pegin too.
pub fn issuance() -> Vec<u8> {
    let mut b = bytes("02000000 00 01");
    b.extend([0x33; 32]);
    b.extend(bytes("050000c0 00 ffffffff"));
    b.extend([0x44; 64]);
    b.extend(bytes("01 0000000100000007 00 00 00000000"));
    b
}

pub struct Room {
    pub inputs: Vec<u32>,
    pub outputs: Vec<u32>,
    pub items: Vec<u32>,
}

/// Tables full of a mark, so that what is left behind shows.
pub fn room(inputs: usize, outputs: usize, items: usize) -> Room {
    Room { inputs: vec![7; INPUT_WIDTH * inputs], outputs: vec![7; OUTPUT_WIDTH * outputs], items: vec![7; ITEM_WIDTH * items] }
}

impl Room {
    pub fn numbers(&self) -> impl Iterator<Item = &u32> {
        self.inputs.iter().chain(&self.outputs).chain(&self.items)
    }

    pub fn all_zero(&self) -> bool {
        self.numbers().all(|&n| n == 0)
    }
}

/// A refusal as 01 writes it: number at place.
pub fn told<T>(result: Result<T, Refusal>) -> Result<T, (usize, usize)> {
    result.map_err(|refusal| (refusal.number(), refusal.place()))
}

pub fn strict(b: &[u8], r: &mut Room) -> Result<Head, (usize, usize)> {
    told(Transaction::read_strict(b, &mut r.inputs, &mut r.outputs, &mut r.items).map(|t| t.head()))
}

/// The kind beside the number.
pub fn kind<T>(result: Result<T, Refusal>) -> Option<RefusalKind> {
    result.err().map(|refusal| refusal.kind())
}
