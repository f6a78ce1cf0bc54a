//! Stands for `src/ext.rs`: numbers and slices over `io::Read` and `io::Write`, as the older reader and writer use
//! them.
//!
//! Numbers are little-endian, as Bitcoin's are. A count follows Bitcoin's public CompactSize rule; that the shortest
//! form is asked for is inferred from the error's name and words (`NonMinimalVarInt`, encode.rs:98), which only this
//! can give. It can't show that the original asks for it.

use crate::encode::Error;
use std::io;

macro_rules! read {
    ($($name:ident $number:ident),*) => {$(
        fn $name(&mut self) -> Result<$number, Error> {
            let mut bytes = [0; std::mem::size_of::<$number>()];
            self.read_slice(&mut bytes)?;
            Ok($number::from_le_bytes(bytes))
        }
    )*};
}

macro_rules! emit {
    ($($name:ident $number:ident),*) => {$(
        fn $name(&mut self, number: $number) -> Result<(), io::Error> {
            self.emit_slice(&number.to_le_bytes())
        }
    )*};
}

pub trait ReadExt: io::Read {
    fn read_slice(&mut self, bytes: &mut [u8]) -> Result<(), Error> {
        Ok(self.read_exact(bytes)?)
    }

    read!(read_u8 u8, read_u16 u16, read_u32 u32, read_u64 u64);

    fn read_varint(&mut self) -> Result<u64, Error> {
        let (number, least) = match self.read_u8()? {
            0xfd => (u64::from(self.read_u16()?), 0xfd),
            0xfe => (u64::from(self.read_u32()?), 0x1_0000),
            0xff => (self.read_u64()?, 0x1_0000_0000),
            first => (u64::from(first), 0),
        };
        if number < least {
            return Err(Error::NonMinimalVarInt);
        }
        Ok(number)
    }
}

impl<R: io::Read> ReadExt for R {}

pub trait WriteExt: io::Write {
    fn emit_slice(&mut self, bytes: &[u8]) -> Result<(), io::Error> {
        self.write_all(bytes)
    }

    emit!(emit_u8 u8, emit_u16 u16, emit_u32 u32, emit_u64 u64);

    fn emit_varint(&mut self, number: u64) -> Result<usize, io::Error> {
        match number {
            0..=0xfc => self.emit_u8(number as u8).map(|_| 1),
            0xfd..=0xffff => {
                self.emit_u8(0xfd)?;
                self.emit_u16(number as u16).map(|_| 3)
            }
            0x1_0000..=0xffff_ffff => {
                self.emit_u8(0xfe)?;
                self.emit_u32(number as u32).map(|_| 5)
            }
            _ => {
                self.emit_u8(0xff)?;
                self.emit_u64(number).map(|_| 9)
            }
        }
    }
}

impl<W: io::Write> WriteExt for W {}
