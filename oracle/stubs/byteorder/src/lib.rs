//! Signatures of the registry crate that `program.rs` needs to compile. Writing and reading program
//! files is not part of what is compared, so every call is unreachable.

use std::io::{Read, Result, Write};

pub struct LittleEndian;

fn stub<T>() -> T {
    unreachable!("stub of byteorder reached")
}

pub trait ReadBytesExt: Read {
    fn read_u8(&mut self) -> Result<u8> {
        stub()
    }
    fn read_u32<E>(&mut self) -> Result<u32> {
        stub()
    }
    fn read_u64<E>(&mut self) -> Result<u64> {
        stub()
    }
    fn read_i64<E>(&mut self) -> Result<i64> {
        stub()
    }
    fn read_f64<E>(&mut self) -> Result<f64> {
        stub()
    }
}

impl<R: Read + ?Sized> ReadBytesExt for R {}

pub trait WriteBytesExt: Write {
    fn write_u8(&mut self, _: u8) -> Result<()> {
        stub()
    }
    fn write_u32<E>(&mut self, _: u32) -> Result<()> {
        stub()
    }
    fn write_u64<E>(&mut self, _: u64) -> Result<()> {
        stub()
    }
    fn write_i64<E>(&mut self, _: i64) -> Result<()> {
        stub()
    }
    fn write_f64<E>(&mut self, _: f64) -> Result<()> {
        stub()
    }
}

impl<W: Write + ?Sized> WriteBytesExt for W {}
