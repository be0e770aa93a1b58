//! Bulk instructions on memories, of which the Rust crate has none: bounds first, then fuel, as tables have it.
//!
//! WebAssembly core specification, 4.4.7 (memory instructions).

use crate::library::{Fuel, FuelError, Memory, MemoryError};
use std::ops::Range;

/// Fills, copies and initializes memories. An error leaves the memory and the fuel as they were.
pub(crate) trait Bulk {
    /// Writes one byte to each of `len` places.
    fn fill(&mut self, dst: u64, value: u8, len: u64, fuel: Option<&mut Fuel>) -> Result<(), MemoryError>;
    /// Copies bytes within a memory; the ranges may overlap.
    fn copy_within(&mut self, dst: u64, src: u64, len: u64, fuel: Option<&mut Fuel>) -> Result<(), MemoryError>;
    /// Copies bytes from another memory.
    fn copy(
        dst_memory: &mut Self,
        dst: u64,
        src_memory: &Self,
        src: u64,
        len: u64,
        fuel: Option<&mut Fuel>,
    ) -> Result<(), MemoryError>;
    /// Copies bytes from a data segment.
    fn init(&mut self, bytes: &[u8], dst: u64, src: u32, len: u32, fuel: Option<&mut Fuel>) -> Result<(), MemoryError>;
}

impl Bulk for Memory {
    fn fill(&mut self, dst: u64, value: u8, len: u64, fuel: Option<&mut Fuel>) -> Result<(), MemoryError> {
        let dst = range(self.data(), dst, len)?;
        pay(fuel, len)?;
        self.data_mut()[dst].fill(value);
        Ok(())
    }

    fn copy_within(&mut self, dst: u64, src: u64, len: u64, fuel: Option<&mut Fuel>) -> Result<(), MemoryError> {
        let (dst, src) = (range(self.data(), dst, len)?, range(self.data(), src, len)?);
        pay(fuel, len)?;
        self.data_mut().copy_within(src, dst.start);
        Ok(())
    }

    fn copy(
        dst_memory: &mut Self,
        dst: u64,
        src_memory: &Self,
        src: u64,
        len: u64,
        fuel: Option<&mut Fuel>,
    ) -> Result<(), MemoryError> {
        let (dst, src) = (range(dst_memory.data(), dst, len)?, range(src_memory.data(), src, len)?);
        pay(fuel, len)?;
        dst_memory.data_mut()[dst].copy_from_slice(&src_memory.data()[src]);
        Ok(())
    }

    fn init(&mut self, bytes: &[u8], dst: u64, src: u32, len: u32, fuel: Option<&mut Fuel>) -> Result<(), MemoryError> {
        let (dst, src) = (range(self.data(), dst, len.into())?, range(bytes, src.into(), len.into())?);
        pay(fuel, len.into())?;
        self.data_mut()[dst].copy_from_slice(&bytes[src]);
        Ok(())
    }
}

fn range(bytes: &[u8], from: u64, len: u64) -> Result<Range<usize>, MemoryError> {
    match from.checked_add(len) {
        Some(to) if to <= bytes.len() as u64 => Ok(from as usize..to as usize),
        _ => Err(MemoryError::OutOfBoundsAccess),
    }
}

fn pay(fuel: Option<&mut Fuel>, bytes: u64) -> Result<(), MemoryError> {
    let Some(fuel) = fuel else { return Ok(()) };
    fuel.consume_fuel_if(|costs| costs.fuel_for_copying_values::<u8>(bytes)).map_err(|error| match error {
        FuelError::OutOfFuel { required_fuel } => MemoryError::OutOfFuel { required_fuel },
        FuelError::FuelMeteringDisabled => MemoryError::OutOfFuel { required_fuel: 0 },
    })
}
