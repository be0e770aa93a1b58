//! A machine that executes lists of calls on memories, tables, globals and registers, and what it stands on: memories,
//! tables and limiters that are generic where those of the root are `dyn`.
//!
//! A [`Machine`] owns memories, tables, element and data segments, globals, 16 registers and one [`Fuel`] meter. A [`Call`]
//! asks one thing of it, by indices, and a [`Reply`] says what came of it; [`run`], [`run_lending`] and [`run_reserving`] execute a list
//! of calls. What holds of all runs is proved of all lists of calls, whoever wrote them: [`laws`](crate::laws) has the laws.
//!
//! Names are those of the Rattle library. What the root has too is the same type, except [`Memory`], [`Table`],
//! [`ElementSegment`], [`ResourceLimiter`], [`ResourceLimiterRef`], [`ReadAs`] and [`WriteAs`], which are generic here,
//! [`IntoShiftAmount`], which has `None` for an amount of 0 here, and the indices of lanes, such as [`ImmLaneIdx32`], whose
//! number of lanes is a `usize` here. A [`Vec`] here is a list whose memory can be refused; a list of `std` converts into
//! one, and back.
//!
//! # Examples
//!
//! ```
//! use wasmi_core_proved::machine::{
//!     Call, Fuel, FuelCostsProvider, Machine, MemoryType, Quota, Reply, run_lending,
//! };
//!
//! // A machine with 2,000 units of fuel, whose memories and tables share a quota.
//! let mut fuel = Fuel::new(true, FuelCostsProvider::default());
//! fuel.set_fuel(2000)?;
//! let mut machine = Machine::new(fuel);
//! let mut quota = Quota::new(131_072, 100);
//!
//! let mut builder = MemoryType::builder();
//! builder.min(1);
//! let calls = [
//!     Call::NewMemory(builder.build()?),
//!     Call::GrowMemory { memory: 0, pages: 1 },
//!     Call::GrowMemory { memory: 0, pages: 1 },
//!     Call::GetFuel,
//! ];
//! let replies = run_lending(&mut machine, &calls, &mut quota)?;
//! assert!(matches!(replies[0], Reply::Made(0)));
//! assert!(matches!(replies[1], Reply::Number(1)));
//! // Two pages are all that the quota permits, and a refused growth costs nothing.
//! assert!(matches!(replies[2], Reply::Memory(_)));
//! assert!(matches!(replies[3], Reply::Number(976)));
//! assert_eq!(quota.held_bytes(), 131_072);
//! # Ok::<(), Box<dyn std::error::Error>>(())
//! ```

#[doc(no_inline)]
pub use crate::{
    CustomFuelCosts, ElementSegmentRef, F32, F64, Fuel, FuelCosts, FuelCostsProvider, FuelError,
    Global, GlobalError, GlobalType, IndexType, LimiterError, MemoryError, MemoryType,
    MemoryTypeBuilder, Mutability, RawRef, RawVal, RefType, ShiftAmount, TableError, TableType,
    TrapCode, Typed, TypedRawRef, TypedRawVal, V128, ValType, hint,
};

pub use crate::proved::lanes::{
    ImmLaneIdx, ImmLaneIdx2, ImmLaneIdx4, ImmLaneIdx8, ImmLaneIdx16, ImmLaneIdx32,
    OutOfBoundsLaneIdx,
};
pub use crate::proved::machine::{
    ByteList, Call, DataSegment, Machine, Replies, Reply, SlotCounts, TooManyCalls, run, run_into,
    run_into_lending, run_into_reserving, run_lending, run_reserving,
};
pub use crate::proved::meter::{
    Amounts, AnswerList, AnyLimiter, CappedLimiter, Holdings, Kind, Lender, LimiterAnswer,
    LimiterByKind, LimiterRef, NoLimits, Quota, Reserving, ResourceLimiter, ResourceLimiterRef,
    ValueSize,
};
pub use crate::proved::raw::{Number, ReadAs, ReadBack, WriteAs};
pub use crate::proved::store::{
    Buffer, ByteBuffer, ElementSegment, LinearMemory, Memory, Region, SegmentError, Table, growth,
};
pub use crate::proved::typed::IntoShiftAmount;
pub use crate::proved::types::InvalidTrapCode;
pub use crate::rattle::{
    Vec,
    alloc::{AllocError, AllocFailed},
};
#[cfg(any(doc, feature = "simd"))]
#[doc(no_inline)]
pub use crate::simd;
#[doc(no_inline)]
pub use crate::wasm;
