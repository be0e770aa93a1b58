//! A machine that runs lists of calls on metered WebAssembly memories and tables under a limiter.
mod calls {
    //! The calls on a machine, the replies to them, and the bytes that a reply has (`ByteList`). They
    //! are our own: upstream leaves running to the interpreter.

    use crate::proved::lanes::ImmLaneIdx32;
    use crate::proved::meter::{FuelError, MemoryError, TableError};
    use crate::proved::ops::{
        BinaryOp, ExtractOp, LoadLaneOp, LoadOp, MakeOp, ReplaceOp, ShiftOp, StoreLaneOp, StoreOp,
        TernaryOp, TestOp, UnaryOp, VectorLoadOp,
    };
    use crate::proved::raw::{RawRef, RawVal};
    use crate::proved::store::{MemoryType, SegmentError, TableType};
    use crate::proved::typed::{GlobalError, GlobalType, TypedRawRef, TypedRawVal};
    use crate::proved::types::{RefType, TrapCode};
    use crate::rattle::Vec;
    use core::fmt;
    use core::fmt::{Debug, Formatter, Write};

    /// One call on a machine. Memories, tables, element segments, data segments and globals go by their
    /// indices, which count from 0 for each kind and aren't used again: there is no such memory or table
    /// once it is dropped. Registers go by their numbers from 0 to 15; `dst` is the one that takes the
    /// result, and a refused call keeps it.
    ///
    /// Replies are listed in the order of the tests: the first that applies is the reply. `NoSuch`
    /// comes before all of them and isn't listed: there is no memory, table, element segment, data
    /// segment, global or register that the call names. `Memory` and `Table` carry the error that the
    /// method of `Memory` or `Table` returns.
    ///
    /// Of the fields, `memory`, `table`, `segment` and `global` are indices, `a`, `b`, `c` and `item` registers of operands; `offset`
    /// is added to `ptr`, or counts bytes itself; `len`, `pages` and `delta` are how many; `lanes` has the index of the byte for each lane.
    #[allow(missing_docs)]
    #[non_exhaustive]
    pub enum Call {
        /// Sets the fuel that is left: `Done`, or `Fuel` if metering is off.
        SetFuel(u64),
        /// Returns the fuel that is left: `Number`, or `Fuel` if metering is off.
        GetFuel,
        /// Makes a memory of zeros: `Made` with its index, `NoRoom` if there is no memory for its slot,
        /// or `Memory`.
        NewMemory(MemoryType),
        /// Makes a memory of zeros at the front of the machine's spare region: `Made` with its index,
        /// `NoRegion` if there is no spare region, `NoRoom` if there is no memory for its slot, or
        /// `Memory`. Any reply except `NoRegion` and `NoRoom` uses up the region.
        NewLentMemory(MemoryType),
        /// Grows a memory by `pages` pages: `Number` of the old size in pages, or `Memory`.
        GrowMemory { memory: usize, pages: u64 },
        /// Drops a memory: `Done`. Its bytes are given back; its size still counts in the total.
        DropMemory(usize),
        /// Reads `len` bytes of a memory: `Bytes`, `Memory` if they end past it, or then `NoRoom` if
        /// there is no memory for the reply.
        Read {
            memory: usize,
            offset: usize,
            len: usize,
        },
        /// Writes bytes to a memory from an offset on: `Done`, or `Memory` if they would end past it.
        Write {
            memory: usize,
            offset: usize,
            bytes: Vec<u8>,
        },
        /// Loads a number from a memory at `ptr + offset`: `Value`, or `Trap` if it ends past it.
        Load {
            op: LoadOp,
            memory: usize,
            ptr: u64,
            offset: u64,
        },
        /// Stores a number to a memory at `ptr + offset`: `Done`, or `Trap` if it would end past it.
        Store {
            op: StoreOp,
            memory: usize,
            ptr: u64,
            offset: u64,
            value: RawVal,
        },
        /// Fills `len` bytes of a memory with a byte, from `dst` on: `Done`, or `Memory` with
        /// `OutOfBoundsAccess` if they end past it, then `OutOfFuel`, which is tested also for no byte.
        FillMemory {
            memory: usize,
            dst: u64,
            value: u8,
            len: u64,
        },
        /// Copies `len` bytes of a memory, from `src` on, over those of another or of itself from `dst`
        /// on: `Done`, or `Memory` with `OutOfBoundsAccess` if a range ends past its memory, then
        /// `OutOfFuel`, which is tested also for no byte. If ranges overlap, the old bytes are copied.
        CopyMemory {
            dst_memory: usize,
            dst: u64,
            src_memory: usize,
            src: u64,
            len: u64,
        },
        /// Copies `len` bytes of a data segment, from `src` on, over those of a memory from `dst` on:
        /// `Done`, or `Memory` with `OutOfBoundsAccess` if a range ends past the segment or the memory,
        /// then `OutOfFuel`, which is tested also for no byte. A segment that was dropped has no bytes.
        InitMemory {
            memory: usize,
            segment: usize,
            dst: u64,
            src: u32,
            len: u32,
        },
        /// Makes a table of one reference: `Made` with its index, `NoRoom` if there is no memory for
        /// its slot, or `Table`.
        NewTable { ty: TableType, init: TypedRawRef },
        /// Grows a table by `delta` elements: `Number` of the old size in elements, or `Table`.
        GrowTable {
            table: usize,
            delta: u64,
            init: TypedRawRef,
        },
        /// Drops a table: `Done`. Its elements are given back; its size still counts in the total.
        DropTable(usize),
        /// Returns the element of a table, if there is one: `Reference`.
        GetElement { table: usize, index: u64 },
        /// Sets an element of a table: `Done`, or `Table` with `ElementTypeMismatch` if the reference
        /// isn't of the type of the elements, then `SetOutOfBounds` if the index is past the end.
        SetElement {
            table: usize,
            index: u64,
            value: TypedRawRef,
        },
        /// Copies `len` items of an element segment, from `src` on, over the elements of a table from
        /// `dst` on: `Done`, or `Table` with `ElementTypeMismatch` if their types differ, then
        /// `InitOutOfBounds` if a range ends past the segment or the table, then `OutOfFuel`; copying
        /// no items costs no fuel.
        InitTable {
            table: usize,
            segment: usize,
            dst: u64,
            src: u32,
            len: u32,
        },
        /// Copies `len` elements of a table, from `src` on, over those of another or of itself from
        /// `dst` on: `Done`, or `Table` with `ElementTypeMismatch` if their types differ, then
        /// `CopyOutOfBounds` if a range ends past its table, then `OutOfFuel`, which is tested also for
        /// no element. If ranges of one table overlap, the old elements are copied.
        CopyTable {
            dst_table: usize,
            dst: u64,
            src_table: usize,
            src: u64,
            len: u64,
        },
        /// Fills `len` elements of a table with a reference, from `dst` on: `Done`, or `Table` with
        /// `ElementTypeMismatch` if the reference isn't of the elements' type, then `FillOutOfBounds`
        /// if they end past the table, then `OutOfFuel`, which is tested also for no element.
        FillTable {
            table: usize,
            dst: u64,
            value: TypedRawRef,
            len: u64,
        },
        /// Makes an element segment: `Made` with its index, `NoRoom` if there is no memory for its
        /// slot, or `Segment`.
        NewSegment { ty: RefType, items: Vec<RawRef> },
        /// Drops the items of an element segment, which stays: `Done`.
        DropItems(usize),
        /// Makes a data segment of bytes: `Made` with its index, or `NoRoom` if there is no memory for
        /// its slot or for a copy of the bytes.
        NewData(Vec<u8>),
        /// Drops the bytes of a data segment, which stays: `Done`.
        DropData(usize),
        /// Makes a global: `Made` with its index, or `NoRoom` if there is no memory for its slot.
        NewGlobal { value: RawVal, ty: GlobalType },
        /// Sets a global: `Done`, or `Global` with `ImmutableWrite` if it is a constant, then
        /// `TypeMismatch` if the value isn't of its type.
        SetGlobal { global: usize, value: TypedRawVal },
        /// Returns the value of a global: `Value`.
        GetGlobal(usize),
        /// Sets a register: `Done`.
        SetRegister { dst: u8, value: RawVal },
        /// Returns the value of a register: `Value`.
        GetRegister(u8),
        /// Makes a vector of the item in register `a`: `Done`.
        Make { op: MakeOp, dst: u8, a: u8 },
        /// Executes an instruction of one vector: `Done`.
        Unary { op: UnaryOp, dst: u8, a: u8 },
        /// Executes an instruction of two vectors: `Done`.
        Binary { op: BinaryOp, dst: u8, a: u8, b: u8 },
        /// Executes an instruction of three vectors: `Done`.
        Ternary {
            op: TernaryOp,
            dst: u8,
            a: u8,
            b: u8,
            c: u8,
        },
        /// Shifts the lanes of a vector by `amount` modulo their width: `Done`.
        Shift {
            op: ShiftOp,
            dst: u8,
            a: u8,
            amount: u32,
        },
        /// Tests a vector, or takes its mask: `Value`.
        Test { op: TestOp, a: u8 },
        /// Takes a lane from a vector: `Value`.
        Extract { op: ExtractOp, a: u8 },
        /// Puts the item in register `item` into a lane of a vector: `Done`.
        Replace {
            op: ReplaceOp,
            dst: u8,
            a: u8,
            item: u8,
        },
        /// Picks bytes of two vectors: `Done`.
        Shuffle {
            dst: u8,
            a: u8,
            b: u8,
            lanes: [ImmLaneIdx32; 16],
        },
        /// Loads a vector from a memory at `ptr + offset`: `Done`, or `Trap` if it ends past it.
        VectorLoad {
            op: VectorLoadOp,
            dst: u8,
            memory: usize,
            ptr: u64,
            offset: u64,
        },
        /// Loads a lane from a memory at `ptr + offset`: `Done`, or `Trap` if it ends past it.
        LoadLane {
            op: LoadLaneOp,
            dst: u8,
            a: u8,
            memory: usize,
            ptr: u64,
            offset: u64,
        },
        /// Stores a vector to a memory at `ptr + offset`: `Done`, or `Trap` if it would end past it.
        VectorStore {
            a: u8,
            memory: usize,
            ptr: u64,
            offset: u64,
        },
        /// Stores a lane to a memory at `ptr + offset`: `Done`, or `Trap` if it would end past it.
        StoreLane {
            op: StoreLaneOp,
            a: u8,
            memory: usize,
            ptr: u64,
            offset: u64,
        },
    }

    /// The name of a call's variant, of which there are these.
    macro_rules! name_of {
    ($call:ident: $($variant:ident)*) => {
        match $call {
            $(Call::$variant { .. } => stringify!($variant),)*
        }
    };
}

    /// Shows the name of the call, without its operands.
    impl Debug for Call {
        #[inline]
        fn fmt(&self, f: &mut Formatter<'_>) -> fmt::Result {
            f.write_str(name_of!(self:
            SetFuel GetFuel NewMemory NewLentMemory GrowMemory DropMemory Read Write Load Store
            FillMemory CopyMemory InitMemory NewTable GrowTable DropTable GetElement SetElement
            InitTable CopyTable FillTable NewSegment DropItems NewData DropData NewGlobal SetGlobal
            GetGlobal SetRegister GetRegister Make Unary Binary Ternary Shift Test Extract Replace
            Shuffle VectorLoad LoadLane VectorStore StoreLane
        ))
        }
    }

    impl Call {
        /// Whether it is `SetFuel`. A list without one can be billed: see
        /// [`laws::charges_are_spent`](crate::proved::machine::laws::charges_are_spent).
        ///
        /// # Contract
        ///
        /// ```text
        /// ensures: MatchBool result (SetsNoFuel self.now → ⊥) (SetsNoFuel self.now)
        /// ```
        ///
        /// Definitions: [`SetsNoFuel`](crate::specs::machine::AccountSpecs#SetsNoFuel).
        #[must_use]
        #[inline]
        pub fn sets_fuel(&self) -> bool {
            matches!(self, Call::SetFuel(_))
        }

        /// Does nothing: its contract says that the type which a call names is valid.
        ///
        /// # Contract
        ///
        /// ```text
        /// ensures: IsValidCall self.now
        /// ```
        ///
        /// Definitions: [`IsValidCall`](crate::specs::machine::StateSpecs#IsValidCall).
        #[inline(always)]
        pub(crate) fn tell_valid(&self) {
            match self {
                Call::NewMemory(ty) | Call::NewLentMemory(ty) => {
                    let _minimum = ty.minimum();
                }
                Call::NewTable { ty, .. } => {
                    let _minimum = ty.minimum();
                }
                _ => {}
            }
        }
    }

    /// The reply to one call.
    #[derive(Debug, PartialEq, Eq)]
    #[non_exhaustive]
    pub enum Reply {
        /// The call is done, and has no other result.
        Done,
        /// The index of the memory, table, element segment, data segment or global that was made.
        Made(usize),
        /// The value of a global or a register, or what `Load`, `Test` or `Extract` gives (low word).
        Value(RawVal),
        /// The old size in pages (`GrowMemory`) or elements (`GrowTable`), or the fuel left.
        Number(u64),
        /// The bytes that `Read` asked for.
        Bytes(ByteList),
        /// An element of a table, or none past its end.
        Reference(Option<TypedRawRef>),
        /// Why a call on a memory was refused.
        Memory(MemoryError),
        /// Why a call on a table was refused.
        Table(TableError),
        /// Why a call on the meter was refused.
        Fuel(FuelError),
        /// Why a call on a global was refused.
        Global(GlobalError),
        /// Why an element segment could not be made.
        Segment(SegmentError),
        /// Why a load or a store trapped: `MemoryOutOfBounds`.
        Trap(TrapCode),
        /// There is no such memory, table, element segment, data segment, global or register. It is
        /// tested first; nothing was asked or changed.
        NoSuch,
        /// There is no spare region; nothing was asked or changed.
        NoRegion,
        /// Memory for a slot, a segment's bytes or the reply was refused; nothing was asked or changed.
        NoRoom,
    }

    /// The bytes of a reply, with a memory of their own: what is read stays as it was when the memory
    /// is written, grown or dropped. Two lists are equal if their bytes are.
    ///
    /// # Model
    ///
    /// ```text
    /// Value = List ℕ
    /// view = λ b. b.bytes.items
    /// ```
    #[derive(Debug)]
    pub struct ByteList {
        bytes: Vec<u8>,
    }

    /// # Contract
    ///
    /// ```text
    /// from_gives = λ bytes list. list ≡ bytes.items
    /// ```
    impl From<Vec<u8>> for ByteList {
        #[inline]
        fn from(bytes: Vec<u8>) -> Self {
            ByteList { bytes }
        }
    }

    impl ByteList {
        /// The bytes.
        ///
        /// # Contract
        ///
        /// ```text
        /// ensures: result.now ≡ self.now
        /// ```
        #[must_use]
        #[inline]
        pub fn as_slice(&self) -> &[u8] {
            self.bytes.as_slice()
        }
    }

    /// # Contract
    ///
    /// ```text
    /// eq = pointwise nat_eq
    /// ```
    impl PartialEq for ByteList {
        #[inline]
        fn eq(&self, other: &Self) -> bool {
            self.as_slice() == other.as_slice()
        }
    }

    impl Eq for ByteList {}
}
mod data {
    //! Data segments, and the copies of bytes that they and replies are made of.

    use crate::rattle::alloc::AllocError;
    use crate::rattle::{SliceExt, Vec};

    /// A data segment: the bytes that `Call::InitMemory` copies to a memory. Once dropped it has none.
    /// Core specification, data instances.
    ///
    /// # Model
    ///
    /// ```text
    /// Value = List ℕ
    /// view = λ segment. segment.bytes.items
    /// invariant = λ segment.
    ///     length segment.bytes.items ≡ 0 → vec_capacity segment.bytes ≡ 0
    /// ```
    pub struct DataSegment {
        bytes: Vec<u8>,
    }

    impl DataSegment {
        /// The segment of a copy of the bytes.
        ///
        /// # Contract
        ///
        /// ```text
        /// ensures made: IfOk result (λ segment. segment ≡ bytes.now)
        /// ensures refused: OnErr result (0 < length bytes.now)
        /// ```
        #[inline]
        pub(crate) fn new(bytes: &[u8]) -> Result<Self, AllocError> {
            let copy = copy_of_bytes(bytes)?;
            Ok(DataSegment { bytes: copy })
        }

        /// The bytes.
        ///
        /// # Contract
        ///
        /// ```text
        /// ensures: result.now ≡ self.now
        /// ```
        #[must_use]
        #[inline]
        pub fn bytes(&self) -> &[u8] {
            self.bytes.as_slice()
        }

        /// How many bytes it has.
        ///
        /// # Contract
        ///
        /// ```text
        /// ensures: result ≡ length self.now
        /// ```
        #[must_use]
        #[inline]
        pub fn size(&self) -> usize {
            self.bytes.len()
        }

        /// Drops the bytes, and gives their memory back. Core specification, data.drop.
        ///
        /// # Contract
        ///
        /// ```text
        /// ensures: self.new ≡ []
        /// ```
        #[inline]
        pub(crate) fn drop_bytes(&mut self) {
            self.bytes = Vec::new();
        }
    }

    /// A copy of bytes. That of no byte takes no memory.
    ///
    /// # Contract
    ///
    /// ```text
    /// ensures copied: IfOk result (λ copy. copy.items ≡ bytes.now)
    /// ensures empty: IfOk result (λ copy. length copy.items ≡ 0 → vec_capacity copy ≡ 0)
    /// ensures refused: OnErr result (0 < length bytes.now)
    /// ```
    #[inline]
    pub(crate) fn copy_of_bytes(bytes: &[u8]) -> Result<Vec<u8>, AllocError> {
        if bytes.is_empty() {
            return Ok(Vec::new());
        }
        bytes.try_to_vec()
    }
}
#[cfg(any(doc, test))]
pub mod laws {
    //! What holds of all turns and runs, and is continued in `wasmi_laws`: runs in a row, what refusals
    //! keep, permissions, charges, validity, quotas and totals, lent regions, and runs that are equal.
    //! These functions do nothing: each states a law as its contract, for any limiter, of which a run
    //! may also have none. Own: upstream states no laws.

    use crate::proved::machine::machine::Machine;
    use crate::proved::meter::{Reserving, ResourceLimiter};

    /// Two runs in a row are one: of both lists of turns, and of both lists of calls with their
    /// replies. So what holds of each run holds of all that a machine is ever asked.
    ///
    /// # Contract
    ///
    /// ```text
    /// ensures turns: RunsJoin (optional_rules L.rules)
    /// ensures calls: RunsOfCallsJoin (optional_rules L.rules)
    /// ```
    ///
    /// Definitions: [`RunsJoin`](crate::specs::machine::LawsSpecs#RunsJoin), [`optional_rules`](crate::specs::meter::LimiterSpecs#optional_rules), [`RunsOfCallsJoin`](crate::specs::machine::LawsSpecs#RunsOfCallsJoin).
    ///
    /// `L` is the type of the limiter, a [`ResourceLimiter`](crate::machine::ResourceLimiter#contract).
    #[inline]
    pub fn runs_join<L: ResourceLimiter>() {}

    /// A turn that is refused keeps the contents, as does a run of such turns. It keeps the spare
    /// region, unless a memory was to be made in it and there was a slot for it. It keeps the meter,
    /// unless it is a growth that lacks memory once it is permitted and paid (`FailsAfterCharge`): then
    /// the limiter was notified, the reply says so unless the limiter answers by another error, and the
    /// meter has exactly the price less.
    ///
    /// # Contract
    ///
    /// ```text
    /// ensures turn: RefusalsKeepContents (optional_rules L.rules)
    /// ensures run: RefusalsInRunsKeepContents (optional_rules L.rules)
    /// ensures all_refused: RefusedRunsKeepContents (optional_rules L.rules)
    /// ```
    ///
    /// Definitions: [`RefusalsKeepContents`](crate::specs::machine::LawsSpecs#RefusalsKeepContents), [`optional_rules`](crate::specs::meter::LimiterSpecs#optional_rules), [`RefusalsInRunsKeepContents`](crate::specs::machine::LawsSpecs#RefusalsInRunsKeepContents), [`RefusedRunsKeepContents`](crate::specs::machine::LawsSpecs#RefusedRunsKeepContents).
    ///
    /// `L` is the type of the limiter, a [`ResourceLimiter`](crate::machine::ResourceLimiter#contract).
    #[inline]
    pub fn refusals_keep_contents<L: ResourceLimiter>() {}

    /// In each turn the limiter is asked the question of the call (`question_of`) if it has one, unless
    /// there is no room for the slot of what it makes, and nothing else. A permission is followed by
    /// exactly the growth that was asked for, or by exactly one notice, which the reply reports, and a
    /// denial by neither.
    ///
    /// A growth is charged its price if it succeeds or fails for lack of memory, and a write over a
    /// range of a memory or a table its bytes or elements. Nothing else is charged. The charge was left
    /// in the meter, and is taken from it. Without a limiter each question is permitted.
    ///
    /// # Contract
    ///
    /// ```text
    /// ensures turn: GrowsAsPermitted (optional_rules L.rules)
    /// ensures run: RunsGrowAsPermitted (optional_rules L.rules)
    /// ```
    ///
    /// Definitions: [`GrowsAsPermitted`](crate::specs::machine::LawsSpecs#GrowsAsPermitted), [`optional_rules`](crate::specs::meter::LimiterSpecs#optional_rules), [`RunsGrowAsPermitted`](crate::specs::machine::LawsSpecs#RunsGrowAsPermitted).
    ///
    /// `L` is the type of the limiter, a [`ResourceLimiter`](crate::machine::ResourceLimiter#contract).
    #[inline]
    pub fn growths_are_permitted<L: ResourceLimiter>() {}

    /// While metering is on, the fuel that is left and the charges since it was set last, or since the
    /// start of the run, are what was set then, or was left at the start.
    ///
    /// # Contract
    ///
    /// ```text
    /// ensures: FuelBalances (optional_rules L.rules)
    /// ```
    ///
    /// Definitions: [`FuelBalances`](crate::specs::machine::LawsSpecs#FuelBalances), [`optional_rules`](crate::specs::meter::LimiterSpecs#optional_rules).
    ///
    /// `L` is the type of the limiter, a [`ResourceLimiter`](crate::machine::ResourceLimiter#contract).
    #[inline]
    pub fn fuel_balances<L: ResourceLimiter>() {}

    /// While metering is on, calls that don't set the fuel were charged what was left before and isn't
    /// left after. At a rate above 0 that bounds the bytes they wrote by growing and copying: `IsSpent`
    /// gives each turn that writes less than one fuel's worth of bytes beyond what its charge pays for.
    ///
    /// # Contract
    ///
    /// ```text
    /// ensures: ChargesAreSpent (optional_rules L.rules)
    /// ```
    ///
    /// Definitions: [`ChargesAreSpent`](crate::specs::machine::LawsSpecs#ChargesAreSpent), [`optional_rules`](crate::specs::meter::LimiterSpecs#optional_rules).
    ///
    /// `L` is the type of the limiter, a [`ResourceLimiter`](crate::machine::ResourceLimiter#contract).
    #[inline]
    pub fn charges_are_spent<L: ResourceLimiter>() {}

    /// Every machine's state is valid: its memories and tables have valid types and as many whole pages
    /// and elements as these allow, its element segments are no longer than 2^32 - 1 items, and it has
    /// 16 registers.
    ///
    /// # Contract
    ///
    /// ```text
    /// ensures: IsValid machine.now
    /// ```
    ///
    /// Definitions: [`IsValid`](crate::specs::machine::StateSpecs#IsValid).
    #[inline]
    pub fn states_are_valid(machine: &Machine) {
        machine.tell_valid();
    }

    /// A run of calls whose types are valid, as those of a `Call` in code are, keeps a state valid.
    ///
    /// # Contract
    ///
    /// ```text
    /// ensures: RunsKeepValidity (optional_rules L.rules)
    /// ```
    ///
    /// Definitions: [`RunsKeepValidity`](crate::specs::machine::LawsSpecs#RunsKeepValidity), [`optional_rules`](crate::specs::meter::LimiterSpecs#optional_rules).
    ///
    /// `L` is the type of the limiter, a [`ResourceLimiter`](crate::machine::ResourceLimiter#contract).
    #[inline]
    pub fn runs_keep_validity<L: ResourceLimiter>() {}

    /// If no reply of a run reports a denial, the limiter permitted each question. A growth out of
    /// bounds counts as a denial here, since both have the same error.
    ///
    /// # Contract
    ///
    /// ```text
    /// ensures: RepliesPermit (optional_rules L.rules)
    /// ```
    ///
    /// Definitions: [`RepliesPermit`](crate::specs::machine::LawsSpecs#RepliesPermit), [`optional_rules`](crate::specs::meter::LimiterSpecs#optional_rules).
    ///
    /// `L` is the type of the limiter, a [`ResourceLimiter`](crate::machine::ResourceLimiter#contract).
    #[inline]
    pub fn replies_permit<L: ResourceLimiter>() {}

    /// A quota that holds at most its caps before a run does so after it, and has the same caps.
    ///
    /// # Contract
    ///
    /// ```text
    /// ensures: QuotasStayWithin
    /// ```
    ///
    /// Definitions: [`QuotasStayWithin`](crate::specs::machine::LawsSpecs#QuotasStayWithin).
    #[inline]
    pub fn quotas_stay_within() {}

    /// A run under a limiter whose kind was chosen while the program ran is one by the rules of its
    /// kind, and the kind stays. So are a run of calls with its replies, and a reply to one call.
    ///
    /// # Contract
    ///
    /// ```text
    /// ensures turns: RunsKeepKind
    /// ensures calls: RunsOfCallsKeepKind
    /// ensures reply: RepliesKeepKind
    /// ```
    ///
    /// Definitions: [`RunsKeepKind`](crate::specs::machine::DeterminismSpecs#RunsKeepKind), [`RunsOfCallsKeepKind`](crate::specs::machine::DeterminismSpecs#RunsOfCallsKeepKind), [`RepliesKeepKind`](crate::specs::machine::DeterminismSpecs#RepliesKeepKind).
    #[inline]
    pub fn kinds_stay() {}

    /// A reserving limiter that holds a machine's totals before a run holds them after it.
    ///
    /// # Contract
    ///
    /// ```text
    /// ensures: HoldsTotalsAlways L.rules L.Reserving.holdings
    /// ```
    ///
    /// Definitions: [`HoldsTotalsAlways`](crate::specs::machine::LawsSpecs#HoldsTotalsAlways).
    ///
    /// `L` is the type of the limiter, a [`Reserving`](crate::machine::Reserving#contract).
    #[inline]
    pub fn totals_are_held<L: Reserving>() {}

    /// While metering is on at a rate above 0, the bytes that a run writes by growing and copying are
    /// bounded by the fuel that is charged for them, and so by the fuel that was left at its start and
    /// all amounts that were set; `IsBounded` says what each turn has beyond that, as `IsSpent` does.
    ///
    /// # Contract
    ///
    /// ```text
    /// ensures: FuelBoundsWriting (optional_rules L.rules)
    /// ```
    ///
    /// Definitions: [`FuelBoundsWriting`](crate::specs::machine::LawsSpecs#FuelBoundsWriting), [`optional_rules`](crate::specs::meter::LimiterSpecs#optional_rules).
    ///
    /// `L` is the type of the limiter, a [`ResourceLimiter`](crate::machine::ResourceLimiter#contract).
    #[inline]
    pub fn fuel_bounds_writing<L: ResourceLimiter>() {}

    /// A run that makes no memory in a lent region, and grows no memory past the region that it lies
    /// in unless that is refused before the limiter is asked (`FitsRegions`), is a run of the same
    /// machine with memories of their own: the same replies, charges, written bytes and limiter.
    ///
    /// # Contract
    ///
    /// ```text
    /// ensures: LentRunsAreOwned (optional_rules L.rules)
    /// ```
    ///
    /// Definitions: [`LentRunsAreOwned`](crate::specs::machine::LawsSpecs#LentRunsAreOwned), [`optional_rules`](crate::specs::meter::LimiterSpecs#optional_rules).
    ///
    /// `L` is the type of the limiter, a [`ResourceLimiter`](crate::machine::ResourceLimiter#contract).
    #[inline]
    pub fn lent_runs_are_owned<L: ResourceLimiter>() {}

    /// A memory that is made in a spare region of at least its minimum is made as one with memory of
    /// its own, except for its room and the spare region.
    ///
    /// # Contract
    ///
    /// ```text
    /// ensures: LentCreationsAreOwned (optional_rules L.rules)
    /// ```
    ///
    /// Definitions: [`LentCreationsAreOwned`](crate::specs::machine::LawsSpecs#LentCreationsAreOwned), [`optional_rules`](crate::specs::meter::LimiterSpecs#optional_rules).
    ///
    /// `L` is the type of the limiter, a [`ResourceLimiter`](crate::machine::ResourceLimiter#contract).
    #[inline]
    pub fn lent_creations_are_owned<L: ResourceLimiter>() {}

    /// A growth of a lent memory for which its type and its region have room, and which can be paid
    /// for, takes no memory: the limiter alone can refuse it.
    ///
    /// # Contract
    ///
    /// ```text
    /// ensures: LentGrowthsSucceed (optional_rules L.rules)
    /// ```
    ///
    /// Definitions: [`LentGrowthsSucceed`](crate::specs::machine::LawsSpecs#LentGrowthsSucceed), [`optional_rules`](crate::specs::meter::LimiterSpecs#optional_rules).
    ///
    /// `L` is the type of the limiter, a [`ResourceLimiter`](crate::machine::ResourceLimiter#contract).
    #[inline]
    pub fn lent_growths_succeed<L: ResourceLimiter>() {}

    /// If the limiter is deterministic, two runs of one list of calls from one machine and one limiter
    /// are equal, as long as neither is out of memory: no reply and no notice says so.
    ///
    /// # Contract
    ///
    /// ```text
    /// ensures: RunsAreOne L.rules
    /// ```
    ///
    /// Definitions: [`RunsAreOne`](crate::specs::machine::LawsSpecs#RunsAreOne).
    ///
    /// `L` is the type of the limiter, a [`ResourceLimiter`](crate::machine::ResourceLimiter#contract).
    #[inline]
    pub fn runs_are_one<L: ResourceLimiter>() {}

    /// If the limiter accepts each notice, a run in which no reply says out of memory is one in which
    /// no notice does either, as `runs_are_one` requires.
    ///
    /// # Contract
    ///
    /// ```text
    /// ensures: RepliesTell L.rules
    /// ```
    ///
    /// Definitions: [`RepliesTell`](crate::specs::machine::LawsSpecs#RepliesTell).
    ///
    /// `L` is the type of the limiter, a [`ResourceLimiter`](crate::machine::ResourceLimiter#contract).
    #[inline]
    pub fn replies_tell<L: ResourceLimiter>() {}

    /// If the limiter is deterministic and accepts each notice, two runs of one list of calls from one
    /// machine and one limiter have the same replies and lead to the same machine and limiter, as long
    /// as no reply says out of memory. Its premises are what `run` promises and what a caller sees.
    ///
    /// # Contract
    ///
    /// ```text
    /// ensures: RepliesAreOne L.rules
    /// ```
    ///
    /// Definitions: [`RepliesAreOne`](crate::specs::machine::LawsSpecs#RepliesAreOne).
    ///
    /// `L` is the type of the limiter, a [`ResourceLimiter`](crate::machine::ResourceLimiter#contract).
    #[inline]
    pub fn replies_are_one<L: ResourceLimiter>() {}

    /// The limiter that permits everything and a quota accept each notice.
    ///
    /// # Contract
    ///
    /// ```text
    /// ensures no_limits: AcceptsNotices (unlimited_rules {S = NoLimits})
    /// ensures quota: AcceptsNotices quota_rules
    /// ```
    ///
    /// Definitions: [`AcceptsNotices`](crate::specs::machine::DeterminismSpecs#AcceptsNotices), [`unlimited_rules`](crate::specs::meter::LimiterSpecs#unlimited_rules), [`quota_rules`](crate::specs::meter::CappedSpecs#quota_rules).
    #[inline]
    pub fn limiters_accept_notices() {}

    /// The limiter that permits everything and a quota are deterministic.
    ///
    /// # Contract
    ///
    /// ```text
    /// ensures no_limits: IsDeterministic (unlimited_rules {S = NoLimits})
    /// ensures quota: IsDeterministic quota_rules
    /// ```
    ///
    /// Definitions: [`IsDeterministic`](crate::specs::machine::DeterminismSpecs#IsDeterministic), [`unlimited_rules`](crate::specs::meter::LimiterSpecs#unlimited_rules), [`quota_rules`](crate::specs::meter::CappedSpecs#quota_rules).
    #[inline]
    pub fn limiters_leave_no_choice() {}
}
mod machine {
    //! The machine: how one is made, what a host reads of it, and what changes it without a call. Calls
    //! and runs of calls are in `running.rt`.

    use crate::proved::machine::calls::Reply;
    use crate::proved::machine::data::DataSegment;
    use crate::proved::machine::memories::Stored;
    use crate::proved::machine::registers::Registers;
    use crate::proved::machine::slots::{ReservedList, SlotCounts, Slots};
    use crate::proved::machine::store::MachineStore;
    use crate::proved::meter::{Fuel, FuelError};
    use crate::proved::ops::StoreOp;
    use crate::proved::raw::RawVal;
    use crate::proved::store::{ElementSegment, Memory, Table};
    use crate::proved::typed::Global;
    use crate::rattle::alloc::AllocError;
    use core::fmt;
    use core::fmt::{Debug, Formatter, Write};

    /// Memories, tables, element segments, data segments and globals by their indices, 16 registers of
    /// raw values, one fuel meter, and at most one spare region: a borrowed buffer in which a memory can
    /// be made; `'r` is its lifetime.
    ///
    /// Its state is valid at any time: see [`laws::states_are_valid`](crate::proved::machine::laws::states_are_valid).
    ///
    /// # Model
    ///
    /// ```text
    /// Value = State
    /// view = λ m. m.store
    /// invariant = λ m. IsValid m.store
    /// ```
    ///
    /// Definitions: [`State`](crate::specs::machine::StateSpecs#State), [`IsValid`](crate::specs::machine::StateSpecs#IsValid).
    #[doc = examples!(machine Machine)]
    pub struct Machine<'r> {
        pub(crate) store: MachineStore<'r>,
    }

    /// Shows the name alone.
    impl<'r> Debug for Machine<'r> {
        #[inline]
        fn fmt(&self, f: &mut Formatter<'_>) -> fmt::Result {
            f.write_str("Machine { .. }")
        }
    }

    impl<'r> Machine<'r> {
        /// A machine with this meter, on which nothing was made yet. It takes no memory.
        ///
        /// # Contract
        ///
        /// ```text
        /// ensures: result ≡ new_state fuel
        /// ```
        ///
        /// Definitions: [`new_state`](crate::specs::machine::StateSpecs#new_state).
        #[must_use]
        #[inline]
        pub fn new(fuel: Fuel) -> Machine<'r> {
            Machine::empty(fuel, None)
        }

        /// A machine as by `new`, with this spare region, whose bytes stay as they are.
        ///
        /// # Contract
        ///
        /// ```text
        /// ensures: result ≡ with_spare (new_state fuel) region.entry.now
        /// ```
        ///
        /// Definitions: [`with_spare`](crate::specs::machine::StateSpecs#with_spare), [`new_state`](crate::specs::machine::StateSpecs#new_state).
        #[must_use]
        #[inline]
        pub fn with_region(fuel: Fuel, region: &'r mut [u8]) -> Machine<'r> {
            Machine::empty(fuel, Some(region))
        }

        /// A machine with this meter, and with this spare region if there is one.
        ///
        /// # Contract
        ///
        /// ```text
        /// ensures: result ≡ record (new_state fuel) { spare = option_copied_mut spare.entry }
        /// ```
        ///
        /// Definitions: [`new_state`](crate::specs::machine::StateSpecs#new_state).
        #[inline]
        fn empty(fuel: Fuel, spare: Option<&'r mut [u8]>) -> Machine<'r> {
            let store = MachineStore {
                memories: Slots::new(),
                tables: Slots::new(),
                segments: ReservedList::new(),
                data_segments: ReservedList::new(),
                globals: ReservedList::new(),
                registers: Registers::default(),
                fuel,
                spare,
            };
            Machine { store }
        }

        /// Reserves so many more slots of each kind, beside those of what was made. What is made in them
        /// later takes no memory for its slot, so it isn't refused with `NoRoom`, unless that is for the
        /// bytes of a data segment. What is reserved already stays so, and doesn't add up: to reserve 4
        /// slots twice, with nothing made between, reserves 4.
        ///
        /// # Errors
        ///
        /// `AllocError` if memory for some of it is refused; then no more is reserved.
        ///
        /// # Contract
        ///
        /// ```text
        /// ensures reserved: OnOk result (self.new ≡ with_reserved self.old slots)
        /// ensures refused: OnErr result (self.new ≡ self.old)
        /// ```
        ///
        /// Definitions: [`with_reserved`](crate::specs::machine::StateSpecs#with_reserved).
        #[inline]
        pub fn reserve(&mut self, slots: SlotCounts) -> Result<(), AllocError> {
            self.store.reserve(slots)
        }

        /// Reserves memory for so many elements in all of a table, those that are there included, as
        /// [`Table::reserve`] does: until it has more, no growth of it is refused with
        /// `OutOfSystemMemory`. What is reserved already stays so.
        ///
        /// It isn't a call, so a run has no turn for it. The reply is `Done`, `NoSuch` if there is no
        /// such table, or `NoRoom` if the memory is refused; after the last two nothing has changed.
        ///
        /// # Contract
        ///
        /// ```text
        /// ensures tables: ReservesElementsAt table elements self.old.tables result self.new.tables
        /// ensures rest: self.new ≡ with_tables self.old self.new.tables
        /// ```
        ///
        /// Definitions: [`ReservesElementsAt`](crate::specs::machine::TableEffectsSpecs#ReservesElementsAt), [`with_tables`](crate::specs::machine::StateSpecs#with_tables).
        #[inline(always)]
        pub fn reserve_elements(&mut self, table: usize, elements: u64) -> Reply {
            let reply = self.store.tables.reserve(table, elements);
            reply.unwrap_or(Reply::NoSuch)
        }

        /// The meter.
        ///
        /// # Contract
        ///
        /// ```text
        /// ensures: result.now ≡ self.now.meter
        /// ```
        #[must_use]
        #[inline]
        pub fn fuel(&self) -> &Fuel {
            &self.store.fuel
        }

        /// Takes an amount of fuel, and returns what is left.
        ///
        /// It isn't a call, so a run has no turn for it: an interpreter pays by it for the instructions
        /// that it executes between calls.
        ///
        /// # Errors
        ///
        /// [`FuelMeteringDisabled`](crate::FuelError::FuelMeteringDisabled) if the meter is off.
        /// [`OutOfFuel`](crate::FuelError::OutOfFuel) with the amount if less is left; then nothing is consumed.
        ///
        /// # Contract
        ///
        /// ```text
        /// ensures on: IsSome self.old.meter.left
        ///     → ConsumesFuel self.old.meter amount (amount_left self.old.meter - amount) result
        ///     self.new.meter
        /// ensures off: self.old.meter.left ≡ None
        ///     → (result ≡ Err FuelError.FuelMeteringDisabled) × (self.new ≡ self.old)
        /// ensures rest: self.new ≡ record self.old { meter = self.new.meter }
        /// ensures balance: MatchResult result (λ left. (self.new.meter.left ≡ Some left)
        ///     × (self.old.meter.left ≡ Some (left + amount))
        ///     × (self.new ≡ record self.old { meter = meter_after self.old.meter amount }))
        ///     (λ error. self.new ≡ self.old)
        /// ```
        ///
        /// Definitions: [`ConsumesFuel`](crate::specs::meter::MeterSpecs#ConsumesFuel), [`amount_left`](crate::specs::meter::MeterSpecs#amount_left), [`meter_after`](crate::specs::meter::MeterSpecs#meter_after).
        #[inline]
        pub fn consume_fuel(&mut self, amount: u64) -> Result<u64, FuelError> {
            self.store.fuel.get_fuel()?;
            self.store.fuel.consume_fuel_unchecked(amount)
        }

        /// The memory of an index, if there is one that wasn't dropped.
        ///
        /// # Contract
        ///
        /// ```text
        /// ensures: option_copied result ≡ live_at self.now.memories index
        /// ```
        ///
        /// Definitions: [`live_at`](crate::specs::machine::StateSpecs#live_at).
        #[must_use]
        #[inline]
        pub fn memory(&self, index: usize) -> Option<&Memory<'r>> {
            self.store.memories.live(index)
        }

        /// Stores an item to a memory at `ptr + offset`, as `Call::Store` does, which reaches no
        /// limiter. The reply is `Done`, `NoSuch` if there is no such memory, or `Trap` with
        /// `MemoryOutOfBounds`; after the last two nothing has changed.
        ///
        /// # Contract
        ///
        /// ```text
        /// ensures memories: StoresMemoryAt memory (ptr + offset) (stored_bytes op value)
        ///     self.old.memories result self.new.memories
        /// ensures rest: self.new ≡ with_memories self.old self.new.memories
        /// ```
        ///
        /// Definitions: [`StoresMemoryAt`](crate::specs::machine::MemoryEffectsSpecs#StoresMemoryAt), [`stored_bytes`](crate::specs::ops::LoadStoreOpsSpecs#stored_bytes), [`with_memories`](crate::specs::machine::StateSpecs#with_memories).
        #[inline(always)]
        pub fn store_item(
            &mut self,
            op: StoreOp,
            memory: usize,
            ptr: u64,
            offset: u64,
            value: RawVal,
        ) -> Reply {
            let stored = Stored::Number(op, value);
            let reply = self.store.memories.store(memory, ptr, offset, stored);
            reply.unwrap_or(Reply::NoSuch)
        }

        /// Writes bytes over those of a memory from an offset on, as the call `Write` does, but those of
        /// a slice and not of a list. It takes no memory.
        ///
        /// It isn't a call, so a run has no turn for it. The reply is `Done`, `NoSuch` if there is no
        /// such memory, or `Memory` with `OutOfBoundsAccess` if the bytes would end past it; after the
        /// last two nothing has changed.
        ///
        /// # Contract
        ///
        /// ```text
        /// ensures memories: WritesMemoryAt memory offset bytes.now self.old.memories result
        ///     self.new.memories
        /// ensures rest: self.new ≡ with_memories self.old self.new.memories
        /// ```
        ///
        /// Definitions: [`WritesMemoryAt`](crate::specs::machine::MemoryEffectsSpecs#WritesMemoryAt), [`with_memories`](crate::specs::machine::StateSpecs#with_memories).
        #[inline(always)]
        pub fn write(&mut self, memory: usize, offset: usize, bytes: &[u8]) -> Reply {
            let reply = self.store.memories.write(memory, offset, bytes);
            reply.unwrap_or(Reply::NoSuch)
        }

        /// The table of an index, if there is one that wasn't dropped.
        ///
        /// # Contract
        ///
        /// ```text
        /// ensures: option_copied result ≡ live_at self.now.tables index
        /// ```
        ///
        /// Definitions: [`live_at`](crate::specs::machine::StateSpecs#live_at).
        #[must_use]
        #[inline]
        pub fn table(&self, index: usize) -> Option<&Table> {
            self.store.tables.live(index)
        }

        /// The element segment of an index, if there is one.
        ///
        /// # Contract
        ///
        /// ```text
        /// ensures: option_copied result ≡ slice_get self.now.segments index
        /// ```
        #[must_use]
        #[inline]
        pub fn segment(&self, index: usize) -> Option<&ElementSegment> {
            self.store.segments.get(index)
        }

        /// The data segment of an index, if there is one.
        ///
        /// # Contract
        ///
        /// ```text
        /// ensures: option_copied result ≡ slice_get self.now.data_segments index
        /// ```
        #[must_use]
        #[inline]
        pub fn data_segment(&self, index: usize) -> Option<&DataSegment> {
            self.store.data_segments.get(index)
        }

        /// The global of an index, if there is one.
        ///
        /// # Contract
        ///
        /// ```text
        /// ensures: option_copied result ≡ slice_get self.now.globals index
        /// ```
        #[must_use]
        #[inline]
        pub fn global(&self, index: usize) -> Option<&Global> {
            self.store.globals.get(index)
        }

        /// The value of a register, if there is one: their numbers are 0 to 15.
        ///
        /// # Contract
        ///
        /// ```text
        /// ensures value: result ≡ slice_get self.now.registers register
        /// ensures count: length self.now.registers ≡ 16
        /// ensures there: IsSome result ↔ (register < 16)
        /// ```
        #[must_use]
        #[inline]
        pub fn register(&self, register: u8) -> Option<RawVal> {
            self.store.registers.get(register)
        }

        /// The bytes of all memories, dropped ones at their last size. The cost grows with the number
        /// of memories that were ever made, including those that were dropped.
        ///
        /// # Contract
        ///
        /// ```text
        /// ensures: result ≡ total self.now Bytes
        /// ```
        ///
        /// Definitions: [`total`](crate::specs::machine::StateSpecs#total).
        #[must_use]
        #[inline]
        pub fn total_bytes(&self) -> u128 {
            self.store.memories.total()
        }

        /// The elements of all tables, likewise: the cost grows with the number of all tables ever made.
        ///
        /// # Contract
        ///
        /// ```text
        /// ensures: result ≡ total self.now Elements
        /// ```
        ///
        /// Definitions: [`total`](crate::specs::machine::StateSpecs#total).
        #[must_use]
        #[inline]
        pub fn total_elements(&self) -> u128 {
            self.store.tables.total()
        }

        /// Does nothing: its contract says what holds of each machine.
        ///
        /// # Contract
        ///
        /// ```text
        /// ensures: IsValid self.now
        /// ```
        ///
        /// Definitions: [`IsValid`](crate::specs::machine::StateSpecs#IsValid).
        #[inline(always)]
        pub(crate) fn tell_valid(&self) {
            let _ = &self.store;
        }
    }
}
mod memories {
    //! What calls do to the memories of a machine, by their indices, and the replies to these calls.

    use crate::proved::machine::calls::{ByteList, Reply};
    use crate::proved::machine::data::{DataSegment, copy_of_bytes};
    use crate::proved::machine::slots::{Slot, Slots};
    use crate::proved::meter::{Fuel, MemoryError, ResourceLimiter};
    use crate::proved::ops::{LoadLaneOp, LoadOp, StoreLaneOp, StoreOp, VectorLoadOp};
    use crate::proved::raw::{RawVal, V128};
    use crate::proved::store::range::lies_within;
    use crate::proved::store::{Memory, MemoryType};
    use crate::proved::types::TrapCode;
    use crate::proved::vector_access::simd::v128_store;

    impl<'r> Slots<Memory<'r>> {
        /// Makes a memory in a new slot, which is reserved before the limiter is asked.
        ///
        /// # Contract
        ///
        /// ```text
        /// ensures made: Creates Reply.Memory
        ///     (MakesMemory (optional_rules L.rules) Owned ty) self.old.slots.items
        ///     (Some limiter.old) result self.new.slots.items (Some limiter.new)
        /// ensures room: IfNoRoom result (self.old.slots.reserved ≤ length self.old.slots.items)
        /// ensures reserved: self.new.slots.reserved ≡ self.old.slots.reserved
        /// ```
        ///
        /// Definitions: [`Creates`](crate::specs::machine::EffectsSpecs#Creates), [`MakesMemory`](crate::specs::store::MemorySpecs#MakesMemory), [`optional_rules`](crate::specs::meter::LimiterSpecs#optional_rules), [`Owned`](crate::specs::store::BufferSpecs#Owned), [`IfNoRoom`](crate::specs::machine::EffectsSpecs#IfNoRoom).
        ///
        /// `L` is the type of the limiter, a [`ResourceLimiter`](crate::machine::ResourceLimiter#contract).
        #[inline(always)]
        pub(crate) fn create<L: ResourceLimiter>(
            &mut self,
            ty: MemoryType,
            limiter: &mut L,
        ) -> Reply {
            if self.slots.try_reserve(1).is_err() {
                return Reply::NoRoom;
            }
            match Memory::new_lending(ty, limiter) {
                Ok(memory) => Reply::Made(self.push(memory)),
                Err(error) => Reply::Memory(error),
            }
        }

        /// Makes a memory in the spare region, in a new slot, reserved before the limiter is asked.
        ///
        /// # Contract
        ///
        /// ```text
        /// ensures made: CreatesLent (optional_rules L.rules) ty
        ///     (record { slots = self.old.slots.items; spare = option_copied_mut spare.old })
        ///     (Some limiter.old) result
        ///     (record { slots = self.new.slots.items; spare = option_copied_mut spare.new })
        ///     (Some limiter.new)
        /// ensures room: IfNoRoom result (self.old.slots.reserved ≤ length self.old.slots.items)
        /// ensures reserved: self.new.slots.reserved ≡ self.old.slots.reserved
        /// ```
        ///
        /// Definitions: [`CreatesLent`](crate::specs::machine::MemoryEffectsSpecs#CreatesLent), [`optional_rules`](crate::specs::meter::LimiterSpecs#optional_rules), [`IfNoRoom`](crate::specs::machine::EffectsSpecs#IfNoRoom).
        ///
        /// `L` is the type of the limiter, a [`ResourceLimiter`](crate::machine::ResourceLimiter#contract).
        #[inline(always)]
        pub(crate) fn create_lent<L: ResourceLimiter>(
            &mut self,
            ty: MemoryType,
            spare: &mut Option<&'r mut [u8]>,
            limiter: &mut L,
        ) -> Reply {
            let Some(region) = spare.take() else {
                return Reply::NoRegion;
            };
            if self.slots.try_reserve(1).is_ok() {
                match Memory::new_static_lending(ty, limiter, region) {
                    Ok(memory) => Reply::Made(self.push(memory)),
                    Err(error) => Reply::Memory(error),
                }
            } else {
                *spare = Some(region);
                Reply::NoRoom
            }
        }

        /// Reads bytes of a memory.
        ///
        /// # Contract
        ///
        /// ```text
        /// ensures: ReadsMemoryAt index offset len self.now.slots.items (reply_or_no_such result)
        /// ```
        ///
        /// Definitions: [`ReadsMemoryAt`](crate::specs::machine::MemoryEffectsSpecs#ReadsMemoryAt), [`reply_or_no_such`](crate::specs::machine::EffectsSpecs#reply_or_no_such).
        #[inline(always)]
        pub(crate) fn read(&self, index: usize, offset: usize, len: usize) -> Option<Reply> {
            let memory = self.live(index)?;
            Some(bytes_reply(memory.data(), offset, len))
        }

        /// Loads a number from a memory.
        ///
        /// # Contract
        ///
        /// ```text
        /// ensures: reply_or_no_such result
        ///     ≡ load_reply op (ptr + offset) (live_at self.now.slots.items index)
        /// ```
        ///
        /// Definitions: [`reply_or_no_such`](crate::specs::machine::EffectsSpecs#reply_or_no_such), [`load_reply`](crate::specs::machine::MemoryEffectsSpecs#load_reply), [`live_at`](crate::specs::machine::StateSpecs#live_at).
        #[inline(always)]
        pub(crate) fn load(
            &self,
            op: LoadOp,
            index: usize,
            ptr: u64,
            offset: u64,
        ) -> Option<Reply> {
            let value = op.load(self.live(index)?.data(), ptr, offset);
            Some(value.map_or_else(Reply::Trap, Reply::Value))
        }

        /// Loads a vector from a memory, if the memory is there.
        ///
        /// # Contract
        ///
        /// ```text
        /// ensures: option_map (as_raw raw_of_vector) result
        ///     ≡ vector_loaded op (ptr + offset) (live_at self.now.slots.items index)
        /// ```
        ///
        /// Definitions: [`as_raw`](crate::specs::ops::LoadStoreOpsSpecs#as_raw), [`raw_of_vector`](crate::specs::raw::RawValSpecs#raw_of_vector), [`vector_loaded`](crate::specs::machine::RegisterEffectsSpecs#vector_loaded), [`live_at`](crate::specs::machine::StateSpecs#live_at).
        #[inline(always)]
        pub(crate) fn load_vector(
            &self,
            op: VectorLoadOp,
            index: usize,
            ptr: u64,
            offset: u64,
        ) -> Option<Result<V128, TrapCode>> {
            Some(op.load(self.live(index)?.data(), ptr, offset))
        }

        /// Loads a lane of a vector from a memory, if both are there.
        ///
        /// # Contract
        ///
        /// ```text
        /// ensures: option_map (as_raw raw_of_vector) result
        ///     ≡ lane_loaded op (ptr + offset) vector (live_at self.now.slots.items index)
        /// ```
        ///
        /// Definitions: [`as_raw`](crate::specs::ops::LoadStoreOpsSpecs#as_raw), [`raw_of_vector`](crate::specs::raw::RawValSpecs#raw_of_vector), [`lane_loaded`](crate::specs::machine::RegisterEffectsSpecs#lane_loaded), [`live_at`](crate::specs::machine::StateSpecs#live_at).
        #[inline(always)]
        pub(crate) fn load_lane(
            &self,
            op: LoadLaneOp,
            vector: Option<V128>,
            index: usize,
            ptr: u64,
            offset: u64,
        ) -> Option<Result<V128, TrapCode>> {
            let (vector, memory) = (vector?, self.live(index)?);
            Some(op.load(memory.data(), ptr, offset, vector))
        }

        /// # Contract
        ///
        /// ```text
        /// ensures written: WritesMemoryAt index offset bytes.now self.old.slots.items
        ///     (reply_or_no_such result) self.new.slots.items
        /// ensures reserved: self.new.slots.reserved ≡ self.old.slots.reserved
        /// ```
        ///
        /// Definitions: [`WritesMemoryAt`](crate::specs::machine::MemoryEffectsSpecs#WritesMemoryAt), [`reply_or_no_such`](crate::specs::machine::EffectsSpecs#reply_or_no_such).
        #[inline(always)]
        pub(crate) fn write(&mut self, index: usize, offset: usize, bytes: &[u8]) -> Option<Reply> {
            let memory = self.live_mut(index)?;
            Some(memory_reply(memory.write(offset, bytes)))
        }

        /// # Contract
        ///
        /// ```text
        /// ensures filled: WithCharge
        ///     (WritesAt Reply.Memory index (byte_filling_of dst value len))
        ///     (metered self.old.slots.items (Some fuel.old)) (reply_or_no_such result)
        ///     (metered self.new.slots.items (Some fuel.new))
        /// ensures reserved: self.new.slots.reserved ≡ self.old.slots.reserved
        /// ```
        ///
        /// Definitions: [`WithCharge`](crate::specs::store::GrowthSpecs#WithCharge), [`WritesAt`](crate::specs::machine::EffectsSpecs#WritesAt), [`byte_filling_of`](crate::specs::store::MemorySpecs#byte_filling_of), [`metered`](crate::specs::store::GrowthSpecs#metered), [`reply_or_no_such`](crate::specs::machine::EffectsSpecs#reply_or_no_such).
        #[inline(always)]
        pub(crate) fn fill(
            &mut self,
            index: usize,
            dst: u64,
            value: u8,
            len: u64,
            fuel: &mut Fuel,
        ) -> Option<Reply> {
            let memory = self.live_mut(index)?;
            Some(memory_reply(memory.fill_metered(dst, value, len, fuel)))
        }

        /// Copies a range of a memory to another one, or within it.
        ///
        /// # Contract
        ///
        /// ```text
        /// ensures copied: WithCharge
        ///     (WritesFrom Reply.Memory (live_at self.old.slots.items src_index) dst_index
        ///     (memory_copy_of dst src len))
        ///     (metered self.old.slots.items (Some fuel.old)) (reply_or_no_such result)
        ///     (metered self.new.slots.items (Some fuel.new))
        /// ensures reserved: self.new.slots.reserved ≡ self.old.slots.reserved
        /// ```
        ///
        /// Definitions: [`WithCharge`](crate::specs::store::GrowthSpecs#WithCharge), [`WritesFrom`](crate::specs::machine::EffectsSpecs#WritesFrom), [`live_at`](crate::specs::machine::StateSpecs#live_at), [`memory_copy_of`](crate::specs::machine::MemoryEffectsSpecs#memory_copy_of), [`metered`](crate::specs::store::GrowthSpecs#metered), [`reply_or_no_such`](crate::specs::machine::EffectsSpecs#reply_or_no_such).
        #[inline(always)]
        pub(crate) fn copy(
            &mut self,
            dst_index: usize,
            dst: u64,
            src_index: usize,
            src: u64,
            len: u64,
            fuel: &mut Fuel,
        ) -> Option<Reply> {
            if dst_index == src_index {
                return self.copy_in_one(dst_index, dst, src, len, fuel);
            }
            let mut memory = self.take(dst_index)?;
            let copied = match self.live(src_index) {
                Some(source) => Some(memory_reply(
                    memory.copy_metered(dst, source, src, len, fuel),
                )),
                None => None,
            };
            *self.slots.item_mut(dst_index) = Slot::Live(memory);
            copied
        }

        /// Copies a range of a memory within it.
        ///
        /// # Contract
        ///
        /// ```text
        /// ensures copied: WithCharge
        ///     (WritesFrom Reply.Memory (live_at self.old.slots.items index) index
        ///     (memory_copy_of dst src len))
        ///     (metered self.old.slots.items (Some fuel.old)) (reply_or_no_such result)
        ///     (metered self.new.slots.items (Some fuel.new))
        /// ensures reserved: self.new.slots.reserved ≡ self.old.slots.reserved
        /// ```
        ///
        /// Definitions: [`WithCharge`](crate::specs::store::GrowthSpecs#WithCharge), [`WritesFrom`](crate::specs::machine::EffectsSpecs#WritesFrom), [`live_at`](crate::specs::machine::StateSpecs#live_at), [`memory_copy_of`](crate::specs::machine::MemoryEffectsSpecs#memory_copy_of), [`metered`](crate::specs::store::GrowthSpecs#metered), [`reply_or_no_such`](crate::specs::machine::EffectsSpecs#reply_or_no_such).
        #[inline(always)]
        fn copy_in_one(
            &mut self,
            index: usize,
            dst: u64,
            src: u64,
            len: u64,
            fuel: &mut Fuel,
        ) -> Option<Reply> {
            let memory = self.live_mut(index)?;
            Some(memory_reply(
                memory.copy_within_metered(dst, src, len, fuel),
            ))
        }

        /// Copies a range of a data segment to a memory, if the segment is there.
        ///
        /// # Contract
        ///
        /// ```text
        /// ensures copied: WithCharge
        ///     (WritesRangeAt Reply.Memory index
        ///     (option_map (byte_copy_of dst src len) (option_copied segment.entry)))
        ///     (metered self.old.slots.items (Some fuel.old)) (reply_or_no_such result)
        ///     (metered self.new.slots.items (Some fuel.new))
        /// ensures reserved: self.new.slots.reserved ≡ self.old.slots.reserved
        /// ```
        ///
        /// Definitions: [`WithCharge`](crate::specs::store::GrowthSpecs#WithCharge), [`WritesRangeAt`](crate::specs::machine::EffectsSpecs#WritesRangeAt), [`byte_copy_of`](crate::specs::store::MemorySpecs#byte_copy_of), [`metered`](crate::specs::store::GrowthSpecs#metered), [`reply_or_no_such`](crate::specs::machine::EffectsSpecs#reply_or_no_such).
        #[inline(always)]
        pub(crate) fn init(
            &mut self,
            index: usize,
            segment: Option<&DataSegment>,
            dst: u64,
            src: u32,
            len: u32,
            fuel: &mut Fuel,
        ) -> Option<Reply> {
            let segment = segment?.bytes();
            let memory = self.live_mut(index)?;
            Some(memory_reply(
                memory.init_metered(segment, dst, src, len, fuel),
            ))
        }

        /// # Contract
        ///
        /// ```text
        /// ensures stored: StoresMemoryAt index (ptr + offset) (bytes_of_stored stored)
        ///     self.old.slots.items (reply_or_no_such result) self.new.slots.items
        /// ensures reserved: self.new.slots.reserved ≡ self.old.slots.reserved
        /// ```
        ///
        /// Definitions: [`StoresMemoryAt`](crate::specs::machine::MemoryEffectsSpecs#StoresMemoryAt), [`bytes_of_stored`](crate::specs::machine::MemoryEffectsSpecs#bytes_of_stored), [`reply_or_no_such`](crate::specs::machine::EffectsSpecs#reply_or_no_such).
        #[inline(always)]
        pub(crate) fn store(
            &mut self,
            index: usize,
            ptr: u64,
            offset: u64,
            stored: Stored,
        ) -> Option<Reply> {
            let memory = self.live_mut(index)?;
            let answer = store(memory, ptr, offset, stored);
            Some(answer.map_or_else(Reply::Trap, |()| Reply::Done))
        }
    }

    /// The reply to a call on a memory that returns nothing.
    ///
    /// # Contract
    ///
    /// ```text
    /// ensures: result ≡ reply_of (λ _. Reply.Done) Reply.Memory answer
    /// ```
    ///
    /// Definitions: [`reply_of`](crate::specs::machine::EffectsSpecs#reply_of).
    #[inline(always)]
    fn memory_reply(answer: Result<(), MemoryError>) -> Reply {
        answer.map_or_else(Reply::Memory, |()| Reply::Done)
    }

    /// What is stored: a number, a vector, or a lane of a vector.
    #[derive(Clone, Copy)]
    pub(crate) enum Stored {
        Number(StoreOp, RawVal),
        Vector(V128),
        Lane(StoreLaneOp, V128),
    }

    /// The reply to a read of a memory's bytes. The bounds are tested before memory is taken, if any.
    ///
    /// # Contract
    ///
    /// ```text
    /// ensures: ReadsBytes (at memory.now offset len) result
    /// ```
    ///
    /// Definitions: [`ReadsBytes`](crate::specs::machine::MemoryEffectsSpecs#ReadsBytes), [`at`](crate::specs::types::AccessSpecs#at).
    #[inline(always)]
    fn bytes_reply(memory: &[u8], offset: usize, len: usize) -> Reply {
        if !lies_within(memory, offset as u64, len as u64) {
            return Reply::Memory(MemoryError::OutOfBoundsAccess);
        }
        match copy_of_bytes(&memory[offset..][..len]) {
            Ok(bytes) => Reply::Bytes(ByteList::from(bytes)),
            Err(_) => Reply::NoRoom,
        }
    }

    /// Stores to a memory. A function of the memory alone: its clause says what the memory becomes,
    /// apart from the slot that lends it.
    ///
    /// # Contract
    ///
    /// ```text
    /// ensures: StoresMemory memory.old (ptr + offset) (bytes_of_stored stored) result memory.new
    /// ```
    ///
    /// Definitions: [`StoresMemory`](crate::specs::machine::MemoryEffectsSpecs#StoresMemory), [`bytes_of_stored`](crate::specs::machine::MemoryEffectsSpecs#bytes_of_stored).
    #[inline(always)]
    fn store(memory: &mut Memory, ptr: u64, offset: u64, stored: Stored) -> Result<(), TrapCode> {
        match stored {
            Stored::Number(op, value) => op.store(memory.data_mut(), ptr, offset, value),
            Stored::Vector(vector) => v128_store(memory.data_mut(), ptr, offset, vector),
            Stored::Lane(op, vector) => op.store(memory.data_mut(), ptr, offset, vector),
        }
    }
}
mod registers {
    //! The registers of a machine, and the vectors that calls make of what is in them.

    use crate::proved::lanewise::simd::i8x16_shuffle;
    use crate::proved::machine::calls::{Call, Reply};
    use crate::proved::raw::{RawVal, ReadAs, V128};
    use crate::proved::types::TrapCode;

    /// The 16 registers of raw values, by their numbers from 0. At first they are zeros.
    #[derive(Default)]
    pub(crate) struct Registers {
        pub(crate) values: [RawVal; 16],
    }

    impl Registers {
        /// The value of a register, if there is one.
        ///
        /// # Contract
        ///
        /// ```text
        /// ensures value: result ≡ slice_get self.now.values register
        /// ensures count: length self.now.values ≡ 16
        /// ```
        #[inline]
        pub(crate) fn get(&self, register: u8) -> Option<RawVal> {
            self.values.get(usize::from(register)).copied()
        }

        /// The vector in a register, if there is one.
        ///
        /// # Contract
        ///
        /// ```text
        /// ensures: result ≡ vector_at self.now.values register
        /// ```
        ///
        /// Definitions: [`vector_at`](crate::specs::machine::RegisterEffectsSpecs#vector_at).
        #[inline]
        pub(crate) fn vector(&self, register: u8) -> Option<V128> {
            self.get(register).map(|raw| raw.read_as())
        }

        /// Sets a register, if there is one.
        ///
        /// # Contract
        ///
        /// ```text
        /// ensures: SetsRegister dst (Some (Ok value)) self.old.values (reply_or_no_such result)
        ///     self.new.values
        /// ```
        ///
        /// Definitions: [`SetsRegister`](crate::specs::machine::RegisterEffectsSpecs#SetsRegister), [`reply_or_no_such`](crate::specs::machine::EffectsSpecs#reply_or_no_such).
        #[inline(always)]
        pub(crate) fn set(&mut self, dst: u8, value: RawVal) -> Option<Reply> {
            let index = usize::from(dst);
            if index >= self.values.len() {
                return None;
            }
            self.values[index] = value;
            Some(Reply::Done)
        }

        /// Sets a register to a vector that was loaded, if a load was made, or keeps it where the load has
        /// trapped.
        ///
        /// # Contract
        ///
        /// ```text
        /// ensures: SetsRegister dst (option_map (as_raw raw_of_vector) loaded) self.old.values
        ///     (reply_or_no_such result) self.new.values
        /// ```
        ///
        /// Definitions: [`SetsRegister`](crate::specs::machine::RegisterEffectsSpecs#SetsRegister), [`as_raw`](crate::specs::ops::LoadStoreOpsSpecs#as_raw), [`raw_of_vector`](crate::specs::raw::RawValSpecs#raw_of_vector), [`reply_or_no_such`](crate::specs::machine::EffectsSpecs#reply_or_no_such).
        #[inline(always)]
        pub(crate) fn set_loaded(
            &mut self,
            dst: u8,
            loaded: Option<Result<V128, TrapCode>>,
        ) -> Option<Reply> {
            match loaded? {
                Ok(vector) => self.set(dst, vector.into()),
                Err(trap) => self.get(dst).map(|_| Reply::Trap(trap)),
            }
        }

        /// Sets a register to the vector that a call makes of what is in registers, if these are there.
        ///
        /// # Contract
        ///
        /// ```text
        /// requires made: MakesVector call.now
        /// ensures set: SetsRegister dst (vector_given self.old.values call.now) self.old.values
        ///     (reply_or_no_such result) self.new.values
        /// ```
        ///
        /// Definitions: [`MakesVector`](crate::specs::machine::StepsSpecs#MakesVector), [`SetsRegister`](crate::specs::machine::RegisterEffectsSpecs#SetsRegister), [`vector_given`](crate::specs::machine::StepsSpecs#vector_given), [`reply_or_no_such`](crate::specs::machine::EffectsSpecs#reply_or_no_such).
        #[inline(always)]
        pub(crate) fn set_made(&mut self, dst: u8, call: &Call) -> Option<Reply> {
            let vector = self.made_vector(call)?;
            self.set(dst, vector.into())
        }

        /// The vector that a call makes of what is in registers, if these are there.
        ///
        /// # Contract
        ///
        /// ```text
        /// requires made: MakesVector call.now
        /// ensures vector: option_map given_vector result ≡ vector_given self.now.values call.now
        /// ```
        ///
        /// Definitions: [`MakesVector`](crate::specs::machine::StepsSpecs#MakesVector), [`given_vector`](crate::specs::machine::RegisterEffectsSpecs#given_vector), [`vector_given`](crate::specs::machine::StepsSpecs#vector_given).
        #[inline(always)]
        fn made_vector(&self, call: &Call) -> Option<V128> {
            match call {
                Call::Make { op, a, .. } => Some(op.apply(self.get(*a)?)),
                Call::Unary { op, a, .. } => Some(op.apply(self.vector(*a)?)),
                Call::Binary { op, a, b, .. } => Some(op.apply(self.vector(*a)?, self.vector(*b)?)),
                Call::Ternary { op, a, b, c, .. } => {
                    Some(op.apply(self.vector(*a)?, self.vector(*b)?, self.vector(*c)?))
                }
                Call::Shift { op, a, amount, .. } => Some(op.apply(self.vector(*a)?, *amount)),
                Call::Replace { op, a, item, .. } => {
                    Some(op.apply(self.vector(*a)?, self.get(*item)?))
                }
                Call::Shuffle { a, b, lanes, .. } => {
                    Some(i8x16_shuffle(self.vector(*a)?, self.vector(*b)?, *lanes))
                }
                _ => unreachable!(),
            }
        }
    }
}
mod replies {
    //! Memory for replies, kept from run to run, and the error of a run for which it is too small.

    use crate::proved::machine::calls::Reply;
    use crate::rattle::Vec;
    use crate::rattle::alloc::AllocError;
    use core::fmt;

    /// The replies of a run, in memory that is kept for those of the next one: `run_into` puts them
    /// there, and takes no memory for them.
    ///
    /// # Model
    ///
    /// ```text
    /// Value = RepliesValue
    /// view = λ r. record { items = r.replies.items; capacity = vec_capacity r.replies }
    /// ```
    ///
    /// Definitions: [`RepliesValue`](crate::specs::machine::RepliesSpecs#RepliesValue).
    #[derive(Debug)]
    pub struct Replies {
        replies: Vec<Reply>,
    }

    impl Replies {
        /// No reply yet, with memory for so many.
        ///
        /// # Errors
        ///
        /// `AllocError` if memory for so many is refused.
        ///
        /// # Contract
        ///
        /// ```text
        /// ensures: IfOk result (λ made. made ≡ record { items = []; capacity = capacity })
        /// ```
        #[inline]
        pub fn with_capacity(capacity: usize) -> Result<Self, AllocError> {
            let replies = Vec::with_capacity(capacity)?;
            Ok(Replies { replies })
        }

        /// The replies, in the order of the calls.
        ///
        /// # Contract
        ///
        /// ```text
        /// ensures: result.now ≡ self.now.items
        /// ```
        #[must_use]
        #[inline]
        pub fn as_slice(&self) -> &[Reply] {
            self.replies.as_slice()
        }

        /// How many replies there are.
        ///
        /// # Contract
        ///
        /// ```text
        /// ensures: result ≡ length self.now.items
        /// ```
        #[must_use]
        #[inline]
        pub fn len(&self) -> usize {
            self.replies.len()
        }

        /// Whether there is no reply.
        ///
        /// # Contract
        ///
        /// ```text
        /// ensures: result ≡ (length self.now.items == 0)
        /// ```
        #[must_use]
        #[inline]
        pub fn is_empty(&self) -> bool {
            self.replies.is_empty()
        }

        /// For how many replies there is memory, those that are there included.
        ///
        /// # Contract
        ///
        /// ```text
        /// ensures: result ≡ self.now.capacity
        /// ```
        #[must_use]
        #[inline]
        pub fn capacity(&self) -> usize {
            self.replies.capacity()
        }

        /// Drops all replies, and keeps the memory.
        ///
        /// # Contract
        ///
        /// ```text
        /// ensures: self.new ≡ record self.old { items = [] }
        /// ```
        #[inline]
        pub(crate) fn clear(&mut self) {
            self.replies.clear();
        }

        /// Adds a reply, for which there is memory.
        ///
        /// # Contract
        ///
        /// ```text
        /// requires room: length self.old.items < self.old.capacity
        /// ensures added: self.new ≡ record self.old { items = self.old.items ++ reply ∷ [] }
        /// ```
        #[inline]
        pub(crate) fn push(&mut self, reply: Reply) {
            self.replies.push_reserved(reply);
        }
    }

    /// Why `run_into` doesn't execute a list: it has more calls than there is memory for replies.
    #[derive(Clone, Copy, Debug, PartialEq, Eq)]
    pub struct TooManyCalls;

    /// # Contract
    ///
    /// ```text
    /// output = λ error. Some too_many_calls_text
    /// ```
    ///
    /// Definitions: [`too_many_calls_text`](crate::specs::machine::RepliesSpecs#too_many_calls_text).
    impl fmt::Display for TooManyCalls {
        #[inline]
        fn fmt(&self, f: &mut fmt::Formatter<'_>) -> fmt::Result {
            f.write_str("more calls than there is memory for replies")
        }
    }

    impl core::error::Error for TooManyCalls {}
}
mod running {
    //! Executing one call or one growth on a machine, and runs of calls. They are our own: upstream
    //! leaves running to the interpreter.

    use crate::proved::machine::calls::{Call, Reply};
    use crate::proved::machine::machine::Machine;
    use crate::proved::machine::replies::{Replies, TooManyCalls};
    use crate::proved::meter::{Reserving, ResourceLimiter, ResourceLimiterRef};
    use crate::rattle::Vec;
    use crate::rattle::alloc::AllocError;

    impl<'r> Machine<'r> {
        /// Executes one call, as `run` executes each of a list.
        ///
        /// # Contract
        ///
        /// ```text
        /// ensures loan: KeepsLoan limiter.old limiter.new
        /// ensures step: RepliesWith (optional_rules L.rules) call.now
        ///     (world self.old (lent_limiter limiter.old)) result
        ///     (world self.new (lent_limiter limiter.new))
        /// ensures valid: IsValid self.new
        /// ```
        ///
        /// Definitions: [`KeepsLoan`](crate::specs::meter::LimiterSpecs#KeepsLoan), [`RepliesWith`](crate::specs::machine::StepsSpecs#RepliesWith), [`optional_rules`](crate::specs::meter::LimiterSpecs#optional_rules), [`world`](crate::specs::machine::StateSpecs#world), [`lent_limiter`](crate::specs::meter::LimiterSpecs#lent_limiter), [`IsValid`](crate::specs::machine::StateSpecs#IsValid).
        ///
        /// `L` is the type of the limiter, a [`ResourceLimiter`](crate::machine::ResourceLimiter#contract).
        #[inline(always)]
        pub fn step<L: ResourceLimiter>(
            &mut self,
            call: &Call,
            limiter: &mut ResourceLimiterRef<L>,
        ) -> Reply {
            self.step_lending(call, limiter)
        }

        /// Grows a memory by so many pages, as `step_lending` does for `Call::GrowMemory`. The reply is
        /// `Number` with the old size in pages, `NoSuch` if there is no such memory, or `Memory` with
        /// an error of [`LinearMemory::grow`](crate::proved::store::LinearMemory::grow).
        ///
        /// # Contract
        ///
        /// ```text
        /// ensures step: RepliesWith (optional_rules L.rules) (GrowMemory memory pages)
        ///     (world self.old (Some limiter.old)) result (world self.new (Some limiter.new))
        /// ensures valid: IsValid self.new
        /// ```
        ///
        /// Definitions: [`RepliesWith`](crate::specs::machine::StepsSpecs#RepliesWith), [`optional_rules`](crate::specs::meter::LimiterSpecs#optional_rules), [`world`](crate::specs::machine::StateSpecs#world), [`IsValid`](crate::specs::machine::StateSpecs#IsValid).
        ///
        /// `L` is the type of the limiter, a [`ResourceLimiter`](crate::machine::ResourceLimiter#contract).
        #[inline(always)]
        pub fn grow_memory_lending<L: ResourceLimiter>(
            &mut self,
            memory: usize,
            pages: u64,
            limiter: &mut L,
        ) -> Reply {
            let reply = self.store.grow_memory(memory, pages, limiter);
            reply.unwrap_or(Reply::NoSuch)
        }

        /// Executes one call, as `step`, but borrows the limiter for this call alone, so that its state
        /// afterwards is known.
        ///
        /// # Contract
        ///
        /// ```text
        /// ensures step: RepliesWith (optional_rules L.rules) call.now
        ///     (world self.old (Some limiter.old)) result (world self.new (Some limiter.new))
        /// ensures valid: IsValid self.new
        /// ```
        ///
        /// Definitions: [`RepliesWith`](crate::specs::machine::StepsSpecs#RepliesWith), [`optional_rules`](crate::specs::meter::LimiterSpecs#optional_rules), [`world`](crate::specs::machine::StateSpecs#world), [`IsValid`](crate::specs::machine::StateSpecs#IsValid).
        ///
        /// `L` is the type of the limiter, a [`ResourceLimiter`](crate::machine::ResourceLimiter#contract).
        #[inline(always)]
        pub fn step_lending<L: ResourceLimiter>(&mut self, call: &Call, limiter: &mut L) -> Reply {
            call.tell_valid();
            self.store.step(call, limiter)
        }
    }

    /// Executes calls one after another.
    ///
    /// # Errors
    ///
    /// `AllocError` if memory for the replies, allocated first, is refused; then nothing has happened.
    ///
    /// # Contract
    ///
    /// ```text
    /// ensures loan: KeepsLoan limiter.old limiter.new
    /// ensures run: IfOk result (λ replies. IsRunOf (optional_rules L.rules) calls.now
    ///     (world machine.old (lent_limiter limiter.old)) replies.items
    ///     (world machine.new (lent_limiter limiter.new)))
    /// ensures err: OnErr result ((machine.new ≡ machine.old) × (limiter.new ≡ limiter.old))
    /// ensures valid: IsValid machine.new
    /// ```
    ///
    /// Definitions: [`KeepsLoan`](crate::specs::meter::LimiterSpecs#KeepsLoan), [`IsRunOf`](crate::specs::machine::StepsSpecs#IsRunOf), [`optional_rules`](crate::specs::meter::LimiterSpecs#optional_rules), [`world`](crate::specs::machine::StateSpecs#world), [`lent_limiter`](crate::specs::meter::LimiterSpecs#lent_limiter), [`IsValid`](crate::specs::machine::StateSpecs#IsValid).
    ///
    /// `L` is the type of the limiter, a [`ResourceLimiter`](crate::machine::ResourceLimiter#contract).
    #[inline]
    pub fn run<L: ResourceLimiter>(
        machine: &mut Machine,
        calls: &[Call],
        limiter: &mut ResourceLimiterRef<L>,
    ) -> Result<Vec<Reply>, AllocError> {
        run_lending(machine, calls, limiter)
    }

    /// Executes calls, as `run`, but only borrows the limiter, so its state afterwards is known.
    ///
    /// # Errors
    ///
    /// `AllocError` if memory for the replies, allocated first, is refused; then nothing has happened.
    ///
    /// # Contract
    ///
    /// ```text
    /// ensures run: IfOk result (λ replies. IsRunOf (optional_rules L.rules) calls.now
    ///     (world machine.old (Some limiter.old)) replies.items
    ///     (world machine.new (Some limiter.new)))
    /// ensures err: OnErr result ((machine.new ≡ machine.old) × (limiter.new ≡ limiter.old))
    /// ensures valid: IsValid machine.new
    /// ```
    ///
    /// Definitions: [`IsRunOf`](crate::specs::machine::StepsSpecs#IsRunOf), [`optional_rules`](crate::specs::meter::LimiterSpecs#optional_rules), [`world`](crate::specs::machine::StateSpecs#world), [`IsValid`](crate::specs::machine::StateSpecs#IsValid).
    ///
    /// `L` is the type of the limiter, a [`ResourceLimiter`](crate::machine::ResourceLimiter#contract).
    #[inline]
    pub fn run_lending<L: ResourceLimiter>(
        machine: &mut Machine,
        calls: &[Call],
        limiter: &mut L,
    ) -> Result<Vec<Reply>, AllocError> {
        machine.tell_valid();
        let mut replies = Vec::with_capacity(calls.len())?;
        for call in calls {
            let reply = machine.step_lending(call, limiter);
            replies.push_reserved(reply);
        }
        Ok(replies)
    }

    /// Executes calls, as `run`, under a limiter that holds exactly what the machine has, also after.
    ///
    /// # Errors
    ///
    /// `AllocError` if memory for the replies, allocated first, is refused; then nothing has happened.
    ///
    /// # Panics
    ///
    /// Panics if what the limiter holds isn't the machine's totals.
    ///
    /// # Contract
    ///
    /// ```text
    /// requires totals: HoldsTotals (L.Reserving.holdings limiter.old) machine.old
    /// ensures run: IfOk result (λ replies. IsRunOf (optional_rules L.rules) calls.now
    ///     (world machine.old (Some limiter.old)) replies.items
    ///     (world machine.new (Some limiter.new)))
    /// ensures err: OnErr result ((machine.new ≡ machine.old) × (limiter.new ≡ limiter.old))
    /// ensures held: HoldsTotals (L.Reserving.holdings limiter.new) machine.new
    /// ensures valid: IsValid machine.new
    /// ```
    ///
    /// Definitions: [`HoldsTotals`](crate::specs::machine::StateSpecs#HoldsTotals), [`IsRunOf`](crate::specs::machine::StepsSpecs#IsRunOf), [`optional_rules`](crate::specs::meter::LimiterSpecs#optional_rules), [`world`](crate::specs::machine::StateSpecs#world), [`IsValid`](crate::specs::machine::StateSpecs#IsValid).
    ///
    /// `L` is the type of the limiter, a [`Reserving`](crate::machine::Reserving#contract).
    #[inline]
    pub fn run_reserving<L: Reserving>(
        machine: &mut Machine,
        calls: &[Call],
        limiter: &mut L,
    ) -> Result<Vec<Reply>, AllocError> {
        assert!(
            u128::from(limiter.held_bytes()) == machine.total_bytes()
                && u128::from(limiter.held_elements()) == machine.total_elements(),
            "what the limiter holds isn't the machine's totals"
        );
        run_lending(machine, calls, limiter)
    }

    /// Executes calls one after another, as `run`, but puts their replies into memory that is there, in
    /// place of those that it has. It takes no memory for them.
    ///
    /// # Errors
    ///
    /// `TooManyCalls` for more calls than the capacity of `replies`; then nothing has happened.
    ///
    /// # Contract
    ///
    /// ```text
    /// ensures loan: KeepsLoan limiter.old limiter.new
    /// ensures run: OnOk result (IsRunOf (optional_rules L.rules) calls.now
    ///     (world machine.old (lent_limiter limiter.old)) replies.new.items
    ///     (world machine.new (lent_limiter limiter.new)))
    /// ensures accepted: IsOk result ↔ (length calls.now ≤ replies.old.capacity)
    /// ensures err: OnErr result ((machine.new ≡ machine.old) × (limiter.new ≡ limiter.old)
    ///     × (replies.new ≡ replies.old))
    /// ensures capacity: replies.new.capacity ≡ replies.old.capacity
    /// ensures valid: IsValid machine.new
    /// ```
    ///
    /// Definitions: [`KeepsLoan`](crate::specs::meter::LimiterSpecs#KeepsLoan), [`IsRunOf`](crate::specs::machine::StepsSpecs#IsRunOf), [`optional_rules`](crate::specs::meter::LimiterSpecs#optional_rules), [`world`](crate::specs::machine::StateSpecs#world), [`lent_limiter`](crate::specs::meter::LimiterSpecs#lent_limiter), [`IsValid`](crate::specs::machine::StateSpecs#IsValid).
    ///
    /// `L` is the type of the limiter, a [`ResourceLimiter`](crate::machine::ResourceLimiter#contract).
    #[inline]
    pub fn run_into<L: ResourceLimiter>(
        machine: &mut Machine,
        calls: &[Call],
        limiter: &mut ResourceLimiterRef<L>,
        replies: &mut Replies,
    ) -> Result<(), TooManyCalls> {
        run_into_lending(machine, calls, limiter, replies)
    }

    /// Executes calls, as `run_into`, but only borrows the limiter, so its state afterwards is known.
    ///
    /// # Errors
    ///
    /// `TooManyCalls` for more calls than the capacity of `replies`; then nothing has happened.
    ///
    /// # Contract
    ///
    /// ```text
    /// ensures run: OnOk result (IsRunOf (optional_rules L.rules) calls.now
    ///     (world machine.old (Some limiter.old)) replies.new.items
    ///     (world machine.new (Some limiter.new)))
    /// ensures accepted: IsOk result ↔ (length calls.now ≤ replies.old.capacity)
    /// ensures err: OnErr result ((machine.new ≡ machine.old) × (limiter.new ≡ limiter.old)
    ///     × (replies.new ≡ replies.old))
    /// ensures capacity: replies.new.capacity ≡ replies.old.capacity
    /// ensures valid: IsValid machine.new
    /// ```
    ///
    /// Definitions: [`IsRunOf`](crate::specs::machine::StepsSpecs#IsRunOf), [`optional_rules`](crate::specs::meter::LimiterSpecs#optional_rules), [`world`](crate::specs::machine::StateSpecs#world), [`IsValid`](crate::specs::machine::StateSpecs#IsValid).
    ///
    /// `L` is the type of the limiter, a [`ResourceLimiter`](crate::machine::ResourceLimiter#contract).
    #[inline]
    pub fn run_into_lending<L: ResourceLimiter>(
        machine: &mut Machine,
        calls: &[Call],
        limiter: &mut L,
        replies: &mut Replies,
    ) -> Result<(), TooManyCalls> {
        machine.tell_valid();
        if replies.capacity() < calls.len() {
            return Err(TooManyCalls);
        }
        replies.clear();
        for call in calls {
            let reply = machine.step_lending(call, limiter);
            replies.push(reply);
        }
        Ok(())
    }

    /// Executes calls, as `run_into`, under a limiter that holds what the machine has, also after.
    ///
    /// # Errors
    ///
    /// `TooManyCalls` for more calls than the capacity of `replies`; then nothing has happened.
    ///
    /// # Panics
    ///
    /// Panics if what the limiter holds isn't the machine's totals.
    ///
    /// # Contract
    ///
    /// ```text
    /// requires totals: HoldsTotals (L.Reserving.holdings limiter.old) machine.old
    /// ensures run: OnOk result (IsRunOf (optional_rules L.rules) calls.now
    ///     (world machine.old (Some limiter.old)) replies.new.items
    ///     (world machine.new (Some limiter.new)))
    /// ensures accepted: IsOk result ↔ (length calls.now ≤ replies.old.capacity)
    /// ensures err: OnErr result ((machine.new ≡ machine.old) × (limiter.new ≡ limiter.old)
    ///     × (replies.new ≡ replies.old))
    /// ensures capacity: replies.new.capacity ≡ replies.old.capacity
    /// ensures held: HoldsTotals (L.Reserving.holdings limiter.new) machine.new
    /// ensures valid: IsValid machine.new
    /// ```
    ///
    /// Definitions: [`HoldsTotals`](crate::specs::machine::StateSpecs#HoldsTotals), [`IsRunOf`](crate::specs::machine::StepsSpecs#IsRunOf), [`optional_rules`](crate::specs::meter::LimiterSpecs#optional_rules), [`world`](crate::specs::machine::StateSpecs#world), [`IsValid`](crate::specs::machine::StateSpecs#IsValid).
    ///
    /// `L` is the type of the limiter, a [`Reserving`](crate::machine::Reserving#contract).
    #[inline]
    pub fn run_into_reserving<L: Reserving>(
        machine: &mut Machine,
        calls: &[Call],
        limiter: &mut L,
        replies: &mut Replies,
    ) -> Result<(), TooManyCalls> {
        assert!(
            u128::from(limiter.held_bytes()) == machine.total_bytes()
                && u128::from(limiter.held_elements()) == machine.total_elements(),
            "what the limiter holds isn't the machine's totals"
        );
        run_into_lending(machine, calls, limiter, replies)
    }
}
mod slots {
    //! Slots: what was made, at the index of its making, and total sizes; lists with memory for more.

    use crate::proved::machine::calls::Reply;
    use crate::proved::store::{Memory, Table};
    use crate::rattle::Vec;
    use crate::rattle::alloc::AllocError;
    use core::mem;

    /// What counts in a machine's totals: a memory by its bytes, a table by its elements.
    ///
    /// # Contract
    ///
    /// ```text
    /// -- How many it has.
    /// count: Self → ℕ
    /// ```
    pub(crate) trait Counted {
        /// # Contract
        ///
        /// ```text
        /// ensures: result ≡ count self.now
        /// ```
        fn count(&self) -> u64;
    }

    impl<'r> Counted for Memory<'r> {
        #[inline]
        fn count(&self) -> u64 {
            self.data_size() as u64
        }
    }

    impl Counted for Table {
        #[inline]
        fn count(&self) -> u64 {
            self.size()
        }
    }

    /// A live value, or the size of one when it was dropped.
    pub(crate) enum Slot<T> {
        Live(T),
        Gone(u64),
    }

    impl<T> Slot<T> {
        /// # Contract
        ///
        /// ```text
        /// requires live: IsSome (live_value self.old)
        /// ensures* writes_back: sem 𝓛 (Lends (the_row T.row) T.row self.entry result Live)
        /// ensures value: live_value self.old ≡ Some result.now
        /// ```
        ///
        /// Definitions: [`live_value`](crate::specs::machine::StateSpecs#live_value).
        ///
        /// `T` is any type.
        #[inline]
        fn value_mut(&mut self) -> &mut T {
            match self {
                Slot::Live(value) => value,
                Slot::Gone(_) => unreachable!(),
            }
        }

        /// How many bytes or elements it has, or had when it was dropped.
        ///
        /// # Contract
        ///
        /// ```text
        /// ensures: result ≡ slot_count T.Counted.count self.now
        /// ```
        ///
        /// Definitions: [`slot_count`](crate::specs::machine::StateSpecs#slot_count).
        ///
        /// `T` is a type with the trait `Counted`.
        #[inline]
        fn count(&self) -> u64
        where
            T: Counted,
        {
            match self {
                Slot::Live(value) => value.count(),
                Slot::Gone(last) => *last,
            }
        }
    }

    /// How many slots of each kind.
    #[derive(Clone, Copy, Debug, Default)]
    pub struct SlotCounts {
        /// Of memories.
        pub memories: usize,
        /// Of tables.
        pub tables: usize,
        /// Of element segments.
        pub segments: usize,
        /// Of data segments.
        pub data_segments: usize,
        /// Of globals.
        pub globals: usize,
    }

    /// Slots by their indices, which count from 0.
    pub(crate) struct Slots<T> {
        pub(crate) slots: ReservedList<Slot<T>>,
    }

    impl<T> Slots<T> {
        /// No slot yet, and none reserved. It takes no memory.
        ///
        /// # Contract
        ///
        /// ```text
        /// ensures: result.slots ≡ record { items = []; reserved = 0; capacity = 0 }
        /// ```
        #[inline]
        pub(crate) fn new() -> Self {
            Slots {
                slots: ReservedList::new(),
            }
        }

        /// The live value of an index, if there is one.
        ///
        /// # Contract
        ///
        /// ```text
        /// ensures: option_copied result ≡ live_at self.now.slots.items index
        /// ```
        ///
        /// Definitions: [`live_at`](crate::specs::machine::StateSpecs#live_at).
        #[inline]
        pub(crate) fn live(&self, index: usize) -> Option<&T> {
            match self.slots.get(index) {
                Some(Slot::Live(value)) => Some(value),
                _ => None,
            }
        }

        /// The live value of an index, if there is one, to be changed.
        ///
        /// # Contract
        ///
        /// ```text
        /// ensures* writes_back: sem 𝓛 (LendsIf (the_row T.row) T.row self.entry result
        ///     (with_live self.old index) self.old)
        /// ensures value: option_copied_mut result ≡ live_at self.old.slots.items index
        /// ```
        ///
        /// Definitions: [`with_live`](crate::specs::machine::StateSpecs#with_live), [`live_at`](crate::specs::machine::StateSpecs#live_at).
        ///
        /// `T` is any type.
        #[inline]
        pub(crate) fn live_mut(&mut self, index: usize) -> Option<&mut T> {
            if self.live(index).is_some() {
                Some(self.value_mut(index))
            } else {
                None
            }
        }

        /// # Contract
        ///
        /// ```text
        /// requires live: IsSome (live_at self.old.slots.items index)
        /// ensures* writes_back: sem 𝓛
        ///     (Lends (the_row T.row) T.row self.entry result (with_live self.old index))
        /// ensures value: live_at self.old.slots.items index ≡ Some result.now
        /// ```
        ///
        /// Definitions: [`live_at`](crate::specs::machine::StateSpecs#live_at), [`with_live`](crate::specs::machine::StateSpecs#with_live).
        ///
        /// `T` is any type.
        #[inline]
        fn value_mut(&mut self, index: usize) -> &mut T {
            self.slots.item_mut(index).value_mut()
        }

        /// Takes the live value of an index out of its slot, if there is one, so that it can be changed
        /// while another one is read. The slot counts nothing until a value is put into it.
        ///
        /// # Contract
        ///
        /// ```text
        /// ensures value: result ≡ live_at self.old.slots.items index
        /// ensures taken: IfSome result
        ///     (λ x. self.new.slots.items ≡ slice_set self.old.slots.items index (Gone 0))
        /// ensures none: IfNone result (self.new.slots.items ≡ self.old.slots.items)
        /// ensures reserved: self.new.slots.reserved ≡ self.old.slots.reserved
        /// ```
        ///
        /// Definitions: [`live_at`](crate::specs::machine::StateSpecs#live_at).
        #[inline]
        pub(crate) fn take(&mut self, index: usize) -> Option<T> {
            if self.live(index).is_none() {
                return None;
            }
            match mem::replace(self.slots.item_mut(index), Slot::Gone(0)) {
                Slot::Live(value) => Some(value),
                Slot::Gone(_) => unreachable!(),
            }
        }

        /// Puts a value into a new slot, and returns its index.
        ///
        /// # Contract
        ///
        /// ```text
        /// requires room: length self.old.slots.items < self.old.slots.capacity
        /// ensures index: result ≡ length self.old.slots.items
        /// ensures slots: self.new.slots.items ≡ self.old.slots.items ++ Live value ∷ []
        /// ensures reserved: self.new.slots.reserved ≡ self.old.slots.reserved
        /// ```
        #[inline]
        pub(crate) fn push(&mut self, value: T) -> usize {
            self.slots.push(Slot::Live(value))
        }
    }

    impl<T: Counted> Slots<T> {
        /// Drops the live value of an index, and keeps how many it had.
        ///
        /// # Contract
        ///
        /// ```text
        /// ensures dropped: DropsAt T.Counted.count index self.old.slots.items
        ///     (reply_or_no_such result) self.new.slots.items
        /// ensures reserved: self.new.slots.reserved ≡ self.old.slots.reserved
        /// ```
        ///
        /// Definitions: [`DropsAt`](crate::specs::machine::EffectsSpecs#DropsAt), [`reply_or_no_such`](crate::specs::machine::EffectsSpecs#reply_or_no_such).
        ///
        /// `T` is a type with the trait `Drop`.
        #[inline]
        pub(crate) fn drop_live(&mut self, index: usize) -> Option<Reply> {
            let last = self.live(index)?.count();
            *self.slots.item_mut(index) = Slot::Gone(last);
            Some(Reply::Done)
        }

        /// How many bytes or elements all of them have; dropped ones count with their last size.
        ///
        /// # Contract
        ///
        /// ```text
        /// ensures: result ≡ sum (map (slot_count T.Counted.count) self.now.slots.items)
        /// ```
        ///
        /// Definitions: [`slot_count`](crate::specs::machine::StateSpecs#slot_count).
        ///
        /// `T` is a type with the trait `Counted`.
        #[inline]
        pub(crate) fn total(&self) -> u128 {
            let mut total = 0;
            for slot in self.slots.as_slice() {
                total += slot.count() as u128;
            }
            total
        }
    }

    /// Items by their indices, which count from 0. Up to as many as are reserved, those that are there
    /// included, one more takes no memory.
    ///
    /// # Model
    ///
    /// ```text
    /// Value = ReservedListValue T
    /// view = λ list. record
    ///     { items = list.items.items; reserved = list.reserved; capacity = vec_capacity list.items }
    /// invariant = λ list. list.reserved ≤ vec_capacity list.items
    /// ```
    ///
    /// Definitions: [`ReservedListValue`](crate::specs::machine::ReservedListSpecs#ReservedListValue).
    ///
    /// `T` is any type.
    pub(crate) struct ReservedList<T> {
        items: Vec<T>,
        reserved: usize,
    }

    impl<T> ReservedList<T> {
        /// No item yet, and none reserved. It takes no memory.
        ///
        /// # Contract
        ///
        /// ```text
        /// ensures: result ≡ record { items = []; reserved = 0; capacity = 0 }
        /// ```
        #[inline]
        pub(crate) fn new() -> Self {
            ReservedList {
                items: Vec::new(),
                reserved: 0,
            }
        }

        /// # Contract
        ///
        /// ```text
        /// ensures: result.now ≡ self.now.items
        /// ```
        #[inline]
        pub(crate) fn as_slice(&self) -> &[T] {
            self.items.as_slice()
        }

        /// # Contract
        ///
        /// ```text
        /// ensures: option_copied result ≡ slice_get self.now.items index
        /// ```
        #[inline]
        pub(crate) fn get(&self, index: usize) -> Option<&T> {
            self.items.get(index)
        }

        /// The item of an index, to be changed.
        ///
        /// # Contract
        ///
        /// ```text
        /// requires there: index < length self.old.items
        /// ensures* writes_back: sem 𝓛
        ///     (Lends (the_row T.row) T.row self.entry result (with_item self.old index))
        /// ensures value: slice_get self.old.items index ≡ Some result.now
        /// ```
        ///
        /// Definitions: [`with_item`](crate::specs::machine::ReservedListSpecs#with_item).
        ///
        /// `T` is any type.
        #[inline]
        pub(crate) fn item_mut(&mut self, index: usize) -> &mut T {
            &mut self.items[index]
        }

        /// The item of an index, if there is one, to be changed.
        ///
        /// # Contract
        ///
        /// ```text
        /// ensures* writes_back: sem 𝓛
        ///     (LendsIf (the_row T.row) T.row self.entry result (with_item self.old index) self.old)
        /// ensures value: option_copied_mut result ≡ slice_get self.old.items index
        /// ```
        ///
        /// Definitions: [`with_item`](crate::specs::machine::ReservedListSpecs#with_item).
        ///
        /// `T` is any type.
        #[inline]
        pub(crate) fn get_mut(&mut self, index: usize) -> Option<&mut T> {
            self.items.get_mut(index)
        }

        /// Asks for memory for so many more items, unless it is there.
        ///
        /// # Contract
        ///
        /// ```text
        /// ensures items: self.new.items ≡ self.old.items
        /// ensures reserved: self.new.reserved ≡ self.old.reserved
        /// ensures had: OnOk result (length self.old.items + additional ≤ self.new.capacity)
        /// ensures refused: OnErr result (self.old.reserved < length self.old.items + additional)
        /// ```
        #[inline]
        pub(crate) fn try_reserve(&mut self, additional: usize) -> Result<(), AllocError> {
            self.items.try_reserve(additional)
        }

        /// Reserves so many more items, for which there is memory.
        ///
        /// # Contract
        ///
        /// ```text
        /// requires room: length self.old.items + additional ≤ self.old.capacity
        /// ensures reserved: self.new ≡ record self.old
        ///     { reserved = max self.old.reserved (length self.old.items + additional) }
        /// ```
        #[inline]
        pub(crate) fn keep_reserved(&mut self, additional: usize) {
            self.reserved = self.reserved.max(self.items.len() + additional);
        }

        /// Adds an item, for which there is memory, and returns its index.
        ///
        /// # Contract
        ///
        /// ```text
        /// requires room: length self.old.items < self.old.capacity
        /// ensures index: result ≡ length self.old.items
        /// ensures items: self.new ≡ record self.old { items = self.old.items ++ item ∷ [] }
        /// ```
        #[inline]
        pub(crate) fn push(&mut self, item: T) -> usize {
            let index = self.items.len();
            self.items.push_reserved(item);
            index
        }
    }
}
mod store {
    //! The store of a machine: what was made, registers and meter, and what each call does to them.

    use crate::proved::machine::calls::{Call, Reply};
    use crate::proved::machine::data::DataSegment;
    use crate::proved::machine::memories::Stored;
    use crate::proved::machine::registers::Registers;
    use crate::proved::machine::slots::{ReservedList, SlotCounts, Slots};
    use crate::proved::machine::values::{
        create_data, create_global, create_segment, drop_data, drop_items, get_global, set_global,
    };
    use crate::proved::meter::{Fuel, ResourceLimiter};
    use crate::proved::store::{ElementSegment, Memory, Table};
    use crate::proved::typed::Global;
    use crate::rattle::alloc::AllocError;

    /// Memories, tables, element segments, data segments and globals by their indices, registers, the
    /// meter, and the spare region, if there is one. Core specification, the store.
    ///
    /// # Model
    ///
    /// ```text
    /// Value = State
    /// view = λ m. record {
    ///     memories = m.memories.slots.items;
    ///     tables = m.tables.slots.items;
    ///     segments = m.segments.items;
    ///     data_segments = m.data_segments.items;
    ///     globals = m.globals.items;
    ///     registers = m.registers.values;
    ///     meter = m.fuel;
    ///     spare = option_copied_mut m.spare;
    ///     reserved = record {
    ///     memories = m.memories.slots.reserved;
    ///     tables = m.tables.slots.reserved;
    ///     segments = m.segments.reserved;
    ///     data_segments = m.data_segments.reserved;
    ///     globals = m.globals.reserved;
    ///     };
    ///     }
    /// ```
    ///
    /// Definitions: [`State`](crate::specs::machine::StateSpecs#State).
    pub(crate) struct MachineStore<'r> {
        pub(crate) memories: Slots<Memory<'r>>,
        pub(crate) tables: Slots<Table>,
        pub(crate) segments: ReservedList<ElementSegment>,
        pub(crate) data_segments: ReservedList<DataSegment>,
        pub(crate) globals: ReservedList<Global>,
        pub(crate) registers: Registers,
        pub(crate) fuel: Fuel,
        pub(crate) spare: Option<&'r mut [u8]>,
    }

    impl<'r> MachineStore<'r> {
        /// Reserves so many more slots of each kind, or none if memory for some is refused.
        ///
        /// # Errors
        ///
        /// `AllocError` if memory for some of it is refused; then no more is reserved.
        ///
        /// # Contract
        ///
        /// ```text
        /// ensures reserved: OnOk result (self.new ≡ with_reserved self.old slots)
        /// ensures refused: OnErr result (self.new ≡ self.old)
        /// ```
        ///
        /// Definitions: [`with_reserved`](crate::specs::machine::StateSpecs#with_reserved).
        #[inline]
        pub(crate) fn reserve(&mut self, slots: SlotCounts) -> Result<(), AllocError> {
            self.memories.slots.try_reserve(slots.memories)?;
            self.tables.slots.try_reserve(slots.tables)?;
            self.segments.try_reserve(slots.segments)?;
            self.data_segments.try_reserve(slots.data_segments)?;
            self.globals.try_reserve(slots.globals)?;
            self.memories.slots.keep_reserved(slots.memories);
            self.tables.slots.keep_reserved(slots.tables);
            self.segments.keep_reserved(slots.segments);
            self.data_segments.keep_reserved(slots.data_segments);
            self.globals.keep_reserved(slots.globals);
            Ok(())
        }

        /// # Contract
        ///
        /// ```text
        /// ensures: RepliesWith (optional_rules L.rules) (GrowMemory memory pages)
        ///     (world self.old (Some limiter.old)) (reply_or_no_such result)
        ///     (world self.new (Some limiter.new))
        /// ```
        ///
        /// Definitions: [`RepliesWith`](crate::specs::machine::StepsSpecs#RepliesWith), [`optional_rules`](crate::specs::meter::LimiterSpecs#optional_rules), [`world`](crate::specs::machine::StateSpecs#world), [`reply_or_no_such`](crate::specs::machine::EffectsSpecs#reply_or_no_such).
        ///
        /// `L` is the type of the limiter, a [`ResourceLimiter`](crate::machine::ResourceLimiter#contract).
        #[inline(always)]
        pub(crate) fn grow_memory<L: ResourceLimiter>(
            &mut self,
            memory: usize,
            pages: u64,
            limiter: &mut L,
        ) -> Option<Reply> {
            let memory = self.memories.live_mut(memory)?;
            let grown = memory.grow_lending(pages, &mut self.fuel, limiter);
            Some(grown.map_or_else(Reply::Memory, Reply::Number))
        }

        /// # Contract
        ///
        /// ```text
        /// ensures: RepliesWith (optional_rules L.rules) call.now
        ///     (world self.old (Some limiter.old)) result
        ///     (world self.new (Some limiter.new))
        /// ```
        ///
        /// Definitions: [`RepliesWith`](crate::specs::machine::StepsSpecs#RepliesWith), [`optional_rules`](crate::specs::meter::LimiterSpecs#optional_rules), [`world`](crate::specs::machine::StateSpecs#world).
        ///
        /// `L` is the type of the limiter, a [`ResourceLimiter`](crate::machine::ResourceLimiter#contract).
        #[inline(always)]
        pub(crate) fn step<L: ResourceLimiter>(&mut self, call: &Call, limiter: &mut L) -> Reply {
            match call {
                Call::SetFuel(fuel) => self
                    .fuel
                    .set_fuel(*fuel)
                    .map_or_else(Reply::Fuel, |()| Reply::Done),
                Call::GetFuel => self.fuel.get_fuel().map_or_else(Reply::Fuel, Reply::Number),
                Call::NewMemory(_) => self.step_memory(call, limiter).unwrap_or(Reply::NoSuch),
                Call::NewLentMemory(_) => self.step_memory(call, limiter).unwrap_or(Reply::NoSuch),
                Call::GrowMemory { .. } => self.step_memory(call, limiter).unwrap_or(Reply::NoSuch),
                Call::DropMemory(_) => self.step_memory(call, limiter).unwrap_or(Reply::NoSuch),
                Call::Read { .. } => self.step_memory(call, limiter).unwrap_or(Reply::NoSuch),
                Call::Write { .. } => self.step_memory(call, limiter).unwrap_or(Reply::NoSuch),
                Call::Load { .. } => self.step_memory(call, limiter).unwrap_or(Reply::NoSuch),
                Call::Store { .. } => self.step_memory(call, limiter).unwrap_or(Reply::NoSuch),
                Call::FillMemory { .. } => self.step_memory(call, limiter).unwrap_or(Reply::NoSuch),
                Call::CopyMemory { .. } => self.step_memory(call, limiter).unwrap_or(Reply::NoSuch),
                Call::InitMemory { .. } => self.step_memory(call, limiter).unwrap_or(Reply::NoSuch),

                Call::NewSegment { ty, items } => create_segment(&mut self.segments, *ty, items),
                Call::DropItems(segment) => drop_items(&mut self.segments, *segment),
                Call::NewData(bytes) => create_data(&mut self.data_segments, bytes),
                Call::DropData(segment) => drop_data(&mut self.data_segments, *segment),
                Call::NewGlobal { value, ty } => create_global(&mut self.globals, *value, *ty),
                Call::SetGlobal { global, value } => set_global(&mut self.globals, *global, *value),
                Call::GetGlobal(global) => get_global(self.globals.as_slice(), *global),
                Call::NewTable { .. } => self.step_table(call, limiter).unwrap_or(Reply::NoSuch),
                Call::GrowTable { .. } => self.step_table(call, limiter).unwrap_or(Reply::NoSuch),
                Call::DropTable(_) => self.step_table(call, limiter).unwrap_or(Reply::NoSuch),
                Call::GetElement { .. } => self.step_table(call, limiter).unwrap_or(Reply::NoSuch),
                Call::SetElement { .. } => self.step_table(call, limiter).unwrap_or(Reply::NoSuch),
                Call::InitTable { .. } => self.step_table(call, limiter).unwrap_or(Reply::NoSuch),
                Call::CopyTable { .. } => self.step_table(call, limiter).unwrap_or(Reply::NoSuch),
                Call::FillTable { .. } => self.step_table(call, limiter).unwrap_or(Reply::NoSuch),

                Call::VectorLoad { .. }
                | Call::LoadLane { .. }
                | Call::VectorStore { .. }
                | Call::StoreLane { .. } => {
                    self.step_vector_access::<L>(call).unwrap_or(Reply::NoSuch)
                }
                Call::SetRegister { .. }
                | Call::GetRegister(_)
                | Call::Make { .. }
                | Call::Unary { .. }
                | Call::Binary { .. }
                | Call::Ternary { .. }
                | Call::Shift { .. }
                | Call::Test { .. }
                | Call::Extract { .. }
                | Call::Replace { .. }
                | Call::Shuffle { .. } => self.step_register::<L>(call).unwrap_or(Reply::NoSuch),
            }
        }

        /// # Contract
        ///
        /// ```text
        /// requires subject: subject_of call.now ≡ Memories
        /// ensures step: RepliesWith (optional_rules L.rules) call.now
        ///     (world self.old (Some limiter.old)) (reply_or_no_such result)
        ///     (world self.new (Some limiter.new))
        /// ```
        ///
        /// Definitions: [`subject_of`](crate::specs::machine::StepsSpecs#subject_of), [`Memories`](crate::specs::machine::StepsSpecs#Memories), [`RepliesWith`](crate::specs::machine::StepsSpecs#RepliesWith), [`optional_rules`](crate::specs::meter::LimiterSpecs#optional_rules), [`world`](crate::specs::machine::StateSpecs#world), [`reply_or_no_such`](crate::specs::machine::EffectsSpecs#reply_or_no_such).
        ///
        /// `L` is the type of the limiter, a [`ResourceLimiter`](crate::machine::ResourceLimiter#contract).
        #[inline(always)]
        fn step_memory<L: ResourceLimiter>(
            &mut self,
            call: &Call,
            limiter: &mut L,
        ) -> Option<Reply> {
            match call {
                Call::NewMemory(ty) => Some(self.memories.create(*ty, limiter)),
                Call::NewLentMemory(ty) => {
                    Some(self.memories.create_lent(*ty, &mut self.spare, limiter))
                }
                Call::GrowMemory { memory, pages } => self.grow_memory(*memory, *pages, limiter),
                Call::DropMemory(memory) => self.memories.drop_live(*memory),
                Call::Read {
                    memory,
                    offset,
                    len,
                } => self.memories.read(*memory, *offset, *len),
                Call::Write {
                    memory,
                    offset,
                    bytes,
                } => self.memories.write(*memory, *offset, bytes),
                Call::Load {
                    op,
                    memory,
                    ptr,
                    offset,
                } => self.memories.load(*op, *memory, *ptr, *offset),
                Call::Store {
                    op,
                    memory,
                    ptr,
                    offset,
                    value,
                } => self
                    .memories
                    .store(*memory, *ptr, *offset, Stored::Number(*op, *value)),
                Call::FillMemory {
                    memory,
                    dst,
                    value,
                    len,
                } => self
                    .memories
                    .fill(*memory, *dst, *value, *len, &mut self.fuel),
                Call::CopyMemory {
                    dst_memory,
                    dst,
                    src_memory,
                    src,
                    len,
                } => self
                    .memories
                    .copy(*dst_memory, *dst, *src_memory, *src, *len, &mut self.fuel),
                Call::InitMemory {
                    memory,
                    segment,
                    dst,
                    src,
                    len,
                } => {
                    let segment = self.data_segments.get(*segment);
                    self.memories
                        .init(*memory, segment, *dst, *src, *len, &mut self.fuel)
                }
                _ => unreachable!(),
            }
        }

        /// # Contract
        ///
        /// ```text
        /// requires subject: subject_of call.now ≡ Tables
        /// ensures step: RepliesWith (optional_rules L.rules) call.now
        ///     (world self.old (Some limiter.old)) (reply_or_no_such result)
        ///     (world self.new (Some limiter.new))
        /// ```
        ///
        /// Definitions: [`subject_of`](crate::specs::machine::StepsSpecs#subject_of), [`Tables`](crate::specs::machine::StepsSpecs#Tables), [`RepliesWith`](crate::specs::machine::StepsSpecs#RepliesWith), [`optional_rules`](crate::specs::meter::LimiterSpecs#optional_rules), [`world`](crate::specs::machine::StateSpecs#world), [`reply_or_no_such`](crate::specs::machine::EffectsSpecs#reply_or_no_such).
        ///
        /// `L` is the type of the limiter, a [`ResourceLimiter`](crate::machine::ResourceLimiter#contract).
        #[inline(always)]
        fn step_table<L: ResourceLimiter>(
            &mut self,
            call: &Call,
            limiter: &mut L,
        ) -> Option<Reply> {
            match call {
                Call::NewTable { ty, init } => Some(self.tables.create(*ty, *init, limiter)),
                Call::GrowTable { table, delta, init } => {
                    self.tables
                        .grow(*table, *delta, *init, &mut self.fuel, limiter)
                }
                Call::DropTable(table) => self.tables.drop_live(*table),
                Call::GetElement { table, index } => self.tables.get(*table, *index),
                Call::SetElement {
                    table,
                    index,
                    value,
                } => self.tables.set(*table, *index, *value),
                Call::InitTable {
                    table,
                    segment,
                    dst,
                    src,
                    len,
                } => {
                    let segment = self.segments.get(*segment);
                    self.tables
                        .init(*table, segment, *dst, *src, *len, &mut self.fuel)
                }
                Call::CopyTable {
                    dst_table,
                    dst,
                    src_table,
                    src,
                    len,
                } => self
                    .tables
                    .copy(*dst_table, *dst, *src_table, *src, *len, &mut self.fuel),
                Call::FillTable {
                    table,
                    dst,
                    value,
                    len,
                } => self.tables.fill(*table, *dst, *value, *len, &mut self.fuel),
                _ => unreachable!(),
            }
        }

        /// Executes one call on registers, which doesn't reach the limiter: only the contract has `L`.
        /// Calls that make a vector have an arm each, by which LLVM makes one table of both matches.
        ///
        /// # Contract
        ///
        /// ```text
        /// requires subject: subject_of call.now ≡ RegisterFile
        /// ensures step: RepliesWithoutLimiter
        ///     (optional_rules L.rules) call.now self.old (reply_or_no_such result) self.new
        /// ```
        ///
        /// Definitions: [`subject_of`](crate::specs::machine::StepsSpecs#subject_of), [`RegisterFile`](crate::specs::machine::StepsSpecs#RegisterFile), [`RepliesWithoutLimiter`](crate::specs::machine::StepsSpecs#RepliesWithoutLimiter), [`optional_rules`](crate::specs::meter::LimiterSpecs#optional_rules), [`reply_or_no_such`](crate::specs::machine::EffectsSpecs#reply_or_no_such).
        ///
        /// `L` is the type of the limiter, a [`ResourceLimiter`](crate::machine::ResourceLimiter#contract).
        #[inline(always)]
        fn step_register<L: ResourceLimiter>(&mut self, call: &Call) -> Option<Reply> {
            match call {
                Call::SetRegister { dst, value } => self.registers.set(*dst, *value),
                Call::GetRegister(register) => self.registers.get(*register).map(Reply::Value),
                Call::Test { op, a } => {
                    let a = self.registers.vector(*a);
                    a.map(|a| Reply::Value(op.apply(a)))
                }
                Call::Extract { op, a } => {
                    let a = self.registers.vector(*a);
                    a.map(|a| Reply::Value(op.apply(a)))
                }
                Call::Make { dst, .. } => self.registers.set_made(*dst, call),
                Call::Unary { dst, .. } => self.registers.set_made(*dst, call),
                Call::Binary { dst, .. } => self.registers.set_made(*dst, call),
                Call::Ternary { dst, .. } => self.registers.set_made(*dst, call),
                Call::Shift { dst, .. } => self.registers.set_made(*dst, call),
                Call::Replace { dst, .. } => self.registers.set_made(*dst, call),
                Call::Shuffle { dst, .. } => self.registers.set_made(*dst, call),
                _ => unreachable!(),
            }
        }

        /// Executes one load or store of a vector, which asks no limiter: only the contract names `L`.
        ///
        /// # Contract
        ///
        /// ```text
        /// requires subject: subject_of call.now ≡ VectorAccesses
        /// ensures step: RepliesWithoutLimiter
        ///     (optional_rules L.rules) call.now self.old (reply_or_no_such result) self.new
        /// ```
        ///
        /// Definitions: [`subject_of`](crate::specs::machine::StepsSpecs#subject_of), [`VectorAccesses`](crate::specs::machine::StepsSpecs#VectorAccesses), [`RepliesWithoutLimiter`](crate::specs::machine::StepsSpecs#RepliesWithoutLimiter), [`optional_rules`](crate::specs::meter::LimiterSpecs#optional_rules), [`reply_or_no_such`](crate::specs::machine::EffectsSpecs#reply_or_no_such).
        ///
        /// `L` is the type of the limiter, a [`ResourceLimiter`](crate::machine::ResourceLimiter#contract).
        #[inline(always)]
        fn step_vector_access<L: ResourceLimiter>(&mut self, call: &Call) -> Option<Reply> {
            match call {
                Call::VectorLoad {
                    op,
                    dst,
                    memory,
                    ptr,
                    offset,
                } => {
                    let vector = self.memories.load_vector(*op, *memory, *ptr, *offset);
                    self.registers.set_loaded(*dst, vector)
                }
                Call::LoadLane {
                    op,
                    dst,
                    a,
                    memory,
                    ptr,
                    offset,
                } => {
                    let a = self.registers.vector(*a);
                    let vector = self.memories.load_lane(*op, a, *memory, *ptr, *offset);
                    self.registers.set_loaded(*dst, vector)
                }
                Call::VectorStore {
                    a,
                    memory,
                    ptr,
                    offset,
                } => {
                    let vector = Stored::Vector(self.registers.vector(*a)?);
                    self.memories.store(*memory, *ptr, *offset, vector)
                }
                Call::StoreLane {
                    op,
                    a,
                    memory,
                    ptr,
                    offset,
                } => {
                    let lane = Stored::Lane(*op, self.registers.vector(*a)?);
                    self.memories.store(*memory, *ptr, *offset, lane)
                }
                _ => unreachable!(),
            }
        }
    }
}
mod tables {
    //! What calls do to the tables of a machine, by their indices, and the replies to calls on tables.

    use crate::proved::machine::calls::Reply;
    use crate::proved::machine::slots::{Slot, Slots};
    use crate::proved::meter::{Fuel, ResourceLimiter, TableError};
    use crate::proved::store::{ElementSegment, ElementSegmentRef, Table, TableType};
    use crate::proved::typed::TypedRawRef;

    impl Slots<Table> {
        /// Makes a table in a new slot, which is reserved before the limiter is asked.
        ///
        /// # Contract
        ///
        /// ```text
        /// ensures made: Creates Reply.Table
        ///     (MakesTable (optional_rules L.rules) ty init) self.old.slots.items
        ///     (Some limiter.old) result self.new.slots.items (Some limiter.new)
        /// ensures room: IfNoRoom result (self.old.slots.reserved ≤ length self.old.slots.items)
        /// ensures reserved: self.new.slots.reserved ≡ self.old.slots.reserved
        /// ```
        ///
        /// Definitions: [`Creates`](crate::specs::machine::EffectsSpecs#Creates), [`MakesTable`](crate::specs::store::TableSpecs#MakesTable), [`optional_rules`](crate::specs::meter::LimiterSpecs#optional_rules), [`IfNoRoom`](crate::specs::machine::EffectsSpecs#IfNoRoom).
        ///
        /// `L` is the type of the limiter, a [`ResourceLimiter`](crate::machine::ResourceLimiter#contract).
        #[inline(always)]
        pub(crate) fn create<L: ResourceLimiter>(
            &mut self,
            ty: TableType,
            init: TypedRawRef,
            limiter: &mut L,
        ) -> Reply {
            if self.slots.try_reserve(1).is_err() {
                return Reply::NoRoom;
            }
            match Table::new_lending(ty, init, limiter) {
                Ok(table) => Reply::Made(self.push(table)),
                Err(error) => Reply::Table(error),
            }
        }

        /// # Contract
        ///
        /// ```text
        /// ensures grown: WithCharge (ActsAt index (reply_of Reply.Number Reply.Table)
        ///     (GrowsTableCharging (optional_rules L.rules) delta init))
        ///     (metered_value self.old.slots.items (Some fuel.old) (Some limiter.old))
        ///     (reply_or_no_such result)
        ///     (metered_value self.new.slots.items (Some fuel.new) (Some limiter.new))
        /// ensures reserved: self.new.slots.reserved ≡ self.old.slots.reserved
        /// ```
        ///
        /// Definitions: [`WithCharge`](crate::specs::store::GrowthSpecs#WithCharge), [`ActsAt`](crate::specs::machine::EffectsSpecs#ActsAt), [`reply_of`](crate::specs::machine::EffectsSpecs#reply_of), [`GrowsTableCharging`](crate::specs::store::TableSpecs#GrowsTableCharging), [`optional_rules`](crate::specs::meter::LimiterSpecs#optional_rules), [`metered_value`](crate::specs::store::GrowthSpecs#metered_value), [`reply_or_no_such`](crate::specs::machine::EffectsSpecs#reply_or_no_such).
        ///
        /// `L` is the type of the limiter, a [`ResourceLimiter`](crate::machine::ResourceLimiter#contract).
        #[inline(always)]
        pub(crate) fn grow<L: ResourceLimiter>(
            &mut self,
            index: usize,
            delta: u64,
            init: TypedRawRef,
            fuel: &mut Fuel,
            limiter: &mut L,
        ) -> Option<Reply> {
            let table = self.live_mut(index)?;
            let grown = table.grow_lending(delta, init, fuel, limiter);
            Some(grown.map_or_else(Reply::Table, Reply::Number))
        }

        /// Reserves memory for so many elements of a table in all.
        ///
        /// # Contract
        ///
        /// ```text
        /// ensures elements: ReservesElementsAt index elements self.old.slots.items
        ///     (reply_or_no_such result) self.new.slots.items
        /// ensures reserved: self.new.slots.reserved ≡ self.old.slots.reserved
        /// ```
        ///
        /// Definitions: [`ReservesElementsAt`](crate::specs::machine::TableEffectsSpecs#ReservesElementsAt), [`reply_or_no_such`](crate::specs::machine::EffectsSpecs#reply_or_no_such).
        #[inline(always)]
        pub(crate) fn reserve(&mut self, index: usize, elements: u64) -> Option<Reply> {
            let table = self.live_mut(index)?;
            match table.reserve(elements) {
                Ok(()) => Some(Reply::Done),
                Err(_) => Some(Reply::NoRoom),
            }
        }

        /// The element of a table at an index, as a reply.
        ///
        /// # Contract
        ///
        /// ```text
        /// ensures: reply_or_no_such result
        ///     ≡ element_reply element (live_at self.now.slots.items index)
        /// ```
        ///
        /// Definitions: [`reply_or_no_such`](crate::specs::machine::EffectsSpecs#reply_or_no_such), [`element_reply`](crate::specs::machine::TableEffectsSpecs#element_reply), [`live_at`](crate::specs::machine::StateSpecs#live_at).
        #[inline(always)]
        pub(crate) fn get(&self, index: usize, element: u64) -> Option<Reply> {
            Some(Reply::Reference(self.live(index)?.get(element)))
        }

        /// # Contract
        ///
        /// ```text
        /// ensures set: SetsElementAt index element value self.old.slots.items
        ///     (reply_or_no_such result) self.new.slots.items
        /// ensures reserved: self.new.slots.reserved ≡ self.old.slots.reserved
        /// ```
        ///
        /// Definitions: [`SetsElementAt`](crate::specs::machine::TableEffectsSpecs#SetsElementAt), [`reply_or_no_such`](crate::specs::machine::EffectsSpecs#reply_or_no_such).
        #[inline(always)]
        pub(crate) fn set(
            &mut self,
            index: usize,
            element: u64,
            value: TypedRawRef,
        ) -> Option<Reply> {
            let table = self.live_mut(index)?;
            Some(table_reply(table.set(element, value)))
        }

        /// # Contract
        ///
        /// ```text
        /// ensures filled: WithCharge (WritesAt Reply.Table index (filling_of dst value len))
        ///     (metered self.old.slots.items (Some fuel.old)) (reply_or_no_such result)
        ///     (metered self.new.slots.items (Some fuel.new))
        /// ensures reserved: self.new.slots.reserved ≡ self.old.slots.reserved
        /// ```
        ///
        /// Definitions: [`WithCharge`](crate::specs::store::GrowthSpecs#WithCharge), [`WritesAt`](crate::specs::machine::EffectsSpecs#WritesAt), [`filling_of`](crate::specs::store::TableSpecs#filling_of), [`metered`](crate::specs::store::GrowthSpecs#metered), [`reply_or_no_such`](crate::specs::machine::EffectsSpecs#reply_or_no_such).
        #[inline(always)]
        pub(crate) fn fill(
            &mut self,
            index: usize,
            dst: u64,
            value: TypedRawRef,
            len: u64,
            fuel: &mut Fuel,
        ) -> Option<Reply> {
            let table = self.live_mut(index)?;
            Some(table_reply(table.fill_metered(dst, value, len, fuel)))
        }

        /// Initializes a part of a table from an element segment, if there is one.
        ///
        /// # Contract
        ///
        /// ```text
        /// ensures copied: WithCharge
        ///     (WritesRangeAt Reply.Table index
        ///     (option_map (initialization_of dst src len) (option_copied segment.entry)))
        ///     (metered self.old.slots.items (Some fuel.old)) (reply_or_no_such result)
        ///     (metered self.new.slots.items (Some fuel.new))
        /// ensures reserved: self.new.slots.reserved ≡ self.old.slots.reserved
        /// ```
        ///
        /// Definitions: [`WithCharge`](crate::specs::store::GrowthSpecs#WithCharge), [`WritesRangeAt`](crate::specs::machine::EffectsSpecs#WritesRangeAt), [`initialization_of`](crate::specs::store::TableSpecs#initialization_of), [`metered`](crate::specs::store::GrowthSpecs#metered), [`reply_or_no_such`](crate::specs::machine::EffectsSpecs#reply_or_no_such).
        #[inline(always)]
        pub(crate) fn init(
            &mut self,
            index: usize,
            segment: Option<&ElementSegment>,
            dst: u64,
            src: u32,
            len: u32,
            fuel: &mut Fuel,
        ) -> Option<Reply> {
            let segment = ElementSegmentRef::from(segment?);
            let table = self.live_mut(index)?;
            Some(table_reply(
                table.init_metered(segment, dst, src, len, fuel),
            ))
        }

        /// Copies a range of a table to another one, or within it.
        ///
        /// # Contract
        ///
        /// ```text
        /// ensures copied: WithCharge
        ///     (WritesFrom Reply.Table (live_at self.old.slots.items src_index) dst_index
        ///     (copy_of dst src len))
        ///     (metered self.old.slots.items (Some fuel.old)) (reply_or_no_such result)
        ///     (metered self.new.slots.items (Some fuel.new))
        /// ensures reserved: self.new.slots.reserved ≡ self.old.slots.reserved
        /// ```
        ///
        /// Definitions: [`WithCharge`](crate::specs::store::GrowthSpecs#WithCharge), [`WritesFrom`](crate::specs::machine::EffectsSpecs#WritesFrom), [`live_at`](crate::specs::machine::StateSpecs#live_at), [`copy_of`](crate::specs::store::TableSpecs#copy_of), [`metered`](crate::specs::store::GrowthSpecs#metered), [`reply_or_no_such`](crate::specs::machine::EffectsSpecs#reply_or_no_such).
        #[inline(always)]
        pub(crate) fn copy(
            &mut self,
            dst_index: usize,
            dst: u64,
            src_index: usize,
            src: u64,
            len: u64,
            fuel: &mut Fuel,
        ) -> Option<Reply> {
            if dst_index == src_index {
                return self.copy_in_one(dst_index, dst, src, len, fuel);
            }
            let mut table = self.take(dst_index)?;
            let copied = match self.live(src_index) {
                Some(source) => Some(table_reply(table.copy_metered(dst, source, src, len, fuel))),
                None => None,
            };
            *self.slots.item_mut(dst_index) = Slot::Live(table);
            copied
        }

        /// Copies a range of a table within it.
        ///
        /// # Contract
        ///
        /// ```text
        /// ensures copied: WithCharge
        ///     (WritesFrom Reply.Table (live_at self.old.slots.items index) index
        ///     (copy_of dst src len))
        ///     (metered self.old.slots.items (Some fuel.old)) (reply_or_no_such result)
        ///     (metered self.new.slots.items (Some fuel.new))
        /// ensures reserved: self.new.slots.reserved ≡ self.old.slots.reserved
        /// ```
        ///
        /// Definitions: [`WithCharge`](crate::specs::store::GrowthSpecs#WithCharge), [`WritesFrom`](crate::specs::machine::EffectsSpecs#WritesFrom), [`live_at`](crate::specs::machine::StateSpecs#live_at), [`copy_of`](crate::specs::store::TableSpecs#copy_of), [`metered`](crate::specs::store::GrowthSpecs#metered), [`reply_or_no_such`](crate::specs::machine::EffectsSpecs#reply_or_no_such).
        #[inline(always)]
        fn copy_in_one(
            &mut self,
            index: usize,
            dst: u64,
            src: u64,
            len: u64,
            fuel: &mut Fuel,
        ) -> Option<Reply> {
            let table = self.live_mut(index)?;
            Some(table_reply(table.copy_within_metered(dst, src, len, fuel)))
        }
    }

    /// The reply to a call on a table that returns nothing.
    ///
    /// # Contract
    ///
    /// ```text
    /// ensures: result ≡ reply_of (λ _. Reply.Done) Reply.Table answer
    /// ```
    ///
    /// Definitions: [`reply_of`](crate::specs::machine::EffectsSpecs#reply_of).
    #[inline(always)]
    fn table_reply(answer: Result<(), TableError>) -> Reply {
        answer.map_or_else(Reply::Table, |()| Reply::Done)
    }
}
mod values {
    //! The element segments, data segments and globals of a machine, by their indices: functions of one
    //! list of the store each, so that what else the store has stays out of their contracts.

    use crate::proved::machine::calls::Reply;
    use crate::proved::machine::data::DataSegment;
    use crate::proved::machine::slots::ReservedList;
    use crate::proved::raw::{RawRef, RawVal};
    use crate::proved::store::ElementSegment;
    use crate::proved::typed::{Global, GlobalType, TypedRawVal};
    use crate::proved::types::RefType;

    /// # Contract
    ///
    /// ```text
    /// ensures made: CreatesSegment (segments.old.reserved ≤ length segments.old.items) ty items.now
    ///     segments.old.items result segments.new.items
    /// ensures reserved: segments.new.reserved ≡ segments.old.reserved
    /// ```
    ///
    /// Definitions: [`CreatesSegment`](crate::specs::machine::ValueEffectsSpecs#CreatesSegment).
    #[inline(always)]
    pub(crate) fn create_segment(
        segments: &mut ReservedList<ElementSegment>,
        ty: RefType,
        items: &[RawRef],
    ) -> Reply {
        if segments.try_reserve(1).is_err() {
            return Reply::NoRoom;
        }
        match ElementSegment::new(ty, items.iter().copied()) {
            Ok(segment) => Reply::Made(segments.push(segment)),
            Err(error) => Reply::Segment(error),
        }
    }

    /// # Contract
    ///
    /// ```text
    /// ensures dropped: DropsItemsAt index segments.old.items result segments.new.items
    /// ensures reserved: segments.new.reserved ≡ segments.old.reserved
    /// ```
    ///
    /// Definitions: [`DropsItemsAt`](crate::specs::machine::ValueEffectsSpecs#DropsItemsAt).
    #[inline(always)]
    pub(crate) fn drop_items(segments: &mut ReservedList<ElementSegment>, index: usize) -> Reply {
        let Some(segment) = segments.get_mut(index) else {
            return Reply::NoSuch;
        };
        segment.drop_items();
        Reply::Done
    }

    /// Makes a data segment of a copy of the bytes.
    ///
    /// # Contract
    ///
    /// ```text
    /// ensures made: AddsItem
    ///     ((0 < length bytes.now) ⊎ (segments.old.reserved ≤ length segments.old.items)) bytes.now
    ///     segments.old.items result segments.new.items
    /// ensures reserved: segments.new.reserved ≡ segments.old.reserved
    /// ```
    ///
    /// Definitions: [`AddsItem`](crate::specs::machine::EffectsSpecs#AddsItem).
    #[inline(always)]
    pub(crate) fn create_data(segments: &mut ReservedList<DataSegment>, bytes: &[u8]) -> Reply {
        match DataSegment::new(bytes) {
            Ok(segment) => add_item(segments, segment),
            Err(_) => Reply::NoRoom,
        }
    }

    /// # Contract
    ///
    /// ```text
    /// ensures dropped: DropsDataAt index segments.old.items result segments.new.items
    /// ensures reserved: segments.new.reserved ≡ segments.old.reserved
    /// ```
    ///
    /// Definitions: [`DropsDataAt`](crate::specs::machine::ValueEffectsSpecs#DropsDataAt).
    #[inline(always)]
    pub(crate) fn drop_data(segments: &mut ReservedList<DataSegment>, index: usize) -> Reply {
        let Some(segment) = segments.get_mut(index) else {
            return Reply::NoSuch;
        };
        segment.drop_bytes();
        Reply::Done
    }

    /// # Contract
    ///
    /// ```text
    /// ensures made: AddsItem (globals.old.reserved ≤ length globals.old.items)
    ///     (record { value = value; ty = ty }) globals.old.items result globals.new.items
    /// ensures reserved: globals.new.reserved ≡ globals.old.reserved
    /// ```
    ///
    /// Definitions: [`AddsItem`](crate::specs::machine::EffectsSpecs#AddsItem).
    #[inline(always)]
    pub(crate) fn create_global(
        globals: &mut ReservedList<Global>,
        value: RawVal,
        ty: GlobalType,
    ) -> Reply {
        add_item(globals, Global::new(value, ty))
    }

    /// Adds a data segment or a global to its list, unless memory for its place is refused.
    ///
    /// # Contract
    ///
    /// ```text
    /// ensures made: AddsItem (items.old.reserved ≤ length items.old.items) item items.old.items result
    ///     items.new.items
    /// ensures reserved: items.new.reserved ≡ items.old.reserved
    /// ```
    ///
    /// Definitions: [`AddsItem`](crate::specs::machine::EffectsSpecs#AddsItem).
    #[inline(always)]
    fn add_item<T>(items: &mut ReservedList<T>, item: T) -> Reply {
        if items.try_reserve(1).is_err() {
            return Reply::NoRoom;
        }
        Reply::Made(items.push(item))
    }

    /// # Contract
    ///
    /// ```text
    /// ensures set: SetsGlobalAt index value globals.old.items result globals.new.items
    /// ensures reserved: globals.new.reserved ≡ globals.old.reserved
    /// ```
    ///
    /// Definitions: [`SetsGlobalAt`](crate::specs::machine::ValueEffectsSpecs#SetsGlobalAt).
    #[inline(always)]
    pub(crate) fn set_global(
        globals: &mut ReservedList<Global>,
        index: usize,
        value: TypedRawVal,
    ) -> Reply {
        let Some(global) = globals.get_mut(index) else {
            return Reply::NoSuch;
        };
        global
            .set(value)
            .map_or_else(Reply::Global, |()| Reply::Done)
    }

    /// # Contract
    ///
    /// ```text
    /// ensures: result ≡ global_reply (slice_get globals.now index)
    /// ```
    ///
    /// Definitions: [`global_reply`](crate::specs::machine::ValueEffectsSpecs#global_reply).
    #[inline(always)]
    pub(crate) fn get_global(globals: &[Global], index: usize) -> Reply {
        globals
            .get(index)
            .map_or(Reply::NoSuch, |global| Reply::Value(*global.get_raw()))
    }
}

pub use calls::{ByteList, Call, Reply};
pub use data::DataSegment;
pub use machine::Machine;
pub use replies::{Replies, TooManyCalls};
pub use running::{
    run, run_into, run_into_lending, run_into_reserving, run_lending, run_reserving,
};
pub use slots::SlotCounts;
