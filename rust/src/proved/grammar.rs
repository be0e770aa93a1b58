//! The text of a script: what its lines say, and the script that they write.
mod command {
    //! The commands of a script, each of which is one call: what the words after its first say, and the
    //! memory type, the table type or the lanes that some of them name.

    use crate::proved::lanes::ImmLaneIdx32;
    use crate::proved::machine::Call;
    use crate::proved::operands::lane::{extract_op, load_lane_op, replace_op, store_lane_op};
    use crate::proved::operands::operand::{self, Operand, list_of};
    use crate::proved::operands::{LineError, number};
    use crate::proved::raw::RawVal;
    use crate::proved::store::{MemoryType, TableType};
    use crate::proved::typed::{GlobalType, TypedRawRef, TypedRawVal};
    use crate::proved::types::{IndexType, RefType};
    use crate::rattle::ArrayExt;

    /// The call of a kind: each part is what an operand writes, or is made of what has these names.
    macro_rules! call {
    ($operands:expr, $count:ident => $kind:ident { $($part:ident),+ }) => {
        call!($operands, $count($($part),+) => $kind { $($part),+ })
    };
    ($operands:expr, $count:ident($($written:ident),+) => $kind:ident
        { $($part:ident $(: $value:expr)?),+ }) => {{
        let ($($written),+) = operand::$count($operands)?;
        Ok(Call::$kind { $($part $(: $value)?),+ })
    }};
}

    /// # Contract
    ///
    /// ```text
    /// ensures: AcceptsWithMemory result (NamesAfter name.now operands.now)
    /// ```
    ///
    /// Definitions: [`AcceptsWithMemory`](crate::specs::operands::LineWordsSpecs#AcceptsWithMemory), [`NamesAfter`](crate::specs::grammar::CommandsSpecs#NamesAfter).
    #[inline]
    pub(crate) fn command(name: &str, operands: &[&str]) -> Result<Call, LineError> {
        match name {
            "write" => write(operands),
            "segment" => new_segment(operands),
            "data" => new_data(operands),
            // What tools/generate writes begins.
            "fuel" | "left" | "global" | "gset" | "gget" | "set" | "show" => {
                values_call(name, operands)
            }
            "memory" | "lent" | "grow" | "drop" | "read" | "mfill" | "mcopy" | "minit" => {
                memory_call(name, operands)
            }
            "load" | "store" | "vload" | "vloadlane" | "vstore" | "vstorelane" => {
                access_call(name, operands)
            }
            "table" | "tgrow" | "get" | "tset" | "init" | "copy" | "fill" | "empty" | "dempty" => {
                table_call(name, operands)
            }
            "make" | "unary" | "binary" | "ternary" | "shift" | "test" | "extract" | "replace"
            | "shuffle" => vector_call(name, operands),
            // What tools/generate writes ends.
            _ => Err(LineError::BadCommand),
        }
    }

    /// The call of a command of the meter, of a global or of a register.
    ///
    /// # Contract
    ///
    /// ```text
    /// requires word: IsValueWord name.now
    /// ensures call: Accepts result (NamesAfter name.now operands.now)
    /// ```
    ///
    /// Definitions: [`IsValueWord`](crate::specs::grammar::CommandsSpecs#IsValueWord), [`Accepts`](crate::specs::operands::LineWordsSpecs#Accepts), [`NamesAfter`](crate::specs::grammar::CommandsSpecs#NamesAfter).
    #[inline]
    fn values_call(name: &str, operands: &[&str]) -> Result<Call, LineError> {
        match name {
            "fuel" => Ok(Call::SetFuel(operand::one(operands)?)),
            "left" if operands.is_empty() => Ok(Call::GetFuel),
            "left" => Err(LineError::BadCommand),
            "global" => call!(operands, four(content, mutability, lo, hi) => NewGlobal {
                value: RawVal { lo, hi }, ty: GlobalType::new(content, mutability)
            }),
            "gset" => call!(operands, four(global, ty, lo, hi) => SetGlobal {
                global, value: TypedRawVal::new(ty, RawVal { lo, hi })
            }),
            "gget" => Ok(Call::GetGlobal(operand::one(operands)?)),
            "set" => call!(operands, three(dst, lo, hi) => SetRegister {
                dst, value: RawVal { lo, hi }
            }),
            _ => Ok(Call::GetRegister(operand::one(operands)?)),
        }
    }

    /// The call of a command of a memory, or of one that drops a memory or a table.
    ///
    /// # Contract
    ///
    /// ```text
    /// requires word: IsMemoryWord name.now
    /// ensures call: Accepts result (NamesAfter name.now operands.now)
    /// ```
    ///
    /// Definitions: [`IsMemoryWord`](crate::specs::grammar::CommandsSpecs#IsMemoryWord), [`Accepts`](crate::specs::operands::LineWordsSpecs#Accepts), [`NamesAfter`](crate::specs::grammar::CommandsSpecs#NamesAfter).
    #[inline]
    fn memory_call(name: &str, operands: &[&str]) -> Result<Call, LineError> {
        match name {
            "memory" => Ok(Call::NewMemory(memory_type(operands)?)),
            "lent" => Ok(Call::NewLentMemory(memory_type(operands)?)),
            // What tools/generate writes begins.
            "grow" => call!(operands, two => GrowMemory { memory, pages }),
            "read" => call!(operands, three => Read { memory, offset, len }),
            "mfill" => call!(operands, four => FillMemory { memory, dst, value, len }),
            "mcopy" => {
                call!(operands, five => CopyMemory { dst_memory, dst, src_memory, src, len })
            }
            "minit" => call!(operands, five => InitMemory { memory, segment, dst, src, len }),
            // What tools/generate writes ends.
            _ => drop_live(operands),
        }
    }

    /// `write K OFFSET BYTE ...`, which may have no byte.
    ///
    /// # Contract
    ///
    /// ```text
    /// ensures: AcceptsWithMemory result (NamesAfter (codes "write") operands.now)
    /// ```
    ///
    /// Definitions: [`AcceptsWithMemory`](crate::specs::operands::LineWordsSpecs#AcceptsWithMemory), [`NamesAfter`](crate::specs::grammar::CommandsSpecs#NamesAfter).
    #[inline]
    fn write(operands: &[&str]) -> Result<Call, LineError> {
        let [memory, offset, bytes @ ..] = operands else {
            return Err(LineError::BadCommand);
        };
        Ok(Call::Write {
            memory: usize::from_word(memory)?,
            offset: usize::from_word(offset)?,
            bytes: list_of(bytes)?,
        })
    }

    /// `drop memory K` and `drop table K`.
    ///
    /// # Contract
    ///
    /// ```text
    /// ensures: Accepts result (NamesAfter (codes "drop") operands.now)
    /// ```
    ///
    /// Definitions: [`Accepts`](crate::specs::operands::LineWordsSpecs#Accepts), [`NamesAfter`](crate::specs::grammar::CommandsSpecs#NamesAfter).
    #[inline]
    fn drop_live(operands: &[&str]) -> Result<Call, LineError> {
        let [kind, index] = operands else {
            return Err(LineError::BadCommand);
        };
        let index = usize::from_word(index)?;
        match *kind {
            "memory" => Ok(Call::DropMemory(index)),
            "table" => Ok(Call::DropTable(index)),
            _ => Err(LineError::BadCommand),
        }
    }

    /// The memory type of four words, if there is such a type.
    ///
    /// # Contract
    ///
    /// ```text
    /// ensures: Accepts result (λ ty. (length words.now ≡ 4) × NamesType (word_at words.now 0)
    ///     (word_at words.now 1) (word_at words.now 2) (word_at words.now 3) ty)
    /// ```
    ///
    /// Definitions: [`Accepts`](crate::specs::operands::LineWordsSpecs#Accepts), [`NamesType`](crate::specs::grammar::CommandsSpecs#NamesType), [`word_at`](crate::specs::operands::LineWordsSpecs#word_at).
    #[inline]
    fn memory_type(words: &[&str]) -> Result<MemoryType, LineError> {
        let (minimum, maximum, page_size_log2, index) = operand::four(words)?;
        let mut builder = MemoryType::builder();
        builder
            .min(minimum)
            .max(maximum)
            .page_size_log2(page_size_log2)
            .memory64(matches!(index, IndexType::I64));
        builder.build().map_err(|_| LineError::BadCommand)
    }

    /// The call of a command that loads or stores.
    ///
    /// # Contract
    ///
    /// ```text
    /// requires word: IsAccessWord name.now
    /// ensures call: Accepts result (NamesAfter name.now operands.now)
    /// ```
    ///
    /// Definitions: [`IsAccessWord`](crate::specs::grammar::CommandsSpecs#IsAccessWord), [`Accepts`](crate::specs::operands::LineWordsSpecs#Accepts), [`NamesAfter`](crate::specs::grammar::CommandsSpecs#NamesAfter).
    #[inline]
    fn access_call(name: &str, operands: &[&str]) -> Result<Call, LineError> {
        match name {
            "store" => call!(operands, five(op, memory, ptr, offset, lo) => Store {
                op, memory, ptr, offset, value: RawVal::from_bits64(lo)
            }),
            "vloadlane" => load_lane(operands),
            // What tools/generate writes begins.
            "load" => call!(operands, four => Load { op, memory, ptr, offset }),
            "vload" => call!(operands, five => VectorLoad { op, dst, memory, ptr, offset }),
            "vstore" => call!(operands, four => VectorStore { a, memory, ptr, offset }),
            // What tools/generate writes ends.
            _ => store_lane(operands),
        }
    }

    /// `vloadlane NAME D A LANE K PTR OFFSET`.
    ///
    /// # Contract
    ///
    /// ```text
    /// ensures: Accepts result (NamesAfter (codes "vloadlane") operands.now)
    /// ```
    ///
    /// Definitions: [`Accepts`](crate::specs::operands::LineWordsSpecs#Accepts), [`NamesAfter`](crate::specs::grammar::CommandsSpecs#NamesAfter).
    #[inline]
    fn load_lane(operands: &[&str]) -> Result<Call, LineError> {
        let &[name, dst, a, lane, memory, ptr, offset] = operands else {
            return Err(LineError::BadCommand);
        };
        let op = load_lane_op(name, lane)?;
        call!(&[dst, a, memory, ptr, offset], five(dst, a, memory, ptr, offset) => LoadLane {
            op, dst, a, memory, ptr, offset
        })
    }

    /// `vstorelane NAME A LANE K PTR OFFSET`.
    ///
    /// # Contract
    ///
    /// ```text
    /// ensures: Accepts result (NamesAfter (codes "vstorelane") operands.now)
    /// ```
    ///
    /// Definitions: [`Accepts`](crate::specs::operands::LineWordsSpecs#Accepts), [`NamesAfter`](crate::specs::grammar::CommandsSpecs#NamesAfter).
    #[inline]
    fn store_lane(operands: &[&str]) -> Result<Call, LineError> {
        let &[name, a, lane, memory, ptr, offset] = operands else {
            return Err(LineError::BadCommand);
        };
        let op = store_lane_op(name, lane)?;
        call!(&[a, memory, ptr, offset], four(a, memory, ptr, offset) => StoreLane {
            op, a, memory, ptr, offset
        })
    }

    /// The call of a command of a table, or of one that empties a segment.
    ///
    /// # Contract
    ///
    /// ```text
    /// requires word: IsTableWord name.now
    /// ensures call: Accepts result (NamesAfter name.now operands.now)
    /// ```
    ///
    /// Definitions: [`IsTableWord`](crate::specs::grammar::CommandsSpecs#IsTableWord), [`Accepts`](crate::specs::operands::LineWordsSpecs#Accepts), [`NamesAfter`](crate::specs::grammar::CommandsSpecs#NamesAfter).
    #[inline]
    fn table_call(name: &str, operands: &[&str]) -> Result<Call, LineError> {
        match name {
            "table" => new_table(operands),
            "tgrow" => call!(operands, four(table, delta, ty, raw) => GrowTable {
                table, delta, init: TypedRawRef::new(raw, ty)
            }),
            "tset" => call!(operands, four(table, index, ty, raw) => SetElement {
                table, index, value: TypedRawRef::new(raw, ty)
            }),
            "fill" => call!(operands, five(table, dst, ty, raw, len) => FillTable {
                table, dst, value: TypedRawRef::new(raw, ty), len
            }),
            "dempty" => Ok(Call::DropData(operand::one(operands)?)),
            // What tools/generate writes begins.
            "get" => call!(operands, two => GetElement { table, index }),
            "init" => call!(operands, five => InitTable { table, segment, dst, src, len }),
            "copy" => call!(operands, five => CopyTable { dst_table, dst, src_table, src, len }),
            // What tools/generate writes ends.
            _ => Ok(Call::DropItems(operand::one(operands)?)),
        }
    }

    /// `table T MIN X WIDTH T N`.
    ///
    /// # Contract
    ///
    /// ```text
    /// ensures: Accepts result (NamesAfter (codes "table") operands.now)
    /// ```
    ///
    /// Definitions: [`Accepts`](crate::specs::operands::LineWordsSpecs#Accepts), [`NamesAfter`](crate::specs::grammar::CommandsSpecs#NamesAfter).
    #[inline]
    fn new_table(operands: &[&str]) -> Result<Call, LineError> {
        let &[element, min, max, width, init_ty, raw] = operands else {
            return Err(LineError::BadCommand);
        };
        let ty = table_type(&[element, min, max, width])?;
        call!(&[init_ty, raw], two(init_ty, raw) => NewTable {
            ty, init: TypedRawRef::new(raw, init_ty)
        })
    }

    /// `segment T N ...`, which may have no reference.
    ///
    /// # Contract
    ///
    /// ```text
    /// ensures: AcceptsWithMemory result (NamesAfter (codes "segment") operands.now)
    /// ```
    ///
    /// Definitions: [`AcceptsWithMemory`](crate::specs::operands::LineWordsSpecs#AcceptsWithMemory), [`NamesAfter`](crate::specs::grammar::CommandsSpecs#NamesAfter).
    #[inline]
    fn new_segment(operands: &[&str]) -> Result<Call, LineError> {
        let [ty, items @ ..] = operands else {
            return Err(LineError::BadCommand);
        };
        Ok(Call::NewSegment {
            ty: RefType::from_word(ty)?,
            items: list_of(items)?,
        })
    }

    /// `data BYTE ...`, which may have no byte.
    ///
    /// # Contract
    ///
    /// ```text
    /// ensures: AcceptsWithMemory result (NamesAfter (codes "data") operands.now)
    /// ```
    ///
    /// Definitions: [`AcceptsWithMemory`](crate::specs::operands::LineWordsSpecs#AcceptsWithMemory), [`NamesAfter`](crate::specs::grammar::CommandsSpecs#NamesAfter).
    #[inline]
    fn new_data(operands: &[&str]) -> Result<Call, LineError> {
        Ok(Call::NewData(list_of(operands)?))
    }

    /// The table type of four words, if there is such a type.
    ///
    /// # Contract
    ///
    /// ```text
    /// ensures: Accepts result (λ ty. (length words.now ≡ 4) × NamesTableType (word_at words.now 0)
    ///     (word_at words.now 1) (word_at words.now 2) (word_at words.now 3) ty)
    /// ```
    ///
    /// Definitions: [`Accepts`](crate::specs::operands::LineWordsSpecs#Accepts), [`NamesTableType`](crate::specs::grammar::CommandsSpecs#NamesTableType), [`word_at`](crate::specs::operands::LineWordsSpecs#word_at).
    #[inline]
    fn table_type(words: &[&str]) -> Result<TableType, LineError> {
        let (element, minimum, maximum, index) = operand::four::<_, u64, Option<u64>, _>(words)?;
        if maximum.is_some_and(|most| most < minimum) {
            return Err(LineError::BadCommand);
        }
        match index {
            IndexType::I32 => {
                let minimum = index32(minimum)?;
                let maximum = maximum.map(index32).transpose()?;
                Ok(TableType::new(element, minimum, maximum))
            }
            IndexType::I64 => Ok(TableType::new64(element, minimum, maximum)),
        }
    }

    /// The limit of a table whose indices have 32 bits.
    ///
    /// # Contract
    ///
    /// ```text
    /// ensures value: OkIff result (limit < 2 ^ 32) limit
    /// ensures refused: IfErr result (λ error. error ≡ LineError.BadCommand)
    /// ```
    #[inline]
    fn index32(limit: u64) -> Result<u32, LineError> {
        u32::try_from(limit).map_err(|_| LineError::BadCommand)
    }

    /// The call of a command of a vector instruction.
    ///
    /// # Contract
    ///
    /// ```text
    /// requires word: IsVectorWord name.now
    /// ensures call: Accepts result (NamesAfter name.now operands.now)
    /// ```
    ///
    /// Definitions: [`IsVectorWord`](crate::specs::grammar::CommandsSpecs#IsVectorWord), [`Accepts`](crate::specs::operands::LineWordsSpecs#Accepts), [`NamesAfter`](crate::specs::grammar::CommandsSpecs#NamesAfter).
    #[inline]
    fn vector_call(name: &str, operands: &[&str]) -> Result<Call, LineError> {
        match name {
            "extract" => extract(operands),
            "replace" => replace(operands),
            // What tools/generate writes begins.
            "make" => call!(operands, three => Make { op, dst, a }),
            "unary" => call!(operands, three => Unary { op, dst, a }),
            "binary" => call!(operands, four => Binary { op, dst, a, b }),
            "ternary" => call!(operands, five => Ternary { op, dst, a, b, c }),
            "shift" => call!(operands, four => Shift { op, dst, a, amount }),
            "test" => call!(operands, two => Test { op, a }),
            // What tools/generate writes ends.
            _ => shuffle(operands),
        }
    }

    /// `extract NAME A LANE`.
    ///
    /// # Contract
    ///
    /// ```text
    /// ensures: Accepts result (NamesAfter (codes "extract") operands.now)
    /// ```
    ///
    /// Definitions: [`Accepts`](crate::specs::operands::LineWordsSpecs#Accepts), [`NamesAfter`](crate::specs::grammar::CommandsSpecs#NamesAfter).
    #[inline]
    fn extract(operands: &[&str]) -> Result<Call, LineError> {
        let &[name, a, lane] = operands else {
            return Err(LineError::BadCommand);
        };
        match (extract_op(name, lane), number(a)) {
            (Ok(op), Ok(a)) => Ok(Call::Extract { op, a }),
            _ => Err(LineError::BadCommand),
        }
    }

    /// `replace NAME D A LANE B`.
    ///
    /// # Contract
    ///
    /// ```text
    /// ensures: Accepts result (NamesAfter (codes "replace") operands.now)
    /// ```
    ///
    /// Definitions: [`Accepts`](crate::specs::operands::LineWordsSpecs#Accepts), [`NamesAfter`](crate::specs::grammar::CommandsSpecs#NamesAfter).
    #[inline]
    fn replace(operands: &[&str]) -> Result<Call, LineError> {
        let &[name, dst, a, lane, item] = operands else {
            return Err(LineError::BadCommand);
        };
        match (replace_op(name, lane), number(dst), number(a), number(item)) {
            (Ok(op), Ok(dst), Ok(a), Ok(item)) => Ok(Call::Replace { op, dst, a, item }),
            _ => Err(LineError::BadCommand),
        }
    }

    /// `shuffle D A B LANE ...`, with sixteen lanes.
    ///
    /// # Contract
    ///
    /// ```text
    /// ensures: Accepts result (NamesAfter (codes "shuffle") operands.now)
    /// ```
    ///
    /// Definitions: [`Accepts`](crate::specs::operands::LineWordsSpecs#Accepts), [`NamesAfter`](crate::specs::grammar::CommandsSpecs#NamesAfter).
    #[inline]
    fn shuffle(operands: &[&str]) -> Result<Call, LineError> {
        let [dst, a, b, lanes @ ..] = operands else {
            return Err(LineError::BadCommand);
        };
        match (number(dst), number(a), number(b), lanes_of(lanes)) {
            (Ok(dst), Ok(a), Ok(b), Ok(lanes)) => Ok(Call::Shuffle { dst, a, b, lanes }),
            _ => Err(LineError::BadCommand),
        }
    }

    /// The indices of lanes that sixteen words write, one each.
    ///
    /// # Contract
    ///
    /// ```text
    /// ensures: Accepts result (WritesLanes words.now)
    /// ```
    ///
    /// Definitions: [`Accepts`](crate::specs::operands::LineWordsSpecs#Accepts), [`WritesLanes`](crate::specs::operands::NamesSpecs#WritesLanes).
    #[inline]
    fn lanes_of(words: &[&str]) -> Result<[ImmLaneIdx32; 16], LineError> {
        let Ok(words) = <&[&str; 16]>::try_from(words) else {
            return Err(LineError::BadCommand);
        };
        words.try_map_all(|word| ImmLaneIdx32::from_word(word))
    }
}
mod error {
    //! Why a text isn't parsed.

    use crate::rattle::alloc::AllocError;

    /// Why a text isn't parsed.
    #[derive(Clone, Copy, Debug, PartialEq, Eq)]
    #[non_exhaustive]
    pub enum ParseError {
        /// The first line that is no command, counted from 1.
        BadCommand {
            /// The number of the line, from 1 on.
            line: usize,
        },
        /// There wasn't enough memory for the script.
        OutOfMemory,
    }

    /// # Contract
    ///
    /// ```text
    /// from_gives = λ _ error. error ≡ OutOfMemory
    /// ```
    impl From<AllocError> for ParseError {
        #[inline]
        fn from(_: AllocError) -> Self {
            ParseError::OutOfMemory
        }
    }
}
mod header {
    //! The header lines of a script: what the words after their first say.

    use crate::proved::machine::SlotCounts;
    use crate::proved::meter::{Amounts, LimiterAnswer};
    use crate::proved::operands::operand::{self, list_of};
    use crate::proved::operands::{LineError, number};
    use crate::rattle::Vec;

    /// The most tenants that a script may have.
    const MOST_TENANTS: usize = 1024;

    /// What a `meter` line says.
    #[derive(Clone, Copy)]
    #[non_exhaustive]
    pub enum MeterLine {
        /// `meter off`: no fuel is counted.
        Off,
        /// `meter on R`: R bytes are copied for one fuel.
        On(u32),
    }

    /// What a limiter line says. A script has at most one, of whatever kind.
    #[non_exhaustive]
    pub enum LimiterLine {
        /// `quota B E`: the most bytes of all memories, and the most elements of all tables.
        Quota(Amounts),
        /// `answers W ...`, which may have no word: one for each question, in order.
        Answers(Vec<LimiterAnswer>),
        /// `tenants N B E`.
        Tenants(TenantsLine),
    }

    /// What a `tenants` line says: a pool of so many machines.
    #[derive(Clone, Copy)]
    pub struct TenantsLine {
        /// How many machines there are, from 1 to 1,024.
        pub count: usize,
        /// The most bytes and the most elements that all of them have together.
        pub caps: Amounts,
    }

    /// What a `region` line says: a lent region of so many bytes, all the same.
    #[derive(Clone, Copy)]
    pub struct RegionLine {
        /// How many bytes it has.
        pub len: usize,
        /// Each of its bytes.
        pub byte: u8,
    }

    /// The header lines that a script has.
    #[derive(Default)]
    pub struct Header {
        /// The `meter` line, if there is one. Without it the meter is off.
        pub meter: Option<MeterLine>,
        /// The limiter line, if there is one. Without it no limiter is given.
        pub limiter_line: Option<LimiterLine>,
        /// The `region` line, if there is one. Without it no region is lent.
        pub region: Option<RegionLine>,
        /// The `reserve` line, if there is one. Without it no slot is reserved.
        pub reserve: Option<SlotCounts>,
    }

    impl Header {
        /// How many tenants the script has: none without a `tenants` line.
        ///
        /// # Contract
        ///
        /// ```text
        /// ensures: result ≡ tenants_of self.now.limiter_line
        /// ```
        ///
        /// Definitions: [`tenants_of`](crate::specs::grammar::HeadersSpecs#tenants_of).
        #[must_use]
        #[inline]
        pub fn tenants(&self) -> usize {
            match &self.limiter_line {
                Some(LimiterLine::Tenants(line)) => line.count,
                _ => 0,
            }
        }

        /// How many slots of each kind the script's machine, or each of its tenants, has reserved: none
        /// without a `reserve` line.
        ///
        /// # Contract
        ///
        /// ```text
        /// ensures: result ≡ slots_of self.now
        /// ```
        ///
        /// Definitions: [`slots_of`](crate::specs::grammar::HeadersSpecs#slots_of).
        #[must_use]
        #[inline]
        pub fn slots(&self) -> SlotCounts {
            self.reserve.unwrap_or_default()
        }
    }

    /// What the words after `meter` say.
    ///
    /// # Contract
    ///
    /// ```text
    /// ensures: Accepts result (WritesMeter operands.now)
    /// ```
    ///
    /// Definitions: [`Accepts`](crate::specs::operands::LineWordsSpecs#Accepts), [`WritesMeter`](crate::specs::grammar::HeadersSpecs#WritesMeter).
    #[inline]
    pub(crate) fn meter_line(operands: &[&str]) -> Result<MeterLine, LineError> {
        match operands {
            ["off"] => Ok(MeterLine::Off),
            ["on", bytes_per_fuel] => Ok(MeterLine::On(number(bytes_per_fuel)?)),
            _ => Err(LineError::BadCommand),
        }
    }

    /// What the words after `region` say.
    ///
    /// # Contract
    ///
    /// ```text
    /// ensures: Accepts result (WritesRegion operands.now)
    /// ```
    ///
    /// Definitions: [`Accepts`](crate::specs::operands::LineWordsSpecs#Accepts), [`WritesRegion`](crate::specs::grammar::HeadersSpecs#WritesRegion).
    #[inline]
    pub(crate) fn region_line(operands: &[&str]) -> Result<RegionLine, LineError> {
        let (len, byte) = operand::two(operands)?;
        Ok(RegionLine { len, byte })
    }

    /// What the words after `reserve` say.
    ///
    /// # Contract
    ///
    /// ```text
    /// ensures: Accepts result (WritesReserve operands.now)
    /// ```
    ///
    /// Definitions: [`Accepts`](crate::specs::operands::LineWordsSpecs#Accepts), [`WritesReserve`](crate::specs::grammar::HeadersSpecs#WritesReserve).
    #[inline]
    pub(crate) fn reserve_line(operands: &[&str]) -> Result<SlotCounts, LineError> {
        let (memories, tables, segments, data_segments, globals) = operand::five(operands)?;
        Ok(SlotCounts {
            memories,
            tables,
            segments,
            data_segments,
            globals,
        })
    }

    /// `quota B E`.
    ///
    /// # Contract
    ///
    /// ```text
    /// ensures: Accepts result (NamesLimiterAfter (codes "quota") operands.now)
    /// ```
    ///
    /// Definitions: [`Accepts`](crate::specs::operands::LineWordsSpecs#Accepts), [`NamesLimiterAfter`](crate::specs::grammar::HeadersSpecs#NamesLimiterAfter).
    #[inline]
    pub(crate) fn quota(operands: &[&str]) -> Result<LimiterLine, LineError> {
        let (bytes, elements) = operand::two(operands)?;
        Ok(LimiterLine::Quota(Amounts { bytes, elements }))
    }

    /// `tenants N B E`.
    ///
    /// # Contract
    ///
    /// ```text
    /// ensures: Accepts result (NamesLimiterAfter (codes "tenants") operands.now)
    /// ```
    ///
    /// Definitions: [`Accepts`](crate::specs::operands::LineWordsSpecs#Accepts), [`NamesLimiterAfter`](crate::specs::grammar::HeadersSpecs#NamesLimiterAfter).
    #[inline]
    pub(crate) fn tenants(operands: &[&str]) -> Result<LimiterLine, LineError> {
        let (count, bytes, elements) = operand::three(operands)?;
        match count {
            1..=MOST_TENANTS => Ok(LimiterLine::Tenants(TenantsLine {
                count,
                caps: Amounts { bytes, elements },
            })),
            _ => Err(LineError::BadCommand),
        }
    }

    /// `answers W ...`, which may have no word.
    ///
    /// # Contract
    ///
    /// ```text
    /// ensures: AcceptsWithMemory result (NamesLimiterAfter (codes "answers") operands.now)
    /// ```
    ///
    /// Definitions: [`AcceptsWithMemory`](crate::specs::operands::LineWordsSpecs#AcceptsWithMemory), [`NamesLimiterAfter`](crate::specs::grammar::HeadersSpecs#NamesLimiterAfter).
    #[inline]
    pub(crate) fn listed(operands: &[&str]) -> Result<LimiterLine, LineError> {
        Ok(LimiterLine::Answers(list_of(operands)?))
    }
}
#[cfg(any(doc, test))]
pub mod laws {
    //! Laws of all texts and of the scripts that they write, each the contract of a function.

    /// Two scripts that one text writes say the same. A list counts by its items, however it is held.
    ///
    /// # Contract
    ///
    /// ```text
    /// ensures: TextsWriteOneScript
    /// ```
    ///
    /// Definitions: [`TextsWriteOneScript`](crate::specs::grammar::MeaningsSpecs#TextsWriteOneScript).
    #[inline]
    pub fn texts_write_one_script() {}

    /// The first bad line of a text is one number.
    ///
    /// # Contract
    ///
    /// ```text
    /// ensures: FirstBadLinesAreOne
    /// ```
    ///
    /// Definitions: [`FirstBadLinesAreOne`](crate::specs::grammar::MeaningsSpecs#FirstBadLinesAreOne).
    #[inline]
    pub fn first_bad_lines_are_one() {}

    /// A text that writes a script has no bad line.
    ///
    /// # Contract
    ///
    /// ```text
    /// ensures: WrittenTextsHaveNoBadLine
    /// ```
    ///
    /// Definitions: [`WrittenTextsHaveNoBadLine`](crate::specs::grammar::MeaningsSpecs#WrittenTextsHaveNoBadLine).
    #[inline]
    pub fn written_texts_have_no_bad_line() {}
}
mod script {
    //! The script that a text writes: how a line adds to its header or its calls by parts; the parser.

    use crate::proved::grammar::command::command;
    use crate::proved::grammar::error::ParseError;
    use crate::proved::grammar::header::{
        Header, LimiterLine, MeterLine, RegionLine, listed, meter_line, quota, region_line,
        reserve_line, tenants,
    };
    use crate::proved::machine::{Call, SlotCounts};
    use crate::proved::operands::{LineError, operand, read_words};
    use crate::rattle::Vec;
    use crate::rattle::alloc::AllocError;
    use std::str;

    /// What a script asks for: what its lines say that were taken in.
    pub struct Script {
        /// What its header lines say.
        pub header: Header,
        /// Its calls by parts.
        pub parts: Parts,
    }

    /// Calls by parts, which `as` lines separate: without one there is one part, tenant 0's.
    ///
    /// # Model
    ///
    /// ```text
    /// Value = PartsValue
    /// view = λ p. record {
    ///     earlier = map (part_at p.calls.items) p.earlier.items;
    ///     tenant = p.tenant;
    ///     calls = drop p.start p.calls.items;
    ///     }
    /// invariant = λ p. AreCut p.earlier.items p.start p.calls.items
    /// ```
    ///
    /// Definitions: [`PartsValue`](crate::specs::grammar::PartsSpecs#PartsValue), [`part_at`](crate::specs::grammar::PartsSpecs#part_at), [`AreCut`](crate::specs::grammar::PartsSpecs#AreCut).
    pub struct Parts {
        /// The call of each command, in order.
        calls: Vec<Call>,
        /// The parts before the last `as` line.
        earlier: Vec<Span>,
        /// Whose calls the last part has, from 0.
        tenant: usize,
        /// Where the last part begins.
        start: usize,
    }

    /// Whose calls a part has, and the places where they stand.
    #[derive(Clone, Copy)]
    struct Span {
        tenant: usize,
        start: usize,
        end: usize,
    }

    impl Parts {
        /// One part without calls.
        ///
        /// # Contract
        ///
        /// ```text
        /// ensures: result ≡ record { earlier = []; tenant = 0; calls = [] }
        /// ```
        #[inline]
        fn new() -> Self {
            Parts {
                calls: Vec::new(),
                earlier: Vec::new(),
                tenant: 0,
                start: 0,
            }
        }

        /// Whether there is no call, and no part but the first.
        ///
        /// # Contract
        ///
        /// ```text
        /// ensures: IsTrue result ↔ ((self.now.calls ≡ []) × (self.now.earlier ≡ []))
        /// ```
        #[inline]
        fn is_empty(&self) -> bool {
            self.calls.is_empty() && self.earlier.is_empty()
        }

        /// Adds a call to the last part.
        ///
        /// # Contract
        ///
        /// ```text
        /// ensures: OnOk result (self.new ≡ record self.old { calls = self.old.calls ++ call ∷ [] })
        /// ```
        #[inline]
        fn push(&mut self, call: Call) -> Result<(), AllocError> {
            self.calls.push(call)?;
            Ok(())
        }

        /// Adds a part of a tenant, which has no call yet.
        ///
        /// # Contract
        ///
        /// ```text
        /// ensures: OnOk result
        ///     (self.new ≡ record { earlier = parts_in self.old; tenant = tenant; calls = [] })
        /// ```
        ///
        /// Definitions: [`parts_in`](crate::specs::grammar::PartsSpecs#parts_in).
        #[inline]
        fn begin(&mut self, tenant: usize) -> Result<(), AllocError> {
            let end = self.calls.len();
            let span = Span {
                tenant: self.tenant,
                start: self.start,
                end,
            };
            self.earlier.push(span)?;
            self.tenant = tenant;
            self.start = end;
            Ok(())
        }

        /// How many parts there are, one at least.
        ///
        /// # Contract
        ///
        /// ```text
        /// ensures: result ≡ length (parts_in self.now)
        /// ```
        ///
        /// Definitions: [`parts_in`](crate::specs::grammar::PartsSpecs#parts_in).
        #[must_use]
        #[inline]
        pub fn len(&self) -> usize {
            self.earlier.len() + 1
        }

        /// The tenant and the calls of a part, by its index from 0.
        ///
        /// # Contract
        ///
        /// ```text
        /// ensures: option_map (λ part. record { tenant = part.0; calls = part.1.now }) result
        ///     ≡ slice_get (parts_in self.now) index
        /// ```
        ///
        /// Definitions: [`parts_in`](crate::specs::grammar::PartsSpecs#parts_in).
        #[must_use]
        #[inline]
        pub fn get(&self, index: usize) -> Option<(usize, &[Call])> {
            if index < self.earlier.len() {
                let span = self.earlier[index];
                Some((span.tenant, calls_at(&self.calls, span.start, span.end)))
            } else if index == self.earlier.len() {
                Some((
                    self.tenant,
                    calls_at(&self.calls, self.start, self.calls.len()),
                ))
            } else {
                None
            }
        }

        /// The calls of all parts, in order.
        ///
        /// # Contract
        ///
        /// ```text
        /// ensures: result.now ≡ calls_in (parts_in self.now)
        /// ```
        ///
        /// Definitions: [`calls_in`](crate::specs::grammar::PartsSpecs#calls_in), [`parts_in`](crate::specs::grammar::PartsSpecs#parts_in).
        #[must_use]
        #[inline]
        pub fn calls(&self) -> &[Call] {
            &self.calls
        }
    }

    /// The calls from one place to another.
    ///
    /// # Contract
    ///
    /// ```text
    /// requires order: start ≤ end
    /// requires within: end ≤ length calls.now
    /// ensures calls: result.now ≡ take (end - start) (drop start calls.now)
    /// ```
    #[inline]
    fn calls_at(calls: &[Call], start: usize, end: usize) -> &[Call] {
        &calls[start..end]
    }

    impl Script {
        /// A script without lines.
        ///
        /// # Contract
        ///
        /// ```text
        /// ensures: IsNewScript result
        /// ```
        ///
        /// Definitions: [`IsNewScript`](crate::specs::grammar::LinesSpecs#IsNewScript).
        #[inline]
        fn new() -> Self {
            Script {
                header: Header::default(),
                parts: Parts::new(),
            }
        }

        /// Takes in one line's words, which may be none. Header lines stand before all commands.
        ///
        /// # Contract
        ///
        /// ```text
        /// ensures ok: OnOk result (AddsWords self.old words.now self.new)
        /// ensures refused: IfErr result (λ error. error ≡ LineError.BadCommand
        ///     → (new : Script) → ¬ (AddsWords self.old words.now new))
        /// ```
        ///
        /// Definitions: [`AddsWords`](crate::specs::grammar::LinesSpecs#AddsWords).
        #[inline]
        fn take_line(&mut self, words: &[&str]) -> Result<(), LineError> {
            let [name, operands @ ..] = words else {
                return Ok(());
            };
            let line = line_of(name, operands)?;
            self.take(line)
        }

        /// Takes in what a line says.
        ///
        /// # Contract
        ///
        /// ```text
        /// ensures ok: OnOk result (AddsLine self.old line self.new)
        /// ensures refused: IfErr result (λ error. error ≡ LineError.BadCommand
        ///     → (new : Script) → ¬ (AddsLine self.old line new))
        /// ```
        ///
        /// Definitions: [`AddsLine`](crate::specs::grammar::LinesSpecs#AddsLine).
        #[inline]
        fn take(&mut self, line: Line) -> Result<(), LineError> {
            match line {
                Line::Meter(line) => self.take_meter(line),
                Line::Limiter(line) => self.take_limiter(line),
                Line::Region(line) => self.take_region(line),
                Line::Reserve(slots) => self.take_reserve(slots),
                Line::As(tenant) => self.take_part(tenant),
                Line::Call(call) => self.take_call(call),
            }
        }

        /// Takes in a `meter` line, of which a script has at most one.
        ///
        /// # Contract
        ///
        /// ```text
        /// ensures ok: OnOk result (AddsLine self.old (Line.Meter line) self.new)
        /// ensures refused: OnErr result
        ///     ((new : Script) → ¬ (AddsLine self.old (Line.Meter line) new))
        /// ```
        ///
        /// Definitions: [`AddsLine`](crate::specs::grammar::LinesSpecs#AddsLine).
        #[inline]
        fn take_meter(&mut self, line: MeterLine) -> Result<(), LineError> {
            if !self.parts.is_empty() || self.header.meter.is_some() {
                return Err(LineError::BadCommand);
            }
            self.header.meter = Some(line);
            Ok(())
        }

        /// Takes in a limiter line, of which a script has at most one. A pool has no region.
        ///
        /// # Contract
        ///
        /// ```text
        /// ensures ok: OnOk result (AddsLine self.old (Line.Limiter line) self.new)
        /// ensures refused: OnErr result
        ///     ((new : Script) → ¬ (AddsLine self.old (Line.Limiter line) new))
        /// ```
        ///
        /// Definitions: [`AddsLine`](crate::specs::grammar::LinesSpecs#AddsLine).
        #[inline]
        fn take_limiter(&mut self, line: LimiterLine) -> Result<(), LineError> {
            if !self.parts.is_empty() || self.header.limiter_line.is_some() {
                return Err(LineError::BadCommand);
            }
            if self.header.region.is_some() && matches!(line, LimiterLine::Tenants(_)) {
                return Err(LineError::BadCommand);
            }
            self.header.limiter_line = Some(line);
            Ok(())
        }

        /// Takes in a `region` line, of which a script has at most one, and none beside a pool.
        ///
        /// # Contract
        ///
        /// ```text
        /// ensures ok: OnOk result (AddsLine self.old (Line.Region line) self.new)
        /// ensures refused: OnErr result
        ///     ((new : Script) → ¬ (AddsLine self.old (Line.Region line) new))
        /// ```
        ///
        /// Definitions: [`AddsLine`](crate::specs::grammar::LinesSpecs#AddsLine).
        #[inline]
        fn take_region(&mut self, line: RegionLine) -> Result<(), LineError> {
            if !self.parts.is_empty()
                || self.header.region.is_some()
                || matches!(self.header.limiter_line, Some(LimiterLine::Tenants(_)))
            {
                return Err(LineError::BadCommand);
            }
            self.header.region = Some(line);
            Ok(())
        }

        /// Takes in a `reserve` line, of which a script has at most one.
        ///
        /// # Contract
        ///
        /// ```text
        /// ensures ok: OnOk result (AddsLine self.old (Line.Reserve slots) self.new)
        /// ensures refused: OnErr result
        ///     ((new : Script) → ¬ (AddsLine self.old (Line.Reserve slots) new))
        /// ```
        ///
        /// Definitions: [`AddsLine`](crate::specs::grammar::LinesSpecs#AddsLine).
        #[inline]
        fn take_reserve(&mut self, slots: SlotCounts) -> Result<(), LineError> {
            if !self.parts.is_empty() || self.header.reserve.is_some() {
                return Err(LineError::BadCommand);
            }
            self.header.reserve = Some(slots);
            Ok(())
        }

        /// Takes in a command's call.
        ///
        /// # Contract
        ///
        /// ```text
        /// ensures ok: OnOk result (AddsCall self.old call self.new)
        /// ensures memory: IfErr result (λ error. error ≡ LineError.OutOfMemory)
        /// ```
        ///
        /// Definitions: [`AddsCall`](crate::specs::grammar::LinesSpecs#AddsCall).
        #[inline]
        fn take_call(&mut self, call: Call) -> Result<(), LineError> {
            self.parts.push(call)?;
            Ok(())
        }

        /// Takes in an `as` line: what follows are the calls of another tenant, of whom there is one.
        ///
        /// # Contract
        ///
        /// ```text
        /// ensures ok: OnOk result (AddsPart self.old tenant self.new)
        /// ensures refused: IfErr result (λ error. error ≡ LineError.BadCommand
        ///     → (new : Script) → ¬ (AddsPart self.old tenant new))
        /// ```
        ///
        /// Definitions: [`AddsPart`](crate::specs::grammar::LinesSpecs#AddsPart).
        #[inline]
        fn take_part(&mut self, tenant: usize) -> Result<(), LineError> {
            if tenant >= self.header.tenants() {
                return Err(LineError::BadCommand);
            }
            self.parts.begin(tenant)?;
            Ok(())
        }
    }

    /// What a line with words says.
    enum Line {
        Meter(MeterLine),
        Limiter(LimiterLine),
        Region(RegionLine),
        Reserve(SlotCounts),
        As(usize),
        Call(Call),
    }

    /// What a line's first word and the words after it say.
    ///
    /// # Contract
    ///
    /// ```text
    /// ensures: AcceptsWithMemory result (NamesLine name.now operands.now)
    /// ```
    ///
    /// Definitions: [`AcceptsWithMemory`](crate::specs::operands::LineWordsSpecs#AcceptsWithMemory), [`NamesLine`](crate::specs::grammar::LinesSpecs#NamesLine).
    #[inline]
    fn line_of(name: &str, operands: &[&str]) -> Result<Line, LineError> {
        match name {
            "meter" => Ok(Line::Meter(meter_line(operands)?)),
            "quota" => Ok(Line::Limiter(quota(operands)?)),
            "answers" => Ok(Line::Limiter(listed(operands)?)),
            "tenants" => Ok(Line::Limiter(tenants(operands)?)),
            "region" => Ok(Line::Region(region_line(operands)?)),
            "reserve" => Ok(Line::Reserve(reserve_line(operands)?)),
            "as" => Ok(Line::As(operand::one(operands)?)),
            _ => Ok(Line::Call(command(name, operands)?)),
        }
    }

    /// The script that the bytes write.
    ///
    /// # Errors
    ///
    /// [`BadCommand`](crate::grammar::ParseError::BadCommand) with the first line that is no command; [`OutOfMemory`](crate::grammar::ParseError::OutOfMemory) if memory is refused.
    ///
    /// # Contract
    ///
    /// ```text
    /// ensures script: IfOk result (WritesScript bytes.now)
    /// ensures calls: IfOk result (λ script. length (calls_of script) ≤ length bytes.now + 1)
    /// ensures refused: IfErr result (IsParseError bytes.now)
    /// ensures line: IfErr result (λ error. (line : ℕ) → error ≡ ParseError.BadCommand line
    ///     → (0 < line) × (line ≤ length bytes.now + 1))
    /// ```
    ///
    /// Definitions: [`WritesScript`](crate::specs::grammar::LinesSpecs#WritesScript), [`calls_of`](crate::specs::grammar::LinesSpecs#calls_of), [`IsParseError`](crate::specs::grammar::LinesSpecs#IsParseError).
    #[inline]
    pub fn parse(bytes: &[u8]) -> Result<Script, ParseError> {
        let mut script = Script::new();
        let mut words = Vec::new();
        for (index, bytes) in bytes.split(|byte| *byte == b'\n').enumerate() {
            let line = index + 1;
            let Ok(text) = str::from_utf8(bytes) else {
                return Err(ParseError::BadCommand { line });
            };
            read_words(text, &mut words)?;
            match script.take_line(words.as_slice()) {
                Ok(()) => {}
                Err(LineError::BadCommand) => return Err(ParseError::BadCommand { line }),
                Err(LineError::OutOfMemory) => return Err(ParseError::OutOfMemory),
            }
        }
        Ok(script)
    }
}

pub use error::ParseError;
pub use header::{Header, LimiterLine, MeterLine, RegionLine, TenantsLine};
pub use script::{Parts, Script, parse};
