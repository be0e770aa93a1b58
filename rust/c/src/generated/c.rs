//! The calls for C, as a plain library: `wasmi_c_lib` exports each, and `include/` explains them.
pub mod fuel {
    //! The calls on a fuel meter that lies with C.

    use crate::generated::c::numbers::MeterNumbers;
    use crate::generated::c::status::{DONE, METERING_DISABLED, OUT_OF_FUEL};
    use crate::proved::meter::FuelCostsProvider;

    /// Sets the fuel that is left: `METERING_DISABLED` where the meter is off.
    ///
    /// # Contract
    ///
    /// ```text
    /// ensures: SetsFuel amount meter.old result meter.new
    /// ```
    #[inline]
    pub fn set(meter: &mut MeterNumbers, amount: u64) -> u8 {
        if meter.is_on == 0 {
            return METERING_DISABLED;
        }
        meter.left = amount;
        DONE
    }

    /// The fuel that is left: `METERING_DISABLED` where the meter is off.
    ///
    /// # Contract
    ///
    /// ```text
    /// ensures: TellsFuel meter.now left.old result left.new
    /// ```
    #[inline]
    pub fn left(meter: &MeterNumbers, left: &mut u64) -> u8 {
        if meter.is_on == 0 {
            return METERING_DISABLED;
        }
        *left = meter.left;
        DONE
    }

    /// Takes an amount, and `number` becomes what is left. It is `METERING_DISABLED` where the meter is
    /// off, and `OUT_OF_FUEL` with the amount as number where less is left; then nothing is taken.
    ///
    /// # Contract
    ///
    /// ```text
    /// ensures: PaysFuel amount meter.old number.old result meter.new number.new
    /// ```
    #[inline]
    pub fn consume(meter: &mut MeterNumbers, amount: u64, number: &mut u64) -> u8 {
        if meter.is_on == 0 {
            return METERING_DISABLED;
        }
        if meter.left < amount {
            *number = amount;
            return OUT_OF_FUEL;
        }
        meter.left -= amount;
        *number = meter.left;
        DONE
    }

    /// The price of a copy of so many bytes, also by a meter that is off.
    ///
    /// # Contract
    ///
    /// ```text
    /// ensures: result ≡ copy_cost (meter_of meter.now).costs bytes 1
    /// ```
    #[must_use]
    #[inline]
    pub fn copy_cost(meter: &MeterNumbers, bytes: u64) -> u64 {
        FuelCostsProvider::custom(meter.costs()).fuel_for_copying_values::<u8>(bytes)
    }

    /// Takes the price of a copy of so many bytes, as [`consume`] takes an amount.
    ///
    /// # Contract
    ///
    /// ```text
    /// ensures: PaysFuel (copy_cost (meter_of meter.old).costs bytes 1) meter.old number.old result
    ///     meter.new number.new
    /// ```
    #[inline]
    pub fn consume_copy(meter: &mut MeterNumbers, bytes: u64, number: &mut u64) -> u8 {
        let amount = copy_cost(meter, bytes);
        consume(meter, amount, number)
    }
}
pub use crate::by_hand::held_box;
pub mod host {
    //! A limiter of the host's own: the structs of a question to it and of its answers.

    use crate::proved::meter::{Kind, LimiterByKind, LimiterError};

    /// What a limiter of the host's own answered, and whether a growth asks and tells it.
    #[repr(C)]
    #[derive(Clone, Copy)]
    pub struct HostAnswers {
        /// The present size that it was asked about.
        pub current: usize,
        /// To the question: 1 for yes, 0 for no, any other number for an error.
        pub answer: u8,
        /// To the notice: 0 where it accepts it, any other number for an error.
        pub notice_answer: u8,
        /// 1 where it is asked, else 0.
        pub asked: u8,
        /// 1 where it is told of a growth that was permitted and failed, else 0.
        pub told: u8,
        /// The size after the growth that it was asked about. It isn't read if nothing is asked.
        pub desired: usize,
    }

    impl HostAnswers {
        /// Forgets that it was asked and told.
        ///
        /// # Contract
        ///
        /// ```text
        /// ensures: self.new ≡ fresh self.old
        /// ```
        #[inline]
        pub fn reset(&mut self) {
            self.asked = 0;
            self.told = 0;
        }
    }

    /// # Contract
    ///
    /// ```text
    /// kind_rules = host_rules
    /// ```
    impl LimiterByKind for HostAnswers {
        #[inline]
        fn growing(&mut self, _: Kind, _: usize, _: usize) -> Result<bool, LimiterError> {
            self.asked = 1;
            match self.answer {
                1 => Ok(true),
                0 => Ok(false),
                _ => Err(LimiterError::ResourceLimiterDeniedAllocation),
            }
        }

        #[inline]
        fn grow_failed(&mut self, _kind: Kind) -> Result<(), LimiterError> {
            self.told = 1;
            match self.notice_answer {
                0 => Ok(()),
                _ => Err(LimiterError::ResourceLimiterDeniedAllocation),
            }
        }
    }

    /// What a growth asks a limiter, in bytes or elements.
    #[repr(C)]
    #[derive(Clone, Copy)]
    pub struct Question {
        /// The present size.
        pub current: usize,
        /// The size after the growth.
        pub desired: usize,
        /// The most that the type allows, where there is a maximum.
        pub maximum: usize,
        /// Whether there is a maximum: 1 or 0.
        pub has_maximum: u8,
    }

    impl Question {
        /// The question whether something may grow from one size to another.
        ///
        /// # Contract
        ///
        /// ```text
        /// ensures: result ≡ plain_sizes current desired most
        /// ```
        #[must_use]
        #[inline]
        pub fn new(current: usize, desired: usize, most: Option<usize>) -> Question {
            Question {
                current,
                desired,
                maximum: most.unwrap_or(0),
                has_maximum: u8::from(most.is_some()),
            }
        }
    }
}
pub mod instruction {
    //! Each instruction by its number in `include/wasmi_core.h`, on values and on arrays. A call writes
    //! and returns 0; or it writes nothing, and returns 255 if no instruction has the number, 253 if no
    //! lane has the index, 254 if the arrays differ in length, or the number of the trap, which on
    //! arrays each result has.

    pub mod binary {
        //! The instructions of two operands.

        use crate::generated::c::instruction::list::numbered;
        use crate::generated::c::instruction::numbers::BINARY_INSTRUCTIONS;
        use crate::generated::c::instruction::result::{
            InstructionResult, Refusal, leave, result_of,
        };
        use crate::generated::c::instruction::rows::by_digit;
        use crate::generated::c::status::DONE;
        use crate::proved::ops::{BinaryOp, ShiftOp};
        use crate::proved::raw::{RawVal, ReadAs};
        use crate::proved::scalar_ops::ScalarBinaryOp;
        use crate::proved::types::TrapCode;

        /// An instruction of two operands.
        #[derive(Clone, Copy)]
        pub enum Binary {
            /// It takes two items and gives an item. Operands and results of 128 bits take both words.
            Scalar(ScalarBinaryOp),
            /// It takes two vectors and gives a vector.
            Vector(BinaryOp),
            /// It takes a vector and an amount of 32 bits, and gives a vector.
            Shift(ShiftOp),
        }

        impl Binary {
            /// # Contract
            ///
            /// ```text
            /// ensures: result ≡ binary_value self a b
            /// ```
            #[inline(always)]
            fn apply(self, a: RawVal, b: RawVal) -> Result<RawVal, TrapCode> {
                match self {
                    Binary::Scalar(op) => op.apply(a, b),
                    Binary::Vector(op) => Ok(op.apply(a.into(), b.into()).into()),
                    Binary::Shift(op) => Ok(op.apply(a.into(), b.read_as()).into()),
                }
            }

            // The code of each instruction has its own loop.
            /// # Contract
            ///
            /// ```text
            /// ensures: Leaves (each_of_two (binary_outcome self) a.now b.now (length results.old))
            ///     results.old results.new result
            /// ```
            #[inline(always)]
            fn each(self, a: &[RawVal], b: &[RawVal], results: &mut [InstructionResult]) -> u8 {
                if b.len() != a.len() || results.len() != a.len() {
                    return Refusal::LengthsDiffer.into();
                }
                for i in 0..a.len() {
                    results[i] = result_of(self.apply(a[i], b[i]));
                }
                DONE
            }
        }

        /// The instruction that has a number, if there is one.
        ///
        /// # Contract
        ///
        /// ```text
        /// ensures: result ≡ binary_numbered number
        /// ```
        #[must_use]
        #[inline]
        pub fn binary_numbered(number: u16) -> Option<Binary> {
            numbered(&BINARY_INSTRUCTIONS, number)
        }

        /// Writes what the instruction of a number gives.
        ///
        /// # Contract
        ///
        /// ```text
        /// ensures: Leaves (binary_result number a b) value.old value.new result
        /// ```
        #[inline]
        pub fn binary_by_number(number: u16, a: RawVal, b: RawVal, value: &mut RawVal) -> u8 {
            let Some(op) = binary_numbered(number) else {
                return Refusal::Unknown.into();
            };
            leave(op.apply(a, b), value)
        }

        /// Writes what the instruction of a number gives for each two elements of two arrays, or its trap.
        ///
        /// # Contract
        ///
        /// ```text
        /// ensures: Leaves (binary_results number a.now b.now (length results.old))
        ///     results.old results.new result
        /// ```
        #[inline]
        pub fn binary_each(
            number: u16,
            a: &[RawVal],
            b: &[RawVal],
            results: &mut [InstructionResult],
        ) -> u8 {
            // The number is looked at once, and not at each element.
            each_by_digits(number / 16, number % 16, a, b, results)
        }

        // A row has sixteen numbers: instructions past the last row take an arm more.
        /// # Contract
        ///
        /// ```text
        /// requires high: high < 4096
        /// requires low: low < 16
        /// ensures outcome: Leaves (binary_results (high * 16 + low) a.now b.now (length results.old))
        ///     results.old results.new result
        /// ```
        #[inline]
        fn each_by_digits(
            high: u16,
            low: u16,
            a: &[RawVal],
            b: &[RawVal],
            results: &mut [InstructionResult],
        ) -> u8 {
            match high {
                0 => each_in_row::<0>(low, a, b, results),
                1 => each_in_row::<1>(low, a, b, results),
                2 => each_in_row::<2>(low, a, b, results),
                3 => each_in_row::<3>(low, a, b, results),
                4 => each_in_row::<4>(low, a, b, results),
                5 => each_in_row::<5>(low, a, b, results),
                6 => each_in_row::<6>(low, a, b, results),
                7 => each_in_row::<7>(low, a, b, results),
                8 => each_in_row::<8>(low, a, b, results),
                9 => each_in_row::<9>(low, a, b, results),
                10 => each_in_row::<10>(low, a, b, results),
                _ => Refusal::Unknown.into(),
            }
        }

        /// # Contract
        ///
        /// ```text
        /// requires high: HIGH < 4096
        /// requires low: low < 16
        /// ensures outcome: Leaves (binary_results (HIGH * 16 + low) a.now b.now (length results.old))
        ///     results.old results.new result
        /// ```
        #[inline]
        fn each_in_row<const HIGH: u16>(
            low: u16,
            a: &[RawVal],
            b: &[RawVal],
            results: &mut [InstructionResult],
        ) -> u8 {
            by_digit!(low, each_at[HIGH](a, b, results))
        }

        // The code of each number has its own loop.
        /// # Contract
        ///
        /// ```text
        /// requires high: HIGH < 4096
        /// requires low: LOW < 16
        /// ensures outcome: Leaves (binary_results (HIGH * 16 + LOW) a.now b.now (length results.old))
        ///     results.old results.new result
        /// ```
        #[inline(always)]
        fn each_at<const HIGH: u16, const LOW: u16>(
            a: &[RawVal],
            b: &[RawVal],
            results: &mut [InstructionResult],
        ) -> u8 {
            let Some(op) = binary_numbered(HIGH * 16 + LOW) else {
                return Refusal::Unknown.into();
            };
            op.each(a, b, results)
        }
    }
    pub mod lanes {
        //! The instructions on one lane, the loads and stores of one among them.

        use crate::generated::c::instruction::list::op_numbered;
        use crate::generated::c::instruction::result::{
            Refusal, leave, leave_vector, op_or_return, status_of,
        };
        use crate::generated::c::status::DONE;
        use crate::proved::ops::{
            EXTRACTIONS, ExtractOp, LANE_LOADS, LANE_STORES, LoadLaneOp, REPLACEMENTS, ReplaceOp,
            StoreLaneOp,
        };
        use crate::proved::raw::RawVal;

        /// The extraction that has a number, at the lane of an index.
        ///
        /// # Contract
        ///
        /// ```text
        /// ensures: result ≡ extraction_of number lane
        /// ```
        #[inline]
        pub fn extraction(number: u16, lane: u8) -> Result<ExtractOp, Refusal> {
            let Some(kind) = op_numbered(&EXTRACTIONS, number) else {
                return Err(Refusal::Unknown);
            };
            kind.on(lane).ok_or(Refusal::NoLane)
        }

        /// The replacement that has a number, at the lane of an index.
        ///
        /// # Contract
        ///
        /// ```text
        /// ensures: result ≡ replacement_of number lane
        /// ```
        #[inline]
        pub fn replacement(number: u16, lane: u8) -> Result<ReplaceOp, Refusal> {
            let Some(kind) = op_numbered(&REPLACEMENTS, number) else {
                return Err(Refusal::Unknown);
            };
            kind.on(lane).ok_or(Refusal::NoLane)
        }

        /// The load of a lane that has a number, at the lane of an index.
        ///
        /// # Contract
        ///
        /// ```text
        /// ensures: result ≡ lane_load_of number lane
        /// ```
        #[inline]
        pub fn lane_load(number: u16, lane: u8) -> Result<LoadLaneOp, Refusal> {
            let Some(kind) = op_numbered(&LANE_LOADS, number) else {
                return Err(Refusal::Unknown);
            };
            kind.on(lane).ok_or(Refusal::NoLane)
        }

        /// The store of a lane that has a number, at the lane of an index.
        ///
        /// # Contract
        ///
        /// ```text
        /// ensures: result ≡ lane_store_of number lane
        /// ```
        #[inline]
        pub fn lane_store(number: u16, lane: u8) -> Result<StoreLaneOp, Refusal> {
            let Some(kind) = op_numbered(&LANE_STORES, number) else {
                return Err(Refusal::Unknown);
            };
            kind.on(lane).ok_or(Refusal::NoLane)
        }

        /// # Contract
        ///
        /// ```text
        /// ensures: result ≡ replaced_value op.now a item
        /// ```
        #[inline]
        fn replaced(op: &ReplaceOp, a: RawVal, item: RawVal) -> RawVal {
            op.apply(a.into(), item).into()
        }

        /// Writes the lane of a vector.
        ///
        /// # Contract
        ///
        /// ```text
        /// ensures: Leaves (extract_result number lane a) value.old value.new result
        /// ```
        #[inline]
        pub fn extract_by_number(number: u16, lane: u8, a: RawVal, value: &mut RawVal) -> u8 {
            op_or_return!(op, extraction(number, lane));
            leave(Ok(op.apply(a.into())), value)
        }

        /// Writes the lane of each vector of an array.
        ///
        /// # Contract
        ///
        /// ```text
        /// ensures: Leaves (extract_results number lane a.now (length values.old))
        ///     values.old values.new result
        /// ```
        #[inline]
        pub fn extract_each(number: u16, lane: u8, a: &[RawVal], values: &mut [RawVal]) -> u8 {
            op_or_return!(op, extraction(number, lane));
            extract_each_by_op(&op, a, values)
        }

        /// # Contract
        ///
        /// ```text
        /// ensures: Leaves (each_of (extracted_value op.now) a.now (length values.old))
        ///     values.old values.new result
        /// ```
        #[inline]
        fn extract_each_by_op(op: &ExtractOp, a: &[RawVal], values: &mut [RawVal]) -> u8 {
            if values.len() != a.len() {
                return Refusal::LengthsDiffer.into();
            }
            for i in 0..a.len() {
                values[i] = op.apply(a[i].into());
            }
            DONE
        }

        /// Writes a vector with a lane replaced by an item.
        ///
        /// # Contract
        ///
        /// ```text
        /// ensures: Leaves (replace_result number lane a item) value.old value.new result
        /// ```
        #[inline]
        pub fn replace_by_number(
            number: u16,
            lane: u8,
            a: RawVal,
            item: RawVal,
            value: &mut RawVal,
        ) -> u8 {
            op_or_return!(op, replacement(number, lane));
            leave(Ok(replaced(&op, a, item)), value)
        }

        /// Writes each vector of an array with a lane replaced by the item at its index.
        ///
        /// # Contract
        ///
        /// ```text
        /// ensures: Leaves (replace_results number lane a.now items.now (length values.old))
        ///     values.old values.new result
        /// ```
        #[inline]
        pub fn replace_each(
            number: u16,
            lane: u8,
            a: &[RawVal],
            items: &[RawVal],
            values: &mut [RawVal],
        ) -> u8 {
            op_or_return!(op, replacement(number, lane));
            replace_each_by_op(&op, a, items, values)
        }

        /// # Contract
        ///
        /// ```text
        /// ensures: Leaves (each_of_two (replaced_value op.now) a.now items.now (length values.old))
        ///     values.old values.new result
        /// ```
        #[inline]
        fn replace_each_by_op(
            op: &ReplaceOp,
            a: &[RawVal],
            items: &[RawVal],
            values: &mut [RawVal],
        ) -> u8 {
            if items.len() != a.len() || values.len() != a.len() {
                return Refusal::LengthsDiffer.into();
            }
            for i in 0..a.len() {
                values[i] = replaced(op, a[i], items[i]);
            }
            DONE
        }

        /// Writes a vector with a lane loaded from `ptr + offset`.
        ///
        /// # Contract
        ///
        /// ```text
        /// ensures: Leaves (load_lane_result number lane memory.now (ptr + offset) a)
        ///     value.old value.new result
        /// ```
        #[inline]
        pub fn load_lane(
            number: u16,
            lane: u8,
            memory: &[u8],
            ptr: u64,
            offset: u64,
            a: RawVal,
            value: &mut RawVal,
        ) -> u8 {
            op_or_return!(op, lane_load(number, lane));
            leave_vector(op.load(memory, ptr, offset, a.into()), value)
        }

        /// Stores a lane of a vector at `ptr + offset`.
        ///
        /// # Contract
        ///
        /// ```text
        /// ensures: Leaves (store_lane_result number lane memory.old (ptr + offset) a)
        ///     memory.old memory.new result
        /// ```
        #[inline]
        pub fn store_lane(
            number: u16,
            lane: u8,
            memory: &mut [u8],
            ptr: u64,
            offset: u64,
            a: RawVal,
        ) -> u8 {
            op_or_return!(op, lane_store(number, lane));
            status_of(op.store(memory, ptr, offset, a.into()))
        }
    }
    pub mod list {
        //! The instruction at a place of a list, which is its number.

        /// The instruction at a place of a list, if it isn't past its end.
        ///
        /// # Contract
        ///
        /// ```text
        /// ensures: result ≡ slice_get list.now number
        /// ```
        #[must_use]
        #[inline]
        pub fn numbered<Op: Copy>(list: &[Op], number: u16) -> Option<Op> {
            list.get(usize::from(number)).copied()
        }

        /// The instruction at a place of a list of names with their instructions, if it isn't past its end.
        ///
        /// # Contract
        ///
        /// ```text
        /// ensures: result ≡ op_numbered list.now number
        /// ```
        #[must_use]
        #[inline]
        pub fn op_numbered<Op: Copy>(list: &[(&str, Op)], number: u16) -> Option<Op> {
            let (_, op) = list.get(usize::from(number))?;
            Some(*op)
        }
    }
    pub mod load {
        //! The loads by their numbers, but for those of one lane.

        use crate::generated::c::instruction::list::numbered;
        use crate::generated::c::instruction::numbers::{LOAD_INSTRUCTIONS, load_numbers};
        use crate::generated::c::instruction::result::{
            InstructionResult, Refusal, leave, result_of,
        };
        use crate::generated::c::instruction::rows::{by_digit, part_once};
        use crate::generated::c::status::DONE;
        use crate::proved::ops::{LoadOp, VectorLoadOp};
        use crate::proved::raw::RawVal;
        use crate::proved::types::TrapCode;

        /// A load instruction.
        #[derive(Clone, Copy)]
        pub enum Load {
            /// A load of an item.
            Scalar(LoadOp),
            /// A load of a vector.
            Vector(VectorLoadOp),
        }

        impl Load {
            /// # Contract
            ///
            /// ```text
            /// ensures: result ≡ loaded_value self memory.now (ptr + offset)
            /// ```
            #[inline(always)]
            fn load(self, memory: &[u8], ptr: u64, offset: u64) -> Result<RawVal, TrapCode> {
                match self {
                    Load::Scalar(op) => op.load(memory, ptr, offset),
                    Load::Vector(op) => Ok(op.load(memory, ptr, offset)?.into()),
                }
            }

            // The code of each instruction has its own loop.
            /// # Contract
            ///
            /// ```text
            /// ensures: Leaves (each_of (load_outcome self memory.now offset) ptrs.now
            ///     (length results.old)) results.old results.new result
            /// ```
            #[inline(always)]
            fn each(
                self,
                memory: &[u8],
                ptrs: &[u64],
                offset: u64,
                results: &mut [InstructionResult],
            ) -> u8 {
                if results.len() != ptrs.len() {
                    return Refusal::LengthsDiffer.into();
                }
                for i in 0..ptrs.len() {
                    results[i] = result_of(self.load(memory, ptrs[i], offset));
                }
                DONE
            }
        }

        /// The load that has a number, if there is one.
        ///
        /// # Contract
        ///
        /// ```text
        /// ensures: result ≡ load_numbered number
        /// ```
        #[must_use]
        #[inline]
        pub fn load_numbered(number: u16) -> Option<Load> {
            numbered(&LOAD_INSTRUCTIONS, number)
        }

        /// Writes what the load of a number gives from `ptr + offset`.
        ///
        /// # Contract
        ///
        /// ```text
        /// ensures: Leaves (load_result number memory.now (ptr + offset)) value.old value.new result
        /// ```
        #[inline]
        pub fn load_by_number(
            number: u16,
            memory: &[u8],
            ptr: u64,
            offset: u64,
            value: &mut RawVal,
        ) -> u8 {
            let Some(op) = load_numbered(number) else {
                return Refusal::Unknown.into();
            };
            leave(load_by_op(op, memory, ptr, offset), value)
        }

        // Each load has code of its own, so that its result stays in registers.
        /// # Contract
        ///
        /// ```text
        /// ensures: result ≡ loaded_value op memory.now (ptr + offset)
        /// ```
        #[inline]
        fn load_by_op(op: Load, memory: &[u8], ptr: u64, offset: u64) -> Result<RawVal, TrapCode> {
            match op {
                Load::Scalar(op) => {
                    load_numbers!(part_once! Scalar [op Load load(memory, ptr, offset)])
                }
                Load::Vector(op) => {
                    load_numbers!(part_once! Vector [op Load load(memory, ptr, offset)])
                }
            }
        }

        /// Writes what a number's load gives from each pointer of an array plus the offset, or its trap.
        ///
        /// # Contract
        ///
        /// ```text
        /// ensures: Leaves (load_results number memory.now ptrs.now offset (length results.old))
        ///     results.old results.new result
        /// ```
        #[inline]
        pub fn load_each(
            number: u16,
            memory: &[u8],
            ptrs: &[u64],
            offset: u64,
            results: &mut [InstructionResult],
        ) -> u8 {
            // The number is looked at once, and not at each element.
            each_by_digits(number / 16, number % 16, memory, ptrs, offset, results)
        }

        // A row has sixteen numbers: instructions past the last row take an arm more.
        /// # Contract
        ///
        /// ```text
        /// requires high: high < 4096
        /// requires low: low < 16
        /// ensures outcome: Leaves (load_results (high * 16 + low) memory.now ptrs.now offset
        ///     (length results.old)) results.old results.new result
        /// ```
        #[inline]
        fn each_by_digits(
            high: u16,
            low: u16,
            memory: &[u8],
            ptrs: &[u64],
            offset: u64,
            results: &mut [InstructionResult],
        ) -> u8 {
            match high {
                0 => each_in_row::<0>(low, memory, ptrs, offset, results),
                1 => each_in_row::<1>(low, memory, ptrs, offset, results),
                _ => Refusal::Unknown.into(),
            }
        }

        /// # Contract
        ///
        /// ```text
        /// requires high: HIGH < 4096
        /// requires low: low < 16
        /// ensures outcome: Leaves (load_results (HIGH * 16 + low) memory.now ptrs.now offset
        ///     (length results.old)) results.old results.new result
        /// ```
        #[inline]
        fn each_in_row<const HIGH: u16>(
            low: u16,
            memory: &[u8],
            ptrs: &[u64],
            offset: u64,
            results: &mut [InstructionResult],
        ) -> u8 {
            by_digit!(low, each_at[HIGH](memory, ptrs, offset, results))
        }

        // The code of each number has its own loop.
        /// # Contract
        ///
        /// ```text
        /// requires high: HIGH < 4096
        /// requires low: LOW < 16
        /// ensures outcome: Leaves (load_results (HIGH * 16 + LOW) memory.now ptrs.now offset
        ///     (length results.old)) results.old results.new result
        /// ```
        #[inline(always)]
        fn each_at<const HIGH: u16, const LOW: u16>(
            memory: &[u8],
            ptrs: &[u64],
            offset: u64,
            results: &mut [InstructionResult],
        ) -> u8 {
            let Some(op) = load_numbered(HIGH * 16 + LOW) else {
                return Refusal::Unknown.into();
            };
            op.each(memory, ptrs, offset, results)
        }
    }
    pub mod numbers {
        //! The number of each instruction of a shape that has several lists in `wasmi_ops` and
        //! `wasmi_scalar_ops`: its place among the rows. `tools/header` writes this file: first the numbers
        //! of `include/numbers.tsv`, then what the lists have besides.

        use crate::generated::c::instruction::binary::Binary;
        use crate::generated::c::instruction::load::Load;
        use crate::generated::c::instruction::rows::numbered;
        use crate::generated::c::instruction::store::Store;
        use crate::generated::c::instruction::unary::Unary;
        use crate::proved::ops::{
            BinaryOp, LoadOp, MakeOp, ShiftOp, StoreOp, TestOp, UnaryOp, VectorLoadOp,
        };
        use crate::proved::scalar_ops::{ScalarBinaryOp, ScalarUnaryOp};

        /// The instructions that `Unary` has, by number.
        pub const UNARY_INSTRUCTIONS: [Unary; 63] = numbered! {
            [Unary]
            Scalar ScalarUnaryOp {
                I32Clz, I32Ctz, I32Popcnt, I32Eqz, I64Clz, I64Ctz, I64Popcnt, I64Eqz, I32WrapI64,
                I64ExtendI32S, I64ExtendI32U, I32Extend8S, I32Extend16S, I64Extend8S, I64Extend16S,
                I64Extend32S,
            }
            Make MakeOp {
                I8x16Splat, I16x8Splat, I32x4Splat, I64x2Splat, V128Widen8x8S, V128Widen8x8U,
                V128Widen16x4S, V128Widen16x4U, V128Widen32x2S, V128Widen32x2U, V128Low32Zero,
                V128Low64Zero,
            }
            Vector UnaryOp {
                V128Not, I8x16Neg, I16x8Neg, I32x4Neg, I64x2Neg, I8x16Abs, I16x8Abs, I32x4Abs, I64x2Abs,
                I8x16Popcnt, I16x8ExtendLowI8x16S, I16x8ExtendLowI8x16U, I16x8ExtendHighI8x16S,
                I16x8ExtendHighI8x16U, I32x4ExtendLowI16x8S, I32x4ExtendLowI16x8U, I32x4ExtendHighI16x8S,
                I32x4ExtendHighI16x8U, I64x2ExtendLowI32x4S, I64x2ExtendLowI32x4U, I64x2ExtendHighI32x4S,
                I64x2ExtendHighI32x4U, I16x8ExtaddPairwiseI8x16S, I16x8ExtaddPairwiseI8x16U,
                I32x4ExtaddPairwiseI16x8S, I32x4ExtaddPairwiseI16x8U,
            }
            Test TestOp {
                I8x16AllTrue, I16x8AllTrue, I32x4AllTrue, I64x2AllTrue, V128AnyTrue, I8x16Bitmask,
                I16x8Bitmask, I32x4Bitmask, I64x2Bitmask,
            }
        };

        /// The instructions that `Binary` has, by number.
        pub const BINARY_INSTRUCTIONS: [Binary; 162] = numbered! {
            [Binary]
            Scalar ScalarBinaryOp {
                I32Add, I32Sub, I32Mul, I32Bitand, I32Bitor, I32Bitxor, I32Shl, I32ShrS, I32ShrU, I32Rotl,
                I32Rotr, I32DivS, I32DivU, I32RemS, I32RemU, I32Eq, I32Ne, I32LtS, I32LtU, I32LeS, I32LeU,
                I32GtS, I32GtU, I32GeS, I32GeU, I64Add, I64Sub, I64Mul, I64Bitand, I64Bitor, I64Bitxor,
                I64Shl, I64ShrS, I64ShrU, I64Rotl, I64Rotr, I64DivS, I64DivU, I64RemS, I64RemU, I64Eq,
                I64Ne, I64LtS, I64LtU, I64LeS, I64LeU, I64GtS, I64GtU, I64GeS, I64GeU, I64Add128,
                I64Sub128, I64MulWideS, I64MulWideU,
            }
            Vector BinaryOp {
                I8x16Add, I16x8Add, I32x4Add, I64x2Add, I8x16Sub, I16x8Sub, I32x4Sub, I64x2Sub, I8x16Mul,
                I16x8Mul, I32x4Mul, I64x2Mul, I8x16AddSatS, I8x16AddSatU, I16x8AddSatS, I16x8AddSatU,
                I8x16SubSatS, I8x16SubSatU, I16x8SubSatS, I16x8SubSatU, I16x8Q15mulrSatS, I8x16MinS,
                I8x16MinU, I16x8MinS, I16x8MinU, I32x4MinS, I32x4MinU, I8x16MaxS, I8x16MaxU, I16x8MaxS,
                I16x8MaxU, I32x4MaxS, I32x4MaxU, I8x16AvgrU, I16x8AvgrU, V128And, V128Or, V128Xor,
                V128Andnot, I8x16Eq, I16x8Eq, I32x4Eq, I64x2Eq, I8x16Ne, I16x8Ne, I32x4Ne, I64x2Ne,
                I8x16LtS, I16x8LtS, I32x4LtS, I64x2LtS, I8x16LtU, I16x8LtU, I32x4LtU, I8x16LeS, I16x8LeS,
                I32x4LeS, I64x2LeS, I8x16LeU, I16x8LeU, I32x4LeU, I8x16GtS, I16x8GtS, I32x4GtS, I64x2GtS,
                I8x16GtU, I16x8GtU, I32x4GtU, I8x16GeS, I16x8GeS, I32x4GeS, I64x2GeS, I8x16GeU, I16x8GeU,
                I32x4GeU, I8x16Swizzle, I16x8ExtmulLowI8x16S, I16x8ExtmulLowI8x16U, I16x8ExtmulHighI8x16S,
                I16x8ExtmulHighI8x16U, I32x4ExtmulLowI16x8S, I32x4ExtmulLowI16x8U, I32x4ExtmulHighI16x8S,
                I32x4ExtmulHighI16x8U, I64x2ExtmulLowI32x4S, I64x2ExtmulLowI32x4U, I64x2ExtmulHighI32x4S,
                I64x2ExtmulHighI32x4U, I8x16NarrowI16x8S, I8x16NarrowI16x8U, I16x8NarrowI32x4S,
                I16x8NarrowI32x4U, I32x4DotI16x8S, I16x8RelaxedDotI8x16I7x16S, I8x16RelaxedSwizzle,
                I16x8RelaxedQ15mulrS,
            }
            Shift ShiftOp {
                I8x16Shl, I8x16ShrS, I8x16ShrU, I16x8Shl, I16x8ShrS, I16x8ShrU, I32x4Shl, I32x4ShrS,
                I32x4ShrU, I64x2Shl, I64x2ShrS, I64x2ShrU,
            }
        };

        /// The rows of `LOAD_INSTRUCTIONS`.
        macro_rules! load_numbers {
    ($make:ident! $($with:tt)*) => { $make! { [$($with)*]
        Scalar LoadOp {
            I32Load8S, I32Load8U, I32Load16S, I32Load16U, I64Load8S, I64Load8U, I64Load16S,
            I64Load16U, I64Load32S, I64Load32U, LoadU32, LoadU64,
        }
        Vector VectorLoadOp {
            V128Load, V128Load8x8S, V128Load8x8U, V128Load16x4S, V128Load16x4U, V128Load32x2S,
            V128Load32x2U, V128Load8Splat, V128Load16Splat, V128Load32Splat, V128Load64Splat,
            V128Load32Zero, V128Load64Zero,
        }
    } };
}

        /// The instructions that `Load` has, by number.
        pub const LOAD_INSTRUCTIONS: [Load; 25] = load_numbers!(numbered! Load);

        /// The instructions that `Store` has, by number.
        pub const STORE_INSTRUCTIONS: [Store; 8] = [
            Store::Scalar(StoreOp::I32Store8),
            Store::Scalar(StoreOp::I32Store16),
            Store::Scalar(StoreOp::I64Store8),
            Store::Scalar(StoreOp::I64Store16),
            Store::Scalar(StoreOp::I64Store32),
            Store::Scalar(StoreOp::Store32),
            Store::Scalar(StoreOp::Store64),
            Store::V128Store,
        ];

        pub(crate) use load_numbers;
    }
    pub mod result {
        //! What a call of an instruction gives, as C reads it, or why it writes nothing.

        use crate::generated::c::status::{DONE, LENGTHS_DIFFER, NO_LANE, UNKNOWN};
        use crate::proved::raw::{RawVal, V128};
        use crate::proved::types::TrapCode;

        /// Names the instruction that is found, or returns the refusal's status from the function it is in.
        macro_rules! op_or_return {
            ($op:ident, $found:expr) => {
                let $op = match $found {
                    Ok(op) => op,
                    Err(refusal) => return u8::from(refusal),
                };
            };
        }

        pub(crate) use op_or_return;

        /// Why a call writes nothing.
        #[derive(Clone, Copy)]
        pub enum Refusal {
            /// The instruction traps.
            Trap(TrapCode),
            /// No lane has the index.
            NoLane,
            /// The arrays differ in length.
            LengthsDiffer,
            /// No instruction has the number.
            Unknown,
        }

        /// # Contract
        ///
        /// ```text
        /// from_gives = λ refusal status. status ≡ refusal_status refusal
        /// ```
        impl From<Refusal> for u8 {
            #[inline]
            fn from(refusal: Refusal) -> u8 {
                match refusal {
                    Refusal::Trap(code) => u8::from(code),
                    Refusal::NoLane => NO_LANE,
                    Refusal::LengthsDiffer => LENGTHS_DIFFER,
                    Refusal::Unknown => UNKNOWN,
                }
            }
        }

        /// What an instruction gives for one element of an array.
        #[repr(C)]
        #[derive(Clone, Copy)]
        pub struct InstructionResult {
            /// The value, or 0 if the instruction traps.
            pub value: RawVal,
            /// 0, or the number of the trap.
            pub status: u8,
        }

        /// The result with a value, or with the number of a trap.
        ///
        /// # Contract
        ///
        /// ```text
        /// ensures: result ≡ result_of given
        /// ```
        #[must_use]
        #[inline]
        pub fn result_of(given: Result<RawVal, TrapCode>) -> InstructionResult {
            let (value, status) = match given {
                Ok(value) => (value, DONE),
                Err(trap) => (RawVal::from_bits64(0), u8::from(trap)),
            };
            InstructionResult { value, status }
        }

        /// Writes the value that an instruction gives, or nothing if it traps, and returns the status.
        ///
        /// # Contract
        ///
        /// ```text
        /// ensures: Gives given value.old value.new result
        /// ```
        #[inline]
        pub fn leave(given: Result<RawVal, TrapCode>, value: &mut RawVal) -> u8 {
            match given {
                Ok(new) => {
                    // By its words, since LLVM would copy it as a whole through memory.
                    value.lo = new.lo;
                    value.hi = new.hi;
                    DONE
                }
                Err(trap) => u8::from(trap),
            }
        }

        /// Writes the item that an instruction gives, or nothing if it traps, and returns the status.
        ///
        /// # Contract
        ///
        /// ```text
        /// ensures: Gives given value.old value.new result
        /// ```
        #[inline(always)]
        pub fn leave_item<T: Copy>(given: Result<T, TrapCode>, value: &mut T) -> u8 {
            match given {
                Ok(new) => {
                    *value = new;
                    DONE
                }
                Err(trap) => u8::from(trap),
            }
        }

        /// Writes the vector that an instruction gives, or nothing if it traps, and returns the status.
        ///
        /// # Contract
        ///
        /// ```text
        /// ensures: Gives (as_raw raw_of_vector given) value.old value.new result
        /// ```
        #[inline(always)]
        pub fn leave_vector(given: Result<V128, TrapCode>, value: &mut RawVal) -> u8 {
            match given {
                Ok(new) => leave(Ok(new.into()), value),
                Err(trap) => u8::from(trap),
            }
        }

        /// Writes two words.
        ///
        /// # Contract
        ///
        /// ```text
        /// ensures low: lo.new ≡ given.0
        /// ensures high: hi.new ≡ given.1
        /// ```
        #[inline(always)]
        pub fn leave_pair(given: (i64, i64), lo: &mut i64, hi: &mut i64) {
            *lo = given.0;
            *hi = given.1;
        }

        /// The status of an instruction without a value.
        ///
        /// # Contract
        ///
        /// ```text
        /// ensures: MatchResult given (λ _. result ≡ DONE) (λ trap. result ≡ code_number trap)
        /// ```
        #[inline(always)]
        #[must_use]
        pub fn status_of(given: Result<(), TrapCode>) -> u8 {
            match given {
                Ok(()) => DONE,
                Err(trap) => u8::from(trap),
            }
        }
    }
    mod rows {
        //! What is made of the rows of `numbers`: the parts of a shape in the order of its numbers; and a
        //! call by a digit of a number.

        /// The instructions in the order of their numbers.
        macro_rules! numbered {
    ([$shape:ident] $($part:ident $kind:ident { $($variant:ident,)* })*) => {
        [$($($shape::$part($kind::$variant),)*)*]
    };
}

        /// What `op_once` makes of the rows of a part. One match over all parts would be proved at more
        /// than twice the cost.
        macro_rules! part_once {
    ([$part:ident $call:tt] $($groups:tt)*) => {
        $crate::generated::c::instruction::rows::gathered! { [$part $call []] $($groups)* }
    };
}

        /// `part_once` on the rows of all groups of a part: what later versions add to a part has a group of
        /// its own. The type of the part and the rows that are found stand behind the call.
        macro_rules! gathered {
    ([Scalar $call:tt $old:tt $($found:tt)*] Scalar $kind:ident { $($row:tt)* } $($rest:tt)*) => {
        $crate::generated::c::instruction::rows::gathered! {
            [Scalar $call [$kind] $($found)* $($row)*] $($rest)*
        }
    };
    ([Vector $call:tt $old:tt $($found:tt)*] Vector $kind:ident { $($row:tt)* } $($rest:tt)*) => {
        $crate::generated::c::instruction::rows::gathered! {
            [Vector $call [$kind] $($found)* $($row)*] $($rest)*
        }
    };
    ([$part:ident $call:tt $old:tt $($found:tt)*] $other:ident $kind:ident $rows:tt $($rest:tt)*) => {
        $crate::generated::c::instruction::rows::gathered! { [$part $call $old $($found)*] $($rest)* }
    };
    ([$part:ident $call:tt [$kind:ident] $($found:tt)*]) => {
        $crate::generated::c::instruction::rows::op_once! { $call $part $kind { $($found)* } }
    };
}

        /// A call of a method on an instruction that is known in each arm, so that the arm has its code.
        macro_rules! op_once {
    (
        [$op:ident $shape:ident $method:ident $operands:tt]
        $part:ident $kind:ident { $($variant:ident,)* }
    ) => {
        match $op {
            $($kind::$variant => $shape::$part($kind::$variant).$method $operands,)*
        }
    };
}

        /// A call for each digit in base 16, a constant of the function that is called. The code of a
        /// number is found by two digits: one match over all would be proved at several times the cost.
        macro_rules! by_digit {
    ($digit:ident, $call:ident [$high:ident] $operands:tt) => {
        match $digit {
            0 => $call::<$high, 0> $operands,
            1 => $call::<$high, 1> $operands,
            2 => $call::<$high, 2> $operands,
            3 => $call::<$high, 3> $operands,
            4 => $call::<$high, 4> $operands,
            5 => $call::<$high, 5> $operands,
            6 => $call::<$high, 6> $operands,
            7 => $call::<$high, 7> $operands,
            8 => $call::<$high, 8> $operands,
            9 => $call::<$high, 9> $operands,
            10 => $call::<$high, 10> $operands,
            11 => $call::<$high, 11> $operands,
            12 => $call::<$high, 12> $operands,
            13 => $call::<$high, 13> $operands,
            14 => $call::<$high, 14> $operands,
            _ => $call::<$high, 15> $operands,
        }
    };
}

        pub(crate) use by_digit;
        pub(crate) use gathered;
        pub(crate) use numbered;
        pub(crate) use op_once;
        pub(crate) use part_once;
    }
    pub mod shuffle {
        //! The shuffle of the bytes of two vectors.

        use crate::generated::c::instruction::result::{Refusal, leave_vector};
        use crate::proved::lanes::ImmLaneIdx32;
        use crate::proved::lanewise::simd;
        use crate::proved::raw::RawVal;

        /// The lanes of these indices, if there are such lanes.
        ///
        /// # Contract
        ///
        /// ```text
        /// ensures: result ≡ lanes_of indices
        /// ```
        #[must_use]
        #[inline]
        pub fn lanes_of(indices: [u8; 16]) -> Option<[ImmLaneIdx32; 16]> {
            let mut lanes = [ImmLaneIdx32::try_from(0).ok()?; 16];
            for i in 0..16 {
                lanes[i] = ImmLaneIdx32::try_from(indices[i]).ok()?;
            }
            Some(lanes)
        }

        /// Writes the bytes of two vectors with these indices: those of `a` are 0 to 15, of `b` 16 to 31.
        ///
        /// # Contract
        ///
        /// ```text
        /// ensures: Leaves (shuffle_result a b indices) value.old value.new result
        /// ```
        #[inline]
        pub fn shuffle(a: RawVal, b: RawVal, indices: [u8; 16], value: &mut RawVal) -> u8 {
            let Some(lanes) = lanes_of(indices) else {
                return Refusal::NoLane.into();
            };
            leave_vector(Ok(simd::i8x16_shuffle(a.into(), b.into(), lanes)), value)
        }
    }
    pub mod store {
        //! The stores by their numbers, but for those of one lane.

        use crate::generated::c::instruction::list::numbered;
        use crate::generated::c::instruction::numbers::STORE_INSTRUCTIONS;
        use crate::generated::c::instruction::result::{Refusal, status_of};
        use crate::proved::ops::StoreOp;
        use crate::proved::raw::RawVal;
        use crate::proved::types::TrapCode;
        use crate::proved::vector_access::simd;

        /// A store instruction.
        #[derive(Clone, Copy)]
        pub enum Store {
            /// A store of an item.
            Scalar(StoreOp),
            /// `v128_store`
            V128Store,
        }

        impl Store {
            /// # Errors
            ///
            /// [`MemoryOutOfBounds`](crate::TrapCode::MemoryOutOfBounds) if the bytes would end past the memory; then nothing is written.
            ///
            /// # Contract
            ///
            /// ```text
            /// ensures: IsStore memory.old (ptr + offset) (stored_value self value) memory.new result
            /// ```
            #[inline]
            fn store(
                self,
                memory: &mut [u8],
                ptr: u64,
                offset: u64,
                value: RawVal,
            ) -> Result<(), TrapCode> {
                match self {
                    Store::Scalar(op) => op.store(memory, ptr, offset, value),
                    Store::V128Store => simd::v128_store(memory, ptr, offset, value.into()),
                }
            }
        }

        /// The store that has a number, if there is one.
        ///
        /// # Contract
        ///
        /// ```text
        /// ensures: result ≡ store_numbered number
        /// ```
        #[must_use]
        #[inline]
        pub fn store_numbered(number: u16) -> Option<Store> {
            numbered(&STORE_INSTRUCTIONS, number)
        }

        /// Stores a value at `ptr + offset`, by the store that has the number.
        ///
        /// # Contract
        ///
        /// ```text
        /// ensures: Leaves (store_result number memory.old (ptr + offset) value)
        ///     memory.old memory.new result
        /// ```
        #[inline]
        pub fn store_by_number(
            number: u16,
            memory: &mut [u8],
            ptr: u64,
            offset: u64,
            value: RawVal,
        ) -> u8 {
            let Some(op) = store_numbered(number) else {
                return Refusal::Unknown.into();
            };
            status_of(op.store(memory, ptr, offset, value))
        }
    }
    pub mod ternary {
        //! The instructions of three vectors.

        use crate::generated::c::instruction::list::op_numbered;
        use crate::generated::c::instruction::result::{Refusal, leave};
        use crate::generated::c::status::DONE;
        use crate::proved::ops::{TERNARIES, TernaryOp};
        use crate::proved::raw::RawVal;

        /// # Contract
        ///
        /// ```text
        /// ensures: result ≡ ternary_value op a b c
        /// ```
        #[inline]
        fn apply(op: TernaryOp, a: RawVal, b: RawVal, c: RawVal) -> RawVal {
            op.apply(a.into(), b.into(), c.into()).into()
        }

        /// The instruction that has a number, if there is one.
        ///
        /// # Contract
        ///
        /// ```text
        /// ensures: result ≡ op_numbered TERNARIES number
        /// ```
        #[must_use]
        #[inline]
        pub fn ternary_numbered(number: u16) -> Option<TernaryOp> {
            op_numbered(&TERNARIES, number)
        }

        /// Writes what the instruction of a number gives.
        ///
        /// # Contract
        ///
        /// ```text
        /// ensures: Leaves (ternary_result number a b c) value.old value.new result
        /// ```
        #[inline]
        pub fn ternary_by_number(
            number: u16,
            a: RawVal,
            b: RawVal,
            c: RawVal,
            value: &mut RawVal,
        ) -> u8 {
            let Some(op) = ternary_numbered(number) else {
                return Refusal::Unknown.into();
            };
            leave(Ok(apply(op, a, b, c)), value)
        }

        /// Writes what the instruction of a number gives for each three elements of three arrays.
        ///
        /// # Contract
        ///
        /// ```text
        /// ensures: Leaves (ternary_results number a.now b.now c.now (length values.old))
        ///     values.old values.new result
        /// ```
        #[inline]
        pub fn ternary_each(
            number: u16,
            a: &[RawVal],
            b: &[RawVal],
            c: &[RawVal],
            values: &mut [RawVal],
        ) -> u8 {
            let Some(op) = ternary_numbered(number) else {
                return Refusal::Unknown.into();
            };
            each(op, a, b, c, values)
        }

        /// # Contract
        ///
        /// ```text
        /// ensures: Leaves (each_of_three (ternary_value op) a.now b.now c.now (length values.old))
        ///     values.old values.new result
        /// ```
        #[inline]
        fn each(
            op: TernaryOp,
            a: &[RawVal],
            b: &[RawVal],
            c: &[RawVal],
            values: &mut [RawVal],
        ) -> u8 {
            if b.len() != a.len() || c.len() != a.len() || values.len() != a.len() {
                return Refusal::LengthsDiffer.into();
            }
            for i in 0..a.len() {
                values[i] = apply(op, a[i], b[i], c[i]);
            }
            DONE
        }
    }
    pub mod unary {
        //! The instructions of one operand.

        use crate::generated::c::instruction::list::numbered;
        use crate::generated::c::instruction::numbers::UNARY_INSTRUCTIONS;
        use crate::generated::c::instruction::result::{Refusal, leave};
        use crate::generated::c::instruction::rows::by_digit;
        use crate::generated::c::status::DONE;
        use crate::proved::ops::{MakeOp, TestOp, UnaryOp};
        use crate::proved::raw::RawVal;
        use crate::proved::scalar_ops::ScalarUnaryOp;

        /// An instruction of one operand.
        #[derive(Clone, Copy)]
        pub enum Unary {
            /// It takes an item and gives an item.
            Scalar(ScalarUnaryOp),
            /// It takes an item and gives a vector.
            Make(MakeOp),
            /// It takes a vector and gives a vector.
            Vector(UnaryOp),
            /// It takes a vector and gives a Boolean or a mask.
            Test(TestOp),
        }

        impl Unary {
            /// # Contract
            ///
            /// ```text
            /// ensures: result ≡ unary_value self a
            /// ```
            #[inline(always)]
            fn apply(self, a: RawVal) -> RawVal {
                match self {
                    Unary::Scalar(op) => op.apply(a),
                    Unary::Make(op) => op.apply(a).into(),
                    Unary::Vector(op) => op.apply(a.into()).into(),
                    Unary::Test(op) => op.apply(a.into()),
                }
            }

            // The code of each instruction has its own loop.
            /// # Contract
            ///
            /// ```text
            /// ensures: Leaves (each_of (unary_value self) a.now (length values.old))
            ///     values.old values.new result
            /// ```
            #[inline(always)]
            fn each(self, a: &[RawVal], values: &mut [RawVal]) -> u8 {
                if values.len() != a.len() {
                    return Refusal::LengthsDiffer.into();
                }
                for i in 0..a.len() {
                    values[i] = self.apply(a[i]);
                }
                DONE
            }
        }

        /// The instruction that has a number, if there is one.
        ///
        /// # Contract
        ///
        /// ```text
        /// ensures: result ≡ unary_numbered number
        /// ```
        #[must_use]
        #[inline]
        pub fn unary_numbered(number: u16) -> Option<Unary> {
            numbered(&UNARY_INSTRUCTIONS, number)
        }

        /// Writes what the instruction of a number gives.
        ///
        /// # Contract
        ///
        /// ```text
        /// ensures: Leaves (unary_result number a) value.old value.new result
        /// ```
        #[inline]
        pub fn unary_by_number(number: u16, a: RawVal, value: &mut RawVal) -> u8 {
            let Some(op) = unary_numbered(number) else {
                return Refusal::Unknown.into();
            };
            leave(Ok(op.apply(a)), value)
        }

        /// Writes what the instruction of a number gives for each element of an array.
        ///
        /// # Contract
        ///
        /// ```text
        /// ensures: Leaves (unary_results number a.now (length values.old)) values.old values.new result
        /// ```
        #[inline]
        pub fn unary_each(number: u16, a: &[RawVal], values: &mut [RawVal]) -> u8 {
            // The number is looked at once, and not at each element.
            each_by_digits(number / 16, number % 16, a, values)
        }

        // A row has sixteen numbers: instructions past the last row take an arm more.
        /// # Contract
        ///
        /// ```text
        /// requires high: high < 4096
        /// requires low: low < 16
        /// ensures outcome: Leaves (unary_results (high * 16 + low) a.now (length values.old))
        ///     values.old values.new result
        /// ```
        #[inline]
        fn each_by_digits(high: u16, low: u16, a: &[RawVal], values: &mut [RawVal]) -> u8 {
            match high {
                0 => each_in_row::<0>(low, a, values),
                1 => each_in_row::<1>(low, a, values),
                2 => each_in_row::<2>(low, a, values),
                3 => each_in_row::<3>(low, a, values),
                _ => Refusal::Unknown.into(),
            }
        }

        /// # Contract
        ///
        /// ```text
        /// requires high: HIGH < 4096
        /// requires low: low < 16
        /// ensures outcome: Leaves (unary_results (HIGH * 16 + low) a.now (length values.old))
        ///     values.old values.new result
        /// ```
        #[inline]
        fn each_in_row<const HIGH: u16>(low: u16, a: &[RawVal], values: &mut [RawVal]) -> u8 {
            by_digit!(low, each_at[HIGH](a, values))
        }

        // The code of each number has its own loop.
        /// # Contract
        ///
        /// ```text
        /// requires high: HIGH < 4096
        /// requires low: LOW < 16
        /// ensures outcome: Leaves (unary_results (HIGH * 16 + LOW) a.now (length values.old))
        ///     values.old values.new result
        /// ```
        #[inline(always)]
        fn each_at<const HIGH: u16, const LOW: u16>(a: &[RawVal], values: &mut [RawVal]) -> u8 {
            let Some(op) = unary_numbered(HIGH * 16 + LOW) else {
                return Refusal::Unknown.into();
            };
            op.each(a, values)
        }
    }
}
pub mod machine {
    //! A machine that C holds by a handle, from call to call, under a quota, a list of answers or no
    //! limiter. What the calls take and give stands in `include/wasmi_machine.h`.

    pub mod call_struct {
        //! Calls as structs of plain numbers, the calls that these stand for, and the loads, the stores and
        //! the instructions on two vectors that have a number.

        use crate::generated::c::instruction::binary::{Binary, binary_numbered};
        use crate::generated::c::instruction::lanes::{
            extraction, lane_load, lane_store, replacement,
        };
        use crate::generated::c::instruction::load::{Load, load_numbered};
        use crate::generated::c::instruction::shuffle::lanes_of;
        use crate::generated::c::instruction::store::{Store, store_numbered};
        use crate::generated::c::instruction::ternary::ternary_numbered;
        use crate::generated::c::instruction::unary::{Unary, unary_numbered};
        use crate::generated::c::types::{
            if_flag, memory_type, reference_type, table_type, to_u32, val_type,
        };
        use crate::proved::machine::Call;
        use crate::proved::ops::{BinaryOp, LoadOp, StoreOp};
        use crate::proved::raw::{RawRef, RawVal};
        use crate::proved::store::{MemoryType, TableType};
        use crate::proved::typed::{GlobalType, Mutability, TypedRawRef, TypedRawVal};

        /// The kind of loads.
        pub(crate) const LOAD: u16 = 5;
        /// The kind of stores.
        pub(crate) const STORE: u16 = 6;
        /// The kind of instructions of two registers.
        pub(crate) const BINARY: u16 = 24;

        /// A call as numbers: its kind, and its operands, of which each kind reads its own.
        #[repr(C)]
        #[derive(Clone, Copy)]
        pub struct CallStruct {
            /// The kind, by its number.
            pub kind: u16,
            /// The instruction, by its number in `include/wasmi_core.h`.
            pub op: u16,
            /// The index of a lane.
            pub lane: u8,
            /// The register that takes the result.
            pub dst: u8,
            /// The register of the first operand.
            pub a: u8,
            /// The register of the second operand.
            pub b: u8,
            /// The register of the third operand.
            pub c: u8,
            /// A value type, by its number: those of references are 5 and 6.
            pub ty: u8,
            /// Whether a global can be written: 0 is no.
            pub is_mutable: u8,
            /// Whether addresses or indices have 64 bits: 0 is no.
            pub is_64: u8,
            /// Whether there is a maximum: 0 is no.
            pub has_maximum: u8,
            /// The base-2 logarithm of a page's bytes.
            pub page_size_log2: u8,
            /// A reference.
            pub reference: u32,
            /// The memory, table, segment or global, by its index.
            pub index: usize,
            /// The memory, table or segment that is copied from, by its index.
            pub source: usize,
            /// Fuel, pages, bytes, elements, or a minimum of them.
            pub count: u64,
            /// The maximum, in pages or elements.
            pub maximum: u64,
            /// The address of a load or a store, to which `offset` is added.
            pub ptr: u64,
            /// What is added to `ptr`.
            pub offset: u64,
            /// The first byte or element that is written, or the element of an index.
            pub to: u64,
            /// The first byte, element or item that is copied.
            pub from: u64,
            /// A value.
            pub value: RawVal,
            /// The sixteen lanes of a shuffle, each below 32: those of the second vector count from 16.
            pub lanes: [u8; 16],
        }

        impl CallStruct {
            /// The call, if there is one: its kind, its instruction, its lane and its types are ones that
            /// there are, and its numbers fit. `include/wasmi_machine.h` has the numbers of the kinds.
            ///
            /// # Contract
            ///
            /// ```text
            /// ensures: result ≡ call_of self.now
            /// ```
            #[must_use]
            #[inline]
            pub fn call(&self) -> Option<Call> {
                Some(match self.kind {
                    LOAD => return self.load_call(),
                    STORE => return self.store_call(),
                    BINARY => return self.binary_call(),
                    // What tools/generate writes begins.
                    0 => Call::SetFuel(self.count),
                    1 => Call::GetFuel,
                    2 => Call::NewMemory(self.memory_type()?),
                    3 => Call::GrowMemory {
                        memory: self.index,
                        pages: self.count,
                    },
                    4 => Call::DropMemory(self.index),
                    7 => Call::LoadLane {
                        op: lane_load(self.op, self.lane).ok()?,
                        dst: self.dst,
                        a: self.a,
                        memory: self.index,
                        ptr: self.ptr,
                        offset: self.offset,
                    },
                    8 => Call::StoreLane {
                        op: lane_store(self.op, self.lane).ok()?,
                        a: self.a,
                        memory: self.index,
                        ptr: self.ptr,
                        offset: self.offset,
                    },
                    // What tools/generate writes ends.
                    _ => return self.range_call(),
                })
            }

            /// A call that writes over a range of a memory or drops a data segment, or one on tables,
            /// element segments, globals and registers.
            ///
            /// # Contract
            ///
            /// ```text
            /// ensures: result ≡ range_call self.now
            /// ```
            #[inline]
            fn range_call(&self) -> Option<Call> {
                Some(match self.kind {
                    // What tools/generate writes begins.
                    29 => Call::FillMemory {
                        memory: self.index,
                        dst: self.to,
                        value: self.byte(),
                        len: self.count,
                    },
                    30 => Call::CopyMemory {
                        dst_memory: self.index,
                        dst: self.to,
                        src_memory: self.source,
                        src: self.from,
                        len: self.count,
                    },
                    31 => Call::InitMemory {
                        memory: self.index,
                        segment: self.source,
                        dst: self.to,
                        src: to_u32(self.from)?,
                        len: to_u32(self.count)?,
                    },
                    32 => Call::DropData(self.index),
                    // What tools/generate writes ends.
                    _ => return self.table_call(),
                })
            }

            /// A call on tables and element segments, or one on globals and registers.
            ///
            /// # Contract
            ///
            /// ```text
            /// ensures: result ≡ table_call self.now
            /// ```
            #[inline]
            fn table_call(&self) -> Option<Call> {
                Some(match self.kind {
                    // What tools/generate writes begins.
                    9 => Call::NewTable {
                        ty: self.table_type()?,
                        init: self.typed_reference()?,
                    },
                    10 => Call::GrowTable {
                        table: self.index,
                        delta: self.count,
                        init: self.typed_reference()?,
                    },
                    11 => Call::DropTable(self.index),
                    12 => Call::GetElement {
                        table: self.index,
                        index: self.to,
                    },
                    13 => Call::SetElement {
                        table: self.index,
                        index: self.to,
                        value: self.typed_reference()?,
                    },
                    14 => Call::InitTable {
                        table: self.index,
                        segment: self.source,
                        dst: self.to,
                        src: to_u32(self.from)?,
                        len: to_u32(self.count)?,
                    },
                    15 => Call::CopyTable {
                        dst_table: self.index,
                        dst: self.to,
                        src_table: self.source,
                        src: self.from,
                        len: self.count,
                    },
                    16 => Call::FillTable {
                        table: self.index,
                        dst: self.to,
                        value: self.typed_reference()?,
                        len: self.count,
                    },
                    17 => Call::DropItems(self.index),
                    // What tools/generate writes ends.
                    _ => return self.value_call(),
                })
            }

            /// A call on globals and registers.
            ///
            /// # Contract
            ///
            /// ```text
            /// ensures: result ≡ value_call self.now
            /// ```
            #[inline]
            fn value_call(&self) -> Option<Call> {
                Some(match self.kind {
                    23 => return self.unary_call(),
                    // What tools/generate writes begins.
                    18 => Call::NewGlobal {
                        value: self.value,
                        ty: GlobalType::new(val_type(self.ty)?, self.mutability()),
                    },
                    19 => Call::SetGlobal {
                        global: self.index,
                        value: TypedRawVal::new(val_type(self.ty)?, self.value),
                    },
                    20 => Call::GetGlobal(self.index),
                    21 => Call::SetRegister {
                        dst: self.dst,
                        value: self.value,
                    },
                    22 => Call::GetRegister(self.a),
                    25 => Call::Ternary {
                        op: ternary_numbered(self.op)?,
                        dst: self.dst,
                        a: self.a,
                        b: self.b,
                        c: self.c,
                    },
                    26 => Call::Extract {
                        op: extraction(self.op, self.lane).ok()?,
                        a: self.a,
                    },
                    27 => Call::Replace {
                        op: replacement(self.op, self.lane).ok()?,
                        dst: self.dst,
                        a: self.a,
                        item: self.b,
                    },
                    28 => Call::Shuffle {
                        dst: self.dst,
                        a: self.a,
                        b: self.b,
                        lanes: lanes_of(self.lanes)?,
                    },
                    // What tools/generate writes ends.
                    _ => return None,
                })
            }

            /// # Contract
            ///
            /// ```text
            /// ensures: result ≡ load_call self.now
            /// ```
            #[inline]
            fn load_call(&self) -> Option<Call> {
                let (memory, ptr, offset) = (self.index, self.ptr, self.offset);
                Some(match load_numbered(self.op)? {
                    Load::Scalar(op) => Call::Load {
                        op,
                        memory,
                        ptr,
                        offset,
                    },
                    Load::Vector(op) => Call::VectorLoad {
                        op,
                        dst: self.dst,
                        memory,
                        ptr,
                        offset,
                    },
                })
            }

            /// # Contract
            ///
            /// ```text
            /// ensures: result ≡ store_call self.now
            /// ```
            #[inline]
            fn store_call(&self) -> Option<Call> {
                let (memory, ptr, offset) = (self.index, self.ptr, self.offset);
                Some(match store_numbered(self.op)? {
                    Store::Scalar(op) => Call::Store {
                        op,
                        memory,
                        ptr,
                        offset,
                        value: self.value,
                    },
                    Store::V128Store => Call::VectorStore {
                        a: self.a,
                        memory,
                        ptr,
                        offset,
                    },
                })
            }

            /// An instruction of one register: it makes a vector of an item, is on a vector, or is a test.
            ///
            /// # Contract
            ///
            /// ```text
            /// ensures: result ≡ unary_call self.now
            /// ```
            #[inline]
            fn unary_call(&self) -> Option<Call> {
                let (dst, a) = (self.dst, self.a);
                match unary_numbered(self.op)? {
                    Unary::Scalar(_) => None,
                    Unary::Make(op) => Some(Call::Make { op, dst, a }),
                    Unary::Vector(op) => Some(Call::Unary { op, dst, a }),
                    Unary::Test(op) => Some(Call::Test { op, a }),
                }
            }

            /// An instruction of two registers, or a shift by an amount.
            ///
            /// # Contract
            ///
            /// ```text
            /// ensures: result ≡ binary_call self.now
            /// ```
            #[inline]
            fn binary_call(&self) -> Option<Call> {
                let (dst, a, b) = (self.dst, self.a, self.b);
                match binary_numbered(self.op)? {
                    Binary::Scalar(_) => None,
                    Binary::Vector(op) => Some(Call::Binary { op, dst, a, b }),
                    Binary::Shift(op) => {
                        let amount = to_u32(self.count)?;
                        Some(Call::Shift { op, dst, a, amount })
                    }
                }
            }

            /// # Contract
            ///
            /// ```text
            /// ensures: result ≡ typed_reference_of self.now
            /// ```
            #[inline]
            fn typed_reference(&self) -> Option<TypedRawRef> {
                Some(TypedRawRef::new(
                    RawRef::from(self.reference),
                    reference_type(self.ty)?,
                ))
            }

            /// # Contract
            ///
            /// ```text
            /// ensures: result ≡ memory_type_in self.now
            /// ```
            #[inline]
            fn memory_type(&self) -> Option<MemoryType> {
                let maximum = if_flag(self.has_maximum, self.maximum);
                memory_type(self.count, maximum, self.is_64, self.page_size_log2)
            }

            /// # Contract
            ///
            /// ```text
            /// ensures: result ≡ table_type_in self.now
            /// ```
            #[inline]
            fn table_type(&self) -> Option<TableType> {
                let maximum = if_flag(self.has_maximum, self.maximum);
                table_type(self.ty, self.count, maximum, self.is_64)
            }

            /// # Contract
            ///
            /// ```text
            /// ensures: result ≡ byte_of self.now
            /// ```
            #[inline]
            fn byte(&self) -> u8 {
                (self.value.lo % 256) as u8
            }

            /// # Contract
            ///
            /// ```text
            /// ensures: result ≡ mutability_of self.now
            /// ```
            #[inline]
            fn mutability(&self) -> Mutability {
                if self.is_mutable == 0 {
                    Mutability::Const
                } else {
                    Mutability::Var
                }
            }
        }

        /// The load of an item that has a number, if there is one.
        ///
        /// # Contract
        ///
        /// ```text
        /// ensures: result ≡ item_load_numbered number
        /// ```
        #[inline]
        pub(crate) fn item_load_numbered(number: u16) -> Option<LoadOp> {
            match number {
                // Each of the first by itself, so that a load's code is reached by one jump.
                0 => Some(LoadOp::I32Load8S),
                1 => Some(LoadOp::I32Load8U),
                2 => Some(LoadOp::I32Load16S),
                3 => Some(LoadOp::I32Load16U),
                4 => Some(LoadOp::I64Load8S),
                5 => Some(LoadOp::I64Load8U),
                6 => Some(LoadOp::I64Load16S),
                7 => Some(LoadOp::I64Load16U),
                8 => Some(LoadOp::I64Load32S),
                9 => Some(LoadOp::I64Load32U),
                10 => Some(LoadOp::LoadU32),
                11 => Some(LoadOp::LoadU64),
                _ => match load_numbered(number)? {
                    Load::Scalar(op) => Some(op),
                    Load::Vector(_) => None,
                },
            }
        }

        /// The store of an item that has a number, if there is one.
        ///
        /// # Contract
        ///
        /// ```text
        /// ensures: result ≡ item_store_numbered number
        /// ```
        #[inline]
        pub(crate) fn item_store_numbered(number: u16) -> Option<StoreOp> {
            match number {
                // As for the loads.
                0 => Some(StoreOp::I32Store8),
                1 => Some(StoreOp::I32Store16),
                2 => Some(StoreOp::I64Store8),
                3 => Some(StoreOp::I64Store16),
                4 => Some(StoreOp::I64Store32),
                5 => Some(StoreOp::Store32),
                6 => Some(StoreOp::Store64),
                _ => match store_numbered(number)? {
                    Store::Scalar(op) => Some(op),
                    Store::V128Store => None,
                },
            }
        }

        /// The instruction on two vectors that has a number, if there is one.
        ///
        /// # Contract
        ///
        /// ```text
        /// ensures: result ≡ vector_binary_numbered number
        /// ```
        #[inline]
        pub(crate) fn vector_binary_numbered(number: u16) -> Option<BinaryOp> {
            match binary_numbered(number)? {
                Binary::Vector(op) => Some(op),
                _ => None,
            }
        }
    }
    pub mod handle {
        //! What C holds: a machine with its limiter, or none. A call works on the machine where it is, and
        //! a handle, also of a pool, may go to another thread. `include/wasmi_machine.h` says which
        //! statuses calls return, in which order.

        use crate::generated::c::held_box::HeldBox;
        use crate::generated::c::machine::call_struct::CallStruct;
        use crate::generated::c::machine::limited_machine::LimitedMachine;
        use crate::generated::c::machine::limits::{Limits, answers_of};
        use crate::generated::c::machine::machine_box::MachineBox;
        use crate::generated::c::machine::reply_struct::ReplyStruct;
        use crate::generated::c::pool::PoolHandle;
        use crate::generated::c::status::{DONE, HAS_MACHINE, NO_ANSWER, NO_MACHINE, NO_ROOM};
        use std::mem;

        /// What a call on the machine of a handle returns; or what is returned where there is none.
        #[macro_export]
        macro_rules! on_machine {
    ($handle:expr, $machine:ident => $call:expr) => {
        $crate::on_machine!($handle, ReplyStruct::only(NO_MACHINE), $machine => $call)
    };
    ($handle:expr, $none:expr, $machine:ident => $call:expr) => {{
        if $handle.is_made() {
            let $machine = $handle.machine.machine_mut();
            let reply = $call;
            $machine.show_within();
            reply
        } else {
            $none
        }
    }};
}

        /// A machine with its limiter, or none. A handle of zeros has none.
        ///
        /// # Contract
        ///
        /// ```text
        /// tells: is_some machine.held ≡ is_made
        /// ```
        #[repr(C)]
        pub struct Handle {
            /// The machine with its limiter, or none.
            pub machine: MachineBox,
            is_made: bool,
        }

        impl Handle {
            /// Whether the handle has a machine.
            ///
            /// # Contract
            ///
            /// ```text
            /// ensures: result ≡ is_some self.now.machine.held
            /// ```
            #[must_use]
            #[inline]
            pub fn is_made(&self) -> bool {
                self.is_made
            }

            /// Puts a machine in where there is none.
            ///
            /// # Contract
            ///
            /// ```text
            /// ensures: MakesMachine (λ held. held ≡ machine.entry) self.old.machine.held result
            ///     self.new.machine.held
            /// ```
            #[inline]
            fn hold(&mut self, machine: LimitedMachine) -> u8 {
                if self.is_made() {
                    return HAS_MACHINE;
                }
                let Ok(machine) = crate::memory::boxed(machine) else {
                    return NO_ROOM;
                };
                let made = Handle {
                    machine: MachineBox::from_held(HeldBox::from_box(machine)),
                    is_made: true,
                };
                let Handle {
                    machine,
                    is_made: _,
                } = mem::replace(self, made);
                machine.into_held().end();
                DONE
            }

            /// Makes a machine in a handle that has none.
            ///
            /// # Contract
            ///
            /// ```text
            /// ensures: MakesMachine (IsNewMachine limits.now) self.old.machine.held result
            ///     self.new.machine.held
            /// ```
            #[inline]
            pub fn new_machine(&mut self, limits: &Limits) -> u8 {
                self.hold(LimitedMachine::new(limits))
            }

            /// Makes a machine with a list of answers in a handle that has none. Each byte is the number of
            /// an answer: 0 permits, 1 denies, 2 is an error, and 3 permits and returns an error to a
            /// notice. The caps of the limits aren't read.
            ///
            /// # Contract
            ///
            /// ```text
            /// ensures: MakesWithAnswers limits.now answers.now self.old.machine.held result
            ///     self.new.machine.held
            /// ```
            #[inline]
            pub fn new_with_answers(&mut self, limits: &Limits, answers: &[u8]) -> u8 {
                if self.is_made() {
                    return HAS_MACHINE;
                }
                if !answers.iter().all(|number| *number < 4) {
                    return NO_ANSWER;
                }
                let Ok(answers) = answers_of(answers) else {
                    return NO_ROOM;
                };
                self.hold(LimitedMachine::with_answers(limits, answers))
            }

            /// Ends the machine of a handle, if there is one.
            ///
            /// # Contract
            ///
            /// ```text
            /// ensures: self.new.machine.held ≡ None
            /// ```
            #[inline]
            pub fn drop_machine(&mut self) {
                let none = Handle {
                    machine: MachineBox::from_held(HeldBox::empty()),
                    is_made: false,
                };
                let Handle { machine, is_made } = mem::replace(self, none);
                let held = machine.into_held();
                if is_made {
                    let _machine = held.into_box();
                } else {
                    held.end();
                }
            }

            /// Replies to a call, if the numbers stand for one.
            ///
            /// # Contract
            ///
            /// ```text
            /// ensures: OnHeld (RepliesToStruct call.now) (only NO_MACHINE)
            ///     self.old.machine.held result self.new.machine.held
            /// ```
            #[inline(always)]
            pub fn call(&mut self, call: &CallStruct) -> ReplyStruct {
                on_machine!(self, machine => machine.reply_to_struct(call))
            }
        }

        /// Does nothing: that it compiles says that a handle may go to another thread.
        #[inline]
        pub fn handles_may_move() {
            may_move::<Handle>();
            may_move::<PoolHandle>();
        }

        /// Does nothing: it can be called at a type that may go to another thread, and at no other.
        #[inline]
        fn may_move<T: Send>() {}
    }
    pub mod limited_machine {
        //! A machine with the limiter that it asks: how it is made, its calls, reservations and totals, its
        //! lists and lines of calls, and what these leave with the caller.

        use crate::generated::c::machine::call_struct::{
            BINARY, CallStruct, LOAD, STORE, item_load_numbered, item_store_numbered,
            vector_binary_numbered,
        };
        use crate::generated::c::machine::limits::{Limits, Room, Totals};
        use crate::generated::c::machine::reply_struct::ReplyStruct;
        use crate::generated::c::status::{
            BAD_LINE, DONE, HEADER_LINE, LENGTHS_DIFFER, NO_CALL, NO_ROOM, NO_SUCH, TEXT_CUT,
            memory_refusal,
        };
        use crate::generated::c::types::reference_type;
        use crate::proved::grammar::{ParseError, Script, parse};
        use crate::proved::machine::{Call, Machine, Reply, run_lending};
        use crate::proved::meter::{AnswerList, AnyLimiter, LimiterAnswer};
        use crate::proved::ops::{LoadOp, StoreOp};
        use crate::proved::raw::{RawRef, RawVal};
        use crate::proved::script::write_lines;
        use crate::rattle::Vec;
        use crate::rattle::alloc::AllocError;

        /// A machine with the limiter that it asks. A quota holds what it has, so it is within its caps.
        ///
        /// # Model
        ///
        /// ```text
        /// Value = MachineValue
        /// view = λ limited. record { state = limited.machine; limiter = limited.limiter }
        /// invariant = λ limited. Keeps limited.machine limited.limiter
        /// ```
        pub struct LimitedMachine {
            pub(crate) machine: Machine<'static>,
            pub(crate) limiter: AnyLimiter,
        }

        impl LimitedMachine {
            /// A machine with nothing on it, and with its quota if there are caps. It takes no memory.
            ///
            /// # Contract
            ///
            /// ```text
            /// ensures: IsNewMachine limits.now result
            /// ```
            #[must_use]
            #[inline]
            pub fn new(limits: &Limits) -> LimitedMachine {
                LimitedMachine {
                    machine: Machine::new(limits.fuel()),
                    limiter: limits.limiter(),
                }
            }

            /// A machine with nothing on it, and with a list of answers, of which none was taken. Its
            /// limits have the meter, and their caps aren't read. It takes no memory.
            ///
            /// # Contract
            ///
            /// ```text
            /// ensures: IsNewWithAnswers limits.now answers.items result
            /// ```
            #[must_use]
            #[inline]
            pub fn with_answers(limits: &Limits, answers: Vec<LimiterAnswer>) -> LimitedMachine {
                LimitedMachine {
                    machine: Machine::new(limits.fuel()),
                    limiter: AnyLimiter::Answers(AnswerList::new(answers)),
                }
            }

            /// Does nothing: its contract says that the machine is within its caps.
            ///
            /// # Contract
            ///
            /// ```text
            /// ensures: IsCapped self.now
            /// ```
            #[inline]
            pub fn show_within(&self) {
                let _ = &self.limiter;
            }

            /// Replies to one call.
            ///
            /// # Contract
            ///
            /// ```text
            /// ensures step: MachineReplies call.now self.old result self.new
            /// ensures caps: caps_of self.new.limiter ≡ caps_of self.old.limiter
            /// ```
            #[inline(always)]
            pub fn reply(&mut self, call: &Call) -> Reply {
                self.machine.step_lending(call, &mut self.limiter)
            }

            /// # Contract
            ///
            /// ```text
            /// ensures step: RepliesInStruct call.now self.old result self.new
            /// ensures caps: caps_of self.new.limiter ≡ caps_of self.old.limiter
            /// ```
            #[inline]
            fn reply_in_struct(&mut self, call: &Call) -> ReplyStruct {
                ReplyStruct::from_common(self.reply(call))
            }

            /// Replies to the call that numbers stand for, if there is one.
            ///
            /// # Contract
            ///
            /// ```text
            /// ensures step: RepliesToStruct numbers.now self.old result self.new
            /// ensures caps: caps_of self.new.limiter ≡ caps_of self.old.limiter
            /// ```
            #[inline(always)]
            pub fn reply_to_struct(&mut self, numbers: &CallStruct) -> ReplyStruct {
                let (index, ptr, offset) = (numbers.index, numbers.ptr, numbers.offset);
                // These read their own fields alone: to make a `Call` of all takes longer than the call.
                if numbers.kind == LOAD
                    && let Some(op) = item_load_numbered(numbers.op)
                {
                    return ReplyStruct::from_common(self.load_item(op, index, ptr, offset));
                }
                if numbers.kind == STORE
                    && let Some(op) = item_store_numbered(numbers.op)
                {
                    return ReplyStruct::from_common(self.store_item(
                        op,
                        index,
                        ptr,
                        offset,
                        numbers.value,
                    ));
                }
                if numbers.kind == BINARY
                    && let Some(op) = vector_binary_numbered(numbers.op)
                {
                    let (dst, a, b) = (numbers.dst, numbers.a, numbers.b);
                    return ReplyStruct::from_common(self.reply(&Call::Binary { op, dst, a, b }));
                }
                match &numbers.call() {
                    Some(call) => self.reply_in_struct(call).by_fields(),
                    None => ReplyStruct::only(NO_CALL),
                }
            }

            /// Replies to the calls that numbers stand for, one after the other, and writes the replies into
            /// the caller's, if there are as many. It takes no memory for them.
            ///
            /// # Contract
            ///
            /// ```text
            /// ensures step: RepliesInTurn RepliesToStruct calls.now replies.old self.old
            ///     (result, replies.new) self.new
            /// ensures caps: caps_of self.new.limiter ≡ caps_of self.old.limiter
            /// ```
            #[inline]
            pub fn run_into(&mut self, calls: &[CallStruct], replies: &mut [ReplyStruct]) -> u8 {
                if replies.len() != calls.len() {
                    return LENGTHS_DIFFER;
                }
                for i in 0..calls.len() {
                    replies[i] = self.reply_to_struct(&calls[i]);
                }
                DONE
            }

            /// Reserves so many more slots of each kind. If memory for some is refused, none more is.
            ///
            /// # Contract
            ///
            /// ```text
            /// ensures step: Reserves room.now self.old result self.new
            /// ensures caps: caps_of self.new.limiter ≡ caps_of self.old.limiter
            /// ```
            #[inline]
            pub fn reserve(&mut self, room: &Room) -> u8 {
                match self.machine.reserve(room.slots()) {
                    Ok(()) => DONE,
                    Err(_) => NO_ROOM,
                }
            }

            /// Reserves memory for so many elements in all of a table, or changes nothing if it is refused.
            ///
            /// # Contract
            ///
            /// ```text
            /// ensures step: ReservesElementsByStatus table elements self.old result self.new
            /// ensures caps: caps_of self.new.limiter ≡ caps_of self.old.limiter
            /// ```
            #[inline]
            pub fn reserve_elements(&mut self, table: usize, elements: u64) -> u8 {
                let reply = self.machine.reserve_elements(table, elements);
                ReplyStruct::from_reply(&reply).status
            }

            /// Loads an item by the load that has the number, if there is one.
            ///
            /// # Contract
            ///
            /// ```text
            /// ensures: RepliesInWord (item_load number memory ptr offset) value.old self.now
            ///     (result, value.new) self.now
            /// ```
            #[inline(always)]
            pub fn load(
                &self,
                number: u16,
                memory: usize,
                ptr: u64,
                offset: u64,
                value: &mut u64,
            ) -> u8 {
                match item_load_numbered(number) {
                    Some(op) => leave(self.load_item(op, memory, ptr, offset), value),
                    None => NO_CALL,
                }
            }

            /// # Contract
            ///
            /// ```text
            /// ensures: MachineReplies (Load op memory ptr offset) self.now result self.now
            /// ```
            #[inline(always)]
            fn load_item(&self, op: LoadOp, memory: usize, ptr: u64, offset: u64) -> Reply {
                let Some(memory) = self.machine.memory(memory) else {
                    return Reply::NoSuch;
                };
                match op.load(memory.data(), ptr, offset) {
                    Ok(raw) => Reply::Value(raw),
                    Err(trap) => Reply::Trap(trap),
                }
            }

            /// Tells the fuel that is left.
            ///
            /// # Contract
            ///
            /// ```text
            /// ensures: RepliesInWord (Some GetFuel) left.old self.now (result, left.new) self.now
            /// ```
            #[inline(always)]
            pub fn fuel_left(&self, left: &mut u64) -> u8 {
                match self.machine.fuel().get_fuel() {
                    Ok(amount) => leave(Reply::Number(amount), left),
                    Err(error) => leave(Reply::Fuel(error), left),
                }
            }

            /// Stores an item by the store that has the number, if there is one.
            ///
            /// # Contract
            ///
            /// ```text
            /// ensures step: RepliesInStatus (item_store number memory ptr offset value) self.old result
            ///     self.new
            /// ensures caps: caps_of self.new.limiter ≡ caps_of self.old.limiter
            /// ```
            #[inline(always)]
            pub fn store(
                &mut self,
                number: u16,
                memory: usize,
                ptr: u64,
                offset: u64,
                value: u64,
            ) -> u8 {
                let Some(op) = item_store_numbered(number) else {
                    return NO_CALL;
                };
                let value = RawVal { lo: value, hi: 0 };
                ReplyStruct::from_common(self.store_item(op, memory, ptr, offset, value)).status
            }

            /// Stores an item, which asks no limiter.
            ///
            /// # Contract
            ///
            /// ```text
            /// ensures step: MachineReplies (Store op memory ptr offset value) self.old result self.new
            /// ensures caps: caps_of self.new.limiter ≡ caps_of self.old.limiter
            /// ```
            #[inline(always)]
            fn store_item(
                &mut self,
                op: StoreOp,
                memory: usize,
                ptr: u64,
                offset: u64,
                value: RawVal,
            ) -> Reply {
                self.machine.store_item(op, memory, ptr, offset, value)
            }

            /// Executes the instruction on two vectors that has the number, if there is one.
            ///
            /// # Contract
            ///
            /// ```text
            /// ensures step: RepliesInStatus (vector_binary number dst a b) self.old result self.new
            /// ensures caps: caps_of self.new.limiter ≡ caps_of self.old.limiter
            /// ```
            #[inline(always)]
            pub fn binary(&mut self, number: u16, dst: u8, a: u8, b: u8) -> u8 {
                let Some(op) = vector_binary_numbered(number) else {
                    return NO_CALL;
                };
                ReplyStruct::from_common(self.reply(&Call::Binary { op, dst, a, b })).status
            }

            /// Grows a memory by so many pages, and leaves a status and a word of the reply.
            ///
            /// # Contract
            ///
            /// ```text
            /// ensures step: RepliesInWord (Some (GrowMemory memory pages)) number.old self.old
            ///     (result, number.new) self.new
            /// ensures caps: caps_of self.new.limiter ≡ caps_of self.old.limiter
            /// ```
            #[inline(always)]
            pub fn grow(&mut self, memory: usize, pages: u64, number: &mut u64) -> u8 {
                leave(self.grow_memory(memory, pages), number)
            }

            /// # Contract
            ///
            /// ```text
            /// ensures step: MachineReplies (GrowMemory memory pages) self.old result self.new
            /// ensures caps: caps_of self.new.limiter ≡ caps_of self.old.limiter
            /// ```
            #[inline(always)]
            fn grow_memory(&mut self, memory: usize, pages: u64) -> Reply {
                self.machine
                    .grow_memory_lending(memory, pages, &mut self.limiter)
            }

            /// Fills a range of a memory with a byte, and leaves a status and a word of the reply.
            ///
            /// # Contract
            ///
            /// ```text
            /// ensures step: RepliesInWord (Some (FillMemory memory dst value len)) number.old self.old
            ///     (result, number.new) self.new
            /// ensures caps: caps_of self.new.limiter ≡ caps_of self.old.limiter
            /// ```
            #[inline(always)]
            pub fn fill(
                &mut self,
                memory: usize,
                dst: u64,
                value: u8,
                len: u64,
                number: &mut u64,
            ) -> u8 {
                let call = Call::FillMemory {
                    memory,
                    dst,
                    value,
                    len,
                };
                leave(self.reply(&call), number)
            }

            /// Copies a range of a memory to another or within it; leaves a status and a word of the reply.
            ///
            /// # Contract
            ///
            /// ```text
            /// ensures step: RepliesInWord (Some (CopyMemory dst_memory dst src_memory src len))
            ///     number.old self.old (result, number.new) self.new
            /// ensures caps: caps_of self.new.limiter ≡ caps_of self.old.limiter
            /// ```
            #[inline(always)]
            pub fn copy(
                &mut self,
                dst_memory: usize,
                dst: u64,
                src_memory: usize,
                src: u64,
                len: u64,
                number: &mut u64,
            ) -> u8 {
                let call = Call::CopyMemory {
                    dst_memory,
                    dst,
                    src_memory,
                    src,
                    len,
                };
                leave(self.reply(&call), number)
            }

            /// Copies a range of a data segment to a memory, and leaves a status and a word of the reply.
            ///
            /// # Contract
            ///
            /// ```text
            /// ensures step: RepliesInWord (Some (InitMemory memory segment dst src len)) number.old
            ///     self.old (result, number.new) self.new
            /// ensures caps: caps_of self.new.limiter ≡ caps_of self.old.limiter
            /// ```
            #[inline(always)]
            pub fn init(
                &mut self,
                memory: usize,
                segment: usize,
                dst: u64,
                src: u32,
                len: u32,
                number: &mut u64,
            ) -> u8 {
                let call = Call::InitMemory {
                    memory,
                    segment,
                    dst,
                    src,
                    len,
                };
                leave(self.reply(&call), number)
            }

            /// Copies the bytes of a memory from an offset on to the caller's.
            ///
            /// # Contract
            ///
            /// ```text
            /// ensures: ReadsOut memory offset self.now.state bytes.old result bytes.new
            /// ```
            #[inline]
            pub fn read(&self, memory: usize, offset: usize, bytes: &mut [u8]) -> ReplyStruct {
                read_out(&self.machine, memory, offset, bytes)
            }

            /// Writes the caller's bytes over those of a memory from an offset on, which asks no limiter.
            ///
            /// # Contract
            ///
            /// ```text
            /// ensures step: RepliesToItems (Write memory offset) bytes.now self.old result self.new
            /// ensures caps: caps_of self.new.limiter ≡ caps_of self.old.limiter
            /// ```
            #[inline]
            pub fn write(&mut self, memory: usize, offset: usize, bytes: &[u8]) -> ReplyStruct {
                ReplyStruct::from_common(self.machine.write(memory, offset, bytes))
            }

            /// Makes an element segment of a copy of the caller's references, if there is such a type.
            ///
            /// # Contract
            ///
            /// ```text
            /// ensures step: RepliesToSegment ty items.now self.old result self.new
            /// ensures caps: caps_of self.new.limiter ≡ caps_of self.old.limiter
            /// ```
            #[inline]
            pub fn new_segment(&mut self, ty: u8, items: &[u32]) -> ReplyStruct {
                let Some(ty) = reference_type(ty) else {
                    return ReplyStruct::only(NO_CALL);
                };
                let Ok(items) = references(items) else {
                    return ReplyStruct::only(NO_ROOM);
                };
                self.reply_in_struct(&Call::NewSegment { ty, items })
            }

            /// Makes a data segment of a copy of the caller's bytes.
            ///
            /// # Contract
            ///
            /// ```text
            /// ensures step: RepliesToCopy NewData bytes.now self.old result self.new
            /// ensures caps: caps_of self.new.limiter ≡ caps_of self.old.limiter
            /// ```
            #[inline]
            pub fn new_data(&mut self, bytes: &[u8]) -> ReplyStruct {
                let Ok(copy) = Vec::from_slice(bytes) else {
                    return ReplyStruct::only(NO_ROOM);
                };
                self.reply_in_struct(&Call::NewData(copy))
            }

            /// How many bytes and elements the machine has, as a quota holds them; else they are added up.
            ///
            /// # Contract
            ///
            /// ```text
            /// ensures: result ≡ totals_of self.now
            /// ```
            #[must_use]
            #[inline]
            pub fn totals(&self) -> Totals {
                let (bytes, elements) = match &self.limiter {
                    AnyLimiter::Quota(quota) => (
                        u128::from(quota.held_bytes()),
                        u128::from(quota.held_elements()),
                    ),
                    _ => (self.machine.total_bytes(), self.machine.total_elements()),
                };
                Totals::from_amounts(DONE, bytes, elements)
            }

            /// Takes fuel that isn't a call's.
            ///
            /// # Contract
            ///
            /// ```text
            /// ensures step: PaysFuel amount self.old result self.new
            /// ensures caps: caps_of self.new.limiter ≡ caps_of self.old.limiter
            /// ```
            #[inline]
            pub fn consume_fuel(&mut self, amount: u64) -> ReplyStruct {
                match self.machine.consume_fuel(amount) {
                    Ok(left) => ReplyStruct::with_number(DONE, left),
                    Err(error) => ReplyStruct::from_reply(&Reply::Fuel(error)),
                }
            }

            /// Runs lines of calls, and writes their replies to the front of a text.
            ///
            /// # Contract
            ///
            /// ```text
            /// ensures lines: RunsLines lines.now self.old text.old result text.new self.new
            /// ensures caps: caps_of self.new.limiter ≡ caps_of self.old.limiter
            /// ```
            #[inline]
            pub fn run_lines(&mut self, lines: &[u8], text: &mut [u8]) -> ReplyStruct {
                let script = match headless(lines) {
                    Ok(script) => script,
                    Err(refusal) => return refusal,
                };
                let calls = script.parts.calls();
                let Ok(replies) = self.run(calls) else {
                    return ReplyStruct::only(NO_ROOM);
                };
                write_out(calls, &replies, text)
            }

            /// Runs calls. If memory for the replies is refused, nothing has happened.
            ///
            /// # Contract
            ///
            /// ```text
            /// ensures run: IfOk result
            ///     (λ replies. MachineRuns calls.now self.old replies.items self.new)
            /// ensures err: OnErr result (self.new ≡ self.old)
            /// ensures caps: caps_of self.new.limiter ≡ caps_of self.old.limiter
            /// ```
            #[inline]
            fn run(&mut self, calls: &[Call]) -> Result<Vec<Reply>, AllocError> {
                run_lending(&mut self.machine, calls, &mut self.limiter)
            }
        }

        /// Leaves the word of a reply with the caller, and returns the status. It is matched where it is
        /// returned, since a reply that is kept in a variable is copied.
        ///
        /// # Contract
        ///
        /// ```text
        /// ensures status: result ≡ status_of reply
        /// ensures word: word.new ≡ word_after reply word.old
        /// ```
        #[inline(always)]
        pub(crate) fn leave(reply: Reply, word: &mut u64) -> u8 {
            match reply {
                Reply::Value(value) => {
                    *word = value.lo;
                    DONE
                }
                Reply::Number(number) => {
                    *word = number;
                    DONE
                }
                Reply::Memory(error) => memory_refusal(error, word),
                other => ReplyStruct::from_reply(&other).status,
            }
        }

        /// A copy of the caller's references, for a segment.
        ///
        /// # Contract
        ///
        /// ```text
        /// ensures: IfOk result (λ copy. copy.items ≡ items.now)
        /// ```
        #[inline]
        pub(crate) fn references(items: &[u32]) -> Result<Vec<RawRef>, AllocError> {
            let mut copy = Vec::with_capacity(items.len())?;
            for item in items {
                copy.push_reserved(RawRef::from(*item));
            }
            Ok(copy)
        }

        /// Copies the bytes of a memory from an offset on to the caller's.
        ///
        /// # Contract
        ///
        /// ```text
        /// ensures: ReadsOut memory offset machine.now bytes.old result bytes.new
        /// ```
        #[inline]
        pub(crate) fn read_out(
            machine: &Machine,
            memory: usize,
            offset: usize,
            bytes: &mut [u8],
        ) -> ReplyStruct {
            let Some(memory) = machine.memory(memory) else {
                return ReplyStruct::only(NO_SUCH);
            };
            match memory.read(offset, bytes) {
                Ok(()) => ReplyStruct::only(DONE),
                Err(error) => ReplyStruct::from_reply(&Reply::Memory(error)),
            }
        }

        /// The script that lines write, if it has no header lines; else why they aren't run.
        ///
        /// # Contract
        ///
        /// ```text
        /// ensures: MatchResult result (λ script. WritesScript lines.now script
        ///     × (script.header ≡ no_header)) (λ refusal. RefusesLines lines.now refusal)
        /// ```
        #[inline]
        pub(crate) fn headless(lines: &[u8]) -> Result<Script, ReplyStruct> {
            match parse(lines) {
                Ok(script) => {
                    let header = &script.header;
                    if header.meter.is_none()
                        && header.limiter_line.is_none()
                        && header.region.is_none()
                        && header.reserve.is_none()
                    {
                        Ok(script)
                    } else {
                        Err(ReplyStruct::only(HEADER_LINE))
                    }
                }
                Err(ParseError::BadCommand { line }) => {
                    Err(ReplyStruct::with_number(BAD_LINE, line as u64))
                }
                Err(ParseError::OutOfMemory) => Err(ReplyStruct::only(NO_ROOM)),
            }
        }

        /// Writes the replies to calls to the front of the bytes, as much of their text as fits.
        ///
        /// # Contract
        ///
        /// ```text
        /// ensures text: WritesOut (replies_text calls.now replies.now) bytes.old result bytes.new
        /// ```
        #[inline]
        pub(crate) fn write_out(
            calls: &[Call],
            replies: &[Reply],
            bytes: &mut [u8],
        ) -> ReplyStruct {
            let length = write_lines(bytes, calls, replies);
            let status = if length == usize::MAX { TEXT_CUT } else { DONE };
            ReplyStruct::with_number(status, length as u64)
        }
    }
    pub mod limits {
        //! The structs of plain numbers of what a machine is made with, the answers of its limiter among
        //! it, of what is reserved on it, and of what it has.

        use crate::generated::c::types::{if_flag, meter};
        use crate::proved::machine::SlotCounts;
        use crate::proved::meter::{AnyLimiter, CustomFuelCosts, Fuel, LimiterAnswer, Quota};
        use crate::proved::raw::{RawVal, V128};
        use crate::rattle::Vec;
        use crate::rattle::alloc::AllocError;

        /// What a machine is made with: its caps, if it has any, and its meter with what work costs.
        #[repr(C)]
        #[derive(Clone, Copy)]
        pub struct Limits {
            /// The most bytes that its memories may have together.
            pub bytes: u64,
            /// The most elements that its tables may have together.
            pub elements: u64,
            /// How many bytes are copied for one fuel; 0 makes each copy cost the greatest `u64`.
            pub bytes_copied_per_fuel: u32,
            /// The fuel for translating one byte, which no call takes.
            pub fuel_per_bytes_translated: u32,
            /// The fuel for validating one byte, which no call takes.
            pub fuel_per_bytes_validated: u32,
            /// Whether the meter is on: 0 is no. One that is on has no fuel at first.
            pub is_metered: u8,
            /// Whether there are no caps: 0 is no. Where there are none, nothing is asked before a growth.
            pub is_unlimited: u8,
        }

        impl Limits {
            /// The meter.
            ///
            /// # Contract
            ///
            /// ```text
            /// ensures: result ≡ meter_with self.now
            /// ```
            #[must_use]
            #[inline]
            pub fn fuel(&self) -> Fuel {
                let costs = CustomFuelCosts {
                    bytes_copied_per_fuel: self.bytes_copied_per_fuel,
                    fuel_per_bytes_translated: self.fuel_per_bytes_translated,
                    fuel_per_bytes_validated: self.fuel_per_bytes_validated,
                };
                meter(if_flag(self.is_metered, 0), costs)
            }

            /// The quota of the caps, if there are caps.
            ///
            /// # Contract
            ///
            /// ```text
            /// ensures: IsNewLimiter self.now result
            /// ```
            #[must_use]
            #[inline]
            pub fn limiter(&self) -> AnyLimiter {
                if self.is_unlimited == 0 {
                    AnyLimiter::Quota(Quota::new(self.bytes, self.elements))
                } else {
                    AnyLimiter::Unlimited
                }
            }
        }

        /// How many slots are reserved on a machine, beside those of what was made.
        #[repr(C)]
        #[derive(Clone, Copy)]
        pub struct Room {
            /// Slots of memories.
            pub memories: usize,
            /// Slots of tables.
            pub tables: usize,
            /// Slots of element segments.
            pub segments: usize,
            /// Slots of data segments.
            pub data_segments: usize,
            /// Slots of globals.
            pub globals: usize,
        }

        impl Room {
            /// The slots of each kind.
            ///
            /// # Contract
            ///
            /// ```text
            /// ensures: result ≡ slots_of self.now
            /// ```
            #[must_use]
            #[inline]
            pub fn slots(&self) -> SlotCounts {
                SlotCounts {
                    memories: self.memories,
                    tables: self.tables,
                    segments: self.segments,
                    data_segments: self.data_segments,
                    globals: self.globals,
                }
            }
        }

        /// How many bytes the memories of a machine have together, and how many elements its tables;
        /// dropped ones count at their last size.
        #[repr(C)]
        #[derive(Clone, Copy)]
        pub struct Totals {
            /// The bytes, as a number of 128 bits.
            pub bytes: RawVal,
            /// The elements, as a number of 128 bits.
            pub elements: RawVal,
            /// 0, or that there is no machine.
            pub status: u8,
        }

        impl Totals {
            /// So many bytes and elements.
            ///
            /// # Contract
            ///
            /// ```text
            /// ensures: result ≡ totals_in status bytes elements
            /// ```
            #[must_use]
            #[inline]
            pub fn from_amounts(status: u8, bytes: u128, elements: u128) -> Totals {
                Totals {
                    bytes: RawVal::from(V128::from(bytes)),
                    elements: RawVal::from(V128::from(elements)),
                    status,
                }
            }
        }

        /// The answers that numbers below 4 stand for.
        ///
        /// # Contract
        ///
        /// ```text
        /// ensures answers: IfOk result (λ answers. answers.items ≡ map listed_answer numbers.now)
        /// ```
        #[inline]
        pub(super) fn answers_of(numbers: &[u8]) -> Result<Vec<LimiterAnswer>, AllocError> {
            let mut answers = Vec::new();
            answers.read_all(numbers.iter().map(|number| answer(*number)), usize::MAX)?;
            Ok(answers)
        }

        /// # Contract
        ///
        /// ```text
        /// ensures: result ≡ listed_answer number
        /// ```
        #[inline]
        fn answer(number: u8) -> LimiterAnswer {
            match number {
                0 => LimiterAnswer::Permit,
                1 => LimiterAnswer::Deny,
                2 => LimiterAnswer::Error,
                _ => LimiterAnswer::Complain,
            }
        }
    }
    pub use crate::by_hand::machine_box;
    pub mod reply_struct {
        //! Replies as structs of plain numbers.

        use crate::generated::c::status::{
            DONE, GLOBAL_IMMUTABLE, GLOBAL_TYPE, METERING_DISABLED, NO_ELEMENT, NO_REGION, NO_ROOM,
            NO_SUCH, OUT_OF_FUEL, SEGMENT_OUT_OF_MEMORY, SEGMENT_TOO_MANY_ITEMS, memory_refusal,
            table_refusal,
        };
        use crate::proved::machine::Reply;
        use crate::proved::meter::FuelError;
        use crate::proved::raw::RawVal;
        use crate::proved::store::SegmentError;
        use crate::proved::typed::GlobalError;
        use crate::proved::types::RefType;

        /// A reply as numbers. What a reply doesn't have is 0.
        #[repr(C)]
        #[derive(Clone, Copy)]
        pub struct ReplyStruct {
            /// The value of a global or a register, or what a load or an instruction gives.
            pub value: RawVal,
            /// The index of what was made, the old size of a growth, the fuel that is left, or the fuel
            /// that a refused call needs.
            pub number: u64,
            /// An element of a table.
            pub reference: u32,
            /// The type of that element, by its number.
            pub ty: u8,
            /// 0 where the call was done, else why it was refused.
            pub status: u8,
        }

        impl ReplyStruct {
            /// A reply that has a status and nothing else.
            ///
            /// # Contract
            ///
            /// ```text
            /// ensures: result ≡ only status
            /// ```
            #[must_use]
            #[inline]
            pub fn only(status: u8) -> ReplyStruct {
                ReplyStruct::with_number(status, 0)
            }

            /// A reply with a number.
            ///
            /// # Contract
            ///
            /// ```text
            /// ensures: result ≡ with_number status number
            /// ```
            #[must_use]
            #[inline]
            pub fn with_number(status: u8, number: u64) -> ReplyStruct {
                ReplyStruct {
                    value: RawVal { lo: 0, hi: 0 },
                    number,
                    reference: 0,
                    ty: 0,
                    status,
                }
            }

            /// A reply with a value.
            ///
            /// # Contract
            ///
            /// ```text
            /// ensures: result ≡ with_value value
            /// ```
            #[must_use]
            #[inline]
            pub fn with_value(value: RawVal) -> ReplyStruct {
                ReplyStruct {
                    value,
                    ..ReplyStruct::only(DONE)
                }
            }

            /// The same reply, copied a field at a time. A copy of the whole may be made in pieces that
            /// overlap, and the processor then waits for the first to be stored.
            ///
            /// # Contract
            ///
            /// ```text
            /// ensures: result ≡ self
            /// ```
            #[inline(always)]
            #[must_use]
            pub fn by_fields(self) -> ReplyStruct {
                ReplyStruct {
                    value: self.value,
                    number: self.number,
                    reference: self.reference,
                    ty: self.ty,
                    status: self.status,
                }
            }

            /// The reply as numbers. Those of the calls that engines make most are matched where they are
            /// returned, since a reply that is kept in a variable is copied.
            ///
            /// # Contract
            ///
            /// ```text
            /// ensures: result ≡ reply_struct reply
            /// ```
            #[inline(always)]
            #[must_use]
            pub fn from_common(reply: Reply) -> ReplyStruct {
                match reply {
                    Reply::Done => ReplyStruct::only(DONE),
                    Reply::NoSuch => ReplyStruct::only(NO_SUCH),
                    Reply::Trap(trap) => ReplyStruct::only(u8::from(trap)),
                    Reply::Value(value) => ReplyStruct::with_value(value),
                    Reply::Number(number) => ReplyStruct::with_number(DONE, number),
                    other => ReplyStruct::from_reply(&other),
                }
            }

            /// The reply as numbers.
            ///
            /// # Contract
            ///
            /// ```text
            /// ensures: result ≡ reply_struct reply.now
            /// ```
            #[must_use]
            #[inline]
            pub fn from_reply(reply: &Reply) -> ReplyStruct {
                match reply {
                    Reply::Done => ReplyStruct::only(DONE),
                    Reply::Made(index) => ReplyStruct::with_number(DONE, *index as u64),
                    Reply::Value(value) => ReplyStruct::with_value(*value),
                    Reply::Number(number) => ReplyStruct::with_number(DONE, *number),
                    Reply::Bytes(bytes) => {
                        ReplyStruct::with_number(DONE, bytes.as_slice().len() as u64)
                    }
                    Reply::Reference(Some(element)) => ReplyStruct {
                        reference: u32::from(element.raw()),
                        ty: reference_number(element.ty()),
                        ..ReplyStruct::only(DONE)
                    },
                    Reply::Reference(None) => ReplyStruct::only(NO_ELEMENT),
                    Reply::Memory(error) => {
                        let mut number = 0;
                        let status = memory_refusal(*error, &mut number);
                        ReplyStruct::with_number(status, number)
                    }
                    Reply::Table(error) => {
                        let mut number = 0;
                        let status = table_refusal(*error, &mut number);
                        ReplyStruct::with_number(status, number)
                    }
                    Reply::Fuel(FuelError::FuelMeteringDisabled) => {
                        ReplyStruct::only(METERING_DISABLED)
                    }
                    Reply::Fuel(FuelError::OutOfFuel { required_fuel }) => {
                        ReplyStruct::with_number(OUT_OF_FUEL, *required_fuel)
                    }
                    Reply::Global(GlobalError::ImmutableWrite) => {
                        ReplyStruct::only(GLOBAL_IMMUTABLE)
                    }
                    Reply::Global(GlobalError::TypeMismatch) => ReplyStruct::only(GLOBAL_TYPE),
                    Reply::Segment(SegmentError::TooManyItems) => {
                        ReplyStruct::only(SEGMENT_TOO_MANY_ITEMS)
                    }
                    Reply::Segment(SegmentError::OutOfSystemMemory) => {
                        ReplyStruct::only(SEGMENT_OUT_OF_MEMORY)
                    }
                    Reply::Trap(code) => ReplyStruct::only(u8::from(*code)),
                    Reply::NoSuch => ReplyStruct::only(NO_SUCH),
                    Reply::NoRegion => ReplyStruct::only(NO_REGION),
                    Reply::NoRoom => ReplyStruct::only(NO_ROOM),
                }
            }
        }

        /// The number that a reply has for a reference type, among those of the value types.
        ///
        /// # Contract
        ///
        /// ```text
        /// ensures: result ≡ reference_number ty
        /// ```
        #[inline]
        fn reference_number(ty: RefType) -> u8 {
            match ty {
                RefType::Func => 5,
                RefType::Extern => 6,
            }
        }
    }
}
pub mod memory {
    //! How a memory whose bytes are the first of a region that lies with C is made, grows, is read and
    //! written, and what a growth of it asks. `number` is set to the fuel needed where less is left.

    use crate::generated::c::host::{HostAnswers, Question};
    use crate::generated::c::numbers::{
        MemoryNumbers, MeterNumbers, QuotaNumbers, Range, type_or_return,
    };
    use crate::generated::c::status::{
        ASKS, DONE, INVALID_STATE, MEMORY_ACCESS, MEMORY_GROWTH, NOT_HELD, OTHER_SIZE,
        memory_refusal, memory_status,
    };
    use crate::proved::meter::{Kind, MemoryError, ResourceLimiter, ResourceLimiterRef};
    use crate::proved::region::memory as region_memory;
    use crate::proved::store::MemoryType;
    use crate::proved::store::range::fill_range;

    /// The binary logarithm of the size of a page that no memory has.
    const NO_PAGE_SIZE: u8 = 255;

    /// Makes a memory of this type under a limiter, as [`memory::make`](crate::proved::region::memory::make) does.
    ///
    /// # Errors
    ///
    /// In the order of the tests: [`MinimumSizeOverflow`](crate::MemoryError::MinimumSizeOverflow) if the minimum has 2^64 bytes or more; [`ResourceLimiterDeniedAllocation`](crate::MemoryError::ResourceLimiterDeniedAllocation) if the limiter doesn't permit it; [`InvalidStaticBufferSize`](crate::MemoryError::InvalidStaticBufferSize) if the region is shorter than the minimum, of which the limiter is notified. After an error the bytes of the region are unchanged.
    ///
    /// # Contract
    ///
    /// ```text
    /// ensures made: MakesMemory (optional_rules L.rules) (Lent region.old) ty
    ///     (Some limiter.old) (made_in ty region.new result) (Some limiter.new)
    /// ensures sized: IfOk result (λ size. IsSized ty size × (size ≤ length region.new))
    /// ensures refused: OnErr result (region.new ≡ region.old)
    /// ```
    ///
    /// `L` is the type of the limiter, a [`ResourceLimiter`](crate::machine::ResourceLimiter#contract).
    #[inline]
    pub fn make_under<L: ResourceLimiter>(
        ty: MemoryType,
        region: &mut [u8],
        limiter: &mut L,
    ) -> Result<usize, MemoryError> {
        let mut lent = ResourceLimiterRef::from(limiter);
        let made = region_memory::make(ty, region, &mut lent);
        let _limiter = lent.into_limiter();
        made
    }

    /// Makes a memory of zeros at the front of a region, at the minimum of the numbers' type, and sets
    /// their size. It takes no fuel, and leaves the bytes past the minimum alone.
    ///
    /// # Contract
    ///
    /// ```text
    /// ensures made: MakesEmbedded (placed memory.old region.old) (limiter_of quota.old) result
    ///     (placed memory.new region.new) (limiter_of quota.new)
    /// ensures quota: KeepsQuota quota.old quota.new
    /// ensures invalid: IsNoType memory.old → quota.new ≡ quota.old
    /// ensures unasked: (ty : MemoryTypeValue) → named_type (settings_of memory.old) ≡ Some ty
    ///     → 2 ^ 64 ≤ minimum_bytes ty → quota.new ≡ quota.old
    /// ```
    #[inline]
    pub fn make(memory: &mut MemoryNumbers, region: &mut [u8], quota: &mut QuotaNumbers) -> u8 {
        let Some(ty) = memory.ty() else {
            return INVALID_STATE;
        };
        match make_under(ty, region, quota) {
            Ok(size) => {
                memory.size = size;
                DONE
            }
            Err(error) => memory_status(error),
        }
    }

    /// Makes a memory as [`make`] does, at the front of a region whose bytes up to the minimum are zeros
    /// already, and writes no byte of it. Where they aren't zeros, the memory has what stands there.
    ///
    /// # Contract
    ///
    /// ```text
    /// ensures made: MakesEmbedded (placed memory.old region.now) (limiter_of quota.old) result
    ///     (placed memory.new (made_over region.now memory.new.size result)) (limiter_of quota.new)
    /// ensures quota: KeepsQuota quota.old quota.new
    /// ensures invalid: IsNoType memory.old → quota.new ≡ quota.old
    /// ensures unasked: (ty : MemoryTypeValue) → named_type (settings_of memory.old) ≡ Some ty
    ///     → 2 ^ 64 ≤ minimum_bytes ty → quota.new ≡ quota.old
    /// ```
    #[inline]
    pub fn make_zeroed(memory: &mut MemoryNumbers, region: &[u8], quota: &mut QuotaNumbers) -> u8 {
        let Some(ty) = memory.ty() else {
            return INVALID_STATE;
        };
        match make_zeroed_under(ty, region, quota) {
            Ok(size) => {
                memory.size = size;
                DONE
            }
            Err(error) => memory_status(error),
        }
    }

    /// Makes a memory of this type under a limiter in zeros, as [`memory::make_zeroed`](crate::proved::region::memory::make_zeroed).
    ///
    /// # Errors
    ///
    /// In the order of the tests: [`MinimumSizeOverflow`](crate::MemoryError::MinimumSizeOverflow) if the minimum has 2^64 bytes or more; [`ResourceLimiterDeniedAllocation`](crate::MemoryError::ResourceLimiterDeniedAllocation) if the limiter doesn't permit it; [`InvalidStaticBufferSize`](crate::MemoryError::InvalidStaticBufferSize) if the region is shorter than the minimum, of which the limiter is notified. After an error the bytes of the region are unchanged.
    ///
    /// # Contract
    ///
    /// ```text
    /// ensures made: MakesMemory (optional_rules L.rules) (Lent region.now) ty
    ///     (Some limiter.old) (made_in_zeros ty region.now result) (Some limiter.new)
    /// ensures sized: IfOk result (λ size. IsSized ty size × (size ≤ length region.now))
    /// ```
    ///
    /// `L` is the type of the limiter, a [`ResourceLimiter`](crate::machine::ResourceLimiter#contract).
    #[inline]
    pub fn make_zeroed_under<L: ResourceLimiter>(
        ty: MemoryType,
        region: &[u8],
        limiter: &mut L,
    ) -> Result<usize, MemoryError> {
        let mut lent = ResourceLimiterRef::from(limiter);
        let made = region_memory::make_zeroed(ty, region, &mut lent);
        let _limiter = lent.into_limiter();
        made
    }

    /// Grows a memory of this type under a limiter.
    ///
    /// # Contract
    ///
    /// ```text
    /// requires state: IsState memory.old region.old ty
    /// ensures grown: GrowsAs of_memory L.rules (by_pages pages) ty
    ///     (embedded memory.old region.old meter.old (Some limiter.old) number.old) result
    ///     (embedded memory.new region.new meter.new (Some limiter.new) number.new)
    /// ```
    ///
    /// `L` is the type of the limiter, a [`ResourceLimiter`](crate::machine::ResourceLimiter#contract).
    #[inline]
    pub fn grow_under<L: ResourceLimiter>(
        memory: &mut MemoryNumbers,
        ty: MemoryType,
        region: &mut [u8],
        pages: u64,
        meter: &mut MeterNumbers,
        limiter: &mut L,
        number: &mut u64,
    ) -> u8 {
        let old_size = memory.size;
        let status = grow_zeroed_under(memory, ty, region, pages, meter, limiter, number);
        fill_range(region, old_size, memory.size, 0);
        status
    }

    /// Grows a memory of this type under a limiter into bytes that are zeros, of which it writes none.
    ///
    /// # Contract
    ///
    /// ```text
    /// requires state: IsState memory.old region.now ty
    /// ensures grown: GrowsAs of_memory L.rules (by_pages pages) ty
    ///     (embedded memory.old region.now meter.old (Some limiter.old) number.old) result
    ///     (embedded memory.new (zeroed region.now memory.old.size memory.new.size) meter.new
    ///     (Some limiter.new) number.new)
    /// ensures larger: memory.old.size ≤ memory.new.size
    /// ensures within: memory.new.size ≤ length region.now
    /// ```
    ///
    /// `L` is the type of the limiter, a [`ResourceLimiter`](crate::machine::ResourceLimiter#contract).
    #[inline]
    pub fn grow_zeroed_under<L: ResourceLimiter>(
        memory: &mut MemoryNumbers,
        ty: MemoryType,
        region: &[u8],
        pages: u64,
        meter: &mut MeterNumbers,
        limiter: &mut L,
        number: &mut u64,
    ) -> u8 {
        let mut fuel = meter.fuel();
        let mut size = memory.size;
        let mut lent = ResourceLimiterRef::from(limiter);
        let grown = region_memory::grow_zeroed(ty, &mut size, region, pages, &mut fuel, &mut lent);
        let _limiter = lent.into_limiter();
        memory.size = size;
        meter.store_left(&fuel);
        match grown {
            Ok(old_size) => {
                *number = old_size;
                DONE
            }
            Err(error) => memory_refusal(error, number),
        }
    }

    /// Grows a memory by pages of zeros. `number` becomes the old size in pages, or the fuel needed.
    ///
    /// # Contract
    ///
    /// ```text
    /// ensures grown: GrowsBy of_memory quota_rules (by_pages pages)
    ///     (embedded memory.old region.old meter.old (limiter_of quota.old) number.old) result
    ///     (embedded memory.new region.new meter.new (limiter_of quota.new) number.new)
    /// ensures quota: KeepsQuota quota.old quota.new
    /// ensures invalid: IsNone of_memory memory.old region.old → quota.new ≡ quota.old
    /// ensures unasked: (ty : MemoryTypeValue) → IsState memory.old region.old ty
    ///     → (pages ≡ 0) ⊎ (in_bounds ty (memory.old.size / page_bytes ty.page + pages) ≡ false)
    ///     → quota.new ≡ quota.old
    /// ```
    #[inline]
    pub fn grow(
        memory: &mut MemoryNumbers,
        region: &mut [u8],
        pages: u64,
        meter: &mut MeterNumbers,
        quota: &mut QuotaNumbers,
        number: &mut u64,
    ) -> u8 {
        type_or_return!(ty, memory, region);
        grow_under(memory, ty, region, pages, meter, quota, number)
    }

    /// Grows a memory as [`grow`] does, into bytes of the region that are zeros already, and writes no
    /// byte of it. Where they aren't zeros, the memory has what stands there.
    ///
    /// # Contract
    ///
    /// ```text
    /// ensures grown: GrowsBy of_memory quota_rules (by_pages pages)
    ///     (embedded memory.old region.now meter.old (limiter_of quota.old) number.old) result
    ///     (embedded memory.new (zeroed region.now memory.old.size memory.new.size) meter.new
    ///     (limiter_of quota.new) number.new)
    /// ensures quota: KeepsQuota quota.old quota.new
    /// ensures invalid: IsNone of_memory memory.old region.now → quota.new ≡ quota.old
    /// ensures unasked: (ty : MemoryTypeValue) → IsState memory.old region.now ty
    ///     → (pages ≡ 0) ⊎ (in_bounds ty (memory.old.size / page_bytes ty.page + pages) ≡ false)
    ///     → quota.new ≡ quota.old
    /// ```
    #[inline]
    pub fn grow_zeroed(
        memory: &mut MemoryNumbers,
        region: &[u8],
        pages: u64,
        meter: &mut MeterNumbers,
        quota: &mut QuotaNumbers,
        number: &mut u64,
    ) -> u8 {
        type_or_return!(ty, memory, region);
        grow_zeroed_under(memory, ty, region, pages, meter, quota, number)
    }

    /// Ends a memory: the quota gives up its bytes, and the numbers stand for no memory from then on. If
    /// less is held, nothing is written.
    ///
    /// # Contract
    ///
    /// ```text
    /// ensures ended: EndsMemory (placed memory.old region.now) (limiter_of quota.old) result
    ///     memory.new (limiter_of quota.new)
    /// ensures quota: KeepsQuota quota.old quota.new
    /// ensures none: result ≡ DONE → IsNoType memory.new
    /// ensures refused: (result ≡ DONE → ⊥) → quota.new ≡ quota.old
    /// ```
    #[inline]
    pub fn release(memory: &mut MemoryNumbers, region: &[u8], quota: &mut QuotaNumbers) -> u8 {
        type_or_return!(_ty, memory, region);
        if !quota.release(Kind::Bytes, memory.size as u64) {
            return NOT_HELD;
        }
        memory.size = 0;
        memory.page_size_log2 = NO_PAGE_SIZE;
        DONE
    }

    /// What a growth by so many pages asks a limiter, with the status `ASKS`; it asks nothing where it
    /// is by 0 (`DONE`), where the type refuses it, and where the numbers stand for no memory.
    ///
    /// # Contract
    ///
    /// ```text
    /// ensures: AsksEmbedded memory.now region.now pages result question.old question.new
    /// ```
    #[inline]
    pub fn question(
        memory: &MemoryNumbers,
        region: &[u8],
        pages: u64,
        question: &mut Question,
    ) -> u8 {
        type_or_return!(ty, memory, region);
        if pages == 0 {
            return DONE;
        }
        let Some((desired, most)) = region_memory::question(ty, memory.size, pages) else {
            return MEMORY_GROWTH;
        };
        *question = Question::new(memory.size, desired, most);
        ASKS
    }

    /// Grows a memory by pages of zeros, under a limiter that answers as the host says. If the answers
    /// are about other sizes, nothing is written; else they say if it was asked and told.
    ///
    /// # Contract
    ///
    /// ```text
    /// ensures: SettlesBy of_memory (by_pages pages) answers.old
    ///     (embedded memory.old region.old meter.old (Some answers.old) number.old) result
    ///     (embedded memory.new region.new meter.new (Some answers.new) number.new)
    /// ```
    #[inline]
    pub fn settle(
        memory: &mut MemoryNumbers,
        region: &mut [u8],
        pages: u64,
        meter: &mut MeterNumbers,
        answers: &mut HostAnswers,
        number: &mut u64,
    ) -> u8 {
        type_or_return!(ty, memory, region);
        if !are_about(memory, ty, region, pages, answers) {
            return OTHER_SIZE;
        }
        answers.reset();
        grow_under(memory, ty, region, pages, meter, answers, number)
    }

    /// Whether the host's answers are to what a growth by so many pages asks.
    ///
    /// # Contract
    ///
    /// ```text
    /// requires state: IsState memory.now region.now ty
    /// ensures about: result ≡ is_about answers.now
    ///     (memory_growth pages (memory_in ty region.now memory.now.size))
    /// ```
    #[inline]
    fn are_about(
        memory: &MemoryNumbers,
        ty: MemoryType,
        region: &[u8],
        pages: u64,
        answers: &HostAnswers,
    ) -> bool {
        let asked = region_memory::question(ty, memory.size, pages);
        let is_desired = asked.is_none_or(|(desired, _)| desired == answers.desired);
        memory.size == answers.current && (pages == 0 || is_desired)
    }

    /// The size of a memory in pages.
    ///
    /// # Contract
    ///
    /// ```text
    /// ensures: CountsEmbedded memory.now region.now pages.old result pages.new
    /// ```
    #[inline]
    pub fn size(memory: &MemoryNumbers, region: &[u8], pages: &mut u64) -> u8 {
        type_or_return!(ty, memory, region);
        *pages = region_memory::pages(ty, memory.size);
        DONE
    }

    /// Copies bytes of a memory from an offset on, as many as the caller's.
    ///
    /// # Contract
    ///
    /// ```text
    /// ensures: ReadsEmbedded (placed memory.now region.now) offset bytes.old result bytes.new
    /// ```
    #[inline]
    pub fn read(memory: &MemoryNumbers, region: &[u8], offset: usize, bytes: &mut [u8]) -> u8 {
        type_or_return!(_ty, memory, region);
        match region_memory::read_bytes(&region[..memory.size], offset, bytes) {
            Ok(()) => DONE,
            Err(_) => MEMORY_ACCESS,
        }
    }

    /// Writes bytes over those of a memory from an offset on.
    ///
    /// # Contract
    ///
    /// ```text
    /// ensures: WritesEmbedded (placed memory.now region.old) offset bytes.now result region.new
    /// ```
    #[inline]
    pub fn write(memory: &MemoryNumbers, region: &mut [u8], offset: usize, bytes: &[u8]) -> u8 {
        type_or_return!(_ty, memory, region);
        match region_memory::write_bytes(&mut region[..memory.size], offset, bytes) {
            Ok(()) => DONE,
            Err(_) => MEMORY_ACCESS,
        }
    }

    /// Leaves the fuel that a write to a memory needs, if it is refused for it, and returns its status.
    ///
    /// # Contract
    ///
    /// ```text
    /// ensures status: result ≡ status_of of_memory written
    /// ensures number: number.new ≡ written_number of_memory written number.old
    /// ```
    #[inline]
    fn leave_write(written: Result<(), MemoryError>, number: &mut u64) -> u8 {
        match written {
            Ok(()) => DONE,
            Err(error) => memory_refusal(error, number),
        }
    }

    /// Fills the bytes of a range with a value.
    ///
    /// # Contract
    ///
    /// ```text
    /// ensures: WritesBytesEmbedded (filled_range value) range.now memory.now
    ///     (metered region.old meter.old number.old) result (metered region.new meter.new number.new)
    /// ```
    #[inline]
    pub fn fill(
        memory: &MemoryNumbers,
        region: &mut [u8],
        range: &Range,
        value: u8,
        meter: &mut MeterNumbers,
        number: &mut u64,
    ) -> u8 {
        type_or_return!(_ty, memory, region);
        let mut fuel = meter.fuel();
        let front = &mut region[..memory.size];
        let written = region_memory::fill(front, range.to, value, range.count, &mut fuel);
        meter.store_left(&fuel);
        leave_write(written, number)
    }

    /// Copies bytes of a memory over others of it.
    ///
    /// # Contract
    ///
    /// ```text
    /// ensures: WritesBytesEmbedded (λ r bytes. copied_range bytes r bytes) range.now memory.now
    ///     (metered region.old meter.old number.old) result (metered region.new meter.new number.new)
    /// ```
    #[inline]
    pub fn copy_within(
        memory: &MemoryNumbers,
        region: &mut [u8],
        range: &Range,
        meter: &mut MeterNumbers,
        number: &mut u64,
    ) -> u8 {
        type_or_return!(_ty, memory, region);
        let mut fuel = meter.fuel();
        let front = &mut region[..memory.size];
        let (to, from, count) = (range.to, range.from, range.count);
        let written = region_memory::copy_within(front, to, from, count, &mut fuel);
        meter.store_left(&fuel);
        leave_write(written, number)
    }

    /// Copies bytes of another memory over those of a memory.
    ///
    /// # Contract
    ///
    /// ```text
    /// ensures: CopiesBytesEmbedded (placed source.now source_region.now) range.now memory.now
    ///     (metered region.old meter.old number.old) result (metered region.new meter.new number.new)
    /// ```
    #[inline]
    pub fn copy(
        memory: &MemoryNumbers,
        region: &mut [u8],
        source: &MemoryNumbers,
        source_region: &[u8],
        range: &Range,
        meter: &mut MeterNumbers,
        number: &mut u64,
    ) -> u8 {
        type_or_return!(_source_ty, source, source_region);
        let bytes = &source_region[..source.size];
        init(memory, region, bytes, range, meter, number)
    }

    /// Copies bytes, such as a data segment's, over those of a memory.
    ///
    /// # Contract
    ///
    /// ```text
    /// ensures: WritesBytesEmbedded (copied_range bytes.now) range.now memory.now
    ///     (metered region.old meter.old number.old) result (metered region.new meter.new number.new)
    /// ```
    #[inline]
    pub fn init(
        memory: &MemoryNumbers,
        region: &mut [u8],
        bytes: &[u8],
        range: &Range,
        meter: &mut MeterNumbers,
        number: &mut u64,
    ) -> u8 {
        type_or_return!(_ty, memory, region);
        let mut fuel = meter.fuel();
        let front = &mut region[..memory.size];
        let (to, from, count) = (range.to, range.from, range.count);
        let written = region_memory::copy(front, bytes, to, from, count, &mut fuel);
        meter.store_left(&fuel);
        leave_write(written, number)
    }
}
pub mod numbers {
    //! The plain numbers of memories, tables, meters, quotas and ranges that lie with C, any numbers,
    //! and what each of them stands for.

    use crate::generated::c::types;
    use crate::proved::meter::{
        Amounts, CustomFuelCosts, Fuel, Holdings, Kind, LimiterByKind, LimiterError, Quota,
    };
    use crate::proved::region::{memory, table};
    use crate::proved::store::{MemoryType, TableType};

    /// Names the type of the memory or the table that numbers stand for on a region; where they stand
    /// for none, the function that it is written in returns that.
    macro_rules! type_or_return {
        ($ty:ident, $numbers:expr, $region:expr) => {
            let Some($ty) = $numbers.type_if_valid($region) else {
                return $crate::generated::c::status::INVALID_STATE;
            };
        };
    }

    pub(crate) use type_or_return;

    /// A linear memory, except its bytes: `size` bytes at the front of a region.
    #[repr(C)]
    #[derive(Clone, Copy)]
    pub struct MemoryNumbers {
        /// The minimum in pages.
        pub minimum: u64,
        /// The maximum in pages, where there is one.
        pub maximum: u64,
        /// The size in bytes.
        pub size: usize,
        /// Whether there is a maximum: any number but 0.
        pub has_maximum: u8,
        /// Whether addresses have 64 bits: any number but 0.
        pub is_64: u8,
        /// 16 for pages of 64 KiB, 0 for pages of one byte.
        pub page_size_log2: u8,
    }

    impl MemoryNumbers {
        /// The type of the memory, if the numbers have one.
        ///
        /// # Contract
        ///
        /// ```text
        /// ensures: MatchOption result
        ///     ((ty : MemoryTypeValue) → named_type (settings_of self.now) ≡ Some ty → IsValid ty → ⊥)
        ///     (λ ty. (named_type (settings_of self.now) ≡ Some ty) × IsValid ty)
        /// ```
        #[must_use]
        #[inline]
        pub fn ty(&self) -> Option<MemoryType> {
            let maximum = types::if_flag(self.has_maximum, self.maximum);
            types::memory_type(self.minimum, maximum, self.is_64, self.page_size_log2)
        }

        /// The type, if the numbers stand for a memory at the front of a region.
        ///
        /// # Contract
        ///
        /// ```text
        /// ensures: MatchOption result ((ty : MemoryTypeValue) → IsState self.now region.now ty → ⊥)
        ///     (λ ty. IsState self.now region.now ty)
        /// ```
        #[must_use]
        #[inline]
        pub fn type_if_valid(&self, region: &[u8]) -> Option<MemoryType> {
            let ty = self.ty()?;
            let is_valid = self.size <= region.len() && memory::is_sized(ty, self.size);
            if is_valid { Some(ty) } else { None }
        }
    }

    /// A table, except its elements: `size` references at the front of a region.
    #[repr(C)]
    #[derive(Clone, Copy)]
    pub struct TableNumbers {
        /// The minimum in elements.
        pub minimum: u64,
        /// The maximum in elements, where there is one.
        pub maximum: u64,
        /// The size in elements.
        pub size: usize,
        /// Whether there is a maximum: any number but 0.
        pub has_maximum: u8,
        /// Whether indices have 64 bits: any number but 0.
        pub is_64: u8,
        /// The type of the elements: 5 for functions, 6 for external references.
        pub ty: u8,
    }

    impl TableNumbers {
        /// The type of the table, if the numbers have one.
        ///
        /// # Contract
        ///
        /// ```text
        /// ensures: result ≡ table_type_of self.now
        /// ```
        #[must_use]
        #[inline]
        pub fn table_type(&self) -> Option<TableType> {
            let maximum = types::if_flag(self.has_maximum, self.maximum);
            types::table_type(self.ty, self.minimum, maximum, self.is_64)
        }

        /// The type, if the numbers stand for a table at the front of a region.
        ///
        /// # Contract
        ///
        /// ```text
        /// ensures: MatchOption result ((ty : TableTypeValue) → IsTable self.now region.now ty → ⊥)
        ///     (λ ty. IsTable self.now region.now ty)
        /// ```
        #[must_use]
        #[inline]
        pub fn type_if_valid(&self, region: &[u32]) -> Option<TableType> {
            let ty = self.table_type()?;
            let is_valid = self.size <= region.len() && table::is_sized(ty, self.size);
            if is_valid { Some(ty) } else { None }
        }
    }

    /// A fuel meter.
    #[repr(C)]
    #[derive(Clone, Copy)]
    pub struct MeterNumbers {
        /// The fuel that is left, where the meter is on.
        pub left: u64,
        /// How many bytes are copied for one fuel; 0 makes each copy cost the greatest `u64`.
        pub bytes_copied_per_fuel: u32,
        /// The fuel for translating one byte.
        pub fuel_per_bytes_translated: u32,
        /// The fuel for validating one byte.
        pub fuel_per_bytes_validated: u32,
        /// Whether the meter is on: any number but 0.
        pub is_on: u8,
    }

    impl MeterNumbers {
        /// The meter.
        ///
        /// # Contract
        ///
        /// ```text
        /// ensures: result ≡ meter_of self.now
        /// ```
        #[must_use]
        #[inline]
        pub fn fuel(&self) -> Fuel {
            types::meter(types::if_flag(self.is_on, self.left), self.costs())
        }

        /// What work costs.
        ///
        /// # Contract
        ///
        /// ```text
        /// ensures: result ≡ (meter_of self.now).costs
        /// ```
        #[must_use]
        #[inline]
        pub fn costs(&self) -> CustomFuelCosts {
            CustomFuelCosts {
                bytes_copied_per_fuel: self.bytes_copied_per_fuel,
                fuel_per_bytes_translated: self.fuel_per_bytes_translated,
                fuel_per_bytes_validated: self.fuel_per_bytes_validated,
            }
        }

        /// Stores what is left of the meter.
        ///
        /// # Contract
        ///
        /// ```text
        /// ensures: self.new ≡ with_left self.old fuel.now.left
        /// ```
        #[inline]
        pub fn store_left(&mut self, fuel: &Fuel) {
            if let Ok(left) = fuel.get_fuel() {
                self.left = left;
            }
        }
    }

    /// A limiter with caps, and what it holds.
    #[repr(C)]
    #[derive(Clone, Copy)]
    pub struct QuotaNumbers {
        /// The most bytes of memories that may be held.
        pub cap_bytes: u64,
        /// The most elements of tables that may be held.
        pub cap_elements: u64,
        /// The bytes that are held.
        pub held_bytes: u64,
        /// The elements that are held.
        pub held_elements: u64,
        /// The last difference that was permitted.
        pub last: u64,
        /// Its kind: 1 for bytes, 2 for elements, any other number where there is none.
        pub last_kind: u8,
        /// Whether there is a limiter: any number but 0.
        pub is_on: u8,
    }

    impl QuotaNumbers {
        /// The quota that these numbers stand for, if there is a limiter.
        ///
        /// # Contract
        ///
        /// ```text
        /// ensures value: result ≡ limiter_of self.now
        /// ensures on: OnSome result (self.now.is_on ≡ 0 → ⊥)
        /// ```
        #[must_use]
        #[inline]
        pub fn quota(&self) -> Option<Quota> {
            if self.is_on == 0 {
                return None;
            }
            let last = match self.last_kind {
                1 => Some((Kind::Bytes, self.last)),
                2 => Some((Kind::Elements, self.last)),
                _ => None,
            };
            let caps = Amounts {
                bytes: self.cap_bytes,
                elements: self.cap_elements,
            };
            let held = Amounts {
                bytes: self.held_bytes,
                elements: self.held_elements,
            };
            Some(Quota::resume(caps, Holdings::resume(held, last)))
        }

        /// Gives up what ended, if so much is held; without a quota nothing is. Returns whether it did
        /// so: if not, nothing is written.
        ///
        /// # Contract
        ///
        /// ```text
        /// ensures released: ReleasesIf kind amount (limiter_of self.old) result
        ///     (limiter_of self.new)
        /// ensures kept: KeepsQuota self.old self.new
        /// ensures refused: IsFalse result → self.new ≡ self.old
        /// ```
        #[inline]
        pub fn release(&mut self, kind: Kind, amount: u64) -> bool {
            let Some(mut quota) = self.quota() else {
                return true;
            };
            if !quota.release(kind, amount) {
                return false;
            }
            self.store(&quota);
            true
        }

        /// Stores what a quota that is on has become; the flag stays.
        ///
        /// # Contract
        ///
        /// ```text
        /// requires on: self.old.is_on ≡ 0 → ⊥
        /// ensures limiter: limiter_of self.new ≡ Some quota.now
        /// ensures kept: KeepsQuota self.old self.new
        /// ```
        #[inline]
        fn store(&mut self, quota: &Quota) {
            let caps = quota.caps();
            let holdings = quota.holdings();
            let held = holdings.held();
            let (last_kind, last) = match holdings.last() {
                Some((Kind::Bytes, last)) => (1, last),
                Some((Kind::Elements, last)) => (2, last),
                None => (0, 0),
            };
            *self = QuotaNumbers {
                cap_bytes: caps.bytes,
                cap_elements: caps.elements,
                held_bytes: held.bytes,
                held_elements: held.elements,
                last,
                last_kind,
                is_on: self.is_on,
            };
        }
    }

    /// Without a quota every question is permitted and every notice accepted. The numbers are read and
    /// written only where they are asked or told.
    ///
    /// # Contract
    ///
    /// ```text
    /// kind_rules = quota_numbers_rules
    /// ```
    impl LimiterByKind for QuotaNumbers {
        /// # Panics
        ///
        /// Panics if the desired size is below the current one.
        #[inline]
        fn growing(
            &mut self,
            kind: Kind,
            size: usize,
            desired: usize,
        ) -> Result<bool, LimiterError> {
            assert!(size <= desired, "the desired size is below the current one");
            let Some(mut quota) = self.quota() else {
                return Ok(true);
            };
            let answer = quota.growing(kind, size, desired);
            self.store(&quota);
            answer
        }

        #[inline]
        fn grow_failed(&mut self, kind: Kind) -> Result<(), LimiterError> {
            let Some(mut quota) = self.quota() else {
                return Ok(());
            };
            let answer = quota.grow_failed(kind);
            self.store(&quota);
            answer
        }
    }

    /// What is written over: `count` bytes or elements from `to` on, in a copy by those from `from` on.
    #[repr(C)]
    #[derive(Clone, Copy)]
    pub struct Range {
        /// The first byte or element that is written over.
        pub to: u64,
        /// The first one that is copied.
        pub from: u64,
        /// How many.
        pub count: u64,
    }
}
pub mod pool {
    //! A pool of machines under common caps that C holds by a handle, or none. A call works on the pool
    //! where it is; loads, sizes and fuel are replies of a tenant's machine alone.
    //! `include/wasmi_machine.h` says which statuses calls return, in which order.

    pub use crate::by_hand::pool_box;
    use crate::rattle::Vec;

    use crate::generated::c::held_box::HeldBox;
    use crate::generated::c::machine::call_struct::{
        BINARY, CallStruct, LOAD, STORE, item_load_numbered, item_store_numbered,
        vector_binary_numbered,
    };
    use crate::generated::c::machine::limited_machine::{
        headless, leave, read_out, references, write_out,
    };
    use crate::generated::c::machine::limits::{Limits, Room, Totals};
    use crate::generated::c::machine::reply_struct::ReplyStruct;
    use crate::generated::c::pool::pool_box::PoolBox;
    use crate::generated::c::status::{
        DONE, HAS_POOL, LENGTHS_DIFFER, NO_CALL, NO_POOL, NO_ROOM, NO_TENANT,
    };
    use crate::generated::c::types::reference_type;
    use crate::proved::budget::{Pool, PoolError, ReserveError};
    use crate::proved::machine::{Call, Machine, Reply};
    use crate::proved::meter::FuelError;
    use crate::proved::ops::{LoadOp, StoreOp};
    use crate::proved::raw::RawVal;
    use std::mem;

    /// What a call on the pool of a handle returns; or what is returned where there is none.
    #[macro_export]
    macro_rules! on_pool {
    ($handle:expr, $pool:ident => $call:expr) => {
        $crate::on_pool!($handle, ReplyStruct::only(NO_POOL), $pool => $call)
    };
    ($handle:expr, $none:expr, $pool:ident => $call:expr) => {{
        if $handle.is_made() {
            let $pool = $handle.pool.pool_mut();
            let reply = $call;
            $pool.show_within();
            reply
        } else {
            $none
        }
    }};
}

    /// A pool, or none. A handle of zeros has none.
    ///
    /// # Contract
    ///
    /// ```text
    /// tells: is_some pool.held ≡ is_made
    /// ```
    #[repr(C)]
    pub struct PoolHandle {
        /// The pool, or none.
        pub pool: PoolBox,
        is_made: bool,
    }

    impl PoolHandle {
        /// Whether the handle has a pool.
        ///
        /// # Contract
        ///
        /// ```text
        /// ensures: result ≡ is_some self.now.pool.held
        /// ```
        #[must_use]
        #[inline]
        pub fn is_made(&self) -> bool {
            self.is_made
        }

        /// Makes a pool with these caps in a handle that has none.
        ///
        /// # Contract
        ///
        /// ```text
        /// ensures: MakesPool bytes elements self.old.pool.held result self.new.pool.held
        /// ```
        #[inline]
        pub fn new_pool(&mut self, bytes: u64, elements: u64) -> u8 {
            if self.is_made() {
                return HAS_POOL;
            }
            let pool = TenantPool {
                pool: Pool::new(bytes, elements),
            };
            let Ok(pool) = crate::memory::boxed(pool) else {
                return NO_ROOM;
            };
            let made = PoolHandle {
                pool: PoolBox::from_held(HeldBox::from_box(pool)),
                is_made: true,
            };
            let PoolHandle { pool, is_made: _ } = mem::replace(self, made);
            pool.into_held().end();
            DONE
        }

        /// Ends the pool of a handle with all its tenants, if there is one.
        ///
        /// # Contract
        ///
        /// ```text
        /// ensures: self.new.pool.held ≡ None
        /// ```
        #[inline]
        pub fn drop_pool(&mut self) {
            let none = PoolHandle {
                pool: PoolBox::from_held(HeldBox::empty()),
                is_made: false,
            };
            let PoolHandle { pool, is_made } = mem::replace(self, none);
            let held = pool.into_held();
            if is_made {
                let _pool = held.into_box();
            } else {
                held.end();
            }
        }

        /// Replies to a call on the machine of a tenant, if the numbers stand for one.
        ///
        /// # Contract
        ///
        /// ```text
        /// ensures step: ActsOnHeld (only NO_POOL) self.old.pool.held result self.new.pool.held
        ///     (TenantRepliesToStruct tenant call.now result)
        /// ensures caps: KeepsCaps self.old.pool.held self.new.pool.held
        /// ```
        #[inline(always)]
        pub fn call(&mut self, tenant: usize, call: &CallStruct) -> ReplyStruct {
            on_pool!(self, pool => pool.reply_to_struct(tenant, call))
        }
    }

    /// A pool whose tenants are called by numbers and by lines.
    ///
    /// # Model
    ///
    /// ```text
    /// Value = PoolValue
    /// view = λ held. held.pool
    /// ```
    pub struct TenantPool {
        pool: Pool<'static>,
    }

    impl TenantPool {
        /// Does nothing: its contract says that the pool is within its caps.
        ///
        /// # Contract
        ///
        /// ```text
        /// ensures: IsWithinCaps self.now
        /// ```
        #[inline]
        pub fn show_within(&self) {
            let _ = self.pool.len();
        }

        /// Adds a machine with nothing on it and the meter of the limits, whose caps aren't read.
        ///
        /// # Contract
        ///
        /// ```text
        /// ensures step: AddsNewTenant limits.now result self.old self.new
        /// ensures caps: self.new.caps ≡ self.old.caps
        /// ```
        #[inline]
        pub fn add(&mut self, limits: &Limits) -> ReplyStruct {
            match self.pool.add(Machine::new(limits.fuel())) {
                Ok(index) => ReplyStruct::with_number(DONE, index as u64),
                Err(_) => ReplyStruct::only(NO_ROOM),
            }
        }

        /// Removes a tenant and ends its machine, if there is one.
        ///
        /// # Contract
        ///
        /// ```text
        /// ensures step: RemovesByStatus tenant result self.old self.new
        /// ensures caps: self.new.caps ≡ self.old.caps
        /// ```
        #[inline]
        pub fn remove(&mut self, tenant: usize) -> u8 {
            match self.pool.remove(tenant) {
                Some(_machine) => DONE,
                None => NO_TENANT,
            }
        }

        /// Replies to the call that numbers stand for, if there is one, on the machine of a tenant.
        ///
        /// # Contract
        ///
        /// ```text
        /// ensures step: TenantRepliesToStruct tenant numbers.now result self.old self.new
        /// ensures caps: self.new.caps ≡ self.old.caps
        /// ```
        #[inline(always)]
        pub fn reply_to_struct(&mut self, tenant: usize, numbers: &CallStruct) -> ReplyStruct {
            let (memory, ptr, offset) = (numbers.index, numbers.ptr, numbers.offset);
            // These read their own fields alone: to make a `Call` of all takes longer than the call.
            if numbers.kind == LOAD
                && let Some(op) = item_load_numbered(numbers.op)
            {
                return self.load_reply(tenant, op, memory, ptr, offset);
            }
            if numbers.kind == STORE
                && let Some(op) = item_store_numbered(numbers.op)
            {
                return self.store_reply(tenant, op, memory, ptr, offset, numbers.value);
            }
            if numbers.kind == BINARY
                && let Some(op) = vector_binary_numbered(numbers.op)
            {
                let (dst, a, b) = (numbers.dst, numbers.a, numbers.b);
                return self.reply(tenant, &Call::Binary { op, dst, a, b });
            }
            self.reply_to_any_struct(tenant, numbers)
        }

        /// Replies to the call that numbers stand for by a `Call` of all of them. It is no part of
        /// `reply_to_struct`, which has one caller, so that it is inlined there.
        ///
        /// # Contract
        ///
        /// ```text
        /// ensures step: TenantRepliesToStruct tenant numbers.now result self.old self.new
        /// ensures caps: self.new.caps ≡ self.old.caps
        /// ```
        #[inline]
        fn reply_to_any_struct(&mut self, tenant: usize, numbers: &CallStruct) -> ReplyStruct {
            match &numbers.call() {
                Some(call) => self.reply(tenant, call).by_fields(),
                None => ReplyStruct::only(NO_CALL),
            }
        }

        /// Replies to the calls that numbers stand for, one after the other, on the machine of a tenant,
        /// and writes the replies into the caller's, if there are as many. It takes no memory for them.
        ///
        /// # Contract
        ///
        /// ```text
        /// ensures step: TenantRepliesToList tenant calls.now replies.old (result, replies.new)
        ///     self.old self.new
        /// ensures caps: self.new.caps ≡ self.old.caps
        /// ```
        #[inline]
        pub fn run_into(
            &mut self,
            tenant: usize,
            calls: &[CallStruct],
            replies: &mut [ReplyStruct],
        ) -> u8 {
            let Some(_) = self.pool.machine(tenant) else {
                return NO_TENANT;
            };
            if replies.len() != calls.len() {
                return LENGTHS_DIFFER;
            }
            for i in 0..calls.len() {
                replies[i] = self.reply_to_any_struct(tenant, &calls[i]);
            }
            DONE
        }

        /// Reserves so many more slots of each kind on a tenant's machine, or none if some are refused.
        ///
        /// # Contract
        ///
        /// ```text
        /// ensures step: TenantReserves tenant room.now result self.old self.new
        /// ensures caps: self.new.caps ≡ self.old.caps
        /// ```
        #[inline]
        pub fn reserve(&mut self, tenant: usize, room: &Room) -> u8 {
            match self.pool.reserve(tenant, room.slots()) {
                Ok(()) => DONE,
                Err(ReserveError::NoTenant) => NO_TENANT,
                Err(ReserveError::OutOfMemory) => NO_ROOM,
            }
        }

        /// Reserves memory for so many elements in all of a table of a tenant. If the memory is refused,
        /// nothing has changed.
        ///
        /// # Contract
        ///
        /// ```text
        /// ensures step: TenantReservesElements tenant table elements result self.old self.new
        /// ensures caps: self.new.caps ≡ self.old.caps
        /// ```
        #[inline]
        pub fn reserve_elements(&mut self, tenant: usize, table: usize, elements: u64) -> u8 {
            match self.pool.reserve_elements(tenant, table, elements) {
                Ok(reply) => ReplyStruct::from_reply(&reply).status,
                Err(_) => NO_TENANT,
            }
        }

        /// # Contract
        ///
        /// ```text
        /// ensures: TenantReplies tenant (Load op memory ptr offset) result self.now self.now
        /// ```
        #[inline(always)]
        fn load_reply(
            &self,
            tenant: usize,
            op: LoadOp,
            memory: usize,
            ptr: u64,
            offset: u64,
        ) -> ReplyStruct {
            match self.pool.machine(tenant) {
                Some(machine) => {
                    ReplyStruct::from_common(load_item(machine, op, memory, ptr, offset))
                }
                None => ReplyStruct::only(NO_TENANT),
            }
        }

        /// # Contract
        ///
        /// ```text
        /// ensures step: TenantReplies tenant (Store op memory ptr offset value) result self.old
        ///     self.new
        /// ensures caps: self.new.caps ≡ self.old.caps
        /// ```
        #[inline(always)]
        fn store_reply(
            &mut self,
            tenant: usize,
            op: StoreOp,
            memory: usize,
            ptr: u64,
            offset: u64,
            value: RawVal,
        ) -> ReplyStruct {
            let call = Call::Store {
                op,
                memory,
                ptr,
                offset,
                value,
            };
            self.reply(tenant, &call)
        }

        /// # Contract
        ///
        /// ```text
        /// ensures step: TenantReplies tenant call.now result self.old self.new
        /// ensures caps: self.new.caps ≡ self.old.caps
        /// ```
        #[inline(always)]
        fn reply(&mut self, tenant: usize, call: &Call) -> ReplyStruct {
            match self.pool.step(tenant, call) {
                Ok(reply) => ReplyStruct::from_common(reply),
                Err(_) => ReplyStruct::only(NO_TENANT),
            }
        }

        /// Replies to one call on the machine of a tenant, and leaves a status and a word of the reply.
        ///
        /// # Contract
        ///
        /// ```text
        /// ensures step: TenantRepliesInWord tenant (Some call.now) word.old (result, word.new)
        ///     self.old self.new
        /// ensures caps: self.new.caps ≡ self.old.caps
        /// ```
        #[inline(always)]
        fn reply_in_word(&mut self, tenant: usize, call: &Call, word: &mut u64) -> u8 {
            match self.pool.step(tenant, call) {
                Ok(reply) => leave(reply, word),
                Err(_) => NO_TENANT,
            }
        }

        /// Loads an item from a memory of a tenant by the load that has the number, if there is one.
        ///
        /// # Contract
        ///
        /// ```text
        /// ensures: TenantRepliesInWord tenant (item_load number memory ptr offset) value.old
        ///     (result, value.new) self.now self.now
        /// ```
        #[inline(always)]
        pub fn load(
            &self,
            tenant: usize,
            number: u16,
            memory: usize,
            ptr: u64,
            offset: u64,
            value: &mut u64,
        ) -> u8 {
            if self.pool.is_in_place(tenant) {
                return self.load_of(tenant, number, memory, ptr, offset, value);
            }
            self.load_searched(tenant, number, memory, ptr, offset, value)
        }

        /// `load` where a search finds the tenant: apart, so that `load` keeps no registers for it.
        ///
        /// # Contract
        ///
        /// ```text
        /// ensures: TenantRepliesInWord tenant (item_load number memory ptr offset) value.old
        ///     (result, value.new) self.now self.now
        /// ```
        #[cold]
        #[inline(never)]
        fn load_searched(
            &self,
            tenant: usize,
            number: u16,
            memory: usize,
            ptr: u64,
            offset: u64,
            value: &mut u64,
        ) -> u8 {
            self.load_of(tenant, number, memory, ptr, offset, value)
        }

        /// `load` by either way.
        ///
        /// # Contract
        ///
        /// ```text
        /// ensures: TenantRepliesInWord tenant (item_load number memory ptr offset) value.old
        ///     (result, value.new) self.now self.now
        /// ```
        #[inline(always)]
        fn load_of(
            &self,
            tenant: usize,
            number: u16,
            memory: usize,
            ptr: u64,
            offset: u64,
            value: &mut u64,
        ) -> u8 {
            let Some(op) = item_load_numbered(number) else {
                return NO_CALL;
            };
            match self.pool.machine(tenant) {
                Some(machine) => leave(load_item(machine, op, memory, ptr, offset), value),
                None => NO_TENANT,
            }
        }

        /// Tells the fuel that is left on the machine of a tenant.
        ///
        /// # Contract
        ///
        /// ```text
        /// ensures: TenantRepliesInWord tenant (Some GetFuel) left.old (result, left.new) self.now
        ///     self.now
        /// ```
        #[inline(always)]
        pub fn fuel_left(&self, tenant: usize, left: &mut u64) -> u8 {
            match self.pool.machine(tenant) {
                Some(machine) => leave(fuel_reply(machine), left),
                None => NO_TENANT,
            }
        }

        /// Stores an item to a memory of a tenant by the store that has the number, if there is one.
        ///
        /// # Contract
        ///
        /// ```text
        /// ensures step: TenantRepliesInStatus tenant (item_store number memory ptr offset value)
        ///     result self.old self.new
        /// ensures caps: self.new.caps ≡ self.old.caps
        /// ```
        #[inline(always)]
        pub fn store(
            &mut self,
            tenant: usize,
            number: u16,
            memory: usize,
            ptr: u64,
            offset: u64,
            value: u64,
        ) -> u8 {
            if self.pool.is_in_place(tenant) {
                return self.store_of(tenant, number, memory, ptr, offset, value);
            }
            self.store_searched(tenant, number, memory, ptr, offset, value)
        }

        /// `store` where a search finds the tenant: apart, so that `store` keeps no registers for it.
        ///
        /// # Contract
        ///
        /// ```text
        /// ensures step: TenantRepliesInStatus tenant (item_store number memory ptr offset value)
        ///     result self.old self.new
        /// ensures caps: self.new.caps ≡ self.old.caps
        /// ```
        #[cold]
        #[inline(never)]
        fn store_searched(
            &mut self,
            tenant: usize,
            number: u16,
            memory: usize,
            ptr: u64,
            offset: u64,
            value: u64,
        ) -> u8 {
            self.store_of(tenant, number, memory, ptr, offset, value)
        }

        /// `store` by either way.
        ///
        /// # Contract
        ///
        /// ```text
        /// ensures step: TenantRepliesInStatus tenant (item_store number memory ptr offset value)
        ///     result self.old self.new
        /// ensures caps: self.new.caps ≡ self.old.caps
        /// ```
        #[inline(always)]
        fn store_of(
            &mut self,
            tenant: usize,
            number: u16,
            memory: usize,
            ptr: u64,
            offset: u64,
            value: u64,
        ) -> u8 {
            let Some(op) = item_store_numbered(number) else {
                return NO_CALL;
            };
            let value = RawVal { lo: value, hi: 0 };
            self.store_reply(tenant, op, memory, ptr, offset, value)
                .status
        }

        /// Executes the instruction on two vectors that has the number, if any, on a tenant's machine.
        ///
        /// # Contract
        ///
        /// ```text
        /// ensures step: TenantRepliesInStatus tenant (vector_binary number dst a b) result self.old
        ///     self.new
        /// ensures caps: self.new.caps ≡ self.old.caps
        /// ```
        #[inline(always)]
        pub fn binary(&mut self, tenant: usize, number: u16, dst: u8, a: u8, b: u8) -> u8 {
            let Some(op) = vector_binary_numbered(number) else {
                return NO_CALL;
            };
            let call = Call::Binary { op, dst, a, b };
            self.reply(tenant, &call).status
        }

        /// Grows a memory of a tenant by so many pages, and leaves a status and a word of the reply.
        ///
        /// # Contract
        ///
        /// ```text
        /// ensures step: TenantRepliesInWord tenant (Some (GrowMemory memory pages)) number.old
        ///     (result, number.new) self.old self.new
        /// ensures caps: self.new.caps ≡ self.old.caps
        /// ```
        #[inline(always)]
        pub fn grow(&mut self, tenant: usize, memory: usize, pages: u64, number: &mut u64) -> u8 {
            if pages == 0 {
                return self.grow_by_none(tenant, memory, number);
            }
            self.reply_in_word(tenant, &Call::GrowMemory { memory, pages }, number)
        }

        /// Grows a memory of a tenant by no page. It asks no limiter, so none is made.
        ///
        /// # Contract
        ///
        /// ```text
        /// ensures: TenantRepliesInWord tenant (Some (GrowMemory memory 0)) number.old
        ///     (result, number.new) self.now self.now
        /// ```
        #[inline(always)]
        fn grow_by_none(&self, tenant: usize, memory: usize, number: &mut u64) -> u8 {
            match self.pool.machine(tenant) {
                Some(machine) => leave(size_reply(machine, memory), number),
                None => NO_TENANT,
            }
        }

        /// Fills a range of a tenant's memory with a byte, and leaves a status and a word of the reply.
        ///
        /// # Contract
        ///
        /// ```text
        /// ensures step: TenantRepliesInWord tenant (Some (FillMemory memory dst value len))
        ///     number.old (result, number.new) self.old self.new
        /// ensures caps: self.new.caps ≡ self.old.caps
        /// ```
        #[inline(always)]
        pub fn fill(
            &mut self,
            tenant: usize,
            memory: usize,
            dst: u64,
            value: u8,
            len: u64,
            number: &mut u64,
        ) -> u8 {
            let call = Call::FillMemory {
                memory,
                dst,
                value,
                len,
            };
            self.reply_in_word(tenant, &call, number)
        }

        /// Copies a range of a memory of a tenant to another one of it, or within it, and leaves a
        /// status and a word of the reply.
        ///
        /// # Contract
        ///
        /// ```text
        /// ensures step: TenantRepliesInWord tenant
        ///     (Some (CopyMemory dst_memory dst src_memory src len)) number.old (result, number.new)
        ///     self.old self.new
        /// ensures caps: self.new.caps ≡ self.old.caps
        /// ```
        #[inline(always)]
        pub fn copy(
            &mut self,
            tenant: usize,
            dst_memory: usize,
            dst: u64,
            src_memory: usize,
            src: u64,
            len: u64,
            number: &mut u64,
        ) -> u8 {
            let call = Call::CopyMemory {
                dst_memory,
                dst,
                src_memory,
                src,
                len,
            };
            self.reply_in_word(tenant, &call, number)
        }

        /// Copies a range of a data segment of a tenant to a memory of it, and leaves a status and a
        /// word of the reply.
        ///
        /// # Contract
        ///
        /// ```text
        /// ensures step: TenantRepliesInWord tenant (Some (InitMemory memory segment dst src len))
        ///     number.old (result, number.new) self.old self.new
        /// ensures caps: self.new.caps ≡ self.old.caps
        /// ```
        #[inline(always)]
        pub fn init(
            &mut self,
            tenant: usize,
            memory: usize,
            segment: usize,
            dst: u64,
            src: u32,
            len: u32,
            number: &mut u64,
        ) -> u8 {
            let call = Call::InitMemory {
                memory,
                segment,
                dst,
                src,
                len,
            };
            self.reply_in_word(tenant, &call, number)
        }

        /// Runs calls on the machine of a tenant, or says why not; then the pool is the same.
        ///
        /// # Contract
        ///
        /// ```text
        /// ensures ran: IfOk result
        ///     (λ replies. RunsTenant self.old tenant calls.now replies.items self.new)
        /// ensures refused: IfErr result
        ///     (λ reply. RefusesTenant tenant self.old reply × (self.new ≡ self.old))
        /// ensures caps: self.new.caps ≡ self.old.caps
        /// ```
        #[inline]
        fn run(&mut self, tenant: usize, calls: &[Call]) -> Result<Vec<Reply>, ReplyStruct> {
            match self.pool.run(tenant, calls) {
                Ok(replies) => Ok(replies),
                Err(PoolError::NoTenant) => Err(ReplyStruct::only(NO_TENANT)),
                Err(PoolError::OutOfMemory) => Err(ReplyStruct::only(NO_ROOM)),
            }
        }

        /// Copies the bytes of a memory of a tenant from an offset on to the caller's.
        ///
        /// # Contract
        ///
        /// ```text
        /// ensures: TenantReadsOut tenant memory offset bytes.old result bytes.new self.now self.now
        /// ```
        #[inline]
        pub fn read(
            &self,
            tenant: usize,
            memory: usize,
            offset: usize,
            bytes: &mut [u8],
        ) -> ReplyStruct {
            let Some(machine) = self.pool.machine(tenant) else {
                return ReplyStruct::only(NO_TENANT);
            };
            read_out(machine, memory, offset, bytes)
        }

        /// Writes the caller's bytes over those of a memory of a tenant from an offset on.
        ///
        /// # Contract
        ///
        /// ```text
        /// ensures step: TenantRepliesToItems tenant (Write memory offset) bytes.now result self.old
        ///     self.new
        /// ensures caps: self.new.caps ≡ self.old.caps
        /// ```
        #[inline]
        pub fn write(
            &mut self,
            tenant: usize,
            memory: usize,
            offset: usize,
            bytes: &[u8],
        ) -> ReplyStruct {
            match self.pool.write(tenant, memory, offset, bytes) {
                Ok(reply) => ReplyStruct::from_common(reply),
                Err(_) => ReplyStruct::only(NO_TENANT),
            }
        }

        /// Makes an element segment of a copy of the caller's references on the machine of a tenant, if
        /// there is such a type.
        ///
        /// # Contract
        ///
        /// ```text
        /// ensures step: TenantRepliesToSegment tenant ty items.now result self.old self.new
        /// ensures caps: self.new.caps ≡ self.old.caps
        /// ```
        #[inline]
        pub fn new_segment(&mut self, tenant: usize, ty: u8, items: &[u32]) -> ReplyStruct {
            let Some(ty) = reference_type(ty) else {
                return ReplyStruct::only(NO_CALL);
            };
            let Ok(items) = references(items) else {
                return ReplyStruct::only(NO_ROOM);
            };
            self.reply(tenant, &Call::NewSegment { ty, items })
        }

        /// Makes a data segment of a copy of the caller's bytes on the machine of a tenant.
        ///
        /// # Contract
        ///
        /// ```text
        /// ensures step: TenantRepliesToCopy tenant NewData bytes.now result self.old self.new
        /// ensures caps: self.new.caps ≡ self.old.caps
        /// ```
        #[inline]
        pub fn new_data(&mut self, tenant: usize, bytes: &[u8]) -> ReplyStruct {
            let Ok(copy) = Vec::from_slice(bytes) else {
                return ReplyStruct::only(NO_ROOM);
            };
            self.reply(tenant, &Call::NewData(copy))
        }

        /// Takes fuel that isn't a call's from the machine of a tenant: the meter is set to what is left.
        ///
        /// # Contract
        ///
        /// ```text
        /// ensures step: TenantPaysFuel tenant amount result self.old self.new
        /// ensures caps: self.new.caps ≡ self.old.caps
        /// ```
        #[inline]
        pub fn consume_fuel(&mut self, tenant: usize, amount: u64) -> ReplyStruct {
            let Some(machine) = self.pool.machine(tenant) else {
                return ReplyStruct::only(NO_TENANT);
            };
            match left_after(machine, amount) {
                Ok(left) => match self.pool.step(tenant, &Call::SetFuel(left)) {
                    Ok(_) => ReplyStruct::with_number(DONE, left),
                    Err(_) => ReplyStruct::only(NO_TENANT),
                },
                Err(error) => ReplyStruct::from_reply(&Reply::Fuel(error)),
            }
        }

        /// Runs lines of calls on a tenant's machine, and writes their replies to the front of a text.
        ///
        /// # Contract
        ///
        /// ```text
        /// ensures step: RunsTenantLines tenant lines.now text.old result text.new self.old self.new
        /// ensures caps: self.new.caps ≡ self.old.caps
        /// ```
        #[inline]
        pub fn run_lines(&mut self, tenant: usize, lines: &[u8], text: &mut [u8]) -> ReplyStruct {
            let script = match headless(lines) {
                Ok(script) => script,
                Err(refusal) => return refusal,
            };
            let calls = script.parts.calls();
            let replies = match self.run(tenant, calls) {
                Ok(replies) => replies,
                Err(refusal) => return refusal,
            };
            write_out(calls, &replies, text)
        }

        /// What a tenant's machine has.
        ///
        /// # Contract
        ///
        /// ```text
        /// ensures: result ≡ tenant_totals tenant self.now
        /// ```
        #[must_use]
        #[inline]
        pub fn tenant_totals(&self, tenant: usize) -> Totals {
            let pool = &self.pool;
            let held = (pool.held_bytes(tenant), pool.held_elements(tenant));
            let (Some(bytes), Some(elements)) = held else {
                return Totals::from_amounts(NO_TENANT, 0, 0);
            };
            Totals::from_amounts(DONE, u128::from(bytes), u128::from(elements))
        }

        /// What all tenants' machines have.
        ///
        /// # Contract
        ///
        /// ```text
        /// ensures: result ≡ pool_totals self.now
        /// ```
        #[must_use]
        #[inline]
        pub fn totals(&self) -> Totals {
            let held = self.pool.held_by_all();
            Totals::from_amounts(DONE, u128::from(held.bytes), u128::from(held.elements))
        }
    }

    /// The reply of a tenant's machine to the load of an item, which reaches no limiter.
    ///
    /// # Contract
    ///
    /// ```text
    /// ensures: (tenant : Tenant) → RepliesWith (optional_rules tenant_rules)
    ///     (Load op memory ptr offset) (world machine.now (Some tenant)) result
    ///     (world machine.now (Some tenant))
    /// ```
    #[inline(always)]
    fn load_item(machine: &Machine, op: LoadOp, memory: usize, ptr: u64, offset: u64) -> Reply {
        let Some(memory) = machine.memory(memory) else {
            return Reply::NoSuch;
        };
        match op.load(memory.data(), ptr, offset) {
            Ok(raw) => Reply::Value(raw),
            Err(trap) => Reply::Trap(trap),
        }
    }

    /// The reply of a tenant's machine to the question for the fuel left, which reaches no limiter.
    ///
    /// # Contract
    ///
    /// ```text
    /// ensures: (tenant : Tenant) → RepliesWith (optional_rules tenant_rules) GetFuel
    ///     (world machine.now (Some tenant)) result (world machine.now (Some tenant))
    /// ```
    #[inline(always)]
    fn fuel_reply(machine: &Machine) -> Reply {
        match machine.fuel().get_fuel() {
            Ok(amount) => Reply::Number(amount),
            Err(error) => Reply::Fuel(error),
        }
    }

    /// The reply of a tenant's machine to a growth of a memory by no page, which reaches no limiter.
    ///
    /// # Contract
    ///
    /// ```text
    /// ensures: (tenant : Tenant) → RepliesWith (optional_rules tenant_rules) (GrowMemory memory 0)
    ///     (world machine.now (Some tenant)) result (world machine.now (Some tenant))
    /// ```
    #[inline(always)]
    fn size_reply(machine: &Machine, memory: usize) -> Reply {
        match machine.memory(memory) {
            Some(memory) => Reply::Number(memory.size()),
            None => Reply::NoSuch,
        }
    }

    /// What is left of the fuel of a tenant's machine once an amount is taken; or why so much isn't. It
    /// is inlined before LLVM makes one number of both results, for which each call would wait.
    ///
    /// # Contract
    ///
    /// ```text
    /// ensures: MatchOption machine.now.meter.left (result ≡ Err FuelMeteringDisabled)
    ///     (λ left. (amount ≤ left → result ≡ Ok (left - amount))
    ///     × (left < amount → result ≡ Err (OutOfFuel amount)))
    /// ```
    #[inline(always)]
    fn left_after(machine: &Machine, amount: u64) -> Result<u64, FuelError> {
        let left = machine.fuel().get_fuel()?;
        match left.checked_sub(amount) {
            Some(left) => Ok(left),
            None => Err(FuelError::out_of_fuel(amount)),
        }
    }
}
pub mod script {
    //! A script of calls, from bytes to bytes.

    use crate::generated::c::status::TEXT_TOO_SHORT;
    use crate::proved::script::replay_bytes;
    use crate::rattle::Vec;

    /// Runs a script, and writes what it prints to the front of `text`; `needed` becomes its length in
    /// bytes. The status is the program's (docs/SCRIPT.md), or 5 if `text` is shorter, which stays.
    ///
    /// # Contract
    ///
    /// ```text
    /// ensures answers: AnswersScript script.now text.old text.new needed.new result
    /// ```
    #[inline]
    pub fn run(script: &[u8], text: &mut [u8], needed: &mut usize) -> u8 {
        let mut printed = Vec::new();
        let status = replay_bytes(script, &mut printed);
        *needed = printed.len();
        if text.len() < printed.len() {
            return TEXT_TOO_SHORT;
        }
        let front = &mut text[..printed.len()];
        front.copy_from_slice(printed.as_slice());
        status.code()
    }
}
pub mod status {
    //! The statuses that calls return, besides the numbers of trap codes, and which one an error has.
    //! Contracts cite these constants; `tools/header` compares them with the headers, and with those that
    //! were released.

    use crate::proved::meter::{MemoryError, TableError};

    /// The call was done.
    pub const DONE: u8 = 0;
    /// The text is longer than the caller's bytes; nothing is written to them. The smaller statuses of
    /// a script's run are those of the program.
    pub const TEXT_TOO_SHORT: u8 = 5;
    /// The handle has no machine.
    pub const NO_MACHINE: u8 = 16;
    /// The numbers stand for no call.
    pub const NO_CALL: u8 = 17;
    /// There is no such memory, table, element segment, data segment, global or register.
    pub const NO_SUCH: u8 = 18;
    /// There is no spare region.
    pub const NO_REGION: u8 = 19;
    /// Out of memory for a slot, for a copy of the bytes that are written, or for a new machine.
    pub const NO_ROOM: u8 = 20;
    /// The table has no element of this index.
    pub const NO_ELEMENT: u8 = 21;
    /// The handle has a machine already.
    pub const HAS_MACHINE: u8 = 22;
    /// A line is no command of a script.
    pub const BAD_LINE: u8 = 23;
    /// There is a header line, which only a whole script has.
    pub const HEADER_LINE: u8 = 24;
    /// The lines were run, and their text has 2^64 - 1 bytes or more.
    pub const TEXT_CUT: u8 = 25;
    /// A number stands for no answer of a limiter.
    pub const NO_ANSWER: u8 = 26;
    /// The handle has no pool.
    pub const NO_POOL: u8 = 27;
    /// The handle has a pool already.
    pub const HAS_POOL: u8 = 28;
    /// No tenant of the pool has the index.
    pub const NO_TENANT: u8 = 29;
    // What tools/generate writes begins.
    /// The system refused memory. No memory on a region takes any.
    pub const MEMORY_OUT_OF_MEMORY: u8 = 32;
    /// A growth above the maximum or what addresses reach, or one that the limiter says no to.
    pub const MEMORY_GROWTH: u8 = 33;
    /// A read or a write that ends past the memory.
    pub const MEMORY_ACCESS: u8 = 34;
    /// A type that no memory has. The calls on regions return `INVALID_STATE` in its place.
    pub const MEMORY_TYPE: u8 = 35;
    /// The region is shorter than the new size.
    pub const MEMORY_REGION_TOO_SHORT: u8 = 36;
    /// The limiter said no to a creation, or returned an error.
    pub const MEMORY_DENIED: u8 = 37;
    /// A minimum of 2^64 bytes or more.
    pub const MEMORY_SIZE_OVERFLOW: u8 = 38;
    /// No call returns it.
    pub const MEMORY_MAXIMUM_OVERFLOW: u8 = 39;
    /// A growth costs more fuel than is left.
    pub const MEMORY_OUT_OF_FUEL: u8 = 40;
    /// The system refused memory, or a region is shorter than a table's new size.
    pub const TABLE_OUT_OF_MEMORY: u8 = 48;
    /// No call returns it.
    pub const TABLE_MINIMUM_OVERFLOW: u8 = 49;
    /// No call returns it.
    pub const TABLE_MAXIMUM_OVERFLOW: u8 = 50;
    /// The limiter said no to the creation of a table, or returned an error.
    pub const TABLE_DENIED: u8 = 51;
    /// A growth of a table above the maximum or what indices reach, or one that the limiter says no to.
    pub const TABLE_GROWTH: u8 = 52;
    /// An initialization that ends past the table or the items.
    pub const TABLE_INIT: u8 = 53;
    /// A fill that ends past the table.
    pub const TABLE_FILL: u8 = 54;
    /// A write past the table.
    pub const TABLE_SET: u8 = 55;
    /// A copy that ends past one of its tables.
    pub const TABLE_COPY: u8 = 56;
    /// The elements of two tables are of different types.
    pub const TABLE_TYPE: u8 = 57;
    /// A call on a table costs more fuel than is left.
    pub const TABLE_OUT_OF_FUEL: u8 = 58;
    // What tools/generate writes ends.
    /// The meter is off.
    pub const METERING_DISABLED: u8 = 64;
    /// Less fuel is left than was asked for.
    pub const OUT_OF_FUEL: u8 = 65;
    /// The global can't be written.
    pub const GLOBAL_IMMUTABLE: u8 = 72;
    /// The value is of another type than the global.
    pub const GLOBAL_TYPE: u8 = 73;
    /// An element segment has more items than 32 bits count.
    pub const SEGMENT_TOO_MANY_ITEMS: u8 = 80;
    /// The system refused memory for an element segment.
    pub const SEGMENT_OUT_OF_MEMORY: u8 = 81;
    /// Numbers stand for no memory or table on its region.
    pub const INVALID_STATE: u8 = 96;
    /// A growth asks a limiter.
    pub const ASKS: u8 = 97;
    /// The limiter was asked about another size.
    pub const OTHER_SIZE: u8 = 98;
    /// A quota holds less than what a memory or a table that ends has.
    pub const NOT_HELD: u8 = 99;
    /// No lane has the index.
    pub const NO_LANE: u8 = 253;
    /// The arrays differ in length.
    pub const LENGTHS_DIFFER: u8 = 254;
    /// No instruction has the number.
    pub const UNKNOWN: u8 = 255;

    /// The status of a refused call on a memory.
    ///
    /// # Contract
    ///
    /// ```text
    /// ensures: result ≡ memory_status error
    /// ```
    #[must_use]
    #[inline]
    pub fn memory_status(error: MemoryError) -> u8 {
        match error {
            // What tools/generate writes begins.
            MemoryError::OutOfSystemMemory => MEMORY_OUT_OF_MEMORY,
            MemoryError::OutOfBoundsGrowth => MEMORY_GROWTH,
            MemoryError::OutOfBoundsAccess => MEMORY_ACCESS,
            MemoryError::InvalidMemoryType => MEMORY_TYPE,
            MemoryError::InvalidStaticBufferSize => MEMORY_REGION_TOO_SHORT,
            MemoryError::ResourceLimiterDeniedAllocation => MEMORY_DENIED,
            MemoryError::MinimumSizeOverflow => MEMORY_SIZE_OVERFLOW,
            MemoryError::MaximumSizeOverflow => MEMORY_MAXIMUM_OVERFLOW,
            MemoryError::OutOfFuel { required_fuel: _ } => MEMORY_OUT_OF_FUEL,
            // What tools/generate writes ends.
        }
    }

    /// The status of a refused call on a table.
    ///
    /// # Contract
    ///
    /// ```text
    /// ensures: result ≡ table_status error
    /// ```
    #[must_use]
    #[inline]
    pub fn table_status(error: TableError) -> u8 {
        match error {
            // What tools/generate writes begins.
            TableError::OutOfSystemMemory => TABLE_OUT_OF_MEMORY,
            TableError::MinimumSizeOverflow => TABLE_MINIMUM_OVERFLOW,
            TableError::MaximumSizeOverflow => TABLE_MAXIMUM_OVERFLOW,
            TableError::ResourceLimiterDeniedAllocation => TABLE_DENIED,
            TableError::GrowOutOfBounds => TABLE_GROWTH,
            TableError::InitOutOfBounds => TABLE_INIT,
            TableError::FillOutOfBounds => TABLE_FILL,
            TableError::SetOutOfBounds => TABLE_SET,
            TableError::CopyOutOfBounds => TABLE_COPY,
            TableError::ElementTypeMismatch => TABLE_TYPE,
            TableError::OutOfFuel { required_fuel: _ } => TABLE_OUT_OF_FUEL,
            // What tools/generate writes ends.
        }
    }

    /// Leaves the fuel that a call on a memory needs, and returns its status.
    ///
    /// # Contract
    ///
    /// ```text
    /// ensures status: result ≡ memory_status error
    /// ensures number: number.new ≡ memory_fuel_needed error number.old
    /// ```
    #[inline]
    pub fn memory_refusal(error: MemoryError, number: &mut u64) -> u8 {
        if let MemoryError::OutOfFuel { required_fuel } = error {
            *number = required_fuel;
        }
        memory_status(error)
    }

    /// Leaves the fuel that a call on a table needs, and returns its status.
    ///
    /// # Contract
    ///
    /// ```text
    /// ensures status: result ≡ table_status error
    /// ensures number: number.new ≡ table_fuel_needed error number.old
    /// ```
    #[inline]
    pub fn table_refusal(error: TableError, number: &mut u64) -> u8 {
        if let TableError::OutOfFuel { required_fuel } = error {
            *number = required_fuel;
        }
        table_status(error)
    }
}
pub mod table {
    //! How a table whose elements are the first of a region of references that lies with C is made,
    //! grows, is read and is written, and what a growth of it asks. `number` is set to the fuel that is
    //! needed where less is left.

    use crate::generated::c::host::{HostAnswers, Question};
    use crate::generated::c::numbers::{
        MeterNumbers, QuotaNumbers, Range, TableNumbers, type_or_return,
    };
    use crate::generated::c::status::{
        ASKS, DONE, INVALID_STATE, NO_ELEMENT, NOT_HELD, OTHER_SIZE, TABLE_GROWTH, table_refusal,
        table_status,
    };
    use crate::proved::meter::{Kind, ResourceLimiter, ResourceLimiterRef, TableError};
    use crate::proved::region::table as region_table;
    use crate::proved::store::TableType;

    /// The number of a type that isn't one of references.
    const NO_REFERENCES: u8 = 0;

    /// Makes a table of this type under a limiter, as [`table::make`](crate::proved::region::table::make) does.
    ///
    /// # Errors
    ///
    /// In the order of the tests: [`MinimumSizeOverflow`](crate::TableError::MinimumSizeOverflow) if `usize` has 32 bits and the minimum more; [`ResourceLimiterDeniedAllocation`](crate::TableError::ResourceLimiterDeniedAllocation) if the limiter doesn't permit it; [`OutOfSystemMemory`](crate::TableError::OutOfSystemMemory) if the region is shorter than the minimum, of which the limiter is notified. After an error the region is unchanged.
    ///
    /// # Contract
    ///
    /// ```text
    /// ensures made: MakesTableIn (optional_rules L.rules) ty (length region.old) reference
    ///     (Some limiter.old) (made_in ty region.new result) (Some limiter.new)
    /// ensures sized: IfOk result (λ size. IsSized ty size × (size ≤ length region.new))
    /// ensures rest: IfOk result (λ size. SameRest size region.old region.new)
    /// ensures refused: OnErr result (region.new ≡ region.old)
    /// ```
    ///
    /// `L` is the type of the limiter, a [`ResourceLimiter`](crate::machine::ResourceLimiter#contract).
    #[inline]
    pub fn make_under<L: ResourceLimiter>(
        ty: TableType,
        region: &mut [u32],
        reference: u32,
        limiter: &mut L,
    ) -> Result<usize, TableError> {
        let mut lent = ResourceLimiterRef::from(limiter);
        let made = region_table::make(ty, region, reference, &mut lent);
        let _limiter = lent.into_limiter();
        made
    }

    /// Makes a table of one reference at the front of a region, at the minimum of the numbers' type,
    /// and sets their size. It takes no fuel, and leaves the elements past the minimum alone.
    ///
    /// # Contract
    ///
    /// ```text
    /// ensures made: MakesTableEmbedded reference (placed table.old region.old) (limiter_of quota.old)
    ///     result (placed table.new region.new) (limiter_of quota.new)
    /// ensures quota: KeepsQuota quota.old quota.new
    /// ensures invalid: table_type_of table.old ≡ None → quota.new ≡ quota.old
    /// ```
    #[inline]
    pub fn make(
        table: &mut TableNumbers,
        region: &mut [u32],
        reference: u32,
        quota: &mut QuotaNumbers,
    ) -> u8 {
        let Some(ty) = table.table_type() else {
            return INVALID_STATE;
        };
        match make_under(ty, region, reference, quota) {
            Ok(size) => {
                table.size = size;
                DONE
            }
            Err(error) => table_status(error),
        }
    }

    /// Grows a table of this type under a limiter.
    ///
    /// # Contract
    ///
    /// ```text
    /// requires state: IsTable table.old region.old ty
    /// ensures grown: GrowsAs of_table L.rules (by_elements delta reference) ty
    ///     (embedded table.old region.old meter.old (Some limiter.old) number.old) result
    ///     (embedded table.new region.new meter.new (Some limiter.new) number.new)
    /// ```
    ///
    /// `L` is the type of the limiter, a [`ResourceLimiter`](crate::machine::ResourceLimiter#contract).
    #[inline]
    pub fn grow_under<L: ResourceLimiter>(
        table: &mut TableNumbers,
        ty: TableType,
        region: &mut [u32],
        delta: u64,
        reference: u32,
        meter: &mut MeterNumbers,
        limiter: &mut L,
        number: &mut u64,
    ) -> u8 {
        let mut fuel = meter.fuel();
        let mut size = table.size;
        let mut lent = ResourceLimiterRef::from(limiter);
        let grown = region_table::grow(
            ty, &mut size, region, delta, reference, &mut fuel, &mut lent,
        );
        let _limiter = lent.into_limiter();
        table.size = size;
        meter.store_left(&fuel);
        match grown {
            Ok(old_size) => {
                *number = old_size;
                DONE
            }
            Err(error) => table_refusal(error, number),
        }
    }

    /// Grows a table by elements of one reference. `number` becomes the old size, or the fuel needed.
    ///
    /// # Contract
    ///
    /// ```text
    /// ensures grown: GrowsBy of_table quota_rules (by_elements delta reference)
    ///     (embedded table.old region.old meter.old (limiter_of quota.old) number.old) result
    ///     (embedded table.new region.new meter.new (limiter_of quota.new) number.new)
    /// ensures quota: KeepsQuota quota.old quota.new
    /// ensures invalid: IsNone of_table table.old region.old → quota.new ≡ quota.old
    /// ensures unasked: (ty : TableTypeValue) → IsTable table.old region.old ty
    ///     → (delta ≡ 0) ⊎ (is_indexable ty (table.old.size + delta) ≡ false) → quota.new ≡ quota.old
    /// ```
    #[inline]
    pub fn grow(
        table: &mut TableNumbers,
        region: &mut [u32],
        delta: u64,
        reference: u32,
        meter: &mut MeterNumbers,
        quota: &mut QuotaNumbers,
        number: &mut u64,
    ) -> u8 {
        type_or_return!(ty, table, region);
        grow_under(table, ty, region, delta, reference, meter, quota, number)
    }

    /// Ends a table: the quota gives up its elements, and the numbers stand for no table from then on.
    /// If fewer are held, nothing is written.
    ///
    /// # Contract
    ///
    /// ```text
    /// ensures ended: EndsTable (placed table.old region.now) (limiter_of quota.old) result table.new
    ///     (limiter_of quota.new)
    /// ensures quota: KeepsQuota quota.old quota.new
    /// ensures none: result ≡ DONE → table_type_of table.new ≡ None
    /// ensures refused: (result ≡ DONE → ⊥) → quota.new ≡ quota.old
    /// ```
    #[inline]
    pub fn release(table: &mut TableNumbers, region: &[u32], quota: &mut QuotaNumbers) -> u8 {
        type_or_return!(_ty, table, region);
        if !quota.release(Kind::Elements, table.size as u64) {
            return NOT_HELD;
        }
        table.size = 0;
        table.ty = NO_REFERENCES;
        DONE
    }

    /// What a growth by so many elements asks a limiter, with the status `ASKS`; it asks nothing where
    /// it is by 0 (`DONE`), where indices don't reach it, and where the numbers stand for no table.
    ///
    /// # Contract
    ///
    /// ```text
    /// ensures: AsksTableEmbedded table.now region.now delta result question.old question.new
    /// ```
    #[inline]
    pub fn question(
        table: &TableNumbers,
        region: &[u32],
        delta: u64,
        question: &mut Question,
    ) -> u8 {
        type_or_return!(ty, table, region);
        if delta == 0 {
            return DONE;
        }
        let Some((desired, most)) = region_table::question(ty, table.size, delta) else {
            return TABLE_GROWTH;
        };
        *question = Question::new(table.size, desired, most);
        ASKS
    }

    /// Grows a table by elements of one reference, under a limiter that answers as the host says. If
    /// the answers are about other sizes, nothing is written; else they say if it was asked and told.
    ///
    /// # Contract
    ///
    /// ```text
    /// ensures: SettlesBy of_table (by_elements delta reference) answers.old
    ///     (embedded table.old region.old meter.old (Some answers.old) number.old) result
    ///     (embedded table.new region.new meter.new (Some answers.new) number.new)
    /// ```
    #[inline]
    pub fn settle(
        table: &mut TableNumbers,
        region: &mut [u32],
        delta: u64,
        reference: u32,
        meter: &mut MeterNumbers,
        answers: &mut HostAnswers,
        number: &mut u64,
    ) -> u8 {
        type_or_return!(ty, table, region);
        if !are_about(table, ty, region, delta, reference, answers) {
            return OTHER_SIZE;
        }
        answers.reset();
        grow_under(table, ty, region, delta, reference, meter, answers, number)
    }

    /// Whether the host's answers are to what a growth by so many elements asks.
    ///
    /// # Contract
    ///
    /// ```text
    /// requires state: IsTable table.now region.now ty
    /// ensures about: result ≡ is_about answers.now
    ///     (region_growth (length region.now) delta _reference (table_in ty region.now table.now.size))
    /// ```
    #[inline]
    fn are_about(
        table: &TableNumbers,
        ty: TableType,
        region: &[u32],
        delta: u64,
        _reference: u32,
        answers: &HostAnswers,
    ) -> bool {
        let asked = region_table::question(ty, table.size, delta);
        let is_desired = asked.is_none_or(|(desired, _)| desired == answers.desired);
        table.size == answers.current && (delta == 0 || is_desired)
    }

    /// The size of a table in elements.
    ///
    /// # Contract
    ///
    /// ```text
    /// ensures: CountsElements table.now region.now size.old result size.new
    /// ```
    #[inline]
    pub fn size(table: &TableNumbers, region: &[u32], size: &mut u64) -> u8 {
        type_or_return!(_ty, table, region);
        *size = table.size as u64;
        DONE
    }

    /// The element at an index.
    ///
    /// # Contract
    ///
    /// ```text
    /// ensures: GetsElement (placed table.now region.now) index reference.old result reference.new
    /// ```
    #[inline]
    pub fn get(table: &TableNumbers, region: &[u32], index: u64, reference: &mut u32) -> u8 {
        type_or_return!(_ty, table, region);
        let elements = &region[..table.size];
        let Ok(index) = usize::try_from(index) else {
            return NO_ELEMENT;
        };
        let Some(found) = elements.get(index) else {
            return NO_ELEMENT;
        };
        *reference = *found;
        DONE
    }

    /// Sets the element at an index.
    ///
    /// # Contract
    ///
    /// ```text
    /// ensures: SetsElement (placed table.now region.old) index reference result region.new
    /// ```
    #[inline]
    pub fn set(table: &TableNumbers, region: &mut [u32], index: u64, reference: u32) -> u8 {
        type_or_return!(ty, table, region);
        match region_table::set(ty, &mut region[..table.size], index, reference) {
            Ok(()) => DONE,
            Err(error) => table_status(error),
        }
    }

    /// Leaves the fuel that a write to a table needs, if it is refused for it, and returns its status.
    ///
    /// # Contract
    ///
    /// ```text
    /// ensures status: result ≡ status_of of_table written
    /// ensures number: number.new ≡ written_number of_table written number.old
    /// ```
    #[inline]
    fn leave_write(written: Result<(), TableError>, number: &mut u64) -> u8 {
        match written {
            Ok(()) => DONE,
            Err(error) => table_refusal(error, number),
        }
    }

    /// Fills the elements of a range with a reference.
    ///
    /// # Contract
    ///
    /// ```text
    /// ensures: WritesTableEmbedded (λ ty. raw_filling_of range.now.to reference range.now.count)
    ///     table.now (metered region.old meter.old number.old) result
    ///     (metered region.new meter.new number.new)
    /// ```
    #[inline]
    pub fn fill(
        table: &TableNumbers,
        region: &mut [u32],
        range: &Range,
        reference: u32,
        meter: &mut MeterNumbers,
        number: &mut u64,
    ) -> u8 {
        type_or_return!(ty, table, region);
        let mut fuel = meter.fuel();
        let front = &mut region[..table.size];
        let written = region_table::fill(ty, front, range.to, reference, range.count, &mut fuel);
        meter.store_left(&fuel);
        leave_write(written, number)
    }

    /// Copies elements of a table over others of it.
    ///
    /// # Contract
    ///
    /// ```text
    /// ensures: WritesTableEmbedded (λ ty. copy_of range.now.to range.now.from range.now.count
    ///     (table_in ty region.old table.now.size))
    ///     table.now (metered region.old meter.old number.old) result
    ///     (metered region.new meter.new number.new)
    /// ```
    #[inline]
    pub fn copy_within(
        table: &TableNumbers,
        region: &mut [u32],
        range: &Range,
        meter: &mut MeterNumbers,
        number: &mut u64,
    ) -> u8 {
        type_or_return!(ty, table, region);
        let mut fuel = meter.fuel();
        let front = &mut region[..table.size];
        let (to, from, count) = (range.to, range.from, range.count);
        let written = region_table::copy_within(ty, front, to, from, count, &mut fuel);
        meter.store_left(&fuel);
        leave_write(written, number)
    }

    /// Copies elements of another table over those of a table.
    ///
    /// # Contract
    ///
    /// ```text
    /// ensures: CopiesEmbedded (placed source.now source_region.now) range.now table.now
    ///     (metered region.old meter.old number.old) result (metered region.new meter.new number.new)
    /// ```
    #[inline]
    pub fn copy(
        table: &TableNumbers,
        region: &mut [u32],
        source: &TableNumbers,
        source_region: &[u32],
        range: &Range,
        meter: &mut MeterNumbers,
        number: &mut u64,
    ) -> u8 {
        type_or_return!(ty, table, region);
        type_or_return!(source_ty, source, source_region);
        let mut fuel = meter.fuel();
        let front = &mut region[..table.size];
        let items = &source_region[..source.size];
        let (to, from, count) = (range.to, range.from, range.count);
        let written = region_table::copy(ty, front, source_ty, items, to, from, count, &mut fuel);
        meter.store_left(&fuel);
        leave_write(written, number)
    }

    /// Copies items over the elements of a table.
    ///
    /// # Contract
    ///
    /// ```text
    /// ensures: WritesTableEmbedded (λ ty. initialization_of range.now.to range.now.from
    ///     range.now.count (items_of ty items.now))
    ///     table.now (metered region.old meter.old number.old) result
    ///     (metered region.new meter.new number.new)
    /// ```
    #[inline]
    pub fn init(
        table: &TableNumbers,
        region: &mut [u32],
        items: &[u32],
        range: &Range,
        meter: &mut MeterNumbers,
        number: &mut u64,
    ) -> u8 {
        type_or_return!(ty, table, region);
        let mut fuel = meter.fuel();
        let front = &mut region[..table.size];
        let (to, from, count) = (range.to, range.from, range.count);
        let written = region_table::init(ty, front, items, to, from, count, &mut fuel);
        meter.store_left(&fuel);
        leave_write(written, number)
    }
}
pub mod types {
    //! The types and meters of plain numbers; numbers that fit 32 bits or that a flag says are there.

    use crate::proved::meter::{CustomFuelCosts, Fuel, FuelCostsProvider};
    use crate::proved::store::{MemoryType, TableType};
    use crate::proved::types::{RefType, ValType};

    /// The value types, by number.
    pub const VAL_TYPES: [ValType; 7] = [
        ValType::I32,
        ValType::I64,
        ValType::F32,
        ValType::F64,
        ValType::V128,
        ValType::FuncRef,
        ValType::ExternRef,
    ];

    /// A number as one of 32 bits, if it is below 2^32.
    ///
    /// # Contract
    ///
    /// ```text
    /// ensures: result ≡ u32_of number
    /// ```
    #[must_use]
    #[inline]
    pub fn to_u32(number: u64) -> Option<u32> {
        u32::try_from(number).ok()
    }

    /// The value type of a number, if there is one.
    ///
    /// # Contract
    ///
    /// ```text
    /// ensures: result ≡ val_type_of number
    /// ```
    #[must_use]
    #[inline]
    pub fn val_type(number: u8) -> Option<ValType> {
        VAL_TYPES.get(usize::from(number)).copied()
    }

    /// The reference type of a number, if there is one.
    ///
    /// # Contract
    ///
    /// ```text
    /// ensures: result ≡ reference_type_of number
    /// ```
    #[must_use]
    #[inline]
    pub fn reference_type(number: u8) -> Option<RefType> {
        val_type(number)?.as_ref()
    }

    /// A number that is there where a flag isn't 0.
    ///
    /// # Contract
    ///
    /// ```text
    /// ensures: result ≡ if_flag flag number
    /// ```
    #[must_use]
    #[inline]
    pub fn if_flag(flag: u8, number: u64) -> Option<u64> {
        if flag == 0 { None } else { Some(number) }
    }

    /// The type of a memory, if there is such a type. The limits are in pages.
    ///
    /// # Contract
    ///
    /// ```text
    /// ensures value: result ≡ memory_type_of (settings_of minimum maximum is_64 page_size_log2)
    /// ensures valid: MatchOption result
    ///     ((ty : MemoryTypeValue)
    ///     → named_type (settings_of minimum maximum is_64 page_size_log2) ≡ Some ty
    ///     → IsValid ty → ⊥)
    ///     (λ ty. (named_type (settings_of minimum maximum is_64 page_size_log2) ≡ Some ty)
    ///     × IsValid ty)
    /// ```
    #[must_use]
    #[inline]
    pub fn memory_type(
        minimum: u64,
        maximum: Option<u64>,
        is_64: u8,
        page_size_log2: u8,
    ) -> Option<MemoryType> {
        let mut builder = MemoryType::builder();
        builder
            .min(minimum)
            .max(maximum)
            .page_size_log2(page_size_log2)
            .memory64(is_64 != 0);
        builder.build().ok()
    }

    /// The type of a table, if there is such a type. The limits are in elements.
    ///
    /// # Contract
    ///
    /// ```text
    /// ensures: result ≡ table_type_of element minimum maximum is_64
    /// ```
    #[must_use]
    #[inline]
    pub fn table_type(
        element: u8,
        minimum: u64,
        maximum: Option<u64>,
        is_64: u8,
    ) -> Option<TableType> {
        let element = reference_type(element)?;
        if maximum.is_some_and(|most| most < minimum) {
            return None;
        }
        if is_64 != 0 {
            return Some(TableType::new64(element, minimum, maximum));
        }
        let minimum = to_u32(minimum)?;
        let maximum = match maximum {
            Some(most) => Some(to_u32(most)?),
            None => None,
        };
        Some(TableType::new(element, minimum, maximum))
    }

    /// A meter with so much left, if it is on, and these costs.
    ///
    /// # Contract
    ///
    /// ```text
    /// ensures: result ≡ meter_of left costs
    /// ```
    #[must_use]
    #[inline]
    pub fn meter(left: Option<u64>, costs: CustomFuelCosts) -> Fuel {
        let mut fuel = Fuel::new(left.is_some(), FuelCostsProvider::custom(costs));
        if let Some(left) = left {
            let _ = fuel.set_fuel(left);
        }
        fuel
    }
}

pub use host::{HostAnswers, Question};
pub use numbers::{MemoryNumbers, MeterNumbers, QuotaNumbers, Range, TableNumbers};
