//! The words of a script's line, and what they write: numbers, types, instructions and operands.
mod error {
    //! Why a line isn't taken: it is a bad command, or memory is refused.

    use crate::rattle::alloc::AllocError;

    /// Why a line isn't taken.
    #[derive(Clone, Copy)]
    pub enum LineError {
        /// It is no command, or no header line that may stand there.
        BadCommand,
        /// There isn't enough memory for its words or its call.
        OutOfMemory,
    }

    /// # Contract
    ///
    /// ```text
    /// from_gives = λ _ error. error ≡ OutOfMemory
    /// ```
    impl From<AllocError> for LineError {
        #[inline]
        fn from(_: AllocError) -> Self {
            LineError::OutOfMemory
        }
    }
}
pub mod lane {
    //! The instructions on one lane, by two words: a name, and the lane's index.

    use crate::proved::operands::error::LineError;
    use crate::proved::operands::operand::Operand;
    use crate::proved::ops::{
        ExtractKind, ExtractOp, LoadLaneKind, LoadLaneOp, ReplaceKind, ReplaceOp, StoreLaneKind,
        StoreLaneOp,
    };

    /// The extraction of a name and a lane.
    ///
    /// # Contract
    ///
    /// ```text
    /// ensures: Accepts result (NamesLane ops.extract_name ops.extract_op name.now lane.now)
    /// ```
    ///
    /// Definitions: [`Accepts`](crate::specs::operands::LineWordsSpecs#Accepts), [`NamesLane`](crate::specs::operands::NamesSpecs#NamesLane), [`extract_name`](crate::specs::ops::LaneOpsSpecs#extract_name), [`extract_op`](crate::specs::ops::LaneOpsSpecs#extract_op).
    #[inline]
    pub fn extract_op(name: &str, lane: &str) -> Result<ExtractOp, LineError> {
        let kind = ExtractKind::from_word(name)?;
        let index = u8::from_word(lane)?;
        kind.on(index).ok_or(LineError::BadCommand)
    }

    /// The replacement of a name and a lane.
    ///
    /// # Contract
    ///
    /// ```text
    /// ensures: Accepts result (NamesLane ops.replace_name ops.replace_op name.now lane.now)
    /// ```
    ///
    /// Definitions: [`Accepts`](crate::specs::operands::LineWordsSpecs#Accepts), [`NamesLane`](crate::specs::operands::NamesSpecs#NamesLane), [`replace_name`](crate::specs::ops::LaneOpsSpecs#replace_name), [`replace_op`](crate::specs::ops::LaneOpsSpecs#replace_op).
    #[inline]
    pub fn replace_op(name: &str, lane: &str) -> Result<ReplaceOp, LineError> {
        let kind = ReplaceKind::from_word(name)?;
        let index = u8::from_word(lane)?;
        kind.on(index).ok_or(LineError::BadCommand)
    }

    /// The load of a lane, of a name and a lane.
    ///
    /// # Contract
    ///
    /// ```text
    /// ensures: Accepts result (NamesLane ops.load_lane_name ops.load_lane_op name.now lane.now)
    /// ```
    ///
    /// Definitions: [`Accepts`](crate::specs::operands::LineWordsSpecs#Accepts), [`NamesLane`](crate::specs::operands::NamesSpecs#NamesLane), [`load_lane_name`](crate::specs::ops::LaneOpsSpecs#load_lane_name), [`load_lane_op`](crate::specs::ops::LaneOpsSpecs#load_lane_op).
    #[inline]
    pub fn load_lane_op(name: &str, lane: &str) -> Result<LoadLaneOp, LineError> {
        let kind = LoadLaneKind::from_word(name)?;
        let index = u8::from_word(lane)?;
        kind.on(index).ok_or(LineError::BadCommand)
    }

    /// The store of a lane, of a name and a lane.
    ///
    /// # Contract
    ///
    /// ```text
    /// ensures: Accepts result (NamesLane ops.store_lane_name ops.store_lane_op name.now lane.now)
    /// ```
    ///
    /// Definitions: [`Accepts`](crate::specs::operands::LineWordsSpecs#Accepts), [`NamesLane`](crate::specs::operands::NamesSpecs#NamesLane), [`store_lane_name`](crate::specs::ops::LaneOpsSpecs#store_lane_name), [`store_lane_op`](crate::specs::ops::LaneOpsSpecs#store_lane_op).
    #[inline]
    pub fn store_lane_op(name: &str, lane: &str) -> Result<StoreLaneOp, LineError> {
        let kind = StoreLaneKind::from_word(name)?;
        let index = u8::from_word(lane)?;
        kind.on(index).ok_or(LineError::BadCommand)
    }
}
pub mod operand {
    //! The words of a line, and what they write: numbers, types, references, a limiter's answers, the
    //! names of instructions, also of those on one lane with its index, and the indices of lanes, by
    //! one word, by as many as a command has, or as a list.

    use crate::proved::lanes::ImmLaneIdx32;
    use crate::proved::meter::LimiterAnswer;
    use crate::proved::operands::error::LineError;
    use crate::proved::ops::{
        BINARIES, BinaryOp, EXTRACTIONS, ExtractKind, LANE_LOADS, LANE_STORES, LOADS, LoadLaneKind,
        LoadOp, MAKES, MakeOp, REPLACEMENTS, ReplaceKind, SHIFTS, STORES, ShiftOp, StoreLaneKind,
        StoreOp, TERNARIES, TESTS, TernaryOp, TestOp, UNARIES, UnaryOp, VECTOR_LOADS, VectorLoadOp,
    };
    use crate::proved::raw::RawRef;
    use crate::proved::typed::Mutability;
    use crate::proved::types::{IndexType, RefType, ValType};
    use crate::rattle::Vec;
    use crate::rattle::alloc::AllocError;

    /// Puts the words of a line, which spaces alone separate, in place of those of the line before.
    ///
    /// # Contract
    ///
    /// ```text
    /// ensures: OnOk result (map (λ word. word.now) words.new.items ≡ words_in line.now)
    /// ```
    ///
    /// Definitions: [`words_in`](crate::specs::operands::LineWordsSpecs#words_in).
    #[inline]
    pub fn read_words<'a>(line: &'a str, words: &mut Vec<&'a str>) -> Result<(), AllocError> {
        words.clear();
        for word in crate::rattle::between_spaces(line) {
            if !word.is_empty() {
                words.push(word)?;
            }
        }
        Ok(())
    }

    /// The number that a word writes in decimal digits (zeros may lead), if it fits its type.
    ///
    /// # Contract
    ///
    /// ```text
    /// ensures digits: IfOk result (λ _. IsDecimal word.now)
    /// ensures value: IfOk result (λ number. T.try_from_gives (decimal_value word.now) (Ok number))
    /// ensures refused: IfErr result (λ error. error ≡ LineError.BadCommand)
    /// ensures unfit: IfErr result (λ _. IsDecimal word.now → decimal_value word.now < 2 ^ 64
    ///     → (error : T.Error) × T.try_from_gives (decimal_value word.now) (Err error))
    /// ```
    ///
    /// Definitions: [`IsDecimal`](crate::specs::operands::LineWordsSpecs#IsDecimal), [`decimal_value`](crate::specs::operands::LineWordsSpecs#decimal_value).
    ///
    /// `T` is a type with the trait `TryFrom`.
    #[inline]
    pub fn number<T: TryFrom<u64>>(word: &str) -> Result<T, LineError> {
        T::try_from(decimal(word)?).map_err(|_| LineError::BadCommand)
    }

    /// The number that a word writes in decimal digits, if it is below 2^64.
    ///
    /// # Contract
    ///
    /// ```text
    /// ensures value: OkIff result (IsDecimal word.now × (decimal_value word.now < 2 ^ 64))
    ///     (decimal_value word.now)
    /// ensures refused: IfErr result (λ error. error ≡ LineError.BadCommand)
    /// ```
    ///
    /// Definitions: [`IsDecimal`](crate::specs::operands::LineWordsSpecs#IsDecimal), [`decimal_value`](crate::specs::operands::LineWordsSpecs#decimal_value).
    #[inline]
    fn decimal(word: &str) -> Result<u64, LineError> {
        if word.is_empty() {
            return Err(LineError::BadCommand);
        }
        let mut number = 0;
        for digit in word.as_bytes() {
            number = appended(number, *digit).ok_or(LineError::BadCommand)?;
        }
        Ok(number)
    }

    /// The number with one more digit, if the byte is a digit and the result is below 2^64.
    ///
    /// # Contract
    ///
    /// ```text
    /// ensures: SomeIff result (IsInRange 48 57 byte × (number * 10 + digit_value byte < 2 ^ 64))
    ///     (number * 10 + digit_value byte)
    /// ```
    ///
    /// Definitions: [`IsInRange`](crate::specs::raw::NumberSpecs#IsInRange).
    #[inline(always)]
    fn appended(number: u64, byte: u8) -> Option<u64> {
        let digit = byte.wrapping_sub(b'0');
        if digit > 9 {
            return None;
        }
        number.checked_mul(10)?.checked_add(digit as u64)
    }

    /// What one word of a command can write.
    ///
    /// # Contract
    ///
    /// ```text
    /// -- The word writes this value.
    /// writes: List ℕ → Self → Type 0
    /// ```
    pub trait Operand: Sized + Copy {
        /// What the word writes.
        ///
        /// # Contract
        ///
        /// ```text
        /// ensures: Accepts result (writes word.now)
        /// ```
        ///
        /// Definitions: [`Accepts`](crate::specs::operands::LineWordsSpecs#Accepts).
        fn from_word(word: &str) -> Result<Self, LineError>;
    }

    /// # Contract
    ///
    /// ```text
    /// writes = WritesNumber 64
    /// ```
    ///
    /// Definitions: [`WritesNumber`](crate::specs::operands::LineWordsSpecs#WritesNumber).
    impl Operand for u64 {
        #[inline]
        fn from_word(word: &str) -> Result<Self, LineError> {
            number(word)
        }
    }

    // Where a `usize` has 32 bits, a greater number counts as the greatest, past the end of every list.
    /// # Contract
    ///
    /// ```text
    /// writes = WritesNumber 64
    /// ```
    ///
    /// Definitions: [`WritesNumber`](crate::specs::operands::LineWordsSpecs#WritesNumber).
    impl Operand for usize {
        #[inline]
        fn from_word(word: &str) -> Result<Self, LineError> {
            Ok(usize::try_from(number::<u64>(word)?).unwrap_or(usize::MAX))
        }
    }

    /// # Contract
    ///
    /// ```text
    /// writes = WritesNumber 32
    /// ```
    ///
    /// Definitions: [`WritesNumber`](crate::specs::operands::LineWordsSpecs#WritesNumber).
    impl Operand for u32 {
        #[inline]
        fn from_word(word: &str) -> Result<Self, LineError> {
            number(word)
        }
    }

    /// # Contract
    ///
    /// ```text
    /// writes = WritesNumber 8
    /// ```
    ///
    /// Definitions: [`WritesNumber`](crate::specs::operands::LineWordsSpecs#WritesNumber).
    impl Operand for u8 {
        #[inline]
        fn from_word(word: &str) -> Result<Self, LineError> {
            number(word)
        }
    }

    /// # Contract
    ///
    /// ```text
    /// writes = WritesNumber 32
    /// ```
    ///
    /// Definitions: [`WritesNumber`](crate::specs::operands::LineWordsSpecs#WritesNumber).
    impl Operand for RawRef {
        #[inline]
        fn from_word(word: &str) -> Result<Self, LineError> {
            Ok(RawRef::from(number::<u32>(word)?))
        }
    }

    /// # Contract
    ///
    /// ```text
    /// writes = λ word index. word ≡ width_word index
    /// ```
    ///
    /// Definitions: [`width_word`](crate::specs::operands::NamesSpecs#width_word).
    impl Operand for IndexType {
        #[inline]
        fn from_word(word: &str) -> Result<Self, LineError> {
            match word {
                "32" => Ok(IndexType::I32),
                "64" => Ok(IndexType::I64),
                _ => Err(LineError::BadCommand),
            }
        }
    }

    /// # Contract
    ///
    /// ```text
    /// writes = WritesLimit
    /// ```
    ///
    /// Definitions: [`WritesLimit`](crate::specs::operands::LineWordsSpecs#WritesLimit).
    impl Operand for Option<u64> {
        #[inline]
        fn from_word(word: &str) -> Result<Self, LineError> {
            match word {
                "none" => Ok(None),
                _ => Ok(Some(number(word)?)),
            }
        }
    }

    /// # Contract
    ///
    /// ```text
    /// writes = WritesNumber 5
    /// ```
    ///
    /// Definitions: [`WritesNumber`](crate::specs::operands::LineWordsSpecs#WritesNumber).
    impl Operand for ImmLaneIdx32 {
        #[inline]
        fn from_word(word: &str) -> Result<Self, LineError> {
            ImmLaneIdx32::try_from(number::<u8>(word)?).map_err(|_| LineError::BadCommand)
        }
    }

    /// # Contract
    ///
    /// ```text
    /// writes = λ word ty. word ≡ reference_word ty
    /// ```
    ///
    /// Definitions: [`reference_word`](crate::specs::operands::NamesSpecs#reference_word).
    impl Operand for RefType {
        #[inline]
        fn from_word(word: &str) -> Result<Self, LineError> {
            match word {
                "func" => Ok(RefType::Func),
                "extern" => Ok(RefType::Extern),
                _ => Err(LineError::BadCommand),
            }
        }
    }

    /// # Contract
    ///
    /// ```text
    /// writes = λ word ty. word ≡ value_word ty
    /// ```
    ///
    /// Definitions: [`value_word`](crate::specs::operands::NamesSpecs#value_word).
    impl Operand for ValType {
        #[inline]
        fn from_word(word: &str) -> Result<Self, LineError> {
            match word {
                "i32" => Ok(ValType::I32),
                "i64" => Ok(ValType::I64),
                "f32" => Ok(ValType::F32),
                "f64" => Ok(ValType::F64),
                "v128" => Ok(ValType::V128),
                "funcref" => Ok(ValType::FuncRef),
                "externref" => Ok(ValType::ExternRef),
                _ => Err(LineError::BadCommand),
            }
        }
    }

    /// # Contract
    ///
    /// ```text
    /// writes = λ word mutability. word ≡ mutability_word mutability
    /// ```
    ///
    /// Definitions: [`mutability_word`](crate::specs::operands::NamesSpecs#mutability_word).
    impl Operand for Mutability {
        #[inline]
        fn from_word(word: &str) -> Result<Self, LineError> {
            match word {
                "const" => Ok(Mutability::Const),
                "var" => Ok(Mutability::Var),
                _ => Err(LineError::BadCommand),
            }
        }
    }

    /// # Contract
    ///
    /// ```text
    /// writes = WritesAnswer
    /// ```
    ///
    /// Definitions: [`WritesAnswer`](crate::specs::operands::NamesSpecs#WritesAnswer).
    impl Operand for LimiterAnswer {
        #[inline]
        fn from_word(word: &str) -> Result<Self, LineError> {
            match word {
                "permit" => Ok(LimiterAnswer::Permit),
                "deny" => Ok(LimiterAnswer::Deny),
                "error" => Ok(LimiterAnswer::Error),
                "complain" => Ok(LimiterAnswer::Complain),
                _ => Err(LineError::BadCommand),
            }
        }
    }

    /// # Contract
    ///
    /// ```text
    /// writes = IsName load_name
    /// ```
    ///
    /// Definitions: [`IsName`](crate::specs::operands::NamesSpecs#IsName), [`load_name`](crate::specs::ops::LoadStoreOpsSpecs#load_name).
    impl Operand for LoadOp {
        #[inline]
        fn from_word(word: &str) -> Result<Self, LineError> {
            op_named(&LOADS, word)
        }
    }

    /// # Contract
    ///
    /// ```text
    /// writes = IsName store_name
    /// ```
    ///
    /// Definitions: [`IsName`](crate::specs::operands::NamesSpecs#IsName), [`store_name`](crate::specs::ops::LoadStoreOpsSpecs#store_name).
    impl Operand for StoreOp {
        #[inline]
        fn from_word(word: &str) -> Result<Self, LineError> {
            op_named(&STORES, word)
        }
    }

    /// # Contract
    ///
    /// ```text
    /// writes = IsName make_name
    /// ```
    ///
    /// Definitions: [`IsName`](crate::specs::operands::NamesSpecs#IsName), [`make_name`](crate::specs::ops::VectorOpsSpecs#make_name).
    impl Operand for MakeOp {
        #[inline]
        fn from_word(word: &str) -> Result<Self, LineError> {
            op_named(&MAKES, word)
        }
    }

    /// # Contract
    ///
    /// ```text
    /// writes = IsName unary_name
    /// ```
    ///
    /// Definitions: [`IsName`](crate::specs::operands::NamesSpecs#IsName), [`unary_name`](crate::specs::ops::VectorOpsSpecs#unary_name).
    impl Operand for UnaryOp {
        #[inline]
        fn from_word(word: &str) -> Result<Self, LineError> {
            op_named(&UNARIES, word)
        }
    }

    /// # Contract
    ///
    /// ```text
    /// writes = IsName binary_name
    /// ```
    ///
    /// Definitions: [`IsName`](crate::specs::operands::NamesSpecs#IsName), [`binary_name`](crate::specs::ops::VectorOpsSpecs#binary_name).
    impl Operand for BinaryOp {
        #[inline]
        fn from_word(word: &str) -> Result<Self, LineError> {
            op_named(&BINARIES, word)
        }
    }

    /// # Contract
    ///
    /// ```text
    /// writes = IsName ternary_name
    /// ```
    ///
    /// Definitions: [`IsName`](crate::specs::operands::NamesSpecs#IsName), [`ternary_name`](crate::specs::ops::VectorOpsSpecs#ternary_name).
    impl Operand for TernaryOp {
        #[inline]
        fn from_word(word: &str) -> Result<Self, LineError> {
            op_named(&TERNARIES, word)
        }
    }

    /// # Contract
    ///
    /// ```text
    /// writes = IsName shift_name
    /// ```
    ///
    /// Definitions: [`IsName`](crate::specs::operands::NamesSpecs#IsName), [`shift_name`](crate::specs::ops::VectorOpsSpecs#shift_name).
    impl Operand for ShiftOp {
        #[inline]
        fn from_word(word: &str) -> Result<Self, LineError> {
            op_named(&SHIFTS, word)
        }
    }

    /// # Contract
    ///
    /// ```text
    /// writes = IsName test_name
    /// ```
    ///
    /// Definitions: [`IsName`](crate::specs::operands::NamesSpecs#IsName), [`test_name`](crate::specs::ops::VectorOpsSpecs#test_name).
    impl Operand for TestOp {
        #[inline]
        fn from_word(word: &str) -> Result<Self, LineError> {
            op_named(&TESTS, word)
        }
    }

    /// # Contract
    ///
    /// ```text
    /// writes = IsName extract_name
    /// ```
    ///
    /// Definitions: [`IsName`](crate::specs::operands::NamesSpecs#IsName), [`extract_name`](crate::specs::ops::LaneOpsSpecs#extract_name).
    impl Operand for ExtractKind {
        #[inline]
        fn from_word(word: &str) -> Result<Self, LineError> {
            op_named(&EXTRACTIONS, word)
        }
    }

    /// # Contract
    ///
    /// ```text
    /// writes = IsName replace_name
    /// ```
    ///
    /// Definitions: [`IsName`](crate::specs::operands::NamesSpecs#IsName), [`replace_name`](crate::specs::ops::LaneOpsSpecs#replace_name).
    impl Operand for ReplaceKind {
        #[inline]
        fn from_word(word: &str) -> Result<Self, LineError> {
            op_named(&REPLACEMENTS, word)
        }
    }

    /// # Contract
    ///
    /// ```text
    /// writes = IsName vector_load_name
    /// ```
    ///
    /// Definitions: [`IsName`](crate::specs::operands::NamesSpecs#IsName), [`vector_load_name`](crate::specs::ops::VectorOpsSpecs#vector_load_name).
    impl Operand for VectorLoadOp {
        #[inline]
        fn from_word(word: &str) -> Result<Self, LineError> {
            op_named(&VECTOR_LOADS, word)
        }
    }

    /// # Contract
    ///
    /// ```text
    /// writes = IsName load_lane_name
    /// ```
    ///
    /// Definitions: [`IsName`](crate::specs::operands::NamesSpecs#IsName), [`load_lane_name`](crate::specs::ops::LaneOpsSpecs#load_lane_name).
    impl Operand for LoadLaneKind {
        #[inline]
        fn from_word(word: &str) -> Result<Self, LineError> {
            op_named(&LANE_LOADS, word)
        }
    }

    /// # Contract
    ///
    /// ```text
    /// writes = IsName store_lane_name
    /// ```
    ///
    /// Definitions: [`IsName`](crate::specs::operands::NamesSpecs#IsName), [`store_lane_name`](crate::specs::ops::LaneOpsSpecs#store_lane_name).
    impl Operand for StoreLaneKind {
        #[inline]
        fn from_word(word: &str) -> Result<Self, LineError> {
            op_named(&LANE_STORES, word)
        }
    }

    /// The op of a name in a list of names.
    ///
    /// # Contract
    ///
    /// ```text
    /// ensures: Accepts result (IsNamed (map (λ entry. (entry.0.now, entry.1)) names.now) name.now)
    /// ```
    ///
    /// Definitions: [`Accepts`](crate::specs::operands::LineWordsSpecs#Accepts), [`IsNamed`](crate::specs::operands::NamesSpecs#IsNamed).
    #[inline]
    fn op_named<T: Copy>(names: &[(&str, T)], name: &str) -> Result<T, LineError> {
        let entry = names.iter().find(|(known, _)| *known == name);
        entry.map(|(_, op)| *op).ok_or(LineError::BadCommand)
    }

    /// What one word writes, with none beside it.
    ///
    /// # Contract
    ///
    /// ```text
    /// ensures: Accepts result (λ a. (length words.now ≡ 1) × A.writes (word_at words.now 0) a)
    /// ```
    ///
    /// Definitions: [`Accepts`](crate::specs::operands::LineWordsSpecs#Accepts), [`word_at`](crate::specs::operands::LineWordsSpecs#word_at).
    ///
    /// `A` is a type with the trait `Operand`.
    #[inline]
    pub fn one<A: Operand>(words: &[&str]) -> Result<A, LineError> {
        let &[a] = words else {
            return Err(LineError::BadCommand);
        };
        A::from_word(a)
    }

    /// What two words write.
    ///
    /// # Contract
    ///
    /// ```text
    /// ensures: Accepts result (λ all. (length words.now ≡ 2) × A.writes (word_at words.now 0) all.0
    ///     × B.writes (word_at words.now 1) all.1)
    /// ```
    ///
    /// Definitions: [`Accepts`](crate::specs::operands::LineWordsSpecs#Accepts), [`word_at`](crate::specs::operands::LineWordsSpecs#word_at).
    ///
    /// `A` is a type with the trait `Operand`. `B` is a type with the trait `Operand`.
    #[inline]
    pub fn two<A: Operand, B: Operand>(words: &[&str]) -> Result<(A, B), LineError> {
        let &[a, b] = words else {
            return Err(LineError::BadCommand);
        };
        match (A::from_word(a), B::from_word(b)) {
            (Ok(a), Ok(b)) => Ok((a, b)),
            _ => Err(LineError::BadCommand),
        }
    }

    /// What three words write.
    ///
    /// # Contract
    ///
    /// ```text
    /// ensures: Accepts result (λ all. (length words.now ≡ 3) × A.writes (word_at words.now 0) all.0
    ///     × B.writes (word_at words.now 1) all.1 × C.writes (word_at words.now 2) all.2)
    /// ```
    ///
    /// Definitions: [`Accepts`](crate::specs::operands::LineWordsSpecs#Accepts), [`word_at`](crate::specs::operands::LineWordsSpecs#word_at).
    ///
    /// `A` is a type with the trait `Operand`. `B` is a type with the trait `Operand`. `C` is a type with the trait `Operand`.
    #[inline]
    pub fn three<A: Operand, B: Operand, C: Operand>(
        words: &[&str],
    ) -> Result<(A, B, C), LineError> {
        let &[a, b, c] = words else {
            return Err(LineError::BadCommand);
        };
        match (A::from_word(a), B::from_word(b), C::from_word(c)) {
            (Ok(a), Ok(b), Ok(c)) => Ok((a, b, c)),
            _ => Err(LineError::BadCommand),
        }
    }

    /// What four words write.
    ///
    /// # Contract
    ///
    /// ```text
    /// ensures: Accepts result (λ all. (length words.now ≡ 4) × A.writes (word_at words.now 0) all.0
    ///     × B.writes (word_at words.now 1) all.1 × C.writes (word_at words.now 2) all.2
    ///     × D.writes (word_at words.now 3) all.3)
    /// ```
    ///
    /// Definitions: [`Accepts`](crate::specs::operands::LineWordsSpecs#Accepts), [`word_at`](crate::specs::operands::LineWordsSpecs#word_at).
    ///
    /// `A` is a type with the trait `Operand`. `B` is a type with the trait `Operand`. `C` is a type with the trait `Operand`. `D` is a type with the trait `Operand`.
    #[inline]
    pub fn four<A: Operand, B: Operand, C: Operand, D: Operand>(
        words: &[&str],
    ) -> Result<(A, B, C, D), LineError> {
        let &[a, b, c, d] = words else {
            return Err(LineError::BadCommand);
        };
        match (
            A::from_word(a),
            B::from_word(b),
            C::from_word(c),
            D::from_word(d),
        ) {
            (Ok(a), Ok(b), Ok(c), Ok(d)) => Ok((a, b, c, d)),
            _ => Err(LineError::BadCommand),
        }
    }

    /// What five words write.
    ///
    /// # Contract
    ///
    /// ```text
    /// ensures: Accepts result (λ all. (length words.now ≡ 5) × A.writes (word_at words.now 0) all.0
    ///     × B.writes (word_at words.now 1) all.1 × C.writes (word_at words.now 2) all.2
    ///     × D.writes (word_at words.now 3) all.3 × E.writes (word_at words.now 4) all.4)
    /// ```
    ///
    /// Definitions: [`Accepts`](crate::specs::operands::LineWordsSpecs#Accepts), [`word_at`](crate::specs::operands::LineWordsSpecs#word_at).
    ///
    /// `A` is a type with the trait `Operand`. `B` is a type with the trait `Operand`. `C` is a type with the trait `Operand`. `D` is a type with the trait `Operand`. `E` is a type with the trait `Operand`.
    #[inline]
    pub fn five<A: Operand, B: Operand, C: Operand, D: Operand, E: Operand>(
        words: &[&str],
    ) -> Result<(A, B, C, D, E), LineError> {
        let &[a, b, c, d, e] = words else {
            return Err(LineError::BadCommand);
        };
        match (
            A::from_word(a),
            B::from_word(b),
            C::from_word(c),
            D::from_word(d),
            E::from_word(e),
        ) {
            (Ok(a), Ok(b), Ok(c), Ok(d), Ok(e)) => Ok((a, b, c, d, e)),
            _ => Err(LineError::BadCommand),
        }
    }

    /// What the words write, one each.
    ///
    /// # Contract
    ///
    /// ```text
    /// ensures: AcceptsWithMemory result (λ list. WritesEach T.writes words.now list.items)
    /// ```
    ///
    /// Definitions: [`AcceptsWithMemory`](crate::specs::operands::LineWordsSpecs#AcceptsWithMemory), [`WritesEach`](crate::specs::operands::LineWordsSpecs#WritesEach).
    ///
    /// `T` is a type with the trait `Operand`.
    #[inline]
    pub fn list_of<T: Operand>(words: &[&str]) -> Result<Vec<T>, LineError> {
        let mut list = Vec::with_capacity(words.len())?;
        for word in words {
            list.push_reserved(T::from_word(word)?);
        }
        Ok(list)
    }
}

pub use error::LineError;
pub use operand::{number, read_words};
