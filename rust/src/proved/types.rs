//! The value types, traps, function types and address types of WebAssembly.
mod func_type {
    //! Function types: how one is read of two iterators, kept, compared and hashed; why one isn't.

    use crate::proved::types::ValType;
    use crate::rattle::alloc::AllocError;
    use crate::rattle::rc::RcSlice;
    use crate::rattle::{TryClone, Vec};
    use core::cmp::Ordering;
    use core::error::Error;
    use core::fmt;
    use core::hash::{Hash, Hasher};

    /// Why a function type cannot be made. Upstream: `wasmi_core::FuncTypeError`.
    #[derive(Clone, Copy, Debug, PartialEq, Eq)]
    pub enum FuncTypeError {
        /// There are more than 1,000 parameters.
        TooManyFunctionParams,
        /// There are more than 1,000 results.
        TooManyFunctionResults,
        /// The system refused memory.
        OutOfMemory,
    }

    /// # Contract
    ///
    /// ```text
    /// output = λ error. Some (func_type_error_text error)
    /// ```
    ///
    /// Definitions: [`func_type_error_text`](crate::specs::types::FunctionTypeSpecs#func_type_error_text).
    impl fmt::Display for FuncTypeError {
        #[inline]
        fn fmt(&self, f: &mut fmt::Formatter<'_>) -> fmt::Result {
            f.write_str(match self {
                Self::TooManyFunctionParams => "encountered a function with too many parameters",
                Self::TooManyFunctionResults => "encountered a function with too many results",
                Self::OutOfMemory => "out of memory",
            })
        }
    }

    impl Error for FuncTypeError {}

    /// The types of a function's parameters and of its results, at most 1,000 each.
    ///
    /// Up to 21 of them together stand in the value; more are shared by all clones of it.
    /// Core specification 2.3, function types. Upstream: `wasmi_core::FuncType`.
    ///
    /// # Model
    ///
    /// ```text
    /// Value = FunctionType
    /// view = λ ty. function_type_of ty.len_params ty.len_results ty.kept
    /// invariant = λ ty. IsKept ty.len_params ty.len_results ty.kept
    /// ```
    ///
    /// Definitions: [`FunctionType`](crate::specs::types::FunctionTypeSpecs#FunctionType), [`function_type_of`](crate::specs::types::FunctionTypeSpecs#function_type_of), [`IsKept`](crate::specs::types::FunctionTypeSpecs#IsKept).
    pub struct FuncType {
        len_params: u16,
        len_results: u16,
        kept: Kept,
    }

    /// The parameters, then the results.
    #[repr(u16)]
    enum Kept {
        /// After them stand entries that mean nothing.
        Inline([ValType; INLINE_SIZE]),
        Big(RcSlice<ValType>),
    }

    /// How many parameters there are at most, and how many results.
    const MAX_LEN: u16 = 1_000;

    /// How many entries stand inline at most.
    const INLINE_SIZE: usize = 21;

    impl FuncType {
        /// Makes the type of a function with these parameters and results, as `read` reads them.
        /// Upstream: `FuncType::new`, there of iterators that know their lengths.
        ///
        /// # Contract
        ///
        /// ```text
        /// requires params: EachBecomes P.into_iter_gives params P.IntoIter.can_next
        /// requires results: EachBecomes P.into_iter_gives params
        ///     (λ first. EachBecomes R.into_iter_gives results
        ///     (λ second. AfterAll P.IntoIter.next_gives first (R.IntoIter.can_next second)))
        /// ensures reading: IsReadingOf P.into_iter_gives P.IntoIter.next_gives R.into_iter_gives
        ///     R.IntoIter.next_gives params results result
        /// ```
        ///
        /// Definitions: [`EachBecomes`](crate::specs::types::ReadingSpecs#EachBecomes), [`AfterAll`](crate::specs::types::ReadingSpecs#AfterAll), [`IsReadingOf`](crate::specs::types::ReadingSpecs#IsReadingOf).
        ///
        /// `P` is the type of the items, an [`IntoIterator`]. `R` is the type of the items, an [`IntoIterator`].
        #[inline]
        pub fn new<P, R>(params: P, results: R) -> Result<Self, FuncTypeError>
        where
            P: IntoIterator<Item = ValType>,
            R: IntoIterator<Item = ValType>,
        {
            let mut params = params.into_iter();
            let mut results = results.into_iter();
            Self::read(&mut params, &mut results)
        }

        /// Reads the parameters, then the results, each up to the first `None`, which ends them.
        ///
        /// Of each it reads at most 1,001 items: more than 1,000 parameters are refused before any
        /// result is read, then more than 1,000 results. Memory is taken, and can be refused, only
        /// where there are more than 21 items. Of an iterator nothing is read after its end or after
        /// its item number 1,001, and the results are read only once the parameters have ended. Own:
        /// `new` takes its iterators by value, so its contract can't say what is left of them.
        ///
        /// # Contract
        ///
        /// ```text
        /// requires params: P.can_next params.old
        /// requires results: AfterAll P.next_gives params.old (R.can_next results.old)
        /// ensures reading: IsReading
        ///     P.next_gives R.next_gives params.old results.old result params.new results.new
        /// ```
        ///
        /// Definitions: [`AfterAll`](crate::specs::types::ReadingSpecs#AfterAll), [`IsReading`](crate::specs::types::ReadingSpecs#IsReading).
        ///
        /// `P` is the type of the items, an [`Iterator`]. `R` is the type of the items, an [`Iterator`].
        #[inline]
        pub fn read<P, R>(params: &mut P, results: &mut R) -> Result<Self, FuncTypeError>
        where
            P: Iterator<Item = ValType>,
            R: Iterator<Item = ValType>,
        {
            let mut entries = Entries::new();
            let len_params = entries.read(params, FuncTypeError::TooManyFunctionParams)?;
            let len_results = entries.read(results, FuncTypeError::TooManyFunctionResults)?;

            if entries.rest.is_empty() {
                let kept = Kept::Inline(entries.inline);
                return Ok(FuncType {
                    len_params,
                    len_results,
                    kept,
                });
            }
            match entries.kept() {
                Ok(kept) => Ok(FuncType {
                    len_params,
                    len_results,
                    kept,
                }),
                Err(_) => Err(FuncTypeError::OutOfMemory),
            }
        }

        /// The types of the parameters.
        ///
        /// # Contract
        ///
        /// ```text
        /// ensures: result.now ≡ self.now.params
        /// ```
        #[must_use]
        #[inline]
        pub fn params(&self) -> &[ValType] {
            self.params_results().0
        }

        /// The types of the results.
        ///
        /// # Contract
        ///
        /// ```text
        /// ensures: result.now ≡ self.now.results
        /// ```
        #[must_use]
        #[inline]
        pub fn results(&self) -> &[ValType] {
            self.params_results().1
        }

        /// How many parameters there are.
        ///
        /// # Contract
        ///
        /// ```text
        /// ensures: result ≡ length self.now.params
        /// ```
        #[must_use]
        #[inline]
        pub fn len_params(&self) -> u16 {
            self.len_params
        }

        /// How many results there are.
        ///
        /// # Contract
        ///
        /// ```text
        /// ensures: result ≡ length self.now.results
        /// ```
        #[must_use]
        #[inline]
        pub fn len_results(&self) -> u16 {
            self.len_results
        }

        /// The types of the parameters, and those of the results.
        ///
        /// # Contract
        ///
        /// ```text
        /// ensures params: result.0.now ≡ self.now.params
        /// ensures results: result.1.now ≡ self.now.results
        /// ```
        #[must_use]
        #[inline]
        pub fn params_results(&self) -> (&[ValType], &[ValType]) {
            self.entries().split_at(usize::from(self.len_params()))
        }

        /// What function types are ordered by, place by place.
        ///
        /// # Contract
        ///
        /// ```text
        /// ensures big: result.0 ≡ not (nat_le (entry_count self.now) 21)
        /// ensures params: result.1 ≡ length self.now.params
        /// ensures results: result.2
        ///     ≡ (if nat_le (entry_count self.now) 21 then length self.now.results else 0)
        /// ensures entries: result.3.now ≡ entries self.now
        /// ```
        ///
        /// Definitions: [`entry_count`](crate::specs::types::FunctionTypeSpecs#entry_count), [`entries`](crate::specs::types::FunctionTypeSpecs#entries).
        #[inline]
        fn order_key(&self) -> (bool, u16, u16, &[ValType]) {
            let entries = self.entries();
            let is_big = entries.len() > INLINE_SIZE;
            let len_results = if is_big { 0 } else { self.len_results() };
            (is_big, self.len_params(), len_results, entries)
        }

        /// The types of the parameters, then those of the results.
        ///
        /// # Contract
        ///
        /// ```text
        /// ensures: result.now ≡ entries self.now
        /// ```
        ///
        /// Definitions: [`entries`](crate::specs::types::FunctionTypeSpecs#entries).
        #[inline]
        fn entries(&self) -> &[ValType] {
            let count = usize::from(self.len_params) + usize::from(self.len_results);
            match &self.kept {
                Kept::Inline(types) => &types[..count],
                Kept::Big(types) => &types.as_slice()[..count],
            }
        }
    }

    /// # Contract
    ///
    /// ```text
    /// is_clone = λ ty copy. copy ≡ ty
    /// ```
    impl crate::rattle::TryClone for FuncType {
        /// The same function type. Memory can be refused only where it has more than 21 entries.
        ///
        /// # Contract
        ///
        /// ```text
        /// ensures is_clone: IfOk result (λ copy. copy ≡ self.now)
        /// ensures refused: IsErr result → 21 < entry_count self.now
        /// ```
        ///
        /// Definitions: [`entry_count`](crate::specs::types::FunctionTypeSpecs#entry_count).
        #[inline]
        fn try_clone(&self) -> Result<Self, AllocError> {
            let kept = match &self.kept {
                Kept::Inline(types) => Kept::Inline(*types),
                Kept::Big(types) => Kept::Big(types.try_clone()?),
            };
            Ok(FuncType { kept, ..*self })
        }
    }

    /// # Contract
    ///
    /// ```text
    /// eq = same_lists ⟦<ValType as PartialEq>⟧.eq
    /// ```
    ///
    /// Definitions: [`same_lists`](crate::specs::types::FunctionTypeSpecs#same_lists).
    impl PartialEq for FuncType {
        /// # Contract
        ///
        /// ```text
        /// ensures eq: result ≡ same_lists ⟦<ValType as PartialEq>⟧.eq self.now other.now
        /// ensures same: IsTrue result ↔ (self.now ≡ other.now)
        /// ```
        ///
        /// Definitions: [`same_lists`](crate::specs::types::FunctionTypeSpecs#same_lists).
        #[inline]
        fn eq(&self, other: &Self) -> bool {
            self.params_results() == other.params_results()
        }
    }

    impl Eq for FuncType {}

    /// # Contract
    ///
    /// ```text
    /// cmp = function_type_cmp
    /// total = on_texts order_key
    /// ```
    ///
    /// Definitions: [`function_type_cmp`](crate::specs::types::FunctionTypeSpecs#function_type_cmp), [`order_key`](crate::specs::types::FunctionTypeSpecs#order_key).
    impl Ord for FuncType {
        /// # Contract
        ///
        /// ```text
        /// ensures cmp: result ≡ function_type_cmp self.now other.now
        /// ensures equal: (result ≡ Ordering.Equal) ↔ (self.now ≡ other.now)
        /// ```
        ///
        /// Definitions: [`function_type_cmp`](crate::specs::types::FunctionTypeSpecs#function_type_cmp).
        #[inline]
        fn cmp(&self, other: &Self) -> Ordering {
            self.order_key().cmp(&other.order_key())
        }
    }

    /// # Contract
    ///
    /// ```text
    /// partial_cmp = as_partial_cmp function_type_cmp
    /// ```
    ///
    /// Definitions: [`function_type_cmp`](crate::specs::types::FunctionTypeSpecs#function_type_cmp).
    impl PartialOrd for FuncType {
        #[inline]
        fn partial_cmp(&self, other: &Self) -> Option<Ordering> {
            Some(self.cmp(other))
        }
    }

    /// # Contract
    ///
    /// ```text
    /// hash_input = lists_input ⟦<ValType as Hash>⟧.hash_input
    /// ```
    ///
    /// Definitions: [`lists_input`](crate::specs::types::FunctionTypeSpecs#lists_input).
    impl Hash for FuncType {
        #[inline]
        fn hash<H: Hasher>(&self, state: &mut H) {
            self.params().hash(state);
            self.results().hash(state);
        }
    }

    impl fmt::Debug for FuncType {
        #[inline]
        fn fmt(&self, f: &mut fmt::Formatter<'_>) -> fmt::Result {
            f.debug_struct("FuncType")
                .field("params", &self.params())
                .field("results", &self.results())
                .finish()
        }
    }

    /// The entries of a function type while they are read.
    ///
    /// # Model
    ///
    /// ```text
    /// Value = List ValType
    /// view = λ entries. take entries.len entries.inline ++ entries.rest.items
    /// invariant = λ entries. (length entries.inline ≡ 21) × (entries.len ≤ 21)
    ///     × (entries.len < 21 → entries.rest.items ≡ [])
    /// ```
    ///
    /// Definitions: [`entries`](crate::specs::types::FunctionTypeSpecs#entries).
    struct Entries {
        /// The first 21 entries, then types that mean nothing.
        inline: [ValType; INLINE_SIZE],
        /// How many entries stand inline.
        len: usize,
        /// The entries after the first 21.
        rest: Vec<ValType>,
    }

    impl Entries {
        /// # Contract
        ///
        /// ```text
        /// ensures: result ≡ []
        /// ```
        #[inline]
        fn new() -> Self {
            Entries {
                inline: [ValType::I32; INLINE_SIZE],
                len: 0,
                rest: Vec::new(),
            }
        }

        /// Appends a type. Memory is taken only after the first 21.
        ///
        /// # Contract
        ///
        /// ```text
        /// ensures ok: OnOk result (self.new ≡ self.old ++ ty ∷ [])
        /// ensures refused: OnErr result (21 ≤ length self.old)
        /// ```
        #[inline]
        fn push(&mut self, ty: ValType) -> Result<(), AllocError> {
            if self.len < INLINE_SIZE {
                self.inline[self.len] = ty;
                self.len += 1;
            } else {
                self.rest.push(ty)?;
            }
            Ok(())
        }

        /// The entries as a function type has them. Memory is taken only for more than 21.
        ///
        /// # Contract
        ///
        /// ```text
        /// ensures kept: IfOk result (λ kept. KeepsEntries self.now kept)
        /// ensures refused: IsErr result → 21 < length self.now
        /// ```
        ///
        /// Definitions: [`KeepsEntries`](crate::specs::types::FunctionTypeSpecs#KeepsEntries).
        #[inline(never)]
        fn kept(&self) -> Result<Kept, AllocError> {
            if self.rest.is_empty() {
                return Ok(Kept::Inline(self.inline));
            }

            let mut items = Vec::with_capacity(INLINE_SIZE + self.rest.len())?;
            items.extend_from_slice(&self.inline)?;
            items.extend_from_slice(self.rest.as_slice())?;
            Ok(Kept::Big(RcSlice::from_vec(items)?))
        }

        /// Appends what follows on `count` types, and answers how many there are with them.
        #[inline(never)]
        fn read_rest<I>(
            &mut self,
            types: &mut I,
            count: usize,
            too_many: FuncTypeError,
        ) -> Result<u16, FuncTypeError>
        where
            I: Iterator<Item = ValType>,
        {
            let (before, most) = (self.rest.len(), usize::from(MAX_LEN));
            if self.rest.read(types, most + 1 - count).is_err() {
                return Err(FuncTypeError::OutOfMemory);
            }
            match count + self.rest.len() - before {
                count if count > most => Err(too_many),
                count => Ok(count as u16),
            }
        }

        /// Appends the next type, and answers whether there was one.
        ///
        /// # Contract
        ///
        /// ```text
        /// requires readable: I.can_next types.old
        /// ensures read: ReadsNextType I.next_gives I.can_next types.old self.old result types.new
        ///     self.new
        /// ```
        ///
        /// Definitions: [`ReadsNextType`](crate::specs::types::ReadingSpecs#ReadsNextType).
        ///
        /// `I` is the type of the items, an [`Iterator`].
        #[inline]
        fn push_next<I>(&mut self, types: &mut I) -> Result<bool, AllocError>
        where
            I: Iterator<Item = ValType>,
        {
            let Some(ty) = types.next() else {
                return Ok(false);
            };
            self.push(ty)?;
            Ok(true)
        }

        /// Appends what an iterator gives until its first `None`, and answers how many came.
        ///
        /// # Contract
        ///
        /// ```text
        /// requires readable: I.can_next types.old
        /// ensures ok: IfOk result
        ///     (λ count. ReadsTypes I.next_gives types.old self.old count types.new self.new)
        /// ensures err: IfErr result
        ///     (λ error. IsReadingRefusal I.next_gives too_many types.old self.old error types.new)
        /// ```
        ///
        /// Definitions: [`ReadsTypes`](crate::specs::types::ReadingSpecs#ReadsTypes), [`IsReadingRefusal`](crate::specs::types::ReadingSpecs#IsReadingRefusal).
        ///
        /// `I` is the type of the items, an [`Iterator`].
        #[inline]
        fn read<I>(&mut self, types: &mut I, too_many: FuncTypeError) -> Result<u16, FuncTypeError>
        where
            I: Iterator<Item = ValType>,
        {
            let cells = &mut self.inline[self.len..];
            let (room, mut count) = (cells.len(), 0);
            for (cell, ty) in cells.iter_mut().zip(types.by_ref()) {
                *cell = ty;
                count += 1;
            }
            self.len += count;
            if count < room {
                return Ok(count as u16);
            }
            self.read_rest(types, count, too_many)
        }
    }
}
pub mod hint {
    //! Hints on which branch is taken.

    /// Does nothing. A branch that calls it is unlikely. Upstream: `wasmi_core::hint::cold`.
    #[cold]
    pub fn cold() {}

    /// The condition, which is likely true. Upstream: `wasmi_core::hint::likely`.
    ///
    /// # Contract
    ///
    /// ```text
    /// ensures: result ≡ condition
    /// ```
    #[must_use]
    #[inline]
    pub fn likely(condition: bool) -> bool {
        if !condition {
            cold();
        }
        condition
    }

    /// The condition, which is unlikely true. Upstream: `wasmi_core::hint::unlikely`.
    ///
    /// # Contract
    ///
    /// ```text
    /// ensures: result ≡ condition
    /// ```
    #[must_use]
    #[inline]
    pub fn unlikely(condition: bool) -> bool {
        if condition {
            cold();
        }
        condition
    }
}
mod index_ty {
    //! Address types: the types of the addresses of a linear memory and of the indices of a table.

    use crate::proved::types::ValType;

    /// The type of the addresses of a linear memory, or of the indices of a table. The memory64
    /// proposal, address types. Upstream: `wasmi_core::IndexType`.
    #[derive(Clone, Copy, Debug, PartialEq, Eq)]
    pub enum IndexType {
        /// 32-bit addresses.
        I32,
        /// 64-bit addresses.
        I64,
    }

    impl IndexType {
        /// The value type of an address.
        ///
        /// # Contract
        ///
        /// ```text
        /// ensures: result ≡ address_type self.now
        /// ```
        ///
        /// Definitions: [`address_type`](crate::specs::types::ValueSpecs#address_type).
        #[must_use]
        #[inline]
        pub fn ty(&self) -> ValType {
            match self {
                Self::I32 => ValType::I32,
                Self::I64 => ValType::I64,
            }
        }

        /// Whether it is the type of 64 bits.
        ///
        /// # Contract
        ///
        /// ```text
        /// ensures: IsTrue result ↔ (self.now ≡ IndexType.I64)
        /// ```
        #[must_use]
        #[inline]
        pub fn is_64(&self) -> bool {
            matches!(self, Self::I64)
        }

        /// How many addresses there are: 2^32 or 2^64.
        ///
        /// # Contract
        ///
        /// ```text
        /// ensures: result ≡ 2 ^ address_bits self.now
        /// ```
        ///
        /// Definitions: [`address_bits`](crate::specs::types::ValueSpecs#address_bits).
        #[must_use]
        #[inline]
        pub fn max_size(&self) -> u128 {
            match self {
                Self::I32 => 1 << 32,
                Self::I64 => 1 << 64,
            }
        }

        /// The narrower of the two: `I64` only where both are.
        ///
        /// # Contract
        ///
        /// ```text
        /// ensures: result ≡ narrower self.now other.now
        /// ```
        ///
        /// Definitions: [`narrower`](crate::specs::types::ValueSpecs#narrower).
        #[must_use]
        #[inline]
        pub fn min(&self, other: &Self) -> Self {
            match (self, other) {
                (Self::I64, Self::I64) => Self::I64,
                _ => Self::I32,
            }
        }
    }
}
mod trap {
    //! Traps: why a call ended early. Trap codes with their numbers and texts, and errors of the host.

    use ::alloc::string::String;
    use core::error::Error;
    use core::fmt;

    /// An error of the host, which a [`Trap`] can carry. Upstream: `wasmi_core::HostError`.
    pub trait HostError: fmt::Display + fmt::Debug {}

    /// Why a call of WebAssembly code or of the host ended early: a trap code, an exit status, a
    /// message or an error of the host. It stands in the value, and nothing is allocated for it.
    /// Upstream: `wasmi_core::Trap`.
    ///
    /// # Model
    ///
    /// ```text
    /// Value = TrapReason H
    /// view = λ trap. trap.reason
    /// ```
    ///
    /// `H` is any type.
    #[derive(Debug)]
    pub struct Trap<H> {
        reason: TrapReason<H>,
    }

    #[derive(Debug)]
    enum TrapReason<H> {
        InstructionTrap(TrapCode),
        I32Exit(i32),
        Message(String),
        Host(H),
    }

    impl<H: HostError> Trap<H> {
        /// A trap that a message describes.
        ///
        /// # Contract
        ///
        /// ```text
        /// ensures: result ≡ reason.Message message
        /// ```
        #[must_use]
        #[inline]
        pub fn new(message: String) -> Self {
            let reason = TrapReason::Message(message);
            Trap { reason }
        }

        /// An exit of the program with a status.
        ///
        /// # Contract
        ///
        /// ```text
        /// ensures: result ≡ reason.I32Exit status
        /// ```
        #[must_use]
        #[inline]
        pub fn i32_exit(status: i32) -> Self {
            let reason = TrapReason::I32Exit(status);
            Trap { reason }
        }

        /// The exit status, if this is an exit.
        ///
        /// # Contract
        ///
        /// ```text
        /// ensures: result ≡ exit_status_of self.now
        /// ```
        ///
        /// Definitions: [`exit_status_of`](crate::specs::types::TrapSpecs#exit_status_of).
        #[must_use]
        #[inline]
        pub fn i32_exit_status(&self) -> Option<i32> {
            match &self.reason {
                TrapReason::I32Exit(status) => Some(*status),
                _ => None,
            }
        }

        /// The trap code, if an instruction trapped.
        ///
        /// # Contract
        ///
        /// ```text
        /// ensures: result ≡ code_of self.now
        /// ```
        ///
        /// Definitions: [`code_of`](crate::specs::types::TrapSpecs#code_of).
        #[must_use]
        #[inline]
        pub fn trap_code(&self) -> Option<TrapCode> {
            match &self.reason {
                TrapReason::InstructionTrap(code) => Some(*code),
                _ => None,
            }
        }

        /// The error of the host, if this carries one.
        ///
        /// # Contract
        ///
        /// ```text
        /// ensures: option_copied result ≡ host_error_of self.now
        /// ```
        ///
        /// Definitions: [`host_error_of`](crate::specs::types::TrapSpecs#host_error_of).
        #[must_use]
        #[inline]
        pub fn downcast_ref(&self) -> Option<&H> {
            match &self.reason {
                TrapReason::Host(error) => Some(error),
                _ => None,
            }
        }

        /// The error of the host to be changed, if this carries one.
        ///
        /// # Contract
        ///
        /// ```text
        /// ensures* writes_back: sem 𝓛 (LendsIf (the_row H.row) H.row self.entry result
        ///     (with_host_error self.old) self.old)
        /// ensures value: option_copied_mut result ≡ host_error_of self.old
        /// ```
        ///
        /// Definitions: [`with_host_error`](crate::specs::types::TrapSpecs#with_host_error), [`host_error_of`](crate::specs::types::TrapSpecs#host_error_of).
        ///
        /// `H` is the type of the host's error.
        #[inline]
        pub fn downcast_mut(&mut self) -> Option<&mut H> {
            match &mut self.reason {
                TrapReason::Host(error) => Some(error),
                _ => None,
            }
        }

        /// The error of the host, if this carries one. A trap without one is dropped.
        ///
        /// # Contract
        ///
        /// ```text
        /// ensures: result ≡ host_error_of self
        /// ```
        ///
        /// Definitions: [`host_error_of`](crate::specs::types::TrapSpecs#host_error_of).
        #[must_use]
        #[inline]
        pub fn downcast(self) -> Option<H> {
            match self.reason {
                TrapReason::Host(error) => Some(error),
                _ => None,
            }
        }
    }

    /// # Contract
    ///
    /// ```text
    /// output = text_of H.output
    /// ```
    ///
    /// Definitions: [`text_of`](crate::specs::types::TrapSpecs#text_of).
    ///
    /// `H` is the type of the host's error.
    impl<H: HostError> fmt::Display for Trap<H> {
        #[inline]
        fn fmt(&self, f: &mut fmt::Formatter<'_>) -> fmt::Result {
            match &self.reason {
                TrapReason::InstructionTrap(code) => fmt::Display::fmt(code, f),
                TrapReason::I32Exit(status) => write!(f, "Exited with i32 exit status {status}"),
                TrapReason::Message(message) => f.write_str(message),
                TrapReason::Host(error) => fmt::Display::fmt(error, f),
            }
        }
    }

    impl<H: HostError> Error for Trap<H> {}

    /// # Contract
    ///
    /// ```text
    /// from_gives = λ code trap. trap ≡ reason.InstructionTrap code
    /// ```
    impl<H: HostError> From<TrapCode> for Trap<H> {
        #[inline]
        fn from(code: TrapCode) -> Self {
            let reason = TrapReason::InstructionTrap(code);
            Trap { reason }
        }
    }

    /// # Contract
    ///
    /// ```text
    /// from_gives = λ error trap. trap ≡ reason.Host error
    /// ```
    impl<H: HostError> From<H> for Trap<H> {
        #[inline]
        fn from(error: H) -> Self {
            let reason = TrapReason::Host(error);
            Trap { reason }
        }
    }

    /// A number that no trap code has. Upstream: `wasmi_core::InvalidTrapCode`.
    #[derive(Clone, Copy, Debug, PartialEq, Eq)]
    pub struct InvalidTrapCode;

    /// Why an instruction trapped, as the numbers 1 to 12. Upstream: `wasmi_core::TrapCode`.
    #[derive(Clone, Copy, Debug, PartialEq, Eq)]
    #[repr(u8)]
    pub enum TrapCode {
        /// The instruction `unreachable` was executed.
        UnreachableCodeReached = 1,
        /// An access to a linear memory past its end.
        MemoryOutOfBounds = 2,
        /// An access to a table past its end.
        TableOutOfBounds = 3,
        /// An indirect call through a null reference.
        IndirectCallToNull = 4,
        /// An integer division or remainder by 0.
        IntegerDivisionByZero = 5,
        /// The quotient of a signed division does not fit its type.
        IntegerOverflow = 6,
        /// A float that is a NaN or does not fit was converted to an integer.
        BadConversionToInteger = 7,
        /// The calls are nested too deeply.
        StackOverflow = 8,
        /// An indirect call of a function of another type.
        BadSignature = 9,
        /// The fuel is used up.
        OutOfFuel = 10,
        /// A resource limiter answered a growth with an error.
        GrowthOperationLimited = 11,
        /// The system refused memory.
        OutOfSystemMemory = 12,
    }

    impl TrapCode {
        /// The message of this code, mostly that of the core specification's test suite.
        ///
        /// # Contract
        ///
        /// ```text
        /// ensures: result.now ≡ code_message self.now
        /// ```
        ///
        /// Definitions: [`code_message`](crate::specs::types::TrapSpecs#code_message).
        #[must_use]
        #[inline]
        pub fn trap_message(&self) -> &'static str {
            match self {
                Self::UnreachableCodeReached => "wasm `unreachable` instruction executed",
                Self::MemoryOutOfBounds => "out of bounds memory access",
                Self::TableOutOfBounds => "undefined element: out of bounds table access",
                Self::IndirectCallToNull => "uninitialized element 2",
                Self::IntegerDivisionByZero => "integer divide by zero",
                Self::IntegerOverflow => "integer overflow",
                Self::BadConversionToInteger => "invalid conversion to integer",
                Self::StackOverflow => "call stack exhausted",
                Self::BadSignature => "indirect call type mismatch",
                Self::OutOfFuel => "all fuel consumed by WebAssembly",
                Self::GrowthOperationLimited => "growth operation limited",
                Self::OutOfSystemMemory => "out of system memory",
            }
        }
    }

    /// # Contract
    ///
    /// ```text
    /// output = λ code. Some (code_message code)
    /// ```
    ///
    /// Definitions: [`code_message`](crate::specs::types::TrapSpecs#code_message).
    impl fmt::Display for TrapCode {
        #[inline]
        fn fmt(&self, f: &mut fmt::Formatter<'_>) -> fmt::Result {
            f.write_str(self.trap_message())
        }
    }

    /// # Contract
    ///
    /// ```text
    /// from_gives = λ code number. number ≡ code_number code
    /// ```
    ///
    /// Definitions: [`code_number`](crate::specs::types::TrapSpecs#code_number).
    impl From<TrapCode> for u8 {
        #[inline]
        fn from(code: TrapCode) -> u8 {
            code as u8
        }
    }

    /// # Contract
    ///
    /// ```text
    /// try_from_gives = IsCodeOf
    /// ```
    ///
    /// Definitions: [`IsCodeOf`](crate::specs::types::TrapSpecs#IsCodeOf).
    impl TryFrom<u8> for TrapCode {
        type Error = InvalidTrapCode;

        #[inline]
        fn try_from(number: u8) -> Result<Self, InvalidTrapCode> {
            match number {
                1 => Ok(TrapCode::UnreachableCodeReached),
                2 => Ok(TrapCode::MemoryOutOfBounds),
                3 => Ok(TrapCode::TableOutOfBounds),
                4 => Ok(TrapCode::IndirectCallToNull),
                5 => Ok(TrapCode::IntegerDivisionByZero),
                6 => Ok(TrapCode::IntegerOverflow),
                7 => Ok(TrapCode::BadConversionToInteger),
                8 => Ok(TrapCode::StackOverflow),
                9 => Ok(TrapCode::BadSignature),
                10 => Ok(TrapCode::OutOfFuel),
                11 => Ok(TrapCode::GrowthOperationLimited),
                12 => Ok(TrapCode::OutOfSystemMemory),
                _ => Err(InvalidTrapCode),
            }
        }
    }
}
mod value {
    //! Value types and reference types, and the conversion between them.

    /// The type of a value. Ordered as listed. Core specification 2.3, value types. Upstream:
    /// `wasmi_core::ValType`.
    #[derive(Clone, Copy, Debug, PartialEq, Eq, PartialOrd, Ord, Hash)]
    pub enum ValType {
        /// A 32-bit integer.
        I32,
        /// A 64-bit integer.
        I64,
        /// A 32-bit float.
        F32,
        /// A 64-bit float.
        F64,
        /// A 128-bit vector.
        V128,
        /// A reference to a function, or null.
        FuncRef,
        /// A reference to an object of the host, or null.
        ExternRef,
    }

    impl ValType {
        /// Whether this is a number type: `I32`, `I64`, `F32` or `F64`.
        ///
        /// # Contract
        ///
        /// ```text
        /// ensures: result ≡ is_number_type self.now
        /// ```
        ///
        /// Definitions: [`is_number_type`](crate::specs::types::ValueSpecs#is_number_type).
        #[must_use]
        #[inline]
        pub fn is_num(&self) -> bool {
            matches!(self, Self::I32 | Self::I64 | Self::F32 | Self::F64)
        }

        /// Whether this is a reference type: `FuncRef` or `ExternRef`.
        ///
        /// # Contract
        ///
        /// ```text
        /// ensures: result ≡ is_some (reference_of self.now)
        /// ```
        ///
        /// Definitions: [`reference_of`](crate::specs::types::ValueSpecs#reference_of).
        #[must_use]
        #[inline]
        pub fn is_ref(&self) -> bool {
            matches!(self, Self::FuncRef | Self::ExternRef)
        }

        /// The reference type, or `None` where this is none.
        ///
        /// # Contract
        ///
        /// ```text
        /// ensures: result ≡ reference_of self.now
        /// ```
        ///
        /// Definitions: [`reference_of`](crate::specs::types::ValueSpecs#reference_of).
        #[must_use]
        #[inline]
        pub fn as_ref(&self) -> Option<RefType> {
            match self {
                Self::FuncRef => Some(RefType::Func),
                Self::ExternRef => Some(RefType::Extern),
                _ => None,
            }
        }
    }

    /// The type of a reference. `Func` is below `Extern`. Core specification 2.3, reference types.
    /// Upstream: `wasmi_core::RefType`.
    #[derive(Clone, Copy, Debug, PartialEq, Eq, PartialOrd, Ord, Hash)]
    pub enum RefType {
        /// A reference to a function.
        Func,
        /// A reference to an object of the host.
        Extern,
    }

    /// # Contract
    ///
    /// ```text
    /// from_gives = λ ty value. value ≡ value_of ty
    /// ```
    ///
    /// Definitions: [`value_of`](crate::specs::types::ValueSpecs#value_of).
    impl From<RefType> for ValType {
        #[inline]
        fn from(ty: RefType) -> ValType {
            match ty {
                RefType::Func => ValType::FuncRef,
                RefType::Extern => ValType::ExternRef,
            }
        }
    }
}

pub use func_type::{FuncType, FuncTypeError};
pub use index_ty::IndexType;
pub use trap::{HostError, InvalidTrapCode, Trap, TrapCode};
pub use value::{RefType, ValType};
