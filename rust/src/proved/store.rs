//! Linear memories and tables: their types, what they contain, and how they are made and grow.
pub mod bulk {
    //! Fills, copies and initializations over a range of a memory's bytes or of a table's elements, for
    //! fuel. The bounds are tested first, then the fuel, also for no item. A write that is refused writes and
    //! takes nothing. A bound is cast after the test alone, when it is no greater than a length.
    //!
    //! Own: upstream has no bulk instructions for memories. They are tested and charged as for tables.

    use crate::proved::meter::{Fuel, MemoryError, TableError, ValueSize};
    use crate::proved::store::growth::{GrowthError, charge};
    use crate::proved::store::range::{
        Chunk, copy_overlapping, fill_range, lies_within, write_range,
    };

    /// The error of a memory if a range ends past its list.
    pub const MEMORY_OUTSIDE: MemoryError = MemoryError::OutOfBoundsAccess;

    /// Fills `len` items from `dst` on with a value, of which a clone is the value itself (core
    /// specification, memory.fill, table.fill). `outside` is the error if they end past their list.
    ///
    /// # Contract
    ///
    /// ```text
    /// requires infallible: T.is_infallible value
    /// requires same: (clone : T) → T.is_clone value clone → clone ≡ value
    /// ensures written: WritesItems E.unpaid (filled items.old dst value len) outside
    ///     (Some (item_price T.SIZE len)) (metered items.old (Some fuel.old)) result
    ///     (metered items.new (Some fuel.new))
    /// ensures len: length items.new ≡ length items.old
    /// ```
    ///
    /// Definitions: [`WritesItems`](crate::specs::store::WriteSpecs#WritesItems), [`filled`](crate::specs::store::WriteSpecs#filled), [`item_price`](crate::specs::store::WriteSpecs#item_price), [`metered`](crate::specs::store::GrowthSpecs#metered).
    ///
    /// `E` is a type with the trait `GrowthError`. `T` is a type with the trait `Copy`.
    #[inline]
    pub fn fill_items<T: Copy + ValueSize, E: GrowthError>(
        items: &mut [T],
        dst: u64,
        value: T,
        len: u64,
        outside: E,
        fuel: &mut Fuel,
    ) -> Result<(), E> {
        if !lies_within(items, dst, len) {
            return Err(outside);
        }
        if let Err(required_fuel) = charge::<T>(fuel, len) {
            return Err(E::out_of_fuel(required_fuel));
        }
        let (start, end) = (dst as usize, (dst + len) as usize);
        fill_range(items, start, end, value);
        Ok(())
    }

    /// Copies `len` items from `src` on over those from `dst` on: the old ones if they overlap (core
    /// specification, memory.copy, table.copy). `outside` is the error if a range ends past the list.
    ///
    /// # Contract
    ///
    /// ```text
    /// ensures written: WritesItems E.unpaid (copied items.old dst items.old src len) outside
    ///     (Some (item_price T.SIZE len)) (metered items.old (Some fuel.old)) result
    ///     (metered items.new (Some fuel.new))
    /// ensures len: length items.new ≡ length items.old
    /// ```
    ///
    /// Definitions: [`WritesItems`](crate::specs::store::WriteSpecs#WritesItems), [`copied`](crate::specs::store::WriteSpecs#copied), [`item_price`](crate::specs::store::WriteSpecs#item_price), [`metered`](crate::specs::store::GrowthSpecs#metered).
    ///
    /// `E` is a type with the trait `GrowthError`. `T` is a type with the trait `Chunk`.
    #[inline]
    pub fn copy_items_within<T: Chunk + ValueSize, E: GrowthError>(
        items: &mut [T],
        dst: u64,
        src: u64,
        len: u64,
        outside: E,
        fuel: &mut Fuel,
    ) -> Result<(), E> {
        if !lies_within(items, src, len) || !lies_within(items, dst, len) {
            return Err(outside);
        }
        if let Err(required_fuel) = charge::<T>(fuel, len) {
            return Err(E::out_of_fuel(required_fuel));
        }
        copy_overlapping(items, dst as usize, src as usize, len as usize);
        Ok(())
    }

    /// Copies `len` items of a source, from `src` on, over those from `dst` on (core specification,
    /// memory.copy, table.copy, memory.init). `outside` is the error if a range ends past its list.
    ///
    /// # Contract
    ///
    /// ```text
    /// ensures written: WritesItems E.unpaid (copied items.old dst source.now src len) outside
    ///     (Some (item_price T.SIZE len)) (metered items.old (Some fuel.old)) result
    ///     (metered items.new (Some fuel.new))
    /// ensures len: length items.new ≡ length items.old
    /// ```
    ///
    /// Definitions: [`WritesItems`](crate::specs::store::WriteSpecs#WritesItems), [`copied`](crate::specs::store::WriteSpecs#copied), [`item_price`](crate::specs::store::WriteSpecs#item_price), [`metered`](crate::specs::store::GrowthSpecs#metered).
    ///
    /// `E` is a type with the trait `GrowthError`. `T` is a type with the trait `Copy`.
    #[inline]
    pub fn copy_items<T: Copy + ValueSize, E: GrowthError>(
        items: &mut [T],
        dst: u64,
        source: &[T],
        src: u64,
        len: u64,
        outside: E,
        fuel: &mut Fuel,
    ) -> Result<(), E> {
        if !lies_within(source, src, len) || !lies_within(items, dst, len) {
            return Err(outside);
        }
        if let Err(required_fuel) = charge::<T>(fuel, len) {
            return Err(E::out_of_fuel(required_fuel));
        }
        let (dst, src, len) = (dst as usize, src as usize, len as usize);
        write_range(items, dst, &source[src..src + len]);
        Ok(())
    }

    /// Copies `len` items of an element segment, from `src` on, over a table's elements from `dst` on.
    /// Copying no items costs no fuel.
    ///
    /// # Contract
    ///
    /// ```text
    /// ensures written: WritesItems TableError.OutOfFuel (copied elements.old dst items.now src len)
    ///     TableError.InitOutOfBounds
    ///     (option_map (item_price T.SIZE) (if nat_eq len 0 then None else Some len))
    ///     (metered elements.old (Some fuel.old)) result (metered elements.new (Some fuel.new))
    /// ensures len: length elements.new ≡ length elements.old
    /// ```
    ///
    /// Definitions: [`WritesItems`](crate::specs::store::WriteSpecs#WritesItems), [`copied`](crate::specs::store::WriteSpecs#copied), [`item_price`](crate::specs::store::WriteSpecs#item_price), [`metered`](crate::specs::store::GrowthSpecs#metered).
    ///
    /// `T` is a type with the trait `Copy`.
    #[inline]
    pub fn init_elements<T: Copy + ValueSize>(
        elements: &mut [T],
        dst: u64,
        items: &[T],
        src: u64,
        len: u64,
        fuel: &mut Fuel,
    ) -> Result<(), TableError> {
        if len == 0 && lies_within(items, src, 0) && lies_within(elements, dst, 0) {
            return Ok(());
        }
        let outside = TableError::InitOutOfBounds;
        copy_items(elements, dst, items, src, len, outside, fuel)
    }
}
pub mod growth {
    //! What every creation and growth does with its limiter's answers and its meter, whatever it is
    //! that grows; and what making and growing a memory decides, wherever its bytes lie. Own: upstream
    //! writes these steps in each function that grows something.

    use crate::proved::meter::{
        Fuel, FuelError, LimiterError, MemoryError, ResourceLimiter, TableError, ValueSize,
    };
    use crate::proved::store::memory::MemoryType;

    /// The error of a memory if the limiter returns an error.
    pub const MEMORY_DENIED: MemoryError = MemoryError::ResourceLimiterDeniedAllocation;

    /// The error of a table if the limiter returns an error.
    pub const TABLE_DENIED: TableError = TableError::ResourceLimiterDeniedAllocation;

    /// Returns `Ok` if the limiter permits.
    ///
    /// # Errors
    ///
    /// `denial` if the limiter says no; `error` if it returns an error.
    ///
    /// # Contract
    ///
    /// ```text
    /// ensures: Permits denial error answer result
    /// ```
    ///
    /// Definitions: [`Permits`](crate::specs::meter::AttemptSpecs#Permits).
    #[inline]
    pub fn permission<E>(answer: Result<bool, LimiterError>, denial: E, error: E) -> Result<(), E> {
        match answer {
            Ok(true) => Ok(()),
            Ok(false) => Err(denial),
            Err(_) => Err(error),
        }
    }

    /// An error of a growth, of which a limiter can be notified, or of a bulk instruction.
    ///
    /// # Contract
    ///
    /// ```text
    /// -- The notice that a limiter gets of it.
    /// notice: Self → Failure
    /// -- The error if less fuel is left than is needed, in contracts.
    /// unpaid: ℕ → Self
    /// ```
    ///
    /// Definitions: [`Failure`](crate::specs::meter::LimiterSpecs#Failure).
    pub trait GrowthError {
        /// The error if less fuel is left than is needed.
        ///
        /// # Contract
        ///
        /// ```text
        /// ensures: result ≡ unpaid required_fuel
        /// ```
        fn out_of_fuel(required_fuel: u64) -> Self;

        /// Notifies the limiter that a growth which it permitted failed with this error.
        ///
        /// # Errors
        ///
        /// The limiter's.
        ///
        /// # Contract
        ///
        /// ```text
        /// ensures: (optional_rules L.rules).noticed (Some limiter.old) (notice self.now) result
        ///     (Some limiter.new)
        /// ```
        ///
        /// Definitions: [`optional_rules`](crate::specs::meter::LimiterSpecs#optional_rules).
        ///
        /// `L` is the type of the limiter, a [`ResourceLimiter`](crate::machine::ResourceLimiter#contract).
        fn notify<L: ResourceLimiter>(&self, limiter: &mut L) -> Result<(), LimiterError>;
    }

    /// # Contract
    ///
    /// ```text
    /// notice = MemoryFailure
    /// unpaid = MemoryError.OutOfFuel
    /// ```
    ///
    /// Definitions: [`MemoryFailure`](crate::specs::meter::LimiterSpecs#MemoryFailure).
    impl GrowthError for MemoryError {
        #[inline]
        fn out_of_fuel(required_fuel: u64) -> Self {
            MemoryError::OutOfFuel { required_fuel }
        }

        #[inline]
        fn notify<L: ResourceLimiter>(&self, limiter: &mut L) -> Result<(), LimiterError> {
            limiter.memory_grow_failed(self)
        }
    }

    /// # Contract
    ///
    /// ```text
    /// notice = TableFailure
    /// unpaid = TableError.OutOfFuel
    /// ```
    ///
    /// Definitions: [`TableFailure`](crate::specs::meter::LimiterSpecs#TableFailure).
    impl GrowthError for TableError {
        #[inline]
        fn out_of_fuel(required_fuel: u64) -> Self {
            TableError::OutOfFuel { required_fuel }
        }

        #[inline]
        fn notify<L: ResourceLimiter>(&self, limiter: &mut L) -> Result<(), LimiterError> {
            limiter.table_grow_failed(self)
        }
    }

    /// Notifies the limiter why a growth that it permitted failed. Returns the cause, or `refusal` if
    /// the limiter answers the notice with an error.
    ///
    /// # Contract
    ///
    /// ```text
    /// ensures: (notice_answer : NoticeAnswer)
    ///     × (optional_rules L.rules).noticed (Some limiter.old) (E.notice cause) notice_answer
    ///     (Some limiter.new) × (result ≡ error_of_failure refusal cause notice_answer)
    /// ```
    ///
    /// Definitions: [`NoticeAnswer`](crate::specs::meter::LimiterSpecs#NoticeAnswer), [`optional_rules`](crate::specs::meter::LimiterSpecs#optional_rules), [`error_of_failure`](crate::specs::meter::AttemptSpecs#error_of_failure).
    ///
    /// `E` is a type with the trait `GrowthError`. `L` is the type of the limiter, a [`ResourceLimiter`](crate::machine::ResourceLimiter#contract).
    #[inline]
    pub fn tell<L: ResourceLimiter, E: GrowthError>(limiter: &mut L, cause: E, refusal: E) -> E {
        let notice_answer = cause.notify(limiter);
        match notice_answer {
            Ok(()) => cause,
            Err(_) => refusal,
        }
    }

    /// Takes the fuel for copying `values` values of a type, as a growth or a write over a range is
    /// charged. A meter that is off takes nothing.
    ///
    /// # Errors
    ///
    /// The amount that is needed, if less is left; then nothing is taken.
    ///
    /// # Contract
    ///
    /// ```text
    /// ensures: Charges fuel.old
    ///     (due fuel.old (λ costs. copy_cost costs values T.SIZE)) result fuel.new
    /// ```
    ///
    /// Definitions: [`Charges`](crate::specs::meter::MeterSpecs#Charges), [`due`](crate::specs::meter::MeterSpecs#due), [`copy_cost`](crate::specs::meter::MeterSpecs#copy_cost).
    ///
    /// `T` is a type with the trait `ValueSize`.
    #[inline]
    pub fn charge<T: ValueSize>(fuel: &mut Fuel, values: u64) -> Result<(), u64> {
        match fuel.consume_fuel_if(|costs| costs.fuel_for_copying_values::<T>(values)) {
            Err(FuelError::OutOfFuel { required_fuel }) => Err(required_fuel),
            Ok(()) | Err(FuelError::FuelMeteringDisabled) => Ok(()),
        }
    }

    /// Asks whether a memory of a type may be made, and returns its minimum in bytes.
    ///
    /// # Errors
    ///
    /// In the order of the tests: [`MinimumSizeOverflow`](crate::MemoryError::MinimumSizeOverflow) if the minimum has 2^64 bytes or more; [`ResourceLimiterDeniedAllocation`](crate::MemoryError::ResourceLimiterDeniedAllocation) if the limiter doesn't permit it.
    ///
    /// # Contract
    ///
    /// ```text
    /// ensures permitted: PermitsMinimum (optional_rules L.rules) ty (Some limiter.old) result
    ///     (Some limiter.new)
    /// ensures sized: IfOk result (λ size. IsSized ty size)
    /// ```
    ///
    /// Definitions: [`PermitsMinimum`](crate::specs::store::MemorySpecs#PermitsMinimum), [`optional_rules`](crate::specs::meter::LimiterSpecs#optional_rules), [`IsSized`](crate::specs::store::MemorySpecs#IsSized).
    ///
    /// `L` is the type of the limiter, a [`ResourceLimiter`](crate::machine::ResourceLimiter#contract).
    #[inline]
    pub fn permitted_minimum<L: ResourceLimiter>(
        ty: MemoryType,
        limiter: &mut L,
    ) -> Result<usize, MemoryError> {
        let Some(size) = ty.minimum_size() else {
            return Err(MemoryError::MinimumSizeOverflow);
        };
        let answer = limiter.memory_growing(0, size, ty.maximum_size());
        permission(answer, MEMORY_DENIED, MEMORY_DENIED)?;
        Ok(size)
    }

    /// Decides whether `old_size` bytes may become `size`, which is more: the limiter permits it, there
    /// is room for them, and the added ones are paid, in this order. The fuel is taken if they may; no
    /// byte is written yet, so it is the same wherever the bytes lie.
    ///
    /// # Errors
    ///
    /// Those of [`LinearMemory::grow`](crate::proved::store::LinearMemory::grow) from the limiter's denial to [`OutOfFuel`](crate::MemoryError::OutOfFuel).
    ///
    /// # Panics
    ///
    /// Panics if the size isn't above the old one.
    ///
    /// # Contract
    ///
    /// ```text
    /// requires grows: old_size < size
    /// ensures permitted: OnOk result ((optional_rules L.rules).asked (Some limiter.old)
    ///     (size_question old_size size maximum) (Ok true) (Some limiter.new))
    /// ensures room: OnOk result (has_room ≡ true)
    /// ensures paid: OnOk result (Charges fuel.old
    ///     (due fuel.old (λ costs. copy_cost costs (size - old_size) 1)) (Ok tt) fuel.new)
    /// ensures refused: IfErr result (λ error. (x : MemoryValue) (pages : ℕ) → 0 < pages
    ///     → IsAsked (growth_of x pages) (size_question old_size size maximum)
    ///     → fits_room x.room (size - old_size) ≡ has_room
    ///     → GrowsMemory (optional_rules L.rules) pages
    ///     (metered_value x (Some fuel.old) (Some limiter.old)) (Err error)
    ///     (metered_value x (Some fuel.new) (Some limiter.new)))
    /// ```
    ///
    /// Definitions: [`optional_rules`](crate::specs::meter::LimiterSpecs#optional_rules), [`size_question`](crate::specs::store::MemorySpecs#size_question), [`Charges`](crate::specs::meter::MeterSpecs#Charges), [`due`](crate::specs::meter::MeterSpecs#due), [`copy_cost`](crate::specs::meter::MeterSpecs#copy_cost), [`MemoryValue`](crate::specs::store::MemorySpecs#MemoryValue), [`IsAsked`](crate::specs::store::GrowthSpecs#IsAsked), [`growth_of`](crate::specs::store::MemorySpecs#growth_of), [`fits_room`](crate::specs::store::BufferSpecs#fits_room), [`GrowsMemory`](crate::specs::store::MemorySpecs#GrowsMemory), [`metered_value`](crate::specs::store::GrowthSpecs#metered_value).
    ///
    /// `L` is the type of the limiter, a [`ResourceLimiter`](crate::machine::ResourceLimiter#contract).
    #[inline]
    pub fn decide_growth<L: ResourceLimiter>(
        old_size: usize,
        size: usize,
        maximum: Option<usize>,
        has_room: bool,
        fuel: &mut Fuel,
        limiter: &mut L,
    ) -> Result<(), MemoryError> {
        assert!(old_size < size, "the size isn't above the old one");
        let answer = limiter.memory_growing(old_size, size, maximum);
        permission(answer, MemoryError::OutOfBoundsGrowth, MEMORY_DENIED)?;
        if !has_room {
            return Err(tell(
                limiter,
                MemoryError::InvalidStaticBufferSize,
                MEMORY_DENIED,
            ));
        }
        let paid = charge::<u8>(fuel, (size - old_size) as u64);
        if let Err(required_fuel) = paid {
            let cause = MemoryError::OutOfFuel { required_fuel };
            return Err(tell(limiter, cause, MEMORY_DENIED));
        }
        Ok(())
    }
}
#[cfg(any(doc, test))]
pub mod laws {
    //! What holds of all memories and tables and their types. Each function does nothing: it is a law.

    use crate::proved::store::memory::{LinearMemory, Region};
    use crate::proved::store::table::Table;

    /// Every memory is valid, also one that was written to or has grown: its type is valid, and it has
    /// whole pages, as many as that allows. Core specification, validity of memory instances.
    ///
    /// # Contract
    ///
    /// ```text
    /// ensures: IsValidMemory memory.now
    /// ```
    ///
    /// Definitions: [`IsValidMemory`](crate::specs::store::MemorySpecs#IsValidMemory).
    #[inline]
    pub fn memories_are_valid<R: Region>(memory: &LinearMemory<R>) {
        let _minimum = memory.ty().minimum();
        let _size = memory.data_size();
    }

    /// Every table is valid, also one that was written to or has grown: its type is valid, and it has
    /// as many elements as that allows. Core specification, validity of table instances.
    ///
    /// # Contract
    ///
    /// ```text
    /// ensures: IsValidTable table.now
    /// ```
    ///
    /// Definitions: [`IsValidTable`](crate::specs::store::TableSpecs#IsValidTable).
    #[inline]
    pub fn tables_are_valid(table: &Table) {
        let _minimum = table.ty().minimum();
        let _size = table.size();
    }

    /// Each memory type is a subtype of itself.
    ///
    /// # Contract
    ///
    /// ```text
    /// ensures: (a : MemoryTypeValue) → IsSubtype a a
    /// ```
    ///
    /// Definitions: [`MemoryTypeValue`](crate::specs::store::MemorySpecs#MemoryTypeValue), [`IsSubtype`](crate::specs::store::MemorySpecs#IsSubtype).
    #[inline]
    pub fn memory_subtyping_is_reflexive() {}

    /// A subtype of a subtype is a subtype.
    ///
    /// # Contract
    ///
    /// ```text
    /// ensures: (a b c : MemoryTypeValue) → IsSubtype a b → IsSubtype b c → IsSubtype a c
    /// ```
    ///
    /// Definitions: [`MemoryTypeValue`](crate::specs::store::MemorySpecs#MemoryTypeValue), [`IsSubtype`](crate::specs::store::MemorySpecs#IsSubtype).
    #[inline]
    pub fn memory_subtyping_is_transitive() {}

    /// Each table type is a subtype of itself.
    ///
    /// # Contract
    ///
    /// ```text
    /// ensures: (a : table.TableTypeValue) → table.IsSubtype a a
    /// ```
    ///
    /// Definitions: [`TableTypeValue`](crate::specs::store::TableSpecs#TableTypeValue), [`IsSubtype`](crate::specs::store::TableSpecs#IsSubtype).
    #[inline]
    pub fn table_subtyping_is_reflexive() {}

    /// A subtype of a subtype is a subtype.
    ///
    /// # Contract
    ///
    /// ```text
    /// ensures: (a b c : table.TableTypeValue) → table.IsSubtype a b → table.IsSubtype b c
    ///     → table.IsSubtype a c
    /// ```
    ///
    /// Definitions: [`TableTypeValue`](crate::specs::store::TableSpecs#TableTypeValue), [`IsSubtype`](crate::specs::store::TableSpecs#IsSubtype).
    #[inline]
    pub fn table_subtyping_is_transitive() {}
}
mod memory {
    //! Linear memories: how one is made and grows, its type and size, and how its bytes are read,
    //! written, filled, copied and initialized.

    mod buffer {
        //! A linear memory's bytes: its own, or the front of a borrowed region; how they are lent and grow.

        use crate::proved::meter::MemoryError;
        use crate::proved::store::range::fill_range;
        use crate::rattle::Vec;

        mod sealed {
            #[allow(unnameable_types)]
            pub trait Sealed {}

            impl<'r> Sealed for &'r mut [u8] {}
        }

        /// A borrowed buffer of bytes: a `&mut [u8]`, and nothing else.
        ///
        /// # Contract
        ///
        /// ```text
        /// -- The buffer's bytes.
        /// bytes: Self → List ℕ
        /// -- The buffer after its front, up to an end, was overwritten.
        /// refilled: Self → ℕ → List ℕ → Self
        /// -- The bytes of a buffer whose front was overwritten.
        /// refills: (r : Self) (end : ℕ) (ws : List ℕ)
        ///     → bytes (refilled r end ws) ≡ refilled_front (bytes r) end ws
        /// ```
        ///
        /// Definitions: [`refilled_front`](crate::specs::store::BufferSpecs#refilled_front).
        pub trait Region: sealed::Sealed {
            /// All of its bytes.
            ///
            /// # Contract
            ///
            /// ```text
            /// ensures: result.now ≡ bytes self.now
            /// ```
            fn whole(&self) -> &[u8];

            /// Lends its front.
            ///
            /// # Contract
            ///
            /// ```text
            /// requires: end ≤ length (bytes self.old)
            /// ensures* writes_back: sem 𝓛
            ///     (Lends Self.row (Array u8 0) self.entry result (refilled self.old end))
            /// ensures value: result.now ≡ take end (bytes self.old)
            /// ```
            fn front_mut(&mut self, end: usize) -> &mut [u8];
        }

        /// # Contract
        ///
        /// ```text
        /// bytes = λ r. r.now
        /// refilled = region_refilled
        /// ```
        ///
        /// Definitions: [`region_refilled`](crate::specs::store::BufferSpecs#region_refilled).
        impl<'r> Region for &'r mut [u8] {
            #[inline]
            fn whole(&self) -> &[u8] {
                &self[..]
            }

            #[inline]
            fn front_mut(&mut self, end: usize) -> &mut [u8] {
                crate::rattle::front_mut(self, end)
            }
        }

        /// A block of bytes; a buffer's bytes are the first of it. Both forms begin with their pointer, so
        /// that an access to a buffer doesn't depend on the form.
        enum Storage<R: Region> {
            Owned(Vec<u8>),
            Lent(R),
        }

        impl<R: Region> Storage<R> {
            /// # Contract
            ///
            /// ```text
            /// requires inside: end ≤ length (block R.bytes self.old)
            /// ensures* writes_back: sem 𝓛 (Lends (the_row R.row) (Array u8 0) self.entry result
            ///     (block_refilled R.refilled self.old end))
            /// ensures value: result.now ≡ take end (block R.bytes self.old)
            /// ```
            ///
            /// Definitions: [`block`](crate::specs::store::BufferSpecs#block), [`block_refilled`](crate::specs::store::BufferSpecs#block_refilled).
            ///
            /// `R` is the type of what has the bytes, a [`Region`](crate::machine::Region#contract).
            #[inline(always)]
            fn front_mut(&mut self, end: usize) -> &mut [u8] {
                match self {
                    Storage::Owned(bytes) => bytes.slice_mut(..end),
                    Storage::Lent(region) => region.front_mut(end),
                }
            }
        }

        /// Bytes in memory of their own, or at the front of a borrowed buffer. Its name in signatures is
        /// [`ByteBuffer`].
        ///
        /// # Model
        ///
        /// ```text
        /// Value = BufferValue
        /// view = λ b. view_of R.bytes b.storage b.len
        /// invariant = λ b. EndsWithin R.bytes b.storage b.len
        /// ```
        ///
        /// Definitions: [`BufferValue`](crate::specs::store::BufferSpecs#BufferValue), [`view_of`](crate::specs::store::BufferSpecs#view_of), [`EndsWithin`](crate::specs::store::BufferSpecs#EndsWithin).
        ///
        /// `R` is the type of what has the bytes, a [`Region`](crate::machine::Region#contract).
        pub struct Buffer<R: Region> {
            storage: Storage<R>,
            len: usize,
        }

        /// A growable buffer of bytes; `'r` is the lifetime of a borrowed buffer that they may lie in.
        /// Upstream: `ByteBuffer` of `wasmi_core`'s module `memory`.
        pub type ByteBuffer<'r> = Buffer<&'r mut [u8]>;

        impl<R: Region> Buffer<R> {
            /// The bytes.
            ///
            /// # Contract
            ///
            /// ```text
            /// ensures: result.now ≡ self.now.bytes
            /// ```
            #[must_use]
            #[inline]
            pub fn data(&self) -> &[u8] {
                let block = match &self.storage {
                    Storage::Owned(bytes) => bytes.as_slice(),
                    Storage::Lent(region) => region.whole(),
                };
                crate::rattle::front(block, self.len)
            }

            /// The bytes, which may be overwritten.
            ///
            /// # Contract
            ///
            /// ```text
            /// ensures* writes_back: sem 𝓛 (Lends (the_row R.row R.Region) (Array u8 0) self.entry result
            ///     (with_bytes self.old))
            /// ensures value: result.now ≡ self.old.bytes
            /// ```
            ///
            /// Definitions: [`with_bytes`](crate::specs::store::BufferSpecs#with_bytes).
            ///
            /// `R` is the type of what has the bytes, a [`Region`](crate::machine::Region#contract).
            #[inline]
            pub fn data_mut(&mut self) -> &mut [u8] {
                self.storage.front_mut(self.len)
            }

            /// The number of bytes.
            ///
            /// # Contract
            ///
            /// ```text
            /// ensures: result ≡ length self.now.bytes
            /// ```
            #[must_use]
            #[inline]
            pub fn len(&self) -> usize {
                self.len
            }

            /// Whether there is room for `new_size` bytes. It is false only for a shorter borrowed buffer.
            ///
            /// # Contract
            ///
            /// ```text
            /// ensures: result ≡ fits_room self.now.room (new_size - length self.now.bytes)
            /// ```
            ///
            /// Definitions: [`fits_room`](crate::specs::store::BufferSpecs#fits_room).
            #[must_use]
            #[inline]
            pub fn has_room(&self, new_size: usize) -> bool {
                match &self.storage {
                    Storage::Owned(_) => true,
                    Storage::Lent(region) => new_size <= region.whole().len(),
                }
            }

            /// Appends zeros up to `new_size` bytes, which isn't below the present number. If the bytes are
            /// borrowed, nothing is allocated, and those past the new size stay as they are.
            ///
            /// # Errors
            ///
            /// [`OutOfSystemMemory`](crate::MemoryError::OutOfSystemMemory) if the bytes are owned and memory is refused; [`InvalidStaticBufferSize`](crate::MemoryError::InvalidStaticBufferSize) if they are borrowed and the borrowed buffer is shorter.
            ///
            /// # Panics
            ///
            /// Panics if the new size is below the present one.
            ///
            /// # Contract
            ///
            /// ```text
            /// requires grows: length self.old.bytes ≤ new_size
            /// ensures ok: OnOk result
            ///     (self.new ≡ with_zeros self.old (new_size - length self.old.bytes))
            /// ensures fits: OnOk result
            ///     (fits_room self.old.room (new_size - length self.old.bytes) ≡ true)
            /// ensures err: OnErr result (self.new ≡ self.old)
            /// ensures cause: IfErr result (CanFail self.old.room (new_size - length self.old.bytes))
            /// ```
            ///
            /// Definitions: [`with_zeros`](crate::specs::store::BufferSpecs#with_zeros), [`fits_room`](crate::specs::store::BufferSpecs#fits_room), [`CanFail`](crate::specs::store::BufferSpecs#CanFail).
            #[inline]
            pub fn grow(&mut self, new_size: usize) -> Result<(), MemoryError> {
                assert!(
                    self.len() <= new_size,
                    "the new size is below the present one"
                );
                if !self.has_room(new_size) {
                    return Err(MemoryError::InvalidStaticBufferSize);
                }
                match &mut self.storage {
                    Storage::Owned(bytes) => match bytes.resize(new_size, 0) {
                        Ok(()) => {}
                        Err(_) => return Err(MemoryError::OutOfSystemMemory),
                    },
                    Storage::Lent(region) => {
                        fill_range(region.front_mut(new_size), self.len, new_size, 0)
                    }
                }
                self.len = new_size;
                Ok(())
            }
        }

        impl<'r> Buffer<&'r mut [u8]> {
            /// A buffer of `size` zeros in memory of its own.
            ///
            /// # Errors
            ///
            /// [`OutOfSystemMemory`](crate::MemoryError::OutOfSystemMemory) if memory is refused.
            ///
            /// # Contract
            ///
            /// ```text
            /// ensures ok: IfOk result (λ b. b ≡ zeros_in Owned size)
            /// ensures err: IfErr result (λ e. e ≡ MemoryError.OutOfSystemMemory)
            /// ```
            ///
            /// Definitions: [`zeros_in`](crate::specs::store::BufferSpecs#zeros_in), [`Owned`](crate::specs::store::BufferSpecs#Owned).
            #[inline(always)]
            pub fn new(size: usize) -> Result<ByteBuffer<'r>, MemoryError> {
                let bytes = Vec::filled(0u8, size).map_err(|_| MemoryError::OutOfSystemMemory)?;
                let storage = Storage::Owned(bytes);
                Ok(Buffer { storage, len: size })
            }

            /// A buffer of `size` zeros at the front of a borrowed one. It allocates nothing, and the bytes
            /// past them stay as they are.
            ///
            /// # Errors
            ///
            /// [`InvalidStaticBufferSize`](crate::MemoryError::InvalidStaticBufferSize) if the borrowed buffer is shorter. Then the loan has ended, and its bytes are unchanged.
            ///
            /// # Contract
            ///
            /// ```text
            /// ensures ok: IfOk result (λ b. (fits_room (Lent region.entry.now) size ≡ true)
            ///     × (b ≡ zeros_in (Lent region.entry.now) size))
            /// ensures err: IfErr result (λ e. (fits_room (Lent region.entry.now) size ≡ false)
            ///     × (e ≡ MemoryError.InvalidStaticBufferSize))
            /// ```
            ///
            /// Definitions: [`fits_room`](crate::specs::store::BufferSpecs#fits_room), [`Lent`](crate::specs::store::BufferSpecs#Lent), [`zeros_in`](crate::specs::store::BufferSpecs#zeros_in).
            #[inline(always)]
            pub fn new_static(
                region: &'r mut [u8],
                size: usize,
            ) -> Result<ByteBuffer<'r>, MemoryError> {
                if region.len() < size {
                    return Err(MemoryError::InvalidStaticBufferSize);
                }
                let front = &mut region[..size];
                front.fill(0);
                let storage = Storage::Lent(region);
                Ok(Buffer { storage, len: size })
            }
        }
    }
    mod ty {
        //! The types of linear memories: whether addresses have 64 bits, page sizes, limits in pages and in
        //! bytes, subtypes, and the builder of a type.

        use crate::proved::meter::MemoryError;
        use crate::proved::types::IndexType;

        /// A page has one byte or 64 KiB.
        #[derive(Clone, Copy, Debug, PartialEq, Eq)]
        pub(super) enum PageSize {
            Byte = 0,
            Wasm = 16,
        }

        impl PageSize {
            /// # Contract
            ///
            /// ```text
            /// ensures: result ≡ page_of_log2 log2
            /// ```
            ///
            /// Definitions: [`page_of_log2`](crate::specs::store::MemorySpecs#page_of_log2).
            #[inline]
            fn from_log2(log2: u8) -> Option<Self> {
                match log2 {
                    0 => Some(PageSize::Byte),
                    16 => Some(PageSize::Wasm),
                    _ => None,
                }
            }

            /// # Contract
            ///
            /// ```text
            /// ensures: result ≡ page_bytes self
            /// ```
            ///
            /// Definitions: [`page_bytes`](crate::specs::store::MemorySpecs#page_bytes).
            #[inline]
            fn bytes(self) -> u32 {
                match self {
                    PageSize::Byte => 1,
                    PageSize::Wasm => 65536,
                }
            }

            /// # Contract
            ///
            /// ```text
            /// ensures: result ≡ page_log2 self
            /// ```
            ///
            /// Definitions: [`page_log2`](crate::specs::store::MemorySpecs#page_log2).
            #[inline]
            fn log2(self) -> u8 {
                self as u8
            }
        }

        /// The type of a linear memory: its address type, page size, minimum and optional maximum in pages.
        /// Core specification, memory types. Upstream: `wasmi_core::MemoryType`.
        ///
        /// # Model
        ///
        /// ```text
        /// Value = MemoryTypeValue
        /// view = λ t. record
        ///     { index = t.index; page = t.page; minimum = t.minimum; maximum = t.maximum }
        /// invariant = λ t. IsValid
        ///     (record { index = t.index; page = t.page; minimum = t.minimum; maximum = t.maximum })
        /// inverse = λ t. record
        ///     { index = t.index; page = t.page; minimum = t.minimum; maximum = t.maximum }
        /// ```
        ///
        /// Definitions: [`MemoryTypeValue`](crate::specs::store::MemorySpecs#MemoryTypeValue), [`IsValid`](crate::specs::store::MemorySpecs#IsValid).
        #[doc = examples!(store MemoryType)]
        #[derive(Clone, Copy, Debug, PartialEq, Eq)]
        pub struct MemoryType {
            index: IndexType,
            page: PageSize,
            minimum: u64,
            maximum: Option<u64>,
        }

        impl MemoryType {
            /// A builder with the defaults: a minimum of 0, no maximum, pages of 64 KiB, 32-bit addresses.
            ///
            /// # Contract
            ///
            /// ```text
            /// ensures: result ≡ default_settings
            /// ```
            ///
            /// Definitions: [`default_settings`](crate::specs::store::MemorySpecs#default_settings).
            #[must_use]
            #[inline]
            pub fn builder() -> MemoryTypeBuilder {
                MemoryTypeBuilder::default()
            }

            /// Whether addresses have 64 bits.
            ///
            /// # Contract
            ///
            /// ```text
            /// ensures: IsTrue result ↔ (self.now.index ≡ I64)
            /// ```
            #[must_use]
            #[inline]
            pub fn is_64(&self) -> bool {
                self.index.is_64()
            }

            /// The type of the addresses.
            ///
            /// # Contract
            ///
            /// ```text
            /// ensures: result ≡ self.now.index
            /// ```
            #[must_use]
            #[inline]
            pub fn index_ty(&self) -> IndexType {
                self.index
            }

            /// The minimum in pages.
            ///
            /// # Contract
            ///
            /// ```text
            /// ensures value: result ≡ self.minimum
            /// ensures valid: IsValid self
            /// ```
            ///
            /// Definitions: [`IsValid`](crate::specs::store::MemorySpecs#IsValid).
            #[must_use]
            #[inline]
            pub fn minimum(self) -> u64 {
                self.minimum
            }

            /// The maximum in pages, if there is one.
            ///
            /// # Contract
            ///
            /// ```text
            /// ensures: result ≡ self.maximum
            /// ```
            #[must_use]
            #[inline]
            pub fn maximum(self) -> Option<u64> {
                self.maximum
            }

            /// The bytes of a page: 1 or 65,536.
            ///
            /// # Contract
            ///
            /// ```text
            /// ensures: result ≡ page_bytes self.page
            /// ```
            ///
            /// Definitions: [`page_bytes`](crate::specs::store::MemorySpecs#page_bytes).
            #[must_use]
            #[inline]
            pub fn page_size(self) -> u32 {
                self.page.bytes()
            }

            /// The base-2 logarithm of a page's bytes: 0 or 16.
            ///
            /// # Contract
            ///
            /// ```text
            /// ensures: result ≡ page_log2 self.page
            /// ```
            ///
            /// Definitions: [`page_log2`](crate::specs::store::MemorySpecs#page_log2).
            #[must_use]
            #[inline]
            pub fn page_size_log2(self) -> u8 {
                self.page.log2()
            }

            /// Whether a memory of this type may be used where one of the other type is required: both have
            /// the same address type and page size, the minimum isn't below the other's, and the maximum
            /// isn't above the other's, if that has one.
            ///
            /// # Contract
            ///
            /// ```text
            /// ensures: IsTrue result ↔ IsSubtype self.now other.now
            /// ```
            ///
            /// Definitions: [`IsSubtype`](crate::specs::store::MemorySpecs#IsSubtype).
            #[must_use]
            #[inline]
            pub fn is_subtype_of(&self, other: &Self) -> bool {
                self.index == other.index
                    && self.page == other.page
                    && self.minimum >= other.minimum
                    && is_no_looser(self.maximum, other.maximum)
            }

            /// # Contract
            ///
            /// ```text
            /// requires within: in_bounds self minimum ≡ true
            /// ensures value: result ≡ record self { minimum = minimum }
            /// ```
            ///
            /// Definitions: [`in_bounds`](crate::specs::store::MemorySpecs#in_bounds).
            #[inline]
            pub(super) fn with_minimum(self, minimum: u64) -> Self {
                MemoryType { minimum, ..self }
            }

            /// The minimum in bytes, if it is below 2^64.
            ///
            /// # Contract
            ///
            /// ```text
            /// ensures size: result
            ///     ≡ (if nat_lt (minimum_bytes self) (2 ^ 64) then Some (minimum_bytes self) else None)
            /// ensures valid: IsValid self
            /// ```
            ///
            /// Definitions: [`minimum_bytes`](crate::specs::store::MemorySpecs#minimum_bytes), [`IsValid`](crate::specs::store::MemorySpecs#IsValid).
            #[inline]
            pub(crate) fn minimum_size(self) -> Option<usize> {
                usize::try_from(self.minimum.checked_mul(u64::from(self.page.bytes()))?).ok()
            }

            /// The maximum in bytes, at most the greatest `usize`.
            ///
            /// # Contract
            ///
            /// ```text
            /// ensures: result ≡ maximum_bytes self
            /// ```
            ///
            /// Definitions: [`maximum_bytes`](crate::specs::store::MemorySpecs#maximum_bytes).
            #[must_use]
            #[inline]
            pub(crate) fn maximum_size(self) -> Option<usize> {
                self.maximum.map(|pages| {
                    let size = pages.saturating_mul(u64::from(self.page.bytes()));
                    usize::try_from(size).unwrap_or(usize::MAX)
                })
            }

            /// The number of whole pages in `size` bytes.
            ///
            /// # Contract
            ///
            /// ```text
            /// ensures: result ≡ size / page_bytes self.page
            /// ```
            ///
            /// Definitions: [`page_bytes`](crate::specs::store::MemorySpecs#page_bytes).
            #[must_use]
            #[inline]
            pub(crate) fn pages_in(self, size: usize) -> u64 {
                size as u64 >> self.page.log2()
            }

            /// The number of bytes after a growth by `additional` pages, if the type allows it.
            ///
            /// # Panics
            ///
            /// Panics if the size is no number of whole pages.
            ///
            /// # Contract
            ///
            /// ```text
            /// requires whole: size % page_bytes self.page ≡ 0
            /// ensures size: MatchOption result
            ///     (in_bounds self (size / page_bytes self.page + additional) ≡ false)
            ///     (λ grown. (in_bounds self (size / page_bytes self.page + additional) ≡ true)
            ///     × (grown ≡ size + additional * page_bytes self.page))
            /// ```
            ///
            /// Definitions: [`page_bytes`](crate::specs::store::MemorySpecs#page_bytes), [`in_bounds`](crate::specs::store::MemorySpecs#in_bounds).
            #[must_use]
            #[inline]
            pub(crate) fn grown_size(self, size: usize, additional: u64) -> Option<usize> {
                assert!(
                    size as u64 % u64::from(self.page_size()) == 0,
                    "the size is no number of whole pages"
                );
                self.size_of_pages(self.pages_in(size).checked_add(additional)?)
            }

            /// The bytes of `pages` pages, if a memory of this type may have that many.
            ///
            /// # Contract
            ///
            /// ```text
            /// ensures: MatchOption result (in_bounds self pages ≡ false)
            ///     (λ size. (in_bounds self pages ≡ true) × (size ≡ pages * page_bytes self.page))
            /// ```
            ///
            /// Definitions: [`in_bounds`](crate::specs::store::MemorySpecs#in_bounds), [`page_bytes`](crate::specs::store::MemorySpecs#page_bytes).
            #[must_use]
            #[inline]
            pub(crate) fn size_of_pages(self, pages: u64) -> Option<usize> {
                if pages > self.maximum.unwrap_or(most_pages(self.index, self.page)) {
                    return None;
                }
                usize::try_from(pages.checked_mul(u64::from(self.page.bytes()))?).ok()
            }
        }

        /// The most pages that an address type reaches, at most the greatest `u64`.
        ///
        /// # Contract
        ///
        /// ```text
        /// ensures: result ≡ min (2 ^ address_bits index / page_bytes page) (2 ^ 64 - 1)
        /// ```
        ///
        /// Definitions: [`address_bits`](crate::specs::types::ValueSpecs#address_bits), [`page_bytes`](crate::specs::store::MemorySpecs#page_bytes).
        #[inline]
        fn most_pages(index: IndexType, page: PageSize) -> u64 {
            match (index, page) {
                (IndexType::I32, PageSize::Byte) => 1 << 32,
                (IndexType::I32, PageSize::Wasm) => 1 << 16,
                (IndexType::I64, PageSize::Byte) => u64::MAX,
                (IndexType::I64, PageSize::Wasm) => 1 << 48,
            }
        }

        /// Whether an optional maximum is no looser than another.
        ///
        /// # Contract
        ///
        /// ```text
        /// ensures: IsTrue result ↔ IsNoLooser own other
        /// ```
        ///
        /// Definitions: [`IsNoLooser`](crate::specs::store::MemorySpecs#IsNoLooser).
        #[inline]
        pub(crate) fn is_no_looser(own: Option<u64>, other: Option<u64>) -> bool {
            other.is_none_or(|most| own.is_some_and(|maximum| maximum <= most))
        }

        /// Builds a [`MemoryType`] step by step. Upstream: `wasmi_core::MemoryTypeBuilder`.
        pub struct MemoryTypeBuilder {
            index: IndexType,
            page_size_log2: u8,
            minimum: u64,
            maximum: Option<u64>,
        }

        /// # Contract
        ///
        /// ```text
        /// is_default = λ b. b ≡ default_settings
        /// ```
        ///
        /// Definitions: [`default_settings`](crate::specs::store::MemorySpecs#default_settings).
        impl Default for MemoryTypeBuilder {
            #[inline]
            fn default() -> Self {
                MemoryTypeBuilder {
                    index: IndexType::I32,
                    page_size_log2: 16,
                    minimum: 0,
                    maximum: None,
                }
            }
        }

        impl MemoryTypeBuilder {
            /// Sets whether addresses have 64 bits. The default is 32 bits.
            ///
            /// # Contract
            ///
            /// ```text
            /// ensures same_reference: result.ghost_name ≡ self.entry.ghost_name
            /// ensures value: result.now ≡ record self.old { index = (if memory64 then I64 else I32) }
            /// ```
            #[inline]
            pub fn memory64(&mut self, memory64: bool) -> &mut Self {
                self.index = if memory64 {
                    IndexType::I64
                } else {
                    IndexType::I32
                };
                self
            }

            /// Sets the minimum in pages. The default is 0.
            ///
            /// # Contract
            ///
            /// ```text
            /// ensures same_reference: result.ghost_name ≡ self.entry.ghost_name
            /// ensures value: result.now ≡ record self.old { minimum = minimum }
            /// ```
            #[inline]
            pub fn min(&mut self, minimum: u64) -> &mut Self {
                self.minimum = minimum;
                self
            }

            /// Sets the maximum in pages, or none. The default is none.
            ///
            /// # Contract
            ///
            /// ```text
            /// ensures same_reference: result.ghost_name ≡ self.entry.ghost_name
            /// ensures value: result.now ≡ record self.old { maximum = maximum }
            /// ```
            #[inline]
            pub fn max(&mut self, maximum: Option<u64>) -> &mut Self {
                self.maximum = maximum;
                self
            }

            /// Sets the base-2 logarithm of a page's bytes. The default is 16.
            ///
            /// # Contract
            ///
            /// ```text
            /// ensures same_reference: result.ghost_name ≡ self.entry.ghost_name
            /// ensures value: result.now ≡ record self.old { page_size_log2 = page_size_log2 }
            /// ```
            #[inline]
            pub fn page_size_log2(&mut self, page_size_log2: u8) -> &mut Self {
                self.page_size_log2 = page_size_log2;
                self
            }

            /// Builds the type.
            ///
            /// # Errors
            ///
            /// [`InvalidMemoryType`](crate::MemoryError::InvalidMemoryType) for a page size other than 1 byte and 64 KiB, for limits above what the
            /// address type reaches, and for a minimum above the maximum.
            ///
            /// # Contract
            ///
            /// ```text
            /// ensures: MatchResult result (λ ty. (named_type self ≡ Some ty) × IsValid ty)
            ///     (λ e. (e ≡ MemoryError.InvalidMemoryType) × ¬ (IsSomeAnd (named_type self) IsValid))
            /// ```
            ///
            /// Definitions: [`named_type`](crate::specs::store::MemorySpecs#named_type), [`IsValid`](crate::specs::store::MemorySpecs#IsValid).
            #[inline]
            pub fn build(self) -> Result<MemoryType, MemoryError> {
                if cfg!(not(feature = "memory64")) && self.index.is_64() {
                    return Err(MemoryError::InvalidMemoryType);
                }
                let Some(page) = PageSize::from_log2(self.page_size_log2) else {
                    return Err(MemoryError::InvalidMemoryType);
                };
                let most = most_pages(self.index, page);
                let maximum = self.maximum.unwrap_or(most);
                if maximum > most || self.minimum > maximum {
                    return Err(MemoryError::InvalidMemoryType);
                }
                Ok(MemoryType {
                    index: self.index,
                    page,
                    minimum: self.minimum,
                    maximum: self.maximum,
                })
            }
        }
    }

    use crate::proved::meter::{Fuel, MemoryError, ResourceLimiter, ResourceLimiterRef};
    use crate::proved::store::bulk::{
        MEMORY_OUTSIDE as OUTSIDE, copy_items, copy_items_within, fill_items,
    };
    use crate::proved::store::growth::{
        MEMORY_DENIED as DENIED, decide_growth, permitted_minimum, tell,
    };
    use crate::proved::store::range::{read_bytes, write_bytes};
    use crate::proved::store::with_meter;
    pub use buffer::{Buffer, ByteBuffer, Region};
    pub(crate) use ty::is_no_looser;
    pub use ty::{MemoryType, MemoryTypeBuilder};

    /// A linear memory. Its name in signatures is [`Memory`].
    ///
    /// # Model
    ///
    /// ```text
    /// Value = MemoryValue
    /// view = λ m. memory_of m.ty m.buffer
    /// invariant = λ m. IsSized m.ty (length m.buffer.bytes)
    /// ```
    ///
    /// Definitions: [`MemoryValue`](crate::specs::store::MemorySpecs#MemoryValue), [`memory_of`](crate::specs::store::MemorySpecs#memory_of), [`IsSized`](crate::specs::store::MemorySpecs#IsSized).
    pub struct LinearMemory<R: Region> {
        buffer: Buffer<R>,
        ty: MemoryType,
    }

    /// A linear memory of whole pages; `'r` is the lifetime of a buffer that its bytes may lie in.
    ///
    /// It is valid at any time: see [`laws::memories_are_valid`](crate::proved::store::laws::memories_are_valid). Core specification, memory
    /// instances. Upstream: `wasmi_core::Memory`.
    pub type Memory<'r> = LinearMemory<&'r mut [u8]>;

    impl<'r> LinearMemory<&'r mut [u8]> {
        /// A memory of zeros, at the minimum of its type. It takes no fuel.
        ///
        /// # Errors
        ///
        /// In the order of the tests: [`MinimumSizeOverflow`](crate::MemoryError::MinimumSizeOverflow) if the minimum has 2^64 bytes or more; [`ResourceLimiterDeniedAllocation`](crate::MemoryError::ResourceLimiterDeniedAllocation) if the limiter doesn't permit it; [`OutOfSystemMemory`](crate::MemoryError::OutOfSystemMemory), of which the limiter is notified.
        ///
        /// # Contract
        ///
        /// ```text
        /// ensures loan: KeepsLoan limiter.old limiter.new
        /// ensures made: MakesMemory (optional_rules L.rules) Owned ty
        ///     (lent_limiter limiter.old) result (lent_limiter limiter.new)
        /// ```
        ///
        /// Definitions: [`KeepsLoan`](crate::specs::meter::LimiterSpecs#KeepsLoan), [`MakesMemory`](crate::specs::store::MemorySpecs#MakesMemory), [`optional_rules`](crate::specs::meter::LimiterSpecs#optional_rules), [`Owned`](crate::specs::store::BufferSpecs#Owned), [`lent_limiter`](crate::specs::meter::LimiterSpecs#lent_limiter).
        ///
        /// `L` is the type of the limiter, a [`ResourceLimiter`](crate::machine::ResourceLimiter#contract).
        #[inline(always)]
        pub fn new<L: ResourceLimiter>(
            ty: MemoryType,
            limiter: &mut ResourceLimiterRef<L>,
        ) -> Result<Memory<'r>, MemoryError> {
            Memory::new_lending(ty, limiter)
        }

        /// A memory of zeros at the front of a borrowed buffer, at the minimum of its type. It takes no
        /// fuel and no memory, and the bytes past the minimum stay. After an error the loan has ended.
        ///
        /// # Errors
        ///
        /// In the order of the tests: [`MinimumSizeOverflow`](crate::MemoryError::MinimumSizeOverflow) if the minimum has 2^64 bytes or more; [`ResourceLimiterDeniedAllocation`](crate::MemoryError::ResourceLimiterDeniedAllocation) if the limiter doesn't permit it; [`InvalidStaticBufferSize`](crate::MemoryError::InvalidStaticBufferSize) if the region is shorter than the minimum, of which the limiter is notified. After an error the bytes of the region are unchanged.
        ///
        /// # Contract
        ///
        /// ```text
        /// ensures loan: KeepsLoan limiter.old limiter.new
        /// ensures made: MakesMemory (optional_rules L.rules) (Lent region.entry.now) ty
        ///     (lent_limiter limiter.old) result (lent_limiter limiter.new)
        /// ```
        ///
        /// Definitions: [`KeepsLoan`](crate::specs::meter::LimiterSpecs#KeepsLoan), [`MakesMemory`](crate::specs::store::MemorySpecs#MakesMemory), [`optional_rules`](crate::specs::meter::LimiterSpecs#optional_rules), [`Lent`](crate::specs::store::BufferSpecs#Lent), [`lent_limiter`](crate::specs::meter::LimiterSpecs#lent_limiter).
        ///
        /// `L` is the type of the limiter, a [`ResourceLimiter`](crate::machine::ResourceLimiter#contract).
        #[inline(always)]
        pub fn new_static<L: ResourceLimiter>(
            ty: MemoryType,
            limiter: &mut ResourceLimiterRef<L>,
            region: &'r mut [u8],
        ) -> Result<Memory<'r>, MemoryError> {
            Memory::new_static_lending(ty, limiter, region)
        }

        /// As `new_static`, with a limiter that is known again after this call.
        ///
        /// # Errors
        ///
        /// Those of `new_static`.
        ///
        /// # Contract
        ///
        /// ```text
        /// ensures: MakesMemory (optional_rules L.rules) (Lent region.entry.now) ty
        ///     (Some limiter.old) result (Some limiter.new)
        /// ```
        ///
        /// Definitions: [`MakesMemory`](crate::specs::store::MemorySpecs#MakesMemory), [`optional_rules`](crate::specs::meter::LimiterSpecs#optional_rules), [`Lent`](crate::specs::store::BufferSpecs#Lent).
        ///
        /// `L` is the type of the limiter, a [`ResourceLimiter`](crate::machine::ResourceLimiter#contract).
        #[inline(always)]
        pub fn new_static_lending<L: ResourceLimiter>(
            ty: MemoryType,
            limiter: &mut L,
            region: &'r mut [u8],
        ) -> Result<Memory<'r>, MemoryError> {
            let size = permitted_minimum(ty, limiter)?;
            match Buffer::new_static(region, size) {
                Ok(buffer) => Ok(LinearMemory { buffer, ty }),
                Err(cause) => Err(tell(limiter, cause, DENIED)),
            }
        }

        /// As `new`, with a limiter that is known again after this call.
        ///
        /// # Errors
        ///
        /// Those of `new`.
        ///
        /// # Contract
        ///
        /// ```text
        /// ensures: MakesMemory (optional_rules L.rules) Owned ty (Some limiter.old) result
        ///     (Some limiter.new)
        /// ```
        ///
        /// Definitions: [`MakesMemory`](crate::specs::store::MemorySpecs#MakesMemory), [`optional_rules`](crate::specs::meter::LimiterSpecs#optional_rules), [`Owned`](crate::specs::store::BufferSpecs#Owned).
        ///
        /// `L` is the type of the limiter, a [`ResourceLimiter`](crate::machine::ResourceLimiter#contract).
        #[inline(always)]
        pub fn new_lending<L: ResourceLimiter>(
            ty: MemoryType,
            limiter: &mut L,
        ) -> Result<Memory<'r>, MemoryError> {
            let size = permitted_minimum(ty, limiter)?;
            match Buffer::new(size) {
                Ok(buffer) => Ok(LinearMemory { buffer, ty }),
                Err(cause) => Err(tell(limiter, cause, DENIED)),
            }
        }
    }

    impl<R: Region> LinearMemory<R> {
        /// The type that it was made with.
        ///
        /// # Contract
        ///
        /// ```text
        /// ensures: result ≡ self.now.ty
        /// ```
        #[must_use]
        #[inline]
        pub fn ty(&self) -> MemoryType {
            self.ty
        }

        /// The type that it was made with, with the present size as its minimum: a subtype of it.
        ///
        /// # Contract
        ///
        /// ```text
        /// ensures value: result ≡ dynamic_type self.now
        /// ensures subtype: IsSubtype result self.now.ty
        /// ```
        ///
        /// Definitions: [`dynamic_type`](crate::specs::store::MemorySpecs#dynamic_type), [`IsSubtype`](crate::specs::store::MemorySpecs#IsSubtype).
        #[must_use]
        #[inline]
        pub fn dynamic_ty(&self) -> MemoryType {
            self.ty.with_minimum(self.size())
        }

        /// The size in pages.
        ///
        /// # Contract
        ///
        /// ```text
        /// ensures value: result ≡ pages_of self.now
        /// ensures within: in_bounds self.now.ty result ≡ true
        /// ```
        ///
        /// Definitions: [`pages_of`](crate::specs::store::MemorySpecs#pages_of), [`in_bounds`](crate::specs::store::MemorySpecs#in_bounds).
        #[must_use]
        #[inline]
        pub fn size(&self) -> u64 {
            self.buffer.len() as u64 >> self.ty.page_size_log2()
        }

        /// The size in bytes: whole pages, as many as its type allows.
        ///
        /// # Contract
        ///
        /// ```text
        /// ensures value: result ≡ length self.now.bytes
        /// ensures sized: IsSized self.now.ty result
        /// ```
        ///
        /// Definitions: [`IsSized`](crate::specs::store::MemorySpecs#IsSized).
        #[must_use]
        #[inline]
        pub fn data_size(&self) -> usize {
            self.buffer.len()
        }

        /// The bytes.
        ///
        /// # Contract
        ///
        /// ```text
        /// ensures: result.now ≡ self.now.bytes
        /// ```
        #[must_use]
        #[inline]
        pub fn data(&self) -> &[u8] {
            self.buffer.data()
        }

        /// The bytes, which may be overwritten.
        ///
        /// # Contract
        ///
        /// ```text
        /// ensures* writes_back: sem 𝓛 (Lends (the_row R.row R.Region) (Array u8 0) self.entry result
        ///     (λ ws. memory_of self.old.ty (with_bytes (buffer_of self.old) ws)))
        /// ensures value: result.now ≡ self.old.bytes
        /// ```
        ///
        /// Definitions: [`memory_of`](crate::specs::store::MemorySpecs#memory_of), [`with_bytes`](crate::specs::store::BufferSpecs#with_bytes), [`buffer_of`](crate::specs::store::MemorySpecs#buffer_of).
        ///
        /// `R` is the type of what has the bytes, a [`Region`](crate::machine::Region#contract).
        #[inline]
        pub fn data_mut(&mut self) -> &mut [u8] {
            self.buffer.data_mut()
        }

        /// Grows by `additional` pages of zeros, and returns the old size in pages. A growth by 0 pages
        /// changes nothing and asks no limiter. Bytes of a borrowed buffer past the new size stay.
        ///
        /// # Errors
        ///
        /// In the order of the tests:
        ///
        /// - [`OutOfBoundsGrowth`](crate::MemoryError::OutOfBoundsGrowth) above the greatest number of pages or the maximum, or at 2^64 bytes or
        ///   more;
        /// - [`OutOfBoundsGrowth`](crate::MemoryError::OutOfBoundsGrowth) if the limiter says no, [`ResourceLimiterDeniedAllocation`](crate::MemoryError::ResourceLimiterDeniedAllocation) if it
        ///   returns an error;
        /// - [`InvalidStaticBufferSize`](crate::MemoryError::InvalidStaticBufferSize) if a borrowed buffer is shorter than the new size, which charges
        ///   nothing;
        /// - [`OutOfFuel`](crate::MemoryError::OutOfFuel) if the meter is on and the added bytes cost more than is left;
        /// - [`OutOfSystemMemory`](crate::MemoryError::OutOfSystemMemory), after which the fuel stays spent, and which doesn't occur on a
        ///   borrowed buffer.
        ///
        /// The limiter is notified of the last three, and if it returns an error, the error is
        /// [`ResourceLimiterDeniedAllocation`](crate::MemoryError::ResourceLimiterDeniedAllocation) instead.
        ///
        /// # Contract
        ///
        /// ```text
        /// ensures loan: KeepsLoan limiter.old limiter.new
        /// ensures grown: GrowsMemory (optional_rules L.rules) additional
        ///     (metered_value self.old (at_entry fuel.entry) (lent_limiter limiter.old)) result
        ///     (metered_value self.new (at_exit fuel.exit) (lent_limiter limiter.new))
        /// ```
        ///
        /// Definitions: [`KeepsLoan`](crate::specs::meter::LimiterSpecs#KeepsLoan), [`GrowsMemory`](crate::specs::store::MemorySpecs#GrowsMemory), [`optional_rules`](crate::specs::meter::LimiterSpecs#optional_rules), [`metered_value`](crate::specs::store::GrowthSpecs#metered_value), [`at_entry`](crate::specs::meter::MeterSpecs#meter_at_entry), [`lent_limiter`](crate::specs::meter::LimiterSpecs#lent_limiter), [`at_exit`](crate::specs::meter::MeterSpecs#meter_at_exit).
        ///
        /// `L` is the type of the limiter, a [`ResourceLimiter`](crate::machine::ResourceLimiter#contract).
        #[inline]
        pub fn grow<L: ResourceLimiter>(
            &mut self,
            additional: u64,
            fuel: Option<&mut Fuel>,
            limiter: &mut ResourceLimiterRef<L>,
        ) -> Result<u64, MemoryError> {
            with_meter!(fuel => self.grow_metered(additional, fuel, limiter))
        }

        /// As `grow`, with a meter that isn't optional.
        ///
        /// # Errors
        ///
        /// Those of `grow`.
        ///
        /// # Contract
        ///
        /// ```text
        /// ensures loan: KeepsLoan limiter.old limiter.new
        /// ensures grown: GrowsMemory (optional_rules L.rules) additional
        ///     (metered_value self.old (Some fuel.old) (lent_limiter limiter.old)) result
        ///     (metered_value self.new (Some fuel.new) (lent_limiter limiter.new))
        /// ```
        ///
        /// Definitions: [`KeepsLoan`](crate::specs::meter::LimiterSpecs#KeepsLoan), [`GrowsMemory`](crate::specs::store::MemorySpecs#GrowsMemory), [`optional_rules`](crate::specs::meter::LimiterSpecs#optional_rules), [`metered_value`](crate::specs::store::GrowthSpecs#metered_value), [`lent_limiter`](crate::specs::meter::LimiterSpecs#lent_limiter).
        ///
        /// `L` is the type of the limiter, a [`ResourceLimiter`](crate::machine::ResourceLimiter#contract).
        #[inline]
        pub fn grow_metered<L: ResourceLimiter>(
            &mut self,
            additional: u64,
            fuel: &mut Fuel,
            limiter: &mut ResourceLimiterRef<L>,
        ) -> Result<u64, MemoryError> {
            self.grow_lending(additional, fuel, limiter)
        }

        /// As `grow_metered`, with a limiter that is known again after this call.
        ///
        /// # Errors
        ///
        /// Those of `grow`.
        ///
        /// # Contract
        ///
        /// ```text
        /// ensures: GrowsMemory (optional_rules L.rules) additional
        ///     (metered_value self.old (Some fuel.old) (Some limiter.old)) result
        ///     (metered_value self.new (Some fuel.new) (Some limiter.new))
        /// ```
        ///
        /// Definitions: [`GrowsMemory`](crate::specs::store::MemorySpecs#GrowsMemory), [`optional_rules`](crate::specs::meter::LimiterSpecs#optional_rules), [`metered_value`](crate::specs::store::GrowthSpecs#metered_value).
        ///
        /// `L` is the type of the limiter, a [`ResourceLimiter`](crate::machine::ResourceLimiter#contract).
        #[inline]
        pub fn grow_lending<L: ResourceLimiter>(
            &mut self,
            additional: u64,
            fuel: &mut Fuel,
            limiter: &mut L,
        ) -> Result<u64, MemoryError> {
            let old_pages = self.size();
            if additional == 0 {
                return Ok(old_pages);
            }
            let old_size = self.buffer.len();
            let Some(size) = self.ty.grown_size(old_size, additional) else {
                return Err(MemoryError::OutOfBoundsGrowth);
            };
            let maximum = self.ty.maximum_size();
            let has_room = self.buffer.has_room(size);
            decide_growth(old_size, size, maximum, has_room, fuel, limiter)?;
            if let Err(cause) = self.buffer.grow(size) {
                return Err(tell(limiter, cause, DENIED));
            }
            Ok(old_pages)
        }

        /// Fills a buffer with the bytes from an offset on.
        ///
        /// # Errors
        ///
        /// [`OutOfBoundsAccess`](crate::MemoryError::OutOfBoundsAccess) if they end past the memory; then nothing is copied.
        ///
        /// # Contract
        ///
        /// ```text
        /// ensures ok: OnOk result (at self.now.bytes offset (length buffer.old) ≡ Some buffer.new)
        /// ensures err: IfErr result (λ error. (error ≡ MemoryError.OutOfBoundsAccess)
        ///     × (at self.now.bytes offset (length buffer.old) ≡ None) × (buffer.new ≡ buffer.old))
        /// ```
        ///
        /// Definitions: [`at`](crate::specs::types::AccessSpecs#at).
        #[inline]
        pub fn read(&self, offset: usize, buffer: &mut [u8]) -> Result<(), MemoryError> {
            read_bytes(self.buffer.data(), offset, buffer)
        }

        /// Writes bytes over those from an offset on.
        ///
        /// # Errors
        ///
        /// [`OutOfBoundsAccess`](crate::MemoryError::OutOfBoundsAccess) if they would end past the memory; then nothing is written.
        ///
        /// # Contract
        ///
        /// ```text
        /// ensures: WritesMemory self.old offset buffer.now result self.new
        /// ```
        ///
        /// Definitions: [`WritesMemory`](crate::specs::store::MemorySpecs#WritesMemory).
        #[inline]
        pub fn write(&mut self, offset: usize, buffer: &[u8]) -> Result<(), MemoryError> {
            write_bytes(self.buffer.data_mut(), offset, buffer)
        }

        /// Fills `len` bytes from `dst` on with a value. It is charged as a table's `fill`, by bytes.
        /// Core specification, memory.fill.
        ///
        /// # Errors
        ///
        /// In the order of the tests: [`OutOfBoundsAccess`](crate::MemoryError::OutOfBoundsAccess) if a range ends past its memory or segment; [`OutOfFuel`](crate::MemoryError::OutOfFuel), which is tested also if no byte is written. Then no byte is written, and no fuel taken.
        ///
        /// # Contract
        ///
        /// ```text
        /// ensures: WritesMemoryRange (byte_filling_of dst value len)
        ///     (metered self.old (at_entry fuel.entry)) result (metered self.new (at_exit fuel.exit))
        /// ```
        ///
        /// Definitions: [`WritesMemoryRange`](crate::specs::store::MemorySpecs#WritesMemoryRange), [`byte_filling_of`](crate::specs::store::MemorySpecs#byte_filling_of), [`metered`](crate::specs::store::GrowthSpecs#metered), [`at_entry`](crate::specs::meter::MeterSpecs#meter_at_entry), [`at_exit`](crate::specs::meter::MeterSpecs#meter_at_exit).
        #[inline]
        pub fn fill(
            &mut self,
            dst: u64,
            value: u8,
            len: u64,
            fuel: Option<&mut Fuel>,
        ) -> Result<(), MemoryError> {
            with_meter!(fuel => self.fill_metered(dst, value, len, fuel))
        }

        /// As `fill`, with a meter that isn't optional.
        ///
        /// # Errors
        ///
        /// Those of `fill`.
        ///
        /// # Contract
        ///
        /// ```text
        /// ensures: WritesMemoryRange (byte_filling_of dst value len)
        ///     (metered self.old (Some fuel.old)) result (metered self.new (Some fuel.new))
        /// ```
        ///
        /// Definitions: [`WritesMemoryRange`](crate::specs::store::MemorySpecs#WritesMemoryRange), [`byte_filling_of`](crate::specs::store::MemorySpecs#byte_filling_of), [`metered`](crate::specs::store::GrowthSpecs#metered).
        #[inline]
        pub fn fill_metered(
            &mut self,
            dst: u64,
            value: u8,
            len: u64,
            fuel: &mut Fuel,
        ) -> Result<(), MemoryError> {
            fill_items(self.data_mut(), dst, value, len, OUTSIDE, fuel)
        }

        /// Copies `len` bytes from `src` on over those from `dst` on: the old ones if they overlap.
        /// Core specification, memory.copy within a memory.
        ///
        /// # Errors
        ///
        /// In the order of the tests: [`OutOfBoundsAccess`](crate::MemoryError::OutOfBoundsAccess) if a range ends past its memory or segment; [`OutOfFuel`](crate::MemoryError::OutOfFuel), which is tested also if no byte is written. Then no byte is written, and no fuel taken.
        ///
        /// # Contract
        ///
        /// ```text
        /// ensures: WritesMemoryRange (byte_copy_of dst src len self.old.bytes)
        ///     (metered self.old (at_entry fuel.entry)) result (metered self.new (at_exit fuel.exit))
        /// ```
        ///
        /// Definitions: [`WritesMemoryRange`](crate::specs::store::MemorySpecs#WritesMemoryRange), [`byte_copy_of`](crate::specs::store::MemorySpecs#byte_copy_of), [`metered`](crate::specs::store::GrowthSpecs#metered), [`at_entry`](crate::specs::meter::MeterSpecs#meter_at_entry), [`at_exit`](crate::specs::meter::MeterSpecs#meter_at_exit).
        #[inline]
        pub fn copy_within(
            &mut self,
            dst: u64,
            src: u64,
            len: u64,
            fuel: Option<&mut Fuel>,
        ) -> Result<(), MemoryError> {
            with_meter!(fuel => self.copy_within_metered(dst, src, len, fuel))
        }

        /// As `copy_within`, with a meter that isn't optional.
        ///
        /// # Errors
        ///
        /// Those of `copy_within`.
        ///
        /// # Contract
        ///
        /// ```text
        /// ensures: WritesMemoryRange (byte_copy_of dst src len self.old.bytes)
        ///     (metered self.old (Some fuel.old)) result (metered self.new (Some fuel.new))
        /// ```
        ///
        /// Definitions: [`WritesMemoryRange`](crate::specs::store::MemorySpecs#WritesMemoryRange), [`byte_copy_of`](crate::specs::store::MemorySpecs#byte_copy_of), [`metered`](crate::specs::store::GrowthSpecs#metered).
        #[inline]
        pub fn copy_within_metered(
            &mut self,
            dst: u64,
            src: u64,
            len: u64,
            fuel: &mut Fuel,
        ) -> Result<(), MemoryError> {
            copy_items_within(self.data_mut(), dst, src, len, OUTSIDE, fuel)
        }

        /// Copies `len` bytes of another memory, from `src` on, over those of a memory from `dst` on.
        /// Core specification, memory.copy of two memories.
        ///
        /// # Errors
        ///
        /// In the order of the tests: [`OutOfBoundsAccess`](crate::MemoryError::OutOfBoundsAccess) if a range ends past its memory or segment; [`OutOfFuel`](crate::MemoryError::OutOfFuel), which is tested also if no byte is written. Then no byte is written, and no fuel taken.
        ///
        /// # Contract
        ///
        /// ```text
        /// ensures: WritesMemoryRange (byte_copy_of dst src len src_memory.now.bytes)
        ///     (metered dst_memory.old (at_entry fuel.entry)) result
        ///     (metered dst_memory.new (at_exit fuel.exit))
        /// ```
        ///
        /// Definitions: [`WritesMemoryRange`](crate::specs::store::MemorySpecs#WritesMemoryRange), [`byte_copy_of`](crate::specs::store::MemorySpecs#byte_copy_of), [`metered`](crate::specs::store::GrowthSpecs#metered), [`at_entry`](crate::specs::meter::MeterSpecs#meter_at_entry), [`at_exit`](crate::specs::meter::MeterSpecs#meter_at_exit).
        #[inline]
        pub fn copy<S: Region>(
            dst_memory: &mut LinearMemory<R>,
            dst: u64,
            src_memory: &LinearMemory<S>,
            src: u64,
            len: u64,
            fuel: Option<&mut Fuel>,
        ) -> Result<(), MemoryError> {
            with_meter!(fuel => dst_memory.copy_metered(dst, src_memory, src, len, fuel))
        }

        /// As `copy`, with a meter that isn't optional.
        ///
        /// # Errors
        ///
        /// Those of `copy`.
        ///
        /// # Contract
        ///
        /// ```text
        /// ensures: WritesMemoryRange (byte_copy_of dst src len src_memory.now.bytes)
        ///     (metered self.old (Some fuel.old)) result (metered self.new (Some fuel.new))
        /// ```
        ///
        /// Definitions: [`WritesMemoryRange`](crate::specs::store::MemorySpecs#WritesMemoryRange), [`byte_copy_of`](crate::specs::store::MemorySpecs#byte_copy_of), [`metered`](crate::specs::store::GrowthSpecs#metered).
        #[inline]
        pub fn copy_metered<S: Region>(
            &mut self,
            dst: u64,
            src_memory: &LinearMemory<S>,
            src: u64,
            len: u64,
            fuel: &mut Fuel,
        ) -> Result<(), MemoryError> {
            let source = src_memory.data();
            copy_items(self.data_mut(), dst, source, src, len, OUTSIDE, fuel)
        }

        /// Copies `len` bytes of a data segment, from `src` on, over the bytes from `dst` on. A segment
        /// that was dropped has no bytes. Core specification, memory.init.
        ///
        /// # Errors
        ///
        /// In the order of the tests: [`OutOfBoundsAccess`](crate::MemoryError::OutOfBoundsAccess) if a range ends past its memory or segment; [`OutOfFuel`](crate::MemoryError::OutOfFuel), which is tested also if no byte is written. Then no byte is written, and no fuel taken.
        ///
        /// # Contract
        ///
        /// ```text
        /// ensures: WritesMemoryRange (byte_copy_of dst src len segment.now)
        ///     (metered self.old (at_entry fuel.entry)) result (metered self.new (at_exit fuel.exit))
        /// ```
        ///
        /// Definitions: [`WritesMemoryRange`](crate::specs::store::MemorySpecs#WritesMemoryRange), [`byte_copy_of`](crate::specs::store::MemorySpecs#byte_copy_of), [`metered`](crate::specs::store::GrowthSpecs#metered), [`at_entry`](crate::specs::meter::MeterSpecs#meter_at_entry), [`at_exit`](crate::specs::meter::MeterSpecs#meter_at_exit).
        #[inline]
        pub fn init(
            &mut self,
            segment: &[u8],
            dst: u64,
            src: u32,
            len: u32,
            fuel: Option<&mut Fuel>,
        ) -> Result<(), MemoryError> {
            with_meter!(fuel => self.init_metered(segment, dst, src, len, fuel))
        }

        /// As `init`, with a meter that isn't optional.
        ///
        /// # Errors
        ///
        /// Those of `init`.
        ///
        /// # Contract
        ///
        /// ```text
        /// ensures: WritesMemoryRange (byte_copy_of dst src len segment.now)
        ///     (metered self.old (Some fuel.old)) result (metered self.new (Some fuel.new))
        /// ```
        ///
        /// Definitions: [`WritesMemoryRange`](crate::specs::store::MemorySpecs#WritesMemoryRange), [`byte_copy_of`](crate::specs::store::MemorySpecs#byte_copy_of), [`metered`](crate::specs::store::GrowthSpecs#metered).
        #[inline]
        pub fn init_metered(
            &mut self,
            segment: &[u8],
            dst: u64,
            src: u32,
            len: u32,
            fuel: &mut Fuel,
        ) -> Result<(), MemoryError> {
            let (src, len) = (u64::from(src), u64::from(len));
            copy_items(self.data_mut(), dst, segment, src, len, OUTSIDE, fuel)
        }
    }
}
pub mod range {
    //! Ranges of a memory's bytes or of other lists, without a charge: whether one lies within its list,
    //! and how one is read, written over, filled, and copied over another, a part at a time.

    use crate::proved::meter::MemoryError;
    use crate::proved::raw::RawRef;

    /// How many items are copied at once.
    pub const CHUNK: usize = 4096;

    /// Whether `len` items from an index on lie within a list.
    ///
    /// # Contract
    ///
    /// ```text
    /// ensures: result ≡ nat_le (index + len) (length items.now)
    /// ```
    #[must_use]
    #[inline]
    pub fn lies_within<T>(items: &[T], index: u64, len: u64) -> bool {
        let size = items.len() as u64;
        index <= size && len <= size - index
    }

    /// Fills a buffer with the bytes from an offset on.
    ///
    /// # Errors
    ///
    /// [`OutOfBoundsAccess`](crate::MemoryError::OutOfBoundsAccess) if they end past the memory; then nothing is copied.
    ///
    /// # Contract
    ///
    /// ```text
    /// ensures ok: OnOk result (at bytes.now offset (length buffer.old) ≡ Some buffer.new)
    /// ensures err: IfErr result (λ error. (error ≡ MemoryError.OutOfBoundsAccess)
    ///     × (at bytes.now offset (length buffer.old) ≡ None) × (buffer.new ≡ buffer.old))
    /// ```
    ///
    /// Definitions: [`at`](crate::specs::types::AccessSpecs#at).
    #[inline]
    pub fn read_bytes(bytes: &[u8], offset: usize, buffer: &mut [u8]) -> Result<(), MemoryError> {
        let end = offset.checked_add(buffer.len());
        let Some(part) = end.and_then(|end| bytes.get(offset..end)) else {
            return Err(MemoryError::OutOfBoundsAccess);
        };
        buffer.copy_from_slice(part);
        Ok(())
    }

    /// Writes bytes over those from an offset on.
    ///
    /// # Errors
    ///
    /// [`OutOfBoundsAccess`](crate::MemoryError::OutOfBoundsAccess) if they would end past the memory; then nothing is written.
    ///
    /// # Contract
    ///
    /// ```text
    /// ensures ok: OnOk result (overwrite bytes.old offset buffer.now ≡ Some bytes.new)
    /// ensures err: IfErr result (λ error. (error ≡ MemoryError.OutOfBoundsAccess)
    ///     × (overwrite bytes.old offset buffer.now ≡ None) × (bytes.new ≡ bytes.old))
    /// ensures len: length bytes.new ≡ length bytes.old
    /// ```
    ///
    /// Definitions: [`overwrite`](crate::specs::types::AccessSpecs#overwrite).
    #[inline]
    pub fn write_bytes(bytes: &mut [u8], offset: usize, buffer: &[u8]) -> Result<(), MemoryError> {
        let end = offset.checked_add(buffer.len());
        let Some(part) = end.and_then(|end| bytes.get_mut(offset..end)) else {
            return Err(MemoryError::OutOfBoundsAccess);
        };
        part.copy_from_slice(buffer);
        Ok(())
    }

    /// Copies items over those from an index on.
    ///
    /// # Contract
    ///
    /// ```text
    /// requires inside: index + length items.now ≤ length elements.old
    /// ensures written: overwrite elements.old index items.now ≡ Some elements.new
    /// ensures len: length elements.new ≡ length elements.old
    /// ```
    ///
    /// Definitions: [`overwrite`](crate::specs::types::AccessSpecs#overwrite).
    #[inline]
    pub fn write_range<T: Copy>(elements: &mut [T], index: usize, items: &[T]) {
        let part = &mut elements[index..][..items.len()];
        part.copy_from_slice(items);
    }

    /// Fills the items from `start` up to `end`, which is left out, with a value. A clone of the value
    /// is the value itself, as for numbers and references.
    ///
    /// # Contract
    ///
    /// ```text
    /// requires infallible: T.is_infallible value
    /// requires same: (clone : T) → T.is_clone value clone → clone ≡ value
    /// requires start: start ≤ end
    /// requires end: end ≤ length elements.old
    /// ensures filled: elements.new
    ///     ≡ take start elements.old ++ replicate (end - start) value ++ drop end elements.old
    /// ensures len: length elements.new ≡ length elements.old
    /// ```
    ///
    /// `T` is a type with the trait `Copy`.
    #[inline]
    pub fn fill_range<T: Copy>(elements: &mut [T], start: usize, end: usize, value: T) {
        let part = &mut elements[start..end];
        part.fill(value);
    }

    /// An item of a list of which a part can be copied over another part.
    pub trait Chunk: Copy {
        /// Copies `len` items, at most `CHUNK`, from `src` on over those from `dst` on. Each
        /// implementation has a buffer of its type. LLVM drops it: the two copies become one `memmove`.
        ///
        /// # Contract
        ///
        /// ```text
        /// requires few: len ≤ 4096
        /// requires dst: dst + len ≤ length elements.old
        /// requires src: src + len ≤ length elements.old
        /// ensures copied: elements.new
        ///     ≡ take dst elements.old ++ take len (drop src elements.old) ++ drop
        ///     (dst + len) elements.old
        /// ```
        fn copy_chunk(elements: &mut [Self], dst: usize, src: usize, len: usize);
    }

    impl Chunk for RawRef {
        #[inline]
        fn copy_chunk(elements: &mut [RawRef], dst: usize, src: usize, len: usize) {
            let mut few = [RawRef::null(); CHUNK];
            few[..len].copy_from_slice(&elements[src..src + len]);
            elements[dst..dst + len].copy_from_slice(&few[..len]);
        }
    }

    impl Chunk for u8 {
        #[inline]
        fn copy_chunk(elements: &mut [u8], dst: usize, src: usize, len: usize) {
            let mut few = [0; CHUNK];
            few[..len].copy_from_slice(&elements[src..src + len]);
            elements[dst..dst + len].copy_from_slice(&few[..len]);
        }
    }

    impl Chunk for u32 {
        #[inline]
        fn copy_chunk(elements: &mut [u32], dst: usize, src: usize, len: usize) {
            let mut few = [0; CHUNK];
            few[..len].copy_from_slice(&elements[src..src + len]);
            elements[dst..dst + len].copy_from_slice(&few[..len]);
        }
    }

    /// Copies `len` items from `src` on over those from `dst` on. Items that move up are copied from
    /// the last part on, so that each is read before it is written over.
    ///
    /// # Contract
    ///
    /// ```text
    /// requires dst: dst + len ≤ length elements.old
    /// requires src: src + len ≤ length elements.old
    /// ensures copied: overwrite elements.old dst (take len (drop src elements.old))
    ///     ≡ Some elements.new
    /// ```
    ///
    /// Definitions: [`overwrite`](crate::specs::types::AccessSpecs#overwrite).
    #[inline]
    pub fn copy_overlapping<T: Chunk>(elements: &mut [T], dst: usize, src: usize, len: usize) {
        if len <= CHUNK {
            T::copy_chunk(elements, dst, src, len);
        } else if dst <= src {
            let mut done = 0;
            while done < len {
                let count = CHUNK.min(len - done);
                T::copy_chunk(elements, dst + done, src + done, count);
                done += count;
            }
        } else {
            let mut left = len;
            while 0 < left {
                let count = CHUNK.min(left);
                left -= count;
                T::copy_chunk(elements, dst + left, src + left, count);
            }
        }
    }
}
mod table {
    //! Tables: how one is made, grows and is reserved for, its type and size, and how its elements are
    //! read, set, filled, copied and initialized.

    use crate::rattle::Vec;
    mod element {
        //! Element segments: references that a table can be initialized from, how they are read of an
        //! iterator, and why one isn't made.

        use crate::proved::raw::RawRef;
        use crate::proved::types::RefType;
        use crate::rattle::Vec;
        use core::fmt;

        /// Why an element segment cannot be made. Own: upstream panics above 2^32 - 1 items, and ends the
        /// process if it is out of memory.
        #[derive(Debug, PartialEq, Eq)]
        #[non_exhaustive]
        pub enum SegmentError {
            /// There are 2^32 items or more.
            TooManyItems,
            /// The system refused memory.
            OutOfSystemMemory,
        }

        impl SegmentError {
            /// Its text.
            ///
            /// # Contract
            ///
            /// ```text
            /// ensures: result.now ≡ segment_error_text self.now
            /// ```
            ///
            /// Definitions: [`segment_error_text`](crate::specs::store::SegmentSpecs#segment_error_text).
            #[must_use]
            #[inline]
            pub(crate) fn words(&self) -> &'static str {
                match self {
                    Self::TooManyItems => "too many items in an element segment",
                    Self::OutOfSystemMemory => "out of memory",
                }
            }
        }

        /// # Contract
        ///
        /// ```text
        /// output = λ error. Some (segment_error_text error)
        /// ```
        ///
        /// Definitions: [`segment_error_text`](crate::specs::store::SegmentSpecs#segment_error_text).
        impl fmt::Display for SegmentError {
            #[inline]
            fn fmt(&self, f: &mut fmt::Formatter<'_>) -> fmt::Result {
                f.write_str(self.words())
            }
        }

        impl core::error::Error for SegmentError {}

        /// References of one type, at most 2^32 - 1 of them. Core specification, element instances.
        /// Upstream: `wasmi_core::ElementSegment`.
        ///
        /// # Model
        ///
        /// ```text
        /// Value = SegmentValue
        /// view = λ segment. record { ty = segment.ty; items = segment.items.items }
        /// invariant = λ segment. IsKept segment.items.items (vec_capacity segment.items)
        /// ```
        ///
        /// Definitions: [`SegmentValue`](crate::specs::store::SegmentSpecs#SegmentValue), [`IsKept`](crate::specs::store::SegmentSpecs#IsKept).
        pub struct ElementSegment {
            pub(crate) ty: RefType,
            pub(crate) items: Vec<RawRef>,
        }

        /// A shared reference to the items of an element segment, with their type. Upstream:
        /// `wasmi_core::ElementSegmentRef`.
        ///
        /// # Contract
        ///
        /// ```text
        /// short: length items.now < 2 ^ 32
        /// ```
        #[derive(Clone, Copy)]
        pub struct ElementSegmentRef<'a> {
            ty: RefType,
            items: &'a [RawRef],
        }

        /// The greatest number of items of a segment.
        const MAX_ITEMS: usize = 4_294_967_295;

        impl ElementSegment {
            /// A segment of references of a type, read from an iterator as `read` does. Upstream:
            /// `ElementSegment::new`, which panics above 2^32 - 1 items.
            ///
            /// # Errors
            ///
            /// [`TooManyItems`](crate::machine::SegmentError::TooManyItems) at item 2^32; [`OutOfSystemMemory`](crate::machine::SegmentError::OutOfSystemMemory) at the item for which memory is refused.
            ///
            /// # Contract
            ///
            /// ```text
            /// requires readable: EachBecomes I.into_iter_gives items I.IntoIter.can_next
            /// ensures reading: IsReadingOf I.into_iter_gives I.IntoIter.next_gives ty items result
            /// ```
            ///
            /// Definitions: [`EachBecomes`](crate::specs::types::ReadingSpecs#EachBecomes), [`IsReadingOf`](crate::specs::store::SegmentSpecs#IsReadingOf).
            ///
            /// `I` is the type of the items, an [`IntoIterator`].
            #[inline]
            pub fn new<I>(ty: RefType, items: I) -> Result<Self, SegmentError>
            where
                I: IntoIterator<Item = RawRef>,
            {
                let mut items = items.into_iter();
                Self::read(ty, &mut items)
            }

            /// Reads references of a type up to the first `None`, which counts as the end. It reads at most
            /// 2^32 items, and none after the end or after an error. Own: `new` takes its iterator by
            /// value, so its contract can't say what is left of it.
            ///
            /// # Errors
            ///
            /// [`TooManyItems`](crate::machine::SegmentError::TooManyItems) at item 2^32; [`OutOfSystemMemory`](crate::machine::SegmentError::OutOfSystemMemory) at the item for which memory is refused.
            ///
            /// # Contract
            ///
            /// ```text
            /// requires readable: I.can_next items.old
            /// ensures reading: IsReading I.next_gives items.old ty result items.new
            /// ```
            ///
            /// Definitions: [`IsReading`](crate::specs::store::SegmentSpecs#IsReading).
            ///
            /// `I` is the type of the items, an [`Iterator`].
            #[inline]
            pub fn read<I>(ty: RefType, items: &mut I) -> Result<Self, SegmentError>
            where
                I: Iterator<Item = RawRef>,
            {
                let mut read = Vec::new();
                'items: while read.len() < MAX_ITEMS {
                    let Some(item) = items.next() else {
                        return Ok(ElementSegment { ty, items: read });
                    };
                    if read.push(item).is_err() {
                        return Err(SegmentError::OutOfSystemMemory);
                    }
                }
                match items.next() {
                    Some(_) => Err(SegmentError::TooManyItems),
                    None => Ok(ElementSegment { ty, items: read }),
                }
            }

            /// A shared reference to the segment.
            ///
            /// # Contract
            ///
            /// ```text
            /// ensures: segment_of result ≡ self.now
            /// ```
            ///
            /// Definitions: [`segment_of`](crate::specs::store::SegmentSpecs#segment_of).
            #[must_use]
            #[inline]
            pub fn as_ref(&self) -> ElementSegmentRef {
                ElementSegmentRef::from(self)
            }

            /// The type of the items.
            ///
            /// # Contract
            ///
            /// ```text
            /// ensures: result ≡ self.now.ty
            /// ```
            #[must_use]
            #[inline]
            pub fn ty(&self) -> RefType {
                self.ty
            }

            /// The items.
            ///
            /// # Contract
            ///
            /// ```text
            /// ensures: result.now ≡ self.now.items
            /// ```
            #[must_use]
            #[inline]
            pub fn items(&self) -> &[RawRef] {
                self.items.as_slice()
            }

            /// The number of items.
            ///
            /// # Contract
            ///
            /// ```text
            /// ensures: result ≡ length self.now.items
            /// ```
            #[must_use]
            #[inline]
            pub fn size(&self) -> u32 {
                self.items.len() as u32
            }

            /// Drops the items and gives their memory back. The type stays.
            ///
            /// # Contract
            ///
            /// ```text
            /// ensures: self.new ≡ dropped self.old
            /// ```
            ///
            /// Definitions: [`dropped`](crate::specs::store::SegmentSpecs#dropped).
            #[inline]
            pub fn drop_items(&mut self) {
                self.items = Vec::new();
            }
        }

        /// # Contract
        ///
        /// ```text
        /// from_gives = λ segment shared. segment_of shared ≡ segment.now
        /// ```
        ///
        /// Definitions: [`segment_of`](crate::specs::store::SegmentSpecs#segment_of).
        impl<'a> From<&'a ElementSegment> for ElementSegmentRef<'a> {
            #[inline]
            fn from(segment: &'a ElementSegment) -> Self {
                ElementSegmentRef {
                    ty: segment.ty,
                    items: segment.items(),
                }
            }
        }

        impl<'a> ElementSegmentRef<'a> {
            /// The type of the items.
            ///
            /// # Contract
            ///
            /// ```text
            /// ensures: result ≡ (segment_of self.entry).ty
            /// ```
            ///
            /// Definitions: [`segment_of`](crate::specs::store::SegmentSpecs#segment_of).
            #[must_use]
            #[inline]
            pub fn ty(self) -> RefType {
                self.ty
            }

            /// The items.
            ///
            /// # Contract
            ///
            /// ```text
            /// ensures: result.now ≡ (segment_of self.entry).items
            /// ```
            ///
            /// Definitions: [`segment_of`](crate::specs::store::SegmentSpecs#segment_of).
            #[must_use]
            #[inline]
            pub fn items(self) -> &'a [RawRef] {
                self.items
            }

            /// The number of items.
            ///
            /// # Contract
            ///
            /// ```text
            /// ensures: result ≡ length (segment_of self.entry).items
            /// ```
            ///
            /// Definitions: [`segment_of`](crate::specs::store::SegmentSpecs#segment_of).
            #[must_use]
            #[inline]
            pub fn size(self) -> u32 {
                self.items.len() as u32
            }
        }
    }
    mod ty {
        //! The types of tables: whether indices have 64 bits, the elements' type and limits, and subtypes.

        use crate::proved::meter::TableError;
        use crate::proved::store::memory::is_no_looser;
        use crate::proved::types::{IndexType, RefType};

        /// The type of a table: its index and element types, minimum and optional maximum in elements. Core
        /// specification, table types. Upstream: `wasmi_core::TableType`.
        ///
        /// # Model
        ///
        /// ```text
        /// Value = TableTypeValue
        /// view = λ t. record
        ///     { index = t.index; element = t.element; minimum = t.minimum; maximum = t.maximum }
        /// invariant = λ t. IsValid (record
        ///     { index = t.index; element = t.element; minimum = t.minimum; maximum = t.maximum })
        /// inverse = λ t. record
        ///     { index = t.index; element = t.element; minimum = t.minimum; maximum = t.maximum }
        /// ```
        ///
        /// Definitions: [`TableTypeValue`](crate::specs::store::TableSpecs#TableTypeValue), [`IsValid`](crate::specs::store::TableSpecs#IsValid).
        #[derive(Clone, Copy, Debug, PartialEq, Eq)]
        pub struct TableType {
            index: IndexType,
            element: RefType,
            minimum: u64,
            maximum: Option<u64>,
        }

        impl TableType {
            /// A type with 32-bit indices. The minimum isn't above the maximum.
            ///
            /// # Panics
            ///
            /// Panics if the minimum is above the maximum.
            ///
            /// # Contract
            ///
            /// ```text
            /// requires ordered: IfSome maximum (λ most. minimum ≤ most)
            /// ensures value: result
            ///     ≡ record { index = I32; element = element; minimum = minimum; maximum = maximum }
            /// ```
            #[must_use]
            #[inline]
            pub fn new(element: RefType, minimum: u32, maximum: Option<u32>) -> Self {
                assert!(
                    maximum.is_none_or(|most| minimum <= most),
                    "the minimum is above the maximum"
                );
                TableType {
                    index: IndexType::I32,
                    element,
                    minimum: u64::from(minimum),
                    maximum: maximum.map(u64::from),
                }
            }

            /// A type with 64-bit indices. The minimum isn't above the maximum.
            ///
            /// # Panics
            ///
            /// Panics if the minimum is above the maximum.
            ///
            /// # Contract
            ///
            /// ```text
            /// requires ordered: IfSome maximum (λ most. minimum ≤ most)
            /// ensures value: result
            ///     ≡ record { index = I64; element = element; minimum = minimum; maximum = maximum }
            /// ```
            #[must_use]
            #[inline]
            pub fn new64(element: RefType, minimum: u64, maximum: Option<u64>) -> Self {
                assert!(
                    maximum.is_none_or(|most| minimum <= most),
                    "the minimum is above the maximum"
                );
                TableType {
                    index: IndexType::I64,
                    element,
                    minimum,
                    maximum,
                }
            }

            /// Whether indices have 64 bits.
            ///
            /// # Contract
            ///
            /// ```text
            /// ensures: IsTrue result ↔ (self.now.index ≡ I64)
            /// ```
            #[must_use]
            #[inline]
            pub fn is_64(&self) -> bool {
                self.index.is_64()
            }

            /// The type of the indices.
            ///
            /// # Contract
            ///
            /// ```text
            /// ensures: result ≡ self.now.index
            /// ```
            #[must_use]
            #[inline]
            pub fn index_ty(&self) -> IndexType {
                self.index
            }

            /// The type of the elements.
            ///
            /// # Contract
            ///
            /// ```text
            /// ensures: result ≡ self.now.element
            /// ```
            #[must_use]
            #[inline]
            pub fn element(&self) -> RefType {
                self.element
            }

            /// The minimum in elements.
            ///
            /// # Contract
            ///
            /// ```text
            /// ensures value: result ≡ self.now.minimum
            /// ensures valid: IsValid self.now
            /// ```
            ///
            /// Definitions: [`IsValid`](crate::specs::store::TableSpecs#IsValid).
            #[must_use]
            #[inline]
            pub fn minimum(&self) -> u64 {
                self.minimum
            }

            /// The maximum in elements, if there is one.
            ///
            /// # Contract
            ///
            /// ```text
            /// ensures: result ≡ self.now.maximum
            /// ```
            #[must_use]
            #[inline]
            pub fn maximum(&self) -> Option<u64> {
                self.maximum
            }

            /// Whether a table of this type may be used where one of the other type is required: both have
            /// the same index type and type of elements, the minimum isn't below the other's, and the
            /// maximum isn't above the other's, if that has one.
            ///
            /// # Contract
            ///
            /// ```text
            /// ensures: IsTrue result ↔ IsSubtype self.now other.now
            /// ```
            ///
            /// Definitions: [`IsSubtype`](crate::specs::store::TableSpecs#IsSubtype).
            #[must_use]
            #[inline]
            pub fn is_subtype_of(&self, other: &Self) -> bool {
                self.index == other.index
                    && self.element == other.element
                    && self.minimum >= other.minimum
                    && is_no_looser(self.maximum, other.maximum)
            }

            /// Returns `Ok` if references of a type are elements of this type.
            ///
            /// # Contract
            ///
            /// ```text
            /// ensures: MatchResult result (λ _. same_type self.element ty ≡ true)
            ///     (λ e. (e ≡ TableError.ElementTypeMismatch) × (same_type self.element ty ≡ false))
            /// ```
            ///
            /// Definitions: [`same_type`](crate::specs::store::TableSpecs#same_type).
            #[inline]
            pub(crate) fn ensure_element_type_matches(self, ty: RefType) -> Result<(), TableError> {
                if self.element != ty {
                    return Err(TableError::ElementTypeMismatch);
                }
                Ok(())
            }

            /// # Contract
            ///
            /// ```text
            /// requires indexable: is_indexable self minimum ≡ true
            /// requires within: is_within_maximum self minimum ≡ true
            /// ensures value: result ≡ record self { minimum = minimum }
            /// ```
            ///
            /// Definitions: [`is_indexable`](crate::specs::store::TableSpecs#is_indexable), [`is_within_maximum`](crate::specs::store::TableSpecs#is_within_maximum).
            #[inline]
            pub(super) fn with_minimum(self, minimum: u64) -> Self {
                TableType { minimum, ..self }
            }

            /// The number of elements after a growth, if there are more indices than elements.
            ///
            /// # Contract
            ///
            /// ```text
            /// ensures: MatchOption result (is_indexable self (size + delta) ≡ false)
            ///     (λ grown. (is_indexable self (size + delta) ≡ true) × (grown ≡ size + delta))
            /// ```
            ///
            /// Definitions: [`is_indexable`](crate::specs::store::TableSpecs#is_indexable).
            #[must_use]
            #[inline]
            pub(crate) fn grown_size(self, size: u64, delta: u64) -> Option<usize> {
                let grown = size.checked_add(delta)?;
                if grown > most_elements(self.index) {
                    return None;
                }
                usize::try_from(grown).ok()
            }

            /// Whether there are more indices than so many elements.
            ///
            /// # Contract
            ///
            /// ```text
            /// ensures: result ≡ is_indexable self size
            /// ```
            ///
            /// Definitions: [`is_indexable`](crate::specs::store::TableSpecs#is_indexable).
            #[must_use]
            #[inline]
            pub(crate) fn indexes_size(self, size: usize) -> bool {
                size as u64 <= most_elements(self.index)
            }

            /// The maximum as a size, at most the greatest `usize`.
            ///
            /// # Contract
            ///
            /// ```text
            /// ensures: result ≡ self.maximum
            /// ```
            #[must_use]
            #[inline]
            pub(crate) fn maximum_size(self) -> Option<usize> {
                self.maximum
                    .map(|maximum| usize::try_from(maximum).unwrap_or(usize::MAX))
            }

            /// Whether `size` elements are no more than the maximum, if there is one.
            ///
            /// # Contract
            ///
            /// ```text
            /// ensures: result ≡ is_within_maximum self size
            /// ```
            ///
            /// Definitions: [`is_within_maximum`](crate::specs::store::TableSpecs#is_within_maximum).
            #[must_use]
            #[inline]
            pub(crate) fn allows_size(self, size: usize) -> bool {
                self.maximum.is_none_or(|maximum| size as u64 <= maximum)
            }
        }

        /// The most elements of a table by its index type: one fewer than there are indices.
        ///
        /// # Contract
        ///
        /// ```text
        /// ensures: result ≡ 2 ^ address_bits index - 1
        /// ```
        ///
        /// Definitions: [`address_bits`](crate::specs::types::ValueSpecs#address_bits).
        #[inline]
        fn most_elements(index: IndexType) -> u64 {
            match index {
                IndexType::I32 => u64::from(u32::MAX),
                IndexType::I64 => u64::MAX,
            }
        }
    }

    use crate::proved::meter::{Fuel, ResourceLimiter, ResourceLimiterRef, TableError};
    use crate::proved::raw::RawRef;
    use crate::proved::store::bulk::{copy_items, copy_items_within, fill_items, init_elements};
    use crate::proved::store::growth::{TABLE_DENIED as DENIED, charge, permission, tell};
    use crate::proved::store::range::write_range;
    use crate::proved::store::with_meter;
    use crate::proved::typed::TypedRawRef;
    use crate::rattle::alloc::AllocError;
    pub use element::{ElementSegment, ElementSegmentRef, SegmentError};
    pub use ty::TableType;

    /// A table: references of one type, of which some may be null.
    ///
    /// The functions that charge fuel take an optional meter; without one, or with one that is off,
    /// nothing is charged. The forms whose name ends in `_metered` take one that isn't optional. If a
    /// host chooses no other costs, a unit of fuel pays for 64 bytes, and an element has 4 bytes.
    ///
    /// It is valid at any time: see [`laws::tables_are_valid`](crate::proved::store::laws::tables_are_valid). Core specification, table
    /// instances. Upstream: `wasmi_core::Table`.
    ///
    /// # Model
    ///
    /// ```text
    /// Value = TableValue
    /// view = λ t. record { ty = t.ty; elements = t.elements.items; reserved = t.reserved }
    /// invariant = λ t. IsSized t.ty (length t.elements.items)
    ///     × (t.reserved ≤ vec_capacity t.elements)
    /// ```
    ///
    /// Definitions: [`TableValue`](crate::specs::store::TableSpecs#TableValue), [`IsSized`](crate::specs::store::TableSpecs#IsSized).
    pub struct Table {
        ty: TableType,
        elements: Vec<RawRef>,
        reserved: usize,
    }

    impl Table {
        /// A table of one reference, at the minimum of its type. It takes no fuel.
        ///
        /// # Errors
        ///
        /// In the order of the tests: [`ElementTypeMismatch`](crate::TableError::ElementTypeMismatch) if the reference is of another type; [`MinimumSizeOverflow`](crate::TableError::MinimumSizeOverflow) if `usize` has 32 bits and the minimum more; [`ResourceLimiterDeniedAllocation`](crate::TableError::ResourceLimiterDeniedAllocation) if the limiter doesn't permit it; [`OutOfSystemMemory`](crate::TableError::OutOfSystemMemory), of which the limiter is notified.
        ///
        /// # Contract
        ///
        /// ```text
        /// ensures loan: KeepsLoan limiter.old limiter.new
        /// ensures made: MakesTable (optional_rules L.rules) ty init (lent_limiter limiter.old) result
        ///     (lent_limiter limiter.new)
        /// ```
        ///
        /// Definitions: [`KeepsLoan`](crate::specs::meter::LimiterSpecs#KeepsLoan), [`MakesTable`](crate::specs::store::TableSpecs#MakesTable), [`optional_rules`](crate::specs::meter::LimiterSpecs#optional_rules), [`lent_limiter`](crate::specs::meter::LimiterSpecs#lent_limiter).
        ///
        /// `L` is the type of the limiter, a [`ResourceLimiter`](crate::machine::ResourceLimiter#contract).
        #[inline(always)]
        pub fn new<L: ResourceLimiter>(
            ty: TableType,
            init: TypedRawRef,
            limiter: &mut ResourceLimiterRef<L>,
        ) -> Result<Self, TableError> {
            Table::new_lending(ty, init, limiter)
        }

        /// As `new`, with a limiter that is known again after this call.
        ///
        /// # Errors
        ///
        /// Those of `new`.
        ///
        /// # Contract
        ///
        /// ```text
        /// ensures: MakesTable (optional_rules L.rules) ty init (Some limiter.old) result
        ///     (Some limiter.new)
        /// ```
        ///
        /// Definitions: [`MakesTable`](crate::specs::store::TableSpecs#MakesTable), [`optional_rules`](crate::specs::meter::LimiterSpecs#optional_rules).
        ///
        /// `L` is the type of the limiter, a [`ResourceLimiter`](crate::machine::ResourceLimiter#contract).
        #[inline(always)]
        pub fn new_lending<L: ResourceLimiter>(
            ty: TableType,
            init: TypedRawRef,
            limiter: &mut L,
        ) -> Result<Self, TableError> {
            ty.ensure_element_type_matches(init.ty)?;
            let Ok(size) = usize::try_from(ty.minimum()) else {
                return Err(TableError::MinimumSizeOverflow);
            };
            let answer = limiter.table_growing(0, size, ty.maximum_size());
            permission(answer, DENIED, DENIED)?;
            match Vec::filled(init.raw, size) {
                Ok(elements) => Ok(Table {
                    ty,
                    elements,
                    reserved: 0,
                }),
                Err(_) => Err(tell(limiter, TableError::OutOfSystemMemory, DENIED)),
            }
        }

        /// Reserves memory for so many elements in all, those that are there included: until it has
        /// more, a growth isn't refused with `OutOfSystemMemory`. What is reserved already stays so, and
        /// no element is added.
        ///
        /// # Errors
        ///
        /// `AllocError` if memory for some of it is refused; then no more is reserved.
        ///
        /// # Contract
        ///
        /// ```text
        /// ensures reserved: OnOk result (self.new ≡ with_elements_reserved self.old elements)
        /// ensures refused: OnErr result ((self.new ≡ self.old) × (self.old.reserved < elements))
        /// ```
        ///
        /// Definitions: [`with_elements_reserved`](crate::specs::store::TableSpecs#with_elements_reserved).
        #[inline]
        pub fn reserve(&mut self, elements: u64) -> Result<(), AllocError> {
            let Ok(elements) = usize::try_from(elements) else {
                return Err(AllocError);
            };
            let additional = elements.saturating_sub(self.elements.len());
            self.elements.try_reserve_exact(additional)?;
            self.reserved = self.reserved.max(elements);
            Ok(())
        }

        /// The type that it was made with.
        ///
        /// # Contract
        ///
        /// ```text
        /// ensures: result ≡ self.now.ty
        /// ```
        #[must_use]
        #[inline]
        pub fn ty(&self) -> TableType {
            self.ty
        }

        /// The type that it was made with, with the present size as its minimum: a subtype of it.
        ///
        /// # Contract
        ///
        /// ```text
        /// ensures value: result ≡ dynamic_type self.now
        /// ensures subtype: IsSubtype result self.now.ty
        /// ```
        ///
        /// Definitions: [`dynamic_type`](crate::specs::store::TableSpecs#dynamic_type), [`IsSubtype`](crate::specs::store::TableSpecs#IsSubtype).
        #[must_use]
        #[inline]
        pub fn dynamic_ty(&self) -> TableType {
            self.ty.with_minimum(self.size())
        }

        /// The size in elements: as many as its type allows.
        ///
        /// # Contract
        ///
        /// ```text
        /// ensures value: result ≡ size_of self.now
        /// ensures sized: IsSized self.now.ty result
        /// ```
        ///
        /// Definitions: [`size_of`](crate::specs::store::TableSpecs#size_of), [`IsSized`](crate::specs::store::TableSpecs#IsSized).
        #[must_use]
        #[inline]
        pub fn size(&self) -> u64 {
            self.elements.len() as u64
        }

        /// Grows by `delta` elements, each the given reference, and returns the old size.
        ///
        /// # Errors
        ///
        /// [`ElementTypeMismatch`](crate::TableError::ElementTypeMismatch) if the type differs, also in a growth by 0; then those of `grow_raw`.
        ///
        /// # Contract
        ///
        /// ```text
        /// ensures loan: KeepsLoan limiter.old limiter.new
        /// ensures grown: GrowsTable (optional_rules L.rules) delta init
        ///     (metered_value self.old (at_entry fuel.entry) (lent_limiter limiter.old)) result
        ///     (metered_value self.new (at_exit fuel.exit) (lent_limiter limiter.new))
        /// ```
        ///
        /// Definitions: [`KeepsLoan`](crate::specs::meter::LimiterSpecs#KeepsLoan), [`GrowsTable`](crate::specs::store::TableSpecs#GrowsTable), [`optional_rules`](crate::specs::meter::LimiterSpecs#optional_rules), [`metered_value`](crate::specs::store::GrowthSpecs#metered_value), [`at_entry`](crate::specs::meter::MeterSpecs#meter_at_entry), [`lent_limiter`](crate::specs::meter::LimiterSpecs#lent_limiter), [`at_exit`](crate::specs::meter::MeterSpecs#meter_at_exit).
        ///
        /// `L` is the type of the limiter, a [`ResourceLimiter`](crate::machine::ResourceLimiter#contract).
        #[inline]
        pub fn grow<L: ResourceLimiter>(
            &mut self,
            delta: u64,
            init: TypedRawRef,
            fuel: Option<&mut Fuel>,
            limiter: &mut ResourceLimiterRef<L>,
        ) -> Result<u64, TableError> {
            with_meter!(fuel => self.grow_metered(delta, init, fuel, limiter))
        }

        /// As `grow`, with a meter that isn't optional.
        ///
        /// # Errors
        ///
        /// Those of `grow`.
        ///
        /// # Contract
        ///
        /// ```text
        /// ensures loan: KeepsLoan limiter.old limiter.new
        /// ensures grown: GrowsTable (optional_rules L.rules) delta init
        ///     (metered_value self.old (Some fuel.old) (lent_limiter limiter.old)) result
        ///     (metered_value self.new (Some fuel.new) (lent_limiter limiter.new))
        /// ```
        ///
        /// Definitions: [`KeepsLoan`](crate::specs::meter::LimiterSpecs#KeepsLoan), [`GrowsTable`](crate::specs::store::TableSpecs#GrowsTable), [`optional_rules`](crate::specs::meter::LimiterSpecs#optional_rules), [`metered_value`](crate::specs::store::GrowthSpecs#metered_value), [`lent_limiter`](crate::specs::meter::LimiterSpecs#lent_limiter).
        ///
        /// `L` is the type of the limiter, a [`ResourceLimiter`](crate::machine::ResourceLimiter#contract).
        #[inline]
        pub fn grow_metered<L: ResourceLimiter>(
            &mut self,
            delta: u64,
            init: TypedRawRef,
            fuel: &mut Fuel,
            limiter: &mut ResourceLimiterRef<L>,
        ) -> Result<u64, TableError> {
            self.grow_lending(delta, init, fuel, limiter)
        }

        /// As `grow_metered`, with a limiter that is known again after this call.
        ///
        /// # Errors
        ///
        /// Those of `grow`.
        ///
        /// # Contract
        ///
        /// ```text
        /// ensures: GrowsTable (optional_rules L.rules) delta init
        ///     (metered_value self.old (Some fuel.old) (Some limiter.old)) result
        ///     (metered_value self.new (Some fuel.new) (Some limiter.new))
        /// ```
        ///
        /// Definitions: [`GrowsTable`](crate::specs::store::TableSpecs#GrowsTable), [`optional_rules`](crate::specs::meter::LimiterSpecs#optional_rules), [`metered_value`](crate::specs::store::GrowthSpecs#metered_value).
        ///
        /// `L` is the type of the limiter, a [`ResourceLimiter`](crate::machine::ResourceLimiter#contract).
        #[inline]
        pub fn grow_lending<L: ResourceLimiter>(
            &mut self,
            delta: u64,
            init: TypedRawRef,
            fuel: &mut Fuel,
            limiter: &mut L,
        ) -> Result<u64, TableError> {
            self.ty.ensure_element_type_matches(init.ty)?;
            self.grow_raw_metered(delta, init.raw, fuel, limiter)
        }

        /// Grows by `delta` elements, each the given reference, and returns the old size. A growth by 0
        /// changes nothing and asks no limiter.
        ///
        /// # Errors
        ///
        /// In the order of the tests:
        ///
        /// - [`GrowOutOfBounds`](crate::TableError::GrowOutOfBounds) if there would be as many elements as indices, 2^32 or 2^64;
        /// - [`GrowOutOfBounds`](crate::TableError::GrowOutOfBounds) if the limiter says no, [`ResourceLimiterDeniedAllocation`](crate::TableError::ResourceLimiterDeniedAllocation) if it returns
        ///   an error;
        /// - [`GrowOutOfBounds`](crate::TableError::GrowOutOfBounds) above the maximum;
        /// - [`OutOfFuel`](crate::TableError::OutOfFuel) if the meter is on and the new elements cost more than is left;
        /// - [`OutOfSystemMemory`](crate::TableError::OutOfSystemMemory), after which the fuel stays spent.
        ///
        /// The limiter is notified of the last three, and if it returns an error, the error is
        /// [`ResourceLimiterDeniedAllocation`](crate::TableError::ResourceLimiterDeniedAllocation) instead.
        ///
        /// # Contract
        ///
        /// ```text
        /// ensures loan: KeepsLoan limiter.old limiter.new
        /// ensures grown: GrowsTableRaw (optional_rules L.rules) delta init
        ///     (metered_value self.old (at_entry fuel.entry) (lent_limiter limiter.old)) result
        ///     (metered_value self.new (at_exit fuel.exit) (lent_limiter limiter.new))
        /// ```
        ///
        /// Definitions: [`KeepsLoan`](crate::specs::meter::LimiterSpecs#KeepsLoan), [`GrowsTableRaw`](crate::specs::store::TableSpecs#GrowsTableRaw), [`optional_rules`](crate::specs::meter::LimiterSpecs#optional_rules), [`metered_value`](crate::specs::store::GrowthSpecs#metered_value), [`at_entry`](crate::specs::meter::MeterSpecs#meter_at_entry), [`lent_limiter`](crate::specs::meter::LimiterSpecs#lent_limiter), [`at_exit`](crate::specs::meter::MeterSpecs#meter_at_exit).
        ///
        /// `L` is the type of the limiter, a [`ResourceLimiter`](crate::machine::ResourceLimiter#contract).
        #[inline]
        pub fn grow_raw<L: ResourceLimiter>(
            &mut self,
            delta: u64,
            init: RawRef,
            fuel: Option<&mut Fuel>,
            limiter: &mut ResourceLimiterRef<L>,
        ) -> Result<u64, TableError> {
            with_meter!(fuel => self.grow_raw_metered(delta, init, fuel, limiter))
        }

        /// # Contract
        ///
        /// ```text
        /// ensures: GrowsTableRaw (optional_rules L.rules) delta init
        ///     (metered_value self.old (Some fuel.old) (Some limiter.old)) result
        ///     (metered_value self.new (Some fuel.new) (Some limiter.new))
        /// ```
        ///
        /// Definitions: [`GrowsTableRaw`](crate::specs::store::TableSpecs#GrowsTableRaw), [`optional_rules`](crate::specs::meter::LimiterSpecs#optional_rules), [`metered_value`](crate::specs::store::GrowthSpecs#metered_value).
        ///
        /// `L` is the type of the limiter, a [`ResourceLimiter`](crate::machine::ResourceLimiter#contract).
        #[inline(always)]
        fn grow_raw_metered<L: ResourceLimiter>(
            &mut self,
            delta: u64,
            init: RawRef,
            fuel: &mut Fuel,
            limiter: &mut L,
        ) -> Result<u64, TableError> {
            if delta == 0 {
                return Ok(self.size());
            }
            self.grow_raw_asked(delta, init, fuel, limiter)
        }

        /// A growth by at least one element, for which the limiter is asked. A growth by nothing is a test
        /// where it is called, so that the calls of a machine beside it don't pay for this function.
        ///
        /// # Contract
        ///
        /// ```text
        /// requires asked: delta ≢ 0
        /// ensures grown: GrowsTableRaw (optional_rules L.rules) delta init
        ///     (metered_value self.old (Some fuel.old) (Some limiter.old)) result
        ///     (metered_value self.new (Some fuel.new) (Some limiter.new))
        /// ```
        ///
        /// Definitions: [`GrowsTableRaw`](crate::specs::store::TableSpecs#GrowsTableRaw), [`optional_rules`](crate::specs::meter::LimiterSpecs#optional_rules), [`metered_value`](crate::specs::store::GrowthSpecs#metered_value).
        ///
        /// `L` is the type of the limiter, a [`ResourceLimiter`](crate::machine::ResourceLimiter#contract).
        #[inline]
        fn grow_raw_asked<L: ResourceLimiter>(
            &mut self,
            delta: u64,
            init: RawRef,
            fuel: &mut Fuel,
            limiter: &mut L,
        ) -> Result<u64, TableError> {
            let size = self.elements.len();
            let Some(desired) = self.ty.grown_size(size as u64, delta) else {
                return Err(TableError::GrowOutOfBounds);
            };
            let answer = limiter.table_growing(size, desired, self.ty.maximum_size());
            permission(answer, TableError::GrowOutOfBounds, DENIED)?;
            if !self.ty.allows_size(desired) {
                return Err(tell(limiter, TableError::GrowOutOfBounds, DENIED));
            }
            if let Err(required_fuel) = charge::<RawRef>(fuel, delta) {
                return Err(tell(
                    limiter,
                    TableError::OutOfFuel { required_fuel },
                    DENIED,
                ));
            }
            if self.elements.resize(desired, init).is_err() {
                return Err(tell(limiter, TableError::OutOfSystemMemory, DENIED));
            }
            Ok(size as u64)
        }

        /// The element at an index with its type, or `None` past the end.
        ///
        /// # Contract
        ///
        /// ```text
        /// ensures: result ≡ element_at self.now index
        /// ```
        ///
        /// Definitions: [`element_at`](crate::specs::store::TableSpecs#element_at).
        #[must_use]
        #[inline]
        pub fn get(&self, index: u64) -> Option<TypedRawRef> {
            let index = usize::try_from(index).ok()?;
            let raw = *self.elements.as_slice().get(index)?;
            Some(TypedRawRef::new(raw, self.ty.element()))
        }

        /// Sets the element at an index.
        ///
        /// # Errors
        ///
        /// In the order of the tests: [`ElementTypeMismatch`](crate::TableError::ElementTypeMismatch) if the reference is of another type; [`SetOutOfBounds`](crate::TableError::SetOutOfBounds) past the end.
        ///
        /// # Contract
        ///
        /// ```text
        /// ensures: SetsTable index value self.old result self.new
        /// ```
        ///
        /// Definitions: [`SetsTable`](crate::specs::store::TableSpecs#SetsTable).
        #[inline]
        pub fn set(&mut self, index: u64, value: TypedRawRef) -> Result<(), TableError> {
            self.ty.ensure_element_type_matches(value.ty)?;
            self.set_raw(index, value.raw)
        }

        /// Sets the element at an index. The reference's type isn't tested: that is up to the caller.
        ///
        /// # Errors
        ///
        /// [`SetOutOfBounds`](crate::TableError::SetOutOfBounds) past the end.
        ///
        /// # Contract
        ///
        /// ```text
        /// ensures: SetsTableRaw index value self.old result self.new
        /// ```
        ///
        /// Definitions: [`SetsTableRaw`](crate::specs::store::TableSpecs#SetsTableRaw).
        #[inline]
        pub fn set_raw(&mut self, index: u64, value: RawRef) -> Result<(), TableError> {
            let index = usize::try_from(index).map_err(|_| TableError::SetOutOfBounds)?;
            if index >= self.elements.len() {
                return Err(TableError::SetOutOfBounds);
            }
            write_range(self.elements.as_mut_slice(), index, &[value]);
            Ok(())
        }

        /// Copies `len` items of an element segment, from `src` on, over the elements from `dst` on.
        /// Copying no items costs no fuel.
        ///
        /// # Errors
        ///
        /// In the order of the tests: [`ElementTypeMismatch`](crate::TableError::ElementTypeMismatch) if the items are of another type; [`InitOutOfBounds`](crate::TableError::InitOutOfBounds) if a range ends past the segment or the table; [`OutOfFuel`](crate::TableError::OutOfFuel).
        ///
        /// # Contract
        ///
        /// ```text
        /// ensures: WritesTable (initialization_of dst src len (segment_of element.entry))
        ///     (metered self.old (at_entry fuel.entry)) result (metered self.new (at_exit fuel.exit))
        /// ```
        ///
        /// Definitions: [`WritesTable`](crate::specs::store::TableSpecs#WritesTable), [`initialization_of`](crate::specs::store::TableSpecs#initialization_of), [`segment_of`](crate::specs::store::SegmentSpecs#segment_of), [`metered`](crate::specs::store::GrowthSpecs#metered), [`at_entry`](crate::specs::meter::MeterSpecs#meter_at_entry), [`at_exit`](crate::specs::meter::MeterSpecs#meter_at_exit).
        #[inline]
        pub fn init(
            &mut self,
            element: ElementSegmentRef,
            dst: u64,
            src: u32,
            len: u32,
            fuel: Option<&mut Fuel>,
        ) -> Result<(), TableError> {
            with_meter!(fuel => self.init_metered(element, dst, src, len, fuel))
        }

        /// As `init`, with a meter that isn't optional.
        ///
        /// # Errors
        ///
        /// Those of `init`.
        ///
        /// # Contract
        ///
        /// ```text
        /// ensures: WritesTable (initialization_of dst src len (segment_of element.entry))
        ///     (metered self.old (Some fuel.old)) result (metered self.new (Some fuel.new))
        /// ```
        ///
        /// Definitions: [`WritesTable`](crate::specs::store::TableSpecs#WritesTable), [`initialization_of`](crate::specs::store::TableSpecs#initialization_of), [`segment_of`](crate::specs::store::SegmentSpecs#segment_of), [`metered`](crate::specs::store::GrowthSpecs#metered).
        #[inline]
        pub fn init_metered(
            &mut self,
            element: ElementSegmentRef,
            dst: u64,
            src: u32,
            len: u32,
            fuel: &mut Fuel,
        ) -> Result<(), TableError> {
            self.ty.ensure_element_type_matches(element.ty())?;
            let (items, src, len) = (element.items(), u64::from(src), u64::from(len));
            init_elements(self.elements.as_mut_slice(), dst, items, src, len, fuel)
        }

        /// Copies `len` elements of another table, from `src` on, over those of a table from `dst` on.
        ///
        /// # Errors
        ///
        /// In the order of the tests: [`ElementTypeMismatch`](crate::TableError::ElementTypeMismatch) if the types differ; [`CopyOutOfBounds`](crate::TableError::CopyOutOfBounds) if a range ends past its table; [`OutOfFuel`](crate::TableError::OutOfFuel), which is tested also if no element is copied.
        ///
        /// # Contract
        ///
        /// ```text
        /// ensures: WritesTable (copy_of dst src len src_table.now)
        ///     (metered dst_table.old (at_entry fuel.entry)) result
        ///     (metered dst_table.new (at_exit fuel.exit))
        /// ```
        ///
        /// Definitions: [`WritesTable`](crate::specs::store::TableSpecs#WritesTable), [`copy_of`](crate::specs::store::TableSpecs#copy_of), [`metered`](crate::specs::store::GrowthSpecs#metered), [`at_entry`](crate::specs::meter::MeterSpecs#meter_at_entry), [`at_exit`](crate::specs::meter::MeterSpecs#meter_at_exit).
        #[inline]
        pub fn copy(
            dst_table: &mut Table,
            dst: u64,
            src_table: &Table,
            src: u64,
            len: u64,
            fuel: Option<&mut Fuel>,
        ) -> Result<(), TableError> {
            with_meter!(fuel => dst_table.copy_metered(dst, src_table, src, len, fuel))
        }

        /// As `copy`, with a meter that isn't optional.
        ///
        /// # Errors
        ///
        /// Those of `copy`.
        ///
        /// # Contract
        ///
        /// ```text
        /// ensures: WritesTable (copy_of dst src len src_table.now)
        ///     (metered self.old (Some fuel.old)) result (metered self.new (Some fuel.new))
        /// ```
        ///
        /// Definitions: [`WritesTable`](crate::specs::store::TableSpecs#WritesTable), [`copy_of`](crate::specs::store::TableSpecs#copy_of), [`metered`](crate::specs::store::GrowthSpecs#metered).
        #[inline]
        pub fn copy_metered(
            &mut self,
            dst: u64,
            src_table: &Table,
            src: u64,
            len: u64,
            fuel: &mut Fuel,
        ) -> Result<(), TableError> {
            self.ty
                .ensure_element_type_matches(src_table.ty.element())?;
            let elements = self.elements.as_mut_slice();
            let (items, outside) = (src_table.elements.as_slice(), TableError::CopyOutOfBounds);
            copy_items(elements, dst, items, src, len, outside, fuel)
        }

        /// Copies `len` elements from `src` on over those from `dst` on: the old ones if they overlap.
        ///
        /// # Errors
        ///
        /// In the order of the tests: [`CopyOutOfBounds`](crate::TableError::CopyOutOfBounds) if a range ends past the table; [`OutOfFuel`](crate::TableError::OutOfFuel), which is tested also if no element is copied.
        ///
        /// # Contract
        ///
        /// ```text
        /// ensures: WritesTable (copy_of dst src len self.old)
        ///     (metered self.old (at_entry fuel.entry)) result (metered self.new (at_exit fuel.exit))
        /// ```
        ///
        /// Definitions: [`WritesTable`](crate::specs::store::TableSpecs#WritesTable), [`copy_of`](crate::specs::store::TableSpecs#copy_of), [`metered`](crate::specs::store::GrowthSpecs#metered), [`at_entry`](crate::specs::meter::MeterSpecs#meter_at_entry), [`at_exit`](crate::specs::meter::MeterSpecs#meter_at_exit).
        #[inline]
        pub fn copy_within(
            &mut self,
            dst: u64,
            src: u64,
            len: u64,
            fuel: Option<&mut Fuel>,
        ) -> Result<(), TableError> {
            with_meter!(fuel => self.copy_within_metered(dst, src, len, fuel))
        }

        /// As `copy_within`, with a meter that isn't optional.
        ///
        /// # Errors
        ///
        /// Those of `copy_within`.
        ///
        /// # Contract
        ///
        /// ```text
        /// ensures: WritesTable (copy_of dst src len self.old)
        ///     (metered self.old (Some fuel.old)) result (metered self.new (Some fuel.new))
        /// ```
        ///
        /// Definitions: [`WritesTable`](crate::specs::store::TableSpecs#WritesTable), [`copy_of`](crate::specs::store::TableSpecs#copy_of), [`metered`](crate::specs::store::GrowthSpecs#metered).
        #[inline]
        pub fn copy_within_metered(
            &mut self,
            dst: u64,
            src: u64,
            len: u64,
            fuel: &mut Fuel,
        ) -> Result<(), TableError> {
            let (elements, outside) = (self.elements.as_mut_slice(), TableError::CopyOutOfBounds);
            copy_items_within(elements, dst, src, len, outside, fuel)
        }

        /// Fills `len` elements from `dst` on with a reference.
        ///
        /// # Errors
        ///
        /// [`ElementTypeMismatch`](crate::TableError::ElementTypeMismatch) if the reference is of another type; then those of `fill_raw`.
        ///
        /// # Contract
        ///
        /// ```text
        /// ensures: WritesTable (filling_of dst val len)
        ///     (metered self.old (at_entry fuel.entry)) result (metered self.new (at_exit fuel.exit))
        /// ```
        ///
        /// Definitions: [`WritesTable`](crate::specs::store::TableSpecs#WritesTable), [`filling_of`](crate::specs::store::TableSpecs#filling_of), [`metered`](crate::specs::store::GrowthSpecs#metered), [`at_entry`](crate::specs::meter::MeterSpecs#meter_at_entry), [`at_exit`](crate::specs::meter::MeterSpecs#meter_at_exit).
        #[inline]
        pub fn fill(
            &mut self,
            dst: u64,
            val: TypedRawRef,
            len: u64,
            fuel: Option<&mut Fuel>,
        ) -> Result<(), TableError> {
            with_meter!(fuel => self.fill_metered(dst, val, len, fuel))
        }

        /// As `fill`, with a meter that isn't optional.
        ///
        /// # Errors
        ///
        /// Those of `fill`.
        ///
        /// # Contract
        ///
        /// ```text
        /// ensures: WritesTable (filling_of dst val len)
        ///     (metered self.old (Some fuel.old)) result (metered self.new (Some fuel.new))
        /// ```
        ///
        /// Definitions: [`WritesTable`](crate::specs::store::TableSpecs#WritesTable), [`filling_of`](crate::specs::store::TableSpecs#filling_of), [`metered`](crate::specs::store::GrowthSpecs#metered).
        #[inline]
        pub fn fill_metered(
            &mut self,
            dst: u64,
            val: TypedRawRef,
            len: u64,
            fuel: &mut Fuel,
        ) -> Result<(), TableError> {
            self.ty.ensure_element_type_matches(val.ty)?;
            let (elements, outside) = (self.elements.as_mut_slice(), TableError::FillOutOfBounds);
            fill_items(elements, dst, val.raw, len, outside, fuel)
        }

        /// Fills `len` elements from `dst` on with a reference.
        ///
        /// # Errors
        ///
        /// In the order of the tests: [`FillOutOfBounds`](crate::TableError::FillOutOfBounds) if they end past the table; [`OutOfFuel`](crate::TableError::OutOfFuel), which is tested also if no element is filled.
        ///
        /// # Contract
        ///
        /// ```text
        /// ensures: WritesTable (raw_filling_of dst val len)
        ///     (metered self.old (at_entry fuel.entry)) result (metered self.new (at_exit fuel.exit))
        /// ```
        ///
        /// Definitions: [`WritesTable`](crate::specs::store::TableSpecs#WritesTable), [`raw_filling_of`](crate::specs::store::TableSpecs#raw_filling_of), [`metered`](crate::specs::store::GrowthSpecs#metered), [`at_entry`](crate::specs::meter::MeterSpecs#meter_at_entry), [`at_exit`](crate::specs::meter::MeterSpecs#meter_at_exit).
        #[inline]
        pub fn fill_raw(
            &mut self,
            dst: u64,
            val: RawRef,
            len: u64,
            fuel: Option<&mut Fuel>,
        ) -> Result<(), TableError> {
            let outside = TableError::FillOutOfBounds;
            with_meter!(fuel => fill_items(self.elements.as_mut_slice(), dst, val, len, outside, fuel))
        }
    }
}

pub use memory::{Buffer, ByteBuffer, LinearMemory, Memory, MemoryType, MemoryTypeBuilder, Region};
pub use table::{ElementSegment, ElementSegmentRef, SegmentError, Table, TableType};

/// Makes a call with the meter of an option, or, if there is none, with one that is off. The call
/// is of a function that takes a meter which isn't optional.
///
/// This is a macro because the prover knows what is left in the meter where the option is matched,
/// and not where the option is passed on.
macro_rules! with_meter {
    ($fuel:ident => $call:expr) => {
        match $fuel {
            Some($fuel) => $call,
            None => {
                let mut off = Fuel::unmetered();
                let $fuel = &mut off;
                $call
            }
        }
    };
}

pub(crate) use with_meter;
