//! Fuel metering, resource limits of growth, and the errors of memories and tables.
mod answer_list {
    //! A limiter that answers from a list, and the answers in such a list.

    use crate::proved::meter::error::LimiterError;
    use crate::proved::meter::limiter::{Kind, LimiterByKind};
    use crate::rattle::Vec;

    /// What a limiter answers to one question, and to a notice after it.
    #[derive(Clone, Copy, Debug, PartialEq, Eq)]
    pub enum LimiterAnswer {
        /// It may grow.
        Permit,
        /// It may not.
        Deny,
        /// The answer is an error.
        Error,
        /// It may grow, and the answer to a notice of it is an error.
        Complain,
    }

    /// A limiter that answers each question by the next answer of a list, and permits once there is
    /// none left. It answers a notice by the answer to the last question, and accepts one before any.
    ///
    /// # Model
    ///
    /// ```text
    /// Value = AnswersAhead
    /// view = λ list.
    ///     record { ahead = drop list.taken list.answers.items; last = list.last }
    /// ```
    ///
    /// Definitions: [`AnswersAhead`](crate::specs::meter::AnswerListSpecs#AnswersAhead).
    #[derive(Debug)]
    pub struct AnswerList {
        /// The answers, one for each question.
        answers: Vec<LimiterAnswer>,
        /// How many of them were taken.
        taken: usize,
        /// The answer to the last question: `Permit` before the first.
        last: LimiterAnswer,
    }

    impl AnswerList {
        /// A limiter that was asked nothing yet.
        ///
        /// # Contract
        ///
        /// ```text
        /// ensures: result ≡ new_answers answers.items
        /// ```
        ///
        /// Definitions: [`new_answers`](crate::specs::meter::AnswerListSpecs#new_answers).
        #[must_use]
        #[inline]
        pub fn new(answers: Vec<LimiterAnswer>) -> Self {
            AnswerList {
                answers,
                taken: 0,
                last: LimiterAnswer::Permit,
            }
        }
    }

    /// # Contract
    ///
    /// ```text
    /// kind_rules = answer_list_rules
    /// ```
    ///
    /// Definitions: [`answer_list_rules`](crate::specs::meter::AnswerListSpecs#answer_list_rules).
    impl LimiterByKind for AnswerList {
        #[inline]
        fn growing(&mut self, _: Kind, _: usize, _: usize) -> Result<bool, LimiterError> {
            self.last = match self.answers.get(self.taken) {
                Some(answer) => {
                    self.taken += 1;
                    *answer
                }
                None => LimiterAnswer::Permit,
            };
            match self.last {
                LimiterAnswer::Permit | LimiterAnswer::Complain => Ok(true),
                LimiterAnswer::Deny => Ok(false),
                LimiterAnswer::Error => Err(LimiterError::ResourceLimiterDeniedAllocation),
            }
        }

        #[inline]
        fn grow_failed(&mut self, _: Kind) -> Result<(), LimiterError> {
            match self.last {
                LimiterAnswer::Complain => Err(LimiterError::ResourceLimiterDeniedAllocation),
                _ => Ok(()),
            }
        }
    }
}
mod any_limiter {
    //! A limiter whose kind is chosen at run time: without limits, a quota, or a list of answers.

    use crate::proved::meter::answer_list::AnswerList;
    use crate::proved::meter::error::LimiterError;
    use crate::proved::meter::limiter::{Kind, LimiterByKind};
    use crate::proved::meter::quota::Quota;

    /// A limiter whose kind is chosen while the program runs. It keeps its kind, and answers as a
    /// limiter of that kind.
    #[derive(Debug)]
    pub enum AnyLimiter {
        /// Permits everything, and accepts each notice.
        Unlimited,
        /// A quota.
        Quota(Quota),
        /// A list of answers.
        Answers(AnswerList),
    }

    /// # Contract
    ///
    /// ```text
    /// kind_rules = any_limiter_rules
    /// ```
    ///
    /// Definitions: [`any_limiter_rules`](crate::specs::meter::AnyLimiterSpecs#any_limiter_rules).
    impl LimiterByKind for AnyLimiter {
        /// # Panics
        ///
        /// Panics if the desired size is below the current one.
        #[inline]
        fn growing(&mut self, kind: Kind, from: usize, to: usize) -> Result<bool, LimiterError> {
            assert!(from <= to, "the desired size is below the current one");
            match self {
                AnyLimiter::Unlimited => Ok(true),
                AnyLimiter::Quota(quota) => quota.growing(kind, from, to),
                AnyLimiter::Answers(list) => list.growing(kind, from, to),
            }
        }

        #[inline]
        fn grow_failed(&mut self, kind: Kind) -> Result<(), LimiterError> {
            match self {
                AnyLimiter::Unlimited => Ok(()),
                AnyLimiter::Quota(quota) => quota.grow_failed(kind),
                AnyLimiter::Answers(list) => list.grow_failed(kind),
            }
        }
    }
}
mod error {
    //! Why calls on memories and tables are refused, and the error of a resource limiter.

    use crate::proved::meter::fuel::FuelError;
    use core::fmt;

    /// A resource limiter's error, to a question or a notice. Upstream: `wasmi_core::LimiterError`.
    #[derive(Clone, Copy, Debug, PartialEq, Eq)]
    pub enum LimiterError {
        /// The limiter refuses what it was asked, or rejects the notice that it got.
        ResourceLimiterDeniedAllocation,
    }

    /// # Contract
    ///
    /// ```text
    /// output = λ error. Some (limiter_error_text error)
    /// ```
    ///
    /// Definitions: [`limiter_error_text`](crate::specs::meter::TextsSpecs#limiter_error_text).
    impl fmt::Display for LimiterError {
        #[inline]
        fn fmt(&self, f: &mut fmt::Formatter<'_>) -> fmt::Result {
            f.write_str("resource limiter denied allocation")
        }
    }

    impl core::error::Error for LimiterError {}

    /// Why a call on a linear memory or a memory type is refused. Upstream: `wasmi_core::MemoryError`.
    #[derive(Clone, Copy, Debug, PartialEq, Eq)]
    pub enum MemoryError {
        /// The system refused memory for an owned memory.
        OutOfSystemMemory,
        /// A growth above the greatest number of pages or the maximum, or one that the limiter denies.
        OutOfBoundsGrowth,
        /// A read or a write that ends past the memory.
        OutOfBoundsAccess,
        /// Pages not of 1 byte or 64 KiB, or limits out of order or above the greatest number of pages.
        InvalidMemoryType,
        /// A borrowed buffer that is too short.
        InvalidStaticBufferSize,
        /// The limiter denied a creation, or returned an error to a question or a notice.
        ResourceLimiterDeniedAllocation,
        /// A creation whose minimum has 2^64 bytes or more, or 2^32 where `usize` has 32 bits.
        MinimumSizeOverflow,
        /// Never returned: a maximum above the greatest `usize` counts as that.
        MaximumSizeOverflow,
        /// A growth costs more fuel than is left.
        OutOfFuel {
            /// How much fuel the call takes.
            required_fuel: u64,
        },
    }

    impl MemoryError {
        /// The words of its text, and the number after them, if there is one.
        ///
        /// # Contract
        ///
        /// ```text
        /// ensures: numbered result.0.now result.1 ≡ memory_error_text self.now
        /// ```
        ///
        /// Definitions: [`numbered`](crate::specs::meter::TextsSpecs#numbered), [`memory_error_text`](crate::specs::meter::TextsSpecs#memory_error_text).
        #[must_use]
        #[inline]
        pub(crate) fn words(&self) -> (&'static str, Option<u64>) {
            let words = match self {
                Self::OutOfSystemMemory => {
                    "tried to allocate more virtual memory than available on the system"
                }
                Self::OutOfBoundsGrowth => "out of bounds memory growth",
                Self::OutOfBoundsAccess => "out of bounds memory access",
                Self::InvalidMemoryType => "tried to create an invalid linear memory type",
                Self::InvalidStaticBufferSize => "tried to use too small static buffer",
                Self::ResourceLimiterDeniedAllocation => {
                    "a resource limiter denied to allocate or grow the linear memory"
                }
                Self::MinimumSizeOverflow => {
                    "the minimum size of the memory type overflows the system index type"
                }
                Self::MaximumSizeOverflow => {
                    "the maximum size of the memory type overflows the system index type"
                }
                Self::OutOfFuel { required_fuel } => {
                    return ("not enough fuel. required=", Some(*required_fuel));
                }
            };
            (words, None)
        }
    }

    /// # Contract
    ///
    /// ```text
    /// output = λ error. Some (memory_error_text error)
    /// ```
    ///
    /// Definitions: [`memory_error_text`](crate::specs::meter::TextsSpecs#memory_error_text).
    impl fmt::Display for MemoryError {
        #[inline]
        fn fmt(&self, f: &mut fmt::Formatter<'_>) -> fmt::Result {
            match self.words() {
                (words, None) => f.write_str(words),
                (words, Some(number)) => write!(f, "{words}{number}"),
            }
        }
    }

    impl core::error::Error for MemoryError {}

    /// Why a call on a table is refused. Upstream: `wasmi_core::TableError`.
    #[derive(Clone, Copy, Debug, PartialEq, Eq)]
    #[non_exhaustive]
    pub enum TableError {
        /// The system refused memory.
        OutOfSystemMemory,
        /// A creation whose minimum has 2^32 elements or more, where `usize` has 32 bits.
        MinimumSizeOverflow,
        /// Never returned: a maximum above the greatest `usize` counts as that.
        MaximumSizeOverflow,
        /// The limiter denied a creation, or returned an error to a question or a notice.
        ResourceLimiterDeniedAllocation,
        /// A growth above the greatest number of elements or the maximum, or that the limiter denies.
        GrowOutOfBounds,
        /// An initialization that ends past the table or the element segment.
        InitOutOfBounds,
        /// A fill that ends past the table.
        FillOutOfBounds,
        /// A write past the table.
        SetOutOfBounds,
        /// A copy that ends past one of its tables.
        CopyOutOfBounds,
        /// A reference or an element segment of another type than the table's elements.
        ElementTypeMismatch,
        /// A call costs more fuel than is left.
        OutOfFuel {
            /// How much fuel the call takes.
            required_fuel: u64,
        },
    }

    impl TableError {
        /// The words of its text, and the number after them, if there is one.
        ///
        /// # Contract
        ///
        /// ```text
        /// ensures: numbered result.0.now result.1 ≡ table_error_text self.now
        /// ```
        ///
        /// Definitions: [`numbered`](crate::specs::meter::TextsSpecs#numbered), [`table_error_text`](crate::specs::meter::TextsSpecs#table_error_text).
        #[must_use]
        #[inline]
        pub(crate) fn words(&self) -> (&'static str, Option<u64>) {
            let words = match self {
                Self::OutOfSystemMemory => {
                    "tried to allocate more virtual memory than available on the system"
                }
                Self::MinimumSizeOverflow => "the minimum table size overflows the system bounds",
                Self::MaximumSizeOverflow => "the maximum table size overflows the system bounds",
                Self::ResourceLimiterDeniedAllocation => {
                    "a resource limiter denied to allocate or grow the table"
                }
                Self::GrowOutOfBounds => "out of bounds table access: `table.growth`",
                Self::InitOutOfBounds => "out of bounds table access: `table.init`",
                Self::FillOutOfBounds => "out of bounds table access: `table.fill`",
                Self::SetOutOfBounds => "out of bounds table access: `table.set`",
                Self::CopyOutOfBounds => "out of bounds table access: `table.copy`",
                Self::ElementTypeMismatch => "encountered mismatching table element type",
                Self::OutOfFuel { required_fuel } => {
                    return ("not enough fuel: required=", Some(*required_fuel));
                }
            };
            (words, None)
        }
    }

    /// # Contract
    ///
    /// ```text
    /// output = λ error. Some (table_error_text error)
    /// ```
    ///
    /// Definitions: [`table_error_text`](crate::specs::meter::TextsSpecs#table_error_text).
    impl fmt::Display for TableError {
        #[inline]
        fn fmt(&self, f: &mut fmt::Formatter<'_>) -> fmt::Result {
            match self.words() {
                (words, None) => f.write_str(words),
                (words, Some(number)) => write!(f, "{words}{number}"),
            }
        }
    }

    impl core::error::Error for TableError {}

    /// # Contract
    ///
    /// ```text
    /// from_gives = λ _ error. error ≡ memory.ResourceLimiterDeniedAllocation
    /// ```
    impl From<LimiterError> for MemoryError {
        #[inline]
        fn from(_: LimiterError) -> Self {
            MemoryError::ResourceLimiterDeniedAllocation
        }
    }

    /// # Contract
    ///
    /// ```text
    /// from_gives = λ _ error. error ≡ table.ResourceLimiterDeniedAllocation
    /// ```
    impl From<LimiterError> for TableError {
        #[inline]
        fn from(_: LimiterError) -> Self {
            TableError::ResourceLimiterDeniedAllocation
        }
    }

    /// # Contract
    ///
    /// ```text
    /// try_from_gives = IsOfFuel
    /// ```
    ///
    /// Definitions: [`IsOfFuel`](crate::specs::meter::MeterSpecs#IsOfFuel).
    impl TableError {
        // The error of a meter that is off is handed back. Upstream panics there.
        #[inline]
        pub(crate) fn of_fuel(error: FuelError) -> Result<TableError, FuelError> {
            match error {
                FuelError::OutOfFuel { required_fuel } => {
                    Ok(TableError::OutOfFuel { required_fuel })
                }
                FuelError::FuelMeteringDisabled => Err(error),
            }
        }
    }
}
mod fuel {
    //! Fuel meters, what work costs, which a host may choose, and why a call on a meter is refused.

    use crate::proved::raw::RawRef;
    use core::fmt;

    /// The number of bytes that a copied value counts for, in place of its size in memory. Own:
    /// upstream takes the size in memory of any type.
    ///
    /// # Contract
    ///
    /// ```text
    /// -- The number of bytes, in contracts.
    /// SIZE: ℕ
    /// ```
    pub trait ValueSize {
        /// The number of bytes.
        const SIZE: u64;
    }

    /// The size in memory. Proved are the 1 of a byte and the 4 of a reference and of a `u32`.
    impl<T> ValueSize for T {
        const SIZE: u64 = size_of::<T>() as u64;
    }

    /// What work costs. Upstream: `wasmi_core::FuelCosts`.
    ///
    /// # Contract
    ///
    /// ```text
    /// -- The three costs as one value.
    /// costs: Self → CustomFuelCosts
    /// ```
    pub trait FuelCosts {
        /// How many bytes are copied for one unit of fuel; at 0 each copy costs `u64::MAX`.
        ///
        /// # Contract
        ///
        /// ```text
        /// ensures: result ≡ (costs self.now).bytes_copied_per_fuel
        /// ```
        fn bytes_copied_per_fuel(&self) -> u32;

        /// The fuel for translating one byte.
        ///
        /// # Contract
        ///
        /// ```text
        /// ensures: result ≡ (costs self.now).fuel_per_bytes_translated
        /// ```
        fn fuel_per_bytes_translated(&self) -> u32;

        /// The fuel for validating one byte.
        ///
        /// # Contract
        ///
        /// ```text
        /// ensures: result ≡ (costs self.now).fuel_per_bytes_validated
        /// ```
        fn fuel_per_bytes_validated(&self) -> u32;
    }

    /// Costs that a host chooses. Upstream: `wasmi_core::CustomFuelCosts`.
    #[derive(Clone, Copy, Debug)]
    pub struct CustomFuelCosts {
        /// How many bytes are copied for one unit of fuel; at 0 each copy costs `u64::MAX`.
        pub bytes_copied_per_fuel: u32,
        /// The fuel for translating one byte.
        pub fuel_per_bytes_translated: u32,
        /// The fuel for validating one byte.
        pub fuel_per_bytes_validated: u32,
    }

    /// # Contract
    ///
    /// ```text
    /// costs = λ c. c
    /// ```
    impl FuelCosts for CustomFuelCosts {
        #[inline]
        fn bytes_copied_per_fuel(&self) -> u32 {
            self.bytes_copied_per_fuel
        }

        #[inline]
        fn fuel_per_bytes_translated(&self) -> u32 {
            self.fuel_per_bytes_translated
        }

        #[inline]
        fn fuel_per_bytes_validated(&self) -> u32 {
            self.fuel_per_bytes_validated
        }
    }

    /// The costs if a host chooses none: one unit of fuel for 64 copied bytes, 7 for a translated byte
    /// and 2 for a validated byte.
    const DEFAULT_COSTS: CustomFuelCosts = CustomFuelCosts {
        bytes_copied_per_fuel: 64,
        fuel_per_bytes_translated: 7,
        fuel_per_bytes_validated: 2,
    };

    /// The costs of a meter: those that a host chose, or the default ones. Upstream:
    /// `wasmi_core::FuelCostsProvider`.
    #[derive(Clone, Default)]
    pub struct FuelCostsProvider {
        custom: Option<CustomFuelCosts>,
    }

    impl FuelCostsProvider {
        /// The costs that a host chose.
        ///
        /// # Contract
        ///
        /// ```text
        /// ensures: costs_of result ≡ custom
        /// ```
        ///
        /// Definitions: [`costs_of`](crate::specs::meter::MeterSpecs#costs_of).
        #[must_use]
        #[inline]
        pub fn custom(custom: CustomFuelCosts) -> Self {
            FuelCostsProvider {
                custom: Some(custom),
            }
        }

        /// # Contract
        ///
        /// ```text
        /// ensures: result ≡ costs_of self.now
        /// ```
        ///
        /// Definitions: [`costs_of`](crate::specs::meter::MeterSpecs#costs_of).
        #[inline]
        pub(crate) fn costs(&self) -> CustomFuelCosts {
            self.custom.unwrap_or(DEFAULT_COSTS)
        }

        /// The fuel for translating `len_bytes` bytes, at most `u64::MAX`.
        ///
        /// # Contract
        ///
        /// ```text
        /// ensures: result ≡ cut_product len_bytes (costs_of self.now).fuel_per_bytes_translated
        /// ```
        ///
        /// Definitions: [`cut_product`](crate::specs::meter::MeterSpecs#cut_product), [`costs_of`](crate::specs::meter::MeterSpecs#costs_of).
        #[must_use]
        #[inline]
        pub fn fuel_for_translating_bytes(&self, len_bytes: u64) -> u64 {
            len_bytes.saturating_mul(u64::from(self.costs().fuel_per_bytes_translated))
        }

        /// The fuel for validating `len_bytes` bytes, at most `u64::MAX`.
        ///
        /// # Contract
        ///
        /// ```text
        /// ensures: result ≡ cut_product len_bytes (costs_of self.now).fuel_per_bytes_validated
        /// ```
        ///
        /// Definitions: [`cut_product`](crate::specs::meter::MeterSpecs#cut_product), [`costs_of`](crate::specs::meter::MeterSpecs#costs_of).
        #[must_use]
        #[inline]
        pub fn fuel_for_validating_bytes(&self, len_bytes: u64) -> u64 {
            len_bytes.saturating_mul(u64::from(self.costs().fuel_per_bytes_validated))
        }

        /// The fuel for copying `len_values` values of a type. If no bytes are copied for a unit of
        /// fuel, it is `u64::MAX`, also for no values.
        ///
        /// # Contract
        ///
        /// ```text
        /// ensures: result ≡ copy_cost (costs_of self.now) len_values T.SIZE
        /// ```
        ///
        /// Definitions: [`copy_cost`](crate::specs::meter::MeterSpecs#copy_cost), [`costs_of`](crate::specs::meter::MeterSpecs#costs_of).
        ///
        /// `T` is a type with the trait `ValueSize`.
        #[must_use]
        #[inline]
        pub fn fuel_for_copying_values<T>(&self, len_values: u64) -> u64 {
            let len_bytes = len_values.saturating_mul(T::SIZE);
            match self.costs().bytes_copied_per_fuel {
                0 => u64::MAX,
                bytes_per_fuel => len_bytes / u64::from(bytes_per_fuel),
            }
        }
    }

    /// Why a call on a fuel meter is refused. Upstream: `wasmi_core::FuelError`.
    #[derive(Clone, Debug, PartialEq, Eq)]
    pub enum FuelError {
        /// The meter is off, so there is no fuel to set, read or consume.
        FuelMeteringDisabled,
        /// Less fuel is left than the `required_fuel` that was asked for. The text is upstream's.
        OutOfFuel {
            /// How much fuel the call takes.
            required_fuel: u64,
        },
    }

    impl FuelError {
        /// The error of a meter that is off.
        ///
        /// # Contract
        ///
        /// ```text
        /// ensures: result ≡ FuelError.FuelMeteringDisabled
        /// ```
        #[cold]
        #[must_use]
        pub fn fuel_metering_disabled() -> Self {
            FuelError::FuelMeteringDisabled
        }

        /// The error if less fuel is left than was asked for.
        ///
        /// # Contract
        ///
        /// ```text
        /// ensures: result ≡ FuelError.OutOfFuel required_fuel
        /// ```
        #[cold]
        #[must_use]
        pub fn out_of_fuel(required_fuel: u64) -> Self {
            FuelError::OutOfFuel { required_fuel }
        }

        /// The words of its text, and the number after them, if there is one.
        ///
        /// # Contract
        ///
        /// ```text
        /// ensures: numbered result.0.now result.1 ≡ fuel_error_text self.now
        /// ```
        ///
        /// Definitions: [`numbered`](crate::specs::meter::TextsSpecs#numbered), [`fuel_error_text`](crate::specs::meter::TextsSpecs#fuel_error_text).
        #[must_use]
        #[inline]
        pub(crate) fn words(&self) -> (&'static str, Option<u64>) {
            match self {
                Self::FuelMeteringDisabled => ("fuel metering is disabled", None),
                Self::OutOfFuel { required_fuel } => {
                    ("ouf of fuel. required=", Some(*required_fuel))
                }
            }
        }
    }

    /// # Contract
    ///
    /// ```text
    /// output = λ error. Some (fuel_error_text error)
    /// ```
    ///
    /// Definitions: [`fuel_error_text`](crate::specs::meter::TextsSpecs#fuel_error_text).
    impl fmt::Display for FuelError {
        #[inline]
        fn fmt(&self, f: &mut fmt::Formatter<'_>) -> fmt::Result {
            match self.words() {
                (words, None) => f.write_str(words),
                (words, Some(number)) => write!(f, "{words}{number}"),
            }
        }
    }

    impl core::error::Error for FuelError {}

    /// A fuel meter. It is on or off, and stays so. Upstream: `wasmi_core::Fuel`.
    ///
    /// # Model
    ///
    /// ```text
    /// Value = Meter
    /// view = λ f. record
    ///     { left = (if f.enabled then Some f.remaining else None); costs = costs_of f.costs }
    /// invariant = λ f. f.enabled ≡ false → f.remaining ≡ 0
    /// ```
    ///
    /// Definitions: [`Meter`](crate::specs::meter::MeterSpecs#Meter), [`costs_of`](crate::specs::meter::MeterSpecs#costs_of).
    #[doc = examples!(meter Fuel)]
    #[derive(Debug)]
    pub struct Fuel {
        remaining: u64,
        enabled: bool,
        costs: FuelCostsProvider,
    }

    impl Fuel {
        /// A meter that has no fuel yet.
        ///
        /// # Contract
        ///
        /// ```text
        /// ensures: result
        ///     ≡ record { left = (if enabled then Some 0 else None); costs = costs_of costs }
        /// ```
        ///
        /// Definitions: [`costs_of`](crate::specs::meter::MeterSpecs#costs_of).
        #[must_use]
        #[inline]
        pub fn new(enabled: bool, costs: FuelCostsProvider) -> Self {
            Fuel {
                remaining: 0,
                enabled,
                costs,
            }
        }

        /// A meter that is off, at the default costs.
        ///
        /// # Contract
        ///
        /// ```text
        /// ensures: result ≡ record { left = None; costs = default_costs }
        /// ```
        ///
        /// Definitions: [`default_costs`](crate::specs::meter::MeterSpecs#default_costs).
        #[must_use]
        #[inline]
        pub(crate) fn unmetered() -> Self {
            Fuel::new(false, FuelCostsProvider::default())
        }

        /// # Errors
        ///
        /// [`FuelMeteringDisabled`](crate::FuelError::FuelMeteringDisabled) if the meter is off.
        ///
        /// # Contract
        ///
        /// ```text
        /// ensures on: IsSome self.now.left → result ≡ Ok tt
        /// ensures off: self.now.left ≡ None → result ≡ Err FuelError.FuelMeteringDisabled
        /// ```
        #[inline]
        fn check_fuel_metering_enabled(&self) -> Result<(), FuelError> {
            if !self.enabled {
                return Err(FuelError::fuel_metering_disabled());
            }
            Ok(())
        }

        /// Sets the fuel that is left.
        ///
        /// # Errors
        ///
        /// [`FuelMeteringDisabled`](crate::FuelError::FuelMeteringDisabled) if the meter is off.
        ///
        /// # Contract
        ///
        /// ```text
        /// ensures on: IsSome self.old.left
        ///     → (result ≡ Ok tt) × (self.new ≡ meter_set self.old fuel)
        /// ensures off: self.old.left ≡ None
        ///     → (result ≡ Err FuelError.FuelMeteringDisabled) × (self.new ≡ self.old)
        /// ```
        ///
        /// Definitions: [`meter_set`](crate::specs::meter::MeterSpecs#meter_set).
        #[inline]
        pub fn set_fuel(&mut self, fuel: u64) -> Result<(), FuelError> {
            self.check_fuel_metering_enabled()?;
            self.remaining = fuel;
            Ok(())
        }

        /// Returns the fuel that is left.
        ///
        /// # Errors
        ///
        /// [`FuelMeteringDisabled`](crate::FuelError::FuelMeteringDisabled) if the meter is off.
        ///
        /// # Contract
        ///
        /// ```text
        /// ensures on: IsSome self.now.left → result ≡ Ok (amount_left self.now)
        /// ensures off: self.now.left ≡ None → result ≡ Err FuelError.FuelMeteringDisabled
        /// ```
        ///
        /// Definitions: [`amount_left`](crate::specs::meter::MeterSpecs#amount_left).
        #[inline]
        pub fn get_fuel(&self) -> Result<u64, FuelError> {
            self.check_fuel_metering_enabled()?;
            Ok(self.remaining)
        }

        /// Consumes `delta` fuel, and returns what is left. It doesn't test whether the meter is on:
        /// one that is off has no fuel left.
        ///
        /// # Errors
        ///
        /// [`OutOfFuel`](crate::FuelError::OutOfFuel) with the amount if less is left; then nothing is consumed.
        ///
        /// # Contract
        ///
        /// ```text
        /// ensures: ConsumesFuel self.old delta (amount_left self.old - delta) result self.new
        /// ```
        ///
        /// Definitions: [`ConsumesFuel`](crate::specs::meter::MeterSpecs#ConsumesFuel), [`amount_left`](crate::specs::meter::MeterSpecs#amount_left).
        #[inline]
        pub fn consume_fuel_unchecked(&mut self, delta: u64) -> Result<u64, FuelError> {
            let Some(left) = self.remaining.checked_sub(delta) else {
                return Err(FuelError::out_of_fuel(delta));
            };
            self.remaining = left;
            Ok(left)
        }

        /// Consumes the fuel that `f`, called if the meter is on, makes of the costs; returns the rest.
        ///
        /// # Errors
        ///
        /// [`FuelMeteringDisabled`](crate::FuelError::FuelMeteringDisabled) if the meter is off.
        /// [`OutOfFuel`](crate::FuelError::OutOfFuel) with the amount if less is left; then nothing is consumed.
        ///
        /// # Contract
        ///
        /// ```text
        /// requires callable: IsSome self.old.left → C.IsAlwaysCallable f
        /// ensures on: IsSome self.old.left → (amount : ℕ) × Computes C.FnOnce f self.old.costs amount
        ///     × ConsumesFuel self.old amount (amount_left self.old - amount) result self.new
        /// ensures off: self.old.left ≡ None
        ///     → (result ≡ Err FuelError.FuelMeteringDisabled) × (self.new ≡ self.old)
        /// ```
        ///
        /// Definitions: [`Computes`](crate::specs::meter::MeterSpecs#Computes), [`ConsumesFuel`](crate::specs::meter::MeterSpecs#ConsumesFuel), [`amount_left`](crate::specs::meter::MeterSpecs#amount_left).
        ///
        /// `C` is the type of the closure.
        #[inline]
        pub fn consume_fuel(
            &mut self,
            f: impl FnOnce(&FuelCostsProvider) -> u64,
        ) -> Result<u64, FuelError> {
            self.check_fuel_metering_enabled()?;
            let delta = f(&self.costs);
            self.consume_fuel_unchecked(delta)
        }

        /// Consumes the fuel that `f` computes from the costs; if the meter is off, `f` isn't called.
        ///
        /// # Errors
        ///
        /// [`OutOfFuel`](crate::FuelError::OutOfFuel) with the amount if less is left; then nothing is consumed.
        ///
        /// # Contract
        ///
        /// ```text
        /// requires callable: IsSome self.old.left → C.IsAlwaysCallable f
        /// ensures on: IsSome self.old.left → (amount : ℕ) × Computes C.FnOnce f self.old.costs amount
        ///     × ConsumesFuel self.old amount tt result self.new
        /// ensures off: self.old.left ≡ None → (result ≡ Ok tt) × (self.new ≡ self.old)
        /// ```
        ///
        /// Definitions: [`Computes`](crate::specs::meter::MeterSpecs#Computes), [`ConsumesFuel`](crate::specs::meter::MeterSpecs#ConsumesFuel).
        ///
        /// `C` is the type of the closure.
        #[inline]
        pub fn consume_fuel_if(
            &mut self,
            f: impl FnOnce(&FuelCostsProvider) -> u64,
        ) -> Result<(), FuelError> {
            if !self.enabled {
                return Ok(());
            }
            let delta = f(&self.costs);
            self.consume_fuel_unchecked(delta)?;
            Ok(())
        }
    }
}
mod limiter {
    //! Resource limiters: each is asked before a growth of a memory or a table, and notified if a
    //! growth that it permitted fails. Limiters by the kind of what grows, without limits, and absent
    //! ones; and references to limiters that are lent.

    use crate::proved::meter::error::{LimiterError, MemoryError, TableError};
    use core::fmt;

    /// What grows: a memory, in bytes, or a table, in elements. Own: upstream has two methods for each.
    #[derive(Clone, Copy, Debug, PartialEq, Eq)]
    pub enum Kind {
        /// The bytes of linear memories.
        Bytes,
        /// The elements of tables.
        Elements,
    }

    /// Decides which memories and tables may be made and may grow.
    ///
    /// Its `rules` say which answers it may give to a question or a notice, and which state it has
    /// afterwards; each implementation has its own. A creation asks with a current size of 0.
    ///
    /// # What the answers mean
    ///
    /// To a question `Ok(true)` permits, and nothing else does. After `Ok(false)` a creation returns
    /// `ResourceLimiterDeniedAllocation`, and a growth returns `OutOfBoundsGrowth` for a memory and
    /// `GrowOutOfBounds` for a table. After `Err` both return `ResourceLimiterDeniedAllocation`. In
    /// these cases nothing has changed and no notice follows.
    ///
    /// A notice follows a permission if the creation or growth then fails. After `Ok(())` the call
    /// returns the error that the notice named. After `Err` it returns
    /// `ResourceLimiterDeniedAllocation` instead.
    ///
    /// Upstream: `wasmi_core::ResourceLimiter`, whose notices have default bodies; here each
    /// implementation writes them.
    ///
    /// # Contract
    ///
    /// ```text
    /// -- The answers that it may give to a question and to a notice, and its state afterwards.
    /// rules: Rules Self
    /// ```
    ///
    /// Definitions: [`Rules`](crate::specs::meter::LimiterSpecs#Rules).
    pub trait ResourceLimiter {
        /// May a memory grow from `current` to `desired` bytes? `maximum`, in bytes, is the most that
        /// its type allows. `Ok(true)` permits; `Ok(false)` and `Err` deny.
        ///
        /// # Errors
        ///
        /// An implementation's own. The call then returns `ResourceLimiterDeniedAllocation`.
        ///
        /// # Contract
        ///
        /// ```text
        /// requires grows: current ≤ desired
        /// ensures asked: rules.asked self.old
        ///     (record { kind = Bytes; current = current; desired = desired; maximum = maximum })
        ///     result self.new
        /// ```
        fn memory_growing(
            &mut self,
            current: usize,
            desired: usize,
            maximum: Option<usize>,
        ) -> Result<bool, LimiterError>;

        /// May a table grow from `current` to `desired` elements? `maximum` is the most that its type
        /// allows. `Ok(true)` permits; `Ok(false)` and `Err` deny.
        ///
        /// # Errors
        ///
        /// An implementation's own. The call then returns `ResourceLimiterDeniedAllocation`.
        ///
        /// # Contract
        ///
        /// ```text
        /// requires grows: current ≤ desired
        /// ensures asked: rules.asked self.old
        ///     (record { kind = Elements; current = current; desired = desired; maximum = maximum })
        ///     result self.new
        /// ```
        fn table_growing(
            &mut self,
            current: usize,
            desired: usize,
            maximum: Option<usize>,
        ) -> Result<bool, LimiterError>;

        /// A permitted growth of a memory failed by this error, which the call returns after `Ok(())`.
        ///
        /// # Errors
        ///
        /// An implementation's own. The call then returns `ResourceLimiterDeniedAllocation`.
        ///
        /// # Contract
        ///
        /// ```text
        /// ensures: rules.noticed self.old (MemoryFailure error.now) result self.new
        /// ```
        ///
        /// Definitions: [`MemoryFailure`](crate::specs::meter::LimiterSpecs#MemoryFailure).
        fn memory_grow_failed(&mut self, error: &MemoryError) -> Result<(), LimiterError>;

        /// A permitted growth of a table failed by this error, which the call returns after `Ok(())`.
        ///
        /// # Errors
        ///
        /// An implementation's own. The call then returns `ResourceLimiterDeniedAllocation`.
        ///
        /// # Contract
        ///
        /// ```text
        /// ensures: rules.noticed self.old (TableFailure error.now) result self.new
        /// ```
        ///
        /// Definitions: [`TableFailure`](crate::specs::meter::LimiterSpecs#TableFailure).
        fn table_grow_failed(&mut self, error: &TableError) -> Result<(), LimiterError>;

        /// The greatest number of instances of a store. No call of this library asks for it.
        fn instances(&self) -> usize;

        /// The greatest number of tables of a store. No call of this library asks for it.
        fn tables(&self) -> usize;

        /// The greatest number of linear memories of a store. No call of this library asks for it.
        fn memories(&self) -> usize;
    }

    /// A limiter that may be absent: without one everything is permitted, each notice is accepted, and
    /// any number of instances, tables and memories is allowed.
    ///
    /// # Contract
    ///
    /// ```text
    /// rules = optional_rules L.rules
    /// ```
    ///
    /// Definitions: [`optional_rules`](crate::specs::meter::LimiterSpecs#optional_rules).
    ///
    /// `L` is the type of the limiter, a [`ResourceLimiter`](crate::machine::ResourceLimiter#contract).
    impl<L: ResourceLimiter> ResourceLimiter for Option<L> {
        #[inline]
        fn memory_growing(
            &mut self,
            current: usize,
            desired: usize,
            maximum: Option<usize>,
        ) -> Result<bool, LimiterError> {
            match self {
                Some(limiter) => limiter.memory_growing(current, desired, maximum),
                None => Ok(true),
            }
        }

        #[inline]
        fn table_growing(
            &mut self,
            current: usize,
            desired: usize,
            maximum: Option<usize>,
        ) -> Result<bool, LimiterError> {
            match self {
                Some(limiter) => limiter.table_growing(current, desired, maximum),
                None => Ok(true),
            }
        }

        #[inline]
        fn memory_grow_failed(&mut self, error: &MemoryError) -> Result<(), LimiterError> {
            match self {
                Some(limiter) => limiter.memory_grow_failed(error),
                None => Ok(()),
            }
        }

        #[inline]
        fn table_grow_failed(&mut self, error: &TableError) -> Result<(), LimiterError> {
            match self {
                Some(limiter) => limiter.table_grow_failed(error),
                None => Ok(()),
            }
        }

        /// # Contract
        ///
        /// ```text
        /// ensures absent: self.now ≡ None → result ≡ usize.MAX
        /// ```
        #[inline]
        fn instances(&self) -> usize {
            self.as_ref()
                .map_or(usize::MAX, |limiter| limiter.instances())
        }

        /// # Contract
        ///
        /// ```text
        /// ensures absent: self.now ≡ None → result ≡ usize.MAX
        /// ```
        #[inline]
        fn tables(&self) -> usize {
            self.as_ref().map_or(usize::MAX, |limiter| limiter.tables())
        }

        /// # Contract
        ///
        /// ```text
        /// ensures absent: self.now ≡ None → result ≡ usize.MAX
        /// ```
        #[inline]
        fn memories(&self) -> usize {
            self.as_ref()
                .map_or(usize::MAX, |limiter| limiter.memories())
        }
    }

    /// Decides by the kind of what grows, and ignores the maximum of its type and the error of a
    /// notice. Each is a [`ResourceLimiter`] that allows any number of instances, tables and memories.
    ///
    /// # Contract
    ///
    /// ```text
    /// -- The answers that it may give to a question and to a notice, and its state afterwards.
    /// kind_rules: Rules Self
    /// ```
    ///
    /// Definitions: [`Rules`](crate::specs::meter::LimiterSpecs#Rules).
    #[doc = examples!(meter LimiterByKind)]
    pub trait LimiterByKind {
        /// May something of this kind grow from `current` to `desired`, in bytes or elements? The
        /// answers mean what they mean for a [`ResourceLimiter`]: only `Ok(true)` permits.
        ///
        /// # Errors
        ///
        /// An implementation's own. The call then returns `ResourceLimiterDeniedAllocation`.
        ///
        /// # Contract
        ///
        /// ```text
        /// requires grows: current ≤ desired
        /// ensures asked: (maximum : Option ℕ) → kind_rules.asked self.old
        ///     (record { kind = kind; current = current; desired = desired; maximum = maximum })
        ///     result self.new
        /// ```
        fn growing(
            &mut self,
            kind: Kind,
            current: usize,
            desired: usize,
        ) -> Result<bool, LimiterError>;

        /// A permitted growth of this kind failed. After `Ok(())` the call returns its error.
        ///
        /// # Errors
        ///
        /// An implementation's own. The call then returns `ResourceLimiterDeniedAllocation`.
        ///
        /// # Contract
        ///
        /// ```text
        /// ensures: (failure : Failure) → kind_of failure ≡ kind
        ///     → kind_rules.noticed self.old failure result self.new
        /// ```
        ///
        /// Definitions: [`Failure`](crate::specs::meter::LimiterSpecs#Failure), [`kind_of`](crate::specs::meter::LimiterSpecs#kind_of).
        fn grow_failed(&mut self, kind: Kind) -> Result<(), LimiterError>;
    }

    /// # Contract
    ///
    /// ```text
    /// rules = L.kind_rules
    /// ```
    ///
    /// `L` is the type of the limiter, a [`LimiterByKind`](crate::machine::LimiterByKind#contract).
    impl<L: LimiterByKind> ResourceLimiter for L {
        #[inline]
        fn memory_growing(
            &mut self,
            current: usize,
            desired: usize,
            _maximum: Option<usize>,
        ) -> Result<bool, LimiterError> {
            self.growing(Kind::Bytes, current, desired)
        }

        #[inline]
        fn table_growing(
            &mut self,
            current: usize,
            desired: usize,
            _maximum: Option<usize>,
        ) -> Result<bool, LimiterError> {
            self.growing(Kind::Elements, current, desired)
        }

        #[inline]
        fn memory_grow_failed(&mut self, _error: &MemoryError) -> Result<(), LimiterError> {
            self.grow_failed(Kind::Bytes)
        }

        #[inline]
        fn table_grow_failed(&mut self, _error: &TableError) -> Result<(), LimiterError> {
            self.grow_failed(Kind::Elements)
        }

        /// # Contract
        ///
        /// ```text
        /// ensures: result ≡ usize.MAX
        /// ```
        #[inline]
        fn instances(&self) -> usize {
            usize::MAX
        }

        /// # Contract
        ///
        /// ```text
        /// ensures: result ≡ usize.MAX
        /// ```
        #[inline]
        fn tables(&self) -> usize {
            usize::MAX
        }

        /// # Contract
        ///
        /// ```text
        /// ensures: result ≡ usize.MAX
        /// ```
        #[inline]
        fn memories(&self) -> usize {
            usize::MAX
        }
    }

    /// A limiter that permits everything and accepts each notice.
    #[derive(Clone, Copy, Debug)]
    pub struct NoLimits;

    /// # Contract
    ///
    /// ```text
    /// kind_rules = unlimited_rules
    /// ```
    ///
    /// Definitions: [`unlimited_rules`](crate::specs::meter::LimiterSpecs#unlimited_rules).
    impl LimiterByKind for NoLimits {
        #[inline]
        fn growing(&mut self, _: Kind, _: usize, _: usize) -> Result<bool, LimiterError> {
            Ok(true)
        }

        #[inline]
        fn grow_failed(&mut self, _: Kind) -> Result<(), LimiterError> {
            Ok(())
        }
    }

    mod sealed {
        #[allow(unnameable_types)]
        pub trait Sealed {}

        impl<'a, L> Sealed for &'a mut L {}
    }

    /// What lends a value: a `&mut` reference, and nothing else. Own: it gives contracts a name for the
    /// reference after the loan.
    ///
    /// # Contract
    ///
    /// ```text
    /// -- The present value of what is lent.
    /// shown: Self → Self.Lent
    /// -- The lender after a loan that left this value.
    /// last: Self → Self.Lent → Self
    /// ```
    ///
    /// Definitions: [`loan`](crate::specs::meter::LimiterSpecs#loan).
    pub trait Lender: sealed::Sealed {
        /// The type of what is lent.
        type Lent;

        /// Lends it.
        ///
        /// # Contract
        ///
        /// ```text
        /// ensures* writes_back: sem 𝓛
        ///     (Lends Self.row Self.Lent.row self.entry result (last self.old))
        /// ensures value: result.now ≡ shown self.old
        /// ```
        fn lend(&mut self) -> &mut Self::Lent;
    }

    /// # Contract
    ///
    /// ```text
    /// shown = λ l. l.now
    /// last = at_last
    /// ```
    impl<'a, L> Lender for &'a mut L {
        type Lent = L;

        #[inline]
        fn lend(&mut self) -> &mut Self::Lent {
            &mut **self
        }
    }

    /// A reference to a limiter, or none. Its name in signatures is [`ResourceLimiterRef`].
    pub struct LimiterRef<R> {
        limiter: Option<R>,
    }

    impl<R> fmt::Debug for LimiterRef<R> {
        #[inline]
        fn fmt(&self, f: &mut fmt::Formatter<'_>) -> fmt::Result {
            f.write_str("ResourceLimiterRef(...)")
        }
    }

    /// A borrowed limiter, or none. Without a limiter every growth is permitted (`Ok(true)`), and every
    /// notice is accepted (`Ok(())`).
    ///
    /// If this reference goes out of scope or is dropped, nothing is known of the limiter afterwards.
    /// To know its state, end the loan by [`LimiterRef::into_resource_limiter`], or use a function that
    /// borrows the limiter for one call: `new_lending` and `grow_lending` of memories and tables,
    /// `step_lending` and `run_lending` of machines. Upstream: `wasmi_core::ResourceLimiterRef`.
    pub type ResourceLimiterRef<'a, L> = LimiterRef<&'a mut L>;

    /// # Contract
    ///
    /// ```text
    /// is_default = λ r. loan r ≡ None
    /// ```
    ///
    /// Definitions: [`loan`](crate::specs::meter::LimiterSpecs#loan).
    impl<'a, L> Default for LimiterRef<&'a mut L> {
        #[inline]
        fn default() -> Self {
            LimiterRef { limiter: None }
        }
    }

    /// # Contract
    ///
    /// ```text
    /// from_gives = λ l r. loan r ≡ Some l
    /// ```
    ///
    /// Definitions: [`loan`](crate::specs::meter::LimiterSpecs#loan).
    impl<'a, L> From<&'a mut L> for LimiterRef<&'a mut L> {
        #[inline]
        fn from(limiter: &'a mut L) -> Self {
            LimiterRef {
                limiter: Some(limiter),
            }
        }
    }

    impl<R> LimiterRef<R> {
        /// Ends the loan, and returns the reference to the limiter, if there is one. From then on the
        /// state of the limiter is known.
        ///
        /// # Contract
        ///
        /// ```text
        /// ensures: result ≡ loan self
        /// ```
        ///
        /// Definitions: [`loan`](crate::specs::meter::LimiterSpecs#loan).
        #[must_use]
        #[inline]
        pub fn into_resource_limiter(self) -> Option<R> {
            self.limiter
        }

        /// Ends the loan of a limiter that is there, as `into_resource_limiter` does. Own: functions
        /// that borrow a limiter for one call end its loan by it.
        ///
        /// # Panics
        ///
        /// Panics if the reference lends no limiter.
        ///
        /// # Contract
        ///
        /// ```text
        /// requires lent: IsSome (loan self)
        /// ensures value: loan self ≡ Some result
        /// ```
        ///
        /// Definitions: [`loan`](crate::specs::meter::LimiterSpecs#loan).
        #[must_use]
        #[inline]
        pub fn into_limiter(self) -> R {
            assert!(self.limiter.is_some(), "the reference lends no limiter");
            self.into_resource_limiter().unwrap()
        }

        /// The limiter, if there is one.
        ///
        /// # Contract
        ///
        /// ```text
        /// ensures* writes_back: sem 𝓛
        ///     (LendsLimiter R.row R.Lent.row R.Lender.last self.entry result)
        /// ensures value: option_copied_mut result ≡ option_map R.Lender.shown (loan self.old)
        /// ```
        ///
        /// Definitions: [`LendsLimiter`](crate::specs::meter::LimiterSpecs#LendsLimiter), [`loan`](crate::specs::meter::LimiterSpecs#loan).
        ///
        /// `R` is the type of what lends the limiter, a [`Lender`](crate::machine::Lender#contract).
        #[inline]
        pub fn as_resource_limiter(&mut self) -> Option<&mut R::Lent>
        where
            R: Lender,
        {
            match &mut self.limiter {
                Some(limiter) => Some(limiter.lend()),
                None => None,
            }
        }
    }

    impl<'a, L: ResourceLimiter> LimiterRef<&'a mut L> {
        /// Asks the limiter whether a memory may grow from `current` to `desired` bytes.
        ///
        /// # Errors
        ///
        /// The limiter's. Without a limiter there is none.
        ///
        /// # Panics
        ///
        /// Panics if the desired size is below the current one.
        ///
        /// # Contract
        ///
        /// ```text
        /// requires grows: current ≤ desired
        /// ensures loan: KeepsLoan self.old self.new
        /// ensures asked: (optional_rules L.rules).asked (lent_limiter self.old)
        ///     (record { kind = Bytes; current = current; desired = desired; maximum = maximum })
        ///     result (lent_limiter self.new)
        /// ```
        ///
        /// Definitions: [`loan`](crate::specs::meter::LimiterSpecs#loan), [`KeepsLoan`](crate::specs::meter::LimiterSpecs#KeepsLoan), [`optional_rules`](crate::specs::meter::LimiterSpecs#optional_rules), [`lent_limiter`](crate::specs::meter::LimiterSpecs#lent_limiter).
        ///
        /// `L` is the type of the limiter, a [`ResourceLimiter`](crate::machine::ResourceLimiter#contract).
        #[inline]
        pub fn memory_growing(
            &mut self,
            current: usize,
            desired: usize,
            maximum: Option<usize>,
        ) -> Result<bool, LimiterError> {
            assert!(
                current <= desired,
                "the desired size is below the current one"
            );
            match &mut self.limiter {
                Some(limiter) => limiter.memory_growing(current, desired, maximum),
                None => Ok(true),
            }
        }

        /// Asks the limiter whether a table may grow from `current` to `desired` elements.
        ///
        /// # Errors
        ///
        /// The limiter's. Without a limiter there is none.
        ///
        /// # Panics
        ///
        /// Panics if the desired size is below the current one.
        ///
        /// # Contract
        ///
        /// ```text
        /// requires grows: current ≤ desired
        /// ensures loan: KeepsLoan self.old self.new
        /// ensures asked: (optional_rules L.rules).asked (lent_limiter self.old)
        ///     (record { kind = Elements; current = current; desired = desired; maximum = maximum })
        ///     result (lent_limiter self.new)
        /// ```
        ///
        /// Definitions: [`loan`](crate::specs::meter::LimiterSpecs#loan), [`KeepsLoan`](crate::specs::meter::LimiterSpecs#KeepsLoan), [`optional_rules`](crate::specs::meter::LimiterSpecs#optional_rules), [`lent_limiter`](crate::specs::meter::LimiterSpecs#lent_limiter).
        ///
        /// `L` is the type of the limiter, a [`ResourceLimiter`](crate::machine::ResourceLimiter#contract).
        #[inline]
        pub fn table_growing(
            &mut self,
            current: usize,
            desired: usize,
            maximum: Option<usize>,
        ) -> Result<bool, LimiterError> {
            assert!(
                current <= desired,
                "the desired size is below the current one"
            );
            match &mut self.limiter {
                Some(limiter) => limiter.table_growing(current, desired, maximum),
                None => Ok(true),
            }
        }

        /// Notifies the limiter that a memory which it permitted to grow did not.
        ///
        /// # Errors
        ///
        /// The limiter's. Without a limiter there is none.
        ///
        /// # Contract
        ///
        /// ```text
        /// ensures loan: KeepsLoan self.old self.new
        /// ensures noticed: (optional_rules L.rules).noticed (lent_limiter self.old)
        ///     (MemoryFailure error.now) result (lent_limiter self.new)
        /// ```
        ///
        /// Definitions: [`loan`](crate::specs::meter::LimiterSpecs#loan), [`KeepsLoan`](crate::specs::meter::LimiterSpecs#KeepsLoan), [`optional_rules`](crate::specs::meter::LimiterSpecs#optional_rules), [`lent_limiter`](crate::specs::meter::LimiterSpecs#lent_limiter), [`MemoryFailure`](crate::specs::meter::LimiterSpecs#MemoryFailure).
        ///
        /// `L` is the type of the limiter, a [`ResourceLimiter`](crate::machine::ResourceLimiter#contract).
        #[inline]
        pub fn memory_grow_failed(&mut self, error: &MemoryError) -> Result<(), LimiterError> {
            match &mut self.limiter {
                Some(limiter) => limiter.memory_grow_failed(error),
                None => Ok(()),
            }
        }

        /// Notifies the limiter that a table which it permitted to grow did not.
        ///
        /// # Errors
        ///
        /// The limiter's. Without a limiter there is none.
        ///
        /// # Contract
        ///
        /// ```text
        /// ensures loan: KeepsLoan self.old self.new
        /// ensures noticed: (optional_rules L.rules).noticed (lent_limiter self.old)
        ///     (TableFailure error.now) result (lent_limiter self.new)
        /// ```
        ///
        /// Definitions: [`loan`](crate::specs::meter::LimiterSpecs#loan), [`KeepsLoan`](crate::specs::meter::LimiterSpecs#KeepsLoan), [`optional_rules`](crate::specs::meter::LimiterSpecs#optional_rules), [`lent_limiter`](crate::specs::meter::LimiterSpecs#lent_limiter), [`TableFailure`](crate::specs::meter::LimiterSpecs#TableFailure).
        ///
        /// `L` is the type of the limiter, a [`ResourceLimiter`](crate::machine::ResourceLimiter#contract).
        #[inline]
        pub fn table_grow_failed(&mut self, error: &TableError) -> Result<(), LimiterError> {
            match &mut self.limiter {
                Some(limiter) => limiter.table_grow_failed(error),
                None => Ok(()),
            }
        }
    }

    /// A reference to a limiter, or none, is a limiter: its methods call those of the same names above.
    ///
    /// # Contract
    ///
    /// ```text
    /// rules = lent_rules L.rules
    /// ```
    ///
    /// Definitions: [`lent_rules`](crate::specs::meter::LimiterSpecs#lent_rules).
    ///
    /// `L` is the type of the limiter, a [`ResourceLimiter`](crate::machine::ResourceLimiter#contract).
    impl<'a, L: ResourceLimiter> ResourceLimiter for LimiterRef<&'a mut L> {
        #[inline]
        fn memory_growing(
            &mut self,
            current: usize,
            desired: usize,
            maximum: Option<usize>,
        ) -> Result<bool, LimiterError> {
            self.memory_growing(current, desired, maximum)
        }

        #[inline]
        fn table_growing(
            &mut self,
            current: usize,
            desired: usize,
            maximum: Option<usize>,
        ) -> Result<bool, LimiterError> {
            self.table_growing(current, desired, maximum)
        }

        #[inline]
        fn memory_grow_failed(&mut self, error: &MemoryError) -> Result<(), LimiterError> {
            self.memory_grow_failed(error)
        }

        #[inline]
        fn table_grow_failed(&mut self, error: &TableError) -> Result<(), LimiterError> {
            self.table_grow_failed(error)
        }

        /// # Contract
        ///
        /// ```text
        /// ensures absent: loan self.now ≡ None → result ≡ usize.MAX
        /// ```
        ///
        /// Definitions: [`loan`](crate::specs::meter::LimiterSpecs#loan).
        #[inline]
        fn instances(&self) -> usize {
            match &self.limiter {
                Some(limiter) => limiter.instances(),
                None => usize::MAX,
            }
        }

        /// # Contract
        ///
        /// ```text
        /// ensures absent: loan self.now ≡ None → result ≡ usize.MAX
        /// ```
        ///
        /// Definitions: [`loan`](crate::specs::meter::LimiterSpecs#loan).
        #[inline]
        fn tables(&self) -> usize {
            match &self.limiter {
                Some(limiter) => limiter.tables(),
                None => usize::MAX,
            }
        }

        /// # Contract
        ///
        /// ```text
        /// ensures absent: loan self.now ≡ None → result ≡ usize.MAX
        /// ```
        ///
        /// Definitions: [`loan`](crate::specs::meter::LimiterSpecs#loan).
        #[inline]
        fn memories(&self) -> usize {
            match &self.limiter {
                Some(limiter) => limiter.memories(),
                None => usize::MAX,
            }
        }
    }
}
mod quota {
    //! Limiters that count what they permitted: amounts by kind, what is held, taken, given back and
    //! released, limiters with caps, and a quota.

    use crate::proved::meter::error::LimiterError;
    use crate::proved::meter::limiter::{Kind, LimiterByKind, ResourceLimiter};

    /// An amount of bytes of linear memories, and one of elements of tables.
    #[derive(Clone, Copy, Debug, Default)]
    pub struct Amounts {
        /// The bytes of linear memories.
        pub bytes: u64,
        /// The elements of tables.
        pub elements: u64,
    }

    impl Amounts {
        /// The amount of one kind.
        ///
        /// # Contract
        ///
        /// ```text
        /// ensures: result ≡ amount_of self.now kind
        /// ```
        ///
        /// Definitions: [`amount_of`](crate::specs::meter::CappedSpecs#amount_of).
        #[must_use]
        #[inline]
        pub fn of(&self, kind: Kind) -> u64 {
            match kind {
                Kind::Bytes => self.bytes,
                Kind::Elements => self.elements,
            }
        }
    }

    /// What a limiter with caps holds of each kind, and the last difference taken and not given back.
    #[derive(Clone, Copy, Debug)]
    pub struct Holdings {
        held: Amounts,
        last: Option<(Kind, u64)>,
    }

    impl Holdings {
        /// Holdings of these amounts, of which nothing can be given back.
        ///
        /// # Contract
        ///
        /// ```text
        /// ensures: result ≡ record { held = held; last = None }
        /// ```
        #[must_use]
        #[inline]
        pub fn new(held: Amounts) -> Self {
            Holdings { held, last: None }
        }

        /// The holdings of which `held` and `last` gave these: what is held, and can be given back.
        ///
        /// # Contract
        ///
        /// ```text
        /// ensures: result ≡ record { held = held; last = last }
        /// ```
        #[must_use]
        #[inline]
        pub fn resume(held: Amounts, last: Option<(Kind, u64)>) -> Self {
            Holdings { held, last }
        }

        /// The last difference that was taken and not given back, with its kind.
        ///
        /// # Contract
        ///
        /// ```text
        /// ensures: result ≡ self.now.last
        /// ```
        #[must_use]
        #[inline]
        pub fn last(&self) -> Option<(Kind, u64)> {
            self.last
        }

        /// What is held.
        ///
        /// # Contract
        ///
        /// ```text
        /// ensures: result ≡ self.now.held
        /// ```
        #[must_use]
        #[inline]
        pub fn held(&self) -> Amounts {
            self.held
        }

        /// Takes `difference` more of a kind, if it stays within the cap together with what is held and
        /// what others hold. Returns whether it was taken.
        ///
        /// # Contract
        ///
        /// ```text
        /// ensures: Takes others cap self.old kind difference result self.new
        /// ```
        ///
        /// Definitions: [`Takes`](crate::specs::meter::CappedSpecs#Takes).
        #[inline]
        pub fn take(&mut self, kind: Kind, difference: u64, others: u64, cap: u64) -> bool {
            let together = others as u128 + self.held.of(kind) as u128;
            if together + difference as u128 > cap as u128 {
                return false;
            }
            match kind {
                Kind::Bytes => self.held.bytes += difference,
                Kind::Elements => self.held.elements += difference,
            }
            self.last = Some((kind, difference));
            true
        }

        /// Gives back what was taken last, if that is of this kind.
        ///
        /// # Contract
        ///
        /// ```text
        /// ensures: self.new ≡ without_last kind self.old
        /// ```
        ///
        /// Definitions: [`without_last`](crate::specs::meter::CappedSpecs#without_last).
        #[inline]
        pub fn give_back(&mut self, kind: Kind) {
            match (kind, self.last) {
                (Kind::Bytes, Some((Kind::Bytes, difference))) => {
                    self.held.bytes = self.held.bytes.saturating_sub(difference);
                    self.last = None;
                }
                (Kind::Elements, Some((Kind::Elements, difference))) => {
                    self.held.elements = self.held.elements.saturating_sub(difference);
                    self.last = None;
                }
                _ => {}
            }
        }

        /// Gives up `amount` of a kind, if so much is held. Returns whether it was given up; then
        /// nothing can be given back until more is taken.
        ///
        /// # Contract
        ///
        /// ```text
        /// ensures: Releases self.old kind amount result self.new
        /// ```
        ///
        /// Definitions: [`Releases`](crate::specs::meter::CappedSpecs#Releases).
        #[inline]
        pub fn release(&mut self, kind: Kind, amount: u64) -> bool {
            let Some(left) = self.held.of(kind).checked_sub(amount) else {
                return false;
            };
            match kind {
                Kind::Bytes => self.held.bytes = left,
                Kind::Elements => self.held.elements = left,
            }
            self.last = None;
            true
        }
    }

    /// A limiter that holds what it permitted, in bytes and in elements, until it is notified that what
    /// it permitted failed. It isn't notified of what is dropped.
    ///
    /// # Contract
    ///
    /// ```text
    /// -- What it holds of each kind, and the last difference it permitted that wasn't given back.
    /// holdings: Self → Holdings
    /// -- A permission adds the difference that was asked for; any other answer leaves what is held.
    /// reserves: (l l' : Self) (question : Question) (answer : Answer)
    ///     → Self.rules.asked l question answer l'
    ///     → Reserves question answer (holdings l) (holdings l')
    /// -- A notice takes back the last permitted difference, once, if it is of the same kind, whatever the answer to it is. Otherwise what is held stays.
    /// gives_back: (l l' : Self) (failure : Failure) (notice_answer : NoticeAnswer)
    ///     → Self.rules.noticed l failure notice_answer l'
    ///     → GivesBack (kind_of failure) (holdings l) (holdings l')
    /// ```
    ///
    /// Definitions: [`holdings`](crate::specs::meter::CappedSpecs#holdings), [`Question`](crate::specs::meter::LimiterSpecs#Question), [`Answer`](crate::specs::meter::LimiterSpecs#Answer), [`Reserves`](crate::specs::meter::CappedSpecs#Reserves), [`Failure`](crate::specs::meter::LimiterSpecs#Failure), [`NoticeAnswer`](crate::specs::meter::LimiterSpecs#NoticeAnswer), [`GivesBack`](crate::specs::meter::CappedSpecs#GivesBack), [`kind_of`](crate::specs::meter::LimiterSpecs#kind_of).
    ///
    /// `A` is any type.
    pub trait Reserving: ResourceLimiter {
        /// The bytes that it permitted and that weren't given back.
        ///
        /// # Contract
        ///
        /// ```text
        /// ensures: result ≡ (holdings self.now).held.bytes
        /// ```
        ///
        /// Definitions: [`holdings`](crate::specs::meter::CappedSpecs#holdings).
        fn held_bytes(&self) -> u64;

        /// The elements that it permitted and that weren't given back.
        ///
        /// # Contract
        ///
        /// ```text
        /// ensures: result ≡ (holdings self.now).held.elements
        /// ```
        ///
        /// Definitions: [`holdings`](crate::specs::meter::CappedSpecs#holdings).
        fn held_elements(&self) -> u64;
    }

    /// A limiter that permits what keeps all that is held of a kind within a cap, and denies the rest.
    /// It counts each difference that it permitted. At a notice it takes back the last one if that is
    /// of the same kind, once.
    ///
    /// # Contract
    ///
    /// ```text
    /// -- What it holds, what others hold beside it, and its caps.
    /// capped: Capped Self
    /// ```
    ///
    /// Definitions: [`Capped`](crate::specs::meter::CappedSpecs#Capped).
    pub trait CappedLimiter {
        /// What it holds of each kind, with the last difference that it permitted.
        ///
        /// # Contract
        ///
        /// ```text
        /// ensures: result ≡ capped.holdings self.now
        /// ```
        fn holdings(&self) -> Holdings;

        /// Takes `difference` more of a kind, if all held of it stays within the cap; says whether.
        ///
        /// # Contract
        ///
        /// ```text
        /// ensures: HoldsMore capped self.old kind difference result self.new
        /// ```
        ///
        /// Definitions: [`HoldsMore`](crate::specs::meter::CappedSpecs#HoldsMore).
        fn take(&mut self, kind: Kind, difference: u64) -> bool;

        /// Gives back what was taken last, if that is of this kind.
        ///
        /// # Contract
        ///
        /// ```text
        /// ensures back: capped.holdings self.new ≡ without_last kind (capped.holdings self.old)
        /// ensures rest: self.new ≡ capped.with_holdings self.old (capped.holdings self.new)
        /// ```
        ///
        /// Definitions: [`without_last`](crate::specs::meter::CappedSpecs#without_last).
        fn give_back(&mut self, kind: Kind);
    }

    /// # Contract
    ///
    /// ```text
    /// kind_rules = capped_rules L.capped
    /// ```
    ///
    /// Definitions: [`capped_rules`](crate::specs::meter::CappedSpecs#capped_rules).
    ///
    /// `L` is the type of the limiter, a [`CappedLimiter`](crate::machine::CappedLimiter#contract).
    impl<L: CappedLimiter> LimiterByKind for L {
        /// # Panics
        ///
        /// Panics if the desired size is below the current one.
        #[inline]
        fn growing(&mut self, kind: Kind, from: usize, to: usize) -> Result<bool, LimiterError> {
            assert!(from <= to, "the desired size is below the current one");
            Ok(self.take(kind, (to - from) as u64))
        }

        #[inline]
        fn grow_failed(&mut self, kind: Kind) -> Result<(), LimiterError> {
            self.give_back(kind);
            Ok(())
        }
    }

    /// # Contract
    ///
    /// ```text
    /// holdings = L.capped.holdings
    /// ```
    ///
    /// Definitions: [`holdings`](crate::specs::meter::CappedSpecs#holdings).
    ///
    /// `L` is the type of the limiter, a [`CappedLimiter`](crate::machine::CappedLimiter#contract).
    impl<L: CappedLimiter> Reserving for L {
        #[inline]
        fn held_bytes(&self) -> u64 {
            self.holdings().held().bytes
        }

        #[inline]
        fn held_elements(&self) -> u64 {
            self.holdings().held().elements
        }
    }

    /// A limiter that permits what stays within two caps, and denies the rest. It counts each
    /// difference that it permitted. At a notice it takes back the last one if that is of the same
    /// kind, once. It can't be copied, since a copy would count on its own.
    #[doc = examples!(meter Quota)]
    #[derive(Debug)]
    pub struct Quota {
        caps: Amounts,
        holdings: Holdings,
    }

    impl Quota {
        /// A quota with these caps, in bytes and in elements, which holds nothing yet.
        ///
        /// # Contract
        ///
        /// ```text
        /// ensures bytes: cap_of result Bytes ≡ bytes
        /// ensures elements: cap_of result Elements ≡ elements
        /// ensures nothing_held: holdings result ≡ record { held = nothing; last = None }
        /// ensures within: IsWithinCaps result
        /// ```
        ///
        /// Definitions: [`cap_of`](crate::specs::meter::CappedSpecs#cap_of), [`holdings`](crate::specs::meter::CappedSpecs#holdings), [`nothing`](crate::specs::meter::CappedSpecs#nothing), [`IsWithinCaps`](crate::specs::meter::CappedSpecs#IsWithinCaps).
        #[must_use]
        #[inline]
        pub fn new(bytes: u64, elements: u64) -> Self {
            let caps = Amounts { bytes, elements };
            Quota::resume(caps, Holdings::new(Amounts::default()))
        }

        /// The quota whose caps and holdings were read before by `caps` and `holdings`. Two quotas that
        /// were resumed from the same holdings count apart, so only one of them should be used.
        ///
        /// # Contract
        ///
        /// ```text
        /// ensures: result ≡ record { caps = caps; holdings = holdings }
        /// ```
        ///
        /// Definitions: [`holdings`](crate::specs::meter::CappedSpecs#holdings).
        #[must_use]
        #[inline]
        pub fn resume(caps: Amounts, holdings: Holdings) -> Self {
            Quota { caps, holdings }
        }

        /// The most that it may hold of each kind.
        ///
        /// # Contract
        ///
        /// ```text
        /// ensures: result ≡ self.now.caps
        /// ```
        #[must_use]
        #[inline]
        pub fn caps(&self) -> Amounts {
            self.caps
        }

        /// What it holds of each kind, with the last difference that it permitted.
        ///
        /// # Contract
        ///
        /// ```text
        /// ensures: result ≡ holdings self.now
        /// ```
        ///
        /// Definitions: [`holdings`](crate::specs::meter::CappedSpecs#holdings).
        #[must_use]
        #[inline]
        pub fn holdings(&self) -> Holdings {
            self.holdings
        }

        /// The bytes that it permitted and that weren't given back.
        ///
        /// # Contract
        ///
        /// ```text
        /// ensures: result ≡ (holdings self.now).held.bytes
        /// ```
        ///
        /// Definitions: [`holdings`](crate::specs::meter::CappedSpecs#holdings).
        #[must_use]
        #[inline]
        pub fn held_bytes(&self) -> u64 {
            self.holdings.held().bytes
        }

        /// The elements that it permitted and that weren't given back.
        ///
        /// # Contract
        ///
        /// ```text
        /// ensures: result ≡ (holdings self.now).held.elements
        /// ```
        ///
        /// Definitions: [`holdings`](crate::specs::meter::CappedSpecs#holdings).
        #[must_use]
        #[inline]
        pub fn held_elements(&self) -> u64 {
            self.holdings.held().elements
        }

        /// Gives up what a memory (its bytes) or a table (its elements) held until it ended, so that
        /// others can have it. Returns `false`, and changes nothing, where less is held of the kind.
        /// What ended is released once: the quota can't tell one memory from another. A machine counts
        /// what it dropped, so that is released where the machine ends.
        ///
        /// # Contract
        ///
        /// ```text
        /// ensures released: Releases (holdings self.old) kind amount result (holdings self.new)
        /// ensures caps: self.new.caps ≡ self.old.caps
        /// ensures within: IsWithinCaps self.old → IsWithinCaps self.new
        /// ```
        ///
        /// Definitions: [`Releases`](crate::specs::meter::CappedSpecs#Releases), [`holdings`](crate::specs::meter::CappedSpecs#holdings), [`IsWithinCaps`](crate::specs::meter::CappedSpecs#IsWithinCaps).
        #[inline]
        pub fn release(&mut self, kind: Kind, amount: u64) -> bool {
            self.holdings.release(kind, amount)
        }
    }

    /// # Contract
    ///
    /// ```text
    /// capped = capped_quota
    /// ```
    ///
    /// Definitions: [`capped_quota`](crate::specs::meter::CappedSpecs#capped_quota).
    impl CappedLimiter for Quota {
        #[inline]
        fn holdings(&self) -> Holdings {
            self.holdings
        }

        #[inline]
        fn take(&mut self, kind: Kind, difference: u64) -> bool {
            self.holdings.take(kind, difference, 0, self.caps.of(kind))
        }

        #[inline]
        fn give_back(&mut self, kind: Kind) {
            self.holdings.give_back(kind);
        }
    }
}

pub use answer_list::{AnswerList, LimiterAnswer};
pub use any_limiter::AnyLimiter;
pub use error::{LimiterError, MemoryError, TableError};
pub use fuel::{CustomFuelCosts, Fuel, FuelCosts, FuelCostsProvider, FuelError, ValueSize};
pub use limiter::{
    Kind, Lender, LimiterByKind, LimiterRef, NoLimits, ResourceLimiter, ResourceLimiterRef,
};
pub use quota::{Amounts, CappedLimiter, Holdings, Quota, Reserving};
