//! Pools of machines whose memories and tables stay, all together, within one cap of each kind.
//! Own: upstream has no pool.
mod error {
    //! Why a pool adds no machine, runs no tenant, or reserves no slots.

    use crate::proved::machine::TooManyCalls;
    use crate::rattle::alloc::AllocError;
    use core::fmt;

    /// Why a machine isn't added to a pool, in the order of the tests.
    #[derive(Debug, PartialEq, Eq)]
    #[non_exhaustive]
    pub enum AddError {
        /// The machine has bytes or elements, or had some that it dropped.
        NotEmpty,
        /// Memory for one more tenant was refused.
        NoRoom,
    }

    /// # Contract
    ///
    /// ```text
    /// output = λ error. Some (add_error_text error)
    /// ```
    ///
    /// Definitions: [`add_error_text`](crate::specs::budget::PoolSpecs#add_error_text).
    impl fmt::Display for AddError {
        #[inline]
        fn fmt(&self, f: &mut fmt::Formatter<'_>) -> fmt::Result {
            f.write_str(match self {
                Self::NotEmpty => "tried to add a machine that has or had bytes or elements",
                Self::NoRoom => "out of memory for one more tenant",
            })
        }
    }

    impl core::error::Error for AddError {}

    /// Why a pool doesn't run a tenant's calls, in the order of the tests.
    #[derive(Debug, PartialEq, Eq)]
    #[non_exhaustive]
    pub enum PoolError {
        /// No tenant has the index.
        NoTenant,
        /// Memory for the replies, one for each call, was refused. No call was executed.
        OutOfMemory,
    }

    /// # Contract
    ///
    /// ```text
    /// output = λ error. Some (pool_error_text error)
    /// ```
    ///
    /// Definitions: [`pool_error_text`](crate::specs::budget::PoolSpecs#pool_error_text).
    impl fmt::Display for PoolError {
        #[inline]
        fn fmt(&self, f: &mut fmt::Formatter<'_>) -> fmt::Result {
            f.write_str(match self {
                Self::NoTenant => "tried to run a tenant that is not in the pool",
                Self::OutOfMemory => "out of memory for the replies",
            })
        }
    }

    impl core::error::Error for PoolError {}

    /// Why a pool doesn't run a tenant's calls into memory kept for replies, in the order of the tests.
    #[derive(Debug, PartialEq, Eq)]
    pub enum RunIntoError {
        /// No tenant has the index.
        NoTenant,
        /// There are more calls than there is memory for replies. No call was executed.
        TooManyCalls,
    }

    /// # Contract
    ///
    /// ```text
    /// output = λ error. Some (run_into_error_text error)
    /// ```
    ///
    /// Definitions: [`run_into_error_text`](crate::specs::budget::PoolSpecs#run_into_error_text).
    impl fmt::Display for RunIntoError {
        #[inline]
        fn fmt(&self, f: &mut fmt::Formatter<'_>) -> fmt::Result {
            f.write_str(match self {
                Self::NoTenant => "tried to run a tenant that is not in the pool",
                Self::TooManyCalls => "more calls than there is memory for replies",
            })
        }
    }

    impl core::error::Error for RunIntoError {}

    /// # Contract
    ///
    /// ```text
    /// from_gives = λ _ error. error ≡ into.TooManyCalls
    /// ```
    impl From<TooManyCalls> for RunIntoError {
        #[inline]
        fn from(_: TooManyCalls) -> Self {
            RunIntoError::TooManyCalls
        }
    }

    /// # Contract
    ///
    /// ```text
    /// from_gives = λ _ error. error ≡ OutOfMemory
    /// ```
    impl From<AllocError> for PoolError {
        #[inline]
        fn from(_: AllocError) -> Self {
            PoolError::OutOfMemory
        }
    }

    /// Why a pool reserves no slots for a tenant, in the order of the tests.
    #[derive(Debug, PartialEq, Eq)]
    pub enum ReserveError {
        /// No tenant has the index.
        NoTenant,
        /// Memory for some of the slots was refused. None more is reserved.
        OutOfMemory,
    }

    /// # Contract
    ///
    /// ```text
    /// output = λ error. Some (reserve_error_text error)
    /// ```
    ///
    /// Definitions: [`reserve_error_text`](crate::specs::budget::PoolSpecs#reserve_error_text).
    impl fmt::Display for ReserveError {
        #[inline]
        fn fmt(&self, f: &mut fmt::Formatter<'_>) -> fmt::Result {
            f.write_str(match self {
                Self::NoTenant => "tried to reserve slots for a tenant that is not in the pool",
                Self::OutOfMemory => "out of memory for the slots",
            })
        }
    }

    impl core::error::Error for ReserveError {}

    /// # Contract
    ///
    /// ```text
    /// from_gives = λ _ error. error ≡ reserve.OutOfMemory
    /// ```
    impl From<AllocError> for ReserveError {
        #[inline]
        fn from(_: AllocError) -> Self {
            ReserveError::OutOfMemory
        }
    }
}
#[cfg(any(doc, test))]
pub mod laws {
    //! What holds of all pools. These functions do nothing: each states a law as its contract.

    /// From a pool whose machines are within its caps, as a new one's are, all calls lead to one whose
    /// machines are within the same caps.
    ///
    /// # Contract
    ///
    /// ```text
    /// ensures: CapsHold
    /// ```
    ///
    /// Definitions: [`CapsHold`](crate::specs::budget::LawsSpecs#CapsHold).
    #[inline]
    pub fn caps_hold() {}

    /// What the other tenants hold doesn't matter to a run that is never denied: beside tenants that
    /// hold nothing there is a run with the same turns and the same machine.
    ///
    /// # Contract
    ///
    /// ```text
    /// ensures: OthersDontShow
    /// ```
    ///
    /// Definitions: [`OthersDontShow`](crate::specs::budget::LawsSpecs#OthersDontShow).
    #[inline]
    pub fn others_do_not_show() {}

    /// A tenant that is never denied gets, run after run until it is removed, what it gets in a pool of
    /// its own with the same caps, whatever the others do in between.
    ///
    /// # Contract
    ///
    /// ```text
    /// ensures: RunsAsAlone
    /// ```
    ///
    /// Definitions: [`RunsAsAlone`](crate::specs::budget::LawsSpecs#RunsAsAlone).
    #[inline]
    pub fn permitted_runs_as_alone() {}

    /// If no reply of a run of a tenant reports a denial, each question was permitted: so what
    /// `Pool::run` promises leads to `permitted_runs_as_alone`.
    ///
    /// # Contract
    ///
    /// ```text
    /// ensures: RepliesPermit
    /// ```
    ///
    /// Definitions: [`RepliesPermit`](crate::specs::budget::LawsSpecs#RepliesPermit).
    #[inline]
    pub fn replies_permit() {}

    /// A tenant's limiter is deterministic, and accepts each notice.
    ///
    /// # Contract
    ///
    /// ```text
    /// ensures choice: IsDeterministic tenant_rules
    /// ensures notices: AcceptsNotices tenant_rules
    /// ```
    ///
    /// Definitions: [`IsDeterministic`](crate::specs::machine::DeterminismSpecs#IsDeterministic), [`tenant_rules`](crate::specs::budget::PoolSpecs#tenant_rules), [`AcceptsNotices`](crate::specs::machine::DeterminismSpecs#AcceptsNotices).
    #[inline]
    pub fn tenants_leave_no_choice() {}

    /// Once a tenant is removed, what its machine has counts no more against the caps.
    ///
    /// # Contract
    ///
    /// ```text
    /// ensures: RemovalsGiveBack
    /// ```
    ///
    /// Definitions: [`RemovalsGiveBack`](crate::specs::budget::LawsSpecs#RemovalsGiveBack).
    #[inline]
    pub fn removals_give_back() {}

    /// The index of a removed tenant is never another one's: no later call finds a tenant there.
    ///
    /// # Contract
    ///
    /// ```text
    /// ensures: RemovedStayRemoved
    /// ```
    ///
    /// Definitions: [`RemovedStayRemoved`](crate::specs::budget::LawsSpecs#RemovedStayRemoved).
    #[inline]
    pub fn removed_stay_removed() {}
}
mod pool {
    //! The pool: how machines are added, removed, run and reserved for within caps, and what they hold.

    use crate::proved::budget::error::{AddError, PoolError, ReserveError, RunIntoError};
    use crate::proved::budget::tenant::CountedMachine;
    use crate::proved::budget::tenants::Tenants;
    use crate::proved::machine::{Call, Machine, Replies, Reply, SlotCounts};
    use crate::proved::meter::Amounts;
    use crate::rattle::Vec;

    /// Machines that share a cap on the bytes of their memories, and one on the elements of their
    /// tables: what all of them have, with what they dropped, stays within both. Each machine is a
    /// tenant; the indices of tenants count from 0. What a tenant dropped counts until it is removed.
    /// What is held is kept, so it is read at no cost; it fits a `u64`, as the caps.
    ///
    /// # Model
    ///
    /// ```text
    /// Value = PoolValue
    /// view = λ p. record { caps = p.caps; machines = p.tenants }
    /// invariant = λ p.
    ///     IsKept (record { caps = p.caps; machines = p.tenants }) p.held_by_all
    /// ```
    ///
    /// Definitions: [`PoolValue`](crate::specs::budget::PoolSpecs#PoolValue), [`IsKept`](crate::specs::budget::PoolSpecs#IsKept).
    #[doc = examples!(budget Pool)]
    #[derive(Debug)]
    pub struct Pool<'r> {
        caps: Amounts,
        held_by_all: Amounts,
        tenants: Tenants<'r>,
    }

    impl<'r> Pool<'r> {
        /// A pool with these caps and no tenant. It takes no memory.
        ///
        /// # Contract
        ///
        /// ```text
        /// ensures made: result
        ///     ≡ record { caps = record { bytes = bytes; elements = elements }; machines = [] }
        /// ensures within: IsWithinCaps result
        /// ```
        ///
        /// Definitions: [`IsWithinCaps`](crate::specs::budget::PoolSpecs#IsWithinCaps).
        #[must_use]
        #[inline]
        pub fn new(bytes: u64, elements: u64) -> Pool<'r> {
            Pool {
                caps: Amounts { bytes, elements },
                held_by_all: Amounts::default(),
                tenants: Tenants::new(),
            }
        }

        /// How many tenants were added, also removed ones, which is the index of the next one.
        ///
        /// # Contract
        ///
        /// ```text
        /// ensures value: result ≡ length self.now.machines
        /// ensures within: IsWithinCaps self.now
        /// ```
        ///
        /// Definitions: [`IsWithinCaps`](crate::specs::budget::PoolSpecs#IsWithinCaps).
        #[must_use]
        #[inline]
        pub fn len(&self) -> usize {
            self.tenants.len()
        }

        /// Whether no tenant was added.
        ///
        /// # Contract
        ///
        /// ```text
        /// ensures: IsTrue result ↔ (self.now.machines ≡ [])
        /// ```
        #[must_use]
        #[inline]
        pub fn is_empty(&self) -> bool {
            self.tenants.len() == 0
        }

        /// Adds a machine that has nothing yet, and returns its index. It costs what
        /// `Machine::total_bytes` and `total_elements` cost on the added machine, nothing for a new
        /// one, and a place in two vectors. No index is given twice.
        ///
        /// # Errors
        ///
        /// In the order of the tests: [`NotEmpty`](crate::pool::AddError::NotEmpty) if the machine has or had bytes or elements; [`NoRoom`](crate::pool::AddError::NoRoom) if memory for one more tenant is refused, or each index was given. The machine is handed back with the error.
        ///
        /// # Contract
        ///
        /// ```text
        /// ensures added: IfOk result (λ index. (index ≡ length self.old.machines)
        ///     × AddsTenant self.old machine.entry self.new)
        /// ensures refused: IfErr result (λ refusal. IsAddRefusal machine.entry refusal.0)
        /// ensures same: IfErr result
        ///     (λ refusal. (refusal.1 ≡ machine.entry) × (self.new ≡ self.old))
        /// ensures within: IsWithinCaps self.new
        /// ```
        ///
        /// Definitions: [`AddsTenant`](crate::specs::budget::PoolSpecs#AddsTenant), [`IsAddRefusal`](crate::specs::budget::PoolSpecs#IsAddRefusal), [`IsWithinCaps`](crate::specs::budget::PoolSpecs#IsWithinCaps).
        #[inline]
        pub fn add(&mut self, machine: Machine<'r>) -> Result<usize, (AddError, Machine<'r>)> {
            let index = self.tenants.len();
            if machine.total_bytes() > 0 || machine.total_elements() > 0 {
                return Err((AddError::NotEmpty, machine));
            }
            let held = Amounts::default();
            if let Err(refused) = self.tenants.push(CountedMachine { machine, held }) {
                return Err((AddError::NoRoom, refused.machine));
            }
            Ok(index)
        }

        /// Removes a tenant, if there is one, and hands its machine back. What it held, with what it
        /// dropped, can be held by others from then on. Its index is given to no other, and each later
        /// call on it finds no tenant. Those that were added after it move in memory. Nothing is kept
        /// of it but that its index was given, so a pool takes memory for the tenants that it has.
        ///
        /// # Contract
        ///
        /// ```text
        /// ensures removed: MatchOption result
        ///     ((machine_of self.old index ≡ None) × (self.new ≡ self.old))
        ///     (λ machine. RemovesTenant self.old index machine self.new)
        /// ensures within: IsWithinCaps self.new
        /// ```
        ///
        /// Definitions: [`machine_of`](crate::specs::budget::PoolSpecs#machine_of), [`RemovesTenant`](crate::specs::budget::PoolSpecs#RemovesTenant), [`IsWithinCaps`](crate::specs::budget::PoolSpecs#IsWithinCaps).
        #[inline]
        pub fn remove(&mut self, index: usize) -> Option<Machine<'r>> {
            let CountedMachine { machine, held } = self.tenants.remove(index)?;
            self.held_by_all = Amounts {
                bytes: self.held_by_all.bytes - held.bytes,
                elements: self.held_by_all.elements - held.elements,
            };
            Some(machine)
        }

        /// Reserves so many more slots of each kind on the machine of a tenant, as `Machine::reserve`
        /// does. What is reserved counts within no cap.
        ///
        /// # Errors
        ///
        /// In the order of the tests: `NoTenant` if no tenant has the index; `OutOfMemory` if memory for some of the slots is refused. Then none more is reserved.
        ///
        /// # Contract
        ///
        /// ```text
        /// ensures reserved: OnOk result (ReservesForTenant self.old index slots self.new)
        /// ensures no_tenant: IsErrOf result ReserveError.NoTenant
        ///     ↔ (machine_of self.old index ≡ None)
        /// ensures refused: OnErr result (self.new ≡ self.old)
        /// ensures within: IsWithinCaps self.new
        /// ```
        ///
        /// Definitions: [`ReservesForTenant`](crate::specs::budget::PoolSpecs#ReservesForTenant), [`machine_of`](crate::specs::budget::PoolSpecs#machine_of), [`IsWithinCaps`](crate::specs::budget::PoolSpecs#IsWithinCaps).
        #[inline]
        pub fn reserve(&mut self, index: usize, slots: SlotCounts) -> Result<(), ReserveError> {
            self.tenants.reserve(index, slots)
        }

        /// Reserves memory for so many elements in all of a table of a tenant, those there included, as
        /// `Machine::reserve_elements` does, with its replies. What is reserved counts within no cap.
        ///
        /// # Errors
        ///
        /// [`NoTenant`](crate::pool::PoolError::NoTenant) if no tenant has the index, and no other; then nothing has changed.
        ///
        /// # Contract
        ///
        /// ```text
        /// ensures reserved: IfOk result (λ reply. ReservesElementsForTenant self.old index table
        ///     elements reply self.new)
        /// ensures refused: IfErr result (λ error. (error ≡ PoolError.NoTenant)
        ///     × (machine_of self.old index ≡ None) × (self.new ≡ self.old))
        /// ensures within: IsWithinCaps self.new
        /// ```
        ///
        /// Definitions: [`ReservesElementsForTenant`](crate::specs::budget::PoolSpecs#ReservesElementsForTenant), [`machine_of`](crate::specs::budget::PoolSpecs#machine_of), [`IsWithinCaps`](crate::specs::budget::PoolSpecs#IsWithinCaps).
        #[inline]
        pub fn reserve_elements(
            &mut self,
            index: usize,
            table: usize,
            elements: u64,
        ) -> Result<Reply, PoolError> {
            let Some(reply) = self.tenants.reserve_elements(index, table, elements) else {
                return Err(PoolError::NoTenant);
            };
            Ok(reply)
        }

        /// Executes calls on the machine of a tenant, under a limiter that permits what keeps all
        /// tenants together within the caps. It costs memory for the replies, a search among the indices
        /// of the tenants, and what the calls cost, however much was made or dropped before.
        ///
        /// # Errors
        ///
        /// In the order of the tests: [`NoTenant`](crate::pool::PoolError::NoTenant) if no tenant has the index; [`OutOfMemory`](crate::pool::PoolError::OutOfMemory) if memory for the replies is refused. Then no call was executed.
        ///
        /// # Contract
        ///
        /// ```text
        /// ensures ran: IfOk result
        ///     (λ replies. RunsTenant self.old index calls.now replies.items self.new)
        /// ensures no_tenant: IsErrOf result PoolError.NoTenant ↔ (machine_of self.old index ≡ None)
        /// ensures refused: OnErr result (self.new ≡ self.old)
        /// ensures within: IsWithinCaps self.new
        /// ```
        ///
        /// Definitions: [`RunsTenant`](crate::specs::budget::PoolSpecs#RunsTenant), [`machine_of`](crate::specs::budget::PoolSpecs#machine_of), [`IsWithinCaps`](crate::specs::budget::PoolSpecs#IsWithinCaps).
        #[inline]
        pub fn run(&mut self, index: usize, calls: &[Call]) -> Result<Vec<Reply>, PoolError> {
            self.tenants
                .run(index, calls, self.caps, &mut self.held_by_all)
        }

        /// Executes calls on the machine of a tenant, as `run`, but puts their replies into memory that
        /// is there, in place of those that it has. It takes no memory for them.
        ///
        /// # Errors
        ///
        /// In the order of the tests: `NoTenant` if no tenant has the index; `TooManyCalls` if there are more calls than the capacity of `replies`. Then no call was executed, and the replies stay.
        ///
        /// # Contract
        ///
        /// ```text
        /// ensures ran: OnOk result (RunsTenant self.old index calls.now replies.new.items self.new)
        /// ensures no_tenant: IsErrOf result RunIntoError.NoTenant
        ///     ↔ (machine_of self.old index ≡ None)
        /// ensures too_many: IsErrOf result RunIntoError.TooManyCalls
        ///     → (replies.old.capacity < length calls.now)
        /// ensures accepted: OnOk result (length calls.now ≤ replies.old.capacity)
        /// ensures refused: OnErr result ((self.new ≡ self.old) × (replies.new ≡ replies.old))
        /// ensures capacity: replies.new.capacity ≡ replies.old.capacity
        /// ensures within: IsWithinCaps self.new
        /// ```
        ///
        /// Definitions: [`RunsTenant`](crate::specs::budget::PoolSpecs#RunsTenant), [`machine_of`](crate::specs::budget::PoolSpecs#machine_of), [`IsWithinCaps`](crate::specs::budget::PoolSpecs#IsWithinCaps).
        #[inline]
        pub fn run_into(
            &mut self,
            index: usize,
            calls: &[Call],
            replies: &mut Replies,
        ) -> Result<(), RunIntoError> {
            self.tenants
                .run_into(index, calls, self.caps, &mut self.held_by_all, replies)
        }

        /// Executes one call on the machine of a tenant, as `run` executes a list of it alone. It takes
        /// no memory for the reply. It costs a search among the indices of the tenants, none where no
        /// tenant before this one was removed, and what the call costs.
        ///
        /// # Errors
        ///
        /// [`NoTenant`](crate::pool::PoolError::NoTenant) if no tenant has the index, and no other; then nothing has changed.
        ///
        /// # Contract
        ///
        /// ```text
        /// ensures ran: IfOk result
        ///     (λ reply. RunsTenant self.old index (call.now ∷ []) (reply ∷ []) self.new)
        /// ensures refused: IfErr result (λ error. (error ≡ PoolError.NoTenant)
        ///     × (machine_of self.old index ≡ None) × (self.new ≡ self.old))
        /// ensures within: IsWithinCaps self.new
        /// ```
        ///
        /// Definitions: [`RunsTenant`](crate::specs::budget::PoolSpecs#RunsTenant), [`machine_of`](crate::specs::budget::PoolSpecs#machine_of), [`IsWithinCaps`](crate::specs::budget::PoolSpecs#IsWithinCaps).
        #[inline(always)]
        pub fn step(&mut self, index: usize, call: &Call) -> Result<Reply, PoolError> {
            if let Call::Store { .. }
            | Call::Binary { .. }
            | Call::FillMemory { .. }
            | Call::CopyMemory { .. }
            | Call::InitMemory { .. }
            | Call::SetFuel(_) = call
            {
                return self.step_unasked(index, call);
            }
            let stepped = self
                .tenants
                .step(index, call, self.caps, &mut self.held_by_all);
            let Some(reply) = stepped else {
                return Err(PoolError::NoTenant);
            };
            Ok(reply)
        }

        /// Executes a call that asks no limiter, so that none is made, and what is held stays.
        ///
        /// # Errors
        ///
        /// [`NoTenant`](crate::pool::PoolError::NoTenant) if no tenant has the index, and no other; then nothing has changed.
        ///
        /// # Contract
        ///
        /// ```text
        /// requires unasked: IsUnasked call.now
        /// ensures ran: IfOk result
        ///     (λ reply. RunsTenant self.old index (call.now ∷ []) (reply ∷ []) self.new)
        /// ensures refused: IfErr result (λ error. (error ≡ PoolError.NoTenant)
        ///     × (machine_of self.old index ≡ None) × (self.new ≡ self.old))
        /// ensures within: IsWithinCaps self.new
        /// ```
        ///
        /// Definitions: [`IsUnasked`](crate::specs::budget::PoolSpecs#IsUnasked), [`RunsTenant`](crate::specs::budget::PoolSpecs#RunsTenant), [`machine_of`](crate::specs::budget::PoolSpecs#machine_of), [`IsWithinCaps`](crate::specs::budget::PoolSpecs#IsWithinCaps).
        #[inline(always)]
        fn step_unasked(&mut self, index: usize, call: &Call) -> Result<Reply, PoolError> {
            let Some(reply) = self.tenants.step_unasked(index, call) else {
                return Err(PoolError::NoTenant);
            };
            Ok(reply)
        }

        /// Writes bytes over those of a memory of a tenant from an offset on, as the call `Write` does,
        /// but those of a slice and not of a list. It takes no memory, and costs what `step` costs.
        ///
        /// # Errors
        ///
        /// [`NoTenant`](crate::pool::PoolError::NoTenant) if no tenant has the index, and no other; then nothing has changed.
        ///
        /// # Contract
        ///
        /// ```text
        /// ensures ran: IfOk result (λ reply. SomeCopy bytes.now
        ///     (λ copy. RunsTenant self.old index (Write memory offset copy ∷ []) (reply ∷ [])
        ///     self.new))
        /// ensures refused: IfErr result (λ error. (error ≡ PoolError.NoTenant)
        ///     × (machine_of self.old index ≡ None) × (self.new ≡ self.old))
        /// ensures within: IsWithinCaps self.new
        /// ```
        ///
        /// Definitions: [`SomeCopy`](crate::specs::machine::StepsSpecs#SomeCopy), [`RunsTenant`](crate::specs::budget::PoolSpecs#RunsTenant), [`machine_of`](crate::specs::budget::PoolSpecs#machine_of), [`IsWithinCaps`](crate::specs::budget::PoolSpecs#IsWithinCaps).
        #[inline(always)]
        pub fn write(
            &mut self,
            index: usize,
            memory: usize,
            offset: usize,
            bytes: &[u8],
        ) -> Result<Reply, PoolError> {
            let Some(reply) = self.tenants.write(index, memory, offset, bytes) else {
                return Err(PoolError::NoTenant);
            };
            Ok(reply)
        }

        /// Whether each index up to this one has a tenant. The tenant is found without a search then.
        ///
        /// # Contract
        ///
        /// ```text
        /// ensures: IsTrue result ↔ HasAllUpTo self.now.machines index
        /// ```
        ///
        /// Definitions: [`HasAllUpTo`](crate::specs::budget::TenantsSpecs#HasAllUpTo).
        #[inline(always)]
        #[must_use]
        pub fn is_in_place(&self, index: usize) -> bool {
            self.tenants.is_in_place(index)
        }

        /// The machine of a tenant, if one has the index.
        ///
        /// # Contract
        ///
        /// ```text
        /// ensures machine: option_copied result ≡ machine_of self.now index
        /// ensures within: IsWithinCaps self.now
        /// ```
        ///
        /// Definitions: [`machine_of`](crate::specs::budget::PoolSpecs#machine_of), [`IsWithinCaps`](crate::specs::budget::PoolSpecs#IsWithinCaps).
        #[inline(always)]
        #[must_use]
        pub fn machine(&self, index: usize) -> Option<&Machine<'r>> {
            Some(&self.tenants.get(index)?.machine)
        }

        /// The bytes of a tenant's memories, including those that it dropped.
        ///
        /// # Contract
        ///
        /// ```text
        /// ensures: result ≡ option_map (λ s. total s Bytes) (machine_of self.now index)
        /// ```
        ///
        /// Definitions: [`total`](crate::specs::machine::StateSpecs#total), [`machine_of`](crate::specs::budget::PoolSpecs#machine_of).
        #[must_use]
        #[inline]
        pub fn held_bytes(&self, index: usize) -> Option<u64> {
            Some(self.held(index)?.bytes)
        }

        /// The elements of a tenant's tables, including those that it dropped.
        ///
        /// # Contract
        ///
        /// ```text
        /// ensures: result ≡ option_map (λ s. total s Elements) (machine_of self.now index)
        /// ```
        ///
        /// Definitions: [`total`](crate::specs::machine::StateSpecs#total), [`machine_of`](crate::specs::budget::PoolSpecs#machine_of).
        #[must_use]
        #[inline]
        pub fn held_elements(&self, index: usize) -> Option<u64> {
            Some(self.held(index)?.elements)
        }

        /// The bytes of all memories and the elements of all tables of the tenants, also dropped ones.
        ///
        /// # Contract
        ///
        /// ```text
        /// ensures: result ≡ amounts_of (total_of self.now.machines)
        /// ```
        ///
        /// Definitions: [`amounts_of`](crate::specs::meter::CappedSpecs#amounts_of), [`total_of`](crate::specs::budget::PoolSpecs#total_of).
        #[must_use]
        #[inline]
        pub fn held_by_all(&self) -> Amounts {
            self.held_by_all
        }

        /// # Contract
        ///
        /// ```text
        /// ensures: result ≡ option_map (λ s. amounts_of (total s)) (machine_of self.now index)
        /// ```
        ///
        /// Definitions: [`amounts_of`](crate::specs::meter::CappedSpecs#amounts_of), [`total`](crate::specs::machine::StateSpecs#total), [`machine_of`](crate::specs::budget::PoolSpecs#machine_of).
        #[inline(always)]
        fn held(&self, index: usize) -> Option<Amounts> {
            Some(self.tenants.get(index)?.held)
        }
    }
}
mod tenant {
    //! One machine of a pool with the amounts it has, the calls on it, and its limiter, the tenant.

    use crate::proved::budget::error::{PoolError, RunIntoError};
    use crate::proved::machine::{
        Call, Machine, Replies, Reply, SlotCounts, run_into_lending, run_lending,
    };
    use crate::proved::meter::{Amounts, CappedLimiter, Holdings, Kind, ResourceLimiterRef};
    use crate::rattle::Vec;
    use crate::rattle::alloc::AllocError;

    /// The limiter of one machine of a pool: it permits what keeps all tenants together within the
    /// caps, and denies the rest. It counts each difference it permitted. At a notice it takes back the
    /// last one if that is of the same kind, once. What the others hold stays while its machine runs.
    #[derive(Clone, Copy, Debug)]
    pub struct Tenant {
        caps: Amounts,
        others: Amounts,
        holdings: Holdings,
    }

    impl Tenant {
        /// A tenant that holds so much of what all tenants hold, under the caps.
        ///
        /// # Contract
        ///
        /// ```text
        /// requires bytes: held.bytes ≤ all.bytes
        /// requires elements: held.elements ≤ all.elements
        /// ensures value: result ≡ tenant_of caps all held
        /// ```
        ///
        /// Definitions: [`tenant_of`](crate::specs::budget::PoolSpecs#tenant_of).
        #[inline]
        fn new(caps: Amounts, all: Amounts, held: Amounts) -> Self {
            Tenant {
                caps,
                others: Amounts {
                    bytes: all.bytes - held.bytes,
                    elements: all.elements - held.elements,
                },
                holdings: Holdings::new(held),
            }
        }

        /// # Contract
        ///
        /// ```text
        /// requires fits: (kind : Kind) → held_together capped_tenant self.now kind < 2 ^ 64
        /// ensures value: result ≡ amounts_of (held_together capped_tenant self.now)
        /// ```
        ///
        /// Definitions: [`held_together`](crate::specs::meter::CappedSpecs#held_together), [`capped_tenant`](crate::specs::budget::PoolSpecs#capped_tenant), [`amounts_of`](crate::specs::meter::CappedSpecs#amounts_of).
        #[inline]
        fn held_by_all(&self) -> Amounts {
            let held = self.holdings.held();
            Amounts {
                bytes: self.others.bytes + held.bytes,
                elements: self.others.elements + held.elements,
            }
        }

        /// Leaves what it holds, and what all tenants hold, in the place of what it held and what all
        /// held before. Nothing is written where it holds as much, as it does after most calls: it
        /// takes longer to read both amounts at once after each was written by itself.
        ///
        /// # Contract
        ///
        /// ```text
        /// requires fits: (kind : Kind) → held_together capped_tenant self.now kind < 2 ^ 64
        /// requires before: all.old ≡ amounts_of (held_before self.now held.old)
        /// ensures held: held.new ≡ (holdings self.now).held
        /// ensures all: all.new ≡ amounts_of (held_together capped_tenant self.now)
        /// ```
        ///
        /// Definitions: [`held_together`](crate::specs::meter::CappedSpecs#held_together), [`capped_tenant`](crate::specs::budget::PoolSpecs#capped_tenant), [`amounts_of`](crate::specs::meter::CappedSpecs#amounts_of), [`held_before`](crate::specs::budget::PoolSpecs#held_before), [`holdings`](crate::specs::budget::PoolSpecs#holdings).
        #[inline(always)]
        fn leave(&self, held: &mut Amounts, all: &mut Amounts) {
            let now = self.holdings.held();
            if held.bytes != now.bytes || held.elements != now.elements {
                *held = now;
                *all = self.held_by_all();
            }
        }
    }

    /// # Contract
    ///
    /// ```text
    /// capped = capped_tenant
    /// ```
    ///
    /// Definitions: [`capped_tenant`](crate::specs::budget::PoolSpecs#capped_tenant).
    impl CappedLimiter for Tenant {
        #[inline]
        fn holdings(&self) -> Holdings {
            self.holdings
        }

        #[inline]
        fn take(&mut self, kind: Kind, difference: u64) -> bool {
            self.holdings
                .take(kind, difference, self.others.of(kind), self.caps.of(kind))
        }

        #[inline]
        fn give_back(&mut self, kind: Kind) {
            self.holdings.give_back(kind);
        }
    }

    /// A machine, with what its memories and tables have, dropped ones with their last size. So what
    /// it has is known without a walk over them.
    ///
    /// # Model
    ///
    /// ```text
    /// Value = State
    /// view = λ m. m.machine
    /// invariant = λ m. m.held ≡ amounts_of (total m.machine)
    /// ```
    ///
    /// Definitions: [`State`](crate::specs::machine::StateSpecs#State), [`amounts_of`](crate::specs::meter::CappedSpecs#amounts_of), [`total`](crate::specs::machine::StateSpecs#total).
    #[derive(Debug)]
    pub(crate) struct CountedMachine<'r> {
        pub(crate) machine: Machine<'r>,
        pub(crate) held: Amounts,
    }

    impl<'r> CountedMachine<'r> {
        /// Reserves so many more slots. What the machine has stays, so no tenant holds it.
        ///
        /// # Errors
        ///
        /// `AllocError` if memory for some of it is refused; then no more is reserved.
        ///
        /// # Contract
        ///
        /// ```text
        /// ensures reserved: OnOk result (self.new ≡ with_reserved self.old slots)
        /// ensures refused: OnErr result (self.new ≡ self.old)
        /// ```
        ///
        /// Definitions: [`with_reserved`](crate::specs::machine::StateSpecs#with_reserved).
        #[inline]
        pub(crate) fn reserve(&mut self, slots: SlotCounts) -> Result<(), AllocError> {
            self.machine.reserve(slots)
        }

        /// Reserves memory for so many elements in all of a table. No tenant holds it, as at `reserve`.
        ///
        /// # Contract
        ///
        /// ```text
        /// ensures reserved: ReservesElements self.old table elements result self.new
        /// ```
        ///
        /// Definitions: [`ReservesElements`](crate::specs::budget::PoolSpecs#ReservesElements).
        #[inline(always)]
        pub(crate) fn reserve_elements(&mut self, table: usize, elements: u64) -> Reply {
            self.machine.reserve_elements(table, elements)
        }

        /// Executes calls under its limiter in a pool with these caps, whose tenants hold `all`, which
        /// becomes what they hold afterwards.
        ///
        /// # Contract
        ///
        /// ```text
        /// requires part: IsPart caps all.old self.old
        /// ensures run: IfOk result (λ replies. RunsAsPart caps all.old self.old calls.now
        ///     replies.items self.new all.new)
        /// ensures err: IfErr result (λ error. (error ≡ PoolError.OutOfMemory)
        ///     × (self.new ≡ self.old) × (all.new ≡ all.old))
        /// ```
        ///
        /// Definitions: [`IsPart`](crate::specs::budget::PoolSpecs#IsPart), [`RunsAsPart`](crate::specs::budget::PoolSpecs#RunsAsPart).
        #[inline]
        pub(crate) fn run(
            &mut self,
            calls: &[Call],
            caps: Amounts,
            all: &mut Amounts,
        ) -> Result<Vec<Reply>, PoolError> {
            let mut tenant = Tenant::new(caps, *all, self.held);
            let replies = run_lending(&mut self.machine, calls, &mut tenant)?;
            tenant.leave(&mut self.held, all);
            Ok(replies)
        }

        /// Executes calls, as `run`, but puts their replies into memory that is there.
        ///
        /// # Errors
        ///
        /// In the order of the tests: `NoTenant` if no tenant has the index; `TooManyCalls` if there are more calls than the capacity of `replies`. Then no call was executed, and the replies stay.
        ///
        /// # Contract
        ///
        /// ```text
        /// requires part: IsPart caps all.old self.old
        /// ensures run: OnOk result (RunsAsPart caps all.old self.old calls.now replies.new.items
        ///     self.new all.new)
        /// ensures too_many: IsErrOf result RunIntoError.TooManyCalls
        ///     → (replies.old.capacity < length calls.now)
        /// ensures accepted: OnOk result (length calls.now ≤ replies.old.capacity)
        /// ensures err: IfErr result (λ error. (error ≡ RunIntoError.TooManyCalls)
        ///     × (self.new ≡ self.old) × (all.new ≡ all.old))
        /// ensures same: OnErr result (replies.new ≡ replies.old)
        /// ensures capacity: replies.new.capacity ≡ replies.old.capacity
        /// ```
        ///
        /// Definitions: [`IsPart`](crate::specs::budget::PoolSpecs#IsPart), [`RunsAsPart`](crate::specs::budget::PoolSpecs#RunsAsPart).
        #[inline]
        pub(crate) fn run_into(
            &mut self,
            calls: &[Call],
            caps: Amounts,
            all: &mut Amounts,
            replies: &mut Replies,
        ) -> Result<(), RunIntoError> {
            let mut tenant = Tenant::new(caps, *all, self.held);
            run_into_lending(&mut self.machine, calls, &mut tenant, replies)?;
            tenant.leave(&mut self.held, all);
            Ok(())
        }

        /// Executes one call, as `run` executes a list of it alone. It takes no memory for the reply.
        ///
        /// # Contract
        ///
        /// ```text
        /// requires part: IsPart caps all.old self.old
        /// ensures run: RunsAsPart caps all.old self.old (call.now ∷ []) (result ∷ []) self.new
        ///     all.new
        /// ```
        ///
        /// Definitions: [`IsPart`](crate::specs::budget::PoolSpecs#IsPart), [`RunsAsPart`](crate::specs::budget::PoolSpecs#RunsAsPart).
        #[inline(always)]
        pub(crate) fn step(&mut self, call: &Call, caps: Amounts, all: &mut Amounts) -> Reply {
            let mut tenant = Tenant::new(caps, *all, self.held);
            let reply = step_lending(&mut self.machine, call, &mut tenant);
            if !is_refused_growth(&reply) {
                tenant.leave(&mut self.held, all);
            }
            reply
        }

        /// Writes bytes over those of a memory, which asks no limiter. What the machine has stays.
        ///
        /// # Contract
        ///
        /// ```text
        /// ensures replied: SomeCopy bytes.now
        ///     (λ copy. RepliesUnasked (Write memory offset copy) self.old result self.new)
        /// ```
        ///
        /// Definitions: [`SomeCopy`](crate::specs::machine::StepsSpecs#SomeCopy), [`RepliesUnasked`](crate::specs::budget::PoolSpecs#RepliesUnasked).
        #[inline(always)]
        pub(crate) fn write(&mut self, memory: usize, offset: usize, bytes: &[u8]) -> Reply {
            self.machine.write(memory, offset, bytes)
        }

        /// Executes one call that asks no limiter. What the machine has stays, so no tenant holds it.
        ///
        /// # Contract
        ///
        /// ```text
        /// requires unasked: IsUnasked call.now
        /// ensures replied: RepliesUnasked call.now self.old result self.new
        /// ```
        ///
        /// Definitions: [`IsUnasked`](crate::specs::budget::PoolSpecs#IsUnasked), [`RepliesUnasked`](crate::specs::budget::PoolSpecs#RepliesUnasked).
        #[inline(always)]
        pub(crate) fn step_unasked(&mut self, call: &Call) -> Reply {
            step_without_tenant(&mut self.machine, call)
        }
    }

    /// Whether a reply is a memory's or table's error, after which a tenant's machine has what it had.
    ///
    /// # Contract
    ///
    /// ```text
    /// ensures: IsTrue result → IsRefusal reply.now
    /// ```
    ///
    /// Definitions: [`IsRefusal`](crate::specs::machine::StateSpecs#IsRefusal).
    #[inline(always)]
    fn is_refused_growth(reply: &Reply) -> bool {
        matches!(reply, Reply::Memory(_) | Reply::Table(_))
    }

    /// Executes one call under a limiter that is known again afterwards.
    ///
    /// # Contract
    ///
    /// ```text
    /// ensures: RepliesWith (optional_rules tenant_rules) call.now
    ///     (world machine.old (Some tenant.old)) result (world machine.new (Some tenant.new))
    /// ```
    ///
    /// Definitions: [`RepliesWith`](crate::specs::machine::StepsSpecs#RepliesWith), [`optional_rules`](crate::specs::meter::LimiterSpecs#optional_rules), [`tenant_rules`](crate::specs::budget::PoolSpecs#tenant_rules), [`world`](crate::specs::machine::StateSpecs#world).
    #[inline(always)]
    fn step_lending(machine: &mut Machine, call: &Call, tenant: &mut Tenant) -> Reply {
        // By itself, so that a growth by plain arguments is no `Call` in memory.
        if let Call::GrowMemory { memory, pages } = call {
            return machine.grow_memory_lending(*memory, *pages, tenant);
        }
        machine.step_lending(call, tenant)
    }

    /// Executes one call that asks no limiter on a machine, whatever its tenant is.
    ///
    /// # Contract
    ///
    /// ```text
    /// requires unasked: IsUnasked call.now
    /// ensures replied: RepliesUnasked call.now machine.old result machine.new
    /// ```
    ///
    /// Definitions: [`IsUnasked`](crate::specs::budget::PoolSpecs#IsUnasked), [`RepliesUnasked`](crate::specs::budget::PoolSpecs#RepliesUnasked).
    #[inline(always)]
    fn step_without_tenant(machine: &mut Machine, call: &Call) -> Reply {
        match call {
            Call::Store {
                op,
                memory,
                ptr,
                offset,
                value,
            } => machine.store_item(*op, *memory, *ptr, *offset, *value),
            _ => {
                let mut nobody = ResourceLimiterRef::<Tenant>::default();
                machine.step(call, &mut nobody)
            }
        }
    }
}
mod tenants {
    //! The machines of a pool at their indices: where an index lies, and what is done with its machine.

    use crate::proved::budget::error::{PoolError, ReserveError, RunIntoError};
    use crate::proved::budget::tenant::CountedMachine;
    use crate::proved::machine::{Call, Replies, Reply, SlotCounts};
    use crate::proved::meter::Amounts;
    use crate::rattle::Vec;

    /// Whether an index lies at the place that it names.
    ///
    /// # Contract
    ///
    /// ```text
    /// ensures: IsTrue result ↔ IsPlace indices.now index (Some index)
    /// ```
    ///
    /// Definitions: [`IsPlace`](crate::specs::budget::TenantsSpecs#IsPlace).
    #[inline(always)]
    fn is_own_place(indices: &[usize], index: usize) -> bool {
        index < indices.len() && indices[index] == index
    }

    /// The place of an index among rising ones, if it is one of them. It is found without a search
    /// where no machine before it was removed.
    ///
    /// # Contract
    ///
    /// ```text
    /// requires rises: Rises indices.now
    /// ensures found: IsPlace indices.now index result
    /// ```
    ///
    /// Definitions: [`Rises`](crate::specs::budget::TenantsSpecs#Rises), [`IsPlace`](crate::specs::budget::TenantsSpecs#IsPlace).
    #[inline(always)]
    fn place_of(indices: &[usize], index: usize) -> Option<usize> {
        if is_own_place(indices, index) {
            return Some(index);
        }
        indices.binary_search(&index).ok()
    }

    /// Machines at indices that are given in order, each once. One that was removed keeps no memory.
    ///
    /// # Model
    ///
    /// ```text
    /// Value = List (Option State)
    /// view = λ t. by_index t.next t.indices.items t.machines.items
    /// invariant = λ t. IsListed t.next t.indices.items t.machines.items
    /// ```
    ///
    /// Definitions: [`State`](crate::specs::machine::StateSpecs#State), [`by_index`](crate::specs::budget::TenantsSpecs#by_index), [`IsListed`](crate::specs::budget::TenantsSpecs#IsListed).
    #[derive(Debug)]
    pub(crate) struct Tenants<'r> {
        /// The next index that is given.
        next: usize,
        /// The indices of the machines, which rise.
        indices: Vec<usize>,
        machines: Vec<CountedMachine<'r>>,
    }

    impl<'r> Tenants<'r> {
        /// No index was given yet. It takes no memory.
        ///
        /// # Contract
        ///
        /// ```text
        /// ensures: result ≡ []
        /// ```
        #[inline]
        pub(crate) fn new() -> Self {
            Tenants {
                next: 0,
                indices: Vec::new(),
                machines: Vec::new(),
            }
        }

        /// # Contract
        ///
        /// ```text
        /// ensures: result ≡ length self.now
        /// ```
        #[inline]
        pub(crate) fn len(&self) -> usize {
            self.next
        }

        /// Whether each index up to this one has a machine.
        ///
        /// # Contract
        ///
        /// ```text
        /// ensures: IsTrue result ↔ HasAllUpTo self.now index
        /// ```
        ///
        /// Definitions: [`HasAllUpTo`](crate::specs::budget::TenantsSpecs#HasAllUpTo).
        #[inline(always)]
        pub(crate) fn is_in_place(&self, index: usize) -> bool {
            is_own_place(&self.indices, index)
        }

        /// # Contract
        ///
        /// ```text
        /// ensures: option_copied result ≡ slice_index_or self.now index None
        /// ```
        #[inline(always)]
        pub(crate) fn get(&self, index: usize) -> Option<&CountedMachine<'r>> {
            let place = place_of(&self.indices, index)?;
            Some(&self.machines[place])
        }

        /// Puts a machine at the next index, or hands it back if memory is refused or no index is left.
        ///
        /// # Contract
        ///
        /// ```text
        /// ensures added: OnOk result (self.new ≡ self.old ++ Some machine.entry ∷ [])
        /// ensures refused: IfErr result (λ back. (back ≡ machine.entry) × (self.new ≡ self.old))
        /// ```
        #[inline]
        pub(crate) fn push(
            &mut self,
            machine: CountedMachine<'r>,
        ) -> Result<(), CountedMachine<'r>> {
            let index = self.next;
            let Some(next) = index.checked_add(1) else {
                return Err(machine);
            };
            if self.indices.try_reserve(1).is_err() || self.machines.try_reserve(1).is_err() {
                return Err(machine);
            }
            self.indices.push_reserved(index);
            self.machines.push_reserved(machine);
            self.next = next;
            Ok(())
        }

        /// Takes the machine at an index out, if there is one.
        ///
        /// # Contract
        ///
        /// ```text
        /// ensures: MatchOption result
        ///     ((slice_index_or self.old index None ≡ None) × (self.new ≡ self.old))
        ///     (λ machine. (slice_index_or self.old index None ≡ Some machine)
        ///     × (self.new ≡ slice_set self.old index None))
        /// ```
        #[inline]
        pub(crate) fn remove(&mut self, index: usize) -> Option<CountedMachine<'r>> {
            let place = place_of(&self.indices, index)?;
            self.indices.remove(place);
            Some(self.machines.remove(place))
        }

        /// Reserves so many more slots of the machine at an index.
        ///
        /// # Errors
        ///
        /// In the order of the tests: `NoTenant` if no tenant has the index; `OutOfMemory` if memory for some of the slots is refused. Then none more is reserved.
        ///
        /// # Contract
        ///
        /// ```text
        /// ensures reserved: OnOk result (ReservesAt self.old index slots self.new)
        /// ensures no_tenant: IsErrOf result ReserveError.NoTenant
        ///     ↔ (slice_index_or self.old index None ≡ None)
        /// ensures refused: OnErr result (self.new ≡ self.old)
        /// ```
        ///
        /// Definitions: [`ReservesAt`](crate::specs::budget::PoolSpecs#ReservesAt).
        #[inline]
        pub(crate) fn reserve(
            &mut self,
            index: usize,
            slots: SlotCounts,
        ) -> Result<(), ReserveError> {
            let Some(place) = place_of(&self.indices, index) else {
                return Err(ReserveError::NoTenant);
            };
            let counted = &mut self.machines[place];
            counted.reserve(slots)?;
            Ok(())
        }

        /// Reserves memory for so many elements in all of a table of the machine at an index, if any.
        ///
        /// # Contract
        ///
        /// ```text
        /// ensures reserved: MatchOption result
        ///     ((slice_index_or self.old index None ≡ None) × (self.new ≡ self.old))
        ///     (λ reply. ReservesElementsIn self.old index table elements reply self.new)
        /// ```
        ///
        /// Definitions: [`ReservesElementsIn`](crate::specs::budget::PoolSpecs#ReservesElementsIn).
        #[inline(always)]
        pub(crate) fn reserve_elements(
            &mut self,
            index: usize,
            table: usize,
            elements: u64,
        ) -> Option<Reply> {
            let place = place_of(&self.indices, index)?;
            Some(self.machines[place].reserve_elements(table, elements))
        }

        /// Executes calls on the machine at an index, under its limiter in a pool with these caps, whose
        /// tenants hold `all`, which becomes what they hold afterwards.
        ///
        /// # Errors
        ///
        /// In the order of the tests: [`NoTenant`](crate::pool::PoolError::NoTenant) if no tenant has the index; [`OutOfMemory`](crate::pool::PoolError::OutOfMemory) if memory for the replies is refused. Then no call was executed.
        ///
        /// # Contract
        ///
        /// ```text
        /// requires kept: IsKept (pool_of caps self.old) all.old
        /// ensures ran: IfOk result (λ replies. RunsTenant (pool_of caps self.old) index calls.now
        ///     replies.items (pool_of caps self.new))
        /// ensures no_tenant: IsErrOf result PoolError.NoTenant
        ///     ↔ (slice_index_or self.old index None ≡ None)
        /// ensures refused: OnErr result (self.new ≡ self.old)
        /// ensures kept: IsKept (pool_of caps self.new) all.new
        /// ```
        ///
        /// Definitions: [`IsKept`](crate::specs::budget::PoolSpecs#IsKept), [`pool_of`](crate::specs::budget::PoolSpecs#pool_of), [`RunsTenant`](crate::specs::budget::PoolSpecs#RunsTenant).
        #[inline]
        pub(crate) fn run(
            &mut self,
            index: usize,
            calls: &[Call],
            caps: Amounts,
            all: &mut Amounts,
        ) -> Result<Vec<Reply>, PoolError> {
            let Some(place) = place_of(&self.indices, index) else {
                return Err(PoolError::NoTenant);
            };
            let machine = &mut self.machines[place];
            machine.run(calls, caps, all)
        }

        /// Executes calls, as `run`, but puts their replies into memory that is there.
        ///
        /// # Errors
        ///
        /// In the order of the tests: `NoTenant` if no tenant has the index; `TooManyCalls` if there are more calls than the capacity of `replies`. Then no call was executed, and the replies stay.
        ///
        /// # Contract
        ///
        /// ```text
        /// requires kept: IsKept (pool_of caps self.old) all.old
        /// ensures ran: OnOk result (RunsTenant (pool_of caps self.old) index calls.now
        ///     replies.new.items (pool_of caps self.new))
        /// ensures no_tenant: IsErrOf result RunIntoError.NoTenant
        ///     ↔ (slice_index_or self.old index None ≡ None)
        /// ensures too_many: IsErrOf result RunIntoError.TooManyCalls
        ///     → (replies.old.capacity < length calls.now)
        /// ensures accepted: OnOk result (length calls.now ≤ replies.old.capacity)
        /// ensures refused: OnErr result ((self.new ≡ self.old) × (replies.new ≡ replies.old))
        /// ensures capacity: replies.new.capacity ≡ replies.old.capacity
        /// ensures kept: IsKept (pool_of caps self.new) all.new
        /// ```
        ///
        /// Definitions: [`IsKept`](crate::specs::budget::PoolSpecs#IsKept), [`pool_of`](crate::specs::budget::PoolSpecs#pool_of), [`RunsTenant`](crate::specs::budget::PoolSpecs#RunsTenant).
        #[inline]
        pub(crate) fn run_into(
            &mut self,
            index: usize,
            calls: &[Call],
            caps: Amounts,
            all: &mut Amounts,
            replies: &mut Replies,
        ) -> Result<(), RunIntoError> {
            let Some(place) = place_of(&self.indices, index) else {
                return Err(RunIntoError::NoTenant);
            };
            let counted = &mut self.machines[place];
            counted.run_into(calls, caps, all, replies)
        }

        /// Executes one call on the machine at an index, if any, as `run` executes a list of it alone.
        ///
        /// # Contract
        ///
        /// ```text
        /// requires kept: IsKept (pool_of caps self.old) all.old
        /// ensures stepped: MatchOption result
        ///     ((slice_index_or self.old index None ≡ None) × (self.new ≡ self.old))
        ///     (λ reply. RunsTenant (pool_of caps self.old) index (call.now ∷ []) (reply ∷ [])
        ///     (pool_of caps self.new))
        /// ensures kept: IsKept (pool_of caps self.new) all.new
        /// ```
        ///
        /// Definitions: [`IsKept`](crate::specs::budget::PoolSpecs#IsKept), [`pool_of`](crate::specs::budget::PoolSpecs#pool_of), [`RunsTenant`](crate::specs::budget::PoolSpecs#RunsTenant).
        #[inline(always)]
        pub(crate) fn step(
            &mut self,
            index: usize,
            call: &Call,
            caps: Amounts,
            all: &mut Amounts,
        ) -> Option<Reply> {
            let place = place_of(&self.indices, index)?;
            Some(self.machines[place].step(call, caps, all))
        }

        /// Writes bytes over those of a memory of the machine at an index, if there is one.
        ///
        /// # Contract
        ///
        /// ```text
        /// ensures stepped: MatchOption result
        ///     ((slice_index_or self.old index None ≡ None) × (self.new ≡ self.old))
        ///     (λ reply. SomeCopy bytes.now
        ///     (λ copy. RunsUnasked self.old index (Write memory offset copy) reply self.new))
        /// ```
        ///
        /// Definitions: [`SomeCopy`](crate::specs::machine::StepsSpecs#SomeCopy), [`RunsUnasked`](crate::specs::budget::PoolSpecs#RunsUnasked).
        #[inline(always)]
        pub(crate) fn write(
            &mut self,
            index: usize,
            memory: usize,
            offset: usize,
            bytes: &[u8],
        ) -> Option<Reply> {
            let place = place_of(&self.indices, index)?;
            Some(self.machines[place].write(memory, offset, bytes))
        }

        /// Executes one call that asks no limiter on the machine at an index, if there is one.
        ///
        /// # Contract
        ///
        /// ```text
        /// requires unasked: IsUnasked call.now
        /// ensures stepped: MatchOption result
        ///     ((slice_index_or self.old index None ≡ None) × (self.new ≡ self.old))
        ///     (λ reply. RunsUnasked self.old index call.now reply self.new)
        /// ```
        ///
        /// Definitions: [`IsUnasked`](crate::specs::budget::PoolSpecs#IsUnasked), [`RunsUnasked`](crate::specs::budget::PoolSpecs#RunsUnasked).
        #[inline(always)]
        pub(crate) fn step_unasked(&mut self, index: usize, call: &Call) -> Option<Reply> {
            let place = place_of(&self.indices, index)?;
            Some(self.machines[place].step_unasked(call))
        }
    }
}

pub use error::{AddError, PoolError, ReserveError, RunIntoError};
pub use pool::Pool;
pub use tenant::Tenant;
