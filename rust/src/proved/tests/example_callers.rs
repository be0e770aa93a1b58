//! Callers of `wasmi_core` and `wasmi_budget` to read as examples: a limiter of one's own, a host,
//! a bill, and a small interpreter.
pub mod bill {
    //! A bill: what a run was charged.

    use crate::proved::facade::{Call, Machine, Reply, ResourceLimiter, laws, run_lending};
    use crate::rattle::Vec;
    use crate::rattle::alloc::AllocError;

    /// The replies to calls, and the fuel that they were charged.
    #[derive(Debug)]
    pub struct Bill {
        /// A reply for each call.
        pub replies: Vec<Reply>,
        /// The fuel, which is 0 if metering is off.
        pub charged: u64,
    }

    /// Why no call was made, in the order of the tests.
    #[derive(Debug, PartialEq, Eq)]
    pub enum BillError {
        /// A call sets the fuel.
        SetsFuel,
        /// Memory for the replies was refused.
        OutOfMemory,
    }

    /// Runs calls, and returns their bill: the fuel that the calls were charged, one by one. The bill
    /// and what is left add up to what was left before. No call may set the fuel.
    ///
    /// # Contract
    ///
    /// ```text
    /// requires sets_no_fuel: All SetsNoFuel calls.now
    /// ensures bill: IfOk result (λ bill. IsBill (optional_rules L.rules) calls.now
    ///     (world machine.old (Some limiter.old)) bill.replies.items bill.charged
    ///     (world machine.new (Some limiter.new)))
    /// ensures off: machine.old.meter.left ≡ None → IfOk result (λ bill. bill.charged ≡ 0)
    /// ensures err: OnErr result ((machine.new ≡ machine.old) × (limiter.new ≡ limiter.old))
    /// ```
    pub fn run_and_bill<L: ResourceLimiter>(
        machine: &mut Machine,
        calls: &[Call],
        limiter: &mut L,
    ) -> Result<Bill, AllocError> {
        laws::charges_are_spent::<L>();
        let before = left(machine);
        let replies = run_lending(machine, calls, limiter)?;
        let charged = before.saturating_sub(left(machine));
        Ok(Bill { replies, charged })
    }

    /// As `run_and_bill`, for calls of unknown origin: if one of them sets the fuel, none is executed.
    ///
    /// # Contract
    ///
    /// ```text
    /// ensures bill: IfOk result (λ bill. IsBill (optional_rules L.rules) calls.now
    ///     (world machine.old (Some limiter.old)) bill.replies.items bill.charged
    ///     (world machine.new (Some limiter.new)))
    /// ensures off: machine.old.meter.left ≡ None → IfOk result (λ bill. bill.charged ≡ 0)
    /// ensures sets_fuel: IsErrOf result BillError.SetsFuel ↔ ¬ (All SetsNoFuel calls.now)
    /// ensures err: OnErr result ((machine.new ≡ machine.old) × (limiter.new ≡ limiter.old))
    /// ```
    pub fn run_if_billable<L: ResourceLimiter>(
        machine: &mut Machine,
        calls: &[Call],
        limiter: &mut L,
    ) -> Result<Bill, BillError> {
        if calls.iter().any(Call::sets_fuel) {
            return Err(BillError::SetsFuel);
        }
        run_and_bill(machine, calls, limiter).map_err(|_| BillError::OutOfMemory)
    }

    /// What is left, or 0 if metering is off.
    ///
    /// # Contract
    ///
    /// ```text
    /// ensures: result ≡ amount_left machine.now.meter
    /// ```
    fn left(machine: &Machine) -> u64 {
        machine.fuel().get_fuel().unwrap_or(0)
    }
}
pub mod host {
    //! A host of plug-ins: a run of a new machine under a quota, and two tenants of a pool.

    use crate::proved::budget::{Pool, PoolError};
    use crate::proved::facade::{Call, Fuel, Machine, Quota, Reply, laws, run_reserving};
    use crate::rattle::Vec;
    use crate::rattle::alloc::AllocError;

    /// A plug-in that has run.
    #[derive(Debug)]
    pub struct Plugin<'r> {
        /// Its machine.
        pub machine: Machine<'r>,
        /// The replies to its calls.
        pub replies: Vec<Reply>,
    }

    /// Runs the calls of a plug-in on a machine of its own with this meter, under a quota with these
    /// caps on the bytes of memories and the elements of tables. Whatever the calls are, the machine
    /// doesn't exceed the caps afterwards.
    ///
    /// # Contract
    ///
    /// ```text
    /// ensures run: IfOk result
    ///     (λ ran. RunsUnderQuota bytes elements fuel calls.now ran.replies.items ran.machine)
    /// ensures bytes: IfOk result (λ ran. total ran.machine Bytes ≤ bytes)
    /// ensures elements: IfOk result (λ ran. total ran.machine Elements ≤ elements)
    /// ```
    pub fn run_plugin<'r>(
        fuel: Fuel,
        calls: &[Call],
        bytes: u64,
        elements: u64,
    ) -> Result<Plugin<'r>, AllocError> {
        laws::quotas_stay_within();
        let mut machine = Machine::new(fuel);
        let mut quota = Quota::new(bytes, elements);
        let replies = run_reserving(&mut machine, calls, &mut quota)?;
        Ok(Plugin { machine, replies })
    }

    /// Runs the calls of the first tenant of a pool, and then those of the second. Whatever they ask
    /// for, all tenants together stay within the pool's caps, which don't change. After an error the
    /// first may have run.
    ///
    /// # Contract
    ///
    /// ```text
    /// ensures run: IfOk result (λ replies. PoolRun pool.old
    ///     (Ran 0 first.now replies.0.items ∷ Ran 1 second.now replies.1.items ∷ []) pool.new)
    /// ensures no_tenant: IsErrOf result PoolError.NoTenant
    ///     → (machine_of pool.old 0 ≡ None) ⊎ (machine_of pool.old 1 ≡ None)
    /// ensures few: (machine_of pool.old 0 ≡ None) ⊎ (machine_of pool.old 1 ≡ None) → IsErr result
    /// ensures within: IsWithinCaps pool.new
    /// ensures caps: pool.new.caps ≡ pool.old.caps
    /// ```
    pub fn run_two_tenants(
        pool: &mut Pool,
        first: &[Call],
        second: &[Call],
    ) -> Result<(Vec<Reply>, Vec<Reply>), PoolError> {
        let first_replies = pool.run(0, first)?;
        let second_replies = pool.run(1, second)?;
        Ok((first_replies, second_replies))
    }
}
pub mod interpreter {
    //! A small interpreter: a list of instructions that runs on a machine under a limiter. Modules,
    //! functions and the validation of types are left out.

    use crate::proved::facade::{
        BinaryOp, Call, FuelError, Machine, RawVal, ReadAs, Reply, ResourceLimiter, StoreOp,
        VectorLoadOp, laws, wasm,
    };

    /// One instruction. Locals are the registers of the machine, 0 to 15, and the memory is its memory
    /// 0. An address is a local and an offset; `dst` is the local that takes the result.
    #[derive(Clone, Copy)]
    pub enum Instruction {
        /// `i64.const`
        Constant { dst: u8, number: u64 },
        /// `local.get` and `local.set`
        Copy { dst: u8, src: u8 },
        /// `i64.add`
        Add { dst: u8, lhs: u8, rhs: u8 },
        /// `i64.mul`
        Multiply { dst: u8, lhs: u8, rhs: u8 },
        /// `i8x16.add`
        AddBytes { dst: u8, lhs: u8, rhs: u8 },
        /// `v128.load64_zero`, of whose vector the number of `i64.load` is the low word.
        Load { dst: u8, ptr: u8, offset: u64 },
        /// `i64.store`
        Store { ptr: u8, offset: u64, value: u8 },
        /// `memory.grow` by as many pages as a local says. The result is the old size in pages. It is
        /// -1, which is 2^64 - 1, if the growth is refused: out of bounds, denied by the limiter, out
        /// of memory, or more than the fuel that is left pays for.
        Grow { dst: u8, pages: u8 },
        /// `memory.size`
        Size { dst: u8 },
        /// `br` to an index of the program
        Branch(usize),
        /// `br_if` to an index of the program, if the low word of a local isn't 0
        BranchIf { condition: u8, target: usize },
        /// `return`
        Return(u8),
    }

    /// What an instruction does, once its locals are read.
    pub enum Action {
        /// The machine executes a call, and the next instruction follows.
        Calls(Call),
        /// The memory grows by a number of pages, a register takes the result, and the next instruction
        /// follows.
        Grows { dst: u8, pages: u64 },
        /// The next instruction follows.
        Continues,
        /// The instruction of an index follows.
        Branches(usize),
        /// The program returns a value.
        Returns(RawVal),
    }

    /// How a program ends.
    #[derive(Debug, PartialEq, Eq)]
    pub enum Ending {
        /// It returned a value.
        Returned(RawVal),
        /// A call was refused: an access was out of bounds, or there is no such register or memory.
        Refused(Reply),
        /// There is no next instruction, or it reads a register or a memory that isn't there, or it is
        /// a growth whose `dst` isn't there. No fuel is taken, and nothing has happened.
        Undefined,
        /// There is a next instruction, but the machine is metered and has no fuel for it.
        OutOfFuel,
    }

    /// How a program ended and at which instruction, and how many instructions were executed before.
    #[derive(Debug, PartialEq, Eq)]
    pub struct Outcome {
        /// How it ended, or `None` if it has executed as many instructions as it may.
        pub ending: Option<Ending>,
        /// The index of the instruction at which it ended.
        pub place: usize,
        /// How many instructions were executed before that one.
        pub executed: u64,
    }

    impl Instruction {
        /// What it does on a machine, if the registers and the memory that it reads are there.
        ///
        /// # Contract
        ///
        /// ```text
        /// ensures: result ≡ action_of self machine.now
        /// ```
        pub fn action(self, machine: &Machine) -> Option<Action> {
            match self {
                Instruction::Constant { dst, number } => Some(set(dst, RawVal::from(number))),
                Instruction::Copy { dst, src } => Some(set(dst, machine.register(src)?)),
                Instruction::Add { dst, lhs, rhs } => {
                    let (lhs, rhs) = machine.register(lhs).zip(machine.register(rhs))?;
                    Some(set(dst, wasm::i64_add(lhs.read_as(), rhs.read_as()).into()))
                }
                Instruction::Multiply { dst, lhs, rhs } => {
                    let (lhs, rhs) = machine.register(lhs).zip(machine.register(rhs))?;
                    Some(set(dst, wasm::i64_mul(lhs.read_as(), rhs.read_as()).into()))
                }
                Instruction::AddBytes { dst, lhs, rhs } => Some(Action::Calls(Call::Binary {
                    op: BinaryOp::I8x16Add,
                    dst,
                    a: lhs,
                    b: rhs,
                })),
                Instruction::Load { dst, ptr, offset } => Some(Action::Calls(Call::VectorLoad {
                    op: VectorLoadOp::V128Load64Zero,
                    dst,
                    memory: 0,
                    ptr: machine.register(ptr)?.to_bits64(),
                    offset,
                })),
                Instruction::Store { ptr, offset, value } => {
                    let (ptr, value) = machine.register(ptr).zip(machine.register(value))?;
                    Some(Action::Calls(Call::Store {
                        op: StoreOp::Store64,
                        memory: 0,
                        ptr: ptr.to_bits64(),
                        offset,
                        value,
                    }))
                }
                Instruction::Grow { dst, pages } => {
                    let (_, pages) = machine.register(dst).zip(machine.register(pages))?;
                    Some(Action::Grows {
                        dst,
                        pages: pages.to_bits64(),
                    })
                }
                Instruction::Size { dst } => {
                    Some(set(dst, RawVal::from(machine.memory(0)?.size())))
                }
                Instruction::Branch(target) => Some(Action::Branches(target)),
                Instruction::BranchIf { condition, target } => {
                    if machine.register(condition)?.to_bits64() == 0 {
                        Some(Action::Continues)
                    } else {
                        Some(Action::Branches(target))
                    }
                }
                Instruction::Return(local) => Some(Action::Returns(machine.register(local)?)),
            }
        }
    }

    /// A register takes a value.
    ///
    /// # Contract
    ///
    /// ```text
    /// ensures: result ≡ Action.Calls (Call.SetRegister dst value)
    /// ```
    fn set(dst: u8, value: RawVal) -> Action {
        Action::Calls(Call::SetRegister { dst, value })
    }

    /// What the instruction of a place does, if there is one.
    ///
    /// # Contract
    ///
    /// ```text
    /// ensures action: result ≡ action_at program.now place machine.now
    /// ensures there: IsSome result → place < length program.now
    /// ```
    fn action_at(program: &[Instruction], place: usize, machine: &Machine) -> Option<Action> {
        program.get(place)?.action(machine)
    }

    /// Takes one unit of fuel, if the machine is metered. Returns whether there was one to take.
    ///
    /// # Contract
    ///
    /// ```text
    /// ensures: MatchBool result
    ///     ((is_out_of_fuel machine.old.meter ≡ false) × (machine.new ≡ fuel_taken machine.old))
    ///     ((is_out_of_fuel machine.old.meter ≡ true) × (machine.new ≡ machine.old))
    /// ```
    fn take_fuel(machine: &mut Machine) -> bool {
        !matches!(machine.consume_fuel(1), Err(FuelError::OutOfFuel { .. }))
    }

    /// What follows the reply to a call: the next place, or how the program ends.
    ///
    /// # Contract
    ///
    /// ```text
    /// ensures: result ≡ place_after reply next
    /// ```
    fn place_after(reply: Reply, next: usize) -> Result<usize, Ending> {
        match reply {
            Reply::Done => Ok(next),
            reply => Err(Ending::Refused(reply)),
        }
    }

    /// Grows the memory, and sets a register to the result of `memory.grow`. Returns the reply to the
    /// last of these calls.
    ///
    /// # Contract
    ///
    /// ```text
    /// ensures: (turns : List Turn) × Run (optional_rules L.rules)
    ///     (world machine.old (Some limiter.old)) turns (world machine.new (Some limiter.new))
    ///     × IsGrowth dst pages turns result
    /// ```
    fn grow<L: ResourceLimiter>(
        dst: u8,
        pages: u64,
        machine: &mut Machine,
        limiter: &mut L,
    ) -> Reply {
        let size = match machine.step_lending(&Call::GrowMemory { memory: 0, pages }, limiter) {
            Reply::Number(size) => size,
            Reply::Memory(_) => u64::MAX,
            reply => return reply,
        };
        let value = RawVal::from(size);
        machine.step_lending(&Call::SetRegister { dst, value }, limiter)
    }

    /// Carries out an action. Returns the place that follows, or how the program ends.
    ///
    /// # Contract
    ///
    /// ```text
    /// ensures: (turns : List Turn) × Run (optional_rules L.rules)
    ///     (world machine.old (Some limiter.old)) turns (world machine.new (Some limiter.new))
    ///     × CarriesOut action next turns result
    /// ```
    fn act<L: ResourceLimiter>(
        action: Action,
        next: usize,
        machine: &mut Machine,
        limiter: &mut L,
    ) -> Result<usize, Ending> {
        match action {
            Action::Calls(call) => place_after(machine.step_lending(&call, limiter), next),
            Action::Grows { dst, pages } => place_after(grow(dst, pages, machine, limiter), next),
            Action::Continues => Ok(next),
            Action::Branches(target) => Ok(target),
            Action::Returns(value) => Err(Ending::Returned(value)),
        }
    }

    /// Executes the instruction of a place, for one unit of fuel if the machine is metered. Returns the
    /// next place, or how the program ends. The fuel is taken before the instruction does anything, and
    /// stays taken if its call is refused.
    ///
    /// # Contract
    ///
    /// ```text
    /// ensures: (turns : List Turn) × StepsAt (optional_rules L.rules) program.now place
    ///     (world machine.old (Some limiter.old)) turns result
    ///     (world machine.new (Some limiter.new))
    /// ```
    pub fn step<L: ResourceLimiter>(
        program: &[Instruction],
        place: usize,
        machine: &mut Machine,
        limiter: &mut L,
    ) -> Result<usize, Ending> {
        let Some(action) = action_at(program, place, machine) else {
            return Err(Ending::Undefined);
        };
        if !take_fuel(machine) {
            return Err(Ending::OutOfFuel);
        }
        act(action, place + 1, machine, limiter)
    }

    /// Executes a program from its first instruction on. It executes at most `steps` instructions, so
    /// it returns, whatever the program is. If the machine is metered, each instruction takes one unit
    /// of fuel, also the one at which the program returned or was refused. While metering is on, the
    /// fuel that was left before is the fuel that is left afterwards, these units, and what growths
    /// were charged.
    ///
    /// What it does to the machine and the limiter is what a run does, so each law over runs applies.
    /// That run has a call that sets what is left wherever a unit of fuel is taken, so the laws on fuel
    /// say little of it: `executed` says the same of the program itself.
    ///
    /// # Contract
    ///
    /// ```text
    /// ensures executed: (turns : List Turn) × ExecutesProgram (optional_rules L.rules) program.now
    ///     (world machine.old (Some limiter.old)) turns result (world machine.new (Some limiter.new))
    ///     × PaysProgramFuel machine.old.meter turns result machine.new.meter
    /// ensures steps: IsWithinSteps steps result
    /// ensures run: HasRun (optional_rules L.rules) (world machine.old (Some limiter.old))
    ///     (world machine.new (Some limiter.new))
    /// ```
    pub fn execute<L: ResourceLimiter>(
        program: &[Instruction],
        machine: &mut Machine,
        limiter: &mut L,
        steps: u64,
    ) -> Outcome {
        laws::runs_join::<L>();
        laws::charges_are_spent::<L>();
        laws::fuel_bounds_writing::<L>();
        let mut place = 0;
        for executed in 0..steps {
            match step(program, place, machine, limiter) {
                Ok(next) => place = next,
                Err(ending) => {
                    return Outcome {
                        ending: Some(ending),
                        place,
                        executed,
                    };
                }
            }
        }
        Outcome {
            ending: None,
            place,
            executed: steps,
        }
    }
}
pub mod limiter {
    //! A limiter of one's own, and what grows under it.

    use crate::proved::facade::{Fuel, Kind, LimiterByKind, LimiterError, Memory, MemoryError};

    /// Permits each memory up to a number of bytes, and no table.
    #[derive(Clone, Copy, Debug)]
    pub struct AtMost {
        /// The most bytes that a memory may have.
        pub bytes: usize,
    }

    impl LimiterByKind for AtMost {
        fn growing(&mut self, kind: Kind, _from: usize, to: usize) -> Result<bool, LimiterError> {
            Ok(kind == Kind::Bytes && to <= self.bytes)
        }

        fn grow_failed(&mut self, _kind: Kind) -> Result<(), LimiterError> {
            Ok(())
        }
    }

    /// Grows a memory by `pages` pages of its type, and returns its old size in pages. If the memory
    /// had no more bytes than the limiter permits, it has no more afterwards. The limiter is unchanged.
    ///
    /// The errors are those of `Memory::grow`, in its order.
    ///
    /// # Contract
    ///
    /// ```text
    /// ensures grown: GrowsMemory (optional_rules at_most_rules) pages
    ///     (metered_value memory.old (Some fuel.old) (Some limiter.old)) result
    ///     (metered_value memory.new (Some fuel.new) (Some limiter.new))
    /// ensures within: length memory.old.bytes ≤ limiter.old.bytes
    ///     → length memory.new.bytes ≤ limiter.old.bytes
    /// ensures limiter: limiter.new ≡ limiter.old
    /// ```
    pub fn grow(
        memory: &mut Memory,
        pages: u64,
        fuel: &mut Fuel,
        limiter: &mut AtMost,
    ) -> Result<u64, MemoryError> {
        memory.grow_lending(pages, fuel, limiter)
    }
}
