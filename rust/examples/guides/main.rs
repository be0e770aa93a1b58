//! Runs the guides one after another.
mod bill {
    //! A bill: what a list of calls of unknown origin costs, and what is left for the next one.

    use std::io;
    use std::io::Write as _;
    use wasmi_core_proved::machine::{
        Call, Fuel, FuelCostsProvider, Machine, MemoryType, NoLimits, run_lending,
    };

    /// Runs a list of calls and prints what it was charged.
    pub fn main() -> Result<(), Box<dyn std::error::Error>> {
        // Fuel is counted at the default prices: one unit pays for 64 copied bytes.
        let mut fuel = Fuel::new(true, FuelCostsProvider::default());
        fuel.set_fuel(2000)?;
        let mut builder = MemoryType::builder();
        builder.min(1);
        let ty = builder.build()?;
        let grow = Call::GrowMemory {
            memory: 0,
            pages: 1,
        };
        let calls = [Call::NewMemory(ty), grow, Call::GetFuel];
        let mut machine = Machine::new(fuel);
        bill(&mut machine, &calls)?;
        Ok(())
    }

    /// Runs calls, and prints their replies and what they were charged.
    fn bill(machine: &mut Machine, calls: &[Call]) -> io::Result<()> {
        // Whoever pays must not set the fuel.
        if calls.iter().any(Call::sets_fuel) {
            return writeln!(std::io::stdout(), "refused: a call sets the fuel");
        }
        let before = left(machine);
        let replies = run_lending(machine, calls, &mut NoLimits)?;
        let after = left(machine);
        let charged = before.saturating_sub(after);
        writeln!(
            std::io::stdout(),
            "replies: {replies:?}\ncharged {charged}, left {after}"
        )
    }

    /// What is left, or 0 if metering is off.
    fn left(machine: &Machine) -> u64 {
        machine.fuel().get_fuel().unwrap_or(0)
    }
}
mod growth {
    //! A growth under a quota, with the contract that its caller wants.

    use std::io::Write as _;
    use wasmi_core_proved::machine::{
        Fuel, FuelCostsProvider, Memory, MemoryError, MemoryType, Quota,
    };

    /// Grows by so many pages, pays for them, and counts them in the quota.
    ///
    /// # Contract
    ///
    /// ```text
    /// ensures: GrowsMemory (optional_rules quota_rules) pages
    ///     (metered_value memory.old (Some fuel.old) (Some quota.old)) result
    ///     (metered_value memory.new (Some fuel.new) (Some quota.new))
    /// ```
    pub fn grow(
        memory: &mut Memory,
        pages: u64,
        fuel: &mut Fuel,
        quota: &mut Quota,
    ) -> Result<u64, MemoryError> {
        memory.grow_lending(pages, fuel, quota)
    }

    /// Grows a memory of bytes by more than the quota has left, then by less.
    pub fn main() -> Result<(), Box<dyn std::error::Error>> {
        let mut builder = MemoryType::builder();
        builder.min(60).page_size_log2(0);
        let ty = builder.build()?;
        let mut quota = Quota::new(100, 0);
        let mut memory = Memory::new_lending(ty, &mut quota)?;
        let mut fuel = Fuel::new(false, FuelCostsProvider::default());
        let denied = grow(&mut memory, 41, &mut fuel, &mut quota);
        let grown = grow(&mut memory, 40, &mut fuel, &mut quota);
        let (bytes, held) = (memory.data().len(), quota.held_bytes());
        writeln!(
            std::io::stdout(),
            "{denied:?}\n{grown:?}\n{bytes} bytes, held {held}"
        )?;
        Ok(())
    }
}
mod limiter {
    //! A limiter of one's own: no memory above so many bytes, and no table above so many elements.

    use std::io::Write as _;
    use wasmi_core_proved::machine::{
        Call, Fuel, FuelCostsProvider, Kind, LimiterByKind, LimiterError, Machine, MemoryType,
        run_lending,
    };

    /// Permits each memory up to so many bytes, and each table up to so many elements.
    #[derive(Clone, Copy, Debug)]
    struct AtMost {
        most: usize,
    }

    impl LimiterByKind for AtMost {
        fn growing(&mut self, _kind: Kind, _from: usize, to: usize) -> Result<bool, LimiterError> {
            Ok(to <= self.most)
        }

        fn grow_failed(&mut self, _kind: Kind) -> Result<(), LimiterError> {
            Ok(())
        }
    }

    /// Makes two memories, of which the second is above the limit.
    pub fn main() -> Result<(), Box<dyn std::error::Error>> {
        let fuel = Fuel::new(false, FuelCostsProvider::default());
        let mut machine = Machine::new(fuel);
        for pages in 1..3 {
            make(&mut machine, pages)?;
        }
        Ok(())
    }

    /// Makes a memory of at most one page of 64 KiB, and prints the replies.
    fn make(machine: &mut Machine, pages: u64) -> Result<(), Box<dyn std::error::Error>> {
        let mut builder = MemoryType::builder();
        builder.min(pages);
        let calls = [Call::NewMemory(builder.build()?)];
        let mut limiter = AtMost { most: 65_536 };
        let replies = run_lending(machine, &calls, &mut limiter)?;
        writeln!(std::io::stdout(), "{replies:?}")?;
        Ok(())
    }
}
mod memory {
    //! Instructions on a memory of one's own: stores, loads, a sum, a vector sum, and a trap.

    use std::fmt::Display;
    use std::io;
    use std::io::Write as _;
    use wasmi_core_proved::machine::{TrapCode, simd, wasm};

    /// Adds two numbers of a memory, and loads past its end.
    pub fn main() -> io::Result<()> {
        let mut memory = [0u8; 64];
        print("sum", sum(&mut memory))?;
        match lanes(&memory) {
            Ok(bits) => writeln!(std::io::stdout(), "each byte plus one: {bits:032x}")?,
            Err(trap) => writeln!(std::io::stdout(), "each byte plus one: {trap}")?,
        }
        print("past the end", wasm::load_u32(&memory, 60, 1))
    }

    /// Prints a number, or why there is none.
    fn print<T: Display>(what: &str, number: Result<T, TrapCode>) -> io::Result<()> {
        match number {
            Ok(number) => writeln!(std::io::stdout(), "{what}: {number}"),
            Err(trap) => writeln!(std::io::stdout(), "{what}: {trap}"),
        }
    }

    /// Stores two numbers side by side, loads them and adds them.
    fn sum(memory: &mut [u8]) -> Result<i32, TrapCode> {
        wasm::store32(memory, 8, 0, 40)?;
        wasm::store32(memory, 8, 4, 2)?;
        let first = wasm::load_u32(memory, 8, 0)?;
        let second = wasm::load_u32(memory, 8, 4)?;
        Ok(wasm::i32_add(first.cast_signed(), second.cast_signed()))
    }

    /// Loads 16 bytes as a vector, and adds one to each of them.
    fn lanes(memory: &[u8]) -> Result<u128, TrapCode> {
        let bytes = simd::v128_load(memory, 8, 0)?;
        let sums = simd::i8x16_add(bytes, simd::i8x16_splat(1));
        Ok(sums.as_u128())
    }
}
mod pool {
    //! A pool of two tenants: one run of each, and what each holds afterwards.

    use std::io::Write as _;
    use wasmi_core_proved::machine::{Call, Fuel, FuelCostsProvider, Machine, MemoryType};
    use wasmi_core_proved::pool::Pool;

    /// Runs one list of calls on each tenant.
    pub fn main() -> Result<(), Box<dyn std::error::Error>> {
        let mut builder = MemoryType::builder();
        builder.min(1);
        let calls = [Call::NewMemory(builder.build()?)];

        // One page of 64 KiB for both tenants together, and no tables. Each asks for a page: the second
        // one is denied.
        let mut pool = Pool::new(65_536, 0);
        host(&mut pool, &calls)
    }

    /// Adds two tenants, each of which runs the calls, and prints what they hold.
    fn host(pool: &mut Pool, calls: &[Call]) -> Result<(), Box<dyn std::error::Error>> {
        for tenant in 0..2 {
            add(pool)?;
            run(pool, tenant, calls)?;
        }
        for tenant in 0..pool.len() {
            let bytes = pool.held_bytes(tenant).unwrap_or(0);
            writeln!(std::io::stdout(), "tenant {tenant} holds {bytes} bytes")?;
        }
        Ok(())
    }

    /// Adds a tenant whose meter is off.
    fn add(pool: &mut Pool) -> Result<(), Box<dyn std::error::Error>> {
        let fuel = Fuel::new(false, FuelCostsProvider::default());
        match pool.add(Machine::new(fuel)) {
            Ok(_tenant) => Ok(()),
            Err((error, _machine)) => Err(error.into()),
        }
    }

    /// Runs calls on a tenant and prints their replies.
    fn run(
        pool: &mut Pool,
        tenant: usize,
        calls: &[Call],
    ) -> Result<(), Box<dyn std::error::Error>> {
        let replies = pool.run(tenant, calls)?;
        writeln!(std::io::stdout(), "tenant {tenant}: {replies:?}")?;
        Ok(())
    }
}
mod quota {
    //! A machine under a quota: a list of calls, their replies, and what the quota holds afterwards.

    use std::io;
    use std::io::Write as _;
    use wasmi_core_proved::machine::Vec;
    use wasmi_core_proved::machine::{
        Call, Fuel, FuelCostsProvider, Machine, MemoryType, Quota, Reply, run_reserving,
    };

    /// Makes a memory and lets it grow past the cap.
    pub fn main() -> Result<(), Box<dyn std::error::Error>> {
        // One to sixteen pages of 64 KiB, as a module may declare it.
        let mut builder = MemoryType::builder();
        builder.min(1).max(Some(16));
        let ty = builder.build()?;
        let grow = Call::GrowMemory {
            memory: 0,
            pages: 2,
        };
        let calls = [Call::NewMemory(ty), grow];
        let (replies, held) = run(&calls)?;
        print(&calls, &replies, held)?;
        Ok(())
    }

    /// Runs calls on a new machine. Returns their replies, and the bytes that the quota holds.
    fn run(calls: &[Call]) -> io::Result<(Vec<Reply>, u64)> {
        // A meter that is off, and a cap of two pages on all memories; no tables.
        let fuel = Fuel::new(false, FuelCostsProvider::default());
        let mut machine = Machine::new(fuel);
        let mut quota = Quota::new(131_072, 0);

        let replies = run_reserving(&mut machine, calls, &mut quota)?;
        Ok((replies, quota.held_bytes()))
    }

    /// Prints each call with its reply, and then what is held.
    fn print(calls: &[Call], replies: &[Reply], held: u64) -> io::Result<()> {
        for (call, reply) in calls.iter().zip(replies) {
            writeln!(std::io::stdout(), "{call:?}: {reply:?}")?;
        }
        writeln!(std::io::stdout(), "held: {held} bytes")
    }
}
mod set_up {
    //! A machine that is set up once: a memory in a region, and a table and globals for which memory is
    //! reserved. Then a thousand guests run on it, and no call of theirs takes memory.

    use std::io::Write as _;
    use wasmi_core_proved::machine::{
        Call, Fuel, FuelCostsProvider, GlobalType, Machine, MemoryType, Mutability, NoLimits,
        RawRef, RawVal, RefType, Replies, Reply, SlotCounts, TableType, TooManyCalls, TypedRawRef,
        ValType, run_into_lending, run_lending,
    };

    /// Makes a machine with a region, sets it up, and runs the guests on it.
    pub fn main() -> Result<(), Box<dyn std::error::Error>> {
        let mut region = [0; 64];
        let fuel = Fuel::new(false, FuelCostsProvider::default());
        let mut machine = Machine::with_region(fuel, &mut region);
        host(&mut machine)
    }

    /// Sets the machine up, and runs the guests on it one after another.
    fn host(machine: &mut Machine) -> Result<(), Box<dyn std::error::Error>> {
        set_up(machine)?;
        let mut replies = Replies::with_capacity(3)?;

        let mut done = 0u32;
        for guest in 0..1000u32 {
            if runs(machine, guest, &mut replies)? {
                done = done.saturating_add(1);
            }
        }
        writeln!(
            std::io::stdout(),
            "of 1000 guests {done} did all their calls"
        )?;
        Ok(())
    }

    /// Makes the memory, of one page in the region, and the table, and reserves all that guests take:
    /// the slots of globals, and the elements of the table up to its maximum.
    fn set_up(machine: &mut Machine) -> Result<(), Box<dyn std::error::Error>> {
        let mut builder = MemoryType::builder();
        builder.min(64).page_size_log2(0);
        let memory = builder.build()?;
        machine.reserve(SlotCounts {
            globals: 1000,
            ..SlotCounts::default()
        })?;
        let ty = TableType::new(RefType::Func, 0, Some(1000));
        let init = func(0);
        let calls = [Call::NewLentMemory(memory), Call::NewTable { ty, init }];
        let made = run_lending(machine, &calls, &mut NoLimits)?;
        let reserved = machine.reserve_elements(0, 1000);
        writeln!(std::io::stdout(), "set up: {made:?}, {reserved:?}")?;
        Ok(())
    }

    /// A function reference.
    fn func(number: u32) -> TypedRawRef {
        TypedRawRef::new(RawRef::from(number), RefType::Func)
    }

    /// Runs a guest, which fills the memory, adds an element to the table and makes a global: whether
    /// all of it was done.
    fn runs(
        machine: &mut Machine,
        guest: u32,
        replies: &mut Replies,
    ) -> Result<bool, TooManyCalls> {
        let value = RawVal::from(guest);
        let ty = GlobalType::new(ValType::I32, Mutability::Var);
        let calls = [
            Call::FillMemory {
                memory: 0,
                dst: 0,
                value: 1,
                len: 64,
            },
            Call::GrowTable {
                table: 0,
                delta: 1,
                init: func(guest),
            },
            Call::NewGlobal { value, ty },
        ];
        run_into_lending(machine, &calls, &mut NoLimits, replies)?;
        Ok(replies.as_slice().iter().all(is_done))
    }

    /// Whether a reply says that the call was done.
    fn is_done(reply: &Reply) -> bool {
        matches!(reply, Reply::Done | Reply::Number(_) | Reply::Made(_))
    }
}

fn main() -> Result<(), Box<dyn std::error::Error>> {
    memory::main()?;
    quota::main()?;
    pool::main()?;
    bill::main()?;
    limiter::main()?;
    growth::main()?;
    set_up::main()
}
