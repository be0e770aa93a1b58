//! Each request for memory of some works is refused in turn: nothing aborts, up to the refusal a work gives what it gives
//! without one, and what it gives first otherwise says that there was no memory. A `Trap`, a `FuncType` of more than 21
//! types, and the root's `ElementSegment::new` aren't among the works, since they may abort.
#![cfg(all(feature = "std", feature = "simd"))]
use std::alloc::{GlobalAlloc, Layout, System};
use std::cell::Cell;
use std::fmt::Debug;
use std::ops::Deref;
use std::panic::{AssertUnwindSafe, catch_unwind};
use wasmi_core_proved::machine::{
    self, Call, Machine, MemoryError, NoLimits, Quota, Replies, Reply, SlotCounts, TooManyCalls,
};
use wasmi_core_proved::pool::{Pool, PoolError};
use wasmi_core_proved::script::{Status, replay};
use wasmi_core_proved::{
    Fuel, FuelCostsProvider, FuncType, GlobalType, Memory, MemoryType, Mutability, RawRef, RawVal,
    RefType, ResourceLimiterRef, Table, TableType, TypedRawRef, ValType,
};

thread_local! {
    /// How many requests of this thread are granted before one is refused, if one is to be.
    static GRANTED: Cell<Option<usize>> = const { Cell::new(None) };
}

/// Counts a request; whether it is the one to refuse. All that come after it are granted.
fn is_refused() -> bool {
    GRANTED.get().is_some_and(|granted| {
        GRANTED.set(granted.checked_sub(1));
        granted == 0
    })
}

/// The system's allocator, which refuses what a test wants refused.
struct Refusing;

// SAFETY: what isn't refused is the system's.
unsafe impl GlobalAlloc for Refusing {
    unsafe fn alloc(&self, layout: Layout) -> *mut u8 {
        if is_refused() {
            std::ptr::null_mut()
        } else {
            unsafe { System.alloc(layout) }
        }
    }
    unsafe fn alloc_zeroed(&self, layout: Layout) -> *mut u8 {
        if is_refused() {
            std::ptr::null_mut()
        } else {
            unsafe { System.alloc_zeroed(layout) }
        }
    }
    unsafe fn realloc(&self, at: *mut u8, layout: Layout, size: usize) -> *mut u8 {
        if is_refused() {
            std::ptr::null_mut()
        } else {
            unsafe { System.realloc(at, layout, size) }
        }
    }
    unsafe fn dealloc(&self, at: *mut u8, layout: Layout) {
        unsafe { System.dealloc(at, layout) }
    }
}

#[global_allocator]
static ALLOCATOR: Refusing = Refusing;

/// What the steps of a work give, and which of its requests is refused.
struct Steps {
    granted: Option<usize>,
    given: Vec<String>,
}

impl Steps {
    /// Does a step, in which requests are counted: what it gives, if it doesn't panic.
    fn step<T: Debug>(&mut self, step: impl FnOnce() -> T) -> Option<T> {
        GRANTED.set(self.granted);
        let given = catch_unwind(AssertUnwindSafe(step));
        self.granted = GRANTED.take();
        let text = match &given {
            Ok(given) => format!("{given:?}"),
            Err(panic) => panic
                .downcast_ref::<&str>()
                .unwrap_or(&"panics")
                .to_string(),
        };
        self.given.extend(text.lines().map(String::from));
        given.ok()
    }
}

/// Does a work again and again, and refuses each of its requests, of which there have to be some.
fn refuses_each(work: impl Fn(&mut Steps)) {
    let done = |granted| {
        let mut steps = Steps {
            granted,
            given: Vec::new(),
        };
        work(&mut steps);
        (steps.granted.is_none(), steps.given)
    };
    let (_, whole) = done(None);
    for number in 0.. {
        let (is_refused, given) = done(Some(number));
        if !is_refused {
            assert!(number > 0, "no request is made");
            return;
        }
        let first = given
            .iter()
            .zip(&whole)
            .find(|(given, whole)| given != whole);
        let told = first
            .map(|it| it.0)
            .or(given.last())
            .expect("something is given")
            .to_lowercase();
        let is_told = ["memory", "noroom", "no room", "allocerror"]
            .iter()
            .any(|word| told.contains(word));
        assert!(given != whole && is_told, "request {number}: {told}");
    }
}

fn pages(minimum: u64) -> MemoryType {
    let mut builder = MemoryType::builder();
    builder.min(minimum).page_size_log2(0);
    builder.build().expect("a type")
}

fn func(item: u32) -> TypedRawRef {
    TypedRawRef::new(RawRef::from(item), RefType::Func)
}

fn off() -> Fuel {
    Fuel::new(false, FuelCostsProvider::default())
}

#[test]
fn memories() {
    refuses_each(|steps| {
        let mut none = ResourceLimiterRef::default();
        if let Some(Ok(mut memory)) = steps.step(|| Memory::new(pages(3), &mut none)) {
            for more in [1, 5, 100] {
                steps.step(|| (memory.grow(more, None, &mut none), memory.size()));
            }
        }
    });
}

#[test]
fn tables() {
    refuses_each(|steps| {
        let mut none = ResourceLimiterRef::default();
        let ty = TableType::new(RefType::Func, 3, None);
        if let Some(Ok(mut table)) = steps.step(|| Table::new(ty, func(1), &mut none)) {
            for more in [1, 5, 100] {
                steps.step(|| (table.grow(more, func(2), None, &mut none), table.size()));
            }
        }
    });
}

#[test]
fn segments_and_function_types() {
    let items = (0..100).map(RawRef::from);
    refuses_each(|steps| {
        steps.step(|| machine::ElementSegment::new(RefType::Func, items.clone()));
        // As many items, of which the iterator doesn't say how many they are.
        let kept = items.clone().filter(|_| true);
        steps.step(|| machine::ElementSegment::new(RefType::Func, kept).map(|it| it.size()));
        let types = |count| std::iter::repeat_n(ValType::I64, count);
        steps.step(|| FuncType::new(types(11), types(10)).map(|ty| ty.clone().len_params()));
    });
    // The list that is read; what is shared of it can't be refused without an abort.
    let mut steps = Steps {
        granted: Some(0),
        given: Vec::new(),
    };
    let types = || std::iter::repeat_n(ValType::I64, 11);
    steps.step(|| FuncType::new(types(), types()).is_ok());
    assert_eq!(steps.given, ["out of memory for a function type"]);
}

/// Calls that take memory of all kinds, of each kind more than one request has room for.
fn calls() -> Vec<Call> {
    let global = GlobalType::new(ValType::I32, Mutability::Var);
    let table = TableType::new(RefType::Func, 2, None);
    let mut calls = Vec::new();
    for round in 0..9 {
        calls.extend([
            Call::NewMemory(pages(8)),
            Call::GrowMemory {
                memory: round,
                pages: 90,
            },
            Call::Write {
                memory: 0,
                offset: 7,
                bytes: vec![1, 2, 3].into(),
            },
            Call::Read {
                memory: round,
                offset: 6,
                len: 5,
            },
            Call::NewTable {
                ty: table,
                init: func(1),
            },
            Call::GrowTable {
                table: round,
                delta: 90,
                init: func(2),
            },
            Call::NewSegment {
                ty: RefType::Func,
                items: vec![RawRef::from(4); 9].into(),
            },
            Call::InitTable {
                table: 0,
                segment: 0,
                dst: 1,
                src: 0,
                len: 1,
            },
            Call::NewData(vec![1, 2, 3].into()),
            Call::InitMemory {
                memory: 0,
                segment: 0,
                dst: 7,
                src: 0,
                len: 3,
            },
            Call::NewGlobal {
                value: RawVal::from(4),
                ty: global,
            },
        ]);
    }
    calls
}

/// Replies, shown in a line each.
struct Lines<T>(T);

impl<T: Deref<Target = [Reply]>> Debug for Lines<T> {
    fn fmt(&self, f: &mut std::fmt::Formatter<'_>) -> std::fmt::Result {
        self.0.iter().try_for_each(|reply| writeln!(f, "{reply:?}"))
    }
}

/// Calls that need no memory but slots: those of a memory, an element segment, a data segment and two globals.
fn calls_in_slots() -> Vec<Call> {
    let global = GlobalType::new(ValType::I32, Mutability::Var);
    let value = RawVal::from(5);
    vec![
        Call::NewLentMemory(pages(8)),
        Call::GrowMemory {
            memory: 0,
            pages: 1,
        },
        Call::GrowMemory {
            memory: 0,
            pages: 9,
        },
        Call::Write {
            memory: 0,
            offset: 6,
            bytes: vec![1, 2, 3].into(),
        },
        Call::NewSegment {
            ty: RefType::Func,
            items: vec![].into(),
        },
        Call::NewData(vec![].into()),
        Call::NewGlobal { value, ty: global },
        Call::NewGlobal { value, ty: global },
        Call::GetGlobal(1),
        Call::Read {
            memory: 0,
            offset: 7,
            len: 0,
        },
    ]
}

/// A machine that is set up once makes calls for which enough is reserved, and asks for nothing.
#[test]
fn reserved() {
    let calls = calls_in_slots();
    let mut region = vec![0; 16];
    let mut machine = Machine::with_region(off(), &mut region);
    let slots = SlotCounts {
        memories: 1,
        segments: 1,
        data_segments: 1,
        globals: 2,
        ..SlotCounts::default()
    };
    machine.reserve(slots).unwrap();
    let mut replies = Replies::with_capacity(calls.len()).unwrap();
    let mut none = machine::ResourceLimiterRef::<NoLimits>::default();

    GRANTED.set(Some(0));
    let ran = machine::run_into(&mut machine, &calls, &mut none, &mut replies);
    assert_eq!(GRANTED.take(), Some(0));
    assert_eq!(ran, Ok(()));
    assert_eq!(
        format!("{:?}", &replies.as_slice()[..9]),
        format!(
            "{:?}",
            [
                Reply::Made(0),
                Reply::Number(8),
                Reply::Memory(MemoryError::InvalidStaticBufferSize),
                Reply::Done,
                Reply::Made(0),
                Reply::Made(0),
                Reply::Made(0),
                Reply::Made(1),
                Reply::Value(RawVal::from(5)),
            ]
        )
    );

    // Past what is reserved memory may be asked for, and a refusal is a reply.
    let more = [Call::NewGlobal {
        value: RawVal::from(6),
        ty: GlobalType::new(ValType::I32, Mutability::Const),
    }];
    let refused = (0..64).any(|_| {
        GRANTED.set(Some(0));
        let ran = machine::run_into(&mut machine, &more, &mut none, &mut replies);
        assert_eq!(ran, Ok(()));
        GRANTED.take().is_none() && replies.as_slice() == [Reply::NoRoom]
    });
    assert!(refused);

    let ran = machine::run_into(&mut machine, &calls, &mut none, &mut replies);
    assert_eq!((ran, replies.len()), (Ok(()), calls.len()));
    let mut few = Replies::with_capacity(1).unwrap();
    let ran = machine::run_into(&mut machine, &calls, &mut none, &mut few);
    assert_eq!((ran, few.is_empty()), (Err(TooManyCalls), true));
}

/// A tenant that is set up once makes globals in reserved slots, and asks for nothing.
#[test]
fn reserved_tenants() {
    let global = || Call::NewGlobal {
        value: RawVal::from(6),
        ty: GlobalType::new(ValType::I32, Mutability::Const),
    };
    let slots = SlotCounts {
        globals: 2,
        ..SlotCounts::default()
    };
    let mut pool = Pool::new(0, 0);
    assert_eq!(pool.add(Machine::new(off())).ok(), Some(0));
    GRANTED.set(Some(0));
    let refused = pool.reserve(0, slots).map_err(|error| error.to_string());
    assert_eq!(GRANTED.take(), None);
    assert_eq!(refused, Err("out of memory for the slots".to_string()));
    let no_tenant = "tried to reserve slots for a tenant that is not in the pool";
    let missing = pool.reserve(1, slots).map_err(|error| error.to_string());
    assert_eq!(missing, Err(no_tenant.to_string()));
    assert_eq!(pool.reserve(0, slots), Ok(()));

    let mut replies = Replies::with_capacity(2).unwrap();
    GRANTED.set(Some(0));
    let ran = pool.run_into(0, &[global(), global()], &mut replies);
    assert_eq!((GRANTED.take(), ran), (Some(0), Ok(())));
    assert_eq!(replies.as_slice(), [Reply::Made(0), Reply::Made(1)]);
}

/// A table whose elements are reserved, also a tenant's, grows without asking for memory.
#[test]
fn reserved_elements() {
    let mut machine = Machine::new(off());
    assert_eq!(machine.reserve_elements(0, 9), Reply::NoSuch);
    let mut pool = Pool::new(0, 9);
    assert_eq!(pool.add(machine).ok(), Some(0));
    let ty = TableType::new(RefType::Func, 1, Some(9));
    let made = pool.step(0, &Call::NewTable { ty, init: func(1) });
    assert_eq!(made, Ok(Reply::Made(0)));
    GRANTED.set(Some(0));
    assert_eq!(pool.reserve_elements(0, 0, 9), Ok(Reply::NoRoom));
    assert_eq!(GRANTED.take(), None);
    assert_eq!(pool.reserve_elements(0, 0, 9), Ok(Reply::Done));
    assert_eq!(pool.reserve_elements(0, 1, 9), Ok(Reply::NoSuch));
    assert_eq!(pool.reserve_elements(1, 0, 9), Err(PoolError::NoTenant));

    let growth = |delta| Call::GrowTable {
        table: 0,
        delta,
        init: func(2),
    };
    GRANTED.set(Some(0));
    let grown = [3, 5].map(|delta| pool.step(0, &growth(delta)));
    assert_eq!(pool.reserve_elements(0, 0, 9), Ok(Reply::Done));
    assert_eq!(GRANTED.take(), Some(0));
    assert_eq!(grown, [Ok(Reply::Number(1)), Ok(Reply::Number(4))]);
}

#[test]
fn machines() {
    let calls = calls();
    refuses_each(|steps| {
        let mut machine = Machine::new(off());
        let mut none = machine::ResourceLimiterRef::<NoLimits>::default();
        steps.step(|| machine::run(&mut machine, &calls, &mut none).map(Lines));
        // Memory is there again: the machine goes on.
        steps.step(|| machine::run(&mut machine, &calls[..1], &mut none).map(Lines));
    });
    refuses_each(|steps| {
        let (mut machine, mut quota) = (Machine::new(off()), Quota::new(u64::MAX, u64::MAX));
        steps.step(|| machine::run_reserving(&mut machine, &calls, &mut quota).map(Lines));
        assert_eq!(u128::from(quota.held_bytes()), machine.total_bytes());
    });
}

#[test]
fn pools() {
    let calls = calls();
    refuses_each(|steps| {
        let mut pool = Pool::new(1 << 20, 1 << 20);
        for _ in 0..9 {
            steps.step(|| pool.add(Machine::new(off())).map_err(|_| "out of memory"));
        }
        steps.step(|| pool.run(0, &calls).map(Lines));
    });
}

/// The printed replies of a script, in a buffer of a fixed size, and its status.
fn script(text: &str) {
    let mut printed = Vec::new();
    assert_eq!(
        replay(&mut text.as_bytes(), &mut printed),
        Status::Answered,
        "{text}"
    );
    refuses_each(|steps| {
        let mut room = vec![0; printed.len() + 100];
        let mut left = &mut room[..];
        let status = steps.step(|| replay(&mut text.as_bytes(), &mut left).code());
        let len = printed.len() + 100 - left.len();
        let printed = String::from_utf8_lossy(&room[..len]);
        steps.given = printed
            .lines()
            .map(String::from)
            .chain([format!("{status:?}: memory")])
            .collect();
    });
}

#[test]
fn scripts() {
    let made = "memory 1 none 0 32\ntable func 2 none 32 func 1\nsegment func 1 2 3 4 5\nglobal i32 var 4 0\n";
    let used =
        "grow 0 100\nwrite 0 0 1 2 3\nread 0 0 20\ntgrow 0 90 func 1\ninit 0 0 0 1 2\nshow 0\n";
    let body = made.repeat(9) + used;
    for header in [
        "",
        "meter on 64\nfuel 9\n",
        "quota 9000 9000\n",
        "region 500 3\n",
        "tenants 3 9000 9000\n",
    ] {
        script(&[header, &body].concat());
    }
    let turns = (0..9)
        .map(|tenant| format!("as {tenant}\n{made}"))
        .collect::<String>();
    script(&["tenants 9 9000 9000\n", &turns, "as 3\n", &body].concat());
}
