//! A host that asks for memory once: it sets up a pool of four tenants, each with a page in a region, a table whose
//! elements are reserved and reserved slots of globals, and then runs a thousand guests on them. After the set-up a
//! request for memory would end the program.
//!
//! usage: `cargo run --example set_up_once`. The last comment has what it prints.
use std::alloc::{GlobalAlloc, Layout, System};
use std::error::Error;
use std::sync::atomic::{AtomicBool, Ordering::Relaxed};
use wasmi_core_proved::machine::{
    Call, Fuel, FuelCostsProvider, GlobalType, Machine, MemoryType, Mutability, RawRef, RawVal,
    RefType, Replies, Reply, SlotCounts, TableType, TypedRawRef, ValType,
};
use wasmi_core_proved::ops::LoadOp;
use wasmi_core_proved::pool::Pool;

const TENANTS: usize = 4;
const GUESTS: usize = 1000;
const PAGE: usize = 65536;
/// How many elements the table of a tenant gets, and how many globals: one of a guest.
const EACH: usize = GUESTS / TENANTS;

static IS_SET_UP: AtomicBool = AtomicBool::new(false);

/// The system's allocator, which ends the program at the first request after the set-up.
struct Once;

// SAFETY: what it gives is the system's.
unsafe impl GlobalAlloc for Once {
    unsafe fn alloc(&self, layout: Layout) -> *mut u8 {
        if IS_SET_UP.load(Relaxed) {
            std::process::abort();
        }
        unsafe { System.alloc(layout) }
    }
    unsafe fn dealloc(&self, at: *mut u8, layout: Layout) {
        unsafe { System.dealloc(at, layout) }
    }
}

#[global_allocator]
static ALLOCATOR: Once = Once;

fn func(number: usize) -> TypedRawRef {
    TypedRawRef::new(RawRef::from(number as u32), RefType::Func)
}

/// Asks for all memory that the guests need.
fn set_up(regions: &mut [u8]) -> Result<Pool<'_>, Box<dyn Error>> {
    let mut pool = Pool::new(regions.len() as u64, GUESTS as u64);
    let slots = SlotCounts {
        memories: 1,
        globals: EACH,
        ..SlotCounts::default()
    };
    let mut page = MemoryType::builder();
    page.min(1).max(Some(1));
    let page = page.build()?;
    let ty = TableType::new(RefType::Func, 0, Some(EACH as u32));
    for region in regions.chunks_mut(PAGE) {
        let fuel = Fuel::new(false, FuelCostsProvider::default());
        let tenant = pool
            .add(Machine::with_region(fuel, region))
            .map_err(|refused| refused.0)?;
        pool.reserve(tenant, slots)?;
        let table = Call::NewTable { ty, init: func(0) };
        for call in [Call::NewLentMemory(page), table] {
            assert_eq!(pool.step(tenant, &call)?, Reply::Made(0));
        }
        assert_eq!(pool.reserve_elements(tenant, 0, EACH as u64)?, Reply::Done);
    }
    Ok(pool)
}

/// A guest writes its number to the page and loads it, adds an element to the table and makes a global: whether all
/// that was done.
fn runs(pool: &mut Pool, guest: usize, replies: &mut Replies) -> bool {
    let (tenant, number) = (guest % TENANTS, guest / TENANTS);
    let value = RawVal::from(guest as u64);
    let load = Call::Load {
        op: LoadOp::LoadU64,
        memory: 0,
        ptr: 8,
        offset: 0,
    };
    let grow = Call::GrowTable {
        table: 0,
        delta: 1,
        init: func(guest),
    };
    let ty = GlobalType::new(ValType::I64, Mutability::Var);
    let calls = [load, grow, Call::NewGlobal { value, ty }];
    let wanted = [
        Reply::Value(value),
        Reply::Number(number as u64),
        Reply::Made(number),
    ];
    let written = pool.write(tenant, 0, 8, &(guest as u64).to_le_bytes());
    let is_done = pool.run_into(tenant, &calls, replies).is_ok();
    written == Ok(Reply::Done) && is_done && replies.as_slice() == wanted
}

fn main() -> Result<(), Box<dyn Error>> {
    let mut regions = vec![0; TENANTS * PAGE];
    let mut pool = set_up(&mut regions)?;
    let mut replies = Replies::with_capacity(3)?;
    println!("set up: {} tenants", pool.len());
    IS_SET_UP.store(true, Relaxed);
    let done = (0..GUESTS)
        .filter(|&guest| runs(&mut pool, guest, &mut replies))
        .count();
    println!("guests: {GUESTS}, of which all calls were done: {done}");
    IS_SET_UP.store(false, Relaxed);
    assert_eq!(done, GUESTS);
    Ok(())
}

// It prints:
// set up: 4 tenants
// guests: 1000, of which all calls were done: 1000
