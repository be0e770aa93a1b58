//! Random calls on a machine of the static library, by its handle, and on `Machine` of the Rust crate: the same replies, and the same state at the end.
use crate::calls::{self, Draw};
use crate::limits::{Limiter, Listed};
use crate::{Tally, numbers};
use conformance::archives::*;
use conformance::random::Random;
use conformance::structs::{call_of, reference_type};
use wasmi_core_proved::machine::{Call, Machine, Reply, ResourceLimiterRef};
use wasmi_core_proved::{CustomFuelCosts, Fuel, FuelCostsProvider, RawRef};

/// A machine on each side.
struct Both {
    handle: Handle,
    machine: Machine<'static>,
    limiter: Limiter,
}

impl Drop for Both {
    fn drop(&mut self) {
        // SAFETY: the handle is zeros or what the library has made of it, and there is one copy of it.
        unsafe { wasmi_machine_drop(&mut self.handle) }
    }
}

fn costs(limits: &Limits) -> FuelCostsProvider {
    FuelCostsProvider::custom(CustomFuelCosts {
        bytes_copied_per_fuel: limits.bytes_copied_per_fuel,
        fuel_per_bytes_translated: limits.fuel_per_bytes_translated,
        fuel_per_bytes_validated: limits.fuel_per_bytes_validated,
    })
}

impl Both {
    fn new(random: &mut Random) -> Self {
        let limits = calls::limits(random);
        let answers: Vec<u8> = (0..random.below(60)).map(|_| random.pick(&[0, 0, 0, 0, 1, 2, 3, 3])).collect();
        let mut handle = Handle { at: std::ptr::null_mut(), is_made: false };
        let has_answers = random.chance(33);
        // SAFETY: the handle is zeros, and the pointer and the length are those of one list.
        let status = unsafe {
            if has_answers {
                wasmi_machine_new_with_answers(&mut handle, &limits, answers.as_ptr(), answers.len())
            } else {
                wasmi_machine_new(&mut handle, &limits)
            }
        };
        assert_eq!(status, 0, "a new machine");
        let machine = Machine::new(Fuel::new(limits.is_metered != 0, costs(&limits)));
        let limiter = match (has_answers, limits.is_unlimited) {
            (true, _) => Limiter::Answers(Listed::new(answers)),
            (false, 0) => Limiter::quota(limits.bytes, limits.elements),
            (false, _) => Limiter::None,
        };
        Self { handle, machine, limiter }
    }

    fn step(&mut self, call: &Call) -> Reply {
        match &mut self.limiter {
            Limiter::None => self.machine.step(call, &mut ResourceLimiterRef::<Listed>::default()),
            Limiter::Quota(quota) => self.machine.step(call, &mut ResourceLimiterRef::from(quota)),
            Limiter::Answers(answers) => self.machine.step(call, &mut ResourceLimiterRef::from(answers)),
        }
    }

    /// A call by the struct of all calls, and by plain arguments where there is such a call: what they reply, and what they should.
    fn call(&mut self, call: &PlainCall, is_direct: bool) -> (PlainReply, PlainReply) {
        let there = if is_direct { self.direct(call) } else { None };
        // SAFETY: the handle has a machine, and there is one copy of it.
        let there = there.unwrap_or_else(|| unsafe { wasmi_machine_call(&mut self.handle, call) });
        let here = match call_of(call) {
            None => numbers::only(numbers::NO_CALL),
            Some(Call::GrowMemory { memory, pages }) if is_direct => self.grow(memory, pages),
            Some(Call::Store { op, memory, ptr, offset, value }) if is_direct => {
                numbers::of(&self.machine.store_item(op, memory, ptr, offset, value))
            }
            Some(call) => numbers::of(&self.step(&call)),
        };
        (there, here)
    }

    fn grow(&mut self, memory: usize, pages: u64) -> PlainReply {
        let machine = &mut self.machine;
        let reply = match &mut self.limiter {
            Limiter::None => machine.step(&Call::GrowMemory { memory, pages }, &mut ResourceLimiterRef::<Listed>::default()),
            Limiter::Quota(quota) => machine.grow_memory_lending(memory, pages, quota),
            Limiter::Answers(answers) => machine.grow_memory_lending(memory, pages, answers),
        };
        numbers::of(&reply)
    }

    /// The reply of a call with plain arguments; none if there is none for this call.
    fn direct(&mut self, call: &PlainCall) -> Option<PlainReply> {
        let (handle, index) = (&mut self.handle, call.index);
        let (mut number, value) = (0, call.value.lo);
        // SAFETY: the handle has a machine, and there is one copy of it.
        let status = unsafe {
            match call.kind {
                3 => wasmi_machine_grow(handle, index, call.count, &mut number),
                5 if call.op < 12 => wasmi_machine_load(handle, call.op, index, call.ptr, call.offset, &mut number),
                6 if call.op < 7 => wasmi_machine_store(handle, call.op, index, call.ptr, call.offset, value),
                29 => wasmi_machine_fill(handle, index, call.to, value as u8, call.count, &mut number),
                30 => wasmi_machine_copy(handle, index, call.to, call.source, call.from, call.count, &mut number),
                31 => match (u32::try_from(call.from), u32::try_from(call.count)) {
                    (Ok(from), Ok(count)) => wasmi_machine_init(handle, index, call.source, call.to, from, count, &mut number),
                    _ => return None,
                },
                _ => return None,
            }
        };
        let mut reply = numbers::only(status);
        match call.kind {
            5 => reply.value.lo = number,
            _ => reply.number = number,
        }
        Some(reply)
    }

    /// A read, a write, a new segment or a payment, which have no struct.
    fn other(&mut self, draw: &mut Draw) -> (PlainReply, PlainReply) {
        let (index, offset, len) = (draw.index(), draw.small() as usize, draw.small() as usize);
        let (handle, mut bytes) = (&mut self.handle, vec![0; len]);
        // SAFETY: the handle has a machine; pointers and lengths are those of one list each.
        unsafe {
            match draw.random.below(5) {
                0 => {
                    let there = wasmi_machine_read(handle, index, offset, bytes.as_mut_ptr(), len);
                    let call = Call::Read { memory: index, offset, len };
                    let reply = self.step(&call);
                    let same = !matches!(&reply, Reply::Bytes(list) if list.as_slice() != bytes);
                    // The library replies to a read with the bytes alone.
                    let number = if same { there.number } else { !there.number };
                    (there, PlainReply { number, ..numbers::of(&reply) })
                }
                1 => {
                    bytes.iter_mut().for_each(|byte| *byte = draw.random.next() as u8);
                    let there = wasmi_machine_write(handle, index, offset, bytes.as_ptr(), len);
                    (there, numbers::of(&self.step(&Call::Write { memory: index, offset, bytes: bytes.into() })))
                }
                2 => {
                    let items: Vec<u32> = (0..len as u32 % 12).map(|_| draw.random.next() as u32).collect();
                    let ty = draw.random.pick(&[5, 6]);
                    let there = wasmi_machine_new_segment(handle, ty, items.as_ptr(), items.len());
                    let items: Vec<RawRef> = items.into_iter().map(RawRef::from).collect();
                    let ty = reference_type(ty).expect("a type of references");
                    (there, numbers::of(&self.step(&Call::NewSegment { ty, items: items.into() })))
                }
                3 => {
                    bytes.iter_mut().for_each(|byte| *byte = draw.random.next() as u8);
                    let there = wasmi_machine_new_data(handle, bytes.as_ptr(), len);
                    (there, numbers::of(&self.step(&Call::NewData(bytes.into()))))
                }
                _ => {
                    let amount = draw.amount();
                    let there = wasmi_machine_consume_fuel(handle, amount);
                    (there, numbers::of_fuel(self.machine.consume_fuel(amount)))
                }
            }
        }
    }

    /// Whether the totals and the bytes of memories are the same.
    fn same_state(&mut self) -> bool {
        // SAFETY: the handle has a machine; the pointer and the length are those of one list.
        let totals = unsafe { wasmi_machine_totals(&mut self.handle) };
        let (bytes, elements) = (Words::new(self.machine.total_bytes()), Words::new(self.machine.total_elements()));
        let mut same = totals == Totals { bytes, elements, status: 0 };
        for index in 0..8 {
            let Some(memory) = self.machine.memory(index) else { continue };
            let mut bytes = vec![1; memory.data_size()];
            let reply = unsafe { wasmi_machine_read(&mut self.handle, index, 0, bytes.as_mut_ptr(), bytes.len()) };
            same &= reply.status == 0 && bytes == memory.data();
        }
        same
    }
}

/// The kinds of calls with which each machine begins: memories, tables, a global variable.
const FIRST: &[u16] = &[2, 2, 9, 9, 9, 18];

/// Makes so many calls, a hundred or so on a machine.
pub fn compare(seed: u64, count: u64) -> Tally {
    let mut random = Random::new(seed);
    let mut tally = Tally::default();
    let (mut machines, mut done) = (0, 0);
    while tally.tried < count {
        machines += 1;
        let mut both = Both::new(&mut random);
        let calls = 20 + random.below(200);
        let mut draw = Draw::new(&mut random);
        for number in 0..calls {
            let call = match FIRST.get(number as usize) {
                Some(kind) => draw.call_of(*kind),
                None => draw.call(),
            };
            let (is_direct, is_other) = (draw.random.chance(50), draw.random.chance(10));
            let (there, here) = if is_other { both.other(&mut draw) } else { both.call(&call, is_direct) };
            done += u64::from(there.status == 0);
            tally.add(there == here, || format!("{call:?}, other {is_other}: {there:?}, here {here:?}"));
        }
        tally.add(both.same_state(), || "another state".into());
    }
    println!(
        "machines, seed {seed}: {machines} machines, {} calls, {done} of them done, {} differ",
        tally.tried, tally.differ
    );
    tally
}
