//! The calls for C, one line each over `wasmi_c`, which the headers of `include/` describe.
mod instructions {
    //! Each instruction by its number, on values and on arrays; the shuffle and the store of a vector by
    //! name; a script of calls; the version.
    //! `tools/header` writes this file, by the rows of `tools/exports.toml`.

    use crate::generated::c::instruction::result::{InstructionResult, status_of};
    use crate::generated::c::instruction::{binary, lanes, load, shuffle, store, ternary, unary};
    use crate::generated::c::script;
    use crate::proved::raw::RawVal;
    use crate::proved::vector_access::simd;

    /// # Contract
    ///
    /// ```text
    /// ensures: Leaves (unary_result number a) value.old value.new result
    /// ```
    #[unsafe(no_mangle)]
    pub extern "C" fn wasmi_unary(number: u16, a: RawVal, value: &mut RawVal) -> u8 {
        unary::unary_by_number(number, a, value)
    }

    /// # Contract
    ///
    /// ```text
    /// ensures: Leaves (unary_results number a.now (length values.old)) values.old values.new result
    /// ```
    #[unsafe(no_mangle)]
    pub unsafe extern "C" fn wasmi_unary_each(
        number: u16,
        a: *const RawVal,
        a_len: usize,
        values: *mut RawVal,
        values_len: usize,
    ) -> u8 {
        let a = unsafe { crate::memory::items(a, a_len) };
        let values = unsafe { crate::memory::items_mut(values, values_len) };

        unary::unary_each(number, a, values)
    }

    /// # Contract
    ///
    /// ```text
    /// ensures: Leaves (binary_result number a b) value.old value.new result
    /// ```
    #[unsafe(no_mangle)]
    pub extern "C" fn wasmi_binary(number: u16, a: RawVal, b: RawVal, value: &mut RawVal) -> u8 {
        binary::binary_by_number(number, a, b, value)
    }

    /// # Contract
    ///
    /// ```text
    /// ensures: Leaves (binary_results number a.now b.now (length results.old))
    ///     results.old results.new result
    /// ```
    #[unsafe(no_mangle)]
    pub unsafe extern "C" fn wasmi_binary_each(
        number: u16,
        a: *const RawVal,
        a_len: usize,
        b: *const RawVal,
        b_len: usize,
        results: *mut InstructionResult,
        results_len: usize,
    ) -> u8 {
        let a = unsafe { crate::memory::items(a, a_len) };
        let b = unsafe { crate::memory::items(b, b_len) };
        let results = unsafe { crate::memory::items_mut(results, results_len) };

        binary::binary_each(number, a, b, results)
    }

    /// # Contract
    ///
    /// ```text
    /// ensures: Leaves (ternary_result number a b c) value.old value.new result
    /// ```
    #[unsafe(no_mangle)]
    pub extern "C" fn wasmi_ternary(
        number: u16,
        a: RawVal,
        b: RawVal,
        c: RawVal,
        value: &mut RawVal,
    ) -> u8 {
        ternary::ternary_by_number(number, a, b, c, value)
    }

    /// # Contract
    ///
    /// ```text
    /// ensures: Leaves (ternary_results number a.now b.now c.now (length values.old))
    ///     values.old values.new result
    /// ```
    #[unsafe(no_mangle)]
    pub unsafe extern "C" fn wasmi_ternary_each(
        number: u16,
        a: *const RawVal,
        a_len: usize,
        b: *const RawVal,
        b_len: usize,
        c: *const RawVal,
        c_len: usize,
        values: *mut RawVal,
        values_len: usize,
    ) -> u8 {
        let a = unsafe { crate::memory::items(a, a_len) };
        let b = unsafe { crate::memory::items(b, b_len) };
        let c = unsafe { crate::memory::items(c, c_len) };
        let values = unsafe { crate::memory::items_mut(values, values_len) };

        ternary::ternary_each(number, a, b, c, values)
    }

    /// # Contract
    ///
    /// ```text
    /// ensures: Leaves (load_result number memory.now (ptr + offset)) value.old value.new result
    /// ```
    #[unsafe(no_mangle)]
    pub unsafe extern "C" fn wasmi_load(
        number: u16,
        memory: *const u8,
        memory_len: usize,
        ptr: u64,
        offset: u64,
        value: &mut RawVal,
    ) -> u8 {
        let memory = unsafe { crate::memory::items(memory, memory_len) };

        load::load_by_number(number, memory, ptr, offset, value)
    }

    /// # Contract
    ///
    /// ```text
    /// ensures: Leaves (load_results number memory.now ptrs.now offset (length results.old))
    ///     results.old results.new result
    /// ```
    #[unsafe(no_mangle)]
    pub unsafe extern "C" fn wasmi_load_each(
        number: u16,
        memory: *const u8,
        memory_len: usize,
        ptrs: *const u64,
        ptrs_len: usize,
        offset: u64,
        results: *mut InstructionResult,
        results_len: usize,
    ) -> u8 {
        let memory = unsafe { crate::memory::items(memory, memory_len) };
        let ptrs = unsafe { crate::memory::items(ptrs, ptrs_len) };
        let results = unsafe { crate::memory::items_mut(results, results_len) };

        load::load_each(number, memory, ptrs, offset, results)
    }

    /// # Contract
    ///
    /// ```text
    /// ensures: Leaves (store_result number memory.old (ptr + offset) value)
    ///     memory.old memory.new result
    /// ```
    #[unsafe(no_mangle)]
    pub unsafe extern "C" fn wasmi_store(
        number: u16,
        memory: *mut u8,
        memory_len: usize,
        ptr: u64,
        offset: u64,
        value: RawVal,
    ) -> u8 {
        let memory = unsafe { crate::memory::items_mut(memory, memory_len) };

        store::store_by_number(number, memory, ptr, offset, value)
    }

    /// # Contract
    ///
    /// ```text
    /// ensures: Leaves (extract_result number lane a) value.old value.new result
    /// ```
    #[unsafe(no_mangle)]
    pub extern "C" fn wasmi_extract_lane(
        number: u16,
        lane: u8,
        a: RawVal,
        value: &mut RawVal,
    ) -> u8 {
        lanes::extract_by_number(number, lane, a, value)
    }

    /// # Contract
    ///
    /// ```text
    /// ensures: Leaves (extract_results number lane a.now (length values.old))
    ///     values.old values.new result
    /// ```
    #[unsafe(no_mangle)]
    pub unsafe extern "C" fn wasmi_extract_lane_each(
        number: u16,
        lane: u8,
        a: *const RawVal,
        a_len: usize,
        values: *mut RawVal,
        values_len: usize,
    ) -> u8 {
        let a = unsafe { crate::memory::items(a, a_len) };
        let values = unsafe { crate::memory::items_mut(values, values_len) };

        lanes::extract_each(number, lane, a, values)
    }

    /// # Contract
    ///
    /// ```text
    /// ensures: Leaves (replace_result number lane a item) value.old value.new result
    /// ```
    #[unsafe(no_mangle)]
    pub extern "C" fn wasmi_replace_lane(
        number: u16,
        lane: u8,
        a: RawVal,
        item: RawVal,
        value: &mut RawVal,
    ) -> u8 {
        lanes::replace_by_number(number, lane, a, item, value)
    }

    /// # Contract
    ///
    /// ```text
    /// ensures: Leaves (replace_results number lane a.now items.now (length values.old))
    ///     values.old values.new result
    /// ```
    #[unsafe(no_mangle)]
    pub unsafe extern "C" fn wasmi_replace_lane_each(
        number: u16,
        lane: u8,
        a: *const RawVal,
        a_len: usize,
        items: *const RawVal,
        items_len: usize,
        values: *mut RawVal,
        values_len: usize,
    ) -> u8 {
        let a = unsafe { crate::memory::items(a, a_len) };
        let items = unsafe { crate::memory::items(items, items_len) };
        let values = unsafe { crate::memory::items_mut(values, values_len) };

        lanes::replace_each(number, lane, a, items, values)
    }

    /// # Contract
    ///
    /// ```text
    /// ensures: Leaves (load_lane_result number lane memory.now (ptr + offset) a)
    ///     value.old value.new result
    /// ```
    #[unsafe(no_mangle)]
    pub unsafe extern "C" fn wasmi_load_lane(
        number: u16,
        lane: u8,
        memory: *const u8,
        memory_len: usize,
        ptr: u64,
        offset: u64,
        a: RawVal,
        value: &mut RawVal,
    ) -> u8 {
        let memory = unsafe { crate::memory::items(memory, memory_len) };

        lanes::load_lane(number, lane, memory, ptr, offset, a, value)
    }

    /// # Contract
    ///
    /// ```text
    /// ensures: Leaves (store_lane_result number lane memory.old (ptr + offset) a)
    ///     memory.old memory.new result
    /// ```
    #[unsafe(no_mangle)]
    pub unsafe extern "C" fn wasmi_store_lane(
        number: u16,
        lane: u8,
        memory: *mut u8,
        memory_len: usize,
        ptr: u64,
        offset: u64,
        a: RawVal,
    ) -> u8 {
        let memory = unsafe { crate::memory::items_mut(memory, memory_len) };

        lanes::store_lane(number, lane, memory, ptr, offset, a)
    }

    /// # Contract
    ///
    /// ```text
    /// ensures: Leaves (shuffle_result a b lanes.now) value.old value.new result
    /// ```
    #[unsafe(no_mangle)]
    pub extern "C" fn wasmi_i8x16_shuffle(
        a: RawVal,
        b: RawVal,
        lanes: &[u8; 16],
        value: &mut RawVal,
    ) -> u8 {
        shuffle::shuffle(a, b, *lanes, value)
    }

    /// # Contract
    ///
    /// ```text
    /// ensures: StoresBytes memory.old (ptr + offset) (le_bytes 16 (vector_in value)) memory.new result
    /// ```
    #[unsafe(no_mangle)]
    pub unsafe extern "C" fn wasmi_v128_store(
        memory: *mut u8,
        memory_len: usize,
        ptr: u64,
        offset: u64,
        value: RawVal,
    ) -> u8 {
        let memory = unsafe { crate::memory::items_mut(memory, memory_len) };

        status_of(simd::v128_store(memory, ptr, offset, value.into()))
    }

    /// # Contract
    ///
    /// ```text
    /// ensures answers: AnswersScript script.now text.old text.new needed.new result
    /// ```
    #[unsafe(no_mangle)]
    pub unsafe extern "C" fn wasmi_script_run(
        script: *const u8,
        script_len: usize,
        text: *mut u8,
        text_len: usize,
        needed: &mut usize,
    ) -> u8 {
        let script = unsafe { crate::memory::items(script, script_len) };
        let text = unsafe { crate::memory::items_mut(text, text_len) };

        script::run(script, text, needed)
    }

    /// The version of `include/wasmi_core.h`: major × 65536 + minor × 256 + patch.
    ///
    /// # Contract
    ///
    /// ```text
    /// ensures: result ≡ 131072
    /// ```
    #[unsafe(no_mangle)]
    pub extern "C" fn wasmi_core_version() -> u32 {
        131_072
    }
}
mod loads {
    //! The loads by name, each described at the function of its name in `wasmi_access::wasm`.
    //! `tools/header` writes this file.
    //!
    //! A status is 0, or the number of the trap; then nothing is written.

    use crate::generated::c::instruction::result::leave_item;
    use crate::proved::accesses::wasm;

    /// # Contract
    ///
    /// ```text
    /// ensures: Gives (loaded 1 (cast_signed w8) memory.now (ptr + offset)) value.old value.new
    ///     result
    /// ```
    #[unsafe(no_mangle)]
    pub unsafe extern "C" fn wasmi_i32_load8_s(
        memory: *const u8,
        memory_len: usize,
        ptr: u64,
        offset: u64,
        value: &mut i32,
    ) -> u8 {
        let memory = unsafe { crate::memory::items(memory, memory_len) };

        leave_item(wasm::i32_load8_s(memory, ptr, offset), value)
    }

    /// # Contract
    ///
    /// ```text
    /// ensures: Gives (loaded 1 pos memory.now (ptr + offset)) value.old value.new result
    /// ```
    #[unsafe(no_mangle)]
    pub unsafe extern "C" fn wasmi_i32_load8_u(
        memory: *const u8,
        memory_len: usize,
        ptr: u64,
        offset: u64,
        value: &mut i32,
    ) -> u8 {
        let memory = unsafe { crate::memory::items(memory, memory_len) };

        leave_item(wasm::i32_load8_u(memory, ptr, offset), value)
    }

    /// # Contract
    ///
    /// ```text
    /// ensures: Gives (loaded 2 (cast_signed w16) memory.now (ptr + offset)) value.old value.new
    ///     result
    /// ```
    #[unsafe(no_mangle)]
    pub unsafe extern "C" fn wasmi_i32_load16_s(
        memory: *const u8,
        memory_len: usize,
        ptr: u64,
        offset: u64,
        value: &mut i32,
    ) -> u8 {
        let memory = unsafe { crate::memory::items(memory, memory_len) };

        leave_item(wasm::i32_load16_s(memory, ptr, offset), value)
    }

    /// # Contract
    ///
    /// ```text
    /// ensures: Gives (loaded 2 pos memory.now (ptr + offset)) value.old value.new result
    /// ```
    #[unsafe(no_mangle)]
    pub unsafe extern "C" fn wasmi_i32_load16_u(
        memory: *const u8,
        memory_len: usize,
        ptr: u64,
        offset: u64,
        value: &mut i32,
    ) -> u8 {
        let memory = unsafe { crate::memory::items(memory, memory_len) };

        leave_item(wasm::i32_load16_u(memory, ptr, offset), value)
    }

    /// # Contract
    ///
    /// ```text
    /// ensures: Gives (loaded 1 (cast_signed w8) memory.now (ptr + offset)) value.old value.new
    ///     result
    /// ```
    #[unsafe(no_mangle)]
    pub unsafe extern "C" fn wasmi_i64_load8_s(
        memory: *const u8,
        memory_len: usize,
        ptr: u64,
        offset: u64,
        value: &mut i64,
    ) -> u8 {
        let memory = unsafe { crate::memory::items(memory, memory_len) };

        leave_item(wasm::i64_load8_s(memory, ptr, offset), value)
    }

    /// # Contract
    ///
    /// ```text
    /// ensures: Gives (loaded 1 pos memory.now (ptr + offset)) value.old value.new result
    /// ```
    #[unsafe(no_mangle)]
    pub unsafe extern "C" fn wasmi_i64_load8_u(
        memory: *const u8,
        memory_len: usize,
        ptr: u64,
        offset: u64,
        value: &mut i64,
    ) -> u8 {
        let memory = unsafe { crate::memory::items(memory, memory_len) };

        leave_item(wasm::i64_load8_u(memory, ptr, offset), value)
    }

    /// # Contract
    ///
    /// ```text
    /// ensures: Gives (loaded 2 (cast_signed w16) memory.now (ptr + offset)) value.old value.new
    ///     result
    /// ```
    #[unsafe(no_mangle)]
    pub unsafe extern "C" fn wasmi_i64_load16_s(
        memory: *const u8,
        memory_len: usize,
        ptr: u64,
        offset: u64,
        value: &mut i64,
    ) -> u8 {
        let memory = unsafe { crate::memory::items(memory, memory_len) };

        leave_item(wasm::i64_load16_s(memory, ptr, offset), value)
    }

    /// # Contract
    ///
    /// ```text
    /// ensures: Gives (loaded 2 pos memory.now (ptr + offset)) value.old value.new result
    /// ```
    #[unsafe(no_mangle)]
    pub unsafe extern "C" fn wasmi_i64_load16_u(
        memory: *const u8,
        memory_len: usize,
        ptr: u64,
        offset: u64,
        value: &mut i64,
    ) -> u8 {
        let memory = unsafe { crate::memory::items(memory, memory_len) };

        leave_item(wasm::i64_load16_u(memory, ptr, offset), value)
    }

    /// # Contract
    ///
    /// ```text
    /// ensures: Gives (loaded 4 (cast_signed w32) memory.now (ptr + offset)) value.old value.new
    ///     result
    /// ```
    #[unsafe(no_mangle)]
    pub unsafe extern "C" fn wasmi_i64_load32_s(
        memory: *const u8,
        memory_len: usize,
        ptr: u64,
        offset: u64,
        value: &mut i64,
    ) -> u8 {
        let memory = unsafe { crate::memory::items(memory, memory_len) };

        leave_item(wasm::i64_load32_s(memory, ptr, offset), value)
    }

    /// # Contract
    ///
    /// ```text
    /// ensures: Gives (loaded 4 pos memory.now (ptr + offset)) value.old value.new result
    /// ```
    #[unsafe(no_mangle)]
    pub unsafe extern "C" fn wasmi_i64_load32_u(
        memory: *const u8,
        memory_len: usize,
        ptr: u64,
        offset: u64,
        value: &mut i64,
    ) -> u8 {
        let memory = unsafe { crate::memory::items(memory, memory_len) };

        leave_item(wasm::i64_load32_u(memory, ptr, offset), value)
    }

    /// # Contract
    ///
    /// ```text
    /// ensures: Gives (loaded 4 (λ n. n) memory.now (ptr + offset)) value.old value.new result
    /// ```
    #[unsafe(no_mangle)]
    pub unsafe extern "C" fn wasmi_load_u32(
        memory: *const u8,
        memory_len: usize,
        ptr: u64,
        offset: u64,
        value: &mut u32,
    ) -> u8 {
        let memory = unsafe { crate::memory::items(memory, memory_len) };

        leave_item(wasm::load_u32(memory, ptr, offset), value)
    }

    /// # Contract
    ///
    /// ```text
    /// ensures: Gives (loaded 8 (λ n. n) memory.now (ptr + offset)) value.old value.new result
    /// ```
    #[unsafe(no_mangle)]
    pub unsafe extern "C" fn wasmi_load_u64(
        memory: *const u8,
        memory_len: usize,
        ptr: u64,
        offset: u64,
        value: &mut u64,
    ) -> u8 {
        let memory = unsafe { crate::memory::items(memory, memory_len) };

        leave_item(wasm::load_u64(memory, ptr, offset), value)
    }
}
mod machine {
    //! A machine by a handle, and a pool of machines. `include/wasmi_machine.h` describes each call.
    //! `tools/header` writes this file, by the rows of `tools/exports.toml`.

    use crate::generated::c::machine::call_struct::CallStruct;
    use crate::generated::c::machine::handle::Handle;
    use crate::generated::c::machine::limits::{Limits, Room, Totals};
    use crate::generated::c::machine::reply_struct::ReplyStruct;
    use crate::generated::c::pool::PoolHandle;
    use crate::generated::c::status::{NO_MACHINE, NO_POOL};
    use crate::{on_machine, on_pool};

    /// # Contract
    ///
    /// ```text
    /// ensures: MakesMachine (IsNewMachine limits.now) handle.old.machine.held result
    ///     handle.new.machine.held
    /// ```
    #[unsafe(no_mangle)]
    pub extern "C" fn wasmi_machine_new(handle: &mut Handle, limits: &Limits) -> u8 {
        handle.new_machine(limits)
    }

    /// # Contract
    ///
    /// ```text
    /// ensures: MakesWithAnswers limits.now answers.now handle.old.machine.held result
    ///     handle.new.machine.held
    /// ```
    #[unsafe(no_mangle)]
    pub unsafe extern "C" fn wasmi_machine_new_with_answers(
        handle: &mut Handle,
        limits: &Limits,
        answers: *const u8,
        answers_len: usize,
    ) -> u8 {
        let answers = unsafe { crate::memory::items(answers, answers_len) };

        handle.new_with_answers(limits, answers)
    }

    /// # Contract
    ///
    /// ```text
    /// ensures: handle.new.machine.held ≡ None
    /// ```
    #[unsafe(no_mangle)]
    pub extern "C" fn wasmi_machine_drop(handle: &mut Handle) {
        handle.drop_machine();
    }

    /// # Contract
    ///
    /// ```text
    /// ensures: OnHeld (RepliesToStruct call.now) (only NO_MACHINE)
    ///     handle.old.machine.held result handle.new.machine.held
    /// ```
    #[unsafe(no_mangle)]
    pub extern "C" fn wasmi_machine_call(handle: &mut Handle, call: &CallStruct) -> ReplyStruct {
        handle.call(call)
    }

    /// # Contract
    ///
    /// ```text
    /// ensures: OnHeld (Reserves room.now) NO_MACHINE
    ///     handle.old.machine.held result handle.new.machine.held
    /// ```
    #[unsafe(no_mangle)]
    pub extern "C" fn wasmi_machine_reserve(handle: &mut Handle, room: &Room) -> u8 {
        on_machine!(handle, NO_MACHINE, machine => machine.reserve(room))
    }

    /// # Contract
    ///
    /// ```text
    /// ensures: OnHeld (ReservesElementsByStatus table elements) NO_MACHINE
    ///     handle.old.machine.held result handle.new.machine.held
    /// ```
    #[unsafe(no_mangle)]
    pub extern "C" fn wasmi_machine_reserve_elements(
        handle: &mut Handle,
        table: usize,
        elements: u64,
    ) -> u8 {
        on_machine!(handle, NO_MACHINE, machine => machine.reserve_elements(table, elements))
    }

    /// # Contract
    ///
    /// ```text
    /// ensures: OnHeld (RepliesInTurn RepliesToStruct calls.now replies.old) (NO_MACHINE, replies.old)
    ///     handle.old.machine.held (result, replies.new) handle.new.machine.held
    /// ```
    #[unsafe(no_mangle)]
    pub unsafe extern "C" fn wasmi_machine_run_into(
        handle: &mut Handle,
        calls: *const CallStruct,
        calls_len: usize,
        replies: *mut ReplyStruct,
        replies_len: usize,
    ) -> u8 {
        let calls = unsafe { crate::memory::items(calls, calls_len) };
        let replies = unsafe { crate::memory::items_mut(replies, replies_len) };

        on_machine!(handle, NO_MACHINE, machine => machine.run_into(calls, replies))
    }

    /// # Contract
    ///
    /// ```text
    /// ensures: OnHeld {R = ReplyStruct × List ℕ}
    ///     (λ machine left machine'. (machine' ≡ machine)
    ///     × ReadsOut memory offset machine.state bytes.old left.0 left.1)
    ///     (only NO_MACHINE, bytes.old)
    ///     handle.old.machine.held (result, bytes.new) handle.new.machine.held
    /// ```
    #[unsafe(no_mangle)]
    pub unsafe extern "C" fn wasmi_machine_read(
        handle: &mut Handle,
        memory: usize,
        offset: usize,
        bytes: *mut u8,
        bytes_len: usize,
    ) -> ReplyStruct {
        let bytes = unsafe { crate::memory::items_mut(bytes, bytes_len) };

        on_machine!(handle, machine => machine.read(memory, offset, bytes))
    }

    /// # Contract
    ///
    /// ```text
    /// ensures: OnHeld (RepliesToItems (Write memory offset) bytes.now) (only NO_MACHINE)
    ///     handle.old.machine.held result handle.new.machine.held
    /// ```
    #[unsafe(no_mangle)]
    pub unsafe extern "C" fn wasmi_machine_write(
        handle: &mut Handle,
        memory: usize,
        offset: usize,
        bytes: *const u8,
        bytes_len: usize,
    ) -> ReplyStruct {
        let bytes = unsafe { crate::memory::items(bytes, bytes_len) };

        on_machine!(handle, machine => machine.write(memory, offset, bytes))
    }

    /// # Contract
    ///
    /// ```text
    /// ensures: OnHeld (RepliesToSegment ty items.now) (only NO_MACHINE)
    ///     handle.old.machine.held result handle.new.machine.held
    /// ```
    #[unsafe(no_mangle)]
    pub unsafe extern "C" fn wasmi_machine_new_segment(
        handle: &mut Handle,
        ty: u8,
        items: *const u32,
        items_len: usize,
    ) -> ReplyStruct {
        let items = unsafe { crate::memory::items(items, items_len) };

        on_machine!(handle, machine => machine.new_segment(ty, items))
    }

    /// # Contract
    ///
    /// ```text
    /// ensures: OnHeld (RepliesToCopy NewData bytes.now) (only NO_MACHINE)
    ///     handle.old.machine.held result handle.new.machine.held
    /// ```
    #[unsafe(no_mangle)]
    pub unsafe extern "C" fn wasmi_machine_new_data(
        handle: &mut Handle,
        bytes: *const u8,
        bytes_len: usize,
    ) -> ReplyStruct {
        let bytes = unsafe { crate::memory::items(bytes, bytes_len) };

        on_machine!(handle, machine => machine.new_data(bytes))
    }

    /// # Contract
    ///
    /// ```text
    /// ensures: OnHeld
    ///     (λ machine totals machine'. (machine' ≡ machine) × (totals ≡ totals_of machine))
    ///     (totals_in NO_MACHINE 0 0) handle.old.machine.held result handle.new.machine.held
    /// ```
    #[unsafe(no_mangle)]
    pub extern "C" fn wasmi_machine_totals(handle: &mut Handle) -> Totals {
        on_machine!(handle, Totals::from_amounts(NO_MACHINE, 0, 0), machine => machine.totals())
    }

    /// # Contract
    ///
    /// ```text
    /// ensures: OnHeld (PaysFuel amount) (only NO_MACHINE)
    ///     handle.old.machine.held result handle.new.machine.held
    /// ```
    #[unsafe(no_mangle)]
    pub extern "C" fn wasmi_machine_consume_fuel(handle: &mut Handle, amount: u64) -> ReplyStruct {
        on_machine!(handle, machine => machine.consume_fuel(amount))
    }

    /// # Contract
    ///
    /// ```text
    /// ensures: OnHeld (RepliesInWord (item_load op memory ptr offset) value.old)
    ///     (NO_MACHINE, value.old)
    ///     handle.old.machine.held (result, value.new) handle.new.machine.held
    /// ```
    #[unsafe(no_mangle)]
    pub extern "C" fn wasmi_machine_load(
        handle: &mut Handle,
        op: u16,
        memory: usize,
        ptr: u64,
        offset: u64,
        value: &mut u64,
    ) -> u8 {
        on_machine!(handle, NO_MACHINE, machine => machine.load(op, memory, ptr, offset, value))
    }

    /// # Contract
    ///
    /// ```text
    /// ensures: OnHeld (RepliesInStatus (item_store op memory ptr offset value)) NO_MACHINE
    ///     handle.old.machine.held result handle.new.machine.held
    /// ```
    #[unsafe(no_mangle)]
    pub extern "C" fn wasmi_machine_store(
        handle: &mut Handle,
        op: u16,
        memory: usize,
        ptr: u64,
        offset: u64,
        value: u64,
    ) -> u8 {
        on_machine!(handle, NO_MACHINE, machine => machine.store(op, memory, ptr, offset, value))
    }

    /// # Contract
    ///
    /// ```text
    /// ensures: OnHeld (RepliesInStatus (vector_binary op dst a b)) NO_MACHINE
    ///     handle.old.machine.held result handle.new.machine.held
    /// ```
    #[unsafe(no_mangle)]
    pub extern "C" fn wasmi_machine_binary(
        handle: &mut Handle,
        op: u16,
        dst: u8,
        a: u8,
        b: u8,
    ) -> u8 {
        on_machine!(handle, NO_MACHINE, machine => machine.binary(op, dst, a, b))
    }

    /// # Contract
    ///
    /// ```text
    /// ensures: OnHeld (RepliesInWord (Some (GrowMemory memory pages)) number.old)
    ///     (NO_MACHINE, number.old)
    ///     handle.old.machine.held (result, number.new) handle.new.machine.held
    /// ```
    #[unsafe(no_mangle)]
    pub extern "C" fn wasmi_machine_grow(
        handle: &mut Handle,
        memory: usize,
        pages: u64,
        number: &mut u64,
    ) -> u8 {
        on_machine!(handle, NO_MACHINE, machine => machine.grow(memory, pages, number))
    }

    /// # Contract
    ///
    /// ```text
    /// ensures: OnHeld (RepliesInWord (Some (FillMemory memory to value count)) number.old)
    ///     (NO_MACHINE, number.old)
    ///     handle.old.machine.held (result, number.new) handle.new.machine.held
    /// ```
    #[unsafe(no_mangle)]
    pub extern "C" fn wasmi_machine_fill(
        handle: &mut Handle,
        memory: usize,
        to: u64,
        value: u8,
        count: u64,
        number: &mut u64,
    ) -> u8 {
        on_machine!(handle, NO_MACHINE, machine => machine.fill(memory, to, value, count, number))
    }

    /// # Contract
    ///
    /// ```text
    /// ensures: OnHeld (RepliesInWord (Some (CopyMemory memory to source from count)) number.old)
    ///     (NO_MACHINE, number.old)
    ///     handle.old.machine.held (result, number.new) handle.new.machine.held
    /// ```
    #[unsafe(no_mangle)]
    pub extern "C" fn wasmi_machine_copy(
        handle: &mut Handle,
        memory: usize,
        to: u64,
        source: usize,
        from: u64,
        count: u64,
        number: &mut u64,
    ) -> u8 {
        on_machine!(handle, NO_MACHINE, machine => machine.copy(memory, to, source, from, count, number))
    }

    /// # Contract
    ///
    /// ```text
    /// ensures: OnHeld (RepliesInWord (Some (InitMemory memory segment to from count)) number.old)
    ///     (NO_MACHINE, number.old)
    ///     handle.old.machine.held (result, number.new) handle.new.machine.held
    /// ```
    #[unsafe(no_mangle)]
    pub extern "C" fn wasmi_machine_init(
        handle: &mut Handle,
        memory: usize,
        segment: usize,
        to: u64,
        from: u32,
        count: u32,
        number: &mut u64,
    ) -> u8 {
        on_machine!(handle, NO_MACHINE, machine => machine.init(memory, segment, to, from, count, number))
    }

    /// # Contract
    ///
    /// ```text
    /// ensures: OnHeld (RepliesInWord (Some GetFuel) left.old) (NO_MACHINE, left.old)
    ///     handle.old.machine.held (result, left.new) handle.new.machine.held
    /// ```
    #[unsafe(no_mangle)]
    pub extern "C" fn wasmi_machine_fuel_left(handle: &mut Handle, left: &mut u64) -> u8 {
        on_machine!(handle, NO_MACHINE, machine => machine.fuel_left(left))
    }

    /// # Contract
    ///
    /// ```text
    /// ensures: OnHeld {R = ReplyStruct × List ℕ}
    ///     (λ machine left machine'. RunsLines lines.now machine text.old left.0 left.1 machine')
    ///     (only NO_MACHINE, text.old)
    ///     handle.old.machine.held (result, text.new) handle.new.machine.held
    /// ```
    #[unsafe(no_mangle)]
    pub unsafe extern "C" fn wasmi_machine_run_lines(
        handle: &mut Handle,
        lines: *const u8,
        lines_len: usize,
        text: *mut u8,
        text_len: usize,
    ) -> ReplyStruct {
        let lines = unsafe { crate::memory::items(lines, lines_len) };
        let text = unsafe { crate::memory::items_mut(text, text_len) };

        on_machine!(handle, machine => machine.run_lines(lines, text))
    }

    /// # Contract
    ///
    /// ```text
    /// ensures: MakesPool bytes elements handle.old.pool.held result handle.new.pool.held
    /// ```
    #[unsafe(no_mangle)]
    pub extern "C" fn wasmi_pool_new(handle: &mut PoolHandle, bytes: u64, elements: u64) -> u8 {
        handle.new_pool(bytes, elements)
    }

    /// # Contract
    ///
    /// ```text
    /// ensures: handle.new.pool.held ≡ None
    /// ```
    #[unsafe(no_mangle)]
    pub extern "C" fn wasmi_pool_drop(handle: &mut PoolHandle) {
        handle.drop_pool();
    }

    /// # Contract
    ///
    /// ```text
    /// ensures step: ActsOnHeld (only NO_POOL) handle.old.pool.held result handle.new.pool.held
    ///     (AddsNewTenant limits.now result)
    /// ensures caps: KeepsCaps handle.old.pool.held handle.new.pool.held
    /// ```
    #[unsafe(no_mangle)]
    pub extern "C" fn wasmi_pool_add(handle: &mut PoolHandle, limits: &Limits) -> ReplyStruct {
        on_pool!(handle, pool => pool.add(limits))
    }

    /// # Contract
    ///
    /// ```text
    /// ensures step: ActsOnHeld NO_POOL handle.old.pool.held result handle.new.pool.held
    ///     (RemovesByStatus tenant result)
    /// ensures caps: KeepsCaps handle.old.pool.held handle.new.pool.held
    /// ```
    #[unsafe(no_mangle)]
    pub extern "C" fn wasmi_pool_remove(handle: &mut PoolHandle, tenant: usize) -> u8 {
        on_pool!(handle, NO_POOL, pool => pool.remove(tenant))
    }

    /// # Contract
    ///
    /// ```text
    /// ensures step: ActsOnHeld (only NO_POOL) handle.old.pool.held result handle.new.pool.held
    ///     (TenantRepliesToStruct tenant call.now result)
    /// ensures caps: KeepsCaps handle.old.pool.held handle.new.pool.held
    /// ```
    #[unsafe(no_mangle)]
    pub extern "C" fn wasmi_pool_call(
        handle: &mut PoolHandle,
        tenant: usize,
        call: &CallStruct,
    ) -> ReplyStruct {
        handle.call(tenant, call)
    }

    /// # Contract
    ///
    /// ```text
    /// ensures step: ActsOnHeld NO_POOL handle.old.pool.held result handle.new.pool.held
    ///     (TenantReserves tenant room.now result)
    /// ensures caps: KeepsCaps handle.old.pool.held handle.new.pool.held
    /// ```
    #[unsafe(no_mangle)]
    pub extern "C" fn wasmi_pool_reserve(
        handle: &mut PoolHandle,
        tenant: usize,
        room: &Room,
    ) -> u8 {
        on_pool!(handle, NO_POOL, pool => pool.reserve(tenant, room))
    }

    /// # Contract
    ///
    /// ```text
    /// ensures step: ActsOnHeld NO_POOL handle.old.pool.held result handle.new.pool.held
    ///     (TenantReservesElements tenant table elements result)
    /// ensures caps: KeepsCaps handle.old.pool.held handle.new.pool.held
    /// ```
    #[unsafe(no_mangle)]
    pub extern "C" fn wasmi_pool_reserve_elements(
        handle: &mut PoolHandle,
        tenant: usize,
        table: usize,
        elements: u64,
    ) -> u8 {
        on_pool!(handle, NO_POOL, pool => pool.reserve_elements(tenant, table, elements))
    }

    /// # Contract
    ///
    /// ```text
    /// ensures step: ActsOnHeld {R = ℕ × List ReplyStruct} (NO_POOL, replies.old)
    ///     handle.old.pool.held (result, replies.new) handle.new.pool.held
    ///     (TenantRepliesToList tenant calls.now replies.old (result, replies.new))
    /// ensures caps: KeepsCaps handle.old.pool.held handle.new.pool.held
    /// ```
    #[unsafe(no_mangle)]
    pub unsafe extern "C" fn wasmi_pool_run_into(
        handle: &mut PoolHandle,
        tenant: usize,
        calls: *const CallStruct,
        calls_len: usize,
        replies: *mut ReplyStruct,
        replies_len: usize,
    ) -> u8 {
        let calls = unsafe { crate::memory::items(calls, calls_len) };
        let replies = unsafe { crate::memory::items_mut(replies, replies_len) };

        on_pool!(handle, NO_POOL, pool => pool.run_into(tenant, calls, replies))
    }

    /// # Contract
    ///
    /// ```text
    /// ensures step: ActsOnHeld {R = ℕ × ℕ} (NO_POOL, value.old)
    ///     handle.old.pool.held (result, value.new) handle.new.pool.held
    ///     (TenantRepliesInWord tenant (item_load op memory ptr offset) value.old
    ///     (result, value.new))
    /// ensures caps: KeepsCaps handle.old.pool.held handle.new.pool.held
    /// ```
    #[unsafe(no_mangle)]
    pub extern "C" fn wasmi_pool_load(
        handle: &mut PoolHandle,
        tenant: usize,
        op: u16,
        memory: usize,
        ptr: u64,
        offset: u64,
        value: &mut u64,
    ) -> u8 {
        on_pool!(handle, NO_POOL, pool => pool.load(tenant, op, memory, ptr, offset, value))
    }

    /// # Contract
    ///
    /// ```text
    /// ensures step: ActsOnHeld NO_POOL handle.old.pool.held result handle.new.pool.held
    ///     (TenantRepliesInStatus tenant (item_store op memory ptr offset value) result)
    /// ensures caps: KeepsCaps handle.old.pool.held handle.new.pool.held
    /// ```
    #[unsafe(no_mangle)]
    pub extern "C" fn wasmi_pool_store(
        handle: &mut PoolHandle,
        tenant: usize,
        op: u16,
        memory: usize,
        ptr: u64,
        offset: u64,
        value: u64,
    ) -> u8 {
        on_pool!(handle, NO_POOL, pool => pool.store(tenant, op, memory, ptr, offset, value))
    }

    /// # Contract
    ///
    /// ```text
    /// ensures step: ActsOnHeld NO_POOL handle.old.pool.held result handle.new.pool.held
    ///     (TenantRepliesInStatus tenant (vector_binary op dst a b) result)
    /// ensures caps: KeepsCaps handle.old.pool.held handle.new.pool.held
    /// ```
    #[unsafe(no_mangle)]
    pub extern "C" fn wasmi_pool_binary(
        handle: &mut PoolHandle,
        tenant: usize,
        op: u16,
        dst: u8,
        a: u8,
        b: u8,
    ) -> u8 {
        on_pool!(handle, NO_POOL, pool => pool.binary(tenant, op, dst, a, b))
    }

    /// # Contract
    ///
    /// ```text
    /// ensures step: ActsOnHeld {R = ℕ × ℕ} (NO_POOL, number.old)
    ///     handle.old.pool.held (result, number.new) handle.new.pool.held
    ///     (TenantRepliesInWord tenant (Some (GrowMemory memory pages)) number.old
    ///     (result, number.new))
    /// ensures caps: KeepsCaps handle.old.pool.held handle.new.pool.held
    /// ```
    #[unsafe(no_mangle)]
    pub extern "C" fn wasmi_pool_grow(
        handle: &mut PoolHandle,
        tenant: usize,
        memory: usize,
        pages: u64,
        number: &mut u64,
    ) -> u8 {
        on_pool!(handle, NO_POOL, pool => pool.grow(tenant, memory, pages, number))
    }

    /// # Contract
    ///
    /// ```text
    /// ensures step: ActsOnHeld {R = ℕ × ℕ} (NO_POOL, number.old)
    ///     handle.old.pool.held (result, number.new) handle.new.pool.held
    ///     (TenantRepliesInWord tenant (Some (FillMemory memory to value count)) number.old
    ///     (result, number.new))
    /// ensures caps: KeepsCaps handle.old.pool.held handle.new.pool.held
    /// ```
    #[unsafe(no_mangle)]
    pub extern "C" fn wasmi_pool_fill(
        handle: &mut PoolHandle,
        tenant: usize,
        memory: usize,
        to: u64,
        value: u8,
        count: u64,
        number: &mut u64,
    ) -> u8 {
        on_pool!(handle, NO_POOL, pool => pool.fill(tenant, memory, to, value, count, number))
    }

    /// # Contract
    ///
    /// ```text
    /// ensures step: ActsOnHeld {R = ℕ × ℕ} (NO_POOL, number.old)
    ///     handle.old.pool.held (result, number.new) handle.new.pool.held
    ///     (TenantRepliesInWord tenant (Some (CopyMemory memory to source from count)) number.old
    ///     (result, number.new))
    /// ensures caps: KeepsCaps handle.old.pool.held handle.new.pool.held
    /// ```
    #[unsafe(no_mangle)]
    pub extern "C" fn wasmi_pool_copy(
        handle: &mut PoolHandle,
        tenant: usize,
        memory: usize,
        to: u64,
        source: usize,
        from: u64,
        count: u64,
        number: &mut u64,
    ) -> u8 {
        on_pool!(handle, NO_POOL, pool => pool.copy(tenant, memory, to, source, from, count, number))
    }

    /// # Contract
    ///
    /// ```text
    /// ensures step: ActsOnHeld {R = ℕ × ℕ} (NO_POOL, number.old)
    ///     handle.old.pool.held (result, number.new) handle.new.pool.held
    ///     (TenantRepliesInWord tenant (Some (InitMemory memory segment to from count)) number.old
    ///     (result, number.new))
    /// ensures caps: KeepsCaps handle.old.pool.held handle.new.pool.held
    /// ```
    #[unsafe(no_mangle)]
    pub extern "C" fn wasmi_pool_init(
        handle: &mut PoolHandle,
        tenant: usize,
        memory: usize,
        segment: usize,
        to: u64,
        from: u32,
        count: u32,
        number: &mut u64,
    ) -> u8 {
        on_pool!(handle, NO_POOL, pool => pool.init(tenant, memory, segment, to, from, count, number))
    }

    /// # Contract
    ///
    /// ```text
    /// ensures step: ActsOnHeld {R = ℕ × ℕ} (NO_POOL, left.old)
    ///     handle.old.pool.held (result, left.new) handle.new.pool.held
    ///     (TenantRepliesInWord tenant (Some GetFuel) left.old (result, left.new))
    /// ensures caps: KeepsCaps handle.old.pool.held handle.new.pool.held
    /// ```
    #[unsafe(no_mangle)]
    pub extern "C" fn wasmi_pool_fuel_left(
        handle: &mut PoolHandle,
        tenant: usize,
        left: &mut u64,
    ) -> u8 {
        on_pool!(handle, NO_POOL, pool => pool.fuel_left(tenant, left))
    }

    /// # Contract
    ///
    /// ```text
    /// ensures step: ActsOnHeld {R = ReplyStruct × List ℕ} (only NO_POOL, bytes.old)
    ///     handle.old.pool.held (result, bytes.new) handle.new.pool.held
    ///     (TenantReadsOut tenant memory offset bytes.old result bytes.new)
    /// ensures caps: KeepsCaps handle.old.pool.held handle.new.pool.held
    /// ```
    #[unsafe(no_mangle)]
    pub unsafe extern "C" fn wasmi_pool_read(
        handle: &mut PoolHandle,
        tenant: usize,
        memory: usize,
        offset: usize,
        bytes: *mut u8,
        bytes_len: usize,
    ) -> ReplyStruct {
        let bytes = unsafe { crate::memory::items_mut(bytes, bytes_len) };

        on_pool!(handle, pool => pool.read(tenant, memory, offset, bytes))
    }

    /// # Contract
    ///
    /// ```text
    /// ensures step: ActsOnHeld (only NO_POOL) handle.old.pool.held result handle.new.pool.held
    ///     (TenantRepliesToItems tenant (Write memory offset) bytes.now result)
    /// ensures caps: KeepsCaps handle.old.pool.held handle.new.pool.held
    /// ```
    #[unsafe(no_mangle)]
    pub unsafe extern "C" fn wasmi_pool_write(
        handle: &mut PoolHandle,
        tenant: usize,
        memory: usize,
        offset: usize,
        bytes: *const u8,
        bytes_len: usize,
    ) -> ReplyStruct {
        let bytes = unsafe { crate::memory::items(bytes, bytes_len) };

        on_pool!(handle, pool => pool.write(tenant, memory, offset, bytes))
    }

    /// # Contract
    ///
    /// ```text
    /// ensures step: ActsOnHeld (only NO_POOL) handle.old.pool.held result handle.new.pool.held
    ///     (TenantRepliesToSegment tenant ty items.now result)
    /// ensures caps: KeepsCaps handle.old.pool.held handle.new.pool.held
    /// ```
    #[unsafe(no_mangle)]
    pub unsafe extern "C" fn wasmi_pool_new_segment(
        handle: &mut PoolHandle,
        tenant: usize,
        ty: u8,
        items: *const u32,
        items_len: usize,
    ) -> ReplyStruct {
        let items = unsafe { crate::memory::items(items, items_len) };

        on_pool!(handle, pool => pool.new_segment(tenant, ty, items))
    }

    /// # Contract
    ///
    /// ```text
    /// ensures step: ActsOnHeld (only NO_POOL) handle.old.pool.held result handle.new.pool.held
    ///     (TenantRepliesToCopy tenant NewData bytes.now result)
    /// ensures caps: KeepsCaps handle.old.pool.held handle.new.pool.held
    /// ```
    #[unsafe(no_mangle)]
    pub unsafe extern "C" fn wasmi_pool_new_data(
        handle: &mut PoolHandle,
        tenant: usize,
        bytes: *const u8,
        bytes_len: usize,
    ) -> ReplyStruct {
        let bytes = unsafe { crate::memory::items(bytes, bytes_len) };

        on_pool!(handle, pool => pool.new_data(tenant, bytes))
    }

    /// # Contract
    ///
    /// ```text
    /// ensures step: ActsOnHeld (only NO_POOL) handle.old.pool.held result handle.new.pool.held
    ///     (TenantPaysFuel tenant amount result)
    /// ensures caps: KeepsCaps handle.old.pool.held handle.new.pool.held
    /// ```
    #[unsafe(no_mangle)]
    pub extern "C" fn wasmi_pool_consume_fuel(
        handle: &mut PoolHandle,
        tenant: usize,
        amount: u64,
    ) -> ReplyStruct {
        on_pool!(handle, pool => pool.consume_fuel(tenant, amount))
    }

    /// # Contract
    ///
    /// ```text
    /// ensures step: ActsOnHeld {R = ReplyStruct × List ℕ} (only NO_POOL, text.old)
    ///     handle.old.pool.held (result, text.new) handle.new.pool.held
    ///     (RunsTenantLines tenant lines.now text.old result text.new)
    /// ensures caps: KeepsCaps handle.old.pool.held handle.new.pool.held
    /// ```
    #[unsafe(no_mangle)]
    pub unsafe extern "C" fn wasmi_pool_run_lines(
        handle: &mut PoolHandle,
        tenant: usize,
        lines: *const u8,
        lines_len: usize,
        text: *mut u8,
        text_len: usize,
    ) -> ReplyStruct {
        let lines = unsafe { crate::memory::items(lines, lines_len) };
        let text = unsafe { crate::memory::items_mut(text, text_len) };

        on_pool!(handle, pool => pool.run_lines(tenant, lines, text))
    }

    /// # Contract
    ///
    /// ```text
    /// ensures step: ActsOnHeld (totals_in NO_POOL 0 0) handle.old.pool.held result
    ///     handle.new.pool.held
    ///     (λ pool pool'. (pool' ≡ pool) × (result ≡ tenant_totals tenant pool))
    /// ensures caps: KeepsCaps handle.old.pool.held handle.new.pool.held
    /// ```
    #[unsafe(no_mangle)]
    pub extern "C" fn wasmi_pool_tenant_totals(handle: &mut PoolHandle, tenant: usize) -> Totals {
        on_pool!(handle, Totals::from_amounts(NO_POOL, 0, 0), pool => pool.tenant_totals(tenant))
    }

    /// # Contract
    ///
    /// ```text
    /// ensures step: ActsOnHeld (totals_in NO_POOL 0 0) handle.old.pool.held result
    ///     handle.new.pool.held
    ///     (λ pool pool'. (pool' ≡ pool) × (result ≡ pool_totals pool))
    /// ensures caps: KeepsCaps handle.old.pool.held handle.new.pool.held
    /// ```
    #[unsafe(no_mangle)]
    pub extern "C" fn wasmi_pool_totals(handle: &mut PoolHandle) -> Totals {
        on_pool!(handle, Totals::from_amounts(NO_POOL, 0, 0), pool => pool.totals())
    }
}
mod memory {
    //! Memories in regions of the caller's, and fuel meters.
    //! `tools/header` writes this file, by the rows of `tools/exports.toml`.

    use crate::generated::c::{
        HostAnswers, MemoryNumbers, MeterNumbers, Question, QuotaNumbers, Range, fuel,
        memory as on_memory,
    };

    /// # Contract
    ///
    /// ```text
    /// ensures made: MakesEmbedded (placed memory.old region.old) (limiter_of quota.old) result
    ///     (placed memory.new region.new) (limiter_of quota.new)
    /// ensures quota: KeepsQuota quota.old quota.new
    /// ensures invalid: IsNoType memory.old → quota.new ≡ quota.old
    /// ensures unasked: (ty : MemoryTypeValue) → named_type (settings_of memory.old) ≡ Some ty
    ///     → 2 ^ 64 ≤ minimum_bytes ty → quota.new ≡ quota.old
    /// ```
    #[unsafe(no_mangle)]
    pub unsafe extern "C" fn wasmi_memory_new(
        memory: &mut MemoryNumbers,
        region: *mut u8,
        region_len: usize,
        quota: &mut QuotaNumbers,
    ) -> u8 {
        let region = unsafe { crate::memory::items_mut(region, region_len) };

        on_memory::make(memory, region, quota)
    }

    /// # Contract
    ///
    /// ```text
    /// ensures made: MakesEmbedded (placed memory.old region.now) (limiter_of quota.old) result
    ///     (placed memory.new (made_over region.now memory.new.size result)) (limiter_of quota.new)
    /// ensures quota: KeepsQuota quota.old quota.new
    /// ensures invalid: IsNoType memory.old → quota.new ≡ quota.old
    /// ensures unasked: (ty : MemoryTypeValue) → named_type (settings_of memory.old) ≡ Some ty
    ///     → 2 ^ 64 ≤ minimum_bytes ty → quota.new ≡ quota.old
    /// ```
    #[unsafe(no_mangle)]
    pub unsafe extern "C" fn wasmi_memory_new_zeroed(
        memory: &mut MemoryNumbers,
        region: *const u8,
        region_len: usize,
        quota: &mut QuotaNumbers,
    ) -> u8 {
        let region = unsafe { crate::memory::items(region, region_len) };

        on_memory::make_zeroed(memory, region, quota)
    }

    /// # Contract
    ///
    /// ```text
    /// ensures grown: GrowsBy of_memory quota_rules (by_pages pages)
    ///     (embedded memory.old region.old meter.old (limiter_of quota.old) number.old) result
    ///     (embedded memory.new region.new meter.new (limiter_of quota.new) number.new)
    /// ensures quota: KeepsQuota quota.old quota.new
    /// ensures invalid: IsNone of_memory memory.old region.old → quota.new ≡ quota.old
    /// ensures unasked: (ty : MemoryTypeValue) → IsState memory.old region.old ty
    ///     → (pages ≡ 0) ⊎ (in_bounds ty (memory.old.size / page_bytes ty.page + pages) ≡ false)
    ///     → quota.new ≡ quota.old
    /// ```
    #[unsafe(no_mangle)]
    pub unsafe extern "C" fn wasmi_memory_grow(
        memory: &mut MemoryNumbers,
        region: *mut u8,
        region_len: usize,
        pages: u64,
        meter: &mut MeterNumbers,
        quota: &mut QuotaNumbers,
        number: &mut u64,
    ) -> u8 {
        let region = unsafe { crate::memory::items_mut(region, region_len) };

        on_memory::grow(memory, region, pages, meter, quota, number)
    }

    /// # Contract
    ///
    /// ```text
    /// ensures grown: GrowsBy of_memory quota_rules (by_pages pages)
    ///     (embedded memory.old region.now meter.old (limiter_of quota.old) number.old) result
    ///     (embedded memory.new (zeroed region.now memory.old.size memory.new.size) meter.new
    ///     (limiter_of quota.new) number.new)
    /// ensures quota: KeepsQuota quota.old quota.new
    /// ensures invalid: IsNone of_memory memory.old region.now → quota.new ≡ quota.old
    /// ensures unasked: (ty : MemoryTypeValue) → IsState memory.old region.now ty
    ///     → (pages ≡ 0) ⊎ (in_bounds ty (memory.old.size / page_bytes ty.page + pages) ≡ false)
    ///     → quota.new ≡ quota.old
    /// ```
    #[unsafe(no_mangle)]
    pub unsafe extern "C" fn wasmi_memory_grow_zeroed(
        memory: &mut MemoryNumbers,
        region: *const u8,
        region_len: usize,
        pages: u64,
        meter: &mut MeterNumbers,
        quota: &mut QuotaNumbers,
        number: &mut u64,
    ) -> u8 {
        let region = unsafe { crate::memory::items(region, region_len) };

        on_memory::grow_zeroed(memory, region, pages, meter, quota, number)
    }

    /// # Contract
    ///
    /// ```text
    /// ensures ended: EndsMemory (placed memory.old region.now) (limiter_of quota.old) result
    ///     memory.new (limiter_of quota.new)
    /// ensures quota: KeepsQuota quota.old quota.new
    /// ensures none: result ≡ DONE → IsNoType memory.new
    /// ensures refused: (result ≡ DONE → ⊥) → quota.new ≡ quota.old
    /// ```
    #[unsafe(no_mangle)]
    pub unsafe extern "C" fn wasmi_quota_release_memory(
        quota: &mut QuotaNumbers,
        memory: &mut MemoryNumbers,
        region: *const u8,
        region_len: usize,
    ) -> u8 {
        let region = unsafe { crate::memory::items(region, region_len) };

        on_memory::release(memory, region, quota)
    }

    /// # Contract
    ///
    /// ```text
    /// ensures: AsksEmbedded memory.now region.now pages result question.old question.new
    /// ```
    #[unsafe(no_mangle)]
    pub unsafe extern "C" fn wasmi_memory_question(
        memory: &MemoryNumbers,
        region: *const u8,
        region_len: usize,
        pages: u64,
        question: &mut Question,
    ) -> u8 {
        let region = unsafe { crate::memory::items(region, region_len) };

        on_memory::question(memory, region, pages, question)
    }

    /// # Contract
    ///
    /// ```text
    /// ensures: SettlesBy of_memory (by_pages pages) answers.old
    ///     (embedded memory.old region.old meter.old (Some answers.old) number.old) result
    ///     (embedded memory.new region.new meter.new (Some answers.new) number.new)
    /// ```
    #[unsafe(no_mangle)]
    pub unsafe extern "C" fn wasmi_memory_settle(
        memory: &mut MemoryNumbers,
        region: *mut u8,
        region_len: usize,
        pages: u64,
        meter: &mut MeterNumbers,
        answers: &mut HostAnswers,
        number: &mut u64,
    ) -> u8 {
        let region = unsafe { crate::memory::items_mut(region, region_len) };

        on_memory::settle(memory, region, pages, meter, answers, number)
    }

    /// # Contract
    ///
    /// ```text
    /// ensures: CountsEmbedded memory.now region.now pages.old result pages.new
    /// ```
    #[unsafe(no_mangle)]
    pub unsafe extern "C" fn wasmi_memory_size(
        memory: &MemoryNumbers,
        region: *const u8,
        region_len: usize,
        pages: &mut u64,
    ) -> u8 {
        let region = unsafe { crate::memory::items(region, region_len) };

        on_memory::size(memory, region, pages)
    }

    /// # Contract
    ///
    /// ```text
    /// ensures: ReadsEmbedded (placed memory.now region.now) offset bytes.old result bytes.new
    /// ```
    #[unsafe(no_mangle)]
    pub unsafe extern "C" fn wasmi_memory_read(
        memory: &MemoryNumbers,
        region: *const u8,
        region_len: usize,
        offset: usize,
        bytes: *mut u8,
        bytes_len: usize,
    ) -> u8 {
        let region = unsafe { crate::memory::items(region, region_len) };
        let bytes = unsafe { crate::memory::items_mut(bytes, bytes_len) };

        on_memory::read(memory, region, offset, bytes)
    }

    /// # Contract
    ///
    /// ```text
    /// ensures: WritesEmbedded (placed memory.now region.old) offset bytes.now result region.new
    /// ```
    #[unsafe(no_mangle)]
    pub unsafe extern "C" fn wasmi_memory_write(
        memory: &MemoryNumbers,
        region: *mut u8,
        region_len: usize,
        offset: usize,
        bytes: *const u8,
        bytes_len: usize,
    ) -> u8 {
        let region = unsafe { crate::memory::items_mut(region, region_len) };
        let bytes = unsafe { crate::memory::items(bytes, bytes_len) };

        on_memory::write(memory, region, offset, bytes)
    }

    /// # Contract
    ///
    /// ```text
    /// ensures: WritesBytesEmbedded (filled_range value) range.now memory.now
    ///     (metered region.old meter.old number.old) result (metered region.new meter.new number.new)
    /// ```
    #[unsafe(no_mangle)]
    pub unsafe extern "C" fn wasmi_memory_fill(
        memory: &MemoryNumbers,
        region: *mut u8,
        region_len: usize,
        range: &Range,
        value: u8,
        meter: &mut MeterNumbers,
        number: &mut u64,
    ) -> u8 {
        let region = unsafe { crate::memory::items_mut(region, region_len) };

        on_memory::fill(memory, region, range, value, meter, number)
    }

    /// # Contract
    ///
    /// ```text
    /// ensures: WritesBytesEmbedded (λ r bytes. copied_range bytes r bytes) range.now memory.now
    ///     (metered region.old meter.old number.old) result (metered region.new meter.new number.new)
    /// ```
    #[unsafe(no_mangle)]
    pub unsafe extern "C" fn wasmi_memory_copy_within(
        memory: &MemoryNumbers,
        region: *mut u8,
        region_len: usize,
        range: &Range,
        meter: &mut MeterNumbers,
        number: &mut u64,
    ) -> u8 {
        let region = unsafe { crate::memory::items_mut(region, region_len) };

        on_memory::copy_within(memory, region, range, meter, number)
    }

    /// # Contract
    ///
    /// ```text
    /// ensures: CopiesBytesEmbedded (placed source.now source_region.now) range.now memory.now
    ///     (metered region.old meter.old number.old) result (metered region.new meter.new number.new)
    /// ```
    #[unsafe(no_mangle)]
    pub unsafe extern "C" fn wasmi_memory_copy(
        memory: &MemoryNumbers,
        region: *mut u8,
        region_len: usize,
        source: &MemoryNumbers,
        source_region: *const u8,
        source_region_len: usize,
        range: &Range,
        meter: &mut MeterNumbers,
        number: &mut u64,
    ) -> u8 {
        let region = unsafe { crate::memory::items_mut(region, region_len) };
        let source_region = unsafe { crate::memory::items(source_region, source_region_len) };

        on_memory::copy(memory, region, source, source_region, range, meter, number)
    }

    /// # Contract
    ///
    /// ```text
    /// ensures: WritesBytesEmbedded (copied_range bytes.now) range.now memory.now
    ///     (metered region.old meter.old number.old) result (metered region.new meter.new number.new)
    /// ```
    #[unsafe(no_mangle)]
    pub unsafe extern "C" fn wasmi_memory_init(
        memory: &MemoryNumbers,
        region: *mut u8,
        region_len: usize,
        bytes: *const u8,
        bytes_len: usize,
        range: &Range,
        meter: &mut MeterNumbers,
        number: &mut u64,
    ) -> u8 {
        let region = unsafe { crate::memory::items_mut(region, region_len) };
        let bytes = unsafe { crate::memory::items(bytes, bytes_len) };

        on_memory::init(memory, region, bytes, range, meter, number)
    }

    /// # Contract
    ///
    /// ```text
    /// ensures: SetsFuel amount meter.old result meter.new
    /// ```
    #[unsafe(no_mangle)]
    pub extern "C" fn wasmi_fuel_set(meter: &mut MeterNumbers, amount: u64) -> u8 {
        fuel::set(meter, amount)
    }

    /// # Contract
    ///
    /// ```text
    /// ensures: TellsFuel meter.now left.old result left.new
    /// ```
    #[unsafe(no_mangle)]
    pub extern "C" fn wasmi_fuel_left(meter: &MeterNumbers, left: &mut u64) -> u8 {
        fuel::left(meter, left)
    }

    /// # Contract
    ///
    /// ```text
    /// ensures: PaysFuel amount meter.old number.old result meter.new number.new
    /// ```
    #[unsafe(no_mangle)]
    pub extern "C" fn wasmi_fuel_consume(
        meter: &mut MeterNumbers,
        amount: u64,
        number: &mut u64,
    ) -> u8 {
        fuel::consume(meter, amount, number)
    }

    /// # Contract
    ///
    /// ```text
    /// ensures: result ≡ copy_cost (meter_of meter.now).costs bytes 1
    /// ```
    #[unsafe(no_mangle)]
    pub extern "C" fn wasmi_fuel_copy_cost(meter: &MeterNumbers, bytes: u64) -> u64 {
        fuel::copy_cost(meter, bytes)
    }

    /// # Contract
    ///
    /// ```text
    /// ensures: PaysFuel (copy_cost (meter_of meter.old).costs bytes 1) meter.old number.old result
    ///     meter.new number.new
    /// ```
    #[unsafe(no_mangle)]
    pub extern "C" fn wasmi_fuel_consume_copy(
        meter: &mut MeterNumbers,
        bytes: u64,
        number: &mut u64,
    ) -> u8 {
        fuel::consume_copy(meter, bytes, number)
    }
}
mod scalar {
    //! The scalar instructions by name, each described at the function of its name in
    //! `wasmi_scalar::wasm`. `tools/header` writes this file.
    //!
    //! A status is 0, or the number of the trap; then nothing is written.

    use crate::generated::c::instruction::result::{leave_item, leave_pair};
    use crate::proved::scalar::wasm;

    /// # Contract
    ///
    /// ```text
    /// ensures: result ≡ iclz w32 value
    /// ```
    #[unsafe(no_mangle)]
    pub extern "C" fn wasmi_i32_clz(value: i32) -> i32 {
        wasm::i32_clz(value)
    }

    /// # Contract
    ///
    /// ```text
    /// ensures: result ≡ ictz w32 value
    /// ```
    #[unsafe(no_mangle)]
    pub extern "C" fn wasmi_i32_ctz(value: i32) -> i32 {
        wasm::i32_ctz(value)
    }

    /// # Contract
    ///
    /// ```text
    /// ensures: result ≡ ipopcnt w32 value
    /// ```
    #[unsafe(no_mangle)]
    pub extern "C" fn wasmi_i32_popcnt(value: i32) -> i32 {
        wasm::i32_popcnt(value)
    }

    /// # Contract
    ///
    /// ```text
    /// ensures: result ≡ ieqz value
    /// ```
    #[unsafe(no_mangle)]
    pub extern "C" fn wasmi_i32_eqz(value: i32) -> bool {
        wasm::i32_eqz(value)
    }

    /// # Contract
    ///
    /// ```text
    /// ensures: result ≡ iclz w64 value
    /// ```
    #[unsafe(no_mangle)]
    pub extern "C" fn wasmi_i64_clz(value: i64) -> i64 {
        wasm::i64_clz(value)
    }

    /// # Contract
    ///
    /// ```text
    /// ensures: result ≡ ictz w64 value
    /// ```
    #[unsafe(no_mangle)]
    pub extern "C" fn wasmi_i64_ctz(value: i64) -> i64 {
        wasm::i64_ctz(value)
    }

    /// # Contract
    ///
    /// ```text
    /// ensures: result ≡ ipopcnt w64 value
    /// ```
    #[unsafe(no_mangle)]
    pub extern "C" fn wasmi_i64_popcnt(value: i64) -> i64 {
        wasm::i64_popcnt(value)
    }

    /// # Contract
    ///
    /// ```text
    /// ensures: result ≡ ieqz value
    /// ```
    #[unsafe(no_mangle)]
    pub extern "C" fn wasmi_i64_eqz(value: i64) -> bool {
        wasm::i64_eqz(value)
    }

    /// # Contract
    ///
    /// ```text
    /// ensures: result ≡ int_wrap w32 value
    /// ```
    #[unsafe(no_mangle)]
    pub extern "C" fn wasmi_i32_wrap_i64(value: i64) -> i32 {
        wasm::i32_wrap_i64(value)
    }

    /// # Contract
    ///
    /// ```text
    /// ensures: result ≡ value
    /// ```
    #[unsafe(no_mangle)]
    pub extern "C" fn wasmi_i64_extend_i32_s(value: i32) -> i64 {
        wasm::i64_extend_i32_s(value)
    }

    /// # Contract
    ///
    /// ```text
    /// ensures: result ≡ value
    /// ```
    #[unsafe(no_mangle)]
    pub extern "C" fn wasmi_i64_extend_i32_u(value: u32) -> u64 {
        wasm::i64_extend_i32_u(value)
    }

    /// # Contract
    ///
    /// ```text
    /// ensures: result ≡ int_wrap w8 value
    /// ```
    #[unsafe(no_mangle)]
    pub extern "C" fn wasmi_i32_extend8_s(value: i32) -> i32 {
        wasm::i32_extend8_s(value)
    }

    /// # Contract
    ///
    /// ```text
    /// ensures: result ≡ int_wrap w16 value
    /// ```
    #[unsafe(no_mangle)]
    pub extern "C" fn wasmi_i32_extend16_s(value: i32) -> i32 {
        wasm::i32_extend16_s(value)
    }

    /// # Contract
    ///
    /// ```text
    /// ensures: result ≡ int_wrap w8 value
    /// ```
    #[unsafe(no_mangle)]
    pub extern "C" fn wasmi_i64_extend8_s(value: i64) -> i64 {
        wasm::i64_extend8_s(value)
    }

    /// # Contract
    ///
    /// ```text
    /// ensures: result ≡ int_wrap w16 value
    /// ```
    #[unsafe(no_mangle)]
    pub extern "C" fn wasmi_i64_extend16_s(value: i64) -> i64 {
        wasm::i64_extend16_s(value)
    }

    /// # Contract
    ///
    /// ```text
    /// ensures: result ≡ int_wrap w32 value
    /// ```
    #[unsafe(no_mangle)]
    pub extern "C" fn wasmi_i64_extend32_s(value: i64) -> i64 {
        wasm::i64_extend32_s(value)
    }

    /// # Contract
    ///
    /// ```text
    /// ensures: result ≡ iadd w32 lhs rhs
    /// ```
    #[unsafe(no_mangle)]
    pub extern "C" fn wasmi_i32_add(lhs: i32, rhs: i32) -> i32 {
        wasm::i32_add(lhs, rhs)
    }

    /// # Contract
    ///
    /// ```text
    /// ensures: result ≡ isub w32 lhs rhs
    /// ```
    #[unsafe(no_mangle)]
    pub extern "C" fn wasmi_i32_sub(lhs: i32, rhs: i32) -> i32 {
        wasm::i32_sub(lhs, rhs)
    }

    /// # Contract
    ///
    /// ```text
    /// ensures: result ≡ imul w32 lhs rhs
    /// ```
    #[unsafe(no_mangle)]
    pub extern "C" fn wasmi_i32_mul(lhs: i32, rhs: i32) -> i32 {
        wasm::i32_mul(lhs, rhs)
    }

    /// # Contract
    ///
    /// ```text
    /// ensures: result ≡ iand w32 lhs rhs
    /// ```
    #[unsafe(no_mangle)]
    pub extern "C" fn wasmi_i32_bitand(lhs: i32, rhs: i32) -> i32 {
        wasm::i32_bitand(lhs, rhs)
    }

    /// # Contract
    ///
    /// ```text
    /// ensures: result ≡ ior w32 lhs rhs
    /// ```
    #[unsafe(no_mangle)]
    pub extern "C" fn wasmi_i32_bitor(lhs: i32, rhs: i32) -> i32 {
        wasm::i32_bitor(lhs, rhs)
    }

    /// # Contract
    ///
    /// ```text
    /// ensures: result ≡ ixor w32 lhs rhs
    /// ```
    #[unsafe(no_mangle)]
    pub extern "C" fn wasmi_i32_bitxor(lhs: i32, rhs: i32) -> i32 {
        wasm::i32_bitxor(lhs, rhs)
    }

    /// # Contract
    ///
    /// ```text
    /// ensures: result ≡ ishl w32 lhs rhs
    /// ```
    #[unsafe(no_mangle)]
    pub extern "C" fn wasmi_i32_shl(lhs: i32, rhs: i32) -> i32 {
        wasm::i32_shl(lhs, rhs)
    }

    /// # Contract
    ///
    /// ```text
    /// ensures: result ≡ ishr_s w32 lhs rhs
    /// ```
    #[unsafe(no_mangle)]
    pub extern "C" fn wasmi_i32_shr_s(lhs: i32, rhs: i32) -> i32 {
        wasm::i32_shr_s(lhs, rhs)
    }

    /// # Contract
    ///
    /// ```text
    /// ensures: result ≡ ishr_u w32 lhs rhs
    /// ```
    #[unsafe(no_mangle)]
    pub extern "C" fn wasmi_i32_shr_u(lhs: u32, rhs: u32) -> u32 {
        wasm::i32_shr_u(lhs, rhs)
    }

    /// # Contract
    ///
    /// ```text
    /// ensures: result ≡ irotl w32 lhs rhs
    /// ```
    #[unsafe(no_mangle)]
    pub extern "C" fn wasmi_i32_rotl(lhs: i32, rhs: i32) -> i32 {
        wasm::i32_rotl(lhs, rhs)
    }

    /// # Contract
    ///
    /// ```text
    /// ensures: result ≡ irotr w32 lhs rhs
    /// ```
    #[unsafe(no_mangle)]
    pub extern "C" fn wasmi_i32_rotr(lhs: i32, rhs: i32) -> i32 {
        wasm::i32_rotr(lhs, rhs)
    }

    /// # Contract
    ///
    /// ```text
    /// ensures: Gives (idiv_s w32 lhs rhs) value.old value.new result
    /// ```
    #[unsafe(no_mangle)]
    pub extern "C" fn wasmi_i32_div_s(lhs: i32, rhs: i32, value: &mut i32) -> u8 {
        leave_item(wasm::i32_div_s(lhs, rhs), value)
    }

    /// # Contract
    ///
    /// ```text
    /// ensures: Gives (idiv_u lhs rhs) value.old value.new result
    /// ```
    #[unsafe(no_mangle)]
    pub extern "C" fn wasmi_i32_div_u(lhs: u32, rhs: u32, value: &mut u32) -> u8 {
        leave_item(wasm::i32_div_u(lhs, rhs), value)
    }

    /// # Contract
    ///
    /// ```text
    /// ensures: Gives (irem_s lhs rhs) value.old value.new result
    /// ```
    #[unsafe(no_mangle)]
    pub extern "C" fn wasmi_i32_rem_s(lhs: i32, rhs: i32, value: &mut i32) -> u8 {
        leave_item(wasm::i32_rem_s(lhs, rhs), value)
    }

    /// # Contract
    ///
    /// ```text
    /// ensures: Gives (irem_u lhs rhs) value.old value.new result
    /// ```
    #[unsafe(no_mangle)]
    pub extern "C" fn wasmi_i32_rem_u(lhs: u32, rhs: u32, value: &mut u32) -> u8 {
        leave_item(wasm::i32_rem_u(lhs, rhs), value)
    }

    /// # Contract
    ///
    /// ```text
    /// ensures: result ≡ ieq lhs rhs
    /// ```
    #[unsafe(no_mangle)]
    pub extern "C" fn wasmi_i32_eq(lhs: i32, rhs: i32) -> bool {
        wasm::i32_eq(lhs, rhs)
    }

    /// # Contract
    ///
    /// ```text
    /// ensures: result ≡ ine lhs rhs
    /// ```
    #[unsafe(no_mangle)]
    pub extern "C" fn wasmi_i32_ne(lhs: i32, rhs: i32) -> bool {
        wasm::i32_ne(lhs, rhs)
    }

    /// # Contract
    ///
    /// ```text
    /// ensures: result ≡ ilt_s lhs rhs
    /// ```
    #[unsafe(no_mangle)]
    pub extern "C" fn wasmi_i32_lt_s(lhs: i32, rhs: i32) -> bool {
        wasm::i32_lt_s(lhs, rhs)
    }

    /// # Contract
    ///
    /// ```text
    /// ensures: result ≡ ilt_u lhs rhs
    /// ```
    #[unsafe(no_mangle)]
    pub extern "C" fn wasmi_i32_lt_u(lhs: u32, rhs: u32) -> bool {
        wasm::i32_lt_u(lhs, rhs)
    }

    /// # Contract
    ///
    /// ```text
    /// ensures: result ≡ ile_s lhs rhs
    /// ```
    #[unsafe(no_mangle)]
    pub extern "C" fn wasmi_i32_le_s(lhs: i32, rhs: i32) -> bool {
        wasm::i32_le_s(lhs, rhs)
    }

    /// # Contract
    ///
    /// ```text
    /// ensures: result ≡ ile_u lhs rhs
    /// ```
    #[unsafe(no_mangle)]
    pub extern "C" fn wasmi_i32_le_u(lhs: u32, rhs: u32) -> bool {
        wasm::i32_le_u(lhs, rhs)
    }

    /// # Contract
    ///
    /// ```text
    /// ensures: result ≡ igt_s lhs rhs
    /// ```
    #[unsafe(no_mangle)]
    pub extern "C" fn wasmi_i32_gt_s(lhs: i32, rhs: i32) -> bool {
        wasm::i32_gt_s(lhs, rhs)
    }

    /// # Contract
    ///
    /// ```text
    /// ensures: result ≡ igt_u lhs rhs
    /// ```
    #[unsafe(no_mangle)]
    pub extern "C" fn wasmi_i32_gt_u(lhs: u32, rhs: u32) -> bool {
        wasm::i32_gt_u(lhs, rhs)
    }

    /// # Contract
    ///
    /// ```text
    /// ensures: result ≡ ige_s lhs rhs
    /// ```
    #[unsafe(no_mangle)]
    pub extern "C" fn wasmi_i32_ge_s(lhs: i32, rhs: i32) -> bool {
        wasm::i32_ge_s(lhs, rhs)
    }

    /// # Contract
    ///
    /// ```text
    /// ensures: result ≡ ige_u lhs rhs
    /// ```
    #[unsafe(no_mangle)]
    pub extern "C" fn wasmi_i32_ge_u(lhs: u32, rhs: u32) -> bool {
        wasm::i32_ge_u(lhs, rhs)
    }

    /// # Contract
    ///
    /// ```text
    /// ensures: result ≡ iadd w64 lhs rhs
    /// ```
    #[unsafe(no_mangle)]
    pub extern "C" fn wasmi_i64_add(lhs: i64, rhs: i64) -> i64 {
        wasm::i64_add(lhs, rhs)
    }

    /// # Contract
    ///
    /// ```text
    /// ensures: result ≡ isub w64 lhs rhs
    /// ```
    #[unsafe(no_mangle)]
    pub extern "C" fn wasmi_i64_sub(lhs: i64, rhs: i64) -> i64 {
        wasm::i64_sub(lhs, rhs)
    }

    /// # Contract
    ///
    /// ```text
    /// ensures: result ≡ imul w64 lhs rhs
    /// ```
    #[unsafe(no_mangle)]
    pub extern "C" fn wasmi_i64_mul(lhs: i64, rhs: i64) -> i64 {
        wasm::i64_mul(lhs, rhs)
    }

    /// # Contract
    ///
    /// ```text
    /// ensures: result ≡ iand w64 lhs rhs
    /// ```
    #[unsafe(no_mangle)]
    pub extern "C" fn wasmi_i64_bitand(lhs: i64, rhs: i64) -> i64 {
        wasm::i64_bitand(lhs, rhs)
    }

    /// # Contract
    ///
    /// ```text
    /// ensures: result ≡ ior w64 lhs rhs
    /// ```
    #[unsafe(no_mangle)]
    pub extern "C" fn wasmi_i64_bitor(lhs: i64, rhs: i64) -> i64 {
        wasm::i64_bitor(lhs, rhs)
    }

    /// # Contract
    ///
    /// ```text
    /// ensures: result ≡ ixor w64 lhs rhs
    /// ```
    #[unsafe(no_mangle)]
    pub extern "C" fn wasmi_i64_bitxor(lhs: i64, rhs: i64) -> i64 {
        wasm::i64_bitxor(lhs, rhs)
    }

    /// # Contract
    ///
    /// ```text
    /// ensures: result ≡ ishl w64 lhs rhs
    /// ```
    #[unsafe(no_mangle)]
    pub extern "C" fn wasmi_i64_shl(lhs: i64, rhs: i64) -> i64 {
        wasm::i64_shl(lhs, rhs)
    }

    /// # Contract
    ///
    /// ```text
    /// ensures: result ≡ ishr_s w64 lhs rhs
    /// ```
    #[unsafe(no_mangle)]
    pub extern "C" fn wasmi_i64_shr_s(lhs: i64, rhs: i64) -> i64 {
        wasm::i64_shr_s(lhs, rhs)
    }

    /// # Contract
    ///
    /// ```text
    /// ensures: result ≡ ishr_u w64 lhs rhs
    /// ```
    #[unsafe(no_mangle)]
    pub extern "C" fn wasmi_i64_shr_u(lhs: u64, rhs: u64) -> u64 {
        wasm::i64_shr_u(lhs, rhs)
    }

    /// # Contract
    ///
    /// ```text
    /// ensures: result ≡ irotl w64 lhs rhs
    /// ```
    #[unsafe(no_mangle)]
    pub extern "C" fn wasmi_i64_rotl(lhs: i64, rhs: i64) -> i64 {
        wasm::i64_rotl(lhs, rhs)
    }

    /// # Contract
    ///
    /// ```text
    /// ensures: result ≡ irotr w64 lhs rhs
    /// ```
    #[unsafe(no_mangle)]
    pub extern "C" fn wasmi_i64_rotr(lhs: i64, rhs: i64) -> i64 {
        wasm::i64_rotr(lhs, rhs)
    }

    /// # Contract
    ///
    /// ```text
    /// ensures: Gives (idiv_s w64 lhs rhs) value.old value.new result
    /// ```
    #[unsafe(no_mangle)]
    pub extern "C" fn wasmi_i64_div_s(lhs: i64, rhs: i64, value: &mut i64) -> u8 {
        leave_item(wasm::i64_div_s(lhs, rhs), value)
    }

    /// # Contract
    ///
    /// ```text
    /// ensures: Gives (idiv_u lhs rhs) value.old value.new result
    /// ```
    #[unsafe(no_mangle)]
    pub extern "C" fn wasmi_i64_div_u(lhs: u64, rhs: u64, value: &mut u64) -> u8 {
        leave_item(wasm::i64_div_u(lhs, rhs), value)
    }

    /// # Contract
    ///
    /// ```text
    /// ensures: Gives (irem_s lhs rhs) value.old value.new result
    /// ```
    #[unsafe(no_mangle)]
    pub extern "C" fn wasmi_i64_rem_s(lhs: i64, rhs: i64, value: &mut i64) -> u8 {
        leave_item(wasm::i64_rem_s(lhs, rhs), value)
    }

    /// # Contract
    ///
    /// ```text
    /// ensures: Gives (irem_u lhs rhs) value.old value.new result
    /// ```
    #[unsafe(no_mangle)]
    pub extern "C" fn wasmi_i64_rem_u(lhs: u64, rhs: u64, value: &mut u64) -> u8 {
        leave_item(wasm::i64_rem_u(lhs, rhs), value)
    }

    /// # Contract
    ///
    /// ```text
    /// ensures: result ≡ ieq lhs rhs
    /// ```
    #[unsafe(no_mangle)]
    pub extern "C" fn wasmi_i64_eq(lhs: i64, rhs: i64) -> bool {
        wasm::i64_eq(lhs, rhs)
    }

    /// # Contract
    ///
    /// ```text
    /// ensures: result ≡ ine lhs rhs
    /// ```
    #[unsafe(no_mangle)]
    pub extern "C" fn wasmi_i64_ne(lhs: i64, rhs: i64) -> bool {
        wasm::i64_ne(lhs, rhs)
    }

    /// # Contract
    ///
    /// ```text
    /// ensures: result ≡ ilt_s lhs rhs
    /// ```
    #[unsafe(no_mangle)]
    pub extern "C" fn wasmi_i64_lt_s(lhs: i64, rhs: i64) -> bool {
        wasm::i64_lt_s(lhs, rhs)
    }

    /// # Contract
    ///
    /// ```text
    /// ensures: result ≡ ilt_u lhs rhs
    /// ```
    #[unsafe(no_mangle)]
    pub extern "C" fn wasmi_i64_lt_u(lhs: u64, rhs: u64) -> bool {
        wasm::i64_lt_u(lhs, rhs)
    }

    /// # Contract
    ///
    /// ```text
    /// ensures: result ≡ ile_s lhs rhs
    /// ```
    #[unsafe(no_mangle)]
    pub extern "C" fn wasmi_i64_le_s(lhs: i64, rhs: i64) -> bool {
        wasm::i64_le_s(lhs, rhs)
    }

    /// # Contract
    ///
    /// ```text
    /// ensures: result ≡ ile_u lhs rhs
    /// ```
    #[unsafe(no_mangle)]
    pub extern "C" fn wasmi_i64_le_u(lhs: u64, rhs: u64) -> bool {
        wasm::i64_le_u(lhs, rhs)
    }

    /// # Contract
    ///
    /// ```text
    /// ensures: result ≡ igt_s lhs rhs
    /// ```
    #[unsafe(no_mangle)]
    pub extern "C" fn wasmi_i64_gt_s(lhs: i64, rhs: i64) -> bool {
        wasm::i64_gt_s(lhs, rhs)
    }

    /// # Contract
    ///
    /// ```text
    /// ensures: result ≡ igt_u lhs rhs
    /// ```
    #[unsafe(no_mangle)]
    pub extern "C" fn wasmi_i64_gt_u(lhs: u64, rhs: u64) -> bool {
        wasm::i64_gt_u(lhs, rhs)
    }

    /// # Contract
    ///
    /// ```text
    /// ensures: result ≡ ige_s lhs rhs
    /// ```
    #[unsafe(no_mangle)]
    pub extern "C" fn wasmi_i64_ge_s(lhs: i64, rhs: i64) -> bool {
        wasm::i64_ge_s(lhs, rhs)
    }

    /// # Contract
    ///
    /// ```text
    /// ensures: result ≡ ige_u lhs rhs
    /// ```
    #[unsafe(no_mangle)]
    pub extern "C" fn wasmi_i64_ge_u(lhs: u64, rhs: u64) -> bool {
        wasm::i64_ge_u(lhs, rhs)
    }

    /// # Contract
    ///
    /// ```text
    /// ensures: unsigned_of lo.new hi.new ≡ add128 (unsigned_of lhs_lo lhs_hi) (unsigned_of rhs_lo
    ///     rhs_hi)
    /// ```
    #[unsafe(no_mangle)]
    pub extern "C" fn wasmi_i64_add128(
        lhs_lo: i64,
        lhs_hi: i64,
        rhs_lo: i64,
        rhs_hi: i64,
        lo: &mut i64,
        hi: &mut i64,
    ) {
        leave_pair(wasm::i64_add128(lhs_lo, lhs_hi, rhs_lo, rhs_hi), lo, hi)
    }

    /// # Contract
    ///
    /// ```text
    /// ensures: unsigned_of lo.new hi.new ≡ sub128 (unsigned_of lhs_lo lhs_hi) (unsigned_of rhs_lo
    ///     rhs_hi)
    /// ```
    #[unsafe(no_mangle)]
    pub extern "C" fn wasmi_i64_sub128(
        lhs_lo: i64,
        lhs_hi: i64,
        rhs_lo: i64,
        rhs_hi: i64,
        lo: &mut i64,
        hi: &mut i64,
    ) {
        leave_pair(wasm::i64_sub128(lhs_lo, lhs_hi, rhs_lo, rhs_hi), lo, hi)
    }

    /// # Contract
    ///
    /// ```text
    /// ensures: signed_of lo.new hi.new ≡ lhs *ℤ rhs
    /// ```
    #[unsafe(no_mangle)]
    pub extern "C" fn wasmi_i64_mul_wide_s(lhs: i64, rhs: i64, lo: &mut i64, hi: &mut i64) {
        leave_pair(wasm::i64_mul_wide_s(lhs, rhs), lo, hi)
    }

    /// # Contract
    ///
    /// ```text
    /// ensures: unsigned_of lo.new hi.new ≡ cast_unsigned w64 lhs * cast_unsigned w64 rhs
    /// ```
    #[unsafe(no_mangle)]
    pub extern "C" fn wasmi_i64_mul_wide_u(lhs: i64, rhs: i64, lo: &mut i64, hi: &mut i64) {
        leave_pair(wasm::i64_mul_wide_u(lhs, rhs), lo, hi)
    }
}
mod stores {
    //! The stores by name, each described at the function of its name in `wasmi_access::wasm`.
    //! `tools/header` writes this file.
    //!
    //! A status is 0, or the number of the trap; then nothing is written.

    use crate::generated::c::instruction::result::status_of;
    use crate::proved::accesses::wasm;

    /// # Contract
    ///
    /// ```text
    /// ensures: StoresBytes memory.old (ptr + offset) (le_bytes 1 (cast_unsigned w32 value % 2 ^ 8))
    ///     memory.new result
    /// ```
    #[unsafe(no_mangle)]
    pub unsafe extern "C" fn wasmi_i32_store8(
        memory: *mut u8,
        memory_len: usize,
        ptr: u64,
        offset: u64,
        value: i32,
    ) -> u8 {
        let memory = unsafe { crate::memory::items_mut(memory, memory_len) };

        status_of(wasm::i32_store8(memory, ptr, offset, value))
    }

    /// # Contract
    ///
    /// ```text
    /// ensures: StoresBytes memory.old (ptr + offset) (le_bytes 2 (cast_unsigned w32 value % 2 ^ 16))
    ///     memory.new result
    /// ```
    #[unsafe(no_mangle)]
    pub unsafe extern "C" fn wasmi_i32_store16(
        memory: *mut u8,
        memory_len: usize,
        ptr: u64,
        offset: u64,
        value: i32,
    ) -> u8 {
        let memory = unsafe { crate::memory::items_mut(memory, memory_len) };

        status_of(wasm::i32_store16(memory, ptr, offset, value))
    }

    /// # Contract
    ///
    /// ```text
    /// ensures: StoresBytes memory.old (ptr + offset) (le_bytes 1 (cast_unsigned w64 value % 2 ^ 8))
    ///     memory.new result
    /// ```
    #[unsafe(no_mangle)]
    pub unsafe extern "C" fn wasmi_i64_store8(
        memory: *mut u8,
        memory_len: usize,
        ptr: u64,
        offset: u64,
        value: i64,
    ) -> u8 {
        let memory = unsafe { crate::memory::items_mut(memory, memory_len) };

        status_of(wasm::i64_store8(memory, ptr, offset, value))
    }

    /// # Contract
    ///
    /// ```text
    /// ensures: StoresBytes memory.old (ptr + offset) (le_bytes 2 (cast_unsigned w64 value % 2 ^ 16))
    ///     memory.new result
    /// ```
    #[unsafe(no_mangle)]
    pub unsafe extern "C" fn wasmi_i64_store16(
        memory: *mut u8,
        memory_len: usize,
        ptr: u64,
        offset: u64,
        value: i64,
    ) -> u8 {
        let memory = unsafe { crate::memory::items_mut(memory, memory_len) };

        status_of(wasm::i64_store16(memory, ptr, offset, value))
    }

    /// # Contract
    ///
    /// ```text
    /// ensures: StoresBytes memory.old (ptr + offset) (le_bytes 4 (cast_unsigned w64 value % 2 ^ 32))
    ///     memory.new result
    /// ```
    #[unsafe(no_mangle)]
    pub unsafe extern "C" fn wasmi_i64_store32(
        memory: *mut u8,
        memory_len: usize,
        ptr: u64,
        offset: u64,
        value: i64,
    ) -> u8 {
        let memory = unsafe { crate::memory::items_mut(memory, memory_len) };

        status_of(wasm::i64_store32(memory, ptr, offset, value))
    }

    /// # Contract
    ///
    /// ```text
    /// ensures: StoresBytes memory.old (ptr + offset) (le_bytes 4 value) memory.new result
    /// ```
    #[unsafe(no_mangle)]
    pub unsafe extern "C" fn wasmi_store32(
        memory: *mut u8,
        memory_len: usize,
        ptr: u64,
        offset: u64,
        value: u32,
    ) -> u8 {
        let memory = unsafe { crate::memory::items_mut(memory, memory_len) };

        status_of(wasm::store32(memory, ptr, offset, value))
    }

    /// # Contract
    ///
    /// ```text
    /// ensures: StoresBytes memory.old (ptr + offset) (le_bytes 8 value) memory.new result
    /// ```
    #[unsafe(no_mangle)]
    pub unsafe extern "C" fn wasmi_store64(
        memory: *mut u8,
        memory_len: usize,
        ptr: u64,
        offset: u64,
        value: u64,
    ) -> u8 {
        let memory = unsafe { crate::memory::items_mut(memory, memory_len) };

        status_of(wasm::store64(memory, ptr, offset, value))
    }
}
mod table {
    //! Tables in regions of the caller's.
    //! `tools/header` writes this file, by the rows of `tools/exports.toml`.

    use crate::generated::c::{
        HostAnswers, MeterNumbers, Question, QuotaNumbers, Range, TableNumbers, table as on_table,
    };

    /// # Contract
    ///
    /// ```text
    /// ensures made: MakesTableEmbedded reference (placed table.old region.old) (limiter_of quota.old)
    ///     result (placed table.new region.new) (limiter_of quota.new)
    /// ensures quota: KeepsQuota quota.old quota.new
    /// ensures invalid: table_type_of table.old ≡ None → quota.new ≡ quota.old
    /// ```
    #[unsafe(no_mangle)]
    pub unsafe extern "C" fn wasmi_table_new(
        table: &mut TableNumbers,
        region: *mut u32,
        region_len: usize,
        reference: u32,
        quota: &mut QuotaNumbers,
    ) -> u8 {
        let region = unsafe { crate::memory::items_mut(region, region_len) };

        on_table::make(table, region, reference, quota)
    }

    /// # Contract
    ///
    /// ```text
    /// ensures grown: GrowsBy of_table quota_rules (by_elements delta reference)
    ///     (embedded table.old region.old meter.old (limiter_of quota.old) number.old) result
    ///     (embedded table.new region.new meter.new (limiter_of quota.new) number.new)
    /// ensures quota: KeepsQuota quota.old quota.new
    /// ensures invalid: IsNone of_table table.old region.old → quota.new ≡ quota.old
    /// ensures unasked: (ty : TableTypeValue) → IsTable table.old region.old ty
    ///     → (delta ≡ 0) ⊎ (is_indexable ty (table.old.size + delta) ≡ false) → quota.new ≡ quota.old
    /// ```
    #[unsafe(no_mangle)]
    pub unsafe extern "C" fn wasmi_table_grow(
        table: &mut TableNumbers,
        region: *mut u32,
        region_len: usize,
        delta: u64,
        reference: u32,
        meter: &mut MeterNumbers,
        quota: &mut QuotaNumbers,
        number: &mut u64,
    ) -> u8 {
        let region = unsafe { crate::memory::items_mut(region, region_len) };

        on_table::grow(table, region, delta, reference, meter, quota, number)
    }

    /// # Contract
    ///
    /// ```text
    /// ensures ended: EndsTable (placed table.old region.now) (limiter_of quota.old) result table.new
    ///     (limiter_of quota.new)
    /// ensures quota: KeepsQuota quota.old quota.new
    /// ensures none: result ≡ DONE → table_type_of table.new ≡ None
    /// ensures refused: (result ≡ DONE → ⊥) → quota.new ≡ quota.old
    /// ```
    #[unsafe(no_mangle)]
    pub unsafe extern "C" fn wasmi_quota_release_table(
        quota: &mut QuotaNumbers,
        table: &mut TableNumbers,
        region: *const u32,
        region_len: usize,
    ) -> u8 {
        let region = unsafe { crate::memory::items(region, region_len) };

        on_table::release(table, region, quota)
    }

    /// # Contract
    ///
    /// ```text
    /// ensures: AsksTableEmbedded table.now region.now delta result question.old question.new
    /// ```
    #[unsafe(no_mangle)]
    pub unsafe extern "C" fn wasmi_table_question(
        table: &TableNumbers,
        region: *const u32,
        region_len: usize,
        delta: u64,
        question: &mut Question,
    ) -> u8 {
        let region = unsafe { crate::memory::items(region, region_len) };

        on_table::question(table, region, delta, question)
    }

    /// # Contract
    ///
    /// ```text
    /// ensures: SettlesBy of_table (by_elements delta reference) answers.old
    ///     (embedded table.old region.old meter.old (Some answers.old) number.old) result
    ///     (embedded table.new region.new meter.new (Some answers.new) number.new)
    /// ```
    #[unsafe(no_mangle)]
    pub unsafe extern "C" fn wasmi_table_settle(
        table: &mut TableNumbers,
        region: *mut u32,
        region_len: usize,
        delta: u64,
        reference: u32,
        meter: &mut MeterNumbers,
        answers: &mut HostAnswers,
        number: &mut u64,
    ) -> u8 {
        let region = unsafe { crate::memory::items_mut(region, region_len) };

        on_table::settle(table, region, delta, reference, meter, answers, number)
    }

    /// # Contract
    ///
    /// ```text
    /// ensures: CountsElements table.now region.now size.old result size.new
    /// ```
    #[unsafe(no_mangle)]
    pub unsafe extern "C" fn wasmi_table_size(
        table: &TableNumbers,
        region: *const u32,
        region_len: usize,
        size: &mut u64,
    ) -> u8 {
        let region = unsafe { crate::memory::items(region, region_len) };

        on_table::size(table, region, size)
    }

    /// # Contract
    ///
    /// ```text
    /// ensures: GetsElement (placed table.now region.now) index reference.old result reference.new
    /// ```
    #[unsafe(no_mangle)]
    pub unsafe extern "C" fn wasmi_table_get(
        table: &TableNumbers,
        region: *const u32,
        region_len: usize,
        index: u64,
        reference: &mut u32,
    ) -> u8 {
        let region = unsafe { crate::memory::items(region, region_len) };

        on_table::get(table, region, index, reference)
    }

    /// # Contract
    ///
    /// ```text
    /// ensures: SetsElement (placed table.now region.old) index reference result region.new
    /// ```
    #[unsafe(no_mangle)]
    pub unsafe extern "C" fn wasmi_table_set(
        table: &TableNumbers,
        region: *mut u32,
        region_len: usize,
        index: u64,
        reference: u32,
    ) -> u8 {
        let region = unsafe { crate::memory::items_mut(region, region_len) };

        on_table::set(table, region, index, reference)
    }

    /// # Contract
    ///
    /// ```text
    /// ensures: WritesTableEmbedded (λ ty. raw_filling_of range.now.to reference range.now.count)
    ///     table.now (metered region.old meter.old number.old) result
    ///     (metered region.new meter.new number.new)
    /// ```
    #[unsafe(no_mangle)]
    pub unsafe extern "C" fn wasmi_table_fill(
        table: &TableNumbers,
        region: *mut u32,
        region_len: usize,
        range: &Range,
        reference: u32,
        meter: &mut MeterNumbers,
        number: &mut u64,
    ) -> u8 {
        let region = unsafe { crate::memory::items_mut(region, region_len) };

        on_table::fill(table, region, range, reference, meter, number)
    }

    /// # Contract
    ///
    /// ```text
    /// ensures: WritesTableEmbedded (λ ty. copy_of range.now.to range.now.from range.now.count
    ///     (table_in ty region.old table.now.size))
    ///     table.now (metered region.old meter.old number.old) result
    ///     (metered region.new meter.new number.new)
    /// ```
    #[unsafe(no_mangle)]
    pub unsafe extern "C" fn wasmi_table_copy_within(
        table: &TableNumbers,
        region: *mut u32,
        region_len: usize,
        range: &Range,
        meter: &mut MeterNumbers,
        number: &mut u64,
    ) -> u8 {
        let region = unsafe { crate::memory::items_mut(region, region_len) };

        on_table::copy_within(table, region, range, meter, number)
    }

    /// # Contract
    ///
    /// ```text
    /// ensures: WritesTableEmbedded (λ ty. copy_of range.now.to range.now.from range.now.count
    ///     (table_in ty region.old table.now.size))
    ///     table.now (metered region.old meter.old number.old) result
    ///     (metered region.new meter.new number.new)
    /// ```
    #[unsafe(no_mangle)]
    pub unsafe extern "C" fn wasmi_table_copy(
        table: &TableNumbers,
        region: *mut u32,
        region_len: usize,
        range: &Range,
        meter: &mut MeterNumbers,
        number: &mut u64,
    ) -> u8 {
        let region = unsafe { crate::memory::items_mut(region, region_len) };

        on_table::copy_within(table, region, range, meter, number)
    }

    /// # Contract
    ///
    /// ```text
    /// ensures: CopiesEmbedded (placed source.now source_region.now) range.now table.now
    ///     (metered region.old meter.old number.old) result (metered region.new meter.new number.new)
    /// ```
    #[unsafe(no_mangle)]
    pub unsafe extern "C" fn wasmi_table_copy_from(
        table: &TableNumbers,
        region: *mut u32,
        region_len: usize,
        source: &TableNumbers,
        source_region: *const u32,
        source_region_len: usize,
        range: &Range,
        meter: &mut MeterNumbers,
        number: &mut u64,
    ) -> u8 {
        let region = unsafe { crate::memory::items_mut(region, region_len) };
        let source_region = unsafe { crate::memory::items(source_region, source_region_len) };

        on_table::copy(table, region, source, source_region, range, meter, number)
    }

    /// # Contract
    ///
    /// ```text
    /// ensures: WritesTableEmbedded (λ ty. initialization_of range.now.to range.now.from
    ///     range.now.count (items_of ty items.now))
    ///     table.now (metered region.old meter.old number.old) result
    ///     (metered region.new meter.new number.new)
    /// ```
    #[unsafe(no_mangle)]
    pub unsafe extern "C" fn wasmi_table_init(
        table: &TableNumbers,
        region: *mut u32,
        region_len: usize,
        items: *const u32,
        items_len: usize,
        range: &Range,
        meter: &mut MeterNumbers,
        number: &mut u64,
    ) -> u8 {
        let region = unsafe { crate::memory::items_mut(region, region_len) };
        let items = unsafe { crate::memory::items(items, items_len) };

        on_table::init(table, region, items, range, meter, number)
    }
}
mod vector_loads {
    //! The loads of vectors by name, each described at the function of its name in
    //! `wasmi_vector_access::simd`. `tools/header` writes this file.
    //!
    //! A status is 0, or the number of the trap; then nothing is written.

    use crate::generated::c::instruction::result::leave_vector;
    use crate::proved::raw::RawVal;
    use crate::proved::vector_access::simd;

    /// # Contract
    ///
    /// ```text
    /// ensures: Gives (as_raw raw_of_vector (loaded 16 (λ n. n) memory.now (ptr + offset))) value.old
    ///     value.new result
    /// ```
    #[unsafe(no_mangle)]
    pub unsafe extern "C" fn wasmi_v128_load(
        memory: *const u8,
        memory_len: usize,
        ptr: u64,
        offset: u64,
        value: &mut RawVal,
    ) -> u8 {
        let memory = unsafe { crate::memory::items(memory, memory_len) };

        leave_vector(simd::v128_load(memory, ptr, offset), value)
    }

    /// # Contract
    ///
    /// ```text
    /// ensures: Gives (as_raw raw_of_vector (loaded 8 (vector.widen_s w8 w16) memory.now (ptr +
    ///     offset))) value.old value.new result
    /// ```
    #[unsafe(no_mangle)]
    pub unsafe extern "C" fn wasmi_v128_load8x8_s(
        memory: *const u8,
        memory_len: usize,
        ptr: u64,
        offset: u64,
        value: &mut RawVal,
    ) -> u8 {
        let memory = unsafe { crate::memory::items(memory, memory_len) };

        leave_vector(simd::v128_load8x8_s(memory, ptr, offset), value)
    }

    /// # Contract
    ///
    /// ```text
    /// ensures: Gives (as_raw raw_of_vector (loaded 8 (vector.widen_u w8 w16) memory.now (ptr +
    ///     offset))) value.old value.new result
    /// ```
    #[unsafe(no_mangle)]
    pub unsafe extern "C" fn wasmi_v128_load8x8_u(
        memory: *const u8,
        memory_len: usize,
        ptr: u64,
        offset: u64,
        value: &mut RawVal,
    ) -> u8 {
        let memory = unsafe { crate::memory::items(memory, memory_len) };

        leave_vector(simd::v128_load8x8_u(memory, ptr, offset), value)
    }

    /// # Contract
    ///
    /// ```text
    /// ensures: Gives (as_raw raw_of_vector (loaded 8 (vector.widen_s w16 w32) memory.now (ptr +
    ///     offset))) value.old value.new result
    /// ```
    #[unsafe(no_mangle)]
    pub unsafe extern "C" fn wasmi_v128_load16x4_s(
        memory: *const u8,
        memory_len: usize,
        ptr: u64,
        offset: u64,
        value: &mut RawVal,
    ) -> u8 {
        let memory = unsafe { crate::memory::items(memory, memory_len) };

        leave_vector(simd::v128_load16x4_s(memory, ptr, offset), value)
    }

    /// # Contract
    ///
    /// ```text
    /// ensures: Gives (as_raw raw_of_vector (loaded 8 (vector.widen_u w16 w32) memory.now (ptr +
    ///     offset))) value.old value.new result
    /// ```
    #[unsafe(no_mangle)]
    pub unsafe extern "C" fn wasmi_v128_load16x4_u(
        memory: *const u8,
        memory_len: usize,
        ptr: u64,
        offset: u64,
        value: &mut RawVal,
    ) -> u8 {
        let memory = unsafe { crate::memory::items(memory, memory_len) };

        leave_vector(simd::v128_load16x4_u(memory, ptr, offset), value)
    }

    /// # Contract
    ///
    /// ```text
    /// ensures: Gives (as_raw raw_of_vector (loaded 8 (vector.widen_s w32 w64) memory.now (ptr +
    ///     offset))) value.old value.new result
    /// ```
    #[unsafe(no_mangle)]
    pub unsafe extern "C" fn wasmi_v128_load32x2_s(
        memory: *const u8,
        memory_len: usize,
        ptr: u64,
        offset: u64,
        value: &mut RawVal,
    ) -> u8 {
        let memory = unsafe { crate::memory::items(memory, memory_len) };

        leave_vector(simd::v128_load32x2_s(memory, ptr, offset), value)
    }

    /// # Contract
    ///
    /// ```text
    /// ensures: Gives (as_raw raw_of_vector (loaded 8 (vector.widen_u w32 w64) memory.now (ptr +
    ///     offset))) value.old value.new result
    /// ```
    #[unsafe(no_mangle)]
    pub unsafe extern "C" fn wasmi_v128_load32x2_u(
        memory: *const u8,
        memory_len: usize,
        ptr: u64,
        offset: u64,
        value: &mut RawVal,
    ) -> u8 {
        let memory = unsafe { crate::memory::items(memory, memory_len) };

        leave_vector(simd::v128_load32x2_u(memory, ptr, offset), value)
    }

    /// # Contract
    ///
    /// ```text
    /// ensures: Gives (as_raw raw_of_vector (loaded 1 (splat_of w8) memory.now (ptr + offset)))
    ///     value.old value.new result
    /// ```
    #[unsafe(no_mangle)]
    pub unsafe extern "C" fn wasmi_v128_load8_splat(
        memory: *const u8,
        memory_len: usize,
        ptr: u64,
        offset: u64,
        value: &mut RawVal,
    ) -> u8 {
        let memory = unsafe { crate::memory::items(memory, memory_len) };

        leave_vector(simd::v128_load8_splat(memory, ptr, offset), value)
    }

    /// # Contract
    ///
    /// ```text
    /// ensures: Gives (as_raw raw_of_vector (loaded 2 (splat_of w16) memory.now (ptr + offset)))
    ///     value.old value.new result
    /// ```
    #[unsafe(no_mangle)]
    pub unsafe extern "C" fn wasmi_v128_load16_splat(
        memory: *const u8,
        memory_len: usize,
        ptr: u64,
        offset: u64,
        value: &mut RawVal,
    ) -> u8 {
        let memory = unsafe { crate::memory::items(memory, memory_len) };

        leave_vector(simd::v128_load16_splat(memory, ptr, offset), value)
    }

    /// # Contract
    ///
    /// ```text
    /// ensures: Gives (as_raw raw_of_vector (loaded 4 (splat_of w32) memory.now (ptr + offset)))
    ///     value.old value.new result
    /// ```
    #[unsafe(no_mangle)]
    pub unsafe extern "C" fn wasmi_v128_load32_splat(
        memory: *const u8,
        memory_len: usize,
        ptr: u64,
        offset: u64,
        value: &mut RawVal,
    ) -> u8 {
        let memory = unsafe { crate::memory::items(memory, memory_len) };

        leave_vector(simd::v128_load32_splat(memory, ptr, offset), value)
    }

    /// # Contract
    ///
    /// ```text
    /// ensures: Gives (as_raw raw_of_vector (loaded 8 (splat_of w64) memory.now (ptr + offset)))
    ///     value.old value.new result
    /// ```
    #[unsafe(no_mangle)]
    pub unsafe extern "C" fn wasmi_v128_load64_splat(
        memory: *const u8,
        memory_len: usize,
        ptr: u64,
        offset: u64,
        value: &mut RawVal,
    ) -> u8 {
        let memory = unsafe { crate::memory::items(memory, memory_len) };

        leave_vector(simd::v128_load64_splat(memory, ptr, offset), value)
    }

    /// # Contract
    ///
    /// ```text
    /// ensures: Gives (as_raw raw_of_vector (loaded 4 (vector.low_zero w32) memory.now (ptr +
    ///     offset))) value.old value.new result
    /// ```
    #[unsafe(no_mangle)]
    pub unsafe extern "C" fn wasmi_v128_load32_zero(
        memory: *const u8,
        memory_len: usize,
        ptr: u64,
        offset: u64,
        value: &mut RawVal,
    ) -> u8 {
        let memory = unsafe { crate::memory::items(memory, memory_len) };

        leave_vector(simd::v128_load32_zero(memory, ptr, offset), value)
    }

    /// # Contract
    ///
    /// ```text
    /// ensures: Gives (as_raw raw_of_vector (loaded 8 (vector.low_zero w64) memory.now (ptr +
    ///     offset))) value.old value.new result
    /// ```
    #[unsafe(no_mangle)]
    pub unsafe extern "C" fn wasmi_v128_load64_zero(
        memory: *const u8,
        memory_len: usize,
        ptr: u64,
        offset: u64,
        value: &mut RawVal,
    ) -> u8 {
        let memory = unsafe { crate::memory::items(memory, memory_len) };

        leave_vector(simd::v128_load64_zero(memory, ptr, offset), value)
    }
}
