//! What the types of the API pass on to proved items, the re-exports of instructions, and the docs of both.
macro_rules! docs {
    (lanewise i16x8_extract_lane_s) => { r####"One lane, read signed.

# Contract

```text
ensures: result ≡ vector.extract_lane_s w16 v lane
```

Definitions: [`extract_lane_s`](crate::specs::lanewise::VectorTableSpecs#extract_lane_s).
"#### };
    (lanewise i16x8_extract_lane_u) => { r####"One lane, read unsigned.

# Contract

```text
ensures: result ≡ vector.extract_lane_u w16 v lane
```

Definitions: [`extract_lane_u`](crate::specs::lanewise::VectorTableSpecs#extract_lane_u).
"#### };
    (lanewise i16x8_replace_lane) => { r####"`v` with the item in one lane.

# Contract

```text
ensures: result ≡ vector.replace_lane w16 v lane item
```

Definitions: [`replace_lane`](crate::specs::lanewise::VectorTableSpecs#replace_lane).
"#### };
    (lanewise i32x4_extract_lane) => { r####"One lane, read signed.

# Contract

```text
ensures: result ≡ vector.extract_lane_s w32 v lane
```

Definitions: [`extract_lane_s`](crate::specs::lanewise::VectorTableSpecs#extract_lane_s).
"#### };
    (lanewise i32x4_replace_lane) => { r####"`v` with the item in one lane.

# Contract

```text
ensures: result ≡ vector.replace_lane w32 v lane item
```

Definitions: [`replace_lane`](crate::specs::lanewise::VectorTableSpecs#replace_lane).
"#### };
    (lanewise i64x2_extract_lane) => { r####"One lane, read signed.

# Contract

```text
ensures: result ≡ vector.extract_lane_s w64 v lane
```

Definitions: [`extract_lane_s`](crate::specs::lanewise::VectorTableSpecs#extract_lane_s).
"#### };
    (lanewise i64x2_replace_lane) => { r####"`v` with the item in one lane.

# Contract

```text
ensures: result ≡ vector.replace_lane w64 v lane item
```

Definitions: [`replace_lane`](crate::specs::lanewise::VectorTableSpecs#replace_lane).
"#### };
    (lanewise i8x16_extract_lane_s) => { r####"One lane, read signed.

# Contract

```text
ensures: result ≡ vector.extract_lane_s w8 v lane
```

Definitions: [`extract_lane_s`](crate::specs::lanewise::VectorTableSpecs#extract_lane_s).
"#### };
    (lanewise i8x16_extract_lane_u) => { r####"One lane, read unsigned.

# Contract

```text
ensures: result ≡ vector.extract_lane_u w8 v lane
```

Definitions: [`extract_lane_u`](crate::specs::lanewise::VectorTableSpecs#extract_lane_u).
"#### };
    (lanewise i8x16_replace_lane) => { r####"`v` with the item in one lane.

# Contract

```text
ensures: result ≡ vector.replace_lane w8 v lane item
```

Definitions: [`replace_lane`](crate::specs::lanewise::VectorTableSpecs#replace_lane).
"#### };
    (lanewise i8x16_shuffle) => { r####"Lane i is lane `s[i]` of `a`, or lane `s[i] - 16` of `b` where `s[i]` is above 15.

# Contract

```text
ensures: result ≡ vector.shuffle a b s
```

Definitions: [`shuffle`](crate::specs::lanewise::VectorTableSpecs#shuffle).
"#### };
    (meter ResourceLimiter.memory_grow_failed) => { r####"A permitted growth of a memory failed by this error, which the call returns after `Ok(())`.

# Errors

An implementation's own. The call then returns `ResourceLimiterDeniedAllocation`.

# Contract

```text
ensures: rules.noticed self.old (MemoryFailure error.now) result self.new
```

Definitions: [`MemoryFailure`](crate::specs::meter::LimiterSpecs#MemoryFailure).
"#### };
    (meter ResourceLimiter.memory_growing) => { r####"May a memory grow from `current` to `desired` bytes? `maximum`, in bytes, is the most that
its type allows. `Ok(true)` permits; `Ok(false)` and `Err` deny.

# Errors

An implementation's own. The call then returns `ResourceLimiterDeniedAllocation`.

# Contract

```text
requires grows: current ≤ desired
ensures asked: rules.asked self.old
    (record { kind = Bytes; current = current; desired = desired; maximum = maximum })
    result self.new
```
"#### };
    (meter ResourceLimiter.table_grow_failed) => { r####"A permitted growth of a table failed by this error, which the call returns after `Ok(())`.

# Errors

An implementation's own. The call then returns `ResourceLimiterDeniedAllocation`.

# Contract

```text
ensures: rules.noticed self.old (TableFailure error.now) result self.new
```

Definitions: [`TableFailure`](crate::specs::meter::LimiterSpecs#TableFailure).
"#### };
    (meter ResourceLimiter.table_growing) => { r####"May a table grow from `current` to `desired` elements? `maximum` is the most that its type
allows. `Ok(true)` permits; `Ok(false)` and `Err` deny.

# Errors

An implementation's own. The call then returns `ResourceLimiterDeniedAllocation`.

# Contract

```text
requires grows: current ≤ desired
ensures asked: rules.asked self.old
    (record { kind = Elements; current = current; desired = desired; maximum = maximum })
    result self.new
```
"#### };
    (store ElementSegment.as_ref) => { r####"A shared reference to the segment.

# Contract

```text
ensures: segment_of result ≡ self.now
```

Definitions: [`segment_of`](crate::specs::store::SegmentSpecs#segment_of).
"#### };
    (store ElementSegment.contract) => { r####"# Model

```text
Value = SegmentValue
view = λ segment. record { ty = segment.ty; items = segment.items.items }
invariant = λ segment. IsKept segment.items.items (vec_capacity segment.items)
```

Definitions: [`SegmentValue`](crate::specs::store::SegmentSpecs#SegmentValue), [`IsKept`](crate::specs::store::SegmentSpecs#IsKept).
"#### };
    (store ElementSegment.drop_items) => { r####"Drops the items and gives their memory back. The type stays.

# Contract

```text
ensures: self.new ≡ dropped self.old
```

Definitions: [`dropped`](crate::specs::store::SegmentSpecs#dropped).
"#### };
    (store ElementSegment.items) => { r####"The items.

# Contract

```text
ensures: result.now ≡ self.now.items
```
"#### };
    (store ElementSegment.size) => { r####"The number of items.

# Contract

```text
ensures: result ≡ length self.now.items
```
"#### };
    (store ElementSegment.ty) => { r####"The type of the items.

# Contract

```text
ensures: result ≡ self.now.ty
```
"#### };
    (store LinearMemory.contract) => { r####"# Model

```text
Value = MemoryValue
view = λ m. memory_of m.ty m.buffer
invariant = λ m. IsSized m.ty (length m.buffer.bytes)
```

Definitions: [`MemoryValue`](crate::specs::store::MemorySpecs#MemoryValue), [`memory_of`](crate::specs::store::MemorySpecs#memory_of), [`IsSized`](crate::specs::store::MemorySpecs#IsSized).
"#### };
    (store LinearMemory.copy) => { r####"Copies `len` bytes of another memory, from `src` on, over those of a memory from `dst` on.
Core specification, memory.copy of two memories.

# Errors

In the order of the tests: [`OutOfBoundsAccess`](crate::MemoryError::OutOfBoundsAccess) if a range ends past its memory or segment; [`OutOfFuel`](crate::MemoryError::OutOfFuel), which is tested also if no byte is written. Then no byte is written, and no fuel taken.

# Contract

```text
ensures: WritesMemoryRange (byte_copy_of dst src len src_memory.now.bytes)
    (metered dst_memory.old (at_entry fuel.entry)) result
    (metered dst_memory.new (at_exit fuel.exit))
```

Definitions: [`WritesMemoryRange`](crate::specs::store::MemorySpecs#WritesMemoryRange), [`byte_copy_of`](crate::specs::store::MemorySpecs#byte_copy_of), [`metered`](crate::specs::store::GrowthSpecs#metered), [`at_entry`](crate::specs::meter::MeterSpecs#meter_at_entry), [`at_exit`](crate::specs::meter::MeterSpecs#meter_at_exit).
"#### };
    (store LinearMemory.copy_within) => { r####"Copies `len` bytes from `src` on over those from `dst` on: the old ones if they overlap.
Core specification, memory.copy within a memory.

# Errors

In the order of the tests: [`OutOfBoundsAccess`](crate::MemoryError::OutOfBoundsAccess) if a range ends past its memory or segment; [`OutOfFuel`](crate::MemoryError::OutOfFuel), which is tested also if no byte is written. Then no byte is written, and no fuel taken.

# Contract

```text
ensures: WritesMemoryRange (byte_copy_of dst src len self.old.bytes)
    (metered self.old (at_entry fuel.entry)) result (metered self.new (at_exit fuel.exit))
```

Definitions: [`WritesMemoryRange`](crate::specs::store::MemorySpecs#WritesMemoryRange), [`byte_copy_of`](crate::specs::store::MemorySpecs#byte_copy_of), [`metered`](crate::specs::store::GrowthSpecs#metered), [`at_entry`](crate::specs::meter::MeterSpecs#meter_at_entry), [`at_exit`](crate::specs::meter::MeterSpecs#meter_at_exit).
"#### };
    (store LinearMemory.data) => { r####"The bytes.

# Contract

```text
ensures: result.now ≡ self.now.bytes
```
"#### };
    (store LinearMemory.data_mut) => { r####"The bytes, which may be overwritten.

# Contract

```text
ensures* writes_back: sem 𝓛 (Lends (the_row R.row R.Region) (Array u8 0) self.entry result
    (λ ws. memory_of self.old.ty (with_bytes (buffer_of self.old) ws)))
ensures value: result.now ≡ self.old.bytes
```

Definitions: [`memory_of`](crate::specs::store::MemorySpecs#memory_of), [`with_bytes`](crate::specs::store::BufferSpecs#with_bytes), [`buffer_of`](crate::specs::store::MemorySpecs#buffer_of).

`R` is the type of what has the bytes, a [`Region`](crate::machine::Region#contract).
"#### };
    (store LinearMemory.data_size) => { r####"The size in bytes: whole pages, as many as its type allows.

# Contract

```text
ensures value: result ≡ length self.now.bytes
ensures sized: IsSized self.now.ty result
```

Definitions: [`IsSized`](crate::specs::store::MemorySpecs#IsSized).
"#### };
    (store LinearMemory.dynamic_ty) => { r####"The type that it was made with, with the present size as its minimum: a subtype of it.

# Contract

```text
ensures value: result ≡ dynamic_type self.now
ensures subtype: IsSubtype result self.now.ty
```

Definitions: [`dynamic_type`](crate::specs::store::MemorySpecs#dynamic_type), [`IsSubtype`](crate::specs::store::MemorySpecs#IsSubtype).
"#### };
    (store LinearMemory.fill) => { r####"Fills `len` bytes from `dst` on with a value. It is charged as a table's `fill`, by bytes.
Core specification, memory.fill.

# Errors

In the order of the tests: [`OutOfBoundsAccess`](crate::MemoryError::OutOfBoundsAccess) if a range ends past its memory or segment; [`OutOfFuel`](crate::MemoryError::OutOfFuel), which is tested also if no byte is written. Then no byte is written, and no fuel taken.

# Contract

```text
ensures: WritesMemoryRange (byte_filling_of dst value len)
    (metered self.old (at_entry fuel.entry)) result (metered self.new (at_exit fuel.exit))
```

Definitions: [`WritesMemoryRange`](crate::specs::store::MemorySpecs#WritesMemoryRange), [`byte_filling_of`](crate::specs::store::MemorySpecs#byte_filling_of), [`metered`](crate::specs::store::GrowthSpecs#metered), [`at_entry`](crate::specs::meter::MeterSpecs#meter_at_entry), [`at_exit`](crate::specs::meter::MeterSpecs#meter_at_exit).
"#### };
    (store LinearMemory.grow) => { r####"Grows by `additional` pages of zeros, and returns the old size in pages. A growth by 0 pages
changes nothing and asks no limiter. Bytes of a borrowed buffer past the new size stay.

# Errors

In the order of the tests:

- [`OutOfBoundsGrowth`](crate::MemoryError::OutOfBoundsGrowth) above the greatest number of pages or the maximum, or at 2^64 bytes or
  more;
- [`OutOfBoundsGrowth`](crate::MemoryError::OutOfBoundsGrowth) if the limiter says no, [`ResourceLimiterDeniedAllocation`](crate::MemoryError::ResourceLimiterDeniedAllocation) if it
  returns an error;
- [`InvalidStaticBufferSize`](crate::MemoryError::InvalidStaticBufferSize) if a borrowed buffer is shorter than the new size, which charges
  nothing;
- [`OutOfFuel`](crate::MemoryError::OutOfFuel) if the meter is on and the added bytes cost more than is left;
- [`OutOfSystemMemory`](crate::MemoryError::OutOfSystemMemory), after which the fuel stays spent, and which doesn't occur on a
  borrowed buffer.

The limiter is notified of the last three, and if it returns an error, the error is
[`ResourceLimiterDeniedAllocation`](crate::MemoryError::ResourceLimiterDeniedAllocation) instead.

# Contract

```text
ensures loan: KeepsLoan limiter.old limiter.new
ensures grown: GrowsMemory (optional_rules L.rules) additional
    (metered_value self.old (at_entry fuel.entry) (lent_limiter limiter.old)) result
    (metered_value self.new (at_exit fuel.exit) (lent_limiter limiter.new))
```

Definitions: [`KeepsLoan`](crate::specs::meter::LimiterSpecs#KeepsLoan), [`GrowsMemory`](crate::specs::store::MemorySpecs#GrowsMemory), [`optional_rules`](crate::specs::meter::LimiterSpecs#optional_rules), [`metered_value`](crate::specs::store::GrowthSpecs#metered_value), [`at_entry`](crate::specs::meter::MeterSpecs#meter_at_entry), [`lent_limiter`](crate::specs::meter::LimiterSpecs#lent_limiter), [`at_exit`](crate::specs::meter::MeterSpecs#meter_at_exit).

`L` is the type of the limiter, a [`ResourceLimiter`](crate::machine::ResourceLimiter#contract).
"#### };
    (store LinearMemory.init) => { r####"Copies `len` bytes of a data segment, from `src` on, over the bytes from `dst` on. A segment
that was dropped has no bytes. Core specification, memory.init.

# Errors

In the order of the tests: [`OutOfBoundsAccess`](crate::MemoryError::OutOfBoundsAccess) if a range ends past its memory or segment; [`OutOfFuel`](crate::MemoryError::OutOfFuel), which is tested also if no byte is written. Then no byte is written, and no fuel taken.

# Contract

```text
ensures: WritesMemoryRange (byte_copy_of dst src len segment.now)
    (metered self.old (at_entry fuel.entry)) result (metered self.new (at_exit fuel.exit))
```

Definitions: [`WritesMemoryRange`](crate::specs::store::MemorySpecs#WritesMemoryRange), [`byte_copy_of`](crate::specs::store::MemorySpecs#byte_copy_of), [`metered`](crate::specs::store::GrowthSpecs#metered), [`at_entry`](crate::specs::meter::MeterSpecs#meter_at_entry), [`at_exit`](crate::specs::meter::MeterSpecs#meter_at_exit).
"#### };
    (store LinearMemory.new) => { r####"A memory of zeros, at the minimum of its type. It takes no fuel.

# Errors

In the order of the tests: [`MinimumSizeOverflow`](crate::MemoryError::MinimumSizeOverflow) if the minimum has 2^64 bytes or more; [`ResourceLimiterDeniedAllocation`](crate::MemoryError::ResourceLimiterDeniedAllocation) if the limiter doesn't permit it; [`OutOfSystemMemory`](crate::MemoryError::OutOfSystemMemory), of which the limiter is notified.

# Contract

```text
ensures loan: KeepsLoan limiter.old limiter.new
ensures made: MakesMemory (optional_rules L.rules) Owned ty
    (lent_limiter limiter.old) result (lent_limiter limiter.new)
```

Definitions: [`KeepsLoan`](crate::specs::meter::LimiterSpecs#KeepsLoan), [`MakesMemory`](crate::specs::store::MemorySpecs#MakesMemory), [`optional_rules`](crate::specs::meter::LimiterSpecs#optional_rules), [`Owned`](crate::specs::store::BufferSpecs#Owned), [`lent_limiter`](crate::specs::meter::LimiterSpecs#lent_limiter).

`L` is the type of the limiter, a [`ResourceLimiter`](crate::machine::ResourceLimiter#contract).
"#### };
    (store LinearMemory.new_static) => { r####"A memory of zeros at the front of a borrowed buffer, at the minimum of its type. It takes no
fuel and no memory, and the bytes past the minimum stay. After an error the loan has ended.

# Errors

In the order of the tests: [`MinimumSizeOverflow`](crate::MemoryError::MinimumSizeOverflow) if the minimum has 2^64 bytes or more; [`ResourceLimiterDeniedAllocation`](crate::MemoryError::ResourceLimiterDeniedAllocation) if the limiter doesn't permit it; [`InvalidStaticBufferSize`](crate::MemoryError::InvalidStaticBufferSize) if the region is shorter than the minimum, of which the limiter is notified. After an error the bytes of the region are unchanged.

# Contract

```text
ensures loan: KeepsLoan limiter.old limiter.new
ensures made: MakesMemory (optional_rules L.rules) (Lent region.entry.now) ty
    (lent_limiter limiter.old) result (lent_limiter limiter.new)
```

Definitions: [`KeepsLoan`](crate::specs::meter::LimiterSpecs#KeepsLoan), [`MakesMemory`](crate::specs::store::MemorySpecs#MakesMemory), [`optional_rules`](crate::specs::meter::LimiterSpecs#optional_rules), [`Lent`](crate::specs::store::BufferSpecs#Lent), [`lent_limiter`](crate::specs::meter::LimiterSpecs#lent_limiter).

`L` is the type of the limiter, a [`ResourceLimiter`](crate::machine::ResourceLimiter#contract).
"#### };
    (store LinearMemory.read) => { r####"Fills a buffer with the bytes from an offset on.

# Errors

[`OutOfBoundsAccess`](crate::MemoryError::OutOfBoundsAccess) if they end past the memory; then nothing is copied.

# Contract

```text
ensures ok: OnOk result (at self.now.bytes offset (length buffer.old) ≡ Some buffer.new)
ensures err: IfErr result (λ error. (error ≡ MemoryError.OutOfBoundsAccess)
    × (at self.now.bytes offset (length buffer.old) ≡ None) × (buffer.new ≡ buffer.old))
```

Definitions: [`at`](crate::specs::types::AccessSpecs#at).
"#### };
    (store LinearMemory.size) => { r####"The size in pages.

# Contract

```text
ensures value: result ≡ pages_of self.now
ensures within: in_bounds self.now.ty result ≡ true
```

Definitions: [`pages_of`](crate::specs::store::MemorySpecs#pages_of), [`in_bounds`](crate::specs::store::MemorySpecs#in_bounds).
"#### };
    (store LinearMemory.ty) => { r####"The type that it was made with.

# Contract

```text
ensures: result ≡ self.now.ty
```
"#### };
    (store LinearMemory.write) => { r####"Writes bytes over those from an offset on.

# Errors

[`OutOfBoundsAccess`](crate::MemoryError::OutOfBoundsAccess) if they would end past the memory; then nothing is written.

# Contract

```text
ensures: WritesMemory self.old offset buffer.now result self.new
```

Definitions: [`WritesMemory`](crate::specs::store::MemorySpecs#WritesMemory).
"#### };
    (store Table.contract) => { r####"# Model

```text
Value = TableValue
view = λ t. record { ty = t.ty; elements = t.elements.items; reserved = t.reserved }
invariant = λ t. IsSized t.ty (length t.elements.items)
    × (t.reserved ≤ vec_capacity t.elements)
```

Definitions: [`TableValue`](crate::specs::store::TableSpecs#TableValue), [`IsSized`](crate::specs::store::TableSpecs#IsSized).
"#### };
    (store Table.copy) => { r####"Copies `len` elements of another table, from `src` on, over those of a table from `dst` on.

# Errors

In the order of the tests: [`ElementTypeMismatch`](crate::TableError::ElementTypeMismatch) if the types differ; [`CopyOutOfBounds`](crate::TableError::CopyOutOfBounds) if a range ends past its table; [`OutOfFuel`](crate::TableError::OutOfFuel), which is tested also if no element is copied.

# Contract

```text
ensures: WritesTable (copy_of dst src len src_table.now)
    (metered dst_table.old (at_entry fuel.entry)) result
    (metered dst_table.new (at_exit fuel.exit))
```

Definitions: [`WritesTable`](crate::specs::store::TableSpecs#WritesTable), [`copy_of`](crate::specs::store::TableSpecs#copy_of), [`metered`](crate::specs::store::GrowthSpecs#metered), [`at_entry`](crate::specs::meter::MeterSpecs#meter_at_entry), [`at_exit`](crate::specs::meter::MeterSpecs#meter_at_exit).
"#### };
    (store Table.copy_within) => { r####"Copies `len` elements from `src` on over those from `dst` on: the old ones if they overlap.

# Errors

In the order of the tests: [`CopyOutOfBounds`](crate::TableError::CopyOutOfBounds) if a range ends past the table; [`OutOfFuel`](crate::TableError::OutOfFuel), which is tested also if no element is copied.

# Contract

```text
ensures: WritesTable (copy_of dst src len self.old)
    (metered self.old (at_entry fuel.entry)) result (metered self.new (at_exit fuel.exit))
```

Definitions: [`WritesTable`](crate::specs::store::TableSpecs#WritesTable), [`copy_of`](crate::specs::store::TableSpecs#copy_of), [`metered`](crate::specs::store::GrowthSpecs#metered), [`at_entry`](crate::specs::meter::MeterSpecs#meter_at_entry), [`at_exit`](crate::specs::meter::MeterSpecs#meter_at_exit).
"#### };
    (store Table.dynamic_ty) => { r####"The type that it was made with, with the present size as its minimum: a subtype of it.

# Contract

```text
ensures value: result ≡ dynamic_type self.now
ensures subtype: IsSubtype result self.now.ty
```

Definitions: [`dynamic_type`](crate::specs::store::TableSpecs#dynamic_type), [`IsSubtype`](crate::specs::store::TableSpecs#IsSubtype).
"#### };
    (store Table.fill) => { r####"Fills `len` elements from `dst` on with a reference.

# Errors

[`ElementTypeMismatch`](crate::TableError::ElementTypeMismatch) if the reference is of another type; then those of `fill_raw`.

# Contract

```text
ensures: WritesTable (filling_of dst val len)
    (metered self.old (at_entry fuel.entry)) result (metered self.new (at_exit fuel.exit))
```

Definitions: [`WritesTable`](crate::specs::store::TableSpecs#WritesTable), [`filling_of`](crate::specs::store::TableSpecs#filling_of), [`metered`](crate::specs::store::GrowthSpecs#metered), [`at_entry`](crate::specs::meter::MeterSpecs#meter_at_entry), [`at_exit`](crate::specs::meter::MeterSpecs#meter_at_exit).
"#### };
    (store Table.fill_raw) => { r####"Fills `len` elements from `dst` on with a reference.

# Errors

In the order of the tests: [`FillOutOfBounds`](crate::TableError::FillOutOfBounds) if they end past the table; [`OutOfFuel`](crate::TableError::OutOfFuel), which is tested also if no element is filled.

# Contract

```text
ensures: WritesTable (raw_filling_of dst val len)
    (metered self.old (at_entry fuel.entry)) result (metered self.new (at_exit fuel.exit))
```

Definitions: [`WritesTable`](crate::specs::store::TableSpecs#WritesTable), [`raw_filling_of`](crate::specs::store::TableSpecs#raw_filling_of), [`metered`](crate::specs::store::GrowthSpecs#metered), [`at_entry`](crate::specs::meter::MeterSpecs#meter_at_entry), [`at_exit`](crate::specs::meter::MeterSpecs#meter_at_exit).
"#### };
    (store Table.get) => { r####"The element at an index with its type, or `None` past the end.

# Contract

```text
ensures: result ≡ element_at self.now index
```

Definitions: [`element_at`](crate::specs::store::TableSpecs#element_at).
"#### };
    (store Table.grow) => { r####"Grows by `delta` elements, each the given reference, and returns the old size.

# Errors

[`ElementTypeMismatch`](crate::TableError::ElementTypeMismatch) if the type differs, also in a growth by 0; then those of `grow_raw`.

# Contract

```text
ensures loan: KeepsLoan limiter.old limiter.new
ensures grown: GrowsTable (optional_rules L.rules) delta init
    (metered_value self.old (at_entry fuel.entry) (lent_limiter limiter.old)) result
    (metered_value self.new (at_exit fuel.exit) (lent_limiter limiter.new))
```

Definitions: [`KeepsLoan`](crate::specs::meter::LimiterSpecs#KeepsLoan), [`GrowsTable`](crate::specs::store::TableSpecs#GrowsTable), [`optional_rules`](crate::specs::meter::LimiterSpecs#optional_rules), [`metered_value`](crate::specs::store::GrowthSpecs#metered_value), [`at_entry`](crate::specs::meter::MeterSpecs#meter_at_entry), [`lent_limiter`](crate::specs::meter::LimiterSpecs#lent_limiter), [`at_exit`](crate::specs::meter::MeterSpecs#meter_at_exit).

`L` is the type of the limiter, a [`ResourceLimiter`](crate::machine::ResourceLimiter#contract).
"#### };
    (store Table.grow_raw) => { r####"Grows by `delta` elements, each the given reference, and returns the old size. A growth by 0
changes nothing and asks no limiter.

# Errors

In the order of the tests:

- [`GrowOutOfBounds`](crate::TableError::GrowOutOfBounds) if there would be as many elements as indices, 2^32 or 2^64;
- [`GrowOutOfBounds`](crate::TableError::GrowOutOfBounds) if the limiter says no, [`ResourceLimiterDeniedAllocation`](crate::TableError::ResourceLimiterDeniedAllocation) if it returns
  an error;
- [`GrowOutOfBounds`](crate::TableError::GrowOutOfBounds) above the maximum;
- [`OutOfFuel`](crate::TableError::OutOfFuel) if the meter is on and the new elements cost more than is left;
- [`OutOfSystemMemory`](crate::TableError::OutOfSystemMemory), after which the fuel stays spent.

The limiter is notified of the last three, and if it returns an error, the error is
[`ResourceLimiterDeniedAllocation`](crate::TableError::ResourceLimiterDeniedAllocation) instead.

# Contract

```text
ensures loan: KeepsLoan limiter.old limiter.new
ensures grown: GrowsTableRaw (optional_rules L.rules) delta init
    (metered_value self.old (at_entry fuel.entry) (lent_limiter limiter.old)) result
    (metered_value self.new (at_exit fuel.exit) (lent_limiter limiter.new))
```

Definitions: [`KeepsLoan`](crate::specs::meter::LimiterSpecs#KeepsLoan), [`GrowsTableRaw`](crate::specs::store::TableSpecs#GrowsTableRaw), [`optional_rules`](crate::specs::meter::LimiterSpecs#optional_rules), [`metered_value`](crate::specs::store::GrowthSpecs#metered_value), [`at_entry`](crate::specs::meter::MeterSpecs#meter_at_entry), [`lent_limiter`](crate::specs::meter::LimiterSpecs#lent_limiter), [`at_exit`](crate::specs::meter::MeterSpecs#meter_at_exit).

`L` is the type of the limiter, a [`ResourceLimiter`](crate::machine::ResourceLimiter#contract).
"#### };
    (store Table.init) => { r####"Copies `len` items of an element segment, from `src` on, over the elements from `dst` on.
Copying no items costs no fuel.

# Errors

In the order of the tests: [`ElementTypeMismatch`](crate::TableError::ElementTypeMismatch) if the items are of another type; [`InitOutOfBounds`](crate::TableError::InitOutOfBounds) if a range ends past the segment or the table; [`OutOfFuel`](crate::TableError::OutOfFuel).

# Contract

```text
ensures: WritesTable (initialization_of dst src len (segment_of element.entry))
    (metered self.old (at_entry fuel.entry)) result (metered self.new (at_exit fuel.exit))
```

Definitions: [`WritesTable`](crate::specs::store::TableSpecs#WritesTable), [`initialization_of`](crate::specs::store::TableSpecs#initialization_of), [`segment_of`](crate::specs::store::SegmentSpecs#segment_of), [`metered`](crate::specs::store::GrowthSpecs#metered), [`at_entry`](crate::specs::meter::MeterSpecs#meter_at_entry), [`at_exit`](crate::specs::meter::MeterSpecs#meter_at_exit).
"#### };
    (store Table.new) => { r####"A table of one reference, at the minimum of its type. It takes no fuel.

# Errors

In the order of the tests: [`ElementTypeMismatch`](crate::TableError::ElementTypeMismatch) if the reference is of another type; [`MinimumSizeOverflow`](crate::TableError::MinimumSizeOverflow) if `usize` has 32 bits and the minimum more; [`ResourceLimiterDeniedAllocation`](crate::TableError::ResourceLimiterDeniedAllocation) if the limiter doesn't permit it; [`OutOfSystemMemory`](crate::TableError::OutOfSystemMemory), of which the limiter is notified.

# Contract

```text
ensures loan: KeepsLoan limiter.old limiter.new
ensures made: MakesTable (optional_rules L.rules) ty init (lent_limiter limiter.old) result
    (lent_limiter limiter.new)
```

Definitions: [`KeepsLoan`](crate::specs::meter::LimiterSpecs#KeepsLoan), [`MakesTable`](crate::specs::store::TableSpecs#MakesTable), [`optional_rules`](crate::specs::meter::LimiterSpecs#optional_rules), [`lent_limiter`](crate::specs::meter::LimiterSpecs#lent_limiter).

`L` is the type of the limiter, a [`ResourceLimiter`](crate::machine::ResourceLimiter#contract).
"#### };
    (store Table.set) => { r####"Sets the element at an index.

# Errors

In the order of the tests: [`ElementTypeMismatch`](crate::TableError::ElementTypeMismatch) if the reference is of another type; [`SetOutOfBounds`](crate::TableError::SetOutOfBounds) past the end.

# Contract

```text
ensures: SetsTable index value self.old result self.new
```

Definitions: [`SetsTable`](crate::specs::store::TableSpecs#SetsTable).
"#### };
    (store Table.set_raw) => { r####"Sets the element at an index. The reference's type isn't tested: that is up to the caller.

# Errors

[`SetOutOfBounds`](crate::TableError::SetOutOfBounds) past the end.

# Contract

```text
ensures: SetsTableRaw index value self.old result self.new
```

Definitions: [`SetsTableRaw`](crate::specs::store::TableSpecs#SetsTableRaw).
"#### };
    (store Table.size) => { r####"The size in elements: as many as its type allows.

# Contract

```text
ensures value: result ≡ size_of self.now
ensures sized: IsSized self.now.ty result
```

Definitions: [`size_of`](crate::specs::store::TableSpecs#size_of), [`IsSized`](crate::specs::store::TableSpecs#IsSized).
"#### };
    (store Table.ty) => { r####"The type that it was made with.

# Contract

```text
ensures: result ≡ self.now.ty
```
"#### };
    (typed IntoShiftAmount.into_shift_amount.contract) => { r####"# Contract

```text
ensures: result ≡ shift_amount (bits Self.Lane.width) (Self.ShiftSource.number source)
```

Definitions: [`shift_amount`](crate::specs::typed::TypedSpecs#shift_amount).
"#### };
    (types FuncType.contract) => { r####"# Model

```text
Value = FunctionType
view = λ ty. function_type_of ty.len_params ty.len_results ty.kept
invariant = λ ty. IsKept ty.len_params ty.len_results ty.kept
```

Definitions: [`FunctionType`](crate::specs::types::FunctionTypeSpecs#FunctionType), [`function_type_of`](crate::specs::types::FunctionTypeSpecs#function_type_of), [`IsKept`](crate::specs::types::FunctionTypeSpecs#IsKept).
"#### };
    (types FuncType.len_params) => { r####"How many parameters there are.

# Contract

```text
ensures: result ≡ length self.now.params
```
"#### };
    (types FuncType.len_results) => { r####"How many results there are.

# Contract

```text
ensures: result ≡ length self.now.results
```
"#### };
    (types FuncType.new.contract) => { r####"# Contract

```text
requires params: EachBecomes P.into_iter_gives params P.IntoIter.can_next
requires results: EachBecomes P.into_iter_gives params
    (λ first. EachBecomes R.into_iter_gives results
    (λ second. AfterAll P.IntoIter.next_gives first (R.IntoIter.can_next second)))
ensures reading: IsReadingOf P.into_iter_gives P.IntoIter.next_gives R.into_iter_gives
    R.IntoIter.next_gives params results result
```

Definitions: [`EachBecomes`](crate::specs::types::ReadingSpecs#EachBecomes), [`AfterAll`](crate::specs::types::ReadingSpecs#AfterAll), [`IsReadingOf`](crate::specs::types::ReadingSpecs#IsReadingOf).

`P` is the type of the items, an [`IntoIterator`]. `R` is the type of the items, an [`IntoIterator`].
"#### };
    (types FuncType.params) => { r####"The types of the parameters.

# Contract

```text
ensures: result.now ≡ self.now.params
```
"#### };
    (types FuncType.params_results) => { r####"The types of the parameters, and those of the results.

# Contract

```text
ensures params: result.0.now ≡ self.now.params
ensures results: result.1.now ≡ self.now.results
```
"#### };
    (types FuncType.results) => { r####"The types of the results.

# Contract

```text
ensures: result.now ≡ self.now.results
```
"#### };
    (types Trap.contract) => { r####"# Model

```text
Value = TrapReason H
view = λ trap. trap.reason
```

`H` is any type.
"#### };
    (types Trap.downcast.contract) => { r####"# Contract

```text
ensures: result ≡ host_error_of self
```

Definitions: [`host_error_of`](crate::specs::types::TrapSpecs#host_error_of).
"#### };
    (types Trap.downcast_mut.contract) => { r####"# Contract

```text
ensures* writes_back: sem 𝓛 (LendsIf (the_row H.row) H.row self.entry result
    (with_host_error self.old) self.old)
ensures value: option_copied_mut result ≡ host_error_of self.old
```

Definitions: [`with_host_error`](crate::specs::types::TrapSpecs#with_host_error), [`host_error_of`](crate::specs::types::TrapSpecs#host_error_of).

`H` is the type of the host's error.
"#### };
    (types Trap.downcast_ref.contract) => { r####"# Contract

```text
ensures: option_copied result ≡ host_error_of self.now
```

Definitions: [`host_error_of`](crate::specs::types::TrapSpecs#host_error_of).
"#### };
    (types Trap.i32_exit) => { r####"An exit of the program with a status.

# Contract

```text
ensures: result ≡ reason.I32Exit status
```
"#### };
    (types Trap.i32_exit_status) => { r####"The exit status, if this is an exit.

# Contract

```text
ensures: result ≡ exit_status_of self.now
```

Definitions: [`exit_status_of`](crate::specs::types::TrapSpecs#exit_status_of).
"#### };
    (types Trap.new) => { r####"A trap that a message describes.

# Contract

```text
ensures: result ≡ reason.Message message
```
"#### };
    (types Trap.trap_code) => { r####"The trap code, if an instruction trapped.

# Contract

```text
ensures: result ≡ code_of self.now
```

Definitions: [`code_of`](crate::specs::types::TrapSpecs#code_of).
"#### };
    (vector_access v128_load16_lane) => { r####"`v128.load16_lane`: `v` with 16 bits in one lane.

# Errors

[`MemoryOutOfBounds`](crate::TrapCode::MemoryOutOfBounds) if the bytes end past the memory.

# Contract

```text
ensures: result ≡ loaded 2 (with_lane w16 v lane) memory.now (ptr + offset)
```

Definitions: [`loaded`](crate::specs::accesses::LoadStoreSpecs#loaded), [`with_lane`](crate::specs::lanes::VectorSpecs#with_lane).
"#### };
    (vector_access v128_load16_lane_at) => { r####"`v128.load16_lane` at an address.

# Errors

[`MemoryOutOfBounds`](crate::TrapCode::MemoryOutOfBounds) if the bytes end past the memory.

# Contract

```text
ensures: result ≡ loaded 2 (with_lane w16 v lane) memory.now address
```

Definitions: [`loaded`](crate::specs::accesses::LoadStoreSpecs#loaded), [`with_lane`](crate::specs::lanes::VectorSpecs#with_lane).
"#### };
    (vector_access v128_load32_lane) => { r####"`v128.load32_lane`: `v` with 32 bits in one lane.

# Errors

[`MemoryOutOfBounds`](crate::TrapCode::MemoryOutOfBounds) if the bytes end past the memory.

# Contract

```text
ensures: result ≡ loaded 4 (with_lane w32 v lane) memory.now (ptr + offset)
```

Definitions: [`loaded`](crate::specs::accesses::LoadStoreSpecs#loaded), [`with_lane`](crate::specs::lanes::VectorSpecs#with_lane).
"#### };
    (vector_access v128_load32_lane_at) => { r####"`v128.load32_lane` at an address.

# Errors

[`MemoryOutOfBounds`](crate::TrapCode::MemoryOutOfBounds) if the bytes end past the memory.

# Contract

```text
ensures: result ≡ loaded 4 (with_lane w32 v lane) memory.now address
```

Definitions: [`loaded`](crate::specs::accesses::LoadStoreSpecs#loaded), [`with_lane`](crate::specs::lanes::VectorSpecs#with_lane).
"#### };
    (vector_access v128_load64_lane) => { r####"`v128.load64_lane`: `v` with 64 bits in one lane.

# Errors

[`MemoryOutOfBounds`](crate::TrapCode::MemoryOutOfBounds) if the bytes end past the memory.

# Contract

```text
ensures: result ≡ loaded 8 (with_lane w64 v lane) memory.now (ptr + offset)
```

Definitions: [`loaded`](crate::specs::accesses::LoadStoreSpecs#loaded), [`with_lane`](crate::specs::lanes::VectorSpecs#with_lane).
"#### };
    (vector_access v128_load64_lane_at) => { r####"`v128.load64_lane` at an address.

# Errors

[`MemoryOutOfBounds`](crate::TrapCode::MemoryOutOfBounds) if the bytes end past the memory.

# Contract

```text
ensures: result ≡ loaded 8 (with_lane w64 v lane) memory.now address
```

Definitions: [`loaded`](crate::specs::accesses::LoadStoreSpecs#loaded), [`with_lane`](crate::specs::lanes::VectorSpecs#with_lane).
"#### };
    (vector_access v128_load8_lane) => { r####"`v128.load8_lane`: `v` with 8 bits in one lane.

# Errors

[`MemoryOutOfBounds`](crate::TrapCode::MemoryOutOfBounds) if the bytes end past the memory.

# Contract

```text
ensures: result ≡ loaded 1 (with_lane w8 v lane) memory.now (ptr + offset)
```

Definitions: [`loaded`](crate::specs::accesses::LoadStoreSpecs#loaded), [`with_lane`](crate::specs::lanes::VectorSpecs#with_lane).
"#### };
    (vector_access v128_load8_lane_at) => { r####"`v128.load8_lane` at an address.

# Errors

[`MemoryOutOfBounds`](crate::TrapCode::MemoryOutOfBounds) if the bytes end past the memory.

# Contract

```text
ensures: result ≡ loaded 1 (with_lane w8 v lane) memory.now address
```

Definitions: [`loaded`](crate::specs::accesses::LoadStoreSpecs#loaded), [`with_lane`](crate::specs::lanes::VectorSpecs#with_lane).
"#### };
    (vector_access v128_store16_lane) => { r####"`v128.store16_lane`: the 16 bits of one lane of `v`.

# Errors

[`MemoryOutOfBounds`](crate::TrapCode::MemoryOutOfBounds) if the bytes would end past the memory; then nothing is written.

# Contract

```text
ensures: IsStore memory.old (ptr + offset)
    (le_bytes 2 (lanes.lane w16 v lane)) memory.new result
```

Definitions: [`IsStore`](crate::specs::accesses::LoadStoreSpecs#IsStore), [`le_bytes`](crate::specs::types::NumbersSpecs#le_bytes), [`lane`](crate::specs::lanes::VectorSpecs#lane).
"#### };
    (vector_access v128_store16_lane_at) => { r####"`v128.store16_lane` at an address.

# Errors

[`MemoryOutOfBounds`](crate::TrapCode::MemoryOutOfBounds) if the bytes would end past the memory; then nothing is written.

# Contract

```text
ensures: IsStore memory.old address (le_bytes 2 (lanes.lane w16 v lane)) memory.new result
```

Definitions: [`IsStore`](crate::specs::accesses::LoadStoreSpecs#IsStore), [`le_bytes`](crate::specs::types::NumbersSpecs#le_bytes), [`lane`](crate::specs::lanes::VectorSpecs#lane).
"#### };
    (vector_access v128_store32_lane) => { r####"`v128.store32_lane`: the 32 bits of one lane of `v`.

# Errors

[`MemoryOutOfBounds`](crate::TrapCode::MemoryOutOfBounds) if the bytes would end past the memory; then nothing is written.

# Contract

```text
ensures: IsStore memory.old (ptr + offset)
    (le_bytes 4 (lanes.lane w32 v lane)) memory.new result
```

Definitions: [`IsStore`](crate::specs::accesses::LoadStoreSpecs#IsStore), [`le_bytes`](crate::specs::types::NumbersSpecs#le_bytes), [`lane`](crate::specs::lanes::VectorSpecs#lane).
"#### };
    (vector_access v128_store32_lane_at) => { r####"`v128.store32_lane` at an address.

# Errors

[`MemoryOutOfBounds`](crate::TrapCode::MemoryOutOfBounds) if the bytes would end past the memory; then nothing is written.

# Contract

```text
ensures: IsStore memory.old address (le_bytes 4 (lanes.lane w32 v lane)) memory.new result
```

Definitions: [`IsStore`](crate::specs::accesses::LoadStoreSpecs#IsStore), [`le_bytes`](crate::specs::types::NumbersSpecs#le_bytes), [`lane`](crate::specs::lanes::VectorSpecs#lane).
"#### };
    (vector_access v128_store64_lane) => { r####"`v128.store64_lane`: the 64 bits of one lane of `v`.

# Errors

[`MemoryOutOfBounds`](crate::TrapCode::MemoryOutOfBounds) if the bytes would end past the memory; then nothing is written.

# Contract

```text
ensures: IsStore memory.old (ptr + offset)
    (le_bytes 8 (lanes.lane w64 v lane)) memory.new result
```

Definitions: [`IsStore`](crate::specs::accesses::LoadStoreSpecs#IsStore), [`le_bytes`](crate::specs::types::NumbersSpecs#le_bytes), [`lane`](crate::specs::lanes::VectorSpecs#lane).
"#### };
    (vector_access v128_store64_lane_at) => { r####"`v128.store64_lane` at an address.

# Errors

[`MemoryOutOfBounds`](crate::TrapCode::MemoryOutOfBounds) if the bytes would end past the memory; then nothing is written.

# Contract

```text
ensures: IsStore memory.old address (le_bytes 8 (lanes.lane w64 v lane)) memory.new result
```

Definitions: [`IsStore`](crate::specs::accesses::LoadStoreSpecs#IsStore), [`le_bytes`](crate::specs::types::NumbersSpecs#le_bytes), [`lane`](crate::specs::lanes::VectorSpecs#lane).
"#### };
    (vector_access v128_store8_lane) => { r####"`v128.store8_lane`: the 8 bits of one lane of `v`.

# Errors

[`MemoryOutOfBounds`](crate::TrapCode::MemoryOutOfBounds) if the bytes would end past the memory; then nothing is written.

# Contract

```text
ensures: IsStore memory.old (ptr + offset)
    (le_bytes 1 (lanes.lane w8 v lane)) memory.new result
```

Definitions: [`IsStore`](crate::specs::accesses::LoadStoreSpecs#IsStore), [`le_bytes`](crate::specs::types::NumbersSpecs#le_bytes), [`lane`](crate::specs::lanes::VectorSpecs#lane).
"#### };
    (vector_access v128_store8_lane_at) => { r####"`v128.store8_lane` at an address.

# Errors

[`MemoryOutOfBounds`](crate::TrapCode::MemoryOutOfBounds) if the bytes would end past the memory; then nothing is written.

# Contract

```text
ensures: IsStore memory.old address (le_bytes 1 (lanes.lane w8 v lane)) memory.new result
```

Definitions: [`IsStore`](crate::specs::accesses::LoadStoreSpecs#IsStore), [`le_bytes`](crate::specs::types::NumbersSpecs#le_bytes), [`lane`](crate::specs::lanes::VectorSpecs#lane).
"#### };
}

/// Functions of a type that pass on to those of the proved one, `Proved`, which is its field `0`.
macro_rules! methods {
    (store LinearMemory: ..) => { methods! { store LinearMemory: new new_static ty dynamic_ty size data_size data data_mut grow read write fill copy_within copy init } };
    ($part:ident $item:ident: $($name:ident)*) => { $(methods! { $part $item $name })* };
    (store ElementSegment as_ref) => {
        #[doc = docs!(store ElementSegment.as_ref)]
        #[must_use]
        #[inline]
        pub fn as_ref(&self) -> ElementSegmentRef<'_> {
            self.0.as_ref()
        }
    };
    (store ElementSegment drop_items) => {
        #[doc = docs!(store ElementSegment.drop_items)]
        #[doc(alias = "elem.drop")]
        #[inline]
        pub fn drop_items(&mut self) {
            self.0.drop_items()
        }
    };
    (store ElementSegment items) => {
        #[doc = docs!(store ElementSegment.items)]
        #[must_use]
        #[inline]
        pub fn items(&self) -> &[RawRef] {
            self.0.items()
        }
    };
    (store ElementSegment size) => {
        #[doc = docs!(store ElementSegment.size)]
        #[must_use]
        #[inline]
        pub fn size(&self) -> u32 {
            self.0.size()
        }
    };
    (store ElementSegment ty) => {
        #[doc = docs!(store ElementSegment.ty)]
        #[must_use]
        #[inline]
        pub fn ty(&self) -> RefType {
            self.0.ty()
        }
    };
    (store LinearMemory copy) => {
        #[doc = docs!(store LinearMemory.copy)]
        #[doc(alias = "memory.copy")]
        #[inline]
        pub fn copy(dst_memory: &mut Self, dst: u64, src_memory: &Self, src: u64, len: u64, fuel: Option<&mut Fuel>) -> Result<(), MemoryError> {
            Proved::copy(&mut dst_memory.0, dst, &src_memory.0, src, len, fuel)
        }
    };
    (store LinearMemory copy_within) => {
        #[doc = docs!(store LinearMemory.copy_within)]
        #[doc(alias = "memory.copy")]
        #[inline]
        pub fn copy_within(&mut self, dst: u64, src: u64, len: u64, fuel: Option<&mut Fuel>) -> Result<(), MemoryError> {
            self.0.copy_within(dst, src, len, fuel)
        }
    };
    (store LinearMemory data) => {
        #[doc = docs!(store LinearMemory.data)]
        #[must_use]
        #[inline]
        pub fn data(&self) -> &[u8] {
            self.0.data()
        }
    };
    (store LinearMemory data_mut) => {
        #[doc = docs!(store LinearMemory.data_mut)]
        #[inline]
        pub fn data_mut(&mut self) -> &mut [u8] {
            self.0.data_mut()
        }
    };
    (store LinearMemory data_size) => {
        #[doc = docs!(store LinearMemory.data_size)]
        #[must_use]
        #[inline]
        pub fn data_size(&self) -> usize {
            self.0.data_size()
        }
    };
    (store LinearMemory dynamic_ty) => {
        #[doc = docs!(store LinearMemory.dynamic_ty)]
        #[must_use]
        #[inline]
        pub fn dynamic_ty(&self) -> MemoryType {
            self.0.dynamic_ty()
        }
    };
    (store LinearMemory fill) => {
        #[doc = docs!(store LinearMemory.fill)]
        #[doc(alias = "memory.fill")]
        #[inline]
        pub fn fill(&mut self, dst: u64, value: u8, len: u64, fuel: Option<&mut Fuel>) -> Result<(), MemoryError> {
            self.0.fill(dst, value, len, fuel)
        }
    };
    (store LinearMemory grow) => {
        #[doc = docs!(store LinearMemory.grow)]
        #[doc(alias = "memory.grow")]
        #[inline]
        pub fn grow(&mut self, additional: u64, fuel: Option<&mut Fuel>, limiter: &mut ResourceLimiterRef<'_>) -> Result<u64, MemoryError> {
            with!(limiter => self.0.grow(additional, fuel, limiter))
        }
    };
    (store LinearMemory init) => {
        #[doc = docs!(store LinearMemory.init)]
        #[doc(alias = "memory.init")]
        #[inline]
        pub fn init(&mut self, segment: &[u8], dst: u64, src: u32, len: u32, fuel: Option<&mut Fuel>) -> Result<(), MemoryError> {
            self.0.init(segment, dst, src, len, fuel)
        }
    };
    (store LinearMemory new) => {
        #[doc = docs!(store LinearMemory.new)]
        #[inline]
        pub fn new(ty: MemoryType, limiter: &mut ResourceLimiterRef<'_>) -> Result<Self, MemoryError> {
            with!(limiter => Proved::new(ty, limiter)).map(Self)
        }
    };
    (store LinearMemory new_static) => {
        #[doc = docs!(store LinearMemory.new_static)]
        #[inline]
        pub fn new_static(ty: MemoryType, limiter: &mut ResourceLimiterRef<'_>, region: &'static mut [u8]) -> Result<Self, MemoryError> {
            with!(limiter => Proved::new_static(ty, limiter, region)).map(Self)
        }
    };
    (store LinearMemory read) => {
        #[doc = docs!(store LinearMemory.read)]
        #[inline]
        pub fn read(&self, offset: usize, buffer: &mut [u8]) -> Result<(), MemoryError> {
            self.0.read(offset, buffer)
        }
    };
    (store LinearMemory size) => {
        #[doc = docs!(store LinearMemory.size)]
        #[doc(alias = "memory.size")]
        #[must_use]
        #[inline]
        pub fn size(&self) -> u64 {
            self.0.size()
        }
    };
    (store LinearMemory ty) => {
        #[doc = docs!(store LinearMemory.ty)]
        #[must_use]
        #[inline]
        pub fn ty(&self) -> MemoryType {
            self.0.ty()
        }
    };
    (store LinearMemory write) => {
        #[doc = docs!(store LinearMemory.write)]
        #[inline]
        pub fn write(&mut self, offset: usize, buffer: &[u8]) -> Result<(), MemoryError> {
            self.0.write(offset, buffer)
        }
    };
    (store Table copy) => {
        #[doc = docs!(store Table.copy)]
        #[doc(alias = "table.copy")]
        #[inline]
        pub fn copy(dst_table: &mut Self, dst: u64, src_table: &Self, src: u64, len: u64, fuel: Option<&mut Fuel>) -> Result<(), TableError> {
            Proved::copy(&mut dst_table.0, dst, &src_table.0, src, len, fuel)
        }
    };
    (store Table copy_within) => {
        #[doc = docs!(store Table.copy_within)]
        #[inline]
        pub fn copy_within(&mut self, dst: u64, src: u64, len: u64, fuel: Option<&mut Fuel>) -> Result<(), TableError> {
            self.0.copy_within(dst, src, len, fuel)
        }
    };
    (store Table dynamic_ty) => {
        #[doc = docs!(store Table.dynamic_ty)]
        #[must_use]
        #[inline]
        pub fn dynamic_ty(&self) -> TableType {
            self.0.dynamic_ty()
        }
    };
    (store Table fill) => {
        #[doc = docs!(store Table.fill)]
        #[doc(alias = "table.fill")]
        #[inline]
        pub fn fill(&mut self, dst: u64, val: TypedRawRef, len: u64, fuel: Option<&mut Fuel>) -> Result<(), TableError> {
            self.0.fill(dst, val, len, fuel)
        }
    };
    (store Table fill_raw) => {
        #[doc = docs!(store Table.fill_raw)]
        #[inline]
        pub fn fill_raw(&mut self, dst: u64, val: RawRef, len: u64, fuel: Option<&mut Fuel>) -> Result<(), TableError> {
            self.0.fill_raw(dst, val, len, fuel)
        }
    };
    (store Table get) => {
        #[doc = docs!(store Table.get)]
        #[doc(alias = "table.get")]
        #[must_use]
        #[inline]
        pub fn get(&self, index: u64) -> Option<TypedRawRef> {
            self.0.get(index)
        }
    };
    (store Table grow) => {
        #[doc = docs!(store Table.grow)]
        #[doc(alias = "table.grow")]
        #[inline]
        pub fn grow(&mut self, delta: u64, init: TypedRawRef, fuel: Option<&mut Fuel>, limiter: &mut ResourceLimiterRef<'_>) -> Result<u64, TableError> {
            with!(limiter => self.0.grow(delta, init, fuel, limiter))
        }
    };
    (store Table grow_raw) => {
        #[doc = docs!(store Table.grow_raw)]
        #[inline]
        pub fn grow_raw(&mut self, delta: u64, init: RawRef, fuel: Option<&mut Fuel>, limiter: &mut ResourceLimiterRef<'_>) -> Result<u64, TableError> {
            with!(limiter => self.0.grow_raw(delta, init, fuel, limiter))
        }
    };
    (store Table init) => {
        #[doc = docs!(store Table.init)]
        #[doc(alias = "table.init")]
        #[inline]
        pub fn init(&mut self, element: ElementSegmentRef<'_>, dst: u64, src: u32, len: u32, fuel: Option<&mut Fuel>) -> Result<(), TableError> {
            self.0.init(element, dst, src, len, fuel)
        }
    };
    (store Table new) => {
        #[doc = docs!(store Table.new)]
        #[inline]
        pub fn new(ty: TableType, init: TypedRawRef, limiter: &mut ResourceLimiterRef<'_>) -> Result<Self, TableError> {
            with!(limiter => Proved::new(ty, init, limiter)).map(Self)
        }
    };
    (store Table set) => {
        #[doc = docs!(store Table.set)]
        #[doc(alias = "table.set")]
        #[inline]
        pub fn set(&mut self, index: u64, value: TypedRawRef) -> Result<(), TableError> {
            self.0.set(index, value)
        }
    };
    (store Table set_raw) => {
        #[doc = docs!(store Table.set_raw)]
        #[inline]
        pub fn set_raw(&mut self, index: u64, value: RawRef) -> Result<(), TableError> {
            self.0.set_raw(index, value)
        }
    };
    (store Table size) => {
        #[doc = docs!(store Table.size)]
        #[doc(alias = "table.size")]
        #[must_use]
        #[inline]
        pub fn size(&self) -> u64 {
            self.0.size()
        }
    };
    (store Table ty) => {
        #[doc = docs!(store Table.ty)]
        #[must_use]
        #[inline]
        pub fn ty(&self) -> TableType {
            self.0.ty()
        }
    };
    (types FuncType len_params) => {
        #[doc = docs!(types FuncType.len_params)]
        #[must_use]
        #[inline]
        pub fn len_params(&self) -> u16 {
            self.0.len_params()
        }
    };
    (types FuncType len_results) => {
        #[doc = docs!(types FuncType.len_results)]
        #[must_use]
        #[inline]
        pub fn len_results(&self) -> u16 {
            self.0.len_results()
        }
    };
    (types FuncType params) => {
        #[doc = docs!(types FuncType.params)]
        #[must_use]
        #[inline]
        pub fn params(&self) -> &[ValType] {
            self.0.params()
        }
    };
    (types FuncType params_results) => {
        #[doc = docs!(types FuncType.params_results)]
        #[must_use]
        #[inline]
        pub fn params_results(&self) -> (&[ValType], &[ValType]) {
            self.0.params_results()
        }
    };
    (types FuncType results) => {
        #[doc = docs!(types FuncType.results)]
        #[must_use]
        #[inline]
        pub fn results(&self) -> &[ValType] {
            self.0.results()
        }
    };
    (types Trap i32_exit_status) => {
        #[doc = docs!(types Trap.i32_exit_status)]
        #[must_use]
        #[inline]
        pub fn i32_exit_status(&self) -> Option<i32> {
            self.0.i32_exit_status()
        }
    };
    (types Trap trap_code) => {
        #[doc = docs!(types Trap.trap_code)]
        #[must_use]
        #[inline]
        pub fn trap_code(&self) -> Option<TrapCode> {
            self.0.trap_code()
        }
    };
}

/// Exports the instructions of a module. Those with the index of a lane are functions over the crate's own indices.
macro_rules! instructions {
    (accesses wasm) => {
        #[doc(alias = "i32.load8_s")]
        pub use crate::proved::accesses::wasm::i32_load8_s;
        pub use crate::proved::accesses::wasm::i32_load8_s_at;
        #[doc(alias = "i32.load8_u")]
        pub use crate::proved::accesses::wasm::i32_load8_u;
        pub use crate::proved::accesses::wasm::i32_load8_u_at;
        #[doc(alias = "i32.load16_s")]
        pub use crate::proved::accesses::wasm::i32_load16_s;
        pub use crate::proved::accesses::wasm::i32_load16_s_at;
        #[doc(alias = "i32.load16_u")]
        pub use crate::proved::accesses::wasm::i32_load16_u;
        pub use crate::proved::accesses::wasm::i32_load16_u_at;
        #[doc(alias = "i64.load8_s")]
        pub use crate::proved::accesses::wasm::i64_load8_s;
        pub use crate::proved::accesses::wasm::i64_load8_s_at;
        #[doc(alias = "i64.load8_u")]
        pub use crate::proved::accesses::wasm::i64_load8_u;
        pub use crate::proved::accesses::wasm::i64_load8_u_at;
        #[doc(alias = "i64.load16_s")]
        pub use crate::proved::accesses::wasm::i64_load16_s;
        pub use crate::proved::accesses::wasm::i64_load16_s_at;
        #[doc(alias = "i64.load16_u")]
        pub use crate::proved::accesses::wasm::i64_load16_u;
        pub use crate::proved::accesses::wasm::i64_load16_u_at;
        #[doc(alias = "i64.load32_s")]
        pub use crate::proved::accesses::wasm::i64_load32_s;
        pub use crate::proved::accesses::wasm::i64_load32_s_at;
        #[doc(alias = "i64.load32_u")]
        pub use crate::proved::accesses::wasm::i64_load32_u;
        pub use crate::proved::accesses::wasm::i64_load32_u_at;
        #[doc(alias = "i32.load")]
        pub use crate::proved::accesses::wasm::load_u32;
        /// [`load_u32`] of the bits of a float: that one is proved; that floats become bits and back isn't.
        ///
        /// # Errors
        ///
        /// [`MemoryOutOfBounds`](TrapCode::MemoryOutOfBounds) if the bytes end past the memory.
        #[doc(alias = "f32.load")]
        #[inline]
        pub fn load_f32(memory: &[u8], ptr: u64, offset: u64) -> Result<f32, TrapCode> {
            load_u32(memory, ptr, offset).map(f32::from_bits)
        }
        pub use crate::proved::accesses::wasm::load_u32_at;
        /// [`load_u32_at`] of the bits of a float: that one is proved; that floats become bits and back isn't.
        ///
        /// # Errors
        ///
        /// [`MemoryOutOfBounds`](TrapCode::MemoryOutOfBounds) if the bytes end past the memory.
        #[inline]
        pub fn load_f32_at(memory: &[u8], address: usize) -> Result<f32, TrapCode> {
            load_u32_at(memory, address).map(f32::from_bits)
        }
        #[doc(alias = "i64.load")]
        pub use crate::proved::accesses::wasm::load_u64;
        /// [`load_u64`] of the bits of a float: that one is proved; that floats become bits and back isn't.
        ///
        /// # Errors
        ///
        /// [`MemoryOutOfBounds`](TrapCode::MemoryOutOfBounds) if the bytes end past the memory.
        #[doc(alias = "f64.load")]
        #[inline]
        pub fn load_f64(memory: &[u8], ptr: u64, offset: u64) -> Result<f64, TrapCode> {
            load_u64(memory, ptr, offset).map(f64::from_bits)
        }
        pub use crate::proved::accesses::wasm::load_u64_at;
        /// [`load_u64_at`] of the bits of a float: that one is proved; that floats become bits and back isn't.
        ///
        /// # Errors
        ///
        /// [`MemoryOutOfBounds`](TrapCode::MemoryOutOfBounds) if the bytes end past the memory.
        #[inline]
        pub fn load_f64_at(memory: &[u8], address: usize) -> Result<f64, TrapCode> {
            load_u64_at(memory, address).map(f64::from_bits)
        }
        #[doc(alias = "i32.store8")]
        pub use crate::proved::accesses::wasm::i32_store8;
        pub use crate::proved::accesses::wasm::i32_store8_at;
        #[doc(alias = "i32.store16")]
        pub use crate::proved::accesses::wasm::i32_store16;
        pub use crate::proved::accesses::wasm::i32_store16_at;
        #[doc(alias = "i64.store8")]
        pub use crate::proved::accesses::wasm::i64_store8;
        pub use crate::proved::accesses::wasm::i64_store8_at;
        #[doc(alias = "i64.store16")]
        pub use crate::proved::accesses::wasm::i64_store16;
        pub use crate::proved::accesses::wasm::i64_store16_at;
        #[doc(alias = "i64.store32")]
        pub use crate::proved::accesses::wasm::i64_store32;
        pub use crate::proved::accesses::wasm::i64_store32_at;
        #[doc(alias = "i32.store")]
        pub use crate::proved::accesses::wasm::store32;
        /// [`store32`] of the bits of a float: that one is proved; that floats become bits and back isn't.
        ///
        /// # Errors
        ///
        /// [`MemoryOutOfBounds`](TrapCode::MemoryOutOfBounds) if the bytes would end past the memory; then nothing is written.
        #[doc(alias = "f32.store")]
        #[inline]
        pub fn store_f32(
            memory: &mut [u8],
            ptr: u64,
            offset: u64,
            value: f32,
        ) -> Result<(), TrapCode> {
            store32(memory, ptr, offset, value.to_bits())
        }
        pub use crate::proved::accesses::wasm::store32_at;
        /// [`store32_at`] of the bits of a float: that one is proved; that floats become bits and back isn't.
        ///
        /// # Errors
        ///
        /// [`MemoryOutOfBounds`](TrapCode::MemoryOutOfBounds) if the bytes would end past the memory; then nothing is written.
        #[inline]
        pub fn store_f32_at(memory: &mut [u8], address: usize, value: f32) -> Result<(), TrapCode> {
            store32_at(memory, address, value.to_bits())
        }
        #[doc(alias = "i64.store")]
        pub use crate::proved::accesses::wasm::store64;
        /// [`store64`] of the bits of a float: that one is proved; that floats become bits and back isn't.
        ///
        /// # Errors
        ///
        /// [`MemoryOutOfBounds`](TrapCode::MemoryOutOfBounds) if the bytes would end past the memory; then nothing is written.
        #[doc(alias = "f64.store")]
        #[inline]
        pub fn store_f64(
            memory: &mut [u8],
            ptr: u64,
            offset: u64,
            value: f64,
        ) -> Result<(), TrapCode> {
            store64(memory, ptr, offset, value.to_bits())
        }
        pub use crate::proved::accesses::wasm::store64_at;
        /// [`store64_at`] of the bits of a float: that one is proved; that floats become bits and back isn't.
        ///
        /// # Errors
        ///
        /// [`MemoryOutOfBounds`](TrapCode::MemoryOutOfBounds) if the bytes would end past the memory; then nothing is written.
        #[inline]
        pub fn store_f64_at(memory: &mut [u8], address: usize, value: f64) -> Result<(), TrapCode> {
            store64_at(memory, address, value.to_bits())
        }
    };
    (lanewise simd) => {
        #[doc(alias = "i8x16.abs")]
        pub use crate::proved::lanewise::simd::i8x16_abs;
        #[doc(alias = "i8x16.add")]
        pub use crate::proved::lanewise::simd::i8x16_add;
        #[doc(alias = "i8x16.add_sat_s")]
        pub use crate::proved::lanewise::simd::i8x16_add_sat_s;
        #[doc(alias = "i8x16.add_sat_u")]
        pub use crate::proved::lanewise::simd::i8x16_add_sat_u;
        #[doc(alias = "i8x16.avgr_u")]
        pub use crate::proved::lanewise::simd::i8x16_avgr_u;
        #[doc(alias = "i8x16.eq")]
        pub use crate::proved::lanewise::simd::i8x16_eq;
        #[doc(alias = "i8x16.ge_s")]
        pub use crate::proved::lanewise::simd::i8x16_ge_s;
        #[doc(alias = "i8x16.ge_u")]
        pub use crate::proved::lanewise::simd::i8x16_ge_u;
        #[doc(alias = "i8x16.gt_s")]
        pub use crate::proved::lanewise::simd::i8x16_gt_s;
        #[doc(alias = "i8x16.gt_u")]
        pub use crate::proved::lanewise::simd::i8x16_gt_u;
        #[doc(alias = "i8x16.le_s")]
        pub use crate::proved::lanewise::simd::i8x16_le_s;
        #[doc(alias = "i8x16.le_u")]
        pub use crate::proved::lanewise::simd::i8x16_le_u;
        #[doc(alias = "i8x16.lt_s")]
        pub use crate::proved::lanewise::simd::i8x16_lt_s;
        #[doc(alias = "i8x16.lt_u")]
        pub use crate::proved::lanewise::simd::i8x16_lt_u;
        #[doc(alias = "i8x16.max_s")]
        pub use crate::proved::lanewise::simd::i8x16_max_s;
        #[doc(alias = "i8x16.max_u")]
        pub use crate::proved::lanewise::simd::i8x16_max_u;
        #[doc(alias = "i8x16.min_s")]
        pub use crate::proved::lanewise::simd::i8x16_min_s;
        #[doc(alias = "i8x16.min_u")]
        pub use crate::proved::lanewise::simd::i8x16_min_u;
        pub use crate::proved::lanewise::simd::i8x16_mul;
        #[doc(alias = "i8x16.ne")]
        pub use crate::proved::lanewise::simd::i8x16_ne;
        #[doc(alias = "i8x16.neg")]
        pub use crate::proved::lanewise::simd::i8x16_neg;
        #[doc(alias = "i8x16.popcnt")]
        pub use crate::proved::lanewise::simd::i8x16_popcnt;
        #[doc(alias = "i8x16.splat")]
        pub use crate::proved::lanewise::simd::i8x16_splat;
        #[doc(alias = "i8x16.sub")]
        pub use crate::proved::lanewise::simd::i8x16_sub;
        #[doc(alias = "i8x16.sub_sat_s")]
        pub use crate::proved::lanewise::simd::i8x16_sub_sat_s;
        #[doc(alias = "i8x16.sub_sat_u")]
        pub use crate::proved::lanewise::simd::i8x16_sub_sat_u;
        #[doc(alias = "i16x8.abs")]
        pub use crate::proved::lanewise::simd::i16x8_abs;
        #[doc(alias = "i16x8.add")]
        pub use crate::proved::lanewise::simd::i16x8_add;
        #[doc(alias = "i16x8.add_sat_s")]
        pub use crate::proved::lanewise::simd::i16x8_add_sat_s;
        #[doc(alias = "i16x8.add_sat_u")]
        pub use crate::proved::lanewise::simd::i16x8_add_sat_u;
        #[doc(alias = "i16x8.avgr_u")]
        pub use crate::proved::lanewise::simd::i16x8_avgr_u;
        #[doc(alias = "i16x8.eq")]
        pub use crate::proved::lanewise::simd::i16x8_eq;
        #[doc(alias = "i16x8.ge_s")]
        pub use crate::proved::lanewise::simd::i16x8_ge_s;
        #[doc(alias = "i16x8.ge_u")]
        pub use crate::proved::lanewise::simd::i16x8_ge_u;
        #[doc(alias = "i16x8.gt_s")]
        pub use crate::proved::lanewise::simd::i16x8_gt_s;
        #[doc(alias = "i16x8.gt_u")]
        pub use crate::proved::lanewise::simd::i16x8_gt_u;
        #[doc(alias = "i16x8.le_s")]
        pub use crate::proved::lanewise::simd::i16x8_le_s;
        #[doc(alias = "i16x8.le_u")]
        pub use crate::proved::lanewise::simd::i16x8_le_u;
        #[doc(alias = "i16x8.lt_s")]
        pub use crate::proved::lanewise::simd::i16x8_lt_s;
        #[doc(alias = "i16x8.lt_u")]
        pub use crate::proved::lanewise::simd::i16x8_lt_u;
        #[doc(alias = "i16x8.max_s")]
        pub use crate::proved::lanewise::simd::i16x8_max_s;
        #[doc(alias = "i16x8.max_u")]
        pub use crate::proved::lanewise::simd::i16x8_max_u;
        #[doc(alias = "i16x8.min_s")]
        pub use crate::proved::lanewise::simd::i16x8_min_s;
        #[doc(alias = "i16x8.min_u")]
        pub use crate::proved::lanewise::simd::i16x8_min_u;
        #[doc(alias = "i16x8.mul")]
        pub use crate::proved::lanewise::simd::i16x8_mul;
        #[doc(alias = "i16x8.ne")]
        pub use crate::proved::lanewise::simd::i16x8_ne;
        #[doc(alias = "i16x8.neg")]
        pub use crate::proved::lanewise::simd::i16x8_neg;
        #[doc(alias = "i16x8.q15mulr_sat_s")]
        pub use crate::proved::lanewise::simd::i16x8_q15mulr_sat_s;
        #[doc(alias = "i16x8.splat")]
        pub use crate::proved::lanewise::simd::i16x8_splat;
        #[doc(alias = "i16x8.sub")]
        pub use crate::proved::lanewise::simd::i16x8_sub;
        #[doc(alias = "i16x8.sub_sat_s")]
        pub use crate::proved::lanewise::simd::i16x8_sub_sat_s;
        #[doc(alias = "i16x8.sub_sat_u")]
        pub use crate::proved::lanewise::simd::i16x8_sub_sat_u;
        #[doc(alias = "i32x4.abs")]
        pub use crate::proved::lanewise::simd::i32x4_abs;
        #[doc(alias = "i32x4.add")]
        pub use crate::proved::lanewise::simd::i32x4_add;
        #[doc(alias = "i32x4.eq")]
        pub use crate::proved::lanewise::simd::i32x4_eq;
        #[doc(alias = "i32x4.ge_s")]
        pub use crate::proved::lanewise::simd::i32x4_ge_s;
        #[doc(alias = "i32x4.ge_u")]
        pub use crate::proved::lanewise::simd::i32x4_ge_u;
        #[doc(alias = "i32x4.gt_s")]
        pub use crate::proved::lanewise::simd::i32x4_gt_s;
        #[doc(alias = "i32x4.gt_u")]
        pub use crate::proved::lanewise::simd::i32x4_gt_u;
        #[doc(alias = "i32x4.le_s")]
        pub use crate::proved::lanewise::simd::i32x4_le_s;
        #[doc(alias = "i32x4.le_u")]
        pub use crate::proved::lanewise::simd::i32x4_le_u;
        #[doc(alias = "i32x4.lt_s")]
        pub use crate::proved::lanewise::simd::i32x4_lt_s;
        #[doc(alias = "i32x4.lt_u")]
        pub use crate::proved::lanewise::simd::i32x4_lt_u;
        #[doc(alias = "i32x4.max_s")]
        pub use crate::proved::lanewise::simd::i32x4_max_s;
        #[doc(alias = "i32x4.max_u")]
        pub use crate::proved::lanewise::simd::i32x4_max_u;
        #[doc(alias = "i32x4.min_s")]
        pub use crate::proved::lanewise::simd::i32x4_min_s;
        #[doc(alias = "i32x4.min_u")]
        pub use crate::proved::lanewise::simd::i32x4_min_u;
        #[doc(alias = "i32x4.mul")]
        pub use crate::proved::lanewise::simd::i32x4_mul;
        #[doc(alias = "i32x4.ne")]
        pub use crate::proved::lanewise::simd::i32x4_ne;
        #[doc(alias = "i32x4.neg")]
        pub use crate::proved::lanewise::simd::i32x4_neg;
        #[doc(alias = "i32x4.splat")]
        pub use crate::proved::lanewise::simd::i32x4_splat;
        #[doc(alias = "i32x4.sub")]
        pub use crate::proved::lanewise::simd::i32x4_sub;
        #[doc(alias = "i64x2.abs")]
        pub use crate::proved::lanewise::simd::i64x2_abs;
        #[doc(alias = "i64x2.add")]
        pub use crate::proved::lanewise::simd::i64x2_add;
        #[doc(alias = "i64x2.eq")]
        pub use crate::proved::lanewise::simd::i64x2_eq;
        #[doc(alias = "i64x2.ge_s")]
        pub use crate::proved::lanewise::simd::i64x2_ge_s;
        #[doc(alias = "i64x2.gt_s")]
        pub use crate::proved::lanewise::simd::i64x2_gt_s;
        #[doc(alias = "i64x2.le_s")]
        pub use crate::proved::lanewise::simd::i64x2_le_s;
        #[doc(alias = "i64x2.lt_s")]
        pub use crate::proved::lanewise::simd::i64x2_lt_s;
        #[doc(alias = "i64x2.mul")]
        pub use crate::proved::lanewise::simd::i64x2_mul;
        #[doc(alias = "i64x2.ne")]
        pub use crate::proved::lanewise::simd::i64x2_ne;
        #[doc(alias = "i64x2.neg")]
        pub use crate::proved::lanewise::simd::i64x2_neg;
        #[doc(alias = "i64x2.sub")]
        pub use crate::proved::lanewise::simd::i64x2_sub;
        #[doc(alias = "v128.and")]
        pub use crate::proved::lanewise::simd::v128_and;
        #[doc(alias = "v128.andnot")]
        pub use crate::proved::lanewise::simd::v128_andnot;
        #[doc(alias = "v128.bitselect")]
        pub use crate::proved::lanewise::simd::v128_bitselect;
        #[doc(alias = "v128.not")]
        pub use crate::proved::lanewise::simd::v128_not;
        #[doc(alias = "v128.or")]
        pub use crate::proved::lanewise::simd::v128_or;
        #[doc(alias = "v128.xor")]
        pub use crate::proved::lanewise::simd::v128_xor;
        /// [`i32x4_splat`] of the bits of a float: that one is proved; that floats become bits and back isn't.
        #[must_use]
        #[doc(alias = "f32x4.splat")]
        #[inline]
        pub fn f32x4_splat(item: f32) -> V128 {
            i32x4_splat(item.to_bits().cast_signed())
        }
        #[doc(alias = "i64x2.splat")]
        pub use crate::proved::lanewise::simd::i64x2_splat;
        /// [`i64x2_splat`] of the bits of a float: that one is proved; that floats become bits and back isn't.
        #[must_use]
        #[doc(alias = "f64x2.splat")]
        #[inline]
        pub fn f64x2_splat(item: f64) -> V128 {
            i64x2_splat(item.to_bits().cast_signed())
        }
        #[doc(alias = "i8x16.extract_lane_s")]
        #[doc = docs!(lanewise i8x16_extract_lane_s)]
        #[must_use]
        #[inline]
        pub fn i8x16_extract_lane_s(v: V128, lane: ImmLaneIdx16) -> i32 {
            crate::proved::lanewise::simd::i8x16_extract_lane_s(v, lane.proved())
        }
        #[doc(alias = "i8x16.extract_lane_u")]
        #[doc = docs!(lanewise i8x16_extract_lane_u)]
        #[must_use]
        #[inline]
        pub fn i8x16_extract_lane_u(v: V128, lane: ImmLaneIdx16) -> u32 {
            crate::proved::lanewise::simd::i8x16_extract_lane_u(v, lane.proved())
        }
        #[doc(alias = "i16x8.extract_lane_s")]
        #[doc = docs!(lanewise i16x8_extract_lane_s)]
        #[must_use]
        #[inline]
        pub fn i16x8_extract_lane_s(v: V128, lane: ImmLaneIdx8) -> i32 {
            crate::proved::lanewise::simd::i16x8_extract_lane_s(v, lane.proved())
        }
        #[doc(alias = "i16x8.extract_lane_u")]
        #[doc = docs!(lanewise i16x8_extract_lane_u)]
        #[must_use]
        #[inline]
        pub fn i16x8_extract_lane_u(v: V128, lane: ImmLaneIdx8) -> u32 {
            crate::proved::lanewise::simd::i16x8_extract_lane_u(v, lane.proved())
        }
        #[doc(alias = "i32x4.extract_lane")]
        #[doc = docs!(lanewise i32x4_extract_lane)]
        #[must_use]
        #[inline]
        pub fn i32x4_extract_lane(v: V128, lane: ImmLaneIdx4) -> i32 {
            crate::proved::lanewise::simd::i32x4_extract_lane(v, lane.proved())
        }
        /// [`i32x4_extract_lane`] of the bits of a float: that one is proved; that floats become bits and back isn't.
        #[must_use]
        #[doc(alias = "f32x4.extract_lane")]
        #[inline]
        pub fn f32x4_extract_lane(v: V128, lane: ImmLaneIdx4) -> f32 {
            f32::from_bits(i32x4_extract_lane(v, lane).cast_unsigned())
        }
        #[doc(alias = "i64x2.extract_lane")]
        #[doc = docs!(lanewise i64x2_extract_lane)]
        #[must_use]
        #[inline]
        pub fn i64x2_extract_lane(v: V128, lane: ImmLaneIdx2) -> i64 {
            crate::proved::lanewise::simd::i64x2_extract_lane(v, lane.proved())
        }
        /// [`i64x2_extract_lane`] of the bits of a float: that one is proved; that floats become bits and back isn't.
        #[must_use]
        #[doc(alias = "f64x2.extract_lane")]
        #[inline]
        pub fn f64x2_extract_lane(v: V128, lane: ImmLaneIdx2) -> f64 {
            f64::from_bits(i64x2_extract_lane(v, lane).cast_unsigned())
        }
        #[doc(alias = "i8x16.replace_lane")]
        #[doc = docs!(lanewise i8x16_replace_lane)]
        #[must_use]
        #[inline]
        pub fn i8x16_replace_lane(v: V128, lane: ImmLaneIdx16, item: i8) -> V128 {
            crate::proved::lanewise::simd::i8x16_replace_lane(v, lane.proved(), item)
        }
        #[doc(alias = "i16x8.replace_lane")]
        #[doc = docs!(lanewise i16x8_replace_lane)]
        #[must_use]
        #[inline]
        pub fn i16x8_replace_lane(v: V128, lane: ImmLaneIdx8, item: i16) -> V128 {
            crate::proved::lanewise::simd::i16x8_replace_lane(v, lane.proved(), item)
        }
        #[doc(alias = "i32x4.replace_lane")]
        #[doc = docs!(lanewise i32x4_replace_lane)]
        #[must_use]
        #[inline]
        pub fn i32x4_replace_lane(v: V128, lane: ImmLaneIdx4, item: i32) -> V128 {
            crate::proved::lanewise::simd::i32x4_replace_lane(v, lane.proved(), item)
        }
        /// [`i32x4_replace_lane`] of the bits of a float: that one is proved; that floats become bits and back isn't.
        #[must_use]
        #[doc(alias = "f32x4.replace_lane")]
        #[inline]
        pub fn f32x4_replace_lane(v: V128, lane: ImmLaneIdx4, item: f32) -> V128 {
            i32x4_replace_lane(v, lane, item.to_bits().cast_signed())
        }
        #[doc(alias = "i64x2.replace_lane")]
        #[doc = docs!(lanewise i64x2_replace_lane)]
        #[must_use]
        #[inline]
        pub fn i64x2_replace_lane(v: V128, lane: ImmLaneIdx2, item: i64) -> V128 {
            crate::proved::lanewise::simd::i64x2_replace_lane(v, lane.proved(), item)
        }
        /// [`i64x2_replace_lane`] of the bits of a float: that one is proved; that floats become bits and back isn't.
        #[must_use]
        #[doc(alias = "f64x2.replace_lane")]
        #[inline]
        pub fn f64x2_replace_lane(v: V128, lane: ImmLaneIdx2, item: f64) -> V128 {
            i64x2_replace_lane(v, lane, item.to_bits().cast_signed())
        }
        #[doc = docs!(lanewise i8x16_shuffle)]
        #[must_use]
        #[inline]
        pub fn i8x16_shuffle(a: V128, b: V128, s: [ImmLaneIdx32; 16]) -> V128 {
            crate::proved::lanewise::simd::i8x16_shuffle(a, b, s.map(ImmLaneIdx32::proved))
        }
        #[doc(alias = "i8x16.swizzle")]
        pub use crate::proved::lanewise::simd::i8x16_swizzle;
    };
    (scalar wasm) => {
        #[doc(alias = "i32.add")]
        pub use crate::proved::scalar::wasm::i32_add;
        #[doc(alias = "i32.and")]
        pub use crate::proved::scalar::wasm::i32_bitand;
        #[doc(alias = "i32.or")]
        pub use crate::proved::scalar::wasm::i32_bitor;
        #[doc(alias = "i32.xor")]
        pub use crate::proved::scalar::wasm::i32_bitxor;
        #[doc(alias = "i32.clz")]
        pub use crate::proved::scalar::wasm::i32_clz;
        #[doc(alias = "i32.ctz")]
        pub use crate::proved::scalar::wasm::i32_ctz;
        #[doc(alias = "i32.div_s")]
        pub use crate::proved::scalar::wasm::i32_div_s;
        #[doc(alias = "i32.div_u")]
        pub use crate::proved::scalar::wasm::i32_div_u;
        #[doc(alias = "i32.eq")]
        pub use crate::proved::scalar::wasm::i32_eq;
        #[doc(alias = "i32.eqz")]
        pub use crate::proved::scalar::wasm::i32_eqz;
        #[doc(alias = "i32.extend8_s")]
        pub use crate::proved::scalar::wasm::i32_extend8_s;
        #[doc(alias = "i32.extend16_s")]
        pub use crate::proved::scalar::wasm::i32_extend16_s;
        #[doc(alias = "i32.ge_s")]
        pub use crate::proved::scalar::wasm::i32_ge_s;
        #[doc(alias = "i32.ge_u")]
        pub use crate::proved::scalar::wasm::i32_ge_u;
        #[doc(alias = "i32.gt_s")]
        pub use crate::proved::scalar::wasm::i32_gt_s;
        #[doc(alias = "i32.gt_u")]
        pub use crate::proved::scalar::wasm::i32_gt_u;
        #[doc(alias = "i32.le_s")]
        pub use crate::proved::scalar::wasm::i32_le_s;
        #[doc(alias = "i32.le_u")]
        pub use crate::proved::scalar::wasm::i32_le_u;
        #[doc(alias = "i32.lt_s")]
        pub use crate::proved::scalar::wasm::i32_lt_s;
        #[doc(alias = "i32.lt_u")]
        pub use crate::proved::scalar::wasm::i32_lt_u;
        #[doc(alias = "i32.mul")]
        pub use crate::proved::scalar::wasm::i32_mul;
        #[doc(alias = "i32.ne")]
        pub use crate::proved::scalar::wasm::i32_ne;
        #[doc(alias = "i32.popcnt")]
        pub use crate::proved::scalar::wasm::i32_popcnt;
        #[doc(alias = "i32.rem_s")]
        pub use crate::proved::scalar::wasm::i32_rem_s;
        #[doc(alias = "i32.rem_u")]
        pub use crate::proved::scalar::wasm::i32_rem_u;
        #[doc(alias = "i32.rotl")]
        pub use crate::proved::scalar::wasm::i32_rotl;
        #[doc(alias = "i32.rotr")]
        pub use crate::proved::scalar::wasm::i32_rotr;
        #[doc(alias = "i32.shl")]
        pub use crate::proved::scalar::wasm::i32_shl;
        #[doc(alias = "i32.shr_s")]
        pub use crate::proved::scalar::wasm::i32_shr_s;
        #[doc(alias = "i32.shr_u")]
        pub use crate::proved::scalar::wasm::i32_shr_u;
        #[doc(alias = "i32.sub")]
        pub use crate::proved::scalar::wasm::i32_sub;
        #[doc(alias = "i32.wrap_i64")]
        pub use crate::proved::scalar::wasm::i32_wrap_i64;
        #[doc(alias = "i64.add")]
        pub use crate::proved::scalar::wasm::i64_add;
        #[doc(alias = "i64.add128")]
        pub use crate::proved::scalar::wasm::i64_add128;
        #[doc(alias = "i64.and")]
        pub use crate::proved::scalar::wasm::i64_bitand;
        #[doc(alias = "i64.or")]
        pub use crate::proved::scalar::wasm::i64_bitor;
        #[doc(alias = "i64.xor")]
        pub use crate::proved::scalar::wasm::i64_bitxor;
        #[doc(alias = "i64.clz")]
        pub use crate::proved::scalar::wasm::i64_clz;
        #[doc(alias = "i64.ctz")]
        pub use crate::proved::scalar::wasm::i64_ctz;
        #[doc(alias = "i64.div_s")]
        pub use crate::proved::scalar::wasm::i64_div_s;
        #[doc(alias = "i64.div_u")]
        pub use crate::proved::scalar::wasm::i64_div_u;
        #[doc(alias = "i64.eq")]
        pub use crate::proved::scalar::wasm::i64_eq;
        #[doc(alias = "i64.eqz")]
        pub use crate::proved::scalar::wasm::i64_eqz;
        #[doc(alias = "i64.extend_i32_s")]
        pub use crate::proved::scalar::wasm::i64_extend_i32_s;
        #[doc(alias = "i64.extend_i32_u")]
        pub use crate::proved::scalar::wasm::i64_extend_i32_u;
        #[doc(alias = "i64.extend8_s")]
        pub use crate::proved::scalar::wasm::i64_extend8_s;
        #[doc(alias = "i64.extend16_s")]
        pub use crate::proved::scalar::wasm::i64_extend16_s;
        #[doc(alias = "i64.extend32_s")]
        pub use crate::proved::scalar::wasm::i64_extend32_s;
        #[doc(alias = "i64.ge_s")]
        pub use crate::proved::scalar::wasm::i64_ge_s;
        #[doc(alias = "i64.ge_u")]
        pub use crate::proved::scalar::wasm::i64_ge_u;
        #[doc(alias = "i64.gt_s")]
        pub use crate::proved::scalar::wasm::i64_gt_s;
        #[doc(alias = "i64.gt_u")]
        pub use crate::proved::scalar::wasm::i64_gt_u;
        #[doc(alias = "i64.le_s")]
        pub use crate::proved::scalar::wasm::i64_le_s;
        #[doc(alias = "i64.le_u")]
        pub use crate::proved::scalar::wasm::i64_le_u;
        #[doc(alias = "i64.lt_s")]
        pub use crate::proved::scalar::wasm::i64_lt_s;
        #[doc(alias = "i64.lt_u")]
        pub use crate::proved::scalar::wasm::i64_lt_u;
        #[doc(alias = "i64.mul")]
        pub use crate::proved::scalar::wasm::i64_mul;
        #[doc(alias = "i64.mul_wide_s")]
        pub use crate::proved::scalar::wasm::i64_mul_wide_s;
        #[doc(alias = "i64.mul_wide_u")]
        pub use crate::proved::scalar::wasm::i64_mul_wide_u;
        #[doc(alias = "i64.ne")]
        pub use crate::proved::scalar::wasm::i64_ne;
        #[doc(alias = "i64.popcnt")]
        pub use crate::proved::scalar::wasm::i64_popcnt;
        #[doc(alias = "i64.rem_s")]
        pub use crate::proved::scalar::wasm::i64_rem_s;
        #[doc(alias = "i64.rem_u")]
        pub use crate::proved::scalar::wasm::i64_rem_u;
        #[doc(alias = "i64.rotl")]
        pub use crate::proved::scalar::wasm::i64_rotl;
        #[doc(alias = "i64.rotr")]
        pub use crate::proved::scalar::wasm::i64_rotr;
        #[doc(alias = "i64.shl")]
        pub use crate::proved::scalar::wasm::i64_shl;
        #[doc(alias = "i64.shr_s")]
        pub use crate::proved::scalar::wasm::i64_shr_s;
        #[doc(alias = "i64.shr_u")]
        pub use crate::proved::scalar::wasm::i64_shr_u;
        #[doc(alias = "i64.sub")]
        pub use crate::proved::scalar::wasm::i64_sub;
        #[doc(alias = "i64.sub128")]
        pub use crate::proved::scalar::wasm::i64_sub128;
    };
    (vector_access simd) => {
        #[doc(alias = "v128.load")]
        pub use crate::proved::vector_access::simd::v128_load;
        pub use crate::proved::vector_access::simd::v128_load_at;
        #[doc(alias = "v128.load8_splat")]
        pub use crate::proved::vector_access::simd::v128_load8_splat;
        pub use crate::proved::vector_access::simd::v128_load8_splat_at;
        #[doc(alias = "v128.load8x8_s")]
        pub use crate::proved::vector_access::simd::v128_load8x8_s;
        pub use crate::proved::vector_access::simd::v128_load8x8_s_at;
        #[doc(alias = "v128.load8x8_u")]
        pub use crate::proved::vector_access::simd::v128_load8x8_u;
        pub use crate::proved::vector_access::simd::v128_load8x8_u_at;
        #[doc(alias = "v128.load16_splat")]
        pub use crate::proved::vector_access::simd::v128_load16_splat;
        pub use crate::proved::vector_access::simd::v128_load16_splat_at;
        #[doc(alias = "v128.load16x4_s")]
        pub use crate::proved::vector_access::simd::v128_load16x4_s;
        pub use crate::proved::vector_access::simd::v128_load16x4_s_at;
        #[doc(alias = "v128.load16x4_u")]
        pub use crate::proved::vector_access::simd::v128_load16x4_u;
        pub use crate::proved::vector_access::simd::v128_load16x4_u_at;
        #[doc(alias = "v128.load32_splat")]
        pub use crate::proved::vector_access::simd::v128_load32_splat;
        pub use crate::proved::vector_access::simd::v128_load32_splat_at;
        #[doc(alias = "v128.load32_zero")]
        pub use crate::proved::vector_access::simd::v128_load32_zero;
        pub use crate::proved::vector_access::simd::v128_load32_zero_at;
        #[doc(alias = "v128.load32x2_s")]
        pub use crate::proved::vector_access::simd::v128_load32x2_s;
        pub use crate::proved::vector_access::simd::v128_load32x2_s_at;
        #[doc(alias = "v128.load32x2_u")]
        pub use crate::proved::vector_access::simd::v128_load32x2_u;
        pub use crate::proved::vector_access::simd::v128_load32x2_u_at;
        #[doc(alias = "v128.load64_splat")]
        pub use crate::proved::vector_access::simd::v128_load64_splat;
        pub use crate::proved::vector_access::simd::v128_load64_splat_at;
        #[doc(alias = "v128.load64_zero")]
        pub use crate::proved::vector_access::simd::v128_load64_zero;
        pub use crate::proved::vector_access::simd::v128_load64_zero_at;
        #[doc(alias = "v128.store")]
        pub use crate::proved::vector_access::simd::v128_store;
        pub use crate::proved::vector_access::simd::v128_store_at;
        #[doc(alias = "v128.load8_lane")]
        #[doc = docs!(vector_access v128_load8_lane)]
        #[inline]
        pub fn v128_load8_lane(
            memory: &[u8],
            ptr: u64,
            offset: u64,
            v: V128,
            lane: ImmLaneIdx16,
        ) -> Result<V128, TrapCode> {
            crate::proved::vector_access::simd::v128_load8_lane(
                memory,
                ptr,
                offset,
                v,
                lane.proved(),
            )
        }
        #[doc = docs!(vector_access v128_load8_lane_at)]
        #[inline]
        pub fn v128_load8_lane_at(
            memory: &[u8],
            address: usize,
            v: V128,
            lane: ImmLaneIdx16,
        ) -> Result<V128, TrapCode> {
            crate::proved::vector_access::simd::v128_load8_lane_at(
                memory,
                address,
                v,
                lane.proved(),
            )
        }
        #[doc(alias = "v128.load16_lane")]
        #[doc = docs!(vector_access v128_load16_lane)]
        #[inline]
        pub fn v128_load16_lane(
            memory: &[u8],
            ptr: u64,
            offset: u64,
            v: V128,
            lane: ImmLaneIdx8,
        ) -> Result<V128, TrapCode> {
            crate::proved::vector_access::simd::v128_load16_lane(
                memory,
                ptr,
                offset,
                v,
                lane.proved(),
            )
        }
        #[doc = docs!(vector_access v128_load16_lane_at)]
        #[inline]
        pub fn v128_load16_lane_at(
            memory: &[u8],
            address: usize,
            v: V128,
            lane: ImmLaneIdx8,
        ) -> Result<V128, TrapCode> {
            crate::proved::vector_access::simd::v128_load16_lane_at(
                memory,
                address,
                v,
                lane.proved(),
            )
        }
        #[doc(alias = "v128.load32_lane")]
        #[doc = docs!(vector_access v128_load32_lane)]
        #[inline]
        pub fn v128_load32_lane(
            memory: &[u8],
            ptr: u64,
            offset: u64,
            v: V128,
            lane: ImmLaneIdx4,
        ) -> Result<V128, TrapCode> {
            crate::proved::vector_access::simd::v128_load32_lane(
                memory,
                ptr,
                offset,
                v,
                lane.proved(),
            )
        }
        #[doc = docs!(vector_access v128_load32_lane_at)]
        #[inline]
        pub fn v128_load32_lane_at(
            memory: &[u8],
            address: usize,
            v: V128,
            lane: ImmLaneIdx4,
        ) -> Result<V128, TrapCode> {
            crate::proved::vector_access::simd::v128_load32_lane_at(
                memory,
                address,
                v,
                lane.proved(),
            )
        }
        #[doc(alias = "v128.load64_lane")]
        #[doc = docs!(vector_access v128_load64_lane)]
        #[inline]
        pub fn v128_load64_lane(
            memory: &[u8],
            ptr: u64,
            offset: u64,
            v: V128,
            lane: ImmLaneIdx2,
        ) -> Result<V128, TrapCode> {
            crate::proved::vector_access::simd::v128_load64_lane(
                memory,
                ptr,
                offset,
                v,
                lane.proved(),
            )
        }
        #[doc = docs!(vector_access v128_load64_lane_at)]
        #[inline]
        pub fn v128_load64_lane_at(
            memory: &[u8],
            address: usize,
            v: V128,
            lane: ImmLaneIdx2,
        ) -> Result<V128, TrapCode> {
            crate::proved::vector_access::simd::v128_load64_lane_at(
                memory,
                address,
                v,
                lane.proved(),
            )
        }
        #[doc(alias = "v128.store8_lane")]
        #[doc = docs!(vector_access v128_store8_lane)]
        #[inline]
        pub fn v128_store8_lane(
            memory: &mut [u8],
            ptr: u64,
            offset: u64,
            v: V128,
            lane: ImmLaneIdx16,
        ) -> Result<(), TrapCode> {
            crate::proved::vector_access::simd::v128_store8_lane(
                memory,
                ptr,
                offset,
                v,
                lane.proved(),
            )
        }
        #[doc = docs!(vector_access v128_store8_lane_at)]
        #[inline]
        pub fn v128_store8_lane_at(
            memory: &mut [u8],
            address: usize,
            v: V128,
            lane: ImmLaneIdx16,
        ) -> Result<(), TrapCode> {
            crate::proved::vector_access::simd::v128_store8_lane_at(
                memory,
                address,
                v,
                lane.proved(),
            )
        }
        #[doc(alias = "v128.store16_lane")]
        #[doc = docs!(vector_access v128_store16_lane)]
        #[inline]
        pub fn v128_store16_lane(
            memory: &mut [u8],
            ptr: u64,
            offset: u64,
            v: V128,
            lane: ImmLaneIdx8,
        ) -> Result<(), TrapCode> {
            crate::proved::vector_access::simd::v128_store16_lane(
                memory,
                ptr,
                offset,
                v,
                lane.proved(),
            )
        }
        #[doc = docs!(vector_access v128_store16_lane_at)]
        #[inline]
        pub fn v128_store16_lane_at(
            memory: &mut [u8],
            address: usize,
            v: V128,
            lane: ImmLaneIdx8,
        ) -> Result<(), TrapCode> {
            crate::proved::vector_access::simd::v128_store16_lane_at(
                memory,
                address,
                v,
                lane.proved(),
            )
        }
        #[doc(alias = "v128.store32_lane")]
        #[doc = docs!(vector_access v128_store32_lane)]
        #[inline]
        pub fn v128_store32_lane(
            memory: &mut [u8],
            ptr: u64,
            offset: u64,
            v: V128,
            lane: ImmLaneIdx4,
        ) -> Result<(), TrapCode> {
            crate::proved::vector_access::simd::v128_store32_lane(
                memory,
                ptr,
                offset,
                v,
                lane.proved(),
            )
        }
        #[doc = docs!(vector_access v128_store32_lane_at)]
        #[inline]
        pub fn v128_store32_lane_at(
            memory: &mut [u8],
            address: usize,
            v: V128,
            lane: ImmLaneIdx4,
        ) -> Result<(), TrapCode> {
            crate::proved::vector_access::simd::v128_store32_lane_at(
                memory,
                address,
                v,
                lane.proved(),
            )
        }
        #[doc(alias = "v128.store64_lane")]
        #[doc = docs!(vector_access v128_store64_lane)]
        #[inline]
        pub fn v128_store64_lane(
            memory: &mut [u8],
            ptr: u64,
            offset: u64,
            v: V128,
            lane: ImmLaneIdx2,
        ) -> Result<(), TrapCode> {
            crate::proved::vector_access::simd::v128_store64_lane(
                memory,
                ptr,
                offset,
                v,
                lane.proved(),
            )
        }
        #[doc = docs!(vector_access v128_store64_lane_at)]
        #[inline]
        pub fn v128_store64_lane_at(
            memory: &mut [u8],
            address: usize,
            v: V128,
            lane: ImmLaneIdx2,
        ) -> Result<(), TrapCode> {
            crate::proved::vector_access::simd::v128_store64_lane_at(
                memory,
                address,
                v,
                lane.proved(),
            )
        }
    };
    (widening simd) => {
        #[doc(alias = "i8x16.all_true")]
        pub use crate::proved::widening::simd::i8x16_all_true;
        #[doc(alias = "i8x16.bitmask")]
        pub use crate::proved::widening::simd::i8x16_bitmask;
        #[doc(alias = "i8x16.narrow_i16x8_s")]
        pub use crate::proved::widening::simd::i8x16_narrow_i16x8_s;
        #[doc(alias = "i8x16.narrow_i16x8_u")]
        pub use crate::proved::widening::simd::i8x16_narrow_i16x8_u;
        #[doc(alias = "i8x16.relaxed_laneselect")]
        pub use crate::proved::widening::simd::i8x16_relaxed_laneselect;
        #[doc(alias = "i8x16.relaxed_swizzle")]
        pub use crate::proved::widening::simd::i8x16_relaxed_swizzle;
        #[doc(alias = "i8x16.shl")]
        pub use crate::proved::widening::simd::i8x16_shl;
        #[doc(alias = "i8x16.shr_s")]
        pub use crate::proved::widening::simd::i8x16_shr_s;
        #[doc(alias = "i8x16.shr_u")]
        pub use crate::proved::widening::simd::i8x16_shr_u;
        #[doc(alias = "i16x8.all_true")]
        pub use crate::proved::widening::simd::i16x8_all_true;
        #[doc(alias = "i16x8.bitmask")]
        pub use crate::proved::widening::simd::i16x8_bitmask;
        #[doc(alias = "i16x8.extadd_pairwise_i8x16_s")]
        pub use crate::proved::widening::simd::i16x8_extadd_pairwise_i8x16_s;
        #[doc(alias = "i16x8.extadd_pairwise_i8x16_u")]
        pub use crate::proved::widening::simd::i16x8_extadd_pairwise_i8x16_u;
        #[doc(alias = "i16x8.extend_high_i8x16_s")]
        pub use crate::proved::widening::simd::i16x8_extend_high_i8x16_s;
        #[doc(alias = "i16x8.extend_high_i8x16_u")]
        pub use crate::proved::widening::simd::i16x8_extend_high_i8x16_u;
        #[doc(alias = "i16x8.extend_low_i8x16_s")]
        pub use crate::proved::widening::simd::i16x8_extend_low_i8x16_s;
        #[doc(alias = "i16x8.extend_low_i8x16_u")]
        pub use crate::proved::widening::simd::i16x8_extend_low_i8x16_u;
        #[doc(alias = "i16x8.extmul_high_i8x16_s")]
        pub use crate::proved::widening::simd::i16x8_extmul_high_i8x16_s;
        #[doc(alias = "i16x8.extmul_high_i8x16_u")]
        pub use crate::proved::widening::simd::i16x8_extmul_high_i8x16_u;
        #[doc(alias = "i16x8.extmul_low_i8x16_s")]
        pub use crate::proved::widening::simd::i16x8_extmul_low_i8x16_s;
        #[doc(alias = "i16x8.extmul_low_i8x16_u")]
        pub use crate::proved::widening::simd::i16x8_extmul_low_i8x16_u;
        #[doc(alias = "i16x8.narrow_i32x4_s")]
        pub use crate::proved::widening::simd::i16x8_narrow_i32x4_s;
        #[doc(alias = "i16x8.narrow_i32x4_u")]
        pub use crate::proved::widening::simd::i16x8_narrow_i32x4_u;
        #[doc(alias = "i16x8.relaxed_dot_i8x16_i7x16_s")]
        pub use crate::proved::widening::simd::i16x8_relaxed_dot_i8x16_i7x16_s;
        #[doc(alias = "i16x8.relaxed_laneselect")]
        pub use crate::proved::widening::simd::i16x8_relaxed_laneselect;
        #[doc(alias = "i16x8.relaxed_q15mulr_s")]
        pub use crate::proved::widening::simd::i16x8_relaxed_q15mulr_s;
        #[doc(alias = "i16x8.shl")]
        pub use crate::proved::widening::simd::i16x8_shl;
        #[doc(alias = "i16x8.shr_s")]
        pub use crate::proved::widening::simd::i16x8_shr_s;
        #[doc(alias = "i16x8.shr_u")]
        pub use crate::proved::widening::simd::i16x8_shr_u;
        #[doc(alias = "i32x4.all_true")]
        pub use crate::proved::widening::simd::i32x4_all_true;
        #[doc(alias = "i32x4.bitmask")]
        pub use crate::proved::widening::simd::i32x4_bitmask;
        #[doc(alias = "i32x4.dot_i16x8_s")]
        pub use crate::proved::widening::simd::i32x4_dot_i16x8_s;
        #[doc(alias = "i32x4.extadd_pairwise_i16x8_s")]
        pub use crate::proved::widening::simd::i32x4_extadd_pairwise_i16x8_s;
        #[doc(alias = "i32x4.extadd_pairwise_i16x8_u")]
        pub use crate::proved::widening::simd::i32x4_extadd_pairwise_i16x8_u;
        #[doc(alias = "i32x4.extend_high_i16x8_s")]
        pub use crate::proved::widening::simd::i32x4_extend_high_i16x8_s;
        #[doc(alias = "i32x4.extend_high_i16x8_u")]
        pub use crate::proved::widening::simd::i32x4_extend_high_i16x8_u;
        #[doc(alias = "i32x4.extend_low_i16x8_s")]
        pub use crate::proved::widening::simd::i32x4_extend_low_i16x8_s;
        #[doc(alias = "i32x4.extend_low_i16x8_u")]
        pub use crate::proved::widening::simd::i32x4_extend_low_i16x8_u;
        #[doc(alias = "i32x4.extmul_high_i16x8_s")]
        pub use crate::proved::widening::simd::i32x4_extmul_high_i16x8_s;
        #[doc(alias = "i32x4.extmul_high_i16x8_u")]
        pub use crate::proved::widening::simd::i32x4_extmul_high_i16x8_u;
        #[doc(alias = "i32x4.extmul_low_i16x8_s")]
        pub use crate::proved::widening::simd::i32x4_extmul_low_i16x8_s;
        #[doc(alias = "i32x4.extmul_low_i16x8_u")]
        pub use crate::proved::widening::simd::i32x4_extmul_low_i16x8_u;
        #[doc(alias = "i32x4.relaxed_dot_i8x16_i7x16_add_s")]
        pub use crate::proved::widening::simd::i32x4_relaxed_dot_i8x16_i7x16_add_s;
        #[doc(alias = "i32x4.relaxed_laneselect")]
        pub use crate::proved::widening::simd::i32x4_relaxed_laneselect;
        #[doc(alias = "i32x4.shl")]
        pub use crate::proved::widening::simd::i32x4_shl;
        #[doc(alias = "i32x4.shr_s")]
        pub use crate::proved::widening::simd::i32x4_shr_s;
        #[doc(alias = "i32x4.shr_u")]
        pub use crate::proved::widening::simd::i32x4_shr_u;
        #[doc(alias = "i64x2.all_true")]
        pub use crate::proved::widening::simd::i64x2_all_true;
        #[doc(alias = "i64x2.bitmask")]
        pub use crate::proved::widening::simd::i64x2_bitmask;
        #[doc(alias = "i64x2.extend_high_i32x4_s")]
        pub use crate::proved::widening::simd::i64x2_extend_high_i32x4_s;
        #[doc(alias = "i64x2.extend_high_i32x4_u")]
        pub use crate::proved::widening::simd::i64x2_extend_high_i32x4_u;
        #[doc(alias = "i64x2.extend_low_i32x4_s")]
        pub use crate::proved::widening::simd::i64x2_extend_low_i32x4_s;
        #[doc(alias = "i64x2.extend_low_i32x4_u")]
        pub use crate::proved::widening::simd::i64x2_extend_low_i32x4_u;
        #[doc(alias = "i64x2.extmul_high_i32x4_s")]
        pub use crate::proved::widening::simd::i64x2_extmul_high_i32x4_s;
        #[doc(alias = "i64x2.extmul_high_i32x4_u")]
        pub use crate::proved::widening::simd::i64x2_extmul_high_i32x4_u;
        #[doc(alias = "i64x2.extmul_low_i32x4_s")]
        pub use crate::proved::widening::simd::i64x2_extmul_low_i32x4_s;
        #[doc(alias = "i64x2.extmul_low_i32x4_u")]
        pub use crate::proved::widening::simd::i64x2_extmul_low_i32x4_u;
        #[doc(alias = "i64x2.relaxed_laneselect")]
        pub use crate::proved::widening::simd::i64x2_relaxed_laneselect;
        #[doc(alias = "i64x2.shl")]
        pub use crate::proved::widening::simd::i64x2_shl;
        #[doc(alias = "i64x2.shr_s")]
        pub use crate::proved::widening::simd::i64x2_shr_s;
        #[doc(alias = "i64x2.shr_u")]
        pub use crate::proved::widening::simd::i64x2_shr_u;
        #[doc(alias = "v128.any_true")]
        pub use crate::proved::widening::simd::v128_any_true;
        pub use crate::proved::widening::simd::v128_low32_zero;
        pub use crate::proved::widening::simd::v128_low64_zero;
        pub use crate::proved::widening::simd::v128_widen8x8_s;
        pub use crate::proved::widening::simd::v128_widen8x8_u;
        pub use crate::proved::widening::simd::v128_widen16x4_s;
        pub use crate::proved::widening::simd::v128_widen16x4_u;
        pub use crate::proved::widening::simd::v128_widen32x2_s;
        pub use crate::proved::widening::simd::v128_widen32x2_u;
    };
}
