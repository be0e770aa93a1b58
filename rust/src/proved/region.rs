//! Linear memories and tables that are the first bytes or elements of a region of the caller's.
#[cfg(any(doc, test))]
pub mod laws {
    //! What holds of all tables on regions. Each function does nothing, and states a law.

    use crate::proved::meter::ResourceLimiter;

    /// A table on a region of at least its minimum takes no memory: the limiter alone can refuse it.
    ///
    /// # Contract
    ///
    /// ```text
    /// ensures: TableCreationsSucceed (optional_rules L.rules)
    /// ```
    ///
    /// Definitions: [`TableCreationsSucceed`](crate::specs::region::LawsSpecs#TableCreationsSucceed), [`optional_rules`](crate::specs::meter::LimiterSpecs#optional_rules).
    ///
    /// `L` is the type of the limiter, a [`ResourceLimiter`](crate::machine::ResourceLimiter#contract).
    #[inline]
    pub fn table_creations_succeed<L: ResourceLimiter>() {}

    /// A growth of a table for which its type and its region have room, and which can be paid for,
    /// takes no memory: the limiter alone can refuse it.
    ///
    /// # Contract
    ///
    /// ```text
    /// ensures: TableGrowthsSucceed (optional_rules L.rules)
    /// ```
    ///
    /// Definitions: [`TableGrowthsSucceed`](crate::specs::region::LawsSpecs#TableGrowthsSucceed), [`optional_rules`](crate::specs::meter::LimiterSpecs#optional_rules).
    ///
    /// `L` is the type of the limiter, a [`ResourceLimiter`](crate::machine::ResourceLimiter#contract).
    #[inline]
    pub fn table_growths_succeed<L: ResourceLimiter>() {}

    /// A table on a region is made and grows as one of `wasmi_store`, which owns its elements.
    ///
    /// # Contract
    ///
    /// ```text
    /// ensures creations: CreationsAreTables (optional_rules L.rules)
    /// ensures growths: GrowthsAreTables (optional_rules L.rules)
    /// ```
    ///
    /// Definitions: [`CreationsAreTables`](crate::specs::region::LawsSpecs#CreationsAreTables), [`optional_rules`](crate::specs::meter::LimiterSpecs#optional_rules), [`GrowthsAreTables`](crate::specs::region::LawsSpecs#GrowthsAreTables).
    ///
    /// `L` is the type of the limiter, a [`ResourceLimiter`](crate::machine::ResourceLimiter#contract).
    #[inline]
    pub fn region_tables_are_tables<L: ResourceLimiter>() {}
}
pub mod memory {
    //! Linear memories whose bytes are the first of a region; the rest of it is room to grow in place.
    //! The caller keeps a memory's type and its size in bytes, and passes them to each call with the
    //! region, or the memory's bytes alone. Own: upstream's memory borrows its buffer while it lives.

    use crate::proved::meter::{Fuel, MemoryError, ResourceLimiter, ResourceLimiterRef};
    use crate::proved::store::MemoryType;
    use crate::proved::store::bulk::{
        MEMORY_OUTSIDE as OUTSIDE, copy_items, copy_items_within, fill_items,
    };
    use crate::proved::store::growth::{
        MEMORY_DENIED as DENIED, decide_growth, permitted_minimum, tell,
    };
    use crate::proved::store::range::fill_range;
    pub use crate::proved::store::range::{read_bytes, write_bytes};

    /// Whether a memory of a type may have `size` bytes: whole pages, as many as the type allows.
    ///
    /// # Contract
    ///
    /// ```text
    /// ensures: (result ≡ true → IsSized ty size) × (IsSized ty size → result ≡ true)
    /// ```
    ///
    /// Definitions: [`IsSized`](crate::specs::store::MemorySpecs#IsSized).
    #[must_use]
    #[inline]
    pub fn is_sized(ty: MemoryType, size: usize) -> bool {
        let pages = ty.pages_in(size);
        ty.minimum() <= pages && ty.size_of_pages(pages) == Some(size)
    }

    /// The number of whole pages in `size` bytes.
    ///
    /// # Contract
    ///
    /// ```text
    /// ensures: result ≡ size / page_bytes ty.page
    /// ```
    ///
    /// Definitions: [`page_bytes`](crate::specs::store::MemorySpecs#page_bytes).
    #[must_use]
    #[inline]
    pub fn pages(ty: MemoryType, size: usize) -> u64 {
        ty.pages_in(size)
    }

    /// Makes a memory of zeros at the front of a region, at the minimum of its type, and returns its
    /// size in bytes. It takes no fuel, and leaves the bytes past the minimum alone.
    ///
    /// # Errors
    ///
    /// In the order of the tests: [`MinimumSizeOverflow`](crate::MemoryError::MinimumSizeOverflow) if the minimum has 2^64 bytes or more; [`ResourceLimiterDeniedAllocation`](crate::MemoryError::ResourceLimiterDeniedAllocation) if the limiter doesn't permit it; [`InvalidStaticBufferSize`](crate::MemoryError::InvalidStaticBufferSize) if the region is shorter than the minimum, of which the limiter is notified. After an error the bytes of the region are unchanged.
    ///
    /// # Contract
    ///
    /// ```text
    /// ensures loan: KeepsLoan limiter.old limiter.new
    /// ensures made: MakesMemory (optional_rules L.rules) (Lent region.old) ty
    ///     (lent_limiter limiter.old) (made_in ty region.new result) (lent_limiter limiter.new)
    /// ensures sized: IfOk result (λ size. IsSized ty size × (size ≤ length region.new))
    /// ensures rest: IfOk result (λ size. drop size region.new ≡ drop size region.old)
    /// ensures refused: OnErr result (region.new ≡ region.old)
    /// ensures len: length region.new ≡ length region.old
    /// ```
    ///
    /// Definitions: [`KeepsLoan`](crate::specs::meter::LimiterSpecs#KeepsLoan), [`MakesMemory`](crate::specs::store::MemorySpecs#MakesMemory), [`optional_rules`](crate::specs::meter::LimiterSpecs#optional_rules), [`Lent`](crate::specs::store::BufferSpecs#Lent), [`lent_limiter`](crate::specs::meter::LimiterSpecs#lent_limiter), [`made_in`](crate::specs::region::MemorySpecs#made_in), [`IsSized`](crate::specs::store::MemorySpecs#IsSized).
    ///
    /// `L` is the type of the limiter, a [`ResourceLimiter`](crate::machine::ResourceLimiter#contract).
    #[doc = examples!(region make)]
    #[inline]
    pub fn make<L: ResourceLimiter>(
        ty: MemoryType,
        region: &mut [u8],
        limiter: &mut ResourceLimiterRef<L>,
    ) -> Result<usize, MemoryError> {
        let size = make_zeroed(ty, region, limiter)?;
        fill_range(region, 0, size, 0);
        Ok(size)
    }

    /// Makes a memory as [`make`] does, at the front of a region whose bytes up to the minimum are
    /// zeros already, as fresh pages are. It writes no byte: the memory has what stands there.
    ///
    /// # Errors
    ///
    /// In the order of the tests: [`MinimumSizeOverflow`](crate::MemoryError::MinimumSizeOverflow) if the minimum has 2^64 bytes or more; [`ResourceLimiterDeniedAllocation`](crate::MemoryError::ResourceLimiterDeniedAllocation) if the limiter doesn't permit it; [`InvalidStaticBufferSize`](crate::MemoryError::InvalidStaticBufferSize) if the region is shorter than the minimum, of which the limiter is notified. After an error the bytes of the region are unchanged.
    ///
    /// # Contract
    ///
    /// ```text
    /// ensures loan: KeepsLoan limiter.old limiter.new
    /// ensures made: MakesMemory (optional_rules L.rules) (Lent region.now) ty
    ///     (lent_limiter limiter.old) (made_in_zeros ty region.now result) (lent_limiter limiter.new)
    /// ensures sized: IfOk result (λ size. IsSized ty size × (size ≤ length region.now))
    /// ```
    ///
    /// Definitions: [`KeepsLoan`](crate::specs::meter::LimiterSpecs#KeepsLoan), [`MakesMemory`](crate::specs::store::MemorySpecs#MakesMemory), [`optional_rules`](crate::specs::meter::LimiterSpecs#optional_rules), [`Lent`](crate::specs::store::BufferSpecs#Lent), [`lent_limiter`](crate::specs::meter::LimiterSpecs#lent_limiter), [`made_in_zeros`](crate::specs::region::MemorySpecs#made_in_zeros), [`IsSized`](crate::specs::store::MemorySpecs#IsSized).
    ///
    /// `L` is the type of the limiter, a [`ResourceLimiter`](crate::machine::ResourceLimiter#contract).
    #[inline]
    pub fn make_zeroed<L: ResourceLimiter>(
        ty: MemoryType,
        region: &[u8],
        limiter: &mut ResourceLimiterRef<L>,
    ) -> Result<usize, MemoryError> {
        let size = permitted_minimum(ty, limiter)?;
        if region.len() < size {
            return Err(tell(limiter, MemoryError::InvalidStaticBufferSize, DENIED));
        }
        Ok(size)
    }

    /// Grows a memory of `size` bytes at the front of a region by `additional` pages of zeros, and
    /// returns the old size in pages; `size` becomes the new size in bytes. A growth by 0 pages changes
    /// nothing and asks no limiter.
    ///
    /// # Errors
    ///
    /// Those of [`LinearMemory::grow`](crate::proved::store::LinearMemory::grow) on a lent region.
    ///
    /// # Panics
    ///
    /// Panics if the type allows no such size, or if the size is above the length of the region.
    ///
    /// # Contract
    ///
    /// ```text
    /// requires sized: IsSized ty size.old
    /// requires within: size.old ≤ length region.old
    /// ensures loan: KeepsLoan limiter.old limiter.new
    /// ensures grown: GrowsMemory (optional_rules L.rules) additional
    ///     (metered_value (memory_in ty region.old size.old) (Some fuel.old)
    ///     (lent_limiter limiter.old)) result
    ///     (metered_value (memory_in ty region.new size.new) (Some fuel.new)
    ///     (lent_limiter limiter.new))
    /// ensures sized: IsSized ty size.new
    /// ensures within: size.new ≤ length region.new
    /// ensures len: length region.new ≡ length region.old
    /// ensures rest: drop size.new region.new ≡ drop size.new region.old
    /// ensures refused: OnErr result (region.new ≡ region.old)
    /// ensures size: OnErr result (size.new ≡ size.old)
    /// ```
    ///
    /// Definitions: [`IsSized`](crate::specs::store::MemorySpecs#IsSized), [`KeepsLoan`](crate::specs::meter::LimiterSpecs#KeepsLoan), [`GrowsMemory`](crate::specs::store::MemorySpecs#GrowsMemory), [`optional_rules`](crate::specs::meter::LimiterSpecs#optional_rules), [`metered_value`](crate::specs::store::GrowthSpecs#metered_value), [`memory_in`](crate::specs::region::MemorySpecs#memory_in), [`lent_limiter`](crate::specs::meter::LimiterSpecs#lent_limiter).
    ///
    /// `L` is the type of the limiter, a [`ResourceLimiter`](crate::machine::ResourceLimiter#contract).
    #[inline]
    pub fn grow<L: ResourceLimiter>(
        ty: MemoryType,
        size: &mut usize,
        region: &mut [u8],
        additional: u64,
        fuel: &mut Fuel,
        limiter: &mut ResourceLimiterRef<L>,
    ) -> Result<u64, MemoryError> {
        assert!(is_sized(ty, *size), "the type allows no such size");
        assert!(
            *size <= region.len(),
            "the size is above the length of the region"
        );
        let old_size = *size;
        let old_pages = grow_zeroed(ty, size, region, additional, fuel, limiter)?;
        fill_range(region, old_size, *size, 0);
        Ok(old_pages)
    }

    /// Grows a memory as [`grow`] does, into bytes of the region that are zeros already, as fresh pages
    /// of the system are. It writes no byte: where they aren't zeros, the memory has what stands there.
    ///
    /// # Errors
    ///
    /// Those of [`LinearMemory::grow`](crate::proved::store::LinearMemory::grow) on a lent region.
    ///
    /// # Panics
    ///
    /// Panics if the type allows no such size, or if the size is above the length of the region.
    ///
    /// # Contract
    ///
    /// ```text
    /// requires sized: IsSized ty size.old
    /// requires within: size.old ≤ length region.now
    /// ensures loan: KeepsLoan limiter.old limiter.new
    /// ensures grown: GrowsMemory (optional_rules L.rules) additional
    ///     (metered_value (memory_in ty region.now size.old) (Some fuel.old)
    ///     (lent_limiter limiter.old)) result
    ///     (metered_value (memory_in ty (zeroed region.now size.old size.new) size.new)
    ///     (Some fuel.new) (lent_limiter limiter.new))
    /// ensures sized: IsSized ty size.new
    /// ensures within: size.new ≤ length region.now
    /// ensures larger: size.old ≤ size.new
    /// ensures len: length (zeroed region.now size.old size.new) ≡ length region.now
    /// ensures rest: drop size.new (zeroed region.now size.old size.new) ≡ drop size.new region.now
    /// ensures refused: OnErr result (zeroed region.now size.old size.new ≡ region.now)
    /// ensures size: OnErr result (size.new ≡ size.old)
    /// ```
    ///
    /// Definitions: [`IsSized`](crate::specs::store::MemorySpecs#IsSized), [`KeepsLoan`](crate::specs::meter::LimiterSpecs#KeepsLoan), [`GrowsMemory`](crate::specs::store::MemorySpecs#GrowsMemory), [`optional_rules`](crate::specs::meter::LimiterSpecs#optional_rules), [`metered_value`](crate::specs::store::GrowthSpecs#metered_value), [`memory_in`](crate::specs::region::MemorySpecs#memory_in), [`lent_limiter`](crate::specs::meter::LimiterSpecs#lent_limiter), [`zeroed`](crate::specs::region::MemorySpecs#zeroed).
    ///
    /// `L` is the type of the limiter, a [`ResourceLimiter`](crate::machine::ResourceLimiter#contract).
    #[inline]
    pub fn grow_zeroed<L: ResourceLimiter>(
        ty: MemoryType,
        size: &mut usize,
        region: &[u8],
        additional: u64,
        fuel: &mut Fuel,
        limiter: &mut ResourceLimiterRef<L>,
    ) -> Result<u64, MemoryError> {
        assert!(is_sized(ty, *size), "the type allows no such size");
        assert!(
            *size <= region.len(),
            "the size is above the length of the region"
        );
        let old_size = *size;
        let old_pages = ty.pages_in(old_size);
        if additional == 0 {
            return Ok(old_pages);
        }
        let Some(new_size) = ty.grown_size(old_size, additional) else {
            return Err(MemoryError::OutOfBoundsGrowth);
        };
        let maximum = ty.maximum_size();
        let has_room = new_size <= region.len();
        decide_growth(old_size, new_size, maximum, has_room, fuel, limiter)?;
        *size = new_size;
        Ok(old_pages)
    }

    /// What a growth by `additional` pages asks a limiter: the new size in bytes, and the most that the
    /// type allows. It is `None` if the type refuses the growth; then no limiter is asked.
    ///
    /// # Panics
    ///
    /// Panics if the type allows no such size.
    ///
    /// # Contract
    ///
    /// ```text
    /// requires sized: IsSized ty size
    /// ensures asked: MatchOption result
    ///     (in_bounds ty (size / page_bytes ty.page + additional) ≡ false)
    ///     (λ asked. (in_bounds ty (size / page_bytes ty.page + additional) ≡ true)
    ///     × (asked.0 ≡ size + additional * page_bytes ty.page) × (asked.1 ≡ maximum_bytes ty))
    /// ```
    ///
    /// Definitions: [`IsSized`](crate::specs::store::MemorySpecs#IsSized), [`in_bounds`](crate::specs::store::MemorySpecs#in_bounds), [`page_bytes`](crate::specs::store::MemorySpecs#page_bytes), [`maximum_bytes`](crate::specs::store::MemorySpecs#maximum_bytes).
    #[must_use]
    #[inline]
    pub fn question(
        ty: MemoryType,
        size: usize,
        additional: u64,
    ) -> Option<(usize, Option<usize>)> {
        assert!(is_sized(ty, size), "the type allows no such size");
        Some((ty.grown_size(size, additional)?, ty.maximum_size()))
    }

    /// Fills bytes of a memory, as [`LinearMemory::fill`](crate::proved::store::LinearMemory::fill) does.
    ///
    /// # Errors
    ///
    /// In the order of the tests: [`OutOfBoundsAccess`](crate::MemoryError::OutOfBoundsAccess) if a range ends past its memory or segment; [`OutOfFuel`](crate::MemoryError::OutOfFuel), which is tested also if no byte is written. Then no byte is written, and no fuel taken.
    ///
    /// # Contract
    ///
    /// ```text
    /// ensures: BulkWrites (filled bytes.old dst value len) len
    ///     (metered bytes.old (Some fuel.old)) result (metered bytes.new (Some fuel.new))
    /// ```
    ///
    /// Definitions: [`BulkWrites`](crate::specs::store::WriteSpecs#BulkWrites), [`filled`](crate::specs::store::WriteSpecs#filled), [`metered`](crate::specs::store::GrowthSpecs#metered).
    #[inline]
    pub fn fill(
        bytes: &mut [u8],
        dst: u64,
        value: u8,
        len: u64,
        fuel: &mut Fuel,
    ) -> Result<(), MemoryError> {
        fill_items(bytes, dst, value, len, OUTSIDE, fuel)
    }

    /// Copies bytes of a memory, as [`LinearMemory::copy_within`](crate::proved::store::LinearMemory::copy_within) does.
    ///
    /// # Errors
    ///
    /// In the order of the tests: [`OutOfBoundsAccess`](crate::MemoryError::OutOfBoundsAccess) if a range ends past its memory or segment; [`OutOfFuel`](crate::MemoryError::OutOfFuel), which is tested also if no byte is written. Then no byte is written, and no fuel taken.
    ///
    /// # Contract
    ///
    /// ```text
    /// ensures: BulkWrites (copied bytes.old dst bytes.old src len) len
    ///     (metered bytes.old (Some fuel.old)) result (metered bytes.new (Some fuel.new))
    /// ```
    ///
    /// Definitions: [`BulkWrites`](crate::specs::store::WriteSpecs#BulkWrites), [`copied`](crate::specs::store::WriteSpecs#copied), [`metered`](crate::specs::store::GrowthSpecs#metered).
    #[inline]
    pub fn copy_within(
        bytes: &mut [u8],
        dst: u64,
        src: u64,
        len: u64,
        fuel: &mut Fuel,
    ) -> Result<(), MemoryError> {
        copy_items_within(bytes, dst, src, len, OUTSIDE, fuel)
    }

    /// Copies bytes to a memory, as [`LinearMemory::copy`](crate::proved::store::LinearMemory::copy) does.
    ///
    /// # Errors
    ///
    /// In the order of the tests: [`OutOfBoundsAccess`](crate::MemoryError::OutOfBoundsAccess) if a range ends past its memory or segment; [`OutOfFuel`](crate::MemoryError::OutOfFuel), which is tested also if no byte is written. Then no byte is written, and no fuel taken.
    ///
    /// # Contract
    ///
    /// ```text
    /// ensures: BulkWrites (copied bytes.old dst source.now src len) len
    ///     (metered bytes.old (Some fuel.old)) result (metered bytes.new (Some fuel.new))
    /// ```
    ///
    /// Definitions: [`BulkWrites`](crate::specs::store::WriteSpecs#BulkWrites), [`copied`](crate::specs::store::WriteSpecs#copied), [`metered`](crate::specs::store::GrowthSpecs#metered).
    #[inline]
    pub fn copy(
        bytes: &mut [u8],
        source: &[u8],
        dst: u64,
        src: u64,
        len: u64,
        fuel: &mut Fuel,
    ) -> Result<(), MemoryError> {
        copy_items(bytes, dst, source, src, len, OUTSIDE, fuel)
    }

    /// Copies a segment to a memory, as [`LinearMemory::init`](crate::proved::store::LinearMemory::init) does.
    ///
    /// # Errors
    ///
    /// In the order of the tests: [`OutOfBoundsAccess`](crate::MemoryError::OutOfBoundsAccess) if a range ends past its memory or segment; [`OutOfFuel`](crate::MemoryError::OutOfFuel), which is tested also if no byte is written. Then no byte is written, and no fuel taken.
    ///
    /// # Contract
    ///
    /// ```text
    /// ensures: BulkWrites (copied bytes.old dst segment.now src len) len
    ///     (metered bytes.old (Some fuel.old)) result (metered bytes.new (Some fuel.new))
    /// ```
    ///
    /// Definitions: [`BulkWrites`](crate::specs::store::WriteSpecs#BulkWrites), [`copied`](crate::specs::store::WriteSpecs#copied), [`metered`](crate::specs::store::GrowthSpecs#metered).
    #[inline]
    pub fn init(
        bytes: &mut [u8],
        segment: &[u8],
        dst: u64,
        src: u32,
        len: u32,
        fuel: &mut Fuel,
    ) -> Result<(), MemoryError> {
        let (src, len) = (u64::from(src), u64::from(len));
        copy_items(bytes, dst, segment, src, len, OUTSIDE, fuel)
    }
}
pub mod table {
    //! Tables whose elements are the first of a region of references. The caller keeps a table's type
    //! and its size, and passes them to each call with the region or with the elements; the rest of the
    //! region is room to grow in place. What a growth asks a limiter. A reference is a number, whose
    //! type is the caller's matter. Own: upstream's table owns its elements.

    use crate::proved::meter::{Fuel, ResourceLimiter, ResourceLimiterRef, TableError};
    use crate::proved::raw::RawRef;
    use crate::proved::store::TableType;
    use crate::proved::store::bulk::{copy_items, copy_items_within, fill_items, init_elements};
    use crate::proved::store::growth::{TABLE_DENIED as DENIED, charge, permission, tell};
    use crate::proved::store::range::{fill_range, write_range};

    /// Whether a table of a type may have `size` elements.
    ///
    /// # Contract
    ///
    /// ```text
    /// ensures: (result ≡ true → IsSized ty size) × (IsSized ty size → result ≡ true)
    /// ```
    ///
    /// Definitions: [`IsSized`](crate::specs::store::TableSpecs#IsSized).
    #[must_use]
    #[inline]
    pub fn is_sized(ty: TableType, size: usize) -> bool {
        ty.minimum() <= size as u64 && ty.indexes_size(size) && ty.allows_size(size)
    }

    /// Makes a table with one reference in each place at the front of a region, at the minimum of its
    /// type, and returns its size. It takes no fuel, and leaves the elements past the minimum alone.
    ///
    /// # Errors
    ///
    /// In the order of the tests: [`MinimumSizeOverflow`](crate::TableError::MinimumSizeOverflow) if `usize` has 32 bits and the minimum more; [`ResourceLimiterDeniedAllocation`](crate::TableError::ResourceLimiterDeniedAllocation) if the limiter doesn't permit it; [`OutOfSystemMemory`](crate::TableError::OutOfSystemMemory) if the region is shorter than the minimum, of which the limiter is notified. After an error the region is unchanged.
    ///
    /// # Contract
    ///
    /// ```text
    /// ensures loan: KeepsLoan limiter.old limiter.new
    /// ensures made: MakesTableIn (optional_rules L.rules) ty (length region.old) reference
    ///     (lent_limiter limiter.old) (made_in ty region.new result) (lent_limiter limiter.new)
    /// ensures sized: IfOk result (λ size. IsSized ty size × (size ≤ length region.new))
    /// ensures rest: IfOk result (λ size. drop size region.new ≡ drop size region.old)
    /// ensures refused: OnErr result (region.new ≡ region.old)
    /// ensures len: length region.new ≡ length region.old
    /// ```
    ///
    /// Definitions: [`KeepsLoan`](crate::specs::meter::LimiterSpecs#KeepsLoan), [`MakesTableIn`](crate::specs::region::TableSpecs#MakesTableIn), [`optional_rules`](crate::specs::meter::LimiterSpecs#optional_rules), [`lent_limiter`](crate::specs::meter::LimiterSpecs#lent_limiter), [`made_in`](crate::specs::region::TableSpecs#made_in), [`IsSized`](crate::specs::store::TableSpecs#IsSized).
    ///
    /// `L` is the type of the limiter, a [`ResourceLimiter`](crate::machine::ResourceLimiter#contract).
    #[inline]
    pub fn make<L: ResourceLimiter>(
        ty: TableType,
        region: &mut [u32],
        reference: u32,
        limiter: &mut ResourceLimiterRef<L>,
    ) -> Result<usize, TableError> {
        let Ok(size) = usize::try_from(ty.minimum()) else {
            return Err(TableError::MinimumSizeOverflow);
        };
        let answer = limiter.table_growing(0, size, ty.maximum_size());
        permission(answer, DENIED, DENIED)?;
        if region.len() < size {
            return Err(tell(limiter, TableError::OutOfSystemMemory, DENIED));
        }
        let front = &mut region[..size];
        front.fill(reference);
        Ok(size)
    }

    /// Grows a table of `size` elements at the front of a region by `delta`, each the given reference,
    /// and returns the old size; `size` becomes the new one. A growth by 0 changes nothing and asks no
    /// limiter. What lies past the table is unchanged.
    ///
    /// # Errors
    ///
    /// Those of [`Table::grow_raw`](crate::proved::store::Table::grow_raw), of which [`OutOfSystemMemory`](crate::TableError::OutOfSystemMemory) comes only if the region is shorter than the new size. After an error the whole region is unchanged.
    ///
    /// # Panics
    ///
    /// Panics if the type allows no such size, or if the size is above the length of the region.
    ///
    /// # Contract
    ///
    /// ```text
    /// requires sized: IsSized ty size.old
    /// requires within: size.old ≤ length region.old
    /// ensures loan: KeepsLoan limiter.old limiter.new
    /// ensures grown: GrowsTableIn (optional_rules L.rules) (length region.old) delta reference
    ///     (metered_value (table_in ty region.old size.old) (Some fuel.old)
    ///     (lent_limiter limiter.old)) result
    ///     (metered_value (table_in ty region.new size.new) (Some fuel.new)
    ///     (lent_limiter limiter.new))
    /// ensures sized: IsSized ty size.new
    /// ensures within: size.new ≤ length region.new
    /// ensures len: length region.new ≡ length region.old
    /// ensures rest: drop size.new region.new ≡ drop size.new region.old
    /// ensures refused: OnErr result (region.new ≡ region.old)
    /// ensures size: OnErr result (size.new ≡ size.old)
    /// ```
    ///
    /// Definitions: [`IsSized`](crate::specs::store::TableSpecs#IsSized), [`KeepsLoan`](crate::specs::meter::LimiterSpecs#KeepsLoan), [`GrowsTableIn`](crate::specs::region::TableSpecs#GrowsTableIn), [`optional_rules`](crate::specs::meter::LimiterSpecs#optional_rules), [`metered_value`](crate::specs::store::GrowthSpecs#metered_value), [`table_in`](crate::specs::region::TableSpecs#table_in), [`lent_limiter`](crate::specs::meter::LimiterSpecs#lent_limiter).
    ///
    /// `L` is the type of the limiter, a [`ResourceLimiter`](crate::machine::ResourceLimiter#contract).
    #[inline]
    pub fn grow<L: ResourceLimiter>(
        ty: TableType,
        size: &mut usize,
        region: &mut [u32],
        delta: u64,
        reference: u32,
        fuel: &mut Fuel,
        limiter: &mut ResourceLimiterRef<L>,
    ) -> Result<u64, TableError> {
        assert!(is_sized(ty, *size), "the type allows no such size");
        assert!(
            *size <= region.len(),
            "the size is above the length of the region"
        );
        let old_size = *size as u64;
        if delta == 0 {
            return Ok(old_size);
        }
        let Some(desired) = ty.grown_size(old_size, delta) else {
            return Err(TableError::GrowOutOfBounds);
        };
        let answer = limiter.table_growing(*size, desired, ty.maximum_size());
        permission(answer, TableError::GrowOutOfBounds, DENIED)?;
        if !ty.allows_size(desired) {
            return Err(tell(limiter, TableError::GrowOutOfBounds, DENIED));
        }
        if let Err(required_fuel) = charge::<RawRef>(fuel, delta) {
            return Err(tell(
                limiter,
                TableError::OutOfFuel { required_fuel },
                DENIED,
            ));
        }
        if region.len() < desired {
            return Err(tell(limiter, TableError::OutOfSystemMemory, DENIED));
        }
        fill_range(region, *size, desired, reference);
        *size = desired;
        Ok(old_size)
    }

    /// What a growth by `delta` elements asks a limiter: the new size, and the maximum. It is `None` if
    /// there would be as many elements as indices; then no limiter is asked.
    ///
    /// # Contract
    ///
    /// ```text
    /// ensures: MatchOption result (is_indexable ty (size + delta) ≡ false)
    ///     (λ asked. (is_indexable ty (size + delta) ≡ true)
    ///     × (asked.0 ≡ size + delta) × (asked.1 ≡ ty.maximum))
    /// ```
    ///
    /// Definitions: [`is_indexable`](crate::specs::store::TableSpecs#is_indexable).
    #[must_use]
    #[inline]
    pub fn question(ty: TableType, size: usize, delta: u64) -> Option<(usize, Option<usize>)> {
        Some((ty.grown_size(size as u64, delta)?, ty.maximum_size()))
    }

    /// Sets the element at an index.
    ///
    /// # Errors
    ///
    /// [`SetOutOfBounds`](crate::TableError::SetOutOfBounds) past the end.
    ///
    /// # Contract
    ///
    /// ```text
    /// ensures: SetsTableRaw index value (table_of ty elements.old) result
    ///     (table_of ty elements.new)
    /// ```
    ///
    /// Definitions: [`SetsTableRaw`](crate::specs::store::TableSpecs#SetsTableRaw), [`table_of`](crate::specs::store::TableSpecs#table_of).
    #[inline]
    pub fn set(
        ty: TableType,
        elements: &mut [u32],
        index: u64,
        value: u32,
    ) -> Result<(), TableError> {
        let index = usize::try_from(index).map_err(|_| TableError::SetOutOfBounds)?;
        if index >= elements.len() {
            return Err(TableError::SetOutOfBounds);
        }
        write_range(elements, index, &[value]);
        Ok(())
    }

    /// Fills `len` elements from `dst` on with a reference.
    ///
    /// # Errors
    ///
    /// In the order of the tests: [`FillOutOfBounds`](crate::TableError::FillOutOfBounds) if they end past the table; [`OutOfFuel`](crate::TableError::OutOfFuel), which is tested also if no element is filled.
    ///
    /// # Contract
    ///
    /// ```text
    /// ensures: WritesTable (raw_filling_of dst reference len)
    ///     (metered (table_of ty elements.old) (Some fuel.old)) result
    ///     (metered (table_of ty elements.new) (Some fuel.new))
    /// ```
    ///
    /// Definitions: [`WritesTable`](crate::specs::store::TableSpecs#WritesTable), [`raw_filling_of`](crate::specs::store::TableSpecs#raw_filling_of), [`metered`](crate::specs::store::GrowthSpecs#metered), [`table_of`](crate::specs::store::TableSpecs#table_of).
    #[inline]
    pub fn fill(
        ty: TableType,
        elements: &mut [u32],
        dst: u64,
        reference: u32,
        len: u64,
        fuel: &mut Fuel,
    ) -> Result<(), TableError> {
        let outside = TableError::FillOutOfBounds;
        fill_items(elements, dst, reference, len, outside, fuel)
    }

    /// Copies `len` elements from `src` on over those from `dst` on.
    ///
    /// # Errors
    ///
    /// In the order of the tests: [`CopyOutOfBounds`](crate::TableError::CopyOutOfBounds) if a range ends past the table; [`OutOfFuel`](crate::TableError::OutOfFuel), which is tested also if no element is copied.
    ///
    /// # Contract
    ///
    /// ```text
    /// ensures: WritesTable (copy_of dst src len (table_of ty elements.old))
    ///     (metered (table_of ty elements.old) (Some fuel.old)) result
    ///     (metered (table_of ty elements.new) (Some fuel.new))
    /// ```
    ///
    /// Definitions: [`WritesTable`](crate::specs::store::TableSpecs#WritesTable), [`copy_of`](crate::specs::store::TableSpecs#copy_of), [`table_of`](crate::specs::store::TableSpecs#table_of), [`metered`](crate::specs::store::GrowthSpecs#metered).
    #[inline]
    pub fn copy_within(
        ty: TableType,
        elements: &mut [u32],
        dst: u64,
        src: u64,
        len: u64,
        fuel: &mut Fuel,
    ) -> Result<(), TableError> {
        copy_items_within(elements, dst, src, len, TableError::CopyOutOfBounds, fuel)
    }

    /// Copies `len` items of a table, from `src` on, over the elements of another table from `dst` on.
    ///
    /// # Errors
    ///
    /// In the order of the tests: [`ElementTypeMismatch`](crate::TableError::ElementTypeMismatch) if the types differ; [`CopyOutOfBounds`](crate::TableError::CopyOutOfBounds) if a range ends past its table; [`OutOfFuel`](crate::TableError::OutOfFuel), which is tested also if no element is copied.
    ///
    /// # Contract
    ///
    /// ```text
    /// ensures: WritesTable (copy_of dst src len (table_of source items.now))
    ///     (metered (table_of ty elements.old) (Some fuel.old)) result
    ///     (metered (table_of ty elements.new) (Some fuel.new))
    /// ```
    ///
    /// Definitions: [`WritesTable`](crate::specs::store::TableSpecs#WritesTable), [`copy_of`](crate::specs::store::TableSpecs#copy_of), [`table_of`](crate::specs::store::TableSpecs#table_of), [`metered`](crate::specs::store::GrowthSpecs#metered).
    #[inline]
    pub fn copy(
        ty: TableType,
        elements: &mut [u32],
        source: TableType,
        items: &[u32],
        dst: u64,
        src: u64,
        len: u64,
        fuel: &mut Fuel,
    ) -> Result<(), TableError> {
        ty.ensure_element_type_matches(source.element())?;
        let outside = TableError::CopyOutOfBounds;
        copy_items(elements, dst, items, src, len, outside, fuel)
    }

    /// Copies `len` items of the type of a table's elements, from `src` on, over those from `dst` on.
    ///
    /// # Errors
    ///
    /// In the order of the tests: [`ElementTypeMismatch`](crate::TableError::ElementTypeMismatch) if the items are of another type; [`InitOutOfBounds`](crate::TableError::InitOutOfBounds) if a range ends past the segment or the table; [`OutOfFuel`](crate::TableError::OutOfFuel).
    ///
    /// # Contract
    ///
    /// ```text
    /// ensures: WritesTable (initialization_of dst src len (items_of ty items.now))
    ///     (metered (table_of ty elements.old) (Some fuel.old)) result
    ///     (metered (table_of ty elements.new) (Some fuel.new))
    /// ```
    ///
    /// Definitions: [`WritesTable`](crate::specs::store::TableSpecs#WritesTable), [`initialization_of`](crate::specs::store::TableSpecs#initialization_of), [`items_of`](crate::specs::region::TableSpecs#items_of), [`metered`](crate::specs::store::GrowthSpecs#metered), [`table_of`](crate::specs::store::TableSpecs#table_of).
    #[inline]
    pub fn init(
        ty: TableType,
        elements: &mut [u32],
        items: &[u32],
        dst: u64,
        src: u64,
        len: u64,
        fuel: &mut Fuel,
    ) -> Result<(), TableError> {
        init_elements(elements, dst, items, src, len, fuel)
    }
}
