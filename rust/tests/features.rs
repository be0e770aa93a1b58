//! What a feature changes: without `memory64` no type of memories has 64-bit addresses, and all others are as with it.
use wasmi_core_proved::{MemoryError, MemoryType, RefType, TableType};

#[test]
fn memories_of_64_bits_are_refused_without_their_feature() {
    for (is_64, page_size_log2) in [(false, 0), (false, 16), (true, 0), (true, 16)] {
        let mut builder = MemoryType::builder();
        builder
            .min(1)
            .max(Some(2))
            .page_size_log2(page_size_log2)
            .memory64(is_64);
        let built = builder
            .build()
            .map(|ty| (ty.is_64(), ty.page_size_log2(), ty.minimum(), ty.maximum()));
        let is_built = cfg!(feature = "memory64") || !is_64;
        let expected = is_built.then_some((is_64, page_size_log2, 1, Some(2)));
        assert_eq!(
            built,
            expected.ok_or(MemoryError::InvalidMemoryType),
            "{is_64}, {page_size_log2}"
        );
    }
    assert!(TableType::new64(RefType::Func, 1, None).is_64());
}
