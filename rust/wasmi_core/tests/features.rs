//! Each feature of the package turns that of the crate on, and nothing else does.
use wasmi_core::{MemoryError, MemoryType};

#[test]
fn memory64() {
    let mut builder = MemoryType::builder();
    builder.memory64(true);
    let built = builder.build().map(|ty| ty.is_64());
    let expected = if cfg!(feature = "memory64") {
        Ok(true)
    } else {
        Err(MemoryError::InvalidMemoryType)
    };
    assert_eq!(built, expected);
}

#[cfg(feature = "simd")]
#[test]
fn simd() {
    use wasmi_core::simd::{i32x4_bitmask, i32x4_splat};
    assert_eq!(i32x4_bitmask(i32x4_splat(-1)), 15);
}

#[cfg(feature = "std")]
#[test]
fn std() {
    let trap: Box<dyn std::error::Error> = Box::new(wasmi_core::Trap::new("why"));
    assert_eq!(trap.to_string(), "why");
    assert_eq!(wasmi_core::script::Status::Answered.code(), 0);
}
