//! What proposals add to the binary format that the engine lacks. A module that has it isn't malformed.

const EXCEPTIONS: &str = "exceptions aren't supported";
const REFERENCES: &str = "typed references to functions aren't supported";
const COLLECTION: &str = "garbage collection isn't supported";
const SWITCHING: &str = "stack switching isn't supported";
const THREADS: &str = "threads aren't supported";
const HALVES: &str = "floats of 16 bits aren't supported";

/// Of the opcode of an instruction, as `instructions` has it.
pub(crate) fn of_instruction(opcode: u32) -> Option<&'static str> {
    match opcode {
        0x06..=0x0a | 0x18 | 0x19 | 0x1f => Some(EXCEPTIONS),
        0x14 | 0x15 | 0xd4..=0xd6 => Some(REFERENCES),
        0xd3 | 0xfb => Some(COLLECTION),
        0xe0..=0xe6 => Some(SWITCHING),
        0xfe => Some(THREADS),
        0xfc030 | 0xfc031 | 0xfd120..=0xfd14f => Some(HALVES),
        _ => None,
    }
}

/// Of the first byte of a type of values or references, or of one in the section of types.
pub(crate) fn of_type(byte: u8) -> Option<&'static str> {
    match byte {
        0x63 | 0x64 => Some(REFERENCES),
        0x4e..=0x50 | 0x5e | 0x5f | 0x6a..=0x6e | 0x71..=0x73 => Some(COLLECTION),
        0x69 | 0x74 => Some(EXCEPTIONS),
        0x5d | 0x68 | 0x75 => Some(SWITCHING),
        _ => None,
    }
}

/// Of the number of a section.
pub(crate) fn of_section(id: u8) -> Option<&'static str> {
    (id == 13).then_some(EXCEPTIONS)
}

/// Of the kind of an import or an export.
pub(crate) fn of_extern(kind: u8) -> Option<&'static str> {
    (kind == 4).then_some(EXCEPTIONS)
}

/// Of the flags of limits.
pub(crate) fn of_limits(flags: u8) -> Option<&'static str> {
    matches!(flags, 2 | 3 | 6 | 7).then_some(THREADS)
}

/// Of the version of the binary format.
pub(crate) fn of_version(version: &[u8]) -> Option<&'static str> {
    (version.len() == 4 && version[2..] == [1, 0]).then_some("components aren't supported")
}
