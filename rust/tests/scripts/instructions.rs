//! Scripts of registers, vector instructions, loads and stores, and what they print.
use super::{Script, answers_each};

static VECTORS: [Script; 8] = [
    script! {
        "show 0" => "raw 0 0",
        "set 15 18446744073709551615 1" => "done",
        "show 15" => "raw 18446744073709551615 1",
        "show 015" => "raw 18446744073709551615 1",
        "set 16 1 1" => "no such",
        "set 255 1 1" => "no such",
        "show 255" => "no such",
        "show 14" => "raw 0 0",
    },
    script! {
        "set 0 1 2" => "done",
        "set 1 4 8" => "done",
        "set 2 16 32" => "done",
        "binary i64x2_sub 3 0 1" => "done",
        "show 3" => "raw 18446744073709551613 18446744073709551610",
        "binary i64x2_sub 0 1 0" => "done",
        "show 0" => "raw 3 6",
        "ternary v128_bitselect 4 1 2 1" => "done",
        "show 4" => "raw 20 40",
        "ternary v128_bitselect 4 2 1 1" => "done",
        "show 4" => "raw 0 0",
        "binary i64x2_sub 16 0 1" => "no such",
        "binary i64x2_sub 0 16 1" => "no such",
        "binary i64x2_sub 0 1 16" => "no such",
        "ternary v128_bitselect 0 0 0 16" => "no such",
        "ternary v128_bitselect 0 0 16 0" => "no such",
        "ternary v128_bitselect 0 16 0 0" => "no such",
        "ternary v128_bitselect 16 0 0 0" => "no such",
        "show 0" => "raw 3 6",
    },
    script! {
        "set 0 3 5" => "done",
        "unary v128_not 1 0" => "done",
        "show 1" => "raw 18446744073709551612 18446744073709551610",
        "show 0" => "raw 3 5",
        "unary v128_not 16 0" => "no such",
        "unary v128_not 0 16" => "no such",
        "make i64x2_splat 2 0" => "done",
        "show 2" => "raw 3 3",
        "make i64x2_splat 16 0" => "no such",
        "make i64x2_splat 0 16" => "no such",
        "shift i32x4_shl 3 0 4294967295" => "done",
        "show 3" => "raw 2147483648 2147483648",
        "shift i32x4_shl 16 0 1" => "no such",
        "shift i32x4_shl 0 16 1" => "no such",
        "test v128_any_true 0" => "raw 1 0",
        "test v128_any_true 4" => "raw 0 0",
        "test v128_any_true 16" => "no such",
        "show 0" => "raw 3 5",
    },
    script! {
        "set 0 72623859790382856 1157726452361532951" => "done",
        "set 1 255 7" => "done",
        "extract i8x16_extract_lane_u 0 0" => "raw 8 0",
        "extract i8x16_extract_lane_u 0 15" => "raw 16 0",
        "extract i16x8_extract_lane_s 0 7" => "raw 4113 0",
        "extract i32x4_extract_lane 0 3" => "raw 269554195 0",
        "extract i64x2_extract_lane 0 1" => "raw 1157726452361532951 0",
        "extract i64x2_extract_lane 16 1" => "no such",
        "replace i8x16_replace_lane 2 0 15 1" => "done",
        "show 2" => "raw 72623859790382856 18379491427426309655",
        "replace i64x2_replace_lane 2 1 0 0" => "done",
        "show 2" => "raw 72623859790382856 7",
        "replace i64x2_replace_lane 16 0 0 1" => "no such",
        "replace i64x2_replace_lane 0 16 0 1" => "no such",
        "replace i64x2_replace_lane 0 0 0 16" => "no such",
        "show 0" => "raw 72623859790382856 1157726452361532951",
    },
    script! {
        "set 0 506097522914230528 1084818905618843912" => "done",
        "set 1 1663540288323457296 2242261671028070680" => "done",
        "shuffle 2 0 1 0 1 2 3 4 5 6 7 24 25 26 27 28 29 30 31" => "done",
        "show 2" => "raw 506097522914230528 2242261671028070680",
        "shuffle 0 0 1 31 30 29 28 27 26 25 24 7 6 5 4 3 2 1 0" => "done",
        "show 0" => "raw 1736447835066146335 283686952306183",
        "shuffle 16 0 0 0 0 0 0 0 0 0 0 0 0 0 0 0 0 0 0" => "no such",
        "shuffle 0 16 0 0 0 0 0 0 0 0 0 0 0 0 0 0 0 0 0" => "no such",
        "shuffle 0 0 16 0 0 0 0 0 0 0 0 0 0 0 0 0 0 0 0" => "no such",
    },
    script! {
        "memory 1 none 16 32" => "memory 0",
        "set 0 1 2" => "done",
        "vstore 0 0 65520 0" => "done",
        "vstore 0 0 65520 1" => "error out of bounds memory access",
        "read 0 65519 17" => "bytes 0 1 0 0 0 0 0 0 0 2 0 0 0 0 0 0 0",
        "vload v128_load 1 0 65000 520" => "done",
        "show 1" => "raw 1 2",
        "vload v128_load 1 0 18446744073709551615 1" => "error out of bounds memory access",
        "show 1" => "raw 1 2",
        "vstore 0 1 0 0" => "no such",
        "vstore 16 0 0 0" => "no such",
        "vload v128_load 16 0 0 0" => "no such",
        "vload v128_load 0 1 0 0" => "no such",
    },
    script! {
        "memory 1 none 16 32" => "memory 0",
        "memory 1 none 16 64" => "memory 1",
        "set 0 72623859790382856 1157726452361532951" => "done",
        "vstorelane v128_store16_lane 0 7 1 3 4" => "done",
        "read 1 6 4" => "bytes 0 17 16 0",
        "read 0 6 4" => "bytes 0 0 0 0",
        "vstorelane v128_store64_lane 0 0 1 65529 0" => "error out of bounds memory access",
        "read 1 65528 8" => "bytes 0 0 0 0 0 0 0 0",
        "vloadlane v128_load16_lane 1 0 0 1 3 4" => "done",
        "show 1" => "raw 72623859790385169 1157726452361532951",
        "vloadlane v128_load8_lane 0 1 15 1 65536 0" => "error out of bounds memory access",
        "show 0" => "raw 72623859790382856 1157726452361532951",
        "vloadlane v128_load8_lane 16 1 15 1 0 0" => "no such",
        "vloadlane v128_load8_lane 0 16 15 1 0 0" => "no such",
        "vloadlane v128_load8_lane 0 1 15 2 0 0" => "no such",
        "vstorelane v128_store8_lane 16 0 0 0 0" => "no such",
        "vstorelane v128_store8_lane 0 0 2 0 0" => "no such",
    },
    script! {
        "meter on 1",
        "quota 65536 0",
        "fuel 5" => "done",
        "memory 1 none 16 32" => "memory 0",
        "vstore 0 0 0 0" => "done",
        "vload v128_load 0 0 0 0" => "done",
        "left" => "value 5";
        "held 65536 0",
    },
];

#[test]
fn prints_the_replies_of_vectors() {
    answers_each(&VECTORS);
}

/// A load of the bytes 128 to 135 at place 0 and at place 3, and of zeros at the last place that it
/// can read from and at the one after it.
macro_rules! load {
    ($name:literal, last: $last:literal, first: $first:literal, fourth: $fourth:literal) => {
        script! {
            "memory 1 none 16 32" => "memory 0",
            "write 0 0 128 129 130 131 132 133 134 135" => "done",
            concat!("load ", $name, " 0 0 0") => concat!("raw ", $first, " 0"),
            concat!("load ", $name, " 0 1 2") => concat!("raw ", $fourth, " 0"),
            concat!("load ", $name, " 0 ", $last, " 0") => "raw 0 0",
            concat!("load ", $name, " 0 ", $last, " 1") => "error out of bounds memory access",
            "",
        }
    };
}

static LOADS: [Script; 12] = [
    load! { "i32_load8_s", last: 65535, first: 4294967168, fourth: 4294967171 },
    load! { "i32_load8_u", last: 65535, first: 128, fourth: 131 },
    load! { "i32_load16_s", last: 65534, first: 4294934912, fourth: 4294935683 },
    load! { "i32_load16_u", last: 65534, first: 33152, fourth: 33923 },
    load! { "i64_load8_s", last: 65535, first: 18446744073709551488, fourth: 18446744073709551491 },
    load! { "i64_load8_u", last: 65535, first: 128, fourth: 131 },
    load! {
        "i64_load16_s", last: 65534, first: 18446744073709519232, fourth: 18446744073709520003
    },
    load! { "i64_load16_u", last: 65534, first: 33152, fourth: 33923 },
    load! {
        "i64_load32_s", last: 65532, first: 18446744071620952448, fourth: 18446744071671481475
    },
    load! { "i64_load32_u", last: 65532, first: 2206368128, fourth: 2256897155 },
    load! { "load_u32", last: 65532, first: 2206368128, fourth: 2256897155 },
    load! { "load_u64", last: 65528, first: 9765639646188044672, fourth: 582077482115 },
];

#[test]
fn each_load_reads_its_bytes() {
    answers_each(&LOADS);
}

/// A store of the bytes 1 to 8 over bytes 255 at place 3, at the last place that it can write to and
/// at the one after it.
macro_rules! store {
    ($name:literal, last: $last:literal, after: $after:literal) => {
        script! {
            "memory 1 none 16 32" => "memory 0",
            "write 0 0 255 255 255 255 255 255 255 255 255 255 255 255" => "done",
            concat!("store ", $name, " 0 1 2 578437695752307201") => "done",
            "read 0 0 12" => concat!("bytes ", $after),
            concat!("store ", $name, " 0 ", $last, " 0 0") => "done",
            concat!("store ", $name, " 0 ", $last, " 1 0") => "error out of bounds memory access",
            "",
        }
    };
}

static STORES: [Script; 7] = [
    store! { "i32_store8", last: 65535, after: "255 255 255 1 255 255 255 255 255 255 255 255" },
    store! { "i32_store16", last: 65534, after: "255 255 255 1 2 255 255 255 255 255 255 255" },
    store! { "i64_store8", last: 65535, after: "255 255 255 1 255 255 255 255 255 255 255 255" },
    store! { "i64_store16", last: 65534, after: "255 255 255 1 2 255 255 255 255 255 255 255" },
    store! { "i64_store32", last: 65532, after: "255 255 255 1 2 3 4 255 255 255 255 255" },
    store! { "store32", last: 65532, after: "255 255 255 1 2 3 4 255 255 255 255 255" },
    store! { "store64", last: 65528, after: "255 255 255 1 2 3 4 5 6 7 8 255" },
];

#[test]
fn each_store_writes_its_bytes() {
    answers_each(&STORES);
}
