//! Lines that are no commands.
use super::prints;
use super::streams::Source;
use wasmi_core_proved::grammar::parse;
use wasmi_core_proved::script::Status;

/// A line of each command, and of each word after the first how many bits its number has, or `-`.
/// `..` stands for any number of words.
// What tools/generate writes begins.
static COMMANDS: [(&str, &str); 43] = [
    ("fuel 0", "64"),
    ("left", ""),
    ("memory 0 none 16 32", "64 - - -"),
    ("lent 0 none 16 32", "64 - - -"),
    ("grow 0 0", "64 64"),
    ("drop memory 0", "- 64"),
    ("read 0 0 0", "64 64 64"),
    ("write 0 0", "64 64 .."),
    ("load i32_load8_s 0 0 0", "- 64 64 64"),
    ("store i32_store8 0 0 0 0", "- 64 64 64 64"),
    ("mfill 0 0 0 0", "64 64 8 64"),
    ("mcopy 0 0 0 0 0", "64 64 64 64 64"),
    ("minit 0 0 0 0 0", "64 64 64 32 32"),
    ("table func 0 none 32 func 0", "- 64 - - - 32"),
    ("tgrow 0 0 func 0", "64 64 - 32"),
    ("drop table 0", "- 64"),
    ("get 0 0", "64 64"),
    ("tset 0 0 func 0", "64 64 - 32"),
    ("init 0 0 0 0 0", "64 64 64 32 32"),
    ("copy 0 0 0 0 0", "64 64 64 64 64"),
    ("fill 0 0 func 0 0", "64 64 - 32 64"),
    ("segment func", "- .."),
    ("empty 0", "64"),
    ("data", ".."),
    ("dempty 0", "64"),
    ("global i32 var 0 0", "- - 64 64"),
    ("gset 0 i32 0 0", "64 - 64 64"),
    ("gget 0", "64"),
    ("set 0 0 0", "8 64 64"),
    ("show 0", "8"),
    ("make i8x16_splat 0 0", "- 8 8"),
    ("unary v128_not 0 0", "- 8 8"),
    ("binary i8x16_add 0 0 0", "- 8 8 8"),
    ("ternary v128_bitselect 0 0 0 0", "- 8 8 8 8"),
    ("shift i8x16_shl 0 0 0", "- 8 8 32"),
    ("test i8x16_all_true 0", "- 8"),
    ("extract i8x16_extract_lane_s 0 0", "- 8 8"),
    ("replace i8x16_replace_lane 0 0 0 0", "- 8 8 8 8"),
    (
        "shuffle 0 0 0 0 0 0 0 0 0 0 0 0 0 0 0 0 0 0 0",
        "8 8 8 5 5 5 5 5 5 5 5 5 5 5 5 5 5 5 5",
    ),
    ("vload v128_load 0 0 0 0", "- 8 64 64 64"),
    ("vloadlane v128_load8_lane 0 0 0 0 0 0", "- 8 8 8 64 64 64"),
    ("vstore 0 0 0 0", "8 64 64 64"),
    ("vstorelane v128_store8_lane 0 0 0 0 0", "- 8 8 64 64 64"),
];
// What tools/generate writes ends.

/// No line but the script's only one, which is no command.
static BAD_LINES: [&[u8]; 19] = [
    b"fuel +1",
    b"fuels 1",
    b"Fuel 1",
    b"memory 2 1 16 32",
    b"memory 0 none 1 32",
    b"memory 65537 none 16 32",
    b"memory 1 none 16 064",
    b"memory 1 None 16 32",
    b"write 0 0 256",
    b"meter on",
    b"meter on 4294967296",
    b"meter",
    b"fuel\t1",
    b"left\r",
    b"left \xff",
    b"quota 1",
    b"quota 1 18446744073709551616",
    b"load load_u16 0 0 0",
    b"store store32 0 0 0",
];

/// More of them: numbers that are none or too large, words too many or too few.
static MORE_BAD_LINES: [&[u8]; 36] = [
    b"fuel 99999999999999999999",
    b"fuel 184467440737095516150",
    b"fuel 0x10",
    b"fuel 1_000",
    b"fuel \xd9\xa3",
    b"memory 281474976710657 none 16 64",
    b"memory 4294967297 none 0 32",
    b"data 256",
    b"data 1 -2",
    b"data func",
    b"write 0 0 -1",
    b"meter off 1",
    b"meter on 1 2",
    b"quota 1 2 3",
    b"answer permit",
    b"answers permits",
    b"answers permit Deny",
    b"answers permit 1 deny",
    b"load i32_load32_s 0 0 0",
    b"load i32_store8 0 0 0",
    b"store i32_load8_u 0 0 0 0",
    b"lent 2 1 16 32",
    b"region 1",
    b"region 1 256",
    b"region 18446744073709551616 0",
    b"region 1 2 3",
    b"reserve",
    b"reserve 1 2 3 4",
    b"reserve 1 2 3 4 5 6",
    b"reserve 1 2 3 4 -5",
    b"reserve 18446744073709551616 0 0 0 0",
    b"tenants 0 1 1",
    b"tenants 1025 1 1",
    b"tenants 1 1",
    b"tenants 1 1 1 1",
    b"as 0",
];

/// Lines of tables, element segments and globals.
static BAD_LINES_OF_TABLES: [&[u8]; 20] = [
    b"table",
    b"table funcref 0 none 32 func 0",
    b"table func 0 none 16 func 0",
    b"table func none none 32 func 0",
    b"table func 4294967296 none 32 func 0",
    b"table func 0 4294967296 32 func 0",
    b"table func 2 1 64 func 0",
    b"table func 18446744073709551616 none 64 func 0",
    b"table func 0 18446744073709551616 64 func 0",
    b"tgrow 0 1 0",
    b"tset 0 0 none 0",
    b"segment 1 2",
    b"segment func 1 -2",
    b"segment func 4294967296",
    b"drop",
    b"drop 0",
    b"drop segment 0",
    b"global i32 mut 0 0",
    b"global i8 var 0 0",
    b"gset 0 const 0 0",
];

/// Lines of registers and of vector instructions on them.
static BAD_LINES_OF_REGISTERS: [&[u8]; 16] = [
    b"make v128_not 0 0",
    b"unary i32x4_add 0 0",
    b"unary V128_not 0 0",
    b"unary  0 0",
    b"binary v128_not 0 0 0",
    b"binary i32x4_add 0 0",
    b"binary i32x4_add 0 0 0 0",
    b"binary i32x4_add 0 0 256",
    b"binary i32x4_added 0 0 0",
    b"binary i32x4 0 0 0",
    b"ternary v128_and 0 0 0 0",
    b"shift i8x16_shr 0 0 1",
    b"test v128_any_true",
    b"test v128_any_true 0 0",
    b"test v128_any_true 256",
    b"test i8x16_any_true 0",
];

/// Lines of lanes, of which there is none with that index, and of shuffles.
static BAD_LINES_OF_LANES: [&[u8]; 17] = [
    b"extract i8x16_extract_lane_u 0 16",
    b"extract i16x8_extract_lane_s 0 8",
    b"extract i32x4_extract_lane 0 4",
    b"extract i64x2_extract_lane 0 2",
    b"extract i64x2_extract_lane_s 0 0",
    b"extract i64x2_extract_lane 0",
    b"extract i64x2_extract_lane 256 0",
    b"extract i8x16_extract_lane_u 0 256",
    b"replace i8x16_replace_lane 0 0 16 0",
    b"replace i16x8_replace_lane 0 0 8 0",
    b"replace i32x4_replace_lane 0 0 4 0",
    b"replace i64x2_replace_lane 0 0 2 0",
    b"replace i64x2_replace_lane 0 0 0",
    b"replace i64x2_replace_lane 0 0 0 256",
    b"replace i64x2_extract_lane 0 0 0 0",
    b"shuffle 0 0 0 0 0 0 0 0 0 0 0 0 x 0 0 0 0 0 0",
    b"shuffle 0 0",
];

/// Lines of vectors and their lanes in memories.
static BAD_LINES_OF_VECTOR_ACCESSES: [&[u8]; 16] = [
    b"vload load_u32 0 0 0 0",
    b"vload v128_load_at 0 0 0 0",
    b"vloadlane v128_load8_lane 0 0 16 0 0 0",
    b"vloadlane v128_load16_lane 0 0 8 0 0 0",
    b"vloadlane v128_load32_lane 0 0 4 0 0 0",
    b"vloadlane v128_load64_lane 0 0 2 0 0 0",
    b"vloadlane v128_load64_lane 0 0 0 0 0",
    b"vloadlane v128_store64_lane 0 0 0 0 0 0",
    b"vstore v128_store 0 0 0 0",
    b"vstorelane v128_store8_lane 0 16 0 0 0",
    b"vstorelane v128_store16_lane 0 8 0 0 0",
    b"vstorelane v128_store32_lane 0 4 0 0 0",
    b"vstorelane v128_store64_lane 0 2 0 0 0",
    b"vstorelane v128_store64_lane 0 0 0 0",
    b"vstorelane v128_store64_lane 0 0 0 0 0 0",
    b"vstorelane v128_store 0 0 0 0 0",
];

fn is_bad(script: &[u8], printed: &str) {
    prints(&mut Source::of(script), printed, Status::BadScript);
}

/// A line with another word at a place.
fn with_word(line: &str, place: usize, word: &str) -> String {
    let mut words: Vec<&str> = line.split(' ').collect();
    words[place] = word;
    words.join(" ")
}

#[test]
fn takes_as_many_words_as_a_command_has_and_numbers_of_as_many_bits() {
    for (line, bits) in COMMANDS {
        assert!(parse(line.as_bytes()).is_ok(), "{line}");
        let is_bad_line = |line: &str| is_bad(line.as_bytes(), "line 1: bad command\n");
        if !bits.ends_with("..") {
            is_bad_line(&format!("{line} 0"));
        }
        if let Some((fewer, _)) = line.rsplit_once(' ') {
            is_bad_line(fewer);
        }
        for (before, bits) in bits.split(' ').enumerate() {
            if let Ok(bits) = bits.parse::<u32>() {
                is_bad_line(&with_word(line, before + 1, &(1u128 << bits).to_string()));
                is_bad_line(&with_word(line, before + 1, "-1"));
            }
        }
    }
}

/// Lines, each of which is a script's only one and no command.
fn are_bad(lines: &[&[u8]]) {
    for line in lines {
        is_bad(line, "line 1: bad command\n");
    }
}

#[test]
fn names_the_first_bad_line() {
    are_bad(&BAD_LINES);
}

#[test]
fn takes_no_other_numbers_or_words() {
    are_bad(&MORE_BAD_LINES);
    are_bad(&BAD_LINES_OF_TABLES);
}

#[test]
fn takes_no_other_registers_lanes_or_names() {
    are_bad(&BAD_LINES_OF_REGISTERS);
    are_bad(&BAD_LINES_OF_LANES);
    are_bad(&BAD_LINES_OF_VECTOR_ACCESSES);
}

/// Scripts, and what is printed of their first bad line.
fn have_bad_lines(rows: &[(&str, &str)]) {
    for (script, printed) in rows {
        is_bad(script.as_bytes(), printed);
    }
}

static LATER: [(&str, &str); 19] = [
    ("fuel 1\nmeter on 64\nmeter", "line 2: bad command\n"),
    ("meter off\nmeter off", "line 2: bad command\n"),
    ("meter on 1\nmeter off\n", "line 2: bad command\n"),
    ("left\nquota 1 1", "line 2: bad command\n"),
    ("quota 1 1\nquota 1 1", "line 2: bad command\n"),
    ("quota 1 1\nmeter off\nquota 2 2", "line 3: bad command\n"),
    ("region 1 1\nregion 1 1", "line 2: bad command\n"),
    ("lent 1 none 0 32\nregion 1 1", "line 2: bad command\n"),
    (
        "reserve 1 1 1 1 1\nreserve 1 1 1 1 1",
        "line 2: bad command\n",
    ),
    (
        "reserve 0 0 0 0 0\nmeter off\nreserve 0 0 0 0 0",
        "line 3: bad command\n",
    ),
    ("left\nreserve 1 1 1 1 1", "line 2: bad command\n"),
    ("left\nanswers permit", "line 2: bad command\n"),
    ("answers\nanswers", "line 2: bad command\n"),
    ("quota 1 1\nanswers deny", "line 2: bad command\n"),
    ("answers\nmeter off\nquota 1 1", "line 3: bad command\n"),
    ("meter off\n\ngrow 0", "line 3: bad command\n"),
    ("\n\n\n\n\n\n\n\n\nleft 1", "line 10: bad command\n"),
    ("\n \nleft\n\nmeter off\nleft 1", "line 5: bad command\n"),
    ("left\nleft 1\nleft 2\nmeter off", "line 2: bad command\n"),
];

#[test]
fn names_a_later_bad_line() {
    have_bad_lines(&LATER);
}

#[test]
fn names_a_line_far_down() {
    let rows: [(usize, &str); 4] = [
        (9, "line 10: bad command\n"),
        (98, "line 99: bad command\n"),
        (122, "line 123: bad command\n"),
        (12344, "line 12345: bad command\n"),
    ];
    for (before, printed) in rows {
        let mut script = "left\n".repeat(before);
        script.push_str("left 1\nleft");
        is_bad(script.as_bytes(), printed);
    }
}

static OF_TENANTS: [(&str, &str); 15] = [
    ("tenants 1 0 0\nas 1", "line 2: bad command\n"),
    ("tenants 2 1 1\nas", "line 2: bad command\n"),
    ("tenants 2 1 1\nas 0 1", "line 2: bad command\n"),
    ("tenants 2 1 1\nas -1", "line 2: bad command\n"),
    ("tenants 2 1 1\nas 1\nas 2", "line 3: bad command\n"),
    ("tenants 1 1 1\nas 0\nmeter off", "line 3: bad command\n"),
    ("tenants 1 1 1\ntenants 1 1 1", "line 2: bad command\n"),
    ("quota 1 1\ntenants 1 1 1", "line 2: bad command\n"),
    ("tenants 1 1 1\nquota 1 1", "line 2: bad command\n"),
    ("tenants 1 1 1\nanswers", "line 2: bad command\n"),
    ("tenants 1 1 1\nregion 1 1", "line 2: bad command\n"),
    (
        "region 1 1\nmeter off\ntenants 1 1 1",
        "line 3: bad command\n",
    ),
    ("quota 1 1\nas 0", "line 2: bad command\n"),
    (
        "tenants 1 1 1\nas 0\nreserve 1 1 1 1 1",
        "line 3: bad command\n",
    ),
    ("left\ntenants 1 1 1", "line 2: bad command\n"),
];

#[test]
fn names_a_bad_line_of_tenants() {
    have_bad_lines(&OF_TENANTS);
}
