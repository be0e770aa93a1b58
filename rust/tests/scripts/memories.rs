//! Scripts of memories, owned and lent, under a quota, listed answers and in a pool, of tables, segments and globals, and what they print.
use super::streams::Source;
use super::{Script, answers, answers_each, prints};
use wasmi_core_proved::script::Status;

/// The pages of one byte more than a `usize` counts, less so many.
#[cfg(target_pointer_width = "64")]
#[rustfmt::skip]
macro_rules! all_pages_less {
    (0) => { "281474976710656" };
    (1) => { "281474976710655" };
    (2) => { "281474976710654" };
}
#[cfg(target_pointer_width = "32")]
#[rustfmt::skip]
macro_rules! all_pages_less {
    (0) => { "65536" };
    (1) => { "65535" };
    (2) => { "65534" };
}

static ANSWERED: [Script; 2] = [
    script! {
        "",
        "  meter  on 0064 ",
        "",
        " fuel  007  " => "done",
        "left " => "value 7",
    },
    script! {
        "meter off",
        "memory 1 none 16 64" => "memory 0",
        "memory 0 none 0 64" => "memory 1",
        "read 1 0 1" => "error out of bounds memory access",
        "read 2 0 1" => "no such",
    },
];

#[test]
fn prints_the_replies() {
    answers_each(&ANSWERED);
}

/// Numbers of twenty digits, memories that can't be had, indices and places past the end.
static LARGE_NUMBERS: [Script; 8] = [
    script! {
        "meter on 1",
        "fuel 18446744073709551615" => "done",
        "left" => "value 18446744073709551615",
    },
    script! {
        "meter on 1",
        "fuel 000018446744073709551615" => "done",
        "left" => "value 18446744073709551615",
    },
    script! {
        "quota 18446744073709551615 18446744073709551615",
        "memory 160 none 16 32" => "memory 0",
        "memory 1000 none 16 64" => "memory 1";
        "held 76021760 0",
    },
    script! {
        "quota 18446744073709551615 0",
        concat!("memory ", all_pages_less!(1), " none 16 64") =>
            "error tried to allocate more virtual memory than available on the system",
        "memory 1 none 16 64" => "memory 0",
        concat!("grow 0 ", all_pages_less!(2)) =>
            "error tried to allocate more virtual memory than available on the system";
        "held 65536 0",
    },
    script! {
        concat!("memory ", all_pages_less!(0), " none 16 64") =>
            "error the minimum size of the memory type overflows the system index type",
        "memory 0 none 16 64" => "memory 0",
        concat!("grow 0 ", all_pages_less!(0)) => "error out of bounds memory growth",
    },
    script! {
        "grow 18446744073709551615 18446744073709551615" => "no such",
        "read 1 18446744073709551615 18446744073709551615" => "no such",
    },
    script! {
        "memory 1 none 16 32" => "memory 0",
        "read 0 18446744073709551615 18446744073709551615" => "error out of bounds memory access",
        "read 0 1 18446744073709551615" => "error out of bounds memory access",
        "read 0 18446744073709551615 1" => "error out of bounds memory access",
        "write 0 18446744073709551615 1" => "error out of bounds memory access",
    },
    // Of these the low 32 bits would be there.
    script! {
        "memory 1 none 16 64" => "memory 0",
        "write 4294967296 0 1" => "no such",
        "write 0 4294967296 1" => "error out of bounds memory access",
        "read 4294967296 0 1" => "no such",
        "read 0 4294967296 1" => "error out of bounds memory access",
        "read 0 0 4294967296" => "error out of bounds memory access",
        "load load_u32 0 4294967296 0" => "error out of bounds memory access",
        "store store32 0 0 4294967296 7" => "error out of bounds memory access",
        "grow 4294967296 1" => "no such",
        "drop memory 4294967296" => "no such",
        "read 0 0 1" => "bytes 0",
    },
];

#[test]
fn takes_numbers_of_twenty_digits() {
    answers_each(&LARGE_NUMBERS);
}

/// Where lines and words stand.
static PLACES: [Script; 7] = [
    script! {
        "",
        "",
        "",
        "",
        "",
        "",
        "",
        "",
        "",
        "",
        "",
        "",
        "left" => "error fuel metering is disabled",
    },
    script! {
        "     ",
        "",
        "   ",
        "",
    },
    script! {
        "",
        "",
        "",
        "meter on 1",
        "",
        "",
        "fuel 3" => "done",
        "",
        "",
        "left" => "value 3",
        "",
        "",
        "",
    },
    script! {
        "    meter     on       64",
        "fuel      9" => "done",
        "       left" => "value 9",
    },
    script! {
        "quota 131072 0",
        "meter on 64",
        "left" => "value 0";
        "held 0 0",
    },
    script! {
        "memory 1 none 16 32" => "memory 0",
        "write   0  1     7   8 " => "done",
        "read 0 0   4" => "bytes 0 7 8 0",
    },
    script! {
        "meter off",
        "left" => "error fuel metering is disabled",
    },
];

#[test]
fn lines_may_be_empty_and_words_far_apart() {
    answers_each(&PLACES);
}

#[test]
fn answers_each_of_many_lines() {
    for times in [100, 2000] {
        let script = "fuel 1\n".repeat(times);
        let printed = "error fuel metering is disabled\n".repeat(times);
        answers(script.as_str(), printed.as_str());
    }
}

static LENT: [Script; 6] = [
    script! {
        "lent 0 none 16 32" => "no region",
        "lent 1 none 0 64" => "no region",
        "memory 0 none 0 32" => "memory 0",
    },
    script! {
        "region 4 7",
        "lent 5 none 0 32" => "error tried to use too small static buffer",
        "lent 0 none 0 32" => "no region",
        "memory 2 none 0 32" => "memory 0",
        "read 0 0 2" => "bytes 0 0",
    },
    script! {
        "region 0 255",
        "lent 0 none 0 32" => "memory 0",
        "grow 0 0" => "value 0",
        "grow 0 1" => "error tried to use too small static buffer",
        "read 0 0 0" => "bytes",
        "memory 1 none 0 32" => "memory 1",
        "grow 1 1" => "value 1",
    },
    script! {
        "quota 10 0",
        "region 8 1",
        "lent 3 none 0 32" => "memory 0",
        "write 0 2 9" => "done",
        "grow 0 5" => "value 3",
        "read 0 0 8" => "bytes 0 0 9 0 0 0 0 0",
        "grow 0 1" => "error tried to use too small static buffer",
        "drop memory 0" => "done",
        "lent 0 none 0 32" => "no region",
        "memory 2 none 0 32" => "memory 1",
        "memory 1 none 0 32" =>
            "error a resource limiter denied to allocate or grow the linear memory";
        "held 10 0",
    },
    script! {
        "answers deny permit complain permit",
        "region 9 9",
        "lent 1 none 0 32" =>
            "error a resource limiter denied to allocate or grow the linear memory",
        "lent 1 none 0 32" => "no region",
        "memory 1 none 0 32" => "memory 0",
        "grow 0 1" => "value 1",
    },
    script! {
        "region 9 9",
        "answers permit complain permit",
        "lent 1 none 0 32" => "memory 0",
        "grow 0 9" => "error a resource limiter denied to allocate or grow the linear memory",
        "grow 0 8" => "value 1",
        "read 0 0 9" => "bytes 0 0 0 0 0 0 0 0 0",
    },
];

#[test]
fn prints_the_replies_on_a_lent_region() {
    answers_each(&LENT);
}

/// The region is made once all lines are parsed, also where nothing is made in it.
#[test]
fn regions_that_cannot_be_had_want_memory() {
    let rows: [(&str, &str, Status); 3] = [
        (
            "region 18446744073709551615 7\nleft",
            "out of memory\n",
            Status::OutOfMemory,
        ),
        (
            "meter off\nregion 9223372036854775808 0",
            "out of memory\n",
            Status::OutOfMemory,
        ),
        (
            "region 18446744073709551615 7\nlefts",
            "line 2: bad command\n",
            Status::BadScript,
        ),
    ];
    for (script, printed, status) in rows {
        let mut reader = Source::of(script.as_bytes());
        prints(&mut reader, printed, status);
    }
}

static LISTED: [Script; 6] = [
    script! {
        "answers",
        "memory 1 none 16 32" => "memory 0",
        "grow 0 1" => "value 1",
        "table func 1 none 32 func 0" => "table 0",
    },
    script! {
        "answers error deny permit deny error",
        "table func 1 none 32 func 0" =>
            "error a resource limiter denied to allocate or grow the table",
        "table func 1 none 32 func 0" =>
            "error a resource limiter denied to allocate or grow the table",
        "table func 1 none 32 func 7" => "table 0",
        "tgrow 0 1 func 1" => "error out of bounds table access: `table.growth`",
        "tgrow 0 1 func 1" => "error a resource limiter denied to allocate or grow the table",
        "tgrow 0 0 func 1" => "value 1",
        "tgrow 0 1 func 2" => "value 1",
        "get 0 0" => "func 7",
        "get 0 1" => "func 2",
    },
    // a notice takes no word
    script! {
        "meter on 64",
        "answers permit complain deny permit",
        "memory 0 2 16 32" => "memory 0",
        "grow 0 1" => "error a resource limiter denied to allocate or grow the linear memory",
        "grow 0 1" => "error out of bounds memory growth",
        "grow 0 1" => "error not enough fuel. required=1024",
        "left" => "value 0",
    },
    // a growth that isn't asked for takes no word
    script! {
        "answers permit deny error",
        "meter on 64",
        "fuel 2000" => "done",
        "memory 1 2 16 32" => "memory 0",
        "grow 0 0" => "value 1",
        "grow 0 2" => "error out of bounds memory growth",
        "grow 0 1" => "error out of bounds memory growth",
        "grow 0 1" => "error a resource limiter denied to allocate or grow the linear memory",
        "grow 0 1" => "value 1",
        "drop memory 0" => "done",
        "grow 0 1" => "no such",
        "left" => "value 976",
    },
    script! {
        "  answers   complain  complain ",
        concat!("memory ", all_pages_less!(1), " none 16 64") =>
            "error a resource limiter denied to allocate or grow the linear memory",
        "memory 0 none 16 32" => "memory 0",
        "grow 0 1" => "value 0",
        "read 0 65535 1" => "bytes 0",
    },
    script! {
        "meter on 64",
        "answers permit complain permit",
        "table func 0 none 32 func 0" => "table 0",
        "tgrow 0 4000 func 0" => "error a resource limiter denied to allocate or grow the table",
        "tgrow 0 4000 func 0" => "error not enough fuel: required=250",
        "fuel 250" => "done",
        "tgrow 0 4000 func 0" => "value 0",
        "left" => "value 0",
    },
];

#[test]
fn prints_the_replies_under_listed_answers() {
    answers_each(&LISTED);
}

static TENANTS: [Script; 1] = [
    // an empty part, a part of the same tenant, a tenant without calls
    script! {
        "meter on 64",
        "tenants 3 100000 4",
        "as 2",
        "fuel 1024" => "done",
        "memory 1 none 16 32" => "memory 0",
        "table func 3 none 32 func 1" => "table 0",
        "as 0",
        "left" => "value 0",
        "table func 1 none 32 func 2" => "table 0",
        "table func 1 none 32 func 2" =>
            "error a resource limiter denied to allocate or grow the table",
        "get 0 0" => "func 2",
        "as 2",
        "left" => "value 1024",
        "grow 0 1" => "error out of bounds memory growth",
        "get 0 2" => "func 1",
        "as 2",
        "as 1",
        "lent 0 none 0 32" => "no region",
        "read 0 0 0" => "no such";
        "held 0 0 1",
        "held 1 0 0",
        "held 2 65536 3",
    },
];

#[test]
fn prints_the_replies_of_tenants() {
    answers_each(&TENANTS);
}

/// Calls of three tenants of 1,024, and what is printed for them.
const MANY: Script = script! {
    "tenants 1024 131072 2",
    "as 1023",
    "memory 1 none 16 32" => "memory 0",
    "as 0",
    "table func 2 none 32 func 0" => "table 0",
    "table func 1 none 32 func 0" =>
        "error a resource limiter denied to allocate or grow the table",
    "as 1023",
    "grow 0 1" => "value 1",
    "grow 0 1" => "error out of bounds memory growth",
    "as 512",
    "memory 1 none 16 32" =>
        "error a resource limiter denied to allocate or grow the linear memory",
};

#[test]
fn prints_what_many_tenants_hold() {
    let mut printed = String::from(MANY.printed);
    for tenant in 0..1024 {
        let (bytes, elements) = match tenant {
            0 => (0, 2),
            1023 => (131072, 0),
            _ => (0, 0),
        };
        let line = format!("held {tenant} {bytes} {elements}\n");
        printed.push_str(&line);
    }
    answers(MANY.text, printed.as_str());
}

/// Ranges that overlap, that end past their memory, that are empty, and that can't be paid.
static RANGES: [Script; 2] = [
    script! {
        "meter on 1",
        "fuel 7" => "done",
        "memory 4 none 0 32" => "memory 0",
        "write 0 0 1 2 3 4" => "done",
        "mfill 0 1 255 2" => "done",
        "read 0 0 4" => "bytes 1 255 255 4",
        "mcopy 0 1 0 0 3" => "done",
        "read 0 0 4" => "bytes 1 1 255 255",
        "left" => "value 2",
        "mfill 0 0 9 3" => "error not enough fuel. required=3",
        "mcopy 0 1 0 0 3" => "error not enough fuel. required=3",
        "mfill 0 2 9 3" => "error out of bounds memory access",
        "read 0 0 4" => "bytes 1 1 255 255",
        "mfill 0 4 9 0" => "done",
        "left" => "value 2",
    },
    script! {
        "memory 4 none 0 32" => "memory 0",
        "memory 2 none 0 64" => "memory 1",
        "write 0 0 1 2 3 4" => "done",
        "mcopy 1 0 0 2 2" => "done",
        "read 1 0 2" => "bytes 3 4",
        "mcopy 0 0 1 0 2" => "done",
        "read 0 0 4" => "bytes 3 4 3 4",
        "mcopy 1 1 0 0 2" => "error out of bounds memory access",
        "mcopy 1 0 0 3 2" => "error out of bounds memory access",
        "mcopy 0 5 0 0 0" => "error out of bounds memory access",
        "mcopy 0 0 0 18446744073709551615 1" => "error out of bounds memory access",
        "drop memory 1" => "done",
        "mcopy 1 0 0 0 0" => "no such",
        "mcopy 0 0 1 0 0" => "no such",
        "mfill 1 0 0 0" => "no such",
        "mcopy 2 0 2 0 0" => "no such",
    },
];

#[test]
fn prints_the_replies_of_ranges() {
    answers_each(&RANGES);
}

/// Data segments that are copied to a memory, dropped and named in vain. The first two scripts have the rows of
/// WebAssembly's `memory_init.wast`.
static DATA: [Script; 3] = [
    script! {
        "memory 1 1 16 32" => "memory 0",
        "write 0 2 3 1 4 1" => "done",
        "data 2 7 1 8" => "data 0",
        "write 0 12 7 5 2 3 6" => "done",
        "data 5 9 2 7 6" => "data 1",
        "minit 0 0 7 0 4" => "done",
        "minit 0 1 15 1 3" => "done",
        "read 0 0 20" => "bytes 0 0 3 1 4 1 0 2 7 1 8 0 7 5 2 9 2 7 0 0",
    },
    script! {
        "memory 1 none 16 32" => "memory 0",
        "data 55" => "data 0",
        "minit 0 0 1234 0 5" => "error out of bounds memory access",
        "minit 0 0 1234 2 3" => "error out of bounds memory access",
        "minit 0 0 65534 1 3" => "error out of bounds memory access",
        "minit 0 0 1234 4 0" => "error out of bounds memory access",
        "minit 0 0 1234 1 0" => "done",
        "minit 0 0 65537 0 0" => "error out of bounds memory access",
        "minit 0 0 65536 0 0" => "done",
        "minit 0 0 65536 1 0" => "done",
        "minit 0 0 65537 4 0" => "error out of bounds memory access",
        "minit 0 0 1234 0 1" => "done",
        "read 0 1233 3" => "bytes 0 55 0",
        "dempty 0" => "done",
        "minit 0 0 1235 0 1" => "error out of bounds memory access",
        "minit 0 0 1235 1 0" => "error out of bounds memory access",
        "minit 0 0 1235 0 0" => "done",
        "dempty 0" => "done",
        "read 0 1233 3" => "bytes 0 55 0",
    },
    script! {
        "meter on 1",
        "fuel 5" => "done",
        "memory 4 none 0 64" => "memory 0",
        "data" => "data 0",
        "data 9 8 7 6 5" => "data 1",
        "segment func 1" => "segment 0",
        "minit 0 1 1 2 3" => "done",
        "left" => "value 2",
        "minit 0 1 1 2 3" => "error not enough fuel. required=3",
        "minit 0 1 2 2 3" => "error out of bounds memory access",
        "minit 0 0 4 0 0" => "done",
        "minit 0 0 0 0 1" => "error out of bounds memory access",
        "left" => "value 2",
        "read 0 0 4" => "bytes 0 7 6 5",
        "minit 0 2 0 0 0" => "no such",
        "minit 1 1 0 0 0" => "no such",
        "dempty 2" => "no such",
        "empty 0" => "done",
        "empty 1" => "no such",
        "dempty 1" => "done",
        "drop memory 0" => "done",
        "minit 0 1 0 0 0" => "no such",
    },
];

#[test]
fn prints_the_replies_of_data_segments() {
    answers_each(&DATA);
}

static TABLES: [Script; 5] = [
    script! {
        "segment func 1 2 3 4" => "segment 0",
        "table func 4 none 32 func 0" => "table 0",
        "table func 3 none 32 func 9" => "table 1",
        "init 0 0 0 0 4" => "done",
        "copy 1 0 0 2 2" => "done",
        "get 1 0" => "func 3",
        "get 1 1" => "func 4",
        "get 1 2" => "func 9",
        "get 0 0" => "func 1",
        "copy 1 2 0 0 2" => "error out of bounds table access: `table.copy`",
        "copy 2 0 0 0 0" => "no such",
        "copy 0 0 2 0 0" => "no such",
    },
    script! {
        "table extern 1 1 64 extern 4294967295" => "table 0",
        "get 0 0" => "extern 4294967295",
        "table extern 0 none 32 func 0" => "error encountered mismatching table element type",
        "tset 0 0 func 1" => "error encountered mismatching table element type",
        "tset 0 0 extern 7" => "done",
        "get 0 0" => "extern 7",
        "tset 0 1 extern 7" => "error out of bounds table access: `table.set`",
        "fill 0 0 func 1 1" => "error encountered mismatching table element type",
        "tgrow 0 1 extern 1" => "error out of bounds table access: `table.growth`",
        "segment func 1" => "segment 0",
        "init 0 0 0 0 1" => "error encountered mismatching table element type",
        "table func 1 none 32 func 0" => "table 1",
        "copy 1 0 0 0 1" => "error encountered mismatching table element type",
    },
    script! {
        "segment extern 5 6 7" => "segment 0",
        "table extern 2 4294967295 32 extern 0" => "table 0",
        "init 0 0 1 2 1" => "done",
        "get 0 1" => "extern 7",
        "init 0 0 0 3 1" => "error out of bounds table access: `table.init`",
        "init 0 0 2 0 1" => "error out of bounds table access: `table.init`",
        "empty 0" => "done",
        "init 0 0 0 0 1" => "error out of bounds table access: `table.init`",
        "init 0 0 0 0 0" => "done",
        "empty 1" => "no such",
        "init 0 1 0 0 0" => "no such",
        "init 1 0 0 0 0" => "no such",
    },
    script! {
        "table func 0 18446744073709551615 64 func 0" => "table 0",
        "table func 4294967295 4294967295 32 extern 0" =>
            "error encountered mismatching table element type",
        "tgrow 0 2 func 3" => "value 0",
        "get 0 1" => "func 3",
        "get 1 0" => "no such",
        "tset 1 0 func 0" => "no such",
        "fill 1 0 func 0 0" => "no such",
        "tgrow 1 0 func 0" => "no such",
    },
    script! {
        "quota 0 3",
        "table func 2 none 32 func 0" => "table 0",
        "tgrow 0 1 func 1" => "value 2",
        "tgrow 0 1 func 1" => "error out of bounds table access: `table.growth`",
        "table func 1 none 32 func 0" =>
            "error a resource limiter denied to allocate or grow the table",
        "fill 0 1 func 8 2" => "done",
        "get 0 2" => "func 8";
        "held 0 3",
    },
];

#[test]
fn prints_the_replies_of_tables() {
    answers_each(&TABLES);
}

static VALUES: [Script; 2] = [
    script! {
        "global i32 var 1 2" => "global 0",
        "global i64 var 3 4" => "global 1",
        "global f32 var 5 6" => "global 2",
        "global f64 var 7 8" => "global 3",
        "global v128 var 9 18446744073709551615" => "global 4",
        "global funcref var 11 12" => "global 5",
        "global externref var 13 14" => "global 6",
        "gset 0 i32 21 22" => "done",
        "gset 1 i64 23 24" => "done",
        "gset 2 f32 25 26" => "done",
        "gset 3 f64 27 28" => "done",
        "gset 4 v128 18446744073709551615 30" => "done",
        "gset 5 funcref 31 32" => "done",
        "gset 6 externref 33 34" => "done",
        "gget 0" => "raw 21 22",
        "gget 1" => "raw 23 24",
        "gget 2" => "raw 25 26",
        "gget 3" => "raw 27 28",
        "gget 4" => "raw 18446744073709551615 30",
        "gget 5" => "raw 31 32",
        "gget 6" => "raw 33 34",
        "gset 5 externref 0 0" =>
            "error tried to write value of non-matching type to global variable",
        "gset 4 f64 0 0" => "error tried to write value of non-matching type to global variable",
        "gset 2 i32 0 0" => "error tried to write value of non-matching type to global variable",
        "gset 7 i32 0 0" => "no such",
        "gget 7" => "no such",
    },
    script! {
        "segment func" => "segment 0",
        "segment extern 0 4294967295" => "segment 1",
        "empty 1" => "done",
        "empty 1" => "done",
        "empty 2" => "no such",
        "global v128 const 5 6" => "global 0",
        "memory 0 none 16 32" => "memory 0",
        "table func 0 none 32 func 0" => "table 0",
        "segment func 1" => "segment 2",
        "gget 0" => "raw 5 6",
    },
];

#[test]
fn prints_the_replies_of_segments_and_globals() {
    answers_each(&VALUES);
}
