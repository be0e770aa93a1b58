//! What the tests share: comparisons, of values and of their texts.

mod function_types {
    //! Function types: how they are made, copied, compared and hashed, and what is refused.

    use super::same;
    use crate::proved::types::{FuncType, FuncTypeError, ValType};
    use crate::rattle::TryClone;
    use FuncTypeError::{TooManyFunctionParams, TooManyFunctionResults};
    use ValType::{ExternRef, F32, F64, I32, I64, V128};
    use std::cmp::Ordering;
    use std::hash::{DefaultHasher, Hash, Hasher};

    /// The types of the parameters, and those of the results.
    type Lists<'a> = (&'a [ValType], &'a [ValType]);

    /// The function type of two lists, after a look at each way to read it.
    fn function_type(lists: Lists) -> FuncType {
        let (params, results) = lists;
        let made = FuncType::new(params.iter().copied(), results.iter().copied());
        let ty = made.expect("a function type");
        same("both lists", ty.params_results(), lists);
        same("each list", (ty.params(), ty.results()), lists);
        let counts = (usize::from(ty.len_params()), usize::from(ty.len_results()));
        same("counts", counts, (params.len(), results.len()));
        ty
    }

    fn hash_of(ty: &FuncType) -> u64 {
        let mut hasher = DefaultHasher::new();
        ty.hash(&mut hasher);
        hasher.finish()
    }

    /// Compares a copy of a function type with another one of the same lists.
    fn check_copy(lists: Lists) {
        let ty = function_type(lists);
        let copy = ty.try_clone().expect("memory");
        same("hash of a copy", hash_of(&copy), hash_of(&ty));
        same("copy", copy, function_type(lists));
    }

    /// Compares two function types, of which the first is below the second.
    fn check_order(pair: (Lists, Lists)) {
        let lower = function_type(pair.0);
        let higher = function_type(pair.1);
        let orders = (lower.cmp(&higher), higher.cmp(&lower));
        let answer = (pair, orders, lower < higher, lower != higher);
        let orders = (Ordering::Less, Ordering::Greater);
        same("order", answer, (pair, orders, true, true));
    }

    #[test]
    fn new_empty_works() {
        check_copy((&[], &[]));
    }

    static INLINE: [&[ValType]; 9] = [
        &[I32],
        &[I64],
        &[F32],
        &[F64],
        &[I32, I32],
        &[I32, I32, I32],
        &[I32, I32, I32, I32],
        &[I32, I32, I32, I32, I32, I32, I32, I32],
        &[I32, I64, F32, F64],
    ];

    #[test]
    fn new_inline_works() {
        for list in &INLINE {
            check_order(((&[], list), (list, &[])));
            check_copy((list, list));
        }
    }

    #[test]
    fn new_big_works() {
        let big: Lists = (&[I32; 100], &[I64; 100]);
        check_copy(big);
        let shorter: Lists = (&[I32; 100], &[I64; 99]);
        check_order((shorter, big));
    }

    /// Pairs of function types, the lower one first.
    static ASCENDING: [(Lists, Lists); 8] = [
        // at most 21 entries come first
        ((&[V128; 21], &[]), (&[I32; 22], &[])),
        ((&[I32; 11], &[I32; 10]), (&[I32; 10], &[I32; 12])),
        // then fewer parameters
        ((&[], &[I64, I64]), (&[I32], &[])),
        ((&[ExternRef; 22], &[]), (&[I32; 23], &[])),
        // then, among small ones, fewer results
        ((&[I32], &[ExternRef]), (&[I32], &[I32, I32])),
        // then the entries
        ((&[I32, F32], &[V128]), (&[I32, F64], &[I32])),
        ((&[I32; 22], &[I32, I32]), (&[I32; 22], &[ExternRef])),
        // a list comes before its extensions
        ((&[I32; 22], &[I64]), (&[I32; 22], &[I64, I32])),
    ];

    #[test]
    fn function_types_are_ordered() {
        for pair in &ASCENDING {
            check_order(*pair);
        }
    }

    /// Gives `I32` until the read that gives `None`, then `I64` for ever, and counts the reads.
    struct Source<'a> {
        reads: &'a mut usize,
        end: usize,
    }

    impl Iterator for Source<'_> {
        type Item = ValType;

        fn next(&mut self) -> Option<ValType> {
            let read = *self.reads;
            *self.reads = read.wrapping_add(1);
            if read == self.end {
                return None;
            }
            Some(if read < self.end { I32 } else { I64 })
        }

        // More than there is memory for: nobody may trust it.
        fn size_hint(&self) -> (usize, Option<usize>) {
            (usize::MAX, None)
        }
    }

    /// The function type of two sources that end at these reads, and how often each was read.
    fn read(ends: (usize, usize)) -> (Result<FuncType, FuncTypeError>, (usize, usize)) {
        let mut reads = (0, 0);
        let params = Source {
            reads: &mut reads.0,
            end: ends.0,
        };
        let results = Source {
            reads: &mut reads.1,
            end: ends.1,
        };
        let made = FuncType::new(params, results);
        (made, reads)
    }

    const ENDLESS: usize = usize::MAX;

    /// The reads that give `None`, how often each source is read, and the types that are taken.
    static READS: [((usize, usize), (usize, usize), Result<Lists, FuncTypeError>); 10] = [
        ((0, 0), (1, 1), Ok((&[], &[]))),
        ((0, 1), (1, 2), Ok((&[], &[I32]))),
        ((2, 0), (3, 1), Ok((&[I32, I32], &[]))),
        ((2, 3), (3, 4), Ok((&[I32, I32], &[I32, I32, I32]))),
        ((12, 11), (13, 12), Ok((&[I32; 12], &[I32; 11]))),
        (
            (1_000, 1_000),
            (1_001, 1_001),
            Ok((&[I32; 1_000], &[I32; 1_000])),
        ),
        ((ENDLESS, 0), (1_001, 0), Err(TooManyFunctionParams)),
        ((1_001, 1_001), (1_001, 0), Err(TooManyFunctionParams)),
        (
            (1_000, ENDLESS),
            (1_001, 1_001),
            Err(TooManyFunctionResults),
        ),
        ((0, 1_001), (1, 1_001), Err(TooManyFunctionResults)),
    ];

    #[test]
    fn reads_until_the_first_none() {
        for &(ends, expected, taken) in &READS {
            let (made, reads) = read(ends);
            let lists = match &made {
                Ok(ty) => Ok(ty.params_results()),
                Err(error) => Err(*error),
            };
            same("reads, types", (reads, lists), (expected, taken));
        }
    }
}
mod machine {
    //! The machine: lists of calls, their replies, and what a host sees afterwards; what these tests
    //! share: machines, types of memories, and runs.

    mod limiters {
        //! Runs under a limiter of one's own that reserves, under one that answers by random numbers, and
        //! runs that find no memory; and what a pool of tenants refuses (`script::replies` has scripts of
        //! tenants).

        use super::{func, memory_type, meter, metered, runs_to, same, unmetered};
        use crate::proved::budget::{AddError, Pool};
        use crate::proved::machine::{Call, Machine, Reply, run_lending, run_reserving};
        use crate::proved::meter::{
            Amounts, Holdings, Kind, LimiterByKind, LimiterError, MemoryError, Reserving,
        };
        use crate::proved::store::TableType;
        use crate::proved::types::RefType;
        use crate::rattle::Vec;

        const COMPLAINT: LimiterError = LimiterError::ResourceLimiterDeniedAllocation;

        const DENIED: Reply = Reply::Memory(MemoryError::ResourceLimiterDeniedAllocation);

        /// Permits so many growths of any size, denies by an error, and complains of each notice.
        struct Allowance {
            growths: u32,
            holdings: Holdings,
        }

        impl LimiterByKind for Allowance {
            fn growing(
                &mut self,
                kind: Kind,
                current: usize,
                desired: usize,
            ) -> Result<bool, LimiterError> {
                let Some(growths) = self.growths.checked_sub(1) else {
                    return Err(COMPLAINT);
                };
                if !self
                    .holdings
                    .take(kind, (desired - current) as u64, 0, u64::MAX)
                {
                    return Err(COMPLAINT);
                }
                self.growths = growths;
                Ok(true)
            }

            fn grow_failed(&mut self, kind: Kind) -> Result<(), LimiterError> {
                self.holdings.give_back(kind);
                Err(COMPLAINT)
            }
        }

        impl Reserving for Allowance {
            fn held_bytes(&self) -> u64 {
                self.holdings.held().bytes
            }

            fn held_elements(&self) -> u64 {
                self.holdings.held().elements
            }
        }

        /// A growth by one page.
        const GROWTH: Call = Call::GrowMemory {
            memory: 0,
            pages: 1,
        };

        #[test]
        fn another_limiter_reserves() {
            let mut allowance = Allowance {
                growths: 4,
                holdings: Holdings::new(Amounts {
                    bytes: 0,
                    elements: 0,
                }),
            };
            let mut machine = metered();
            let calls = [
                Call::NewMemory(memory_type(1, 16)),
                GROWTH,
                Call::NewTable {
                    ty: TableType::new(RefType::Func, 3, None),
                    init: func(0),
                },
                Call::DropMemory(0),
                Call::NewMemory(memory_type(2, 16)),
                Call::GrowMemory {
                    memory: 1,
                    pages: 1,
                },
            ];
            let replies = run_reserving(&mut machine, &calls, &mut allowance);
            let expected = [
                Reply::Made(0),
                DENIED,
                Reply::Made(0),
                Reply::Done,
                Reply::Made(1),
                DENIED,
            ];
            let replies = replies.expect("there is room");
            same("replies", replies.as_slice(), expected.as_slice());
            let held = (allowance.held_bytes(), allowance.held_elements());
            let totals = (machine.total_bytes(), machine.total_elements());
            let answer = (held, totals, allowance.growths);
            let expected = ((196608, 3), (196608, 3), 0);
            same("what is held, the totals, growths left", answer, expected);
        }

        /// Answers questions by the bits of one number, two for each, and notices by the bits of another,
        /// one for each.
        #[derive(Clone, Copy, Debug, PartialEq, Eq)]
        struct RandomAnswers {
            answers: u64,
            accepts: u64,
            questions: u32,
            notices: u32,
        }

        impl RandomAnswers {
            fn new(answers: u64, accepts: u64) -> Self {
                RandomAnswers {
                    answers,
                    accepts,
                    questions: 0,
                    notices: 0,
                }
            }

            fn answer(&mut self) -> Result<bool, LimiterError> {
                let bits = self.answers & 3;
                self.answers = self.answers.rotate_right(2);
                self.questions = self.questions.saturating_add(1);
                match bits {
                    0 => Ok(false),
                    1 => Err(COMPLAINT),
                    _ => Ok(true),
                }
            }

            fn notice_answer(&mut self) -> Result<(), LimiterError> {
                let bit = self.accepts & 1;
                self.accepts = self.accepts.rotate_right(1);
                self.notices = self.notices.saturating_add(1);
                if bit == 0 { Ok(()) } else { Err(COMPLAINT) }
            }

            /// The reply to a growth by one page, which a meter that is on can't pay.
            fn reply(&mut self, pages: &mut u64, is_metered: bool) -> Reply {
                match self.answer() {
                    Ok(true) if is_metered => match self.notice_answer() {
                        Ok(()) => Reply::Memory(MemoryError::OutOfFuel {
                            required_fuel: 1024,
                        }),
                        Err(_) => DENIED,
                    },
                    Ok(true) => {
                        let size = *pages;
                        *pages = size.saturating_add(1);
                        Reply::Number(size)
                    }
                    Ok(false) => Reply::Memory(MemoryError::OutOfBoundsGrowth),
                    Err(_) => DENIED,
                }
            }
        }

        impl LimiterByKind for RandomAnswers {
            fn growing(&mut self, _: Kind, _: usize, _: usize) -> Result<bool, LimiterError> {
                self.answer()
            }

            fn grow_failed(&mut self, _kind: Kind) -> Result<(), LimiterError> {
                self.notice_answer()
            }
        }

        /// Random numbers, and how many of 32 growths by one page they permit.
        const RANDOM_NUMBERS: [(u64, u64, u64); 4] = [
            (0x243F_6A88_85A3_08D3, 0x1319_8A2E_0370_7344, 16),
            (0xA409_3822_299F_31D0, 0x082E_FA98_EC4E_6C89, 14),
            (0x4528_21E6_38D0_1377, 0xBE54_66CF_34E9_0C6C, 12),
            (0xC0AC_29B7_C97C_50DD, 0x3F84_D5B5_B547_0917, 15),
        ];

        /// Grows a memory 32 times by one page under these answers, and compares the replies and how many
        /// pages it then has. A meter that is on has no fuel.
        fn grows_by_random_answers(is_metered: bool, random: RandomAnswers) -> u64 {
            let mut machine = Machine::new(meter(is_metered));
            let creation = [Call::NewMemory(memory_type(0, 16))];
            runs_to(&mut machine, &creation, &[Reply::Made(0)]);
            let (mut foretold, mut pages) = (random, 0);
            let mut calls = Vec::new();
            let mut expected = Vec::new();
            for _growth in 0..32 {
                calls.push(GROWTH).ok().expect("there is room");
                let reply = foretold.reply(&mut pages, is_metered);
                expected.push(reply).ok().expect("there is room");
            }
            let mut limiter = random;
            let replies = run_lending(&mut machine, &calls, &mut limiter).ok();
            same("the replies", replies, Some(expected));
            let size = machine.memory(0).map(|memory| memory.size());
            let answer = (limiter.questions, limiter, size);
            let expected = (32, foretold, Some(pages));
            same("questions, limiter, pages", answer, expected);
            pages
        }

        #[test]
        fn random_answers_leave_a_run_as_it_is_told() {
            for (answers, accepts, permitted) in RANDOM_NUMBERS {
                let random = RandomAnswers::new(answers, accepts);
                let permitted_pages = grows_by_random_answers(false, random);
                same("the growths permitted", permitted_pages, permitted);
                let paid_pages = grows_by_random_answers(true, random);
                same("none is paid for", paid_pages, 0);
            }
        }

        /// With ample memory the run is answered. Under `rt try --test --fail-alloc N` it may find none for
        /// its replies, and has then done nothing.
        #[test]
        fn a_run_without_room_does_nothing() {
            let calls = [Call::SetFuel(7), Call::NewMemory(memory_type(3, 0))];
            let mut random = RandomAnswers::new(u64::MAX, 0);
            let mut machine = metered();
            let (questions, fuel, bytes) = match run_lending(&mut machine, &calls, &mut random) {
                Ok(_replies) => (1, 7, 3),
                Err(_) => (0, 0, 0),
            };
            let answer = (
                random.questions,
                machine.fuel().get_fuel(),
                machine.total_bytes(),
            );
            same(
                "questions, fuel, bytes",
                answer,
                (questions, Ok(fuel), bytes),
            );
        }

        #[test]
        fn a_machine_that_dropped_a_memory_comes_back() {
            let mut used = unmetered();
            let calls = [Call::NewMemory(memory_type(1, 16)), Call::DropMemory(0)];
            runs_to(&mut used, &calls, &[Reply::Made(0), Reply::Done]);
            let mut pool = Pool::new(131072, 0);
            let refused = match pool.add(used) {
                Ok(index) => Err(index),
                Err((error, back)) => Ok((error, back.total_bytes())),
            };
            let expected = Ok((AddError::NotEmpty, 65536));
            same("the refusal, its bytes", refused, expected);
        }
    }
    mod regions {
        //! What the lender of a machine's spare region finds in it after the loan.
        use super::{memory_type, runs_to, same};
        use crate::proved::machine::{Call, Machine, Reply};
        use crate::proved::meter::{Fuel, FuelCostsProvider, MemoryError};
        use crate::rattle::Vec;

        /// Runs calls on a machine with a region of ten bytes of 7, and compares the replies, and what the
        /// lender finds then.
        fn finds(calls: &[Call], replies: &[Reply], expected: [u8; 10]) {
            let mut region = [7; 10];
            let fuel = Fuel::new(false, FuelCostsProvider::default());
            let mut machine = Machine::with_region(fuel, &mut region);
            runs_to(&mut machine, calls, replies);
            drop(machine);
            same("the lender's bytes", region, expected);
        }

        #[test]
        fn the_lender_finds_the_memory() {
            let calls = [
                Call::NewLentMemory(memory_type(2, 0)),
                Call::GrowMemory {
                    memory: 0,
                    pages: 5,
                },
                Call::Write {
                    memory: 0,
                    offset: 1,
                    bytes: Vec::of([1, 2]).expect("there is room"),
                },
            ];
            let replies = [Reply::Made(0), Reply::Number(2), Reply::Done];
            finds(&calls, &replies, [0, 1, 2, 0, 0, 0, 0, 7, 7, 7]);
        }

        #[test]
        fn a_refused_creation_spends_the_region() {
            let calls = [
                Call::NewLentMemory(memory_type(11, 0)),
                Call::NewLentMemory(memory_type(0, 0)),
            ];
            let replies = [
                Reply::Memory(MemoryError::InvalidStaticBufferSize),
                Reply::NoRegion,
            ];
            finds(&calls, &replies, [7; 10]);
        }

        #[test]
        fn a_dropped_memory_leaves_its_bytes() {
            let calls = [
                Call::NewLentMemory(memory_type(2, 0)),
                Call::Write {
                    memory: 0,
                    offset: 0,
                    bytes: Vec::of([1, 2]).expect("there is room"),
                },
                Call::DropMemory(0),
            ];
            let replies = [Reply::Made(0), Reply::Done, Reply::Done];
            finds(&calls, &replies, [1, 2, 7, 7, 7, 7, 7, 7, 7, 7]);
        }
    }

    use super::same;
    use crate::proved::machine::{Call, Machine, Reply, run};
    use crate::proved::meter::{
        CustomFuelCosts, Fuel, FuelCostsProvider, NoLimits, ResourceLimiterRef,
    };
    use crate::proved::raw::RawRef;
    use crate::proved::store::MemoryType;
    use crate::proved::typed::TypedRawRef;
    use crate::proved::types::RefType;

    /// Runs calls without a limiter, and compares the replies.
    fn runs_to(machine: &mut Machine, calls: &[Call], expected: &[Reply]) {
        let mut limiter = ResourceLimiterRef::<NoLimits>::default();
        let replies = run(machine, calls, &mut limiter).expect("there is room");
        same("replies", replies.as_slice(), expected);
    }

    /// A new machine whose meter is off.
    ///
    /// # Contract
    ///
    /// ```text
    /// ensures: HoldsTotals (record { held = nothing; last = None }) result
    /// ```
    fn unmetered() -> Machine<'static> {
        Machine::new(Fuel::unmetered())
    }

    /// A meter that takes one fuel for 64 copied bytes, where it is on.
    fn meter(is_on: bool) -> Fuel {
        let costs = CustomFuelCosts {
            bytes_copied_per_fuel: 64,
            fuel_per_bytes_translated: 7,
            fuel_per_bytes_validated: 2,
        };
        Fuel::new(is_on, FuelCostsProvider::custom(costs))
    }

    /// A new machine with such a meter, which is on.
    ///
    /// # Contract
    ///
    /// ```text
    /// ensures: HoldsTotals (record { held = nothing; last = None }) result
    /// ```
    fn metered() -> Machine<'static> {
        Machine::new(meter(true))
    }

    /// A type of memories without a maximum.
    fn memory_type(minimum: u64, page_size_log2: u8) -> MemoryType {
        let mut builder = MemoryType::builder();
        builder.min(minimum).page_size_log2(page_size_log2);
        builder.build().expect("a memory type")
    }

    /// A function reference.
    fn func(number: u32) -> TypedRawRef {
        TypedRawRef::new(RawRef::from(number), RefType::Func)
    }
}
#[cfg(feature = "std")]
mod script {
    //! Scripts, from a reader to a writer; what their tests share: scripts that are run, and
    //! comparisons with what they have to print.

    // Lines, and beside each what is printed for it; after a `;` stands what is printed at the end. An
    // empty last line is a line feed at the end.
    macro_rules! script {
    (
        $first:expr $(=> $first_printed:expr)?
        $(, $line:expr $(=> $printed:expr)?)* $(,)?
        $(; $($last:expr),+ $(,)?)?
    ) => {
        $crate::proved::tests::script::Script {
            text: concat!($first $(, "\n", $line)*),
            printed: concat!(
                $($first_printed, "\n",)?
                $($($printed, "\n",)?)*
                $($($last, "\n",)+)?
            ),
        }
    };
}

    // A script whose calls are answered, with one more header line or none, and what is held then.
    macro_rules! metered {
    ($($header:literal; $held:literal)?) => {
        script! {
            "meter on 64",
            $($header,)?
            "fuel 2000" => "done",
            "memory 1 2 16 32" => "memory 0",
            "write 0 65535 44" => "done",
            "grow 0 1" => "value 1",
            "grow 0 1" => "error out of bounds memory growth",
            "read 0 65535 2" => "bytes 44 0",
            "left" => "value 976",
            ""
            $(; $held)?
        }
    };
}

    mod bad_lines {
        //! Lines that are no commands, and scripts that are too long.
        use super::streams::{Source, Target};
        use super::{answers, prints};
        use crate::proved::script::{LIMIT, Status};
        use crate::rattle::StrExt;
        use std::string::String;

        // Scripts, and what is printed of their first bad line.
        static BAD_LINES: [(&[u8], &str); 17] = [
            (b"fuel", "line 1: bad command\n"),
            (b"fuel +1", "line 1: bad command\n"),
            (b"fuel 18446744073709551616", "line 1: bad command\n"),
            (b"memory 2 1 16 32", "line 1: bad command\n"),
            (b"memory 0 none 1 32", "line 1: bad command\n"),
            (b"memory 65537 none 16 32", "line 1: bad command\n"),
            (
                b"table func 4294967296 none 32 func 0",
                "line 1: bad command\n",
            ),
            (b"write 0 0 256", "line 1: bad command\n"),
            (
                b"extract i8x16_extract_lane_u 0 16",
                "line 1: bad command\n",
            ),
            (b"quota 1", "line 1: bad command\n"),
            (b"fuel\t1", "line 1: bad command\n"),
            (b"left\r", "line 1: bad command\n"),
            (b"left \xff", "line 1: bad command\n"),
            (b"fuel 1\nmeter on 64", "line 2: bad command\n"),
            (b"meter off\nmeter off", "line 2: bad command\n"),
            (b"meter off\n\ngrow 0", "line 3: bad command\n"),
            (b"tenants 1 0 0\nas 1", "line 2: bad command\n"),
        ];

        fn is_bad(script: &[u8], printed: &str) {
            let (reader, writer) = (Source::of(script), Target::new());
            prints(reader, writer, printed.as_bytes(), Status::BadScript);
        }

        #[test]
        fn names_the_first_bad_line() {
            for &(script, printed) in &BAD_LINES {
                is_bad(script, printed);
            }
        }

        // A text, so many times.
        fn repeated(text: &str, times: usize) -> String {
            text.try_repeat(times).expect("there is room")
        }

        #[test]
        fn takes_a_script_of_at_most_the_limit() {
            let spaces = repeated(" ", 1_048_576);
            answers(spaces.as_str(), "");
            for text in [" ", "x"] {
                let script = repeated(text, LIMIT + 1);
                is_bad(script.as_bytes(), "script too long\n");
            }
        }
    }
    mod replies {
        //! Scripts whose calls are answered, and what they print.
        use super::{METERED, Script, answers_each};

        // A table is initialized, copied and filled, under a header line or none, and what is held then.
        macro_rules! initialized {
    ($($header:literal; $held:literal)?) => {
        script! {
            $($header,)?
            "meter on 64",
            "fuel 10" => "done",
            "segment func 1 2 3 4 5" => "segment 0",
            "table func 5 none 32 func 0" => "table 0",
            "init 0 0 0 0 5" => "done",
            "copy 0 1 0 0 3" => "done",
            "get 0 3" => "func 3",
            "get 0 9" => "none",
            "fill 0 4 func 9 2" => "error out of bounds table access: `table.fill`",
            "left" => "value 10"
            $(; $held)?
        }
    };
}

        static ANSWERED: [Script; 31] = [
            METERED,
            script! { "" },
            script! {
                "fuel 5" => "error fuel metering is disabled",
                "grow 0 1" => "no such",
            },
            script! {
                "memory 0 none 0 32" => "memory 0",
                "grow 0 3" => "value 0",
                "read 0 2 2" => "error out of bounds memory access",
                "read 0 3 0" => "bytes",
            },
            script! {
                "meter on 64",
                "fuel 1000" => "done",
                "memory 1 2 16 32" => "memory 0",
                "grow 0 1" => "error not enough fuel. required=1024",
                "left" => "value 1000",
            },
            script! {
                "memory 1 1 16 32" => "memory 0",
                "grow 0 0" => "value 1",
                "grow 0 1" => "error out of bounds memory growth",
                "left" => "error fuel metering is disabled",
            },
            script! {
                "memory 0 none 0 32" => "memory 0",
                "write 0 0" => "done",
                "write 0 0 1" => "error out of bounds memory access",
            },
            script! {
                "meter on 64",
                "memory 0 none 0 32" => "memory 0",
                "grow 0 63" => "value 0",
                "grow 0 64" => "error not enough fuel. required=1",
            },
            metered! { "quota 131072 0"; "held 131072 0" },
            script! {
                "quota 65535 0",
                "memory 1 none 16 32" =>
                    "error a resource limiter denied to allocate or grow the linear memory",
                "memory 0 none 16 32" => "memory 0",
                "grow 0 0" => "value 0";
                "held 0 0",
            },
            script! {
                "quota 131072 0",
                "memory 1 none 16 32" => "memory 0",
                "drop memory 0" => "done",
                "memory 1 none 16 32" => "memory 1",
                "memory 1 none 16 32" =>
                    "error a resource limiter denied to allocate or grow the linear memory";
                "held 131072 0",
            },
            script! {
                "quota 65536 3",
                "table func 2 none 32 func 0" => "table 0",
                "drop table 0" => "done",
                "drop table 0" => "no such",
                "tgrow 0 1 func 0" => "no such",
                "table func 2 none 32 func 0" =>
                    "error a resource limiter denied to allocate or grow the table",
                "table func 1 none 32 func 0" => "table 1";
                "held 0 3",
            },
            script! {
                "memory 1 none 16 32" => "memory 0",
                "store i32_store8 0 0 0 300" => "done",
                "load i32_load8_u 0 0 0" => "raw 44 0",
                "load load_u64 0 65529 0" => "error out of bounds memory access",
            },
            script! {
                "memory 1 none 16 32" => "memory 0",
                "write 0 0 255" => "done",
                "load i32_load8_s 0 0 0" => "raw 4294967295 0",
                "load i64_load8_s 0 0 0" => "raw 18446744073709551615 0",
            },
            script! {
                "memory 1 none 16 32" => "memory 0",
                "store store32 0 65533 0 1" => "error out of bounds memory access",
                "read 0 65533 3" => "bytes 0 0 0",
                "load load_u32 0 18446744073709551615 1" => "error out of bounds memory access",
            },
            initialized! {},
            script! {
                "table func 1 2 32 func 0" => "table 0",
                "tgrow 0 0 extern 0" => "error encountered mismatching table element type",
                "tgrow 0 1 func 4" => "value 1",
                "get 0 1" => "func 4",
            },
            initialized! { "quota 1000000 1000000"; "held 0 5" },
            script! {
                "quota 1000000 1000000",
                "table func 1 2 32 func 0" => "table 0",
                "tgrow 0 0 extern 0" => "error encountered mismatching table element type",
                "tgrow 0 1 func 4" => "value 1",
                "get 0 1" => "func 4";
                "held 0 2",
            },
            script! {
                "table func 1 none 64 func 0" => "table 0",
                "tgrow 0 18446744073709551615 func 1" => "error out of bounds table access: `table.growth`",
            },
            script! {
                "meter on 0",
                "fuel 10" => "done",
                "segment func" => "segment 0",
                "table func 1 none 32 func 0" => "table 0",
                "init 0 0 1 0 0" => "done",
                "copy 0 0 0 0 0" => "error not enough fuel: required=18446744073709551615",
                "left" => "value 10",
            },
            script! {
                "global i32 const 7 0" => "global 0",
                "gset 0 i64 1 0" => "error tried to write to immutable global variable",
                "global i32 var 7 0" => "global 1",
                "gset 1 i64 1 0" => "error tried to write value of non-matching type to global variable",
                "gset 1 i32 8 0" => "done",
                "gget 1" => "raw 8 0",
            },
            script! {
                "quota 1000000 1000000",
                "global i32 const 7 0" => "global 0",
                "gset 0 i64 1 0" => "error tried to write to immutable global variable",
                "global i32 var 7 0" => "global 1",
                "gset 1 i64 1 0" => "error tried to write value of non-matching type to global variable",
                "gset 1 i32 8 0" => "done",
                "gget 1" => "raw 8 0";
                "held 0 0",
            },
            script! {
                "memory 1 none 16 32" => "memory 0",
                "write 0 0 255 1 2 3 4 5 6 7" => "done",
                "vload v128_load8x8_s 0 0 0 0" => "done",
                "show 0" => "raw 844433520197631 1970350607106052",
                "vload v128_load 1 0 65521 0" => "error out of bounds memory access",
                "show 1" => "raw 0 0",
            },
            script! {
                "set 3 7 9" => "done",
                "make i8x16_splat 4 3" => "done",
                "extract i8x16_extract_lane_u 4 15" => "raw 7 0",
                "shift i64x2_shl 5 3 65" => "done",
                "show 5" => "raw 14 18",
            },
            script! {
                "set 0 255 0" => "done",
                "set 1 1 0" => "done",
                "binary i8x16_add 2 0 1" => "done",
                "show 2" => "raw 0 0",
                "test i8x16_bitmask 0" => "raw 1 0",
                "show 16" => "no such",
            },
            script! {
                "answers deny error permit deny error complain permit",
                "meter on 64",
                "memory 0 2 16 32" =>
                    "error a resource limiter denied to allocate or grow the linear memory",
                "memory 0 2 16 32" =>
                    "error a resource limiter denied to allocate or grow the linear memory",
                "memory 1 2 16 32" => "memory 0",
                "grow 0 1" => "error out of bounds memory growth",
                "grow 0 1" => "error a resource limiter denied to allocate or grow the linear memory",
                "grow 0 1" => "error a resource limiter denied to allocate or grow the linear memory",
                "grow 0 1" => "error not enough fuel. required=1024",
                "grow 0 0" => "value 1",
                "left" => "value 0",
            },
            script! {
                "region 65536 7",
                "meter on 64",
                "fuel 2048" => "done",
                "lent 0 2 16 32" => "memory 0",
                "grow 0 1" => "value 0",
                "read 0 65534 2" => "bytes 0 0",
                "grow 0 1" => "error tried to use too small static buffer",
                "left" => "value 1024",
                "lent 0 2 16 32" => "no region",
            },
            script! {
                "region 65536 7",
                "meter on 64",
                "lent 1 2 16 32" => "memory 0",
                "grow 0 1" => "error tried to use too small static buffer",
            },
            script! {
                "tenants 2 131072 0",
                "memory 1 none 16 32" => "memory 0",
                "as 1",
                "memory 1 none 16 32" => "memory 0",
                "memory 1 none 16 32" =>
                    "error a resource limiter denied to allocate or grow the linear memory",
                "as 0",
                "grow 0 1" => "error out of bounds memory growth",
                "drop memory 0" => "done",
                "as 1",
                "memory 0 none 16 32" => "memory 1";
                "held 0 65536 0",
                "held 1 65536 0",
            },
            script! {
                "tenants 2 10 10";
                "held 0 0 0",
                "held 1 0 0",
            },
        ];

        #[test]
        fn prints_the_replies() {
            answers_each(&ANSWERED);
        }

        // A growth by as many elements as `u64` counts, which no `usize` of 32 bits does.
        static GREATEST_GROWTH: [Script; 1] = [script! {
            "meter on 64",
            "table func 0 none 64 func 0" => "table 0",
            "tgrow 0 18446744073709551615 func 1" =>
                "error not enough fuel: required=288230376151711743",
        }];

        #[test]
        #[cfg(target_pointer_width = "64")]
        fn prints_the_cost_of_the_greatest_growth() {
            answers_each(&GREATEST_GROWTH);
        }
    }
    mod streams {
        //! A reader and a writer that can fail, and how a replay over them ends.
        use super::{METERED, prints};
        use crate::proved::script::Status;
        use crate::rattle::Vec;
        use std::io;
        use std::io::{ErrorKind, Read, Write};

        // A reader of these bytes, at most forty a turn, which fails after so many good turns.
        pub struct Source<'a> {
            bytes: &'a [u8],
            good_turns: usize,
        }

        impl<'a> Source<'a> {
            pub(super) fn of(bytes: &'a [u8]) -> Self {
                Source {
                    bytes,
                    good_turns: usize::MAX,
                }
            }
        }

        impl Read for Source<'_> {
            fn read(&mut self, buf: &mut [u8]) -> io::Result<usize> {
                if self.good_turns == 0 {
                    return Err(io::Error::from(ErrorKind::Interrupted));
                }
                self.good_turns -= 1;
                let count = self.bytes.len().min(buf.len()).min(40);
                buf[..count].copy_from_slice(&self.bytes[..count]);
                self.bytes = &self.bytes[count..];
                Ok(count)
            }
        }

        // A writer that keeps so many bytes, and then fails or takes nothing.
        pub struct Target {
            bytes: Vec<u8>,
            room: usize,
            fails: bool,
        }

        impl Target {
            pub(super) fn new() -> Target {
                Target {
                    bytes: Vec::new(),
                    room: usize::MAX,
                    fails: true,
                }
            }

            pub(super) fn text(&self) -> &[u8] {
                self.bytes.as_slice()
            }
        }

        impl Write for Target {
            fn write(&mut self, buf: &[u8]) -> io::Result<usize> {
                if self.room == 0 && self.fails {
                    return Err(io::Error::from(ErrorKind::Interrupted));
                }
                let count = buf.len().min(self.room);
                self.room -= count;
                self.bytes.extend_from_slice(&buf[..count])?;
                Ok(count)
            }

            fn flush(&mut self) -> io::Result<()> {
                Ok(())
            }
        }

        #[test]
        fn an_error_of_a_reader_is_a_fault() {
            for good_turns in [0, 1] {
                let mut reader = Source::of(METERED.text.as_bytes());
                reader.good_turns = good_turns;
                let writer = Target::new();
                prints(reader, writer, b"read fault\n", Status::Fault);
            }
        }

        #[test]
        fn an_error_of_a_writer_is_a_fault() {
            for room in 0..METERED.printed.len() {
                for fails in [true, false] {
                    let reader = Source::of(METERED.text.as_bytes());
                    let mut writer = Target::new();
                    (writer.room, writer.fails) = (room, fails);
                    let sent = &METERED.printed.as_bytes()[..room];
                    prints(reader, writer, sent, Status::Fault);
                }
            }
        }
    }

    use super::same;
    use crate::proved::script::{Status, replay};
    use std::str;
    use streams::{Source, Target};

    // A text, and all that is printed for it.
    #[derive(Clone, Copy)]
    struct Script {
        text: &'static str,
        printed: &'static str,
    }

    // A script whose calls are answered.
    const METERED: Script = metered! {};

    // Runs what the reader gives, and compares what the writer takes and how it ends.
    fn prints(mut reader: Source<'_>, mut writer: Target, printed: &[u8], status: Status) {
        let ended = replay(&mut reader, &mut writer);
        let answer = (ended, str::from_utf8(writer.text()));
        same(
            "how it ends, its text",
            answer,
            (status, str::from_utf8(printed)),
        );
    }

    // Replays a script whose calls are answered, and compares what is printed.
    fn answers(script: &str, printed: &str) {
        let (reader, writer) = (Source::of(script.as_bytes()), Target::new());
        prints(reader, writer, printed.as_bytes(), Status::Answered);
    }

    // Replays scripts whose calls are answered, and compares what is printed.
    fn answers_each(scripts: &[Script]) {
        for script in scripts {
            answers(script.text, script.printed);
        }
    }
}
mod store {
    //! Meters, limiters, memories and tables; what their tests share: types, meters, values.
    mod limiters {
        //! Meters and their errors, quotas, references to limiters, a limiter that records what it is asked
        //! and told, and what a lender knows of its limiter afterwards.

        use super::same;
        use crate::proved::meter::{
            Fuel, FuelCostsProvider, FuelError, Kind, LimiterError, MemoryError, NoLimits, Quota,
            ResourceLimiter, ResourceLimiterRef, TableError,
        };
        use crate::proved::raw::RawRef;
        use crate::rattle::TryClone;
        use crate::rattle::alloc::AllocError;

        /// Lends its limiter for one question, and knows what became of it.
        ///
        /// # Contract
        ///
        /// ```text
        /// ensures: L.rules.asked limiter.old
        ///     (record { kind = Bytes; current = 0; desired = 5; maximum = None }) result limiter.new
        /// ```
        fn ask_once<L: ResourceLimiter>(limiter: &mut L) -> Result<bool, LimiterError> {
            let mut lent = ResourceLimiterRef::from(limiter);
            let answer = lent.memory_growing(0, 5, None);
            let Some(_limiter) = lent.into_resource_limiter() else {
                unreachable!()
            };
            answer
        }

        /// Asks the limiter itself, where the reference leads to one.
        ///
        /// # Contract
        ///
        /// ```text
        /// ensures loan: KeepsLoan lent.old lent.new
        /// ensures asked: (optional_rules L.rules).asked (lent_limiter lent.old)
        ///     (record { kind = Bytes; current = 0; desired = 5; maximum = None }) result
        ///     (lent_limiter lent.new)
        /// ```
        fn ask_through<L: ResourceLimiter>(
            lent: &mut ResourceLimiterRef<L>,
        ) -> Result<bool, LimiterError> {
            match lent.as_resource_limiter() {
                Some(limiter) => limiter.memory_growing(0, 5, None),
                None => Ok(true),
            }
        }

        #[test]
        fn a_lender_knows_its_limiter() {
            let mut recorder = Recorder::new(Ok(true), Ok(()));
            same("5 bytes", ask_once(&mut recorder), Ok(true));
            same_record("5 bytes", &recorder, memory_question(0, 5, None), None);
            let mut nobody = ResourceLimiterRef::<NoLimits>::default();
            same("nobody", ask_through(&mut nobody), Ok(true));
        }

        #[test]
        fn a_quota_gives_back_once() {
            let error = MemoryError::OutOfSystemMemory;
            let mut quota = Quota::new(10, 3);
            let growths = [
                quota.memory_growing(0, 5, None),
                quota.memory_growing(5, 11, Some(20)),
            ];
            same("5 of 10 bytes, 6 of 5", growths, [Ok(true), Ok(false)]);
            let at_first = quota.held_bytes();
            let notices = [
                quota.memory_grow_failed(&error),
                quota.memory_grow_failed(&error),
            ];
            same("notices", notices, [Ok(()); 2]);
            let bytes = [at_first, quota.held_bytes()];
            same("held, and given back once", bytes, [5, 0]);
        }

        /// The same costs once more.
        ///
        /// # Contract
        ///
        /// ```text
        /// ensures: IfOk result (λ same. costs_of same ≡ costs_of provider.now)
        /// ```
        fn same_costs(provider: &FuelCostsProvider) -> Result<FuelCostsProvider, AllocError> {
            provider.try_clone()
        }

        /// A meter at the costs that stand where none are chosen.
        ///
        /// # Contract
        ///
        /// ```text
        /// ensures: result ≡ record { left = (if enabled then Some 0 else None); costs = default_costs }
        /// ```
        fn default_meter(enabled: bool) -> Fuel {
            Fuel::new(enabled, FuelCostsProvider::default())
        }

        #[test]
        fn a_reference_has_four_bytes() {
            let provider = same_costs(&FuelCostsProvider::default()).expect("a clone");
            let of_15 = provider.fuel_for_copying_values::<RawRef>(15);
            let of_16 = provider.fuel_for_copying_values::<RawRef>(16);
            same("the default costs", [of_15, of_16], [0, 1]);
        }

        #[test]
        fn a_meter_that_is_off_calls_no_closure() {
            let mut fuel = default_meter(false);
            let mut is_called = false;
            let off = FuelError::FuelMeteringDisabled;
            same("setting 5", fuel.set_fuel(5), Err(off));
            let answers = [
                fuel.consume_fuel_unchecked(0),
                fuel.consume_fuel_unchecked(1),
            ];
            let expected = [Ok(0), Err(FuelError::out_of_fuel(1))];
            same("0 and 1 unchecked", answers, expected);
            let consumed = fuel.consume_fuel_if(|_| {
                is_called = true;
                1
            });
            same("1 if on", (consumed, is_called), (Ok(()), false));
        }

        #[test]
        fn a_fuel_error_becomes_one_of_a_table() {
            let answers = [
                TableError::of_fuel(FuelError::out_of_fuel(7)),
                TableError::of_fuel(FuelError::fuel_metering_disabled()),
            ];
            let expected = [
                Ok(TableError::OutOfFuel { required_fuel: 7 }),
                Err(FuelError::FuelMeteringDisabled),
            ];
            same("too little fuel, metering is off", answers, expected);
        }

        /// What a limiter answers in place of a permission, or to a notice.
        pub const COMPLAINT: LimiterError = LimiterError::ResourceLimiterDeniedAllocation;

        /// A question to a limiter.
        #[derive(Clone, Copy, Debug, PartialEq, Eq)]
        pub struct Question {
            pub kind: Kind,
            pub current: usize,
            pub desired: usize,
            pub maximum: Option<usize>,
        }

        /// Why a memory or a table wasn't made or didn't grow.
        #[derive(Clone, Copy, Debug, PartialEq, Eq)]
        pub enum Failure {
            Memory(MemoryError),
            Table(TableError),
        }

        /// Gives each question the answer and each notice the notice_answer that it was told to give, and
        /// keeps what it was asked and told last, and how often.
        pub struct Recorder {
            pub answer: Result<bool, LimiterError>,
            pub notice_answer: Result<(), LimiterError>,
            pub questions: u32,
            pub question: Option<Question>,
            pub notices: u32,
            pub notice: Option<Failure>,
        }

        impl Recorder {
            pub(super) fn new(
                answer: Result<bool, LimiterError>,
                notice_answer: Result<(), LimiterError>,
            ) -> Self {
                Recorder {
                    answer,
                    notice_answer,
                    questions: 0,
                    question: None,
                    notices: 0,
                    notice: None,
                }
            }

            fn is_asked(&mut self, question: Option<Question>) -> Result<bool, LimiterError> {
                self.questions = self.questions.saturating_add(1);
                self.question = question;
                self.answer
            }

            fn is_told(&mut self, notice: Failure) -> Result<(), LimiterError> {
                self.notices = self.notices.saturating_add(1);
                self.notice = Some(notice);
                self.notice_answer
            }
        }

        impl ResourceLimiter for Recorder {
            fn memory_growing(
                &mut self,
                current: usize,
                desired: usize,
                maximum: Option<usize>,
            ) -> Result<bool, LimiterError> {
                self.is_asked(memory_question(current, desired, maximum))
            }

            fn table_growing(
                &mut self,
                current: usize,
                desired: usize,
                maximum: Option<usize>,
            ) -> Result<bool, LimiterError> {
                self.is_asked(table_question(current, desired, maximum))
            }

            fn memory_grow_failed(&mut self, error: &MemoryError) -> Result<(), LimiterError> {
                self.is_told(Failure::Memory(*error))
            }

            fn table_grow_failed(&mut self, error: &TableError) -> Result<(), LimiterError> {
                self.is_told(Failure::Table(*error))
            }

            fn instances(&self) -> usize {
                0
            }

            fn tables(&self) -> usize {
                0
            }

            fn memories(&self) -> usize {
                0
            }
        }

        /// A question whether a memory may grow, in bytes.
        pub(super) fn memory_question(
            current: usize,
            desired: usize,
            maximum: Option<usize>,
        ) -> Option<Question> {
            Some(Question {
                kind: Kind::Bytes,
                current,
                desired,
                maximum,
            })
        }

        /// A question whether a table may grow, in elements.
        pub(super) fn table_question(
            current: usize,
            desired: usize,
            maximum: Option<usize>,
        ) -> Option<Question> {
            Some(Question {
                kind: Kind::Elements,
                current,
                desired,
                maximum,
            })
        }

        /// Compares what a limiter was asked and told: each of them once, or not at all.
        pub(super) fn same_record(
            what: &str,
            recorder: &Recorder,
            question: Option<Question>,
            notice: Option<Failure>,
        ) {
            let numbers = (u32::from(question.is_some()), u32::from(notice.is_some()));
            same(what, (recorder.questions, recorder.notices), numbers);
            let last = (recorder.question, recorder.notice);
            same(what, last, (question, notice));
        }
    }
    mod memories {
        //! Linear memories and their buffers: types, and how they are made, grow, are read and are written;
        //! what the lender of a region finds in it after the loan, and what a caller knows of a memory
        //! after it wrote through a loan.

        use super::limiters::{COMPLAINT, Failure, Recorder, memory_question, same_record};
        use super::{
            SUBTYPES, ample_memory, build_type, grow, lent_memory, metered, new_memory, page_type,
            same,
        };
        use crate::proved::meter::{LimiterError, MemoryError, NoLimits, Quota, ResourceLimiter};
        use crate::proved::store::{ByteBuffer, Memory};

        const DENIED: MemoryError = MemoryError::ResourceLimiterDeniedAllocation;

        const OUT_OF_BOUNDS: MemoryError = MemoryError::OutOfBoundsGrowth;

        const OUT_OF_FUEL: MemoryError = MemoryError::OutOfFuel {
            required_fuel: 1024,
        };

        #[test]
        fn subtyping_works() {
            for &(what, own, other, expected) in &SUBTYPES {
                let own = page_type(u64::from(own.0), own.1.map(u64::from));
                let other = page_type(u64::from(other.0), other.1.map(u64::from));
                same(what, own.is_subtype_of(&other), expected);
            }
        }

        #[cfg(feature = "memory64")]
        #[test]
        fn all_addresses_are_too_many() {
            let types = [
                build_type(65536, None, 16, false).is_ok(),
                build_type(65537, None, 16, false).is_ok(),
            ];
            same("all pages, one more", types, [true, false]);
            let mut recorder = Recorder::new(Ok(true), Ok(()));
            let wide = build_type(1 << 48, None, 16, true).expect("a type");
            let made = new_memory(wide, &mut recorder).err();
            let overflow = Some(MemoryError::MinimumSizeOverflow);
            same("a minimum of all addresses", made, overflow);
            let ty = build_type(0, Some(1 << 48), 16, true).expect("a type");
            let mut memory = new_memory(ty, &mut recorder).expect("a memory");
            let grown = grow(&mut memory, 1 << 48, None, &mut recorder);
            same("all addresses", grown, Err(OUT_OF_BOUNDS));
            let creation = memory_question(0, 0, Some(usize::MAX));
            same_record("the creation alone", &recorder, creation, None);
        }

        /// The outcome of a growth, and the fuel that is left.
        type Paid = (Result<u64, MemoryError>, u64);

        /// Grows a memory page by page on a meter with so much fuel, and compares how each growth ends.
        fn grows<L: ResourceLimiter>(
            memory: &mut Memory,
            limiter: &mut L,
            fuel: u64,
            growths: &[Paid],
        ) {
            let mut meter = metered(fuel);
            for &(outcome, left) in growths {
                let grown = grow(memory, 1, Some(&mut meter), limiter);
                same(
                    "a page more",
                    (grown, meter.get_fuel()),
                    (outcome, Ok(left)),
                );
            }
        }

        /// Fuel, the growths that it has to pay for, and the bytes that the quota then holds.
        static METERED_GROWTHS: [(u64, &[Paid], u64); 2] = [
            (1000, &[(Err(OUT_OF_FUEL), 1000)], 65536),
            (1024, &TO_THE_MAXIMUM, 131072),
        ];

        /// A page more, to the maximum, and one above it.
        const TO_THE_MAXIMUM: [Paid; 2] = [(Ok(1), 0), (Err(OUT_OF_BOUNDS), 0)];

        #[test]
        fn quota_bounds_growth() {
            for &(fuel, growths, held) in &METERED_GROWTHS {
                let mut quota = Quota::new(131072, 0);
                let ty = page_type(1, Some(2));
                let mut memory = new_memory(ty, &mut quota).expect("a memory");
                grows(&mut memory, &mut quota, fuel, growths);
                same("held", quota.held_bytes(), held);
            }
        }

        #[test]
        fn growth_above_the_maximum_asks_no_limiter() {
            let mut recorder = Recorder::new(Ok(true), Ok(()));
            let mut memory = ample_memory(page_type(1, Some(2)));
            grows(&mut memory, &mut recorder, 1024, &TO_THE_MAXIMUM);
            let question = memory_question(65536, 131072, Some(131072));
            same_record("the first growth alone", &recorder, question, None);
        }

        #[test]
        fn a_limiter_refuses_creations() {
            for answer in [Ok(false), Err(COMPLAINT)] {
                let mut recorder = Recorder::new(answer, Ok(()));
                let made = new_memory(page_type(1, None), &mut recorder);
                same("a creation", made.err(), Some(DENIED));
            }
        }

        /// A limiter's answers to the question and to the notice of a growth without enough fuel, how the
        /// growth ends, and the notices.
        static REFUSALS: [(
            Result<bool, LimiterError>,
            Result<(), LimiterError>,
            Paid,
            u32,
        ); 3] = [
            (Ok(false), Ok(()), (Err(OUT_OF_BOUNDS), 1000), 0),
            (Err(COMPLAINT), Ok(()), (Err(DENIED), 1000), 0),
            (Ok(true), Err(COMPLAINT), (Err(DENIED), 1000), 1),
        ];

        #[test]
        fn a_limiter_refuses_growths() {
            for &(answer, notice_answer, growth, notices) in &REFUSALS {
                let mut memory = ample_memory(page_type(1, Some(2)));
                let mut recorder = Recorder::new(answer, notice_answer);
                grows(&mut memory, &mut recorder, 1000, &[growth]);
                same("notices", recorder.notices, notices);
            }
        }

        #[test]
        fn the_greatest_address_is_past_the_end() {
            let mut memory = ample_memory(page_type(1, None));
            let answers = [
                memory.read(usize::MAX, &mut [0]),
                memory.write(usize::MAX, &[0]),
            ];
            let refused = Err(MemoryError::OutOfBoundsAccess);
            same("a read, a write", answers, [refused; 2]);
        }

        /// A page in the region, and one more.
        static IN_ONE_PAGE: [Paid; 2] = [
            (Ok(0), 1024),
            (Err(MemoryError::InvalidStaticBufferSize), 1024),
        ];

        #[test]
        fn a_region_of_one_page_holds_one() {
            let mut region = [7; 65536];
            let mut recorder = Recorder::new(Ok(true), Ok(()));
            let ty = page_type(0, Some(2));
            let mut memory = lent_memory(ty, &mut NoLimits, &mut region).expect("a memory");
            grows(&mut memory, &mut recorder, 2048, &IN_ONE_PAGE);
            same("bytes", memory.data(), [0; 65536].as_slice());
            let question = memory_question(65536, 131072, Some(131072));
            let last = (recorder.questions, recorder.question, recorder.notices);
            same("questions", last, (2, question, 1));
            let too_short = Failure::Memory(MemoryError::InvalidStaticBufferSize);
            same("the notice", recorder.notice, Some(too_short));
        }

        #[test]
        fn a_short_region_is_left_as_it_was() {
            let mut region = [7; 4];
            let ty = build_type(5, None, 0, false).expect("a type");
            let made = lent_memory(ty, &mut NoLimits, &mut region).err();
            let expected = (Some(MemoryError::InvalidStaticBufferSize), [7; 4]);
            same("the error, the bytes", (made, region), expected);
        }

        /// How many bytes a buffer grows by, how that ends, and the bytes then.
        type Growth<'a> = (usize, Result<(), MemoryError>, &'a [u8]);

        /// Compares the bytes of a new buffer, and then those after each growth.
        fn buffer_grows(made: Result<ByteBuffer, MemoryError>, bytes: &[u8], growths: &[Growth]) {
            let mut buffer = made.expect("a buffer");
            same("the bytes at first", buffer.data(), bytes);
            for &(more, outcome, bytes) in growths {
                let grown = buffer.grow(buffer.len().saturating_add(more));
                same(
                    "a growth, the bytes",
                    (grown, buffer.data()),
                    (outcome, bytes),
                );
            }
        }

        #[test]
        fn test_basic_allocation_deallocation() {
            let buffer = ByteBuffer::new(10).expect("a buffer");
            same("length", buffer.len(), 10);
        }

        #[test]
        fn test_basic_data_manipulation() {
            let mut buffer = ByteBuffer::new(10).expect("a buffer");
            same("zeros", buffer.data(), [0; 10].as_slice());
            buffer.data_mut()[4] = 4;
            let written = [0, 0, 0, 0, 4, 0, 0, 0, 0, 0];
            same("a byte written", buffer.data(), written.as_slice());
        }

        #[test]
        fn test_growing_buffer() {
            let made = ByteBuffer::new(5);
            buffer_grows(made, &[0; 5], &[(5, Ok(()), &[0; 10])]);
        }

        /// No byte and one byte can't grow to all addresses.
        static WITHOUT_MEMORY: [Growth; 3] = [
            (usize::MAX, Err(MemoryError::OutOfSystemMemory), &[]),
            (1, Ok(()), &[0]),
            (usize::MAX, Err(MemoryError::OutOfSystemMemory), &[0]),
        ];

        #[test]
        fn out_of_memory_works() {
            let made = ByteBuffer::new(0);
            buffer_grows(made, &[], &WITHOUT_MEMORY);
        }

        #[test]
        fn test_growing_static() {
            let mut region = [7; 10];
            let made = ByteBuffer::new_static(&mut region, 5);
            let growths: [Growth; 2] = [(3, Ok(()), &[0; 8]), (2, Ok(()), &[0; 10])];
            buffer_grows(made, &[0; 5], &growths);
        }

        #[test]
        fn test_static_buffer_overflow() {
            let mut region = [7; 5];
            let made = ByteBuffer::new_static(&mut region, 5);
            let refused = Err(MemoryError::InvalidStaticBufferSize);
            buffer_grows(made, &[0; 5], &[(5, refused, &[0; 5])]);
        }

        #[test]
        fn test_static_buffer_initialization() {
            let mut region = [7; 10];
            let mut buffer = ByteBuffer::new_static(&mut region, 5).expect("a buffer");
            same("length", buffer.len(), 5);
            buffer.data_mut()[0] = 1;
            drop(buffer);
            let found = [1, 0, 0, 0, 0, 7, 7, 7, 7, 7];
            same("the lender's bytes", region, found);
        }

        /// A caller that writes through what a memory lends, and knows the memory afterwards.
        ///
        /// # Contract
        ///
        /// ```text
        /// ensures bytes: 0 < length memory.old.bytes
        ///     → memory.new.bytes ≡ slice_set memory.old.bytes 0 7
        /// ensures same_type: memory.new.ty ≡ memory.old.ty
        /// ensures room: memory.new.room ≡ memory.old.room
        /// ```
        fn put_first(memory: &mut Memory) {
            let data = memory.data_mut();
            if 0 < data.len() {
                data[0] = 7;
            }
        }

        #[test]
        fn writes_through_a_loan() {
            let ty = build_type(3, None, 0, false).expect("a type");
            let mut memory = ample_memory(ty);
            put_first(&mut memory);
            same("the bytes", memory.data(), [7, 0, 0].as_slice());
            drop(memory);
        }
    }
    mod tables {
        //! Tables: their types, and how they grow, are filled, copied and initialized; element segments,
        //! and the iterators that they are read of.
        use super::limiters::{COMPLAINT, Failure, Question, Recorder, same_record};
        use super::{
            SUBTYPES, external, five_functions, func, metered, metered_at, same, same_elements,
            table_of,
        };
        use crate::proved::meter::{Fuel, Kind, LimiterError, ResourceLimiterRef, TableError};
        use crate::proved::raw::RawRef;
        use crate::proved::store::{ElementSegment, Table, TableType};
        use crate::proved::types::RefType;

        /// A type of tables of functions. A maximum below the minimum is left out.
        fn func_type(limits: (u32, Option<u32>)) -> TableType {
            match limits {
                (minimum, Some(maximum)) if minimum <= maximum => {
                    TableType::new(RefType::Func, minimum, Some(maximum))
                }
                (minimum, _) => TableType::new(RefType::Func, minimum, None),
            }
        }

        #[test]
        fn subtyping_works() {
            for &(what, own, other, expected) in &SUBTYPES {
                let is_subtype = func_type(own).is_subtype_of(&func_type(other));
                same(what, is_subtype, expected);
            }
            let functions = TableType::new(RefType::Func, 0, Some(1));
            let externals = TableType::new(RefType::Extern, 0, Some(1));
            let answer = functions.is_subtype_of(&externals);
            same("another type", answer, false);
        }

        /// Grows a table by null references under a limiter.
        fn grow_raw(
            table: &mut Table,
            delta: u64,
            fuel: Option<&mut Fuel>,
            limiter: &mut Recorder,
        ) -> Result<u64, TableError> {
            let mut limiter = ResourceLimiterRef::from(limiter);
            table.grow_raw(delta, RawRef::null(), fuel, &mut limiter)
        }

        const OUT_OF_BOUNDS: TableError = TableError::GrowOutOfBounds;

        /// A growth of a table of one element: the maximum, by how many elements, the limiter's answer, how
        /// the growth ends, and what the limiter is asked and told.
        struct Growth {
            maximum: Option<u32>,
            delta: u64,
            answer: Result<bool, LimiterError>,
            error: TableError,
            question: Option<Question>,
            notice: Option<Failure>,
        }

        /// Grows a table, and compares how that ends. No fuel is taken.
        fn grows(growth: &Growth) {
            let ty = func_type((1, growth.maximum));
            let mut table = table_of(ty, func(1));
            let mut meter = metered(7);
            let mut recorder = Recorder::new(growth.answer, Ok(()));
            let grown = grow_raw(&mut table, growth.delta, Some(&mut meter), &mut recorder);
            let ended = (grown, meter.get_fuel());
            same("a growth", ended, (Err(growth.error), Ok(7)));
            same_record("a growth", &recorder, growth.question, growth.notice);
        }

        static ABOVE_THE_MAXIMUM: Growth = Growth {
            maximum: Some(2),
            delta: 2,
            answer: Ok(true),
            error: OUT_OF_BOUNDS,
            question: Some(Question {
                kind: Kind::Elements,
                current: 1,
                desired: 3,
                maximum: Some(2),
            }),
            notice: Some(Failure::Table(OUT_OF_BOUNDS)),
        };

        #[test]
        fn a_growth_above_the_maximum_is_asked_for() {
            grows(&ABOVE_THE_MAXIMUM);
        }

        /// To as many elements as there are indices, to one less, and what a limiter refuses.
        static REFUSED: [Growth; 4] = [
            Growth {
                maximum: None,
                delta: 4294967295,
                answer: Ok(false),
                error: OUT_OF_BOUNDS,
                question: None,
                notice: None,
            },
            Growth {
                maximum: None,
                delta: 4294967294,
                answer: Ok(false),
                error: OUT_OF_BOUNDS,
                question: Some(Question {
                    kind: Kind::Elements,
                    current: 1,
                    desired: 4294967295,
                    maximum: None,
                }),
                notice: None,
            },
            Growth {
                maximum: None,
                delta: 1,
                answer: Ok(false),
                error: OUT_OF_BOUNDS,
                question: Some(Question {
                    kind: Kind::Elements,
                    current: 1,
                    desired: 2,
                    maximum: None,
                }),
                notice: None,
            },
            Growth {
                maximum: None,
                delta: 1,
                answer: Err(COMPLAINT),
                error: TableError::ResourceLimiterDeniedAllocation,
                question: Some(Question {
                    kind: Kind::Elements,
                    current: 1,
                    desired: 2,
                    maximum: None,
                }),
                notice: None,
            },
        ];

        #[test]
        fn a_limiter_refuses_growths() {
            for growth in &REFUSED {
                grows(growth);
            }
        }

        #[test]
        fn tests_the_type_also_for_no_element() {
            let ty = TableType::new(RefType::Func, 1, Some(2));
            let mut table = table_of(ty, func(1));
            let mut recorder = Recorder::new(Ok(true), Ok(()));
            let mut limiter = ResourceLimiterRef::from(&mut recorder);
            let mismatch = Err(TableError::ElementTypeMismatch);
            let answers = [
                table.grow(0, external(0), None, &mut limiter),
                table.grow(0, func(0), None, &mut limiter),
                table.grow_raw(0, external(0).raw(), None, &mut limiter),
            ];
            let expected = [mismatch, Ok(1), Ok(1)];
            same("another, the same, no type", answers, expected);
            same_record("nobody is asked", &recorder, None, None);
        }

        /// Copies within a table of the functions 1 to 5: to, from, how many, and the elements then.
        static COPIES: [((u64, u64, u64), [u32; 5]); 2] =
            [((1, 0, 3), [1, 1, 2, 3, 5]), ((0, 2, 3), [3, 4, 5, 4, 5])];

        #[test]
        fn copies_within() {
            for &((to, from, len), elements) in &COPIES {
                let mut table = five_functions();
                let copied = table.copy_within(to, from, len, None);
                same("a copy", copied, Ok(()));
                same_elements("a copy", &table, elements);
            }
        }

        #[test]
        fn refuses_what_is_past_the_table() {
            let mut table = five_functions();
            let mut meter = metered_at(1, 100);
            let answers = [
                table.copy_within(u64::MAX, 0, 1, Some(&mut meter)),
                table.copy_within(0, 0, u64::MAX, Some(&mut meter)),
                table.fill_raw(4, RawRef::from(9), 2, Some(&mut meter)),
                table.fill_raw(u64::MAX, RawRef::from(9), 1, Some(&mut meter)),
            ];
            let copy = Err(TableError::CopyOutOfBounds);
            let fill = Err(TableError::FillOutOfBounds);
            let expected = ([copy, copy, fill, fill], Ok(100));
            same("copies, fills, fuel", (answers, meter.get_fuel()), expected);
            same_elements("unchanged", &table, [1, 2, 3, 4, 5]);
        }

        #[test]
        fn charges_for_no_element() {
            let mut table = five_functions();
            let mut meter = metered_at(0, 10);
            let segment = ElementSegment::new(RefType::Func, [RawRef::null()]);
            let segment = segment.expect("a segment");
            let answers = [
                table.init(segment.as_ref(), 5, 1, 0, Some(&mut meter)),
                table.copy_within(5, 0, 0, Some(&mut meter)),
            ];
            let out_of_fuel = TableError::OutOfFuel {
                required_fuel: u64::MAX,
            };
            let answer = (answers, meter.get_fuel());
            let expected = ([Ok(()), Err(out_of_fuel)], Ok(10));
            same("an initialization, a copy, fuel", answer, expected);
        }

        /// Gives two references, then `None` once, then references without end.
        struct Wavering {
            calls: u32,
        }

        impl Iterator for Wavering {
            type Item = RawRef;

            fn next(&mut self) -> Option<RawRef> {
                let call = self.calls;
                self.calls = call.saturating_add(1);
                if call == 2 {
                    return None;
                }
                Some(RawRef::from(call))
            }
        }

        #[test]
        fn ends_at_the_first_none() {
            let mut items = Wavering { calls: 0 };
            let read = ElementSegment::read(RefType::Func, &mut items);
            let segment = read.expect("a segment");
            let expected = [RawRef::from(0), RawRef::from(1)];
            same("the items", segment.items(), expected.as_slice());
            let rest = Wavering { calls: 1 };
            let again = ElementSegment::new(RefType::Extern, rest).expect("a segment");
            let answer = (items.calls, again.size(), again.ty());
            let expected = (3, 1, RefType::Extern);
            same("calls, the second's size and type", answer, expected);
        }
    }

    use super::same;
    use crate::proved::meter::{
        CustomFuelCosts, Fuel, FuelCostsProvider, MemoryError, NoLimits, ResourceLimiter,
        ResourceLimiterRef,
    };
    use crate::proved::raw::RawRef;
    use crate::proved::store::{Memory, MemoryType, Table, TableType};
    use crate::proved::typed::TypedRawRef;
    use crate::proved::types::RefType;

    /// Builds a type of memories, which may be invalid.
    fn build_type(
        minimum: u64,
        maximum: Option<u64>,
        page_size_log2: u8,
        memory64: bool,
    ) -> Result<MemoryType, MemoryError> {
        let mut builder = MemoryType::builder();
        builder
            .min(minimum)
            .max(maximum)
            .page_size_log2(page_size_log2)
            .memory64(memory64);
        builder.build()
    }

    /// Pages of 64 KiB under 32-bit addresses.
    fn page_type(minimum: u64, maximum: Option<u64>) -> MemoryType {
        build_type(minimum, maximum, 16, false).expect("a valid type")
    }

    /// A meter with so much fuel, of which one is taken for 64 copied bytes.
    fn metered(fuel: u64) -> Fuel {
        metered_at(64, fuel)
    }

    /// A meter with so much fuel, of which one is taken for so many copied bytes.
    fn metered_at(bytes_copied_per_fuel: u32, fuel: u64) -> Fuel {
        let costs = CustomFuelCosts {
            bytes_copied_per_fuel,
            fuel_per_bytes_translated: 7,
            fuel_per_bytes_validated: 2,
        };
        let mut meter = Fuel::new(true, FuelCostsProvider::custom(costs));
        let _ = meter.set_fuel(fuel);
        meter
    }

    /// A new memory without limits.
    fn ample_memory(ty: MemoryType) -> Memory<'static> {
        new_memory(ty, &mut NoLimits).expect("a memory")
    }

    /// A new memory under a limiter.
    fn new_memory<L: ResourceLimiter>(
        ty: MemoryType,
        limiter: &mut L,
    ) -> Result<Memory<'static>, MemoryError> {
        Memory::new(ty, &mut ResourceLimiterRef::from(limiter))
    }

    /// A new memory on a lent region, under a limiter.
    fn lent_memory<'r, L: ResourceLimiter>(
        ty: MemoryType,
        limiter: &mut L,
        region: &'r mut [u8],
    ) -> Result<Memory<'r>, MemoryError> {
        Memory::new_static(ty, &mut ResourceLimiterRef::from(limiter), region)
    }

    /// Grows a memory under a limiter.
    fn grow<L: ResourceLimiter>(
        memory: &mut Memory,
        pages: u64,
        fuel: Option<&mut Fuel>,
        limiter: &mut L,
    ) -> Result<u64, MemoryError> {
        memory.grow(pages, fuel, &mut ResourceLimiterRef::from(limiter))
    }

    /// A reference to a function.
    fn func(bits: u32) -> TypedRawRef {
        TypedRawRef::new(RawRef::from(bits), RefType::Func)
    }

    /// A reference to an object of the host.
    fn external(bits: u32) -> TypedRawRef {
        TypedRawRef::new(RawRef::from(bits), RefType::Extern)
    }

    /// A table under no limits, full of one function.
    fn table_of(ty: TableType, init: TypedRawRef) -> Table {
        let mut limits = NoLimits;
        let mut limiter = ResourceLimiterRef::from(&mut limits);
        Table::new(ty, init, &mut limiter).expect("a table")
    }

    /// A table of functions, 1 to 5.
    fn five_functions() -> Table {
        let ty = TableType::new(RefType::Func, 5, None);
        let mut table = table_of(ty, func(1));
        for index in 1..5u32 {
            let set = table.set(u64::from(index), func(index + 1));
            same("an element", set, Ok(()));
        }
        table
    }

    /// Compares the first five elements of a table of functions.
    fn same_elements(what: &str, table: &Table, expected: [u32; 5]) {
        for index in 0..5u32 {
            let bits = expected[index as usize];
            let element = table.get(u64::from(index));
            same(what, element, Some(func(bits)));
        }
    }

    /// A minimum and a maximum.
    type Limits = (u32, Option<u32>);

    /// Two types by their limits, and whether the first is a subtype of the second.
    static SUBTYPES: [(&str, Limits, Limits, bool); 7] = [
        ("the same maximum", (0, Some(1)), (0, Some(1)), true),
        ("a smaller maximum", (0, Some(1)), (0, Some(2)), true),
        ("a greater maximum", (0, Some(2)), (0, Some(1)), false),
        ("a greater minimum", (2, None), (1, None), true),
        ("the same minimum", (0, None), (0, None), true),
        ("a maximum for none", (0, Some(1)), (0, None), true),
        ("none for a maximum", (0, None), (0, Some(1)), false),
    ];
}
mod traps {
    //! Traps and trap codes: their numbers, their texts, and what a trap carries.

    use super::{same, same_text};
    use crate::proved::types::{HostError, InvalidTrapCode, Trap, TrapCode};
    use crate::rattle::TextExt;
    use std::fmt;
    use std::string::String;

    /// Each trap code with its number and its text.
    static TRAP_CODES: [(u8, TrapCode, &str); 12] = [
        (
            1,
            TrapCode::UnreachableCodeReached,
            "wasm `unreachable` instruction executed",
        ),
        (
            2,
            TrapCode::MemoryOutOfBounds,
            "out of bounds memory access",
        ),
        (
            3,
            TrapCode::TableOutOfBounds,
            "undefined element: out of bounds table access",
        ),
        (4, TrapCode::IndirectCallToNull, "uninitialized element 2"),
        (5, TrapCode::IntegerDivisionByZero, "integer divide by zero"),
        (6, TrapCode::IntegerOverflow, "integer overflow"),
        (
            7,
            TrapCode::BadConversionToInteger,
            "invalid conversion to integer",
        ),
        (8, TrapCode::StackOverflow, "call stack exhausted"),
        (9, TrapCode::BadSignature, "indirect call type mismatch"),
        (10, TrapCode::OutOfFuel, "all fuel consumed by WebAssembly"),
        (
            11,
            TrapCode::GrowthOperationLimited,
            "growth operation limited",
        ),
        (12, TrapCode::OutOfSystemMemory, "out of system memory"),
    ];

    #[test]
    fn trap_code_conversion() {
        for (number, code, text) in &TRAP_CODES {
            let codes = (u8::from(*code), TrapCode::try_from(*number));
            let answer = (codes, code.trap_message());
            same(text, answer, ((*number, Ok(*code)), *text));
            same_text(code, text);
        }
        let answers = [
            TrapCode::try_from(0),
            TrapCode::try_from(13),
            TrapCode::try_from(255),
        ];
        let expected = [Err(InvalidTrapCode); 3];
        same("no trap codes, 0, 13 and 255", answers, expected);
    }

    /// An error of the host.
    #[derive(Clone, Copy, Debug, PartialEq, Eq)]
    struct Refused(u8);

    impl fmt::Display for Refused {
        fn fmt(&self, f: &mut fmt::Formatter<'_>) -> fmt::Result {
            write!(f, "refused {}", self.0)
        }
    }

    impl HostError for Refused {}

    /// What a trap answers: its code, its exit status and its error of the host.
    type Reason = (Option<TrapCode>, Option<i32>, Option<Refused>);

    fn check_trap(mut trap: Trap<Refused>, text: &str, reason: Reason) {
        same_text(&trap, text);
        let error = trap.downcast_ref().copied();
        let answer = (trap.trap_code(), trap.i32_exit_status(), error);
        same(text, answer, reason);
        if let Some(error) = trap.downcast_mut() {
            error.0 = 8;
        }
        same(text, trap.downcast(), error.and(Some(Refused(8))));
    }

    #[test]
    fn a_trap_is_its_reason() {
        let code = TrapCode::StackOverflow;
        let reason = (Some(code), None, None);
        check_trap(code.into(), "call stack exhausted", reason);
        let exit = Trap::i32_exit(-1);
        let reason = (None, Some(-1), None);
        check_trap(exit, "Exited with i32 exit status -1", reason);
        let message = String::try_of("the message").expect("memory");
        let reason = (None, None, None);
        check_trap(Trap::new(message), "the message", reason);
        let error = Refused(7);
        let reason = (None, None, Some(error));
        check_trap(error.into(), "refused 7", reason);
    }
}
mod values {
    //! Raw and typed values, shift amounts, and what a caller knows of a global variable after a loan.

    use super::{same, same_text};
    use crate::proved::raw::{RawVal, ReadAs, V128, WriteAs};
    use crate::proved::typed::{
        Global, GlobalType, IntoShiftAmount, Mutability, NotAReference, ShiftAmount, TypedRawRef,
        TypedRawVal,
    };
    use crate::proved::types::{FuncTypeError, ValType};

    #[test]
    fn equality_looks_at_both_words() {
        let mut raw = RawVal::from(V128::from(u128::MAX));
        raw.write_as(0u32);
        let answer = (raw.lo, raw.hi, raw == RawVal::from(0u32));
        let expected = (0, 18446744073709551615, false);
        same("words and equality", answer, expected);
    }

    #[test]
    fn numbers_are_read_of_the_low_word() {
        let raw = RawVal::from_bits64(256);
        let boolean: bool = raw.read_as();
        let byte: u8 = raw.read_as();
        same("a bool and a byte of 256", (boolean, byte), (true, 0));
        let expected = RawVal {
            lo: 4294967295,
            hi: 0,
        };
        same("-1", RawVal::from(-1i32), expected);
    }

    #[test]
    fn other_values_are_no_references() {
        for ty in [
            ValType::I32,
            ValType::I64,
            ValType::F32,
            ValType::F64,
            ValType::V128,
        ] {
            let typed = TypedRawVal::new(ty, RawVal::from(1u32));
            let reference = TypedRawRef::of_value(typed);
            same("no reference", reference, Err(NotAReference));
        }
        same_text(&NotAReference, "not a reference type");
        let error = FuncTypeError::OutOfMemory;
        same_text(&error, "out of memory");
    }

    /// The remainder of an amount, which is `None` where nothing is shifted.
    fn remainder<T: IntoShiftAmount>(amount: T::ShiftSource) -> Option<u8> {
        T::into_shift_amount(amount).map(u8::from)
    }

    #[test]
    fn shift_amounts_are_remainders() {
        let answers = [
            remainder::<i32>(32),
            remainder::<i32>(33),
            remainder::<i32>(-1),
            remainder::<i8>(-9),
            remainder::<i16>(i16::MIN),
            remainder::<i64>(-1),
            remainder::<i128>(-1),
            remainder::<u8>(255),
            remainder::<u16>(17),
            remainder::<u32>(u32::MAX),
            remainder::<u64>(128),
            remainder::<u128>(129),
            remainder::<[u8; 16]>(17),
            remainder::<[u16; 8]>(17),
            remainder::<[u32; 4]>(64),
            remainder::<[u64; 2]>(65),
        ];
        let expected = [
            None,
            Some(1),
            Some(31),
            Some(7),
            None,
            Some(63),
            Some(127),
            Some(7),
            Some(1),
            Some(31),
            None,
            Some(1),
            Some(1),
            Some(1),
            None,
            Some(1),
        ];
        same("remainders", answers, expected);
        same("amount", u8::from(ShiftAmount::from(200)), 200);
    }

    /// A caller of `get_raw_mut` knows what the variable holds after the loan.
    ///
    /// # Contract
    ///
    /// ```text
    /// requires: global.old.ty.mutability ≡ Mutability.Var
    /// ensures after: global.new ≡ with_value global.old value
    /// ensures before: result ≡ global.old.value
    /// ```
    fn replace(global: &mut Global, value: RawVal) -> RawVal {
        let raw = global.get_raw_mut();
        let before = *raw;
        *raw = value;
        before
    }

    #[test]
    fn globals_are_written_in_place() {
        let variable = GlobalType::new(ValType::V128, Mutability::Var);
        let mut global = Global::new(RawVal::default(), variable);
        let before = replace(&mut global, RawVal { lo: 1, hi: 2 });
        same("value before", before, RawVal::default());
        global.get_raw_mut().hi = 5;
        let written = RawVal { lo: 1, hi: 5 };
        same("value written in place", *global.get_raw(), written);
    }
}

use std::fmt::{Debug, Display};

/// Compares an answer with what it has to be. It is proved here once, and not at each row.
fn same<T: PartialEq + Debug>(what: &str, answer: T, expected: T) {
    assert!(
        answer == expected,
        "{what}: {answer:?} in place of {expected:?}"
    );
}

/// Compares the text of a value with what it has to be.
fn same_text(value: &impl Display, expected: &str) {
    let text = crate::rattle::text(format_args!("{value}")).expect("memory");
    same("a text", text.as_str(), expected);
}

pub(crate) mod instruction_tests;

pub(crate) mod example_callers;
