//! `FuncType`, `Trap`, `HostError`, and what threads and panics may do with each type.
use std::cmp::Ordering;
use std::fmt;
use std::hash::{BuildHasher, BuildHasherDefault, DefaultHasher};
use std::marker::PhantomData;
use std::panic::{RefUnwindSafe, UnwindSafe};
use wasmi_core_proved::*;

/// Types that differ from place to place.
fn types(from: usize, len: usize) -> Vec<ValType> {
    use ValType::*;
    const ALL: [ValType; 7] = [I32, I64, F32, F64, V128, FuncRef, ExternRef];
    (from..from + len).map(|index| ALL[index % 7]).collect()
}

fn func_type(params: &[ValType], results: &[ValType]) -> Result<FuncType, FuncTypeError> {
    FuncType::new(params.iter().copied(), results.iter().copied())
}

fn hash(ty: &FuncType) -> u64 {
    BuildHasherDefault::<DefaultHasher>::default().hash_one(ty)
}

#[test]
fn function_types() {
    // As many as stand in the value itself, and one more or less; as many as there may be, and one more.
    for (len_params, len_results) in [0, 1, 10, 11, 20, 21, 22, 999, 1000, 1001]
        .into_iter()
        .flat_map(|first| [0, 1, 10, 11, 20, 21, 22, 1000, 1001].map(|second| (first, second)))
    {
        let (params, results) = (types(0, len_params), types(3, len_results));
        let expected = match (len_params, len_results) {
            (1001, _) => Err("encountered a function with too many parameters"),
            (_, 1001) => Err("encountered a function with too many results"),
            _ => Ok((&params[..], &results[..])),
        };
        let made = func_type(&params, &results);
        let given = made
            .as_ref()
            .map(|ty| ty.params_results())
            .map_err(FuncTypeError::to_string);
        assert_eq!(given, expected.map_err(String::from));
        let Ok(ty) = made else {
            continue;
        };
        assert_eq!((ty.params(), ty.results()), (&params[..], &results[..]));
        assert_eq!(
            (ty.len_params().into(), ty.len_results().into()),
            (len_params, len_results)
        );
        assert_eq!(
            format!("{ty:?}"),
            format!("FuncType {{ params: {params:?}, results: {results:?} }}")
        );
        let other = func_type(&params, &types(4, len_results)).expect("a type");
        let again = func_type(&params, &results).expect("a type");
        assert_eq!(
            [ty == again, ty == ty.clone(), ty == other],
            [true, true, len_results == 0]
        );
        assert_eq!([hash(&ty.clone()), hash(&again)], [hash(&ty); 2]);
        assert_eq!([ty.cmp(&again), ty.cmp(&ty.clone())], [Ordering::Equal; 2]);
        assert_eq!(ty.cmp(&other).reverse(), other.cmp(&ty));
    }
}

#[test]
fn errors_of_function_types() {
    let long = types(0, 1001);
    assert!(matches!(
        func_type(&long, &long),
        Err(FuncTypeError::TooManyFunctionParams)
    ));
    assert!(matches!(
        func_type(&[], &long),
        Err(FuncTypeError::TooManyFunctionResults)
    ));
}

/// An iterator that says how many types it has, and has another number of them, or must not be read.
struct Claims {
    said: usize,
    has: Option<usize>,
}

impl Iterator for Claims {
    type Item = ValType;

    fn next(&mut self) -> Option<ValType> {
        let has = self.has.as_mut().expect("what says too much isn't read");
        *has = has.checked_sub(1)?;
        Some(ValType::I64)
    }

    fn size_hint(&self) -> (usize, Option<usize>) {
        (self.said, Some(self.said))
    }
}

impl ExactSizeIterator for Claims {}

#[test]
fn a_length_is_believed_above_1000_alone() {
    let made = |params: (usize, Option<usize>), results: (usize, Option<usize>)| {
        let [params, results] = [params, results].map(|(said, has)| Claims { said, has });
        FuncType::new(params, results)
            .map(|ty| (ty.len_params(), ty.len_results()))
            .map_err(|error| error.to_string().ends_with("parameters"))
    };
    assert_eq!(made((1001, None), (1001, None)), Err(true));
    assert_eq!(made((1000, None), (1001, None)), Err(false));
    for said in [0, 3, 1000] {
        assert_eq!(made((said, Some(1000)), (said, Some(0))), Ok((1000, 0)));
        assert_eq!(made((said, Some(1001)), (said, None)), Err(true));
        assert_eq!(made((said, Some(2)), (said, Some(1000))), Ok((2, 1000)));
        assert_eq!(made((said, Some(1000)), (said, Some(1001))), Err(false));
    }
}

/// An error of the host.
#[derive(Debug, PartialEq)]
struct Mine(u8);

#[derive(Debug)]
struct Other;

impl fmt::Display for Mine {
    fn fmt(&self, f: &mut fmt::Formatter<'_>) -> fmt::Result {
        write!(f, "mine {}", self.0)
    }
}

impl fmt::Display for Other {
    fn fmt(&self, f: &mut fmt::Formatter<'_>) -> fmt::Result {
        f.write_str("other")
    }
}

impl HostError for Mine {}
impl HostError for Other {}

/// What is read of a trap: its code, its status, whether it has an error of each type, and its texts.
fn read(mut trap: Trap) -> (Option<TrapCode>, Option<i32>, Option<u8>, String, String) {
    let error = trap.downcast_ref::<Mine>().map(|it| it.0);
    assert!(trap.downcast_ref::<Other>().is_none() && trap.downcast_mut::<Other>().is_none());
    assert_eq!(trap.downcast_mut::<Mine>().map(|it| it.0), error);
    let read = (
        trap.trap_code(),
        trap.i32_exit_status(),
        error,
        trap.to_string(),
        format!("{trap:?}"),
    );
    assert_eq!(trap.downcast::<Mine>().map(|it| it.0), error);
    read
}

#[test]
fn traps() {
    let code = TrapCode::IntegerOverflow;
    let rows = [
        (
            Trap::new("why"),
            (
                None,
                None,
                None,
                "why",
                r#"Trap { reason: Message("why") }"#,
            ),
        ),
        (
            Trap::i32_exit(-3),
            (
                None,
                Some(-3),
                None,
                "Exited with i32 exit status -3",
                "Trap { reason: I32Exit(-3) }",
            ),
        ),
        (
            Trap::from(code),
            (
                Some(code),
                None,
                None,
                "integer overflow",
                "Trap { reason: InstructionTrap(IntegerOverflow) }",
            ),
        ),
        (
            Trap::from(Mine(7)),
            (
                None,
                None,
                Some(7),
                "mine 7",
                "Trap { reason: Host(Mine(7)) }",
            ),
        ),
    ];
    for (trap, (code, status, error, text, debug)) in rows {
        assert_eq!(read(trap), (code, status, error, text.into(), debug.into()));
    }
    assert_eq!(Trap::from(Other).downcast::<Mine>(), None);
}

#[test]
#[cfg(feature = "std")]
#[expect(deprecated, reason = "a caller may still call it")]
fn descriptions() {
    use std::error::Error;
    assert_eq!(
        Trap::from(TrapCode::OutOfFuel).description(),
        TrapCode::OutOfFuel.trap_message()
    );
    assert_eq!(
        [Trap::new("why"), Trap::i32_exit(1), Trap::from(Mine(1))].map(|it| it.description().len()),
        [0; 3]
    );
    assert!(TrapCode::OutOfFuel.trap_message().len() > 5);
}

#[test]
fn boxed_errors_of_the_host() {
    let mut boxed: Box<dyn HostError> = Box::new(Mine(4));
    assert_eq!([boxed.is::<Mine>(), boxed.is::<Other>()], [true, false]);
    assert!(boxed.downcast_ref::<Other>().is_none() && boxed.downcast_mut::<Other>().is_none());
    boxed.downcast_mut::<Mine>().expect("it is one").0 = 5;
    assert_eq!(boxed.downcast_ref::<Mine>(), Some(&Mine(5)));
    let boxed = boxed.downcast::<Other>().expect_err("it is none");
    assert_eq!(*boxed.downcast::<Mine>().expect("it is one"), Mine(5));
}

/// Whether a type has an automatic trait: the constant of the impl, where its bound holds, hides that of the trait.
macro_rules! automatic {
    ($($name:ident: $($bound:ident)+;)*) => { $(
        mod $name {
            use super::*;
            pub struct Probe<T>(PhantomData<T>);
            impl<T: $($bound)+> Probe<T> {
                pub const IS: bool = true;
            }
        }
    )* };
}
automatic! {
    send: Send;
    sync: Sync;
    unwind_safe: UnwindSafe;
    ref_unwind_safe: RefUnwindSafe;
    unpin: Unpin;
}

trait No {
    const IS: bool = false;
}
impl<T> No for send::Probe<T> {}
impl<T> No for sync::Probe<T> {}
impl<T> No for unwind_safe::Probe<T> {}
impl<T> No for ref_unwind_safe::Probe<T> {}
impl<T> No for unpin::Probe<T> {}

macro_rules! traits {
    ($($ty:ty),*) => {
        [$((stringify!($ty), [<send::Probe<$ty>>::IS, <sync::Probe<$ty>>::IS, <unwind_safe::Probe<$ty>>::IS,
            <ref_unwind_safe::Probe<$ty>>::IS, <unpin::Probe<$ty>>::IS])),*]
    };
}

#[test]
fn automatic_traits() {
    for (ty, has) in traits!(
        CustomFuelCosts,
        ElementSegment,
        ElementSegmentRef<'static>,
        F32,
        F64,
        Fuel,
        FuelCostsProvider,
        FuelError,
        FuncType,
        FuncTypeError,
        Global,
        GlobalError,
        GlobalType,
        IndexType,
        LimiterError,
        Memory,
        MemoryError,
        MemoryType,
        MemoryTypeBuilder,
        Mutability,
        RawRef,
        RawVal,
        RefType,
        ShiftAmount,
        Table,
        TableError,
        TableType,
        TrapCode,
        TypedRawRef,
        TypedRawVal,
        V128,
        ValType
    ) {
        assert_eq!(has, [true; 5], "{ty}");
    }
    // A trap may carry an error that a panic leaves broken, and a limiter may be of one thread alone.
    let [trap, limiter] = traits!(Trap, ResourceLimiterRef<'static>);
    assert_eq!(
        [trap.1, limiter.1],
        [
            [true, true, false, false, true],
            [false, false, false, false, true]
        ]
    );
}
