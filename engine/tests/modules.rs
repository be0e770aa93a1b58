//! Modules that are refused, and where; what instances share; memories beyond the first one and beyond 32 bits; operands
//! that are constant; fuel that can't be cheated, stacks that end, and what a profile has of several modules.

use engine::library::{TrapCode, ValType};
use engine::{
    Caps, Config, Engine, Error, FloatInstruction, Instance, Linker, Module, Refusal, RefusalKind, Store, Val,
};
use std::sync::LazyLock;
use std::thread;
use std::time::Duration;

// ---- modules are written, and stores made for them

const I32: u8 = 0x7f;
const I64: u8 = 0x7e;
const F32: u8 = 0x7d;
const F64: u8 = 0x7c;
const FUNC: u8 = 0x70;

/// The sections of a module, as bytes of their items.
#[derive(Default)]
struct Wasm {
    sections: [Vec<Vec<u8>>; 13],
}

fn leb(mut number: u64) -> Vec<u8> {
    let mut bytes = vec![];
    while number >= 0x80 {
        bytes.push(number as u8 | 0x80);
        number >>= 7;
    }
    bytes.push(number as u8);
    bytes
}

fn signed(number: i64) -> Vec<u8> {
    match number {
        -64..64 => vec![number as u8 & 0x7f],
        _ => [vec![number as u8 | 0x80], signed(number >> 7)].concat(),
    }
}

fn sized(bytes: &[u8]) -> Vec<u8> {
    [&leb(bytes.len() as u64)[..], bytes].concat()
}

impl Wasm {
    fn item(mut self, section: usize, bytes: impl Into<Vec<u8>>) -> Self {
        self.sections[section].push(bytes.into());
        self
    }

    /// A function with a type of its own. The first one is exported as `f`, the second as `g`.
    fn function(self, params: &[u8], results: &[u8], locals: &[(u64, u8)], code: &[u8]) -> Self {
        let number = self.sections[3].len() as u64;
        let ty = self.sections[1].len() as u64;
        let mut body = leb(locals.len() as u64);
        locals.iter().for_each(|(count, ty)| body.extend([leb(*count), vec![*ty]].concat()));
        body.extend(code);
        body.push(0x0b);
        let export = [vec![1, b"fghijk"[number as usize % 6], 0], leb(number)].concat();
        let it = self.item(1, [vec![0x60], sized(params), sized(results)].concat()).item(3, leb(ty));
        let it = if number < 6 { it.item(7, export) } else { it };
        it.item(10, sized(&body))
    }

    fn memory(self, limits: &[u8]) -> Self {
        self.item(5, limits)
    }

    fn table(self, limits: &[u8]) -> Self {
        self.item(4, [&[FUNC], limits].concat())
    }

    fn bytes(&self) -> Vec<u8> {
        let mut bytes = b"\0asm\x01\0\0\0".to_vec();
        for id in [1, 2, 3, 4, 5, 6, 7, 8, 9, 12, 10, 11] {
            let items = &self.sections[id];
            if items.is_empty() {
                continue;
            }
            let body =
                if matches!(id, 8 | 12) { items.concat() } else { [leb(items.len() as u64), items.concat()].concat() };
            bytes.push(id as u8);
            bytes.extend(sized(&body));
        }
        bytes
    }

    fn module(&self) -> Result<Module, Refusal> {
        Module::new(&ENGINE, &self.bytes())
    }
}

static ENGINE: LazyLock<Engine> = LazyLock::new(|| Engine::new(Config::default().consume_fuel(true)));

/// A store with so much fuel.
fn store(fuel: u64) -> Store<()> {
    store_with(fuel, Caps { bytes: 1 << 30, elements: 1 << 20 })
}

fn store_with(fuel: u64, caps: Caps) -> Store<()> {
    let mut store = Store::new(&ENGINE, ());
    store.set_fuel(fuel).unwrap();
    store.set_caps(caps);
    store
}

/// An instance whose host has a function `print` that does nothing.
fn instance(module: &Module, store: &mut Store<()>) -> Result<Instance, Error> {
    let mut linker = Linker::new(&ENGINE);
    linker.func_wrap("host", "print", || ())?;
    linker.instantiate(store, module)
}

/// What a call of `f` gives: its first result, or why it stops.
fn called(wasm: &Wasm, store: &mut Store<()>, args: &[Val]) -> Result<i64, String> {
    let module = wasm.module().map_err(|it| it.to_string())?;
    let instance = instance(&module, store).map_err(|it| it.to_string())?;
    call(&instance, store, "f", args)
}

fn call(instance: &Instance, store: &mut Store<()>, name: &str, args: &[Val]) -> Result<i64, String> {
    match instance.get_func(&*store, name).unwrap().call(store, args) {
        Ok(results) => Ok(results.first().map_or(0, |it| match it.ty() {
            engine::library::ValType::I32 => i32::from(*it).into(),
            _ => i64::from(*it),
        })),
        Err(Error::Trap(trap)) => Err(trap.to_string()),
        Err(it) => panic!("{it}"),
    }
}

// ---- modules and instances

fn refused(bytes: &[u8]) -> (RefusalKind, usize) {
    Module::new(&ENGINE, bytes).map(drop).map_err(|it| (it.kind, it.offset)).unwrap_err()
}

#[test]
fn what_is_no_module() {
    assert_eq!(refused(b""), (RefusalKind::Malformed, 0));
    assert_eq!(refused(b"\x7fELF"), (RefusalKind::Malformed, 0));
    assert_eq!(refused(b"\0asm\x02\0\0\0"), (RefusalKind::Malformed, 4));
    assert_eq!(refused(b"\0asm\x01\0\0\0\x01\x05"), (RefusalKind::Malformed, 10));
    assert!(Module::new(&ENGINE, b"\0asm\x01\0\0\0").is_ok());
}

#[test]
fn what_a_proposal_has_is_named() {
    let reason = |bytes: &[u8]| Module::new(&ENGINE, bytes).map(drop).map_err(|it| (it.kind, it.what)).unwrap_err();
    let of_code = |code: &[u8]| reason(&Wasm::default().function(&[], &[], &[], code).bytes());
    let unsupported = |what| (RefusalKind::Unsupported, what);
    let head = b"\0asm\x01\0\0\0";
    let section = |id: u8, content: &[u8]| [&head[..], &[id], &sized(content)].concat();
    for (bytes, what) in [
        (section(13, &[0]), "exceptions aren't supported"),
        (section(1, &[1, 0x5e, 0x7f, 0]), "garbage collection isn't supported"),
        (section(1, &[1, 0x60, 1, 0x64, 0, 0]), "typed references to functions aren't supported"),
        (section(5, &[1, 3, 1, 1]), "threads aren't supported"),
        (b"\0asm\x0d\0\x01\0".to_vec(), "components aren't supported"),
    ] {
        assert_eq!(reason(&bytes), unsupported(what));
    }
    assert_eq!(of_code(&[0x06, 0x40]), unsupported("exceptions aren't supported"));
    assert_eq!(of_code(&[0xfe, 3, 0]), unsupported("threads aren't supported"));
    assert_eq!(of_code(&[0xfb, 0x1c]), unsupported("garbage collection isn't supported"));
    assert_eq!(of_code(&[0x14, 0]), unsupported("typed references to functions aren't supported"));
    assert_eq!(of_code(&[0xff]), (RefusalKind::Malformed, "an instruction is unknown"));
    assert_eq!(reason(&section(14, &[0])), (RefusalKind::Malformed, "a section is unknown"));
}

/// The first result of `f` as bits.
fn bits_of(wasm: &Wasm, args: &[Val]) -> u64 {
    let mut store = store(SOME);
    let instance = instance(&wasm.module().unwrap(), &mut store).unwrap();
    results(&instance, &mut store, "f", args).unwrap()[0]
}

/// The results of a call as bits.
fn results(instance: &Instance, store: &mut Store<()>, name: &str, args: &[Val]) -> Result<Vec<u64>, Error> {
    let results = instance.get_func(&*store, name).unwrap().call(store, args)?;
    Ok(results.iter().map(|it| it.raw().into()).collect())
}

fn float(ty: ValType, bits: u64) -> Val {
    Val::new(ty, bits.into())
}

#[test]
fn an_instruction_that_computes_with_floats_traps_when_it_is_executed() {
    // f32.add if the argument isn't 0.
    let add = [0x20, 0, 0x04, F32, 0x43, 0, 0, 0, 0, 0x43, 0, 0, 0, 0, 0x92, 0x05, 0x43, 0, 0, 0x80, 0x3f, 0x0b];
    let wasm = Wasm::default().function(&[I32], &[F32], &[], &add);
    let bytes = wasm.bytes();
    let mut store = store(SOME);
    let instance = instance(&wasm.module().unwrap(), &mut store).unwrap();
    assert_eq!(results(&instance, &mut store, "f", &[0.into()]).unwrap(), [0x3f80_0000]);
    let trap = results(&instance, &mut store, "f", &[1.into()]).unwrap_err();
    let offset = bytes.iter().position(|it| *it == 0x92).unwrap();
    assert_eq!(trap.downcast_ref(), Some(&FloatInstruction { name: "f32.add", offset }));
    assert_eq!(trap.to_string(), format!("f32.add at offset {offset}: there is no arithmetic of floats"));

    let refused =
        |bytes: &[u8]| Module::new_strict(&ENGINE, bytes).map(drop).map_err(|it| (it.kind, it.offset)).unwrap_err();
    assert_eq!(refused(&bytes), (RefusalKind::Unsupported, 15));
    let constant = Wasm::default().function(&[], &[], &[], &[0x43, 0, 0, 0, 0, 0x1a]).bytes();
    let place = constant.iter().position(|it| *it == 0x43).unwrap();
    assert_eq!(refused(&constant), (RefusalKind::Unsupported, place));
    let moved = Wasm::default().function(&[], &[I32], &[], &[0x41, 0, 0x2a, 2, 0, 0xbc]).memory(&[0, 1]).bytes();
    let place = moved.iter().position(|it| *it == 0x2a).unwrap();
    assert_eq!(refused(&moved), (RefusalKind::Unsupported, place));
}

#[test]
fn operands_of_floats_have_types() {
    let is_valid = |params: &[u8], results: &[u8], code: &[u8]| {
        Wasm::default().function(params, results, &[], code).memory(&[0, 1]).module().is_ok()
    };
    assert!(is_valid(&[F32], &[F64], &[0x20, 0, 0xbb]));
    assert!(!is_valid(&[F64], &[F64], &[0x20, 0, 0xbb]));
    assert!(!is_valid(&[F32], &[F32], &[0x20, 0, 0xbb]));
    assert!(is_valid(&[I32, F32], &[], &[0x20, 0, 0x20, 1, 0x38, 2, 0]));
    assert!(!is_valid(&[I32, I32], &[], &[0x20, 0, 0x20, 1, 0x38, 2, 0]));
    // After an instruction that computes no operand may be missing.
    assert!(!is_valid(&[F32], &[F32], &[0x20, 0, 0x91, 0x1a]));
}

#[test]
fn floats_move_as_bits() {
    // A signaling NaN of each width, which arithmetic would make quiet.
    let (short, long) = (0xffa0_1234_u64, 0xfff4_5678_9abc_def0_u64);
    let get = [0x20, 0];
    let reply = |ty: u8, arg: Val, code: &[u8]| {
        bits_of(
            &Wasm::default().function(&[ty], &[ty], &[(1, ty)], code).memory(&[0, 1]).item(6, float_global(ty)),
            &[arg],
        )
    };
    for code in [
        &get[..],
        &[0x20, 0, 0x21, 1, 0x20, 1],                                        // locals
        &[0x20, 0, 0xbc, 0xbe],                                              // reinterpreted
        &[0x41, 8, 0x20, 0, 0x38, 2, 0, 0x41, 0, 0x2a, 2, 8],                // stored and loaded
        &[0x20, 0, 0x24, 0, 0x23, 0],                                        // a global
        &[0x20, 0, 0x20, 1, 0x41, 1, 0x1b],                                  // select
        &[0x20, 0, 0xfd, 0x13, 0xfd, 0x1f, 3],                               // lanes
        &[0x41, 0, 0xfd, 0x11, 0x20, 0, 0xfd, 0x20, 2, 0xfd, 0x1f, 2],       // lanes
        &[0x02, F32, 0x20, 0, 0x0b],                                         // a block
        &[0x20, 0, 0x8c, 0x8c],                                              // negated twice
        &[0x20, 0, 0x8b, 0x43, 0, 0, 0, 0x80, 0x98],                         // the sign of -0
        &[0x43, 0x34, 0x12, 0xa0, 0xff, 0x1a, 0x43, 0x34, 0x12, 0xa0, 0xff], // a constant
    ] {
        assert_eq!(reply(F32, float(ValType::F32, short), code), short, "{code:x?}");
    }
    for code in [
        &get[..],
        &[0x20, 0, 0xbd, 0xbf],
        &[0x41, 8, 0x20, 0, 0x39, 3, 0, 0x41, 0, 0x2b, 3, 8],
        &[0x20, 0, 0x24, 0, 0x23, 0],
        &[0x20, 0, 0xfd, 0x14, 0xfd, 0x21, 1],
        &[0x20, 0, 0xfd, 0x14, 0x20, 1, 0xfd, 0x22, 0, 0xfd, 0x21, 1],
        &[0x20, 0, 0x9a, 0x9a],
        &[0x20, 0, 0x99, 0x20, 0, 0xa6],
    ] {
        assert_eq!(reply(F64, float(ValType::F64, long), code), long, "{code:x?}");
    }
    assert_eq!(reply(F32, float(ValType::F32, short), &[0x20, 0, 0x8b]), short & 0x7fff_ffff);
    assert_eq!(reply(F64, float(ValType::F64, long), &[0x20, 0, 0x9a]), long ^ 1 << 63);
    // The lower lanes of vectors whose lanes have their signs taken, and changed.
    assert_eq!(
        reply(F32, float(ValType::F32, short), &[0x20, 0, 0xfd, 0x13, 0xfd, 0xe0, 1, 0xfd, 0x1f, 3]),
        short & 0x7fff_ffff
    );
    assert_eq!(
        reply(F64, float(ValType::F64, long), &[0x20, 0, 0xfd, 0x14, 0xfd, 0xed, 1, 0xfd, 0x21, 1]),
        long ^ 1 << 63
    );
}

/// A mutable global that is 0.
fn float_global(ty: u8) -> Vec<u8> {
    let zero: &[u8] = if ty == F32 { &[0x43, 0, 0, 0, 0] } else { &[0x44, 0, 0, 0, 0, 0, 0, 0, 0] };
    [&[ty, 1], zero, &[0x0b]].concat()
}

#[test]
fn code_that_is_not_reached() {
    // A table whose two labels take an i64 and an i32, and a br_if whose operand is an i32 afterwards.
    let table = [0x02, I32, 0x02, I64, 0x00, 0x0e, 1, 0, 1, 0x0b, 0x1a, 0x41, 0, 0x0b, 0x1a];
    assert!(Wasm::default().function(&[], &[], &[], &table).module().is_ok());
    let test = |after: u8| [0x02, I32, 0x00, 0x0d, 0, after, 0x1a, 0x41, 0, 0x0b, 0x1a];
    assert!(Wasm::default().function(&[], &[], &[], &test(0x45)).module().is_ok());
    assert!(Wasm::default().function(&[], &[], &[], &test(0x50)).module().is_err());
}

#[test]
fn limits_of_a_function() {
    let many = |count: usize, code: &[u8]| code.repeat(count);
    let blocks = |count: usize| [many(count, &[0x02, 0x40]), many(count, &[0x0b])].concat();
    let operands = |count: usize| [many(count, &[0x41, 0]), many(count, &[0x1a])].concat();
    let constants = |count: u64| {
        (0..count).flat_map(|it| [vec![0x41], leb(it), vec![0x1a]].concat()).filter(|_| true).collect::<Vec<u8>>()
    };
    let is_refused = |locals, code: &[u8]| match Wasm::default().function(&[], &[], &[(locals, I32)], code).module() {
        Ok(_) => false,
        Err(it) => it.kind == RefusalKind::Unsupported,
    };
    assert!(!is_refused(16_000, &[]) && is_refused(16_001, &[]));
    assert!(!is_refused(0, &blocks(15_000)) && is_refused(0, &blocks(16_000)));
    assert!(!is_refused(0, &operands(16_000)) && is_refused(0, &operands(16_001)));
    assert!(!is_refused(0, &constants(63)) && is_refused(0, &constants(1 << 15)));
    let all = [operands(16_000), blocks(15_000)].concat();
    assert!(!is_refused(16_000, &all));
}

/// The processor time that it takes to read a module and to call its first function with little fuel, as Linux counts
/// it; elsewhere the time of the clock.
fn time_of(bytes: &[u8]) -> Duration {
    let now = || {
        thread::yield_now();
        let line = std::fs::read_to_string("/proc/thread-self/schedstat").ok();
        let nanoseconds = line.and_then(|it| it.split(' ').next()?.parse().ok());
        nanoseconds.map_or_else(|| std::time::UNIX_EPOCH.elapsed().unwrap(), Duration::from_nanos)
    };
    let begun = now();
    let module = Module::new(&ENGINE, bytes).unwrap();
    let mut store = store(20_000);
    let function = instance(&module, &mut store).unwrap().get_func(&store, "f").unwrap();
    let args = vec![Val::from(0_i32); function.ty(&store).params().len()];
    let _ = function.call(&mut store, &args);
    now() - begun
}

/// A module of about a megabyte, of functions that all have this body. The first one is exported as `f`.
fn of_one_body(body: &[u8]) -> Wasm {
    let body = sized(body);
    let wasm = Wasm::default().item(1, [0x60, 0, 0]).item(7, [1, b'f', 0, 0]);
    (0..1_000_000 / (body.len() + 1)).fold(wasm, |it, _| it.item(3, [0]).item(10, body.clone()))
}

/// Hostile code of about a megabyte, each by a name. Type 1 is from 1,000 operands to as many results, and type 2 from
/// nothing to them.
fn hostile() -> Vec<(&'static str, Wasm)> {
    let many = |code: &[u8]| code.repeat(1_000_000 / code.len());
    let (zeros, gets) = ([0x41, 0].repeat(1000), [0x20, 0].repeat(15_000));
    let (drops, labels) = (|count| [0x1a].repeat(count), [&[0x0e][..], &leb(65_000), &[0; 65_001]].concat());
    let ty = |params: &[u8], results: &[u8]| [vec![0x60], sized(params), sized(results)].concat();
    let wasm = |params: &[u8], code: &[&[u8]]| {
        let wasm = Wasm::default().function(params, &[], &[], &code.concat());
        wasm.item(1, ty(&[I32; 1000], &[I32; 1000])).item(1, ty(&[], &[I32; 1000]))
    };
    let in_block = |code: &[&[u8]]| wasm(&[I32], &[&[0x02, 2], &code.concat(), &[0x0b], &drops(1000)]);
    let each = |first: &[u8], count: u64| (0..count).flat_map(|it| [first, &leb(it)].concat()).collect::<Vec<u8>>();
    let chosen = [&zeros[..], &[0x41, 0], &labels].concat();
    let given_back = sized(&[&[0][..], &each(&[0x20], 1000), &[0x0b]].concat());
    let last_local = [&[1][..], &leb(16_000), &[I64, 0x20], &leb(15_999), &[0x1a, 0x0b]].concat();
    vec![
        ("a local set over many operands", wasm(&[I32], &[&gets, &many(&[0x20, 0, 0x21, 0]), &drops(15_000)])),
        (
            "each local set below many operands",
            wasm(&[I32; 0], &[]).function(
                &[],
                &[],
                &[(15_000, I32)],
                &[each(&[0x20], 15_000), each(&[0x41, 0, 0x21], 15_000), drops(15_000)].concat(),
            ),
        ),
        ("blocks over many operands", wasm(&[I32], &[&gets, &many(&[0x02, 0x40, 0x0b]), &drops(15_000)])),
        ("blocks with 1,000 operands", wasm(&[], &[&zeros, &many(&[0x02, 1, 0x0b]), &drops(1000)])),
        ("choices with 1,000 operands", wasm(&[], &[&zeros, &many(&[0x41, 0, 0x04, 1, 0x0b]), &drops(1000)])),
        (
            "tail calls with 1,000 operands",
            Wasm::default()
                .function(&[I32; 1000], &[I32; 1000], &[], &[&each(&[0x20], 1000)[..], &many(&[0x12, 1])].concat())
                .function(&[I32; 1000], &[I32; 1000], &[], &each(&[0x20], 1000)),
        ),
        ("jumps with 1,000 operands", in_block(&[&zeros, &many(&[0x20, 0, 0x0d, 0])])),
        ("jumps with 1,000 operands that lie in a local", in_block(&[&gets[..2000], &many(&[0x20, 0, 0x0d, 0])])),
        ("tables of labels with 1,000 operands", in_block(&[&chosen.repeat(15)])),
        ("jumps with 1,000 operands that aren't reached", in_block(&[&[0x00], &many(&[0x0c, 0])])),
        ("blocks with 1,000 operands that aren't reached", in_block(&[&[0x00], &many(&[0x02, 1, 0x0b])])),
        (
            "calls with 1,000 operands that aren't reached",
            in_block(&[&[0x00], &many(&[0x10, 1])]).item(3, leb(1)).item(10, given_back),
        ),
        ("functions without code", of_one_body(&[0, 0x0b])),
        ("functions of 16,000 locals", of_one_body(&[&[1][..], &leb(16_000), &[I64, 0x0b]].concat())),
        ("functions that read the last of 16,000 locals", of_one_body(&last_local)),
    ]
}

/// How many times as long as plain code of as many bytes a module may take, as `limits` in `src/lib.rs` and README say.
const MOST: f64 = 15.0;

/// Each is read, and made ready at its first call, in at most `MOST` times the time a byte of plain code, since no
/// instruction makes a long list again and again. A time is the least of up to five, which are taken in turn with those of
/// plain code, so that other work of the machine is in neither or in both; where the first are far below the bound, they
/// suffice. `--nocapture` shows the times.
#[test]
fn hostile_functions_are_read_in_time() {
    let plain = [0x20, 0, 0x20, 1, 0x6a, 0x21, 1].repeat(1_000_000 / 7);
    let plain = Wasm::default().function(&[I32, I32], &[], &[], &plain).bytes();
    for (name, wasm) in hostile() {
        let bytes = wasm.bytes();
        let (mut least, mut ratio) = ([Duration::MAX; 2], MOST);
        for _ in 0..5 {
            let [time, of_plain] = [&bytes, &plain].map(|it| time_of(it));
            least = [least[0].min(time), least[1].min(of_plain)];
            ratio = least[0].div_duration_f64(least[1]) * plain.len() as f64 / bytes.len() as f64;
            if ratio < MOST / 2.0 {
                break;
            }
        }
        println!("{name}: {:?}, {} bytes, {ratio:.1} times {:?} for plain code", least[0], bytes.len(), least[1]);
        assert!(ratio < MOST, "{name}: {ratio:.1} times as long as plain code");
    }
}

#[test]
fn ten_thousand_instances_under_one_limiter() {
    let code = [0x41, 0, 0x41, 0, 0x28, 2, 0, 0x41, 1, 0x6a, 0x36, 2, 0, 0x41, 0, 0x28, 2, 0];
    let module = Wasm::default().function(&[], &[I32], &[], &code).memory(&[0, 1]).table(&[0, 10]).module().unwrap();
    let caps = Caps { bytes: 3 << 16, elements: 30 };
    let mut store = store_with(u64::MAX, caps);
    for _ in 0..10_000 {
        let instance = instance(&module, &mut store).unwrap();
        assert_eq!(call(&instance, &mut store, "f", &[]), Ok(1));
        drop(instance);
        assert_eq!(store.caps(), caps);
    }
    let kept: Vec<_> = (0..3).map(|_| instance(&module, &mut store).unwrap()).collect();
    let refused = instance(&module, &mut store).map(drop).unwrap_err().to_string();
    assert_eq!(refused, TrapCode::GrowthOperationLimited.to_string());
    drop(kept);
    assert_eq!(store.caps(), caps);
}

#[test]
fn four_threads() {
    // The sum of the numbers below the argument.
    let code = [0x03, 0x40, 0x20, 1, 0x20, 0, 0x41, 1, 0x6b, 0x22, 0, 0x6a, 0x21, 1, 0x20, 0, 0x0d, 0, 0x0b, 0x20, 1];
    let module = Wasm::default().function(&[I32], &[I32], &[(1, I32)], &code).module().unwrap();
    thread::scope(|scope| {
        let threads: Vec<_> = (1..5_i32)
            .map(|thread| {
                let module = &module;
                scope.spawn(move || {
                    let mut store = store(u64::MAX);
                    let instance = instance(module, &mut store).unwrap();
                    call(&instance, &mut store, "f", &[(thread * 10_000).into()])
                })
            })
            .collect();
        for (thread, reply) in (1..).zip(threads) {
            let count = thread * 10_000;
            assert_eq!(reply.join().unwrap(), Ok(count * (count - 1) / 2));
        }
    });
}

#[test]
fn a_failed_instance_gives_back_what_it_took() {
    let start = Wasm::default().function(&[], &[], &[], &[0x41, 1, 0x40, 0, 0x1a, 0x00]).memory(&[0, 1]).item(8, [0]);
    let mut store = store(1_000_000);
    let caps = store.caps();
    assert_eq!(called(&start, &mut store, &[]), Err(TrapCode::UnreachableCodeReached.to_string()));
    assert_eq!(store.caps(), caps);
    let data = Wasm::default().memory(&[0, 1]).item(11, [&[0, 0x41, 0xff, 0xff, 3, 0x0b][..], &[2, 1, 2]].concat());
    assert_eq!(called(&data, &mut store, &[]), Err(TrapCode::MemoryOutOfBounds.to_string()));
    assert_eq!(store.caps(), caps);
}

#[test]
fn several_memories() {
    // Writes 7 to the second memory, copies it to the first one, and adds what both have.
    let code = [
        &[0x41, 8, 0x41, 7, 0x36, 0x42, 1, 0][..],    // i32.store of memory 1
        &[0x41, 0, 0x41, 8, 0x41, 4, 0xfc, 10, 0, 1], // memory.copy 0 1
        &[0x41, 0, 0x28, 2, 0, 0x41, 0, 0x28, 0x42, 1, 8, 0x6a],
    ]
    .concat();
    let wasm = Wasm::default().function(&[], &[I32], &[], &code).memory(&[0, 1]).memory(&[0, 1]);
    assert_eq!(called(&wasm, &mut store(1000), &[]), Ok(14));
}

#[test]
fn addresses_of_64_bits() {
    let load = |offset: u64| [vec![0x20, 0, 0x28, 2], leb(offset)].concat();
    let reply = |offset, address: i64| {
        let wasm = Wasm::default().function(&[I64], &[I32], &[], &load(offset)).memory(&[4, 1]);
        called(&wasm, &mut store(1000), &[address.into()])
    };
    let past = Err(TrapCode::MemoryOutOfBounds.to_string());
    assert_eq!(reply(0, 65_532), Ok(0));
    assert_eq!(reply(1, 65_532), past);
    assert_eq!(reply(1 << 33, -(1 << 33)), past);
    assert_eq!(reply(u64::MAX, 1), past);
    assert_eq!(reply(0, -4), past);
}

/// What code with these operands gives, each of which is a parameter or a constant, in every choice of which ones.
fn either_way(
    operands: &[(u8, i64)],
    result: u8,
    limits: &[u8],
    code: impl Fn(&[Vec<u8>]) -> Vec<u8>,
) -> Result<i64, String> {
    let types: Vec<_> = operands.iter().map(|(ty, _)| *ty).collect();
    let arg = |(ty, it): &(u8, i64)| if *ty == I32 { (*it as i32).into() } else { (*it).into() };
    let args: Vec<Val> = operands.iter().map(arg).collect();
    let reply = |constants: u32| {
        let operand = |(i, (ty, it)): (usize, &(u8, i64))| match (constants >> i & 1, *ty) {
            (0, _) => vec![0x20, i as u8],
            (_, I32) => [vec![0x41], signed((*it as i32).into())].concat(),
            _ => [vec![0x42], signed(*it)].concat(),
        };
        let code = code(&operands.iter().enumerate().map(operand).collect::<Vec<_>>());
        let wasm = Wasm::default().function(&types, &[result], &[], &code).memory(limits);
        called(&wasm, &mut store(1000), &args)
    };
    let replies: Vec<_> = (0..1 << operands.len()).map(reply).collect();
    assert!(replies.iter().all(|it| *it == replies[0]), "{operands:?}: {replies:?}");
    replies[0].clone()
}

/// Addresses and offsets around the end of a page and of 32 bits, and how many bytes the page has from their sum on.
const PLACES: [(i64, u64, i64); 14] = [
    (65_535, 0, 1),
    (65_534, 0, 2),
    (65_532, 0, 4),
    (65_529, 0, 7),
    (65_528, 0, 8),
    (65_520, 0, 16),
    (3, 65_533, 0),
    (3, 65_530, 3),
    (0xffff_ffff, 0, 0),
    (0xffff_ffff, 1, 0),
    (0xffff_fffc, 8, 0),
    (8, 0xffff_fffc, 0),
    (0xffff_ffff, 0xffff_ffff, 0),
    (0, 5, 65_531),
];

/// Pages whose addresses are of 32 and of 64 bits.
const PAGES: [(u8, [u8; 2]); 2] = [(I32, [0, 1]), (I64, [4, 1])];

/// The address of eight bytes that hold those of an access as far as the page has them.
fn eight_bytes(address: i64, offset: u64) -> i64 {
    (address as u64 + offset).min(65_528) as i64
}

#[test]
fn loads_at_constant_addresses() {
    let scalars = [0x28, 0x29, 0x2c, 0x2d, 0x2e, 0x2f, 0x30, 0x31, 0x32, 0x33, 0x34, 0x35].map(|it| vec![it]);
    let vectors = [0, 1, 2, 3, 4, 5, 6, 7, 8, 9, 10, 0x5c, 0x5d].map(|it| vec![0xfd, it]);
    let bytes = [4, 8, 1, 1, 2, 2, 1, 1, 2, 2, 4, 4, 16, 8, 8, 8, 8, 8, 8, 1, 2, 4, 8, 4, 8];
    let loads = scalars.into_iter().chain(vectors).zip(bytes);
    let past = Err(TrapCode::MemoryOutOfBounds.to_string());
    for ((load, bytes), (ty, limits)) in loads.flat_map(|it| PAGES.map(|page| (it.clone(), page))) {
        let result = if matches!(load[0], 0x28 | 0x2c..=0x2f) { I32 } else { I64 };
        let lane: &[u8] = if load[0] == 0xfd { &[0xfd, 0x1d, 0] } else { &[] };
        let write = [&[0x42][..], &signed(0x8877_6655_4433_2281_u64.cast_signed()), &[0x37, 0, 0]].concat();
        for (address, offset, left) in PLACES {
            let code = |it: &[Vec<u8>]| [&it[1][..], &write, &it[0], &load, &[0], &leb(offset), lane].concat();
            let operands = [(ty, address), (ty, eight_bytes(address, offset))];
            let reply = either_way(&operands, result, &limits, code);
            assert_eq!(reply == past, bytes > left, "{load:x?} {address} {offset}: {reply:?}");
        }
    }
    for address in [-4, 1 << 32] {
        assert_eq!(either_way(&[(I64, address)], I32, &[4, 1], |it| [&it[0][..], &[0x28, 0, 8]].concat()), past);
    }
}

#[test]
fn stores_at_constant_addresses() {
    let stores = [(0x36, 4), (0x37, 8), (0x3a, 1), (0x3b, 2), (0x3c, 1), (0x3d, 2), (0x3e, 4)];
    let stores = stores.map(|(code, bytes)| (vec![code], bytes)).into_iter();
    // A store of a vector whose lanes are the number.
    let stores = stores.chain([(vec![0xfd, 0x12, 0xfd, 0x0b], 16)]);
    let past = Err(TrapCode::MemoryOutOfBounds.to_string());
    for ((store, bytes), (ty, limits)) in stores.flat_map(|it| PAGES.map(|page| (it.clone(), page))) {
        let (value, add) = if matches!(store[0], 0x36 | 0x3a | 0x3b) { (I32, 0x6a) } else { (I64, 0x7c) };
        for ((address, offset, left), number) in PLACES.into_iter().flat_map(|it| [7, -7, 70_000].map(|no| (it, no))) {
            // The number is stored, and then the last result.
            let code = |it: &[Vec<u8>]| {
                let store = [&store[..], &[0], &leb(offset)].concat();
                let read = [&it[2][..], &[0x29, 0, 0]].concat();
                let first = [&it[0][..], &it[1], &store, &read].concat();
                [&first[..], &it[0], &it[1], &it[1], &[add], &store, &read, &[0x7c]].concat()
            };
            let operands = [(ty, address), (value, number), (ty, eight_bytes(address, offset))];
            let reply = either_way(&operands, I64, &limits, code);
            assert_eq!(reply == past, bytes > left, "{store:x?} {address} {offset}: {reply:?}");
        }
    }
}

#[test]
fn constant_operands() {
    let numbers = [0, 1, -1, 7, 40_000, -40_000, 32_767, -32_768, 0xffff_ffff, 1 << 40, i64::MIN];
    for (ty, a, b) in [I32, I64].into_iter().flat_map(|ty| numbers.map(|a| numbers.map(|b| (ty, a, b)))).flatten() {
        let seen = |number: i64| Ok(if ty == I32 { (number as i32).into() } else { number });
        let [add, subtract, and] = if ty == I32 { [0x6a, 0x6b, 0x71] } else { [0x7c, 0x7d, 0x83] };
        for condition in [0, 1, 8] {
            let operands = [(ty, a), (ty, b), (I32, condition)];
            let chosen = if condition == 0 { b } else { a };
            let select = |it: &[Vec<u8>]| [&it[0][..], &it[1], &it[2], &[0x1b]].concat();
            assert_eq!(either_way(&operands, ty, &[0, 1], select), seen(chosen));
            // The condition is the last result, and what is chosen is taken as the last result.
            let select = |it: &[Vec<u8>]| [&it[0][..], &it[1], &it[2], &it[2], &[0x72, 0x1b], &it[0], &[add]].concat();
            assert_eq!(either_way(&operands, ty, &[0, 1], select), seen(chosen.wrapping_add(a)));
        }
        let both = |code: u8| move |it: &[Vec<u8>]| [&it[0][..], &it[1], &[code]].concat();
        assert_eq!(either_way(&[(ty, a), (ty, b)], ty, &[0, 1], both(subtract)), seen(a.wrapping_sub(b)));
        assert_eq!(either_way(&[(ty, a), (ty, b)], ty, &[0, 1], both(and)), seen(a & b));
        assert_eq!(either_way(&[(ty, a)], ty, &[0, 1], |it| it[0].clone()), seen(a));
    }
}

#[test]
fn a_choice_of_a_constant_vector() {
    // The upper lane of one of a constant of 7 and 0, and a vector whose lanes are the number.
    let seven = [&[0xfd, 12, 7][..], &[0; 15]].concat();
    for (condition, upper) in [(1, 0), (0, -1)] {
        let code = |it: &[Vec<u8>]| [&seven[..], &it[0], &[0xfd, 0x12], &it[1], &[0x1b, 0xfd, 0x1d, 1]].concat();
        assert_eq!(either_way(&[(I64, -1), (I32, condition)], I64, &[0, 1], code), Ok(upper));
    }
}

#[test]
fn references_and_indirect_calls() {
    let element = [&[0, 0x41, 1, 0x0b][..], &[2, 0, 1]].concat();
    let call = |ty: u8| [&[0x20, 0, 0x11][..], &[ty, 0]].concat();
    let wasm = |ty| {
        Wasm::default()
            .function(&[I32], &[I32], &[], &call(ty))
            .function(&[], &[I32], &[], &[0x41, 42])
            .table(&[0, 4])
            .item(9, element.clone())
    };
    let reply = |index: i32| called(&wasm(1), &mut store(1000), &[index.into()]);
    assert_eq!(reply(2), Ok(42));
    assert_eq!(reply(1), Err(TrapCode::BadSignature.to_string()));
    assert_eq!(reply(0), Err(TrapCode::IndirectCallToNull.to_string()));
    assert_eq!(reply(4), Err(TrapCode::TableOutOfBounds.to_string()));
    assert_eq!(reply(-1), Err(TrapCode::TableOutOfBounds.to_string()));
}

#[test]
fn tail_calls_take_no_stack() {
    // f(n, sum): n = 0 ? sum : f(n - 1, sum + n), directly or by a table.
    let next = [0x20, 0, 0x42, 1, 0x7d, 0x20, 1, 0x20, 0, 0x7c];
    let by = |call: &[u8]| [&[0x20, 0, 0x50, 0x04, 0x40, 0x20, 1, 0x0f, 0x0b][..], &next, call].concat();
    let element = [&[0, 0x41, 1, 0x0b][..], &[1, 0]].concat();
    for code in [by(&[0x12, 0]), by(&[0x41, 1, 0x13, 0, 0])] {
        let wasm = Wasm::default().function(&[I64, I64], &[I64], &[], &code);
        let wasm = wasm.table(&[0, 2]).item(9, element.clone());
        assert_eq!(called(&wasm, &mut store(u64::MAX), &[1_000_000_i64.into(), 5_i64.into()]), Ok(500_000_500_005));
    }
}

#[test]
fn first_calls_take_no_stack() {
    // f calls each of 20,000 functions once. What is executed of a function is made when it is first called.
    const COUNT: u64 = 20_000;
    let calls = (1..=COUNT).flat_map(|it| [vec![0x10], leb(it)].concat());
    let code: Vec<u8> = calls.chain([0x42, 7]).collect();
    let wasm = Wasm::default().function(&[], &[I64], &[], &code);
    let wasm = (0..COUNT).fold(wasm, |it, _| it.function(&[], &[], &[], &[]));
    let run = move || called(&wasm, &mut store(SOME), &[]);
    assert_eq!(thread::Builder::new().stack_size(1 << 18).spawn(run).unwrap().join().unwrap(), Ok(7));
}

#[test]
fn a_tail_call_has_operands_and_results_of_its_own() {
    // f(a) = g(a, 2, 3) with more parameters than f has slots, and g gives three results to the caller of f.
    let module = |of_callee: &[u8]| {
        Wasm::default()
            .function(&[I32], &[I32; 3], &[], &[0x20, 0, 0x41, 2, 0x41, 3, 0x12, 1])
            .function(&[I32; 3], of_callee, &[(2, I32)], &[0x20, 2, 0x20, 1, 0x20, 0, 0x20, 3, 0x6a])
            .function(&[], &[I32], &[(1, I32)], &[0x41, 7, 0x21, 0, 0x41, 1, 0x10, 0, 0x6b, 0x6b, 0x20, 0, 0x6a])
    };
    let mut store = store(SOME);
    let instance = instance(&module(&[I32; 3]).module().unwrap(), &mut store).unwrap();
    assert_eq!(results(&instance, &mut store, "f", &[1.into()]).unwrap(), [3, 2, 1]);
    // 3 - (2 - 1) and 7, a local of the caller.
    assert_eq!(call(&instance, &mut store, "h", &[]), Ok(9));
    assert!(module(&[I32; 2]).module().is_err());
    // What follows isn't reached; the traps are those of a call.
    let after = Wasm::default().function(&[], &[I32], &[], &[0x12, 0, 0x6a]);
    assert!(after.module().is_ok());
    let indirect = |ty: u8| {
        Wasm::default()
            .function(&[I32], &[], &[], &[0x20, 0, 0x13, ty, 0])
            .function(&[], &[], &[], &[])
            .table(&[0, 2])
            .item(9, [&[0, 0x41, 1, 0x0b][..], &[1, 1]].concat())
    };
    let reply = |index: i32| called(&indirect(1), &mut self::store(SOME), &[index.into()]);
    assert_eq!(reply(1), Ok(0));
    assert_eq!(reply(0), Err(TrapCode::IndirectCallToNull.to_string()));
    assert_eq!(reply(2), Err(TrapCode::TableOutOfBounds.to_string()));
    assert!(indirect(0).module().is_err());
}

/// A module that imports `a.t`, a table of two functions, and exports `f` of this code with its element in the table.
fn of_a_table(element: u8, locals: &[(u64, u8)], code: &[u8]) -> Module {
    let import = [sized(b"a"), sized(b"t"), vec![1, FUNC, 0, 2]].concat();
    let offset = [0, 0x41, element, 0x0b, 1, 0];
    let wasm = Wasm::default().item(2, import).item(9, offset).function(&[I64], &[I64], locals, code);
    wasm.module().unwrap()
}

/// Two instances whose functions call each other through a table of a third one.
fn linked(store: &mut Store<()>, locals: &[(u64, u8)], code: impl Fn(u8) -> Vec<u8>) -> Instance {
    let table = Wasm::default().table(&[0, 2]).item(7, [1, b't', 1, 0]).module().unwrap();
    let mut linker = Linker::new(&ENGINE);
    let table = linker.instantiate(&mut *store, &table).unwrap();
    linker.instance(&mut *store, "a", &table).unwrap();
    let [first, _] = [0, 1].map(|it| {
        let module = of_a_table(it, locals, &code(1 - it));
        linker.instantiate(&mut *store, &module).unwrap()
    });
    first
}

#[test]
fn calls_between_instances_end_by_the_stack() {
    // f(n) = n = 0 ? 0 : f of the other one (n - 1), as a call and as a tail call. The index of the callee is a local.
    let by = |code: u8| {
        move |other: u8| {
            let begin = [0x41, other, 0x21, 1, 0x20, 0, 0x50, 0x04, 0x40, 0x42, 0, 0x0f, 0x0b];
            [&begin[..], &[0x20, 0, 0x42, 1, 0x7d, 0x20, 1, code, 0, 0]].concat()
        }
    };
    for code in [0x11, 0x13] {
        let mut store = store(u64::MAX);
        let first = linked(&mut store, &[(1, I32)], by(code));
        assert_eq!(call(&first, &mut store, "f", &[1000_i64.into()]), Ok(0));
        let deep = call(&first, &mut store, "f", &[10_000_000_i64.into()]);
        assert_eq!(deep, Err(TrapCode::StackOverflow.to_string()));
    }
}

#[test]
fn wide_arithmetic() {
    // The upper half of -1 times 2, of 2^64 - 1 times 2, and of 2^64 minus 1; each result is checked by its two halves.
    let reply = |code: &[u8], place: u8| {
        let code = [code, &[0x21, 1, 0x21, 0, 0x20, place]].concat();
        called(&Wasm::default().function(&[], &[I64], &[(2, I64)], &code), &mut store(1000), &[])
    };
    let product = |opcode| [0x42, 0x7f, 0x42, 2, 0xfc, opcode];
    assert_eq!((reply(&product(0x15), 0), reply(&product(0x15), 1)), (Ok(-2), Ok(-1)));
    assert_eq!((reply(&product(0x16), 0), reply(&product(0x16), 1)), (Ok(-2), Ok(1)));
    let of_four = |opcode| [0x42, 0, 0x42, 1, 0x42, 1, 0x42, 0, 0xfc, opcode];
    assert_eq!((reply(&of_four(0x13), 0), reply(&of_four(0x13), 1)), (Ok(1), Ok(1)));
    assert_eq!((reply(&of_four(0x14), 0), reply(&of_four(0x14), 1)), (Ok(-1), Ok(0)));
}

// ---- fuel

fn out_of_fuel() -> Result<i64, String> {
    Err(TrapCode::OutOfFuel.to_string())
}

/// Fuel for a while: much less than what any of these would use.
const SOME: u64 = 1_000_000;

#[test]
fn a_loop_ends_by_fuel() {
    let empty = Wasm::default().function(&[], &[], &[], &[0x03, 0x40, 0x0c, 0, 0x0b]);
    assert_eq!(called(&empty, &mut store(SOME), &[]), out_of_fuel());
    // A jump back by a table, and by an if.
    let table = Wasm::default().function(&[], &[], &[], &[0x03, 0x40, 0x41, 0, 0x0e, 0, 0, 0x0b]);
    assert_eq!(called(&table, &mut store(SOME), &[]), out_of_fuel());
    let test = Wasm::default().function(&[], &[], &[], &[0x03, 0x40, 0x41, 1, 0x0d, 0, 0x0b]);
    assert_eq!(called(&test, &mut store(SOME), &[]), out_of_fuel());
    let tail = Wasm::default().function(&[], &[], &[], &[0x12, 0]);
    assert_eq!(called(&tail, &mut store(SOME), &[]), out_of_fuel());
}

#[test]
fn a_recursion_ends_by_fuel_or_by_the_stack() {
    let direct = Wasm::default().function(&[], &[], &[], &[0x10, 0]);
    assert_eq!(called(&direct, &mut store(1000), &[]), out_of_fuel());
    assert_eq!(called(&direct, &mut store(u64::MAX), &[]), Err(TrapCode::StackOverflow.to_string()));
    let element = [&[0, 0x41, 0, 0x0b][..], &[1, 0]].concat();
    let indirect = Wasm::default().function(&[], &[], &[], &[0x41, 0, 0x11, 0, 0]).table(&[0, 1]).item(9, element);
    assert_eq!(called(&indirect, &mut store(1000), &[]), out_of_fuel());
    assert_eq!(called(&indirect, &mut store(u64::MAX), &[]), Err(TrapCode::StackOverflow.to_string()));
}

#[test]
fn the_locals_of_a_call_are_paid_for() {
    let used = |locals| {
        let mut store = store(SOME);
        called(&Wasm::default().function(&[], &[], &[(locals, I64)], &[]), &mut store, &[]).unwrap();
        SOME - store.get_fuel().unwrap()
    };
    assert_eq!(used(0), 2);
    assert_eq!(used(16_000), 2 + 16_000 * 16 / 64);
}

#[test]
fn a_block_is_paid_for_once() {
    // The entry, an addition, and the return.
    let sum = Wasm::default().function(&[I32], &[I32], &[], &[0x20, 0, 0x41, 1, 0x6a]);
    let mut store = store(SOME);
    assert_eq!(called(&sum, &mut store, &[41.into()]), Ok(42));
    assert_eq!(SOME - store.get_fuel().unwrap(), 3);
}

#[test]
fn what_instructions_cost() {
    let used_by = |locals: &[(u64, u8)], code: &[&[u8]]| {
        let mut store = store(SOME);
        let wasm = Wasm::default().function(&[I32, I32], &[I32], locals, &code.concat());
        assert_eq!(called(&wasm, &mut store, &[40.into(), 2.into()]), Ok(42));
        SOME - store.get_fuel().unwrap()
    };
    // The entry, the addition, and the end.
    let (sum, local) = ([0x20, 0, 0x20, 1, 0x6a], [(1, I32)]);
    assert_eq!(used_by(&[], &[&sum]), 3);
    // The sum is computed into a local, and a parameter is copied to it.
    assert_eq!(used_by(&local, &[&sum, &[0x21, 2, 0x20, 2]]), 3);
    assert_eq!(used_by(&local, &[&[0x20, 1, 0x21, 2], &sum]), 4);
    // The block and its end, and the constants.
    assert_eq!(used_by(&[], &[&[0x02, 0x40, 0x0b], &sum]), 3);
    assert_eq!(used_by(&[], &[&[0x41, 40, 0x41, 2, 0x6a]]), 3);
    // A function that calls one without code: an entry and an end of each, and the call.
    assert_eq!(used(Wasm::default().function(&[], &[], &[], &[0x10, 1]).function(&[], &[], &[], &[])), 5);
    // The same with a result, which is copied to a local.
    let caller = Wasm::default().function(&[], &[I32], &[(1, I32)], &[0x10, 1, 0x21, 0, 0x20, 0]);
    assert_eq!(used(caller.function(&[], &[I32], &[], &[0x41, 42])), 6);
}

/// A loop without an end around some code.
fn forever(code: &[u8]) -> Vec<u8> {
    [&[0x03, 0x40], code, &[0x0c, 0, 0x0b]].concat()
}

#[test]
fn growths_in_a_loop_end_by_fuel() {
    let memory = Wasm::default().function(&[], &[], &[], &forever(&[0x41, 1, 0x40, 0, 0x1a])).memory(&[0, 0]);
    assert_eq!(called(&memory, &mut store(SOME), &[]), out_of_fuel());
    let grow = forever(&[0xd0, FUNC, 0x41, 1, 0xfc, 15, 0, 0x1a]);
    let table = Wasm::default().function(&[], &[], &[], &grow).table(&[0, 0]);
    assert_eq!(called(&table, &mut store(SOME), &[]), out_of_fuel());
}

#[test]
fn a_growth_that_fails_takes_nothing_of_the_caps() {
    let caps = Caps { bytes: 1 << 20, elements: 100 };
    // Beyond the maximum of a table.
    let table = Wasm::default().function(&[], &[], &[], &[0xd0, FUNC, 0x41, 9, 0xfc, 15, 0, 0x1a]).table(&[1, 0, 4]);
    let mut store = store_with(SOME, caps);
    called(&table, &mut store, &[]).unwrap();
    assert_eq!(store.caps(), caps);
    // Without the fuel for a page.
    let memory = Wasm::default().function(&[], &[], &[], &[0x41, 1, 0x40, 0, 0x1a]).memory(&[0, 0]);
    let mut store = store_with(1000, caps);
    assert_eq!(called(&memory, &mut store, &[]), out_of_fuel());
    assert_eq!(store.caps(), caps);
}

#[test]
fn bulk_instructions_in_a_loop_end_by_fuel() {
    let len = [0x41, 0x80, 0x80, 0x04]; // 65,536
    for code in [
        [&[0x41, 0, 0x41, 7][..], &len, &[0xfc, 11, 0]].concat(), // memory.fill
        [&[0x41, 0, 0x41, 0][..], &len, &[0xfc, 10, 0, 0]].concat(), // memory.copy
        [&[0x41, 0, 0xd0, FUNC][..], &len, &[0xfc, 17, 0]].concat(), // table.fill
        [&[0x41, 0, 0x41, 0][..], &len, &[0xfc, 14, 0, 0]].concat(), // table.copy
    ] {
        let wasm =
            Wasm::default().function(&[], &[], &[], &forever(&code)).memory(&[0, 1]).table(&[0, 0x80, 0x80, 0x04]);
        assert_eq!(called(&wasm, &mut store(SOME), &[]), out_of_fuel());
    }
}

/// The fuel that the instantiation of a module and a call of its function use.
fn used(wasm: Wasm) -> u64 {
    let mut store = store(SOME);
    called(&wasm, &mut store, &[]).unwrap();
    SOME - store.get_fuel().unwrap()
}

#[test]
fn what_a_bulk_instruction_costs() {
    let bytes = |len: u8| {
        let code = [&[0x41, 0, 0x41, 7, 0x41][..], &[len | 0x80, 1], &[0xfc, 11, 0]].concat();
        used(Wasm::default().function(&[], &[], &[], &code).memory(&[0, 1]))
    };
    // 128 and 192 bytes, of which 64 cost one unit.
    assert_eq!(bytes(64) - bytes(0), 1);
    let elements = |len: u8| {
        let code = [0x41, 0, 0xd0, FUNC, 0x41, len, 0xfc, 17, 0];
        used(Wasm::default().function(&[], &[], &[], &code).table(&[0, 63]))
    };
    // 252 bytes.
    assert_eq!(elements(63) - elements(0), 3);
    let pages = |count: u8| {
        let code = [0x41, count, 0x40, 0, 0x1a];
        used(Wasm::default().function(&[], &[], &[], &code).memory(&[0, 0]))
    };
    assert_eq!(pages(3) - pages(0), 3 * 1024);
    let segment = |len: u8| {
        let data = [&[0, 0x41, 0, 0x0b, len][..], &vec![7; len.into()]].concat();
        used(Wasm::default().function(&[], &[], &[], &[]).memory(&[0, 1]).item(11, data))
    };
    assert_eq!([segment(63), segment(64), segment(127)].map(|it| it - segment(0)), [0, 1, 1]);
}

#[test]
fn printing_in_a_loop_ends_by_fuel() {
    let import = [sized(b"host"), sized(b"print"), vec![0, 0]].concat();
    let code = forever(&[0x10, 0]);
    let body = sized(&[&[0][..], &code, &[0x0b]].concat());
    let wasm =
        Wasm::default().item(1, [0x60, 0, 0]).item(2, import).item(3, [0]).item(7, [1, b'f', 0, 1]).item(10, body);
    assert_eq!(called(&wasm, &mut store(SOME), &[]), out_of_fuel());
}

// ---- profiles

#[test]
fn a_profile_of_two_modules() {
    let engine = Engine::new(Config::default().profile(true));
    let (linker, mut store) = (Linker::new(&engine), Store::new(&engine, ()));
    store.set_fuel(SOME).unwrap();
    // The sum of the parameter and 1, and a loop that counts the parameter down to 0: a piece, and three.
    let down = [0x03, 0x40, 0x20, 0, 0x41, 1, 0x6b, 0x22, 0, 0x0d, 0, 0x0b, 0x20, 0];
    let [one, three] = [&[0x20, 0, 0x41, 1, 0x6a][..], &down].map(|code| {
        let wasm = Wasm::default().function(&[I32], &[I32], &[], code);
        linker.instantiate(&mut store, &Module::new(&engine, &wasm.bytes()).unwrap()).unwrap()
    });
    for (instance, reply) in [(&one, 6), (&three, 0), (&one, 6), (&three, 0), (&three, 0)] {
        assert_eq!(call(instance, &mut store, "f", &[5.into()]), Ok(reply));
    }
    let profile = store.profile();
    // An addition and an end; a subtraction and a branch five times, and an end.
    let counts = ["i32_add", "i32_sub", "branch_if", "ret"].map(|it| profile.instructions[it]);
    assert_eq!(counts, [2, 15, 15, 5]);
    let functions: Vec<_> = profile.functions.iter().map(|it| (it.function, it.calls, it.instructions)).collect();
    assert_eq!(functions, [(0, 5, 37)]);
    // 3 units twice, and three times 12: an entry, five times 2, and an end.
    assert_eq!((profile.functions[0].fuel, profile.stacks), (42, vec![(vec![0], 42)]));
    assert_eq!(SOME - store.get_fuel().unwrap(), 42);
}
