//! A random module, valid by construction, and the calls that are made of it.
use crate::body;
use crate::instructions::Instruction;
use crate::random::Random;
use Type::*;

/// The global that counts down at each loop and each call, so that every call ends: see `body`.
pub const BUDGET: usize = 0;
const BUDGETED: i64 = 400;

pub struct Limits {
    pub least: u64,
    pub most: Option<u64>,
}

pub struct Segment {
    pub ty: Type,
    pub len: u64,
}

/// What a module has, before its functions' bodies are made.
pub struct Shape {
    pub signatures: Vec<Signature>,
    /// The signature of each function. Function 0 sets the budget anew, and is of a signature that no other one has, since
    /// calls by a table would find it else.
    pub functions: Vec<usize>,
    pub memory: Option<Limits>,
    pub is_wide: bool,
    pub tables: Vec<(Type, Limits)>,
    /// Type, whether it may be changed, and a code that gives its first value.
    pub globals: Vec<(Type, bool, Vec<u8>)>,
    pub elements: Vec<Segment>,
    pub data: Vec<u64>,
    /// How much of each comes from another module.
    imported: Imported,
    /// Whether it is to be imported from: it exports all, and nothing ends its instantiation.
    is_provider: bool,
}

#[derive(Default)]
struct Imported {
    functions: usize,
    has_memory: bool,
    tables: usize,
    globals: usize,
    /// How many functions of the host there are, after the functions of the other module.
    host: usize,
}

pub struct Case {
    pub bytes: Vec<u8>,
    /// A module that the other one imports from.
    pub provider: Option<Vec<u8>>,
    /// Lines of a script: calls, and at last the digest.
    pub lines: Vec<String>,
}

const VALUES: [Type; 10] = [I32, I32, I32, I64, I64, F32, F64, V128, Func, Extern];

pub fn case(seed: u64, instructions: &[Instruction]) -> Case {
    let mut random = Random::new(seed);
    let shape = shape(&mut random);
    Case { bytes: module(&shape, &mut random, instructions), provider: None, lines: lines(&shape, &mut random) }
}

/// A module that imports all that another one has, and functions of the host.
pub fn linked(seed: u64, instructions: &[Instruction]) -> Case {
    let mut random = Random::new(seed);
    let provider = Shape { is_provider: true, ..shape(&mut random) };
    let bytes = module(&provider, &mut random, instructions);
    let user = user(provider, &mut random);
    Case { provider: Some(bytes), bytes: module(&user, &mut random, instructions), lines: lines(&user, &mut random) }
}

/// The functions of the host that a module imports, by name.
const HOST: [(&str, &[Type], &[Type]); 2] = [("mix", &[I32, I64], &[I64, I32]), ("refuse", &[I32], &[])];

/// A module that imports all that this one has. Function 0 and the budget are those of the other one.
fn user(provider: Shape, random: &mut Random) -> Shape {
    let Shape { mut signatures, mut functions, memory, is_wide, mut tables, mut globals, .. } = provider;
    let imported = Imported {
        functions: functions.len(),
        has_memory: memory.is_some(),
        tables: tables.len(),
        globals: globals.len(),
        host: HOST.len(),
    };
    for (_, params, results) in HOST {
        functions.push(signatures.len());
        signatures.push(Signature { params: params.to_vec(), results: results.to_vec() });
    }
    let own = shape(random);
    let first = signatures.len();
    signatures.extend(own.signatures);
    functions.extend(own.functions[1..].iter().map(|it| first + it));
    tables.extend(own.tables);
    globals.extend(own.globals.into_iter().skip(1).filter(|(ty, ..)| *ty != Func));
    let data = if memory.is_some() { own.data } else { vec![] };
    let elements = own.elements;
    Shape { signatures, functions, memory, is_wide, tables, globals, elements, data, imported, is_provider: false }
}

fn signature(random: &mut Random) -> Signature {
    let mut some = |most: usize| (0..random.below(most)).map(|_| *random.of(&VALUES)).collect();
    Signature { params: some(5), results: some(4) }
}

fn limits(random: &mut Random, most: usize) -> Limits {
    let least = random.below(most) as u64;
    Limits { least, most: (!random.once_in(4)).then(|| least + random.below(4) as u64) }
}

/// A constant of a type.
pub fn constant(code: &mut Vec<u8>, ty: Type, random: &mut Random, functions: usize) {
    match ty {
        I32 => {
            code.push(0x41);
            signed(code, i64::from(random.number() as i32));
        }
        I64 => {
            code.push(0x42);
            signed(code, random.number() as i64);
        }
        F32 => {
            code.push(0x43);
            code.extend((random.float(23) as u32).to_le_bytes());
        }
        F64 => {
            code.push(0x44);
            code.extend(random.float(52).to_le_bytes());
        }
        V128 => {
            code.extend([0xfd, 12]);
            code.extend(random.number().to_le_bytes());
            code.extend(random.number().to_le_bytes());
        }
        Func if !random.once_in(3) => {
            code.push(0xd2);
            unsigned(code, random.below(functions) as u64);
        }
        Func | Extern => code.extend([0xd0, ty as u8]),
    }
}

fn shape(random: &mut Random) -> Shape {
    let of_budget = Signature { params: vec![], results: vec![I64; 4] };
    let nothing = Signature { params: vec![], results: vec![] };
    let mut signatures = vec![of_budget, nothing, Signature { params: vec![I32], results: vec![I64] }];
    signatures.extend((0..1 + random.below(5)).map(|_| signature(random)));
    let functions: Vec<_> =
        [0].into_iter().chain((0..2 + random.below(5)).map(|_| 1 + random.below(signatures.len() - 1))).collect();
    let count = functions.len();
    let mut budget = vec![0x41];
    signed(&mut budget, BUDGETED);
    let mut globals = vec![(I32, true, budget)];
    for _ in 0..random.below(6) {
        let (ty, mut code) = (*random.of(&VALUES), vec![]);
        constant(&mut code, ty, random, count);
        globals.push((ty, !random.once_in(3), code));
    }
    let memory = (!random.once_in(8)).then(|| limits(random, 3));
    let mut tables = vec![(Func, limits(random, 12))];
    tables.extend((0..random.below(3)).map(|_| (if random.once_in(3) { Extern } else { Func }, limits(random, 12))));
    let segment = |random: &mut Random| Segment {
        ty: if random.once_in(4) { Extern } else { Func },
        len: random.below(8) as u64,
    };
    let elements = (0..random.below(4)).map(|_| segment(random)).collect();
    let data = (0..random.below(4)).map(|_| random.below(40) as u64).collect();
    let is_wide = random.once_in(8);
    Shape {
        signatures,
        functions,
        data: if memory.is_some() { data } else { vec![] },
        memory,
        is_wide,
        tables,
        globals,
        elements,
        imported: Imported::default(),
        is_provider: false,
    }
}

impl Shape {
    pub fn signature(&self, function: usize) -> &Signature {
        &self.signatures[self.functions[function]]
    }

    /// The type of addresses.
    pub fn address(&self) -> Type {
        if self.is_wide { I64 } else { I32 }
    }

    /// Whether a caller from outside can hand over the operands and take the results.
    fn is_called(&self, function: usize) -> bool {
        let signature = self.signature(function);
        !signature.params.iter().any(|it| it.is_reference())
            && !signature.params.iter().chain(&signature.results).any(|it| matches!(it, F32 | F64 | V128))
    }
}

fn encoded(limits: &Limits, is_wide: bool) -> Vec<u8> {
    let mut code = vec![u8::from(limits.most.is_some()) | u8::from(is_wide) << 2];
    unsigned(&mut code, limits.least);
    limits.most.into_iter().for_each(|most| unsigned(&mut code, most));
    code
}

/// The place of an active segment: mostly within the bounds.
fn place(code: &mut Vec<u8>, is_wide: bool, room: u64, len: u64, is_safe: bool, random: &mut Random) {
    code.push(if is_wide { 0x42 } else { 0x41 });
    let last = room.saturating_sub(len) + u64::from(random.once_in(30) && !is_safe);
    let at = if room < len && !random.once_in(20) { 0 } else { random.bits() % (last + 1) };
    signed(code, at as i64);
    code.push(0x0b);
}

/// An element segment of one of the eight forms of the binary format.
fn element(shape: &Shape, segment: &Segment, random: &mut Random) -> Vec<u8> {
    let fitting: Vec<_> = (0..shape.tables.len()).filter(|it| shape.tables[*it].0 == segment.ty).collect();
    let is_short = segment.ty == Func && random.once_in(2);
    let is_safe = shape.is_provider;
    let fits = |it: &&usize| segment.len <= shape.tables[**it].1.least || (random.once_in(20) && !is_safe);
    let table = fitting.first().filter(fits);
    let mode = if table.is_some() && random.once_in(2) { [0, 2][random.below(2)] } else { [1, 1, 3][random.below(3)] };
    let mode = if mode == 0 && (table != Some(&0) || segment.ty != Func) { 2 } else { mode };
    let mut code = vec![mode | if is_short { 0 } else { 4 }];
    if let (0 | 2, Some(table)) = (mode, table) {
        if mode == 2 {
            unsigned(&mut code, *table as u64);
        }
        place(&mut code, false, shape.tables[*table].1.least, segment.len, is_safe, random);
    }
    if mode != 0 {
        code.push(if is_short { 0 } else { segment.ty as u8 });
    }
    unsigned(&mut code, segment.len);
    for _ in 0..segment.len {
        if is_short {
            unsigned(&mut code, random.below(shape.functions.len()) as u64);
        } else {
            constant(&mut code, segment.ty, random, shape.functions.len());
            code.push(0x0b);
        }
    }
    code
}

fn data(shape: &Shape, len: u64, random: &mut Random) -> Vec<u8> {
    let mut code = vec![];
    let pages = shape.memory.as_ref().map_or(0, |it| it.least);
    match random.below(3) {
        0 if pages > 0 => {
            code.push(0);
            place(&mut code, shape.is_wide, pages << 16, len, shape.is_provider, random);
        }
        1 if pages > 0 => {
            code.extend([2, 0]);
            place(&mut code, shape.is_wide, pages << 16, len, shape.is_provider, random);
        }
        _ => code.push(1),
    }
    let bytes: Vec<u8> = (0..len).map(|_| random.bits() as u8).collect();
    sized(&mut code, &bytes);
    code
}

fn exports(shape: &Shape) -> Vec<Vec<u8>> {
    let export = |name: String, kind: u8, index: usize| {
        let mut code = vec![];
        sized(&mut code, name.as_bytes());
        code.push(kind);
        unsigned(&mut code, index as u64);
        code
    };
    let all = if shape.is_provider { usize::MAX } else { 0 };
    let of_kind = |letter: char, kind: u8, count: usize| {
        (0..count.min(all)).map(move |it| export(format!("{letter}{it}"), kind, it)).collect::<Vec<_>>()
    };
    let functions =
        (0..shape.functions.len()).filter(|it| shape.is_called(*it)).map(|it| export(format!("f{it}"), 0, it));
    let mut all = functions.collect::<Vec<_>>();
    all.extend(of_kind('F', 0, shape.functions.len()));
    all.extend(of_kind('t', 1, shape.tables.len()));
    all.extend(of_kind('m', 2, shape.memory.iter().count()));
    all.extend(of_kind('g', 3, shape.globals.len()));
    all
}

/// The imports: all of the other module, and after its functions those of the host.
fn imports(shape: &Shape) -> Vec<Vec<u8>> {
    let import = |module: &str, name: &str, kind: u8, ty: &[u8]| {
        let mut code = vec![];
        sized(&mut code, module.as_bytes());
        sized(&mut code, name.as_bytes());
        [&code[..], &[kind], ty].concat()
    };
    let any = Limits { least: 0, most: None };
    let it = &shape.imported;
    let mut all: Vec<_> = (0..it.functions)
        .map(|number| import("other", &format!("F{number}"), 0, &[shape.functions[number] as u8]))
        .collect();
    all.extend((0..it.host).map(|number| {
        let ty = shape.functions[it.functions + number] as u8;
        import("host", HOST[number].0, 0, &[ty])
    }));
    all.extend((0..it.tables).map(|number| {
        let ty = [vec![shape.tables[number].0 as u8], encoded(&any, false)].concat();
        import("other", &format!("t{number}"), 1, &ty)
    }));
    if it.has_memory {
        all.push(import("other", "m0", 2, &encoded(&any, shape.is_wide)));
    }
    all.extend((0..it.globals).map(|number| {
        let (ty, is_mutable, _) = &shape.globals[number];
        import("other", &format!("g{number}"), 3, &[*ty as u8, u8::from(*is_mutable)])
    }));
    all
}

fn module(shape: &Shape, random: &mut Random, instructions: &[Instruction]) -> Vec<u8> {
    let signature = |it: &Signature| {
        let mut code = vec![0x60];
        types(&mut code, &it.params);
        types(&mut code, &it.results);
        code
    };
    let global = |(ty, is_mutable, first): &(Type, bool, Vec<u8>)| {
        [&[*ty as u8, u8::from(*is_mutable)], &first[..], &[0x0b]].concat()
    };
    let mut bytes = b"\0asm\x01\0\0\0".to_vec();
    section(&mut bytes, 1, &shape.signatures.iter().map(signature).collect::<Vec<_>>());
    let imported = &shape.imported;
    let first = imported.functions + imported.host;
    if first > 0 {
        section(&mut bytes, 2, &imports(shape));
    }
    section(&mut bytes, 3, &shape.functions[first..].iter().map(|it| vec![*it as u8]).collect::<Vec<_>>());
    let table = |it: &(Type, Limits)| [vec![it.0 as u8], encoded(&it.1, false)].concat();
    section(&mut bytes, 4, &shape.tables[imported.tables..].iter().map(table).collect::<Vec<_>>());
    let memory = shape.memory.iter().filter(|_| !imported.has_memory);
    section(&mut bytes, 5, &memory.map(|it| encoded(it, shape.is_wide)).collect::<Vec<_>>());
    section(&mut bytes, 6, &shape.globals[imported.globals..].iter().map(global).collect::<Vec<_>>());
    section(&mut bytes, 7, &exports(shape));
    let nothing: Vec<_> = (0..shape.functions.len()).filter(|it| shape.functions[*it] == 1).collect();
    if !nothing.is_empty() && random.once_in(4) && !shape.is_provider {
        bytes.extend([8, 1, *random.of(&nothing) as u8]);
    }
    let mut elements: Vec<_> = shape.elements.iter().map(|it| element(shape, it, random)).collect();
    // Each function is declared, so that a reference to it may be made.
    let all: Vec<u8> = (0..shape.functions.len() as u8).collect();
    elements.push([&[3, 0, all.len() as u8], &all[..]].concat());
    section(&mut bytes, 9, &elements);
    bytes.extend([12, 1, shape.data.len() as u8]);
    let bodies: Vec<_> = (first..shape.functions.len()).map(|it| body::body(shape, it, random, instructions)).collect();
    section(&mut bytes, 10, &bodies);
    section(&mut bytes, 11, &shape.data.iter().map(|len| data(shape, *len, random)).collect::<Vec<_>>());
    bytes
}

/// The body of function 0.
pub fn with_budget() -> Vec<u8> {
    let mut code = vec![0, 0x41];
    signed(&mut code, BUDGETED);
    code.extend([0x24, BUDGET as u8]);
    code.extend([0x42, 0].repeat(4));
    code.push(0x0b);
    code
}

fn lines(shape: &Shape, random: &mut Random) -> Vec<String> {
    let mut lines = vec![];
    for function in (1..shape.functions.len()).filter(|it| shape.is_called(*it)) {
        for _ in 0..1 + random.below(2) {
            let operands = shape.signature(function).params.iter().map(|ty| match ty {
                I32 => format!(" {}", random.number() as i32),
                _ => format!(" {}", random.number() as i64),
            });
            let operands: String = operands.collect();
            lines.extend(["invoke f0".into(), format!("invoke f{function}{operands}"), "left".into()]);
        }
    }
    lines.push("digest".into());
    lines
}

// ---- the binary format

/// A type of values.
#[derive(Clone, Copy, PartialEq, Eq, Debug)]
pub enum Type {
    I32 = 0x7f,
    I64 = 0x7e,
    F32 = 0x7d,
    F64 = 0x7c,
    V128 = 0x7b,
    Func = 0x70,
    Extern = 0x6f,
}

impl Type {
    pub fn is_reference(self) -> bool {
        matches!(self, Type::Func | Type::Extern)
    }
}

/// A function's type.
#[derive(Clone, PartialEq, Eq, Debug)]
pub struct Signature {
    pub params: Vec<Type>,
    pub results: Vec<Type>,
}

pub fn unsigned(code: &mut Vec<u8>, mut value: u64) {
    while value >= 0x80 {
        code.push(value as u8 | 0x80);
        value >>= 7;
    }
    code.push(value as u8);
}

pub fn signed(code: &mut Vec<u8>, mut value: i64) {
    loop {
        let byte = value as u8 & 0x7f;
        value >>= 7;
        if value == -i64::from(byte & 0x40 != 0) {
            return code.push(byte);
        }
        code.push(byte | 0x80);
    }
}

pub fn types(code: &mut Vec<u8>, types: &[Type]) {
    unsigned(code, types.len() as u64);
    code.extend(types.iter().map(|it| *it as u8));
}

/// Bytes after their number.
pub fn sized(code: &mut Vec<u8>, bytes: &[u8]) {
    unsigned(code, bytes.len() as u64);
    code.extend(bytes);
}

/// A section that is a list.
pub fn section(module: &mut Vec<u8>, id: u8, items: &[Vec<u8>]) {
    let mut content = vec![];
    unsigned(&mut content, items.len() as u64);
    content.extend(items.concat());
    module.push(id);
    sized(module, &content);
}
