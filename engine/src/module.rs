//! Reads and validates a module, section by section.
//!
//! WebAssembly core specification, 5.5 (sections) and 3.5 (validation of modules).

use crate::engine::Config;
use crate::library::{FuncType, GlobalType, MemoryType, RawRef, RawVal, RefType, TableType, ValType, wasm};
use crate::lower::Lazy;
use crate::operands::Operands;
use crate::reader::{Read, Reader, Refusal, ensure};
use crate::translate::{self, Function};
use crate::{limits, names, proposals};
use std::collections::{BTreeMap, HashMap};

/// What a module imports or exports, by its number in the module.
#[derive(Clone, Copy, Debug, PartialEq, Eq)]
pub(crate) enum Item {
    Function(u32),
    Table(u32),
    Memory(u32),
    Global(u32),
}

/// An import by its two names, with what it becomes in the module.
pub(crate) struct Import {
    pub module: String,
    pub name: String,
    pub item: Item,
}

/// A constant expression: a value, or terms in postfix notation.
pub(crate) enum Constant {
    Value(RawVal),
    Function(u32),
    Terms(Vec<Term>),
}

#[derive(Clone, Copy)]
pub(crate) enum Term {
    Value(RawVal),
    Function(u32),
    Global(u32),
    Operator(u8),
}

impl Constant {
    /// The value in an instance, given the reference of its first function, and the globals that the expression may read.
    pub fn value(&self, first: u32, global: &dyn Fn(u32) -> RawVal) -> RawVal {
        let terms = match self {
            Self::Value(value) => return *value,
            Self::Function(function) => return (first + function).into(),
            Self::Terms(terms) => terms,
        };
        let mut stack: Vec<RawVal> = vec![];
        for term in terms {
            let value = match *term {
                Term::Value(value) => value,
                Term::Function(function) => (first + function).into(),
                Term::Global(number) => global(number),
                Term::Operator(opcode) => {
                    let (right, left) = (stack.pop().unwrap_or_default(), stack.pop().unwrap_or_default());
                    match opcode {
                        0x6a => wasm::i32_add(left.into(), right.into()).into(),
                        0x6b => wasm::i32_sub(left.into(), right.into()).into(),
                        0x6c => wasm::i32_mul(left.into(), right.into()).into(),
                        0x7c => wasm::i64_add(left.into(), right.into()).into(),
                        0x7d => wasm::i64_sub(left.into(), right.into()).into(),
                        _ => wasm::i64_mul(left.into(), right.into()).into(),
                    }
                }
            };
            stack.push(value);
        }
        stack.pop().unwrap_or_default()
    }
}

/// What becomes of a segment: an active one is written to a table or a memory at the start.
pub(crate) enum Mode {
    Active(u32, Constant),
    Passive,
    Declared,
}

pub(crate) struct Elements {
    pub mode: Mode,
    pub ty: RefType,
    pub items: Vec<Constant>,
}

pub(crate) struct Data {
    pub mode: Mode,
    pub bytes: Vec<u8>,
}

/// A module that was read, validated and translated.
#[derive(Default)]
pub(crate) struct Module {
    pub(crate) types: Vec<FuncType>,
    /// For each type the first one that is equal to it.
    pub(crate) same: Vec<u32>,
    pub(crate) imports: Vec<Import>,
    /// The type of each function, those that are imported first; so are the tables, memories and globals.
    pub(crate) functions: Vec<u32>,
    pub(crate) tables: Vec<(TableType, Constant)>,
    pub(crate) memories: Vec<MemoryType>,
    pub(crate) globals: Vec<(GlobalType, Constant)>,
    pub(crate) imported: Imported,
    pub(crate) exports: BTreeMap<String, Item>,
    pub(crate) start: Option<u32>,
    pub(crate) elements: Vec<Elements>,
    pub(crate) data: Vec<Data>,
    pub(crate) data_count: Option<u32>,
    pub(crate) code: Vec<Lazy>,
    pub(crate) config: Config,
    /// Of each function, whether a constant, an export or a segment names it, so that code may refer to it.
    pub(crate) is_declared: Vec<bool>,
    /// What the section of names has.
    pub(crate) names: Box<[u8]>,
}

/// How many of each kind are imported.
#[derive(Clone, Copy, Default)]
pub(crate) struct Imported {
    pub functions: usize,
    pub tables: usize,
    pub memories: usize,
    pub globals: usize,
}

impl Module {
    /// Reads a module in the binary format. An instruction that computes with floats traps when it is executed.
    pub fn new(bytes: &[u8], config: Config) -> Result<Module, Refusal> {
        Self::read(Reader::new(bytes, false), config).map_err(|refusal| *refusal)
    }

    /// The same, but a module that has a type, a constant or an instruction of floats is refused.
    pub fn new_strict(bytes: &[u8], config: Config) -> Result<Module, Refusal> {
        Self::read(Reader::new(bytes, true), config).map_err(|refusal| *refusal)
    }

    /// A module of one function, which it imports.
    pub(crate) fn of_host(ty: &FuncType, config: Config) -> Module {
        let imported = Imported { functions: 1, ..Imported::default() };
        let code = vec![Lazy::new(Function::of_host(0, ty))];
        let types = vec![ty.clone()];
        Module { config, types, same: vec![0], functions: vec![0], imported, code, ..Module::default() }
    }

    pub(crate) fn type_of(&self, function: u32) -> &FuncType {
        &self.types[self.functions[function as usize] as usize]
    }

    fn read(mut reader: Reader, config: Config) -> Read<Module> {
        let begin = reader;
        ensure(reader.take(4).ok() == Some(b"\0asm"), begin.malformed("this isn't a WebAssembly module"))?;
        let (begin, version) = (reader, reader.take(4)?);
        let unknown = begin.unknown(proposals::of_version(version), "the version of the binary format isn't 1");
        ensure(version == [1, 0, 0, 0], unknown)?;
        let mut module = Module { config, ..Module::default() };
        let (mut last, mut has_data) = (0, false);
        while !reader.is_empty() {
            let begin = reader;
            let id = reader.byte()?;
            let mut section = reader.part()?;
            if id == 0 {
                if section.name()? == names::SECTION {
                    module.names = section.take(section.len())?.into();
                }
                continue;
            }
            let order = [0, 1, 2, 3, 4, 5, 6, 7, 8, 9, 11, 12, 10];
            let place =
                *order.get(usize::from(id)).ok_or(begin.unknown(proposals::of_section(id), "a section is unknown"))?;
            ensure(place > last, begin.malformed("a section is out of order or comes twice"))?;
            last = place;
            has_data |= id == 11;
            module.section(id, &mut section)?;
            ensure(section.is_empty(), section.malformed("a section is longer than what it has"))?;
        }
        let has_bodies = module.code.len() == module.functions.len();
        ensure(has_bodies, reader.malformed("functions and their bodies differ in number"))?;
        let is_counted = has_data || module.data_count.is_none_or(|count| count == 0);
        ensure(is_counted, reader.malformed("the data count section and the data section differ"))?;
        Ok(module)
    }

    fn section(&mut self, id: u8, reader: &mut Reader) -> Read<()> {
        match id {
            1 => self.section_of_types(reader)?,
            2 => reader.list(|it| self.import(it)).map(|imports| self.imports = imports)?,
            3 => {
                let types = reader.list(|it| self.known(it, self.types.len(), "a type is unknown"))?;
                ensure(types.len() <= limits::FUNCTIONS, reader.unsupported("there are too many functions"))?;
                self.functions.extend(types);
            }
            4 => drop(reader.list(|it| self.table(it))?),
            5 => self.memories.extend(reader.list(Reader::memory_type)?),
            6 => drop(reader.list(|it| self.global(it))?),
            7 => drop(reader.list(|it| self.export(it))?),
            8 => self.section_of_start(reader)?,
            9 => drop(reader.list(|it| self.element(it))?),
            10 => self.section_of_code(reader)?,
            11 => self.section_of_data(reader)?,
            _ => self.data_count = Some(reader.u32()?),
        }
        let is_bounded = self.memories.len() <= limits::MEMORIES && self.tables.len() <= limits::TABLES;
        ensure(is_bounded, reader.unsupported("there are too many memories or tables"))
    }

    fn section_of_types(&mut self, reader: &mut Reader) -> Read<()> {
        self.types = reader.list(Reader::func_type)?;
        ensure(self.types.len() <= limits::TYPES, reader.unsupported("there are too many types"))?;
        let mut first = HashMap::new();
        self.same = (0..).zip(&self.types).map(|(number, ty)| *first.entry(ty).or_insert(number)).collect();
        Ok(())
    }

    /// A number of something, which is below the count of what there is.
    fn known(&self, reader: &mut Reader, count: usize, what: &'static str) -> Read<u32> {
        let begin = *reader;
        let number = reader.u32()?;
        ensure((number as usize) < count, begin.invalid(what)).map(|()| number)
    }

    fn known_function(&mut self, reader: &mut Reader) -> Read<u32> {
        let function = self.known(reader, self.functions.len(), "a function is unknown")?;
        self.is_declared.resize(self.functions.len(), false);
        self.is_declared[function as usize] = true;
        Ok(function)
    }

    fn import(&mut self, reader: &mut Reader) -> Read<Import> {
        let (module, name) = (reader.name()?.into(), reader.name()?.into());
        let begin = *reader;
        let (count, kind): (_, fn(u32) -> Item) = match reader.byte()? {
            0 => {
                let ty = self.known(reader, self.types.len(), "a type is unknown")?;
                self.functions.push(ty);
                let function = Function::of_host(self.imported.functions as u32, &self.types[ty as usize]);
                self.code.push(Lazy::new(function));
                (&mut self.imported.functions, Item::Function)
            }
            1 => {
                self.tables.push((reader.table_type()?, Constant::Value(RawVal::default())));
                (&mut self.imported.tables, Item::Table)
            }
            2 => {
                self.memories.push(reader.memory_type()?);
                (&mut self.imported.memories, Item::Memory)
            }
            3 => {
                self.globals.push((reader.global_type()?, Constant::Value(RawVal::default())));
                (&mut self.imported.globals, Item::Global)
            }
            kind => return Err(begin.unknown(proposals::of_extern(kind), "an import is of an unknown kind").into()),
        };
        *count += 1;
        Ok(Import { module, name, item: kind(*count as u32 - 1) })
    }

    fn table(&mut self, reader: &mut Reader) -> Read<()> {
        let has_value = reader.peek() == Some(0x40);
        ensure(!has_value || reader.take(2)?[1] == 0, reader.malformed("a table is of an unknown kind"))?;
        let ty = reader.table_type()?;
        let null = Constant::Value(RawRef::null().into());
        let init = if has_value { self.constant(reader, ty.element().into())? } else { null };
        self.tables.push((ty, init));
        Ok(())
    }

    fn global(&mut self, reader: &mut Reader) -> Read<()> {
        let ty = reader.global_type()?;
        let init = self.constant(reader, ty.content())?;
        self.globals.push((ty, init));
        Ok(())
    }

    fn export(&mut self, reader: &mut Reader) -> Read<()> {
        let begin = *reader;
        let name = reader.name()?.to_owned();
        let kind = *reader;
        let item = match reader.byte()? {
            0 => Item::Function(self.known_function(reader)?),
            1 => Item::Table(self.known(reader, self.tables.len(), "a table is unknown")?),
            2 => Item::Memory(self.known(reader, self.memories.len(), "a memory is unknown")?),
            3 => Item::Global(self.known(reader, self.globals.len(), "a global is unknown")?),
            _ => return Err(kind.malformed("an export is of an unknown kind").into()),
        };
        ensure(self.exports.insert(name, item).is_none(), begin.invalid("two exports have one name"))
    }

    fn section_of_start(&mut self, reader: &mut Reader) -> Read<()> {
        let begin = *reader;
        let start = self.known(reader, self.functions.len(), "a function is unknown")?;
        self.start = Some(start);
        let is_plain = self.type_of(start).len_params() + self.type_of(start).len_results() == 0;
        ensure(is_plain, begin.invalid("the start function has parameters or results"))
    }

    /// An element segment. Flag 0 of its kind is for one that isn't active, 1 for a table's number or for a declared one,
    /// and 2 for expressions in place of functions.
    fn element(&mut self, reader: &mut Reader) -> Read<()> {
        let begin = *reader;
        let kind = reader.u32()?;
        ensure(kind <= 7, begin.malformed("an element segment is of an unknown kind"))?;
        let mut table = None;
        let mode = match kind & 3 {
            1 => Mode::Passive,
            3 => Mode::Declared,
            has_number => {
                let number = if has_number == 2 { reader.u32()? } else { 0 };
                let (ty, _) = self.tables.get(number as usize).ok_or(begin.invalid("a table is unknown"))?;
                table = Some(ty.element());
                Mode::Active(number, self.constant(reader, ty.index_ty().ty())?)
            }
        };
        let ty = match (kind & 3, kind & 4) {
            (0, _) => RefType::Func,
            (_, 0) if reader.byte()? == 0 => RefType::Func,
            (_, 0) => return Err(reader.malformed("an element segment has elements of an unknown kind").into()),
            _ => reader.ref_type()?,
        };
        let is_right = table.is_none_or(|table| table == ty);
        ensure(is_right, begin.invalid("an element segment has another type than its table"))?;
        let items = match kind & 4 {
            0 => reader.list(|it| Ok(Constant::Function(self.known_function(it)?)))?,
            _ => reader.list(|it| self.constant(it, ty.into()))?,
        };
        ensure(items.len() <= limits::ELEMENTS, begin.unsupported("an element segment is too long"))?;
        self.elements.push(Elements { mode, ty, items });
        Ok(())
    }

    fn section_of_code(&mut self, reader: &mut Reader) -> Read<()> {
        let begin = *reader;
        self.is_declared.resize(self.functions.len(), false);
        let bodies = reader.list(Reader::part)?;
        let is_right = bodies.len() == self.functions.len() - self.imported.functions;
        ensure(is_right, begin.malformed("functions and their bodies differ in number"))?;
        let mut operands = Operands::default();
        for body in bodies {
            let function = translate::function(self, self.code.len() as u32, body, &mut operands)?;
            self.code.push(Lazy::new(function));
        }
        Ok(())
    }

    fn section_of_data(&mut self, reader: &mut Reader) -> Read<()> {
        let begin = *reader;
        self.data = reader.list(|it| {
            let begin = *it;
            let kind = it.u32()?;
            ensure(kind <= 2, begin.malformed("a data segment is of an unknown kind"))?;
            let number = if kind == 2 { it.u32()? } else { 0 };
            let mode = match self.memories.get(number as usize) {
                _ if kind == 1 => Mode::Passive,
                Some(ty) => Mode::Active(number, self.constant(it, ty.index_ty().ty())?),
                None => return Err(begin.invalid("a memory is unknown").into()),
            };
            Ok(Data { mode, bytes: it.bytes()?.to_vec() })
        })?;
        let is_counted = self.data_count.is_none_or(|count| count as usize == self.data.len());
        ensure(is_counted, begin.malformed("the data count section and the data section differ"))
    }

    /// A constant expression that gives a value of this type.
    fn constant(&mut self, reader: &mut Reader, wanted: ValType) -> Read<Constant> {
        let begin = *reader;
        let (mut terms, mut types) = (vec![], vec![]);
        while reader.peek() != Some(0x0b) {
            let (ty, term) = self.term(reader, &mut types)?;
            types.push(ty);
            terms.push(term);
        }
        reader.byte()?;
        match (&types[..], &terms[..]) {
            ([ty], _) if *ty != wanted => Err(begin.invalid("a constant expression has another type").into()),
            ([_], [Term::Value(value)]) => Ok(Constant::Value(*value)),
            ([_], [Term::Function(function)]) => Ok(Constant::Function(*function)),
            ([_], _) => Ok(Constant::Terms(terms)),
            _ => Err(begin.invalid("a constant expression doesn't give one value").into()),
        }
    }

    fn term(&mut self, reader: &mut Reader, types: &mut Vec<ValType>) -> Read<(ValType, Term)> {
        let at = *reader;
        let opcode = reader.byte()?;
        Ok(match opcode {
            0x23 => {
                let global = self.known(reader, self.imported.globals, "a global is unknown")?;
                let ty = self.globals[global as usize].0;
                let is_const = ty.mutability().is_const();
                ensure(is_const, at.invalid("a constant expression reads a mutable global"))?;
                (ty.content(), Term::Global(global))
            }
            0x41 => (ValType::I32, Term::Value(reader.i32()?.into())),
            0x42 => (ValType::I64, Term::Value(reader.i64()?.into())),
            0x43 => (ValType::F32, Term::Value(reader.float(4)?.into())),
            0x44 => (ValType::F64, Term::Value(reader.float(8)?.into())),
            0x6a..=0x6c | 0x7c..=0x7e => {
                let ty = if opcode < 0x70 { ValType::I32 } else { ValType::I64 };
                let are_right = types.pop() == Some(ty) && types.pop() == Some(ty);
                ensure(are_right, at.invalid("an operand is missing or has another type"))?;
                (ty, Term::Operator(opcode))
            }
            0xd0 => (reader.ref_type()?.into(), Term::Value(RawRef::null().into())),
            0xd2 => (ValType::FuncRef, Term::Function(self.known_function(reader)?)),
            0xfd if reader.u32()? == 12 => (ValType::V128, Term::Value(reader.v128()?.into())),
            0xfb => return Err(at.unknown(proposals::of_instruction(0xfb), "an instruction is unknown").into()),
            _ => return Err(at.invalid("a constant expression has another instruction").into()),
        })
    }
}
