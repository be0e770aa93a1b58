//! Profiles: which functions and instructions a store has executed, and what fuel they took.
//!
//! A profiled module has an instruction `profile` before each piece of code that only its first instruction can be jumped
//! to, where a metered one takes fuel. It counts how often the piece is begun; what a piece has is known.

use crate::instructions::{Code, Op};
use crate::module::Module;
use crate::stack::{Activation, Stack};
use crate::store::{Inner, Store};
use std::collections::{BTreeMap, HashMap};
use std::sync::Arc;

/// What a store has executed. An instruction is one of those that the engine executes: those of WebAssembly without
/// `local.get` and constants, and copies of values. Of a piece of code that a trap ends all instructions count.
#[derive(Debug, Default)]
pub struct Profile {
    /// How often each instruction was executed, by name.
    pub instructions: BTreeMap<String, u64>,
    /// The functions that were called, by their numbers.
    pub functions: Vec<ProfiledFunction>,
    /// Which functions were open, the outermost one first, and the fuel that was taken while just these were.
    pub stacks: Vec<(Vec<u32>, u64)>,
}

/// A function that was called.
#[derive(Clone, Copy, Debug, Default)]
pub struct ProfiledFunction {
    /// Its number in the module, in which imported functions come first.
    pub function: u32,
    /// How often it was called.
    pub calls: u64,
    /// How many instructions it has executed, without those of functions that it has called.
    pub instructions: u64,
    /// The fuel that was taken in it, without that of functions that it has called.
    pub fuel: u64,
}

/// The instructions of a piece of code: how many there are of each.
pub(crate) type Piece = Box<[(Code, u32)]>;

/// What is called when a function is entered: with the number of calls that are open, and the function.
pub(crate) type Tracer = Box<dyn FnMut(usize, u32) + Send>;

/// What tells a function apart: the number of its module in the recorder, and its own in the module.
type Identity = (usize, u32);

/// A module of which the store has or had an instance.
struct Counted {
    module: Arc<Module>,
    /// How often each piece of each function was begun. There is none of a function that wasn't called.
    counts: Vec<Box<[u64]>>,
}

/// Functions that are open, in a tree whose root is the host.
#[derive(Default)]
struct Node {
    function: Identity,
    parent: usize,
    children: Vec<usize>,
    fuel: u64,
}

/// What is counted while a store runs.
#[derive(Default)]
pub(crate) struct Recorder {
    modules: Vec<Counted>,
    nodes: Vec<Node>,
    /// The open functions, with how many calls were open below each.
    open: Vec<(usize, usize)>,
    /// The fuel that was left at the last piece.
    left: u64,
    pub tracer: Option<Tracer>,
}

/// The pieces of a function's code, each after an instruction that takes its fuel. What stands after a jump that is always
/// made is executed in no piece: the places of a `branch_table`.
pub(crate) fn pieces_of(code: &[Op]) -> Box<[Piece]> {
    let (mut pieces, mut is_over): (Vec<BTreeMap<u16, (Code, u32)>>, _) = (vec![], false);
    for op in code {
        match (op.code, pieces.last_mut()) {
            (Code::fuel, _) => {
                pieces.push(BTreeMap::new());
                is_over = false;
            }
            (code, Some(piece)) if !is_over => {
                piece.entry(code as u16).or_insert((code, 0)).1 += 1;
                is_over = matches!(code, Code::branch | Code::branch_table | Code::ret | Code::unreachable);
            }
            _ => {}
        }
    }
    pieces.into_iter().map(|it| it.into_values().collect()).collect()
}

impl Counted {
    /// What is in each piece of a function.
    fn pieces(&self, function: usize) -> &[Piece] {
        &self.module.code[function].body(self.module.config).pieces
    }

    fn count(&mut self, function: usize, piece: u32) {
        if self.counts[function].is_empty() {
            self.counts[function] = vec![0; self.pieces(function).len()].into();
        }
        self.counts[function][piece as usize] += 1;
    }

    /// The functions that were called: the number of each, how often each of its pieces was begun, and what is in them.
    fn called(&self) -> impl Iterator<Item = (u32, &[u64], &[Piece])> {
        let called = self.counts.iter().enumerate().filter(|(_, counts)| !counts.is_empty());
        called.map(|(function, counts)| (function as u32, &counts[..], self.pieces(function)))
    }
}

impl Recorder {
    /// The number of a module of which an instance is made. It is 0 also for one that isn't profiled.
    pub fn number(&mut self, module: &Arc<Module>) -> usize {
        if !module.config.is_profiled() {
            return 0;
        }
        let known = self.modules.iter().position(|it| Arc::ptr_eq(&it.module, module));
        known.unwrap_or_else(|| {
            let counts = vec![Box::default(); module.code.len()];
            self.modules.push(Counted { module: module.clone(), counts });
            self.modules.len() - 1
        })
    }

    /// A piece of a function begins, with so many calls open below it and so much fuel left.
    pub fn begin(&mut self, function: Identity, piece: u32, depth: usize, left: u64) {
        self.take(left);
        let (module, number) = function;
        self.modules[module].count(number as usize, piece);
        self.enter(function, depth);
        if let (0, Some(tracer)) = (piece, &mut self.tracer) {
            tracer(depth, number);
        }
    }

    /// The fuel since the last piece is that of the functions that were open.
    pub fn take(&mut self, left: u64) {
        if let Some((_, node)) = self.open.last() {
            self.nodes[*node].fuel += self.left.saturating_sub(left);
        }
        self.left = left;
    }

    /// Makes a function the innermost open one, with so many calls open below it.
    fn enter(&mut self, function: Identity, depth: usize) {
        while let Some(&(at, node)) = self.open.last()
            && at >= depth
        {
            if at == depth && self.nodes[node].function == function {
                return;
            }
            self.open.pop();
        }
        let parent = self.open.last().map_or(0, |(_, node)| *node);
        let node = self.child(parent, function);
        self.open.push((depth, node));
    }

    /// The node of a function that is called in another one.
    fn child(&mut self, parent: usize, function: Identity) -> usize {
        if self.nodes.is_empty() {
            self.nodes.push(Node::default());
        }
        let known = self.nodes[parent].children.iter().copied().find(|it| self.nodes[*it].function == function);
        known.unwrap_or_else(|| {
            let node = self.nodes.len();
            self.nodes[parent].children.push(node);
            self.nodes.push(Node { function, parent, ..Node::default() });
            node
        })
    }

    fn profile(&self) -> Profile {
        let mut instructions = BTreeMap::<String, u64>::new();
        let mut functions = BTreeMap::<u32, ProfiledFunction>::new();
        for (function, counts, pieces) in self.modules.iter().flat_map(Counted::called) {
            let it = functions.entry(function).or_default();
            (it.function, it.calls) = (function, it.calls + counts[0]);
            let executed =
                counts.iter().zip(pieces).flat_map(|(times, piece)| piece.iter().map(move |it| (*times, it)));
            executed.for_each(|(times, (code, many))| {
                let times = times * u64::from(*many);
                *instructions.entry(format!("{code:?}")).or_default() += times;
                it.instructions += times;
            });
        }
        for Node { function: (_, function), fuel, .. } in self.nodes.iter().skip(1) {
            functions.entry(*function).or_default().fuel += fuel;
        }
        Profile { instructions, functions: functions.into_values().collect(), stacks: self.stacks() }
    }

    /// The fuel of each stack of open functions, in the order in which they were open first. Stacks of the same numbers are
    /// one.
    fn stacks(&self) -> Vec<(Vec<u32>, u64)> {
        let (mut same, mut fuel) = (vec![0; self.nodes.len()], vec![0; self.nodes.len()]);
        let mut first = HashMap::new();
        for (number, node) in self.nodes.iter().enumerate().skip(1) {
            same[number] = *first.entry((same[node.parent], node.function.1)).or_insert(number);
            fuel[same[number]] += node.fuel;
        }
        let numbers = (1..self.nodes.len()).filter(|it| fuel[*it] > 0);
        numbers.map(|it| (self.stack(it), fuel[it])).collect()
    }

    /// The functions that are open in a node, the outermost one first.
    fn stack(&self, mut node: usize) -> Vec<u32> {
        let mut stack = vec![];
        while node != 0 {
            stack.push(self.nodes[node].function.1);
            node = self.nodes[node].parent;
        }
        stack.reverse();
        stack
    }
}

impl Inner {
    /// A piece of the function that runs begins.
    pub fn begin_piece(&mut self, piece: u32, at: &Activation) {
        let Self { fuel, instances, stack, recorder, .. } = self;
        let function = (instances[at.instance].recorded, at.frame.function as u32);
        let depth = stack.as_ref().map_or(0, Stack::depth);
        recorder.begin(function, piece, depth, fuel.get_fuel().unwrap_or(0));
    }
}

impl<T> Store<T> {
    /// What has been executed in the store, if its engine [profiles](crate::Config::profile). Functions are told apart by
    /// their numbers: a store of several instances has the sums over functions of the same number, also where they are of
    /// different modules. Such a store keeps the modules of its instances as long as it is there.
    pub fn profile(&mut self) -> Profile {
        let left = self.inner.fuel.get_fuel().unwrap_or(0);
        self.inner.recorder.take(left);
        self.inner.recorder.profile()
    }

    /// Sets what is called whenever a function of a profiled module is entered: with the number of calls that are open, and
    /// the number of the function.
    pub fn trace_calls(&mut self, tracer: impl FnMut(usize, u32) + Send + 'static) {
        self.inner.recorder.tracer = Some(Box::new(tracer));
    }
}
