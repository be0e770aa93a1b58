//! The operands of a function while it is translated: the type of each, and where those lie that have no slot of their
//! own. What takes many operands compares and drops them as slices, so that it costs little of each.

use crate::library::ValType;

/// Where an operand lies.
#[derive(Clone, Copy, PartialEq)]
pub(crate) enum Place {
    Local(u16),
    Constant(u16),
    /// In its own slot, but it is still to be paid for as a copied constant is.
    Reference,
    Own,
}

/// An operand that lay elsewhere than in its own slot when it was pushed.
struct Loose {
    height: usize,
    place: Place,
    /// The local that it was pushed as, with the one before it that was pushed as the same local.
    local: Option<u16>,
    before: usize,
}

/// Whether two lists of types are the same. Without an early end the comparison is one of vectors.
pub(crate) fn are_same(types: &[ValType], others: &[ValType]) -> bool {
    types.len() == others.len() && types.iter().zip(others).fold(true, |all, (ty, other)| all & (ty == other))
}

/// After a jump the type of an operand may be unknown.
#[derive(Default)]
pub(crate) struct Operands {
    types: Vec<Option<ValType>>,
    /// In the order of heights.
    loose: Vec<Loose>,
    /// For each local the last of `loose` that was pushed as it, and how many still lie in it.
    last: Vec<usize>,
    uses: Vec<u32>,
    /// How many lie in locals.
    lent: u32,
    /// How many operands there were at most.
    pub most: usize,
}

impl Operands {
    /// Begins a function with so many locals, which has no operands yet.
    pub fn begin(&mut self, locals: usize) {
        self.truncate(0);
        self.most = 0;
        self.last.resize(self.last.len().max(locals), 0);
        self.uses.resize(self.last.len(), 0);
    }

    pub fn len(&self) -> usize {
        self.types.len()
    }

    #[inline(always)]
    pub fn push(&mut self, ty: Option<ValType>, place: Place) {
        let (height, mut local, mut before) = (self.len(), None, 0);
        if let Place::Local(it) = place {
            local = Some(it);
            before = std::mem::replace(&mut self.last[usize::from(it)], self.loose.len());
            self.uses[usize::from(it)] += 1;
            self.lent += 1;
        }
        if place != Place::Own {
            self.loose.push(Loose { height, place, local, before });
        }
        self.types.push(ty);
        self.most = self.most.max(self.len());
    }

    /// Operands that lie in their own slots.
    pub fn push_all(&mut self, types: &[ValType]) {
        self.types.extend(types.iter().copied().map(Some));
        self.most = self.most.max(self.len());
    }

    /// Where the last one lies.
    #[inline(always)]
    pub fn place(&self) -> Place {
        self.loose.last().filter(|it| it.height + 1 == self.len()).map_or(Place::Own, |it| it.place)
    }

    /// The type of the last one, which is dropped.
    #[inline(always)]
    pub fn pop(&mut self) -> Option<ValType> {
        let ty = self.types.pop().flatten();
        if let Some(it) = self.loose.pop_if(|it| it.height >= self.types.len()) {
            self.forget(it);
        }
        ty
    }

    /// Drops those above a height.
    pub fn truncate(&mut self, height: usize) {
        self.own_from(height);
        self.types.truncate(height);
    }

    /// Those from a height on lie in their own slots.
    fn own_from(&mut self, height: usize) {
        while let Some(it) = self.loose.pop_if(|it| it.height >= height) {
            self.forget(it);
        }
    }

    #[inline(always)]
    fn forget(&mut self, Loose { place, local, before, .. }: Loose) {
        if let Some(local) = local {
            let is_lent = u32::from(place != Place::Own);
            self.last[usize::from(local)] = before;
            self.uses[usize::from(local)] -= is_lent;
            self.lent -= is_lent;
        }
    }

    /// Whether the last ones have these types, or are unknown. Those below the floor don't count.
    pub fn agree(&self, floor: usize, types: &[ValType]) -> bool {
        let count = types.len().min(self.len() - floor);
        let (found, wanted) = (&self.types[self.len() - count..], &types[types.len() - count..]);
        // As in `are_same`.
        found.iter().zip(wanted).fold(true, |all, (ty, wanted)| all & ty.is_none_or(|ty| ty == *wanted))
    }

    /// The last ones have these types.
    pub fn know(&mut self, types: &[ValType]) {
        let first = self.len() - types.len();
        self.types[first..].iter_mut().zip(types).for_each(|(ty, known)| *ty = Some(*known));
    }

    /// The last ones get slots of their own: the heights of those that have none, and where they lie.
    pub fn settle_last(&mut self, count: usize) -> Vec<(usize, Place)> {
        let height = self.len().saturating_sub(count);
        let first = self.loose.partition_point(|it| it.height < height);
        let settled = self.loose[first..].iter().filter(|it| it.place != Place::Own).map(|it| (it.height, it.place));
        let settled = settled.collect();
        self.own_from(height);
        settled
    }

    /// Whether some lie in a local, or in any.
    #[inline(always)]
    pub fn has_lent(&self, local: Option<u16>) -> bool {
        local.map_or(self.lent, |it| self.uses[usize::from(it)]) > 0
    }

    /// Those that lie in a local, or in any, get slots of their own: their heights, the greatest first, and where they lie.
    pub fn settle_locals(&mut self, local: Option<u16>) -> Vec<(usize, Place)> {
        let (mut settled, mut at) = (vec![], local.map_or(self.loose.len(), |it| self.last[usize::from(it)] + 1));
        while self.has_lent(local) {
            at -= 1;
            let it = &mut self.loose[at];
            if let Place::Local(lent) = it.place {
                settled.push((it.height, it.place));
                it.place = Place::Own;
                self.uses[usize::from(lent)] -= 1;
                self.lent -= 1;
            }
            if local.is_some() {
                at = it.before + 1;
            }
        }
        settled
    }
}
