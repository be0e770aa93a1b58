//! `Table` and `ElementSegment`.
use super::memories::pairs;
use super::model::{ANSWERS, Asked, EDGES, Heard, Meter, Source, ask, tell, with_each, write};
use wasmi_core_proved::{
    ElementSegment, ElementSegmentRef, RawRef, RefType, ResourceLimiterRef, Table, TableError,
    TableType, TypedRawRef,
};

pub const REFUSED: TableError = TableError::GrowOutOfBounds;
pub const DENIED: TableError = TableError::ResourceLimiterDeniedAllocation;
const MISMATCH: TableError = TableError::ElementTypeMismatch;

pub fn unpaid(required_fuel: u64) -> TableError {
    TableError::OutOfFuel { required_fuel }
}

pub const KINDS: [RefType; 2] = [RefType::Func, RefType::Extern];

/// The references of a table of a type.
#[derive(Clone, Debug)]
pub struct Model {
    pub ty: TableType,
    pub items: Vec<u32>,
    /// The references for which there is room, if they lie in a region.
    pub room: Option<usize>,
}

impl Model {
    fn most(&self) -> Option<usize> {
        self.ty.maximum().map(|most| most as usize)
    }

    pub fn new(
        ty: TableType,
        item: u32,
        room: Option<usize>,
        limiter: &mut Asked,
    ) -> Result<Self, TableError> {
        let mut model = Model {
            ty,
            items: Vec::new(),
            room,
        };
        let size = ty.minimum() as usize;
        ask(limiter, Heard::Table(0, size, model.most()), DENIED, DENIED)?;
        if room.is_some_and(|room| room < size) {
            let error = TableError::OutOfSystemMemory;
            return tell(limiter, Heard::TableFailed(error), error, DENIED);
        }
        model.items = vec![item; size];
        Ok(model)
    }

    pub fn grow(
        &mut self,
        more: u64,
        item: u32,
        meter: Option<&mut Meter>,
        limiter: &mut Asked,
    ) -> Result<u64, TableError> {
        let old = self.items.len() as u64;
        if more == 0 {
            return Ok(old);
        }
        let desired = old
            .checked_add(more)
            .filter(|&desired| desired < 1 << 32)
            .ok_or(REFUSED)? as usize;
        ask(
            limiter,
            Heard::Table(old as usize, desired, self.most()),
            REFUSED,
            DENIED,
        )?;
        let paid = if self.most().is_some_and(|most| desired > most) {
            Err(REFUSED)
        } else {
            meter
                .map_or(Ok(()), |meter| meter.pay(4 * more))
                .map_err(unpaid)
        };
        let has_room = self.room.is_none_or(|room| desired <= room);
        if let Err(error) = paid.and(has_room.then_some(()).ok_or(TableError::OutOfSystemMemory)) {
            return tell(limiter, Heard::TableFailed(error), error, DENIED);
        }
        self.items.resize(desired, item);
        Ok(old)
    }
}

type Seen = (Vec<Option<TypedRawRef>>, u64, TableType, TableType);

fn seen(table: &Table) -> Seen {
    let items = (0..table.size() + 2)
        .map(|index| table.get(index))
        .collect();
    (items, table.size(), table.ty(), table.dynamic_ty())
}

fn seen_of(model: &Model) -> Seen {
    let (ty, size) = (model.ty, model.items.len() as u32);
    let items = model
        .items
        .iter()
        .map(|&item| Some(of(item, ty.element())))
        .chain([None; 2])
        .collect();
    let now = TableType::new(ty.element(), size, ty.maximum().map(|most| most as u32));
    (items, size.into(), ty, now)
}

fn of(item: u32, kind: RefType) -> TypedRawRef {
    TypedRawRef::new(RawRef::from(item), kind)
}

fn types() -> [TableType; 4] {
    [
        TableType::new(RefType::Func, 4, Some(9)),
        TableType::new(RefType::Extern, 4, None),
        TableType::new(RefType::Func, 0, Some(2)),
        TableType::new(RefType::Extern, 2, Some(2)),
    ]
}

fn nobody() -> ResourceLimiterRef<'static> {
    ResourceLimiterRef::default()
}

/// A table of the references 1, 2, 3, 4, and its model.
fn filled(kind: RefType) -> (Table, Model) {
    let ty = TableType::new(kind, 4, Some(9));
    let mut table = Table::new(ty, of(0, kind), &mut nobody()).expect("a table");
    for index in 0..4 {
        table
            .set_raw(index, RawRef::from(index as u32 + 1))
            .expect("an element");
    }
    (
        table,
        Model {
            ty,
            items: vec![1, 2, 3, 4],
            room: None,
        },
    )
}

/// The result where a reference has the type of a table, and else the error.
fn matching<T>(
    ty: TableType,
    kind: RefType,
    result: impl FnOnce() -> Result<T, TableError>,
) -> Result<T, TableError> {
    if ty.element() == kind {
        result()
    } else {
        Err(MISMATCH)
    }
}

#[test]
fn creations() {
    for (ty, kind) in types()
        .into_iter()
        .flat_map(|ty| KINDS.map(|kind| (ty, kind)))
    {
        with_each(
            (ty, kind),
            &ANSWERS,
            |_, limiter| Table::new(ty, of(7, kind), limiter).map(|it| seen(&it)),
            |_, asked| matching(ty, kind, || Model::new(ty, 7, None, asked)).map(|it| seen_of(&it)),
        );
    }
}

#[test]
fn growths() {
    for (ty, more) in types()
        .into_iter()
        .flat_map(|ty| [0, 1, 2, 5, 6, (1 << 32) - 4, 1 << 32, u64::MAX].map(|more| (ty, more)))
    {
        let made = || Table::new(ty, of(7, ty.element()), &mut nobody()).expect("a table");
        let model = || Model::new(ty, 7, None, &mut None).expect("a table");
        with_each(
            ("grow_raw", ty, more),
            &ANSWERS,
            |fuel, limiter| {
                let mut table = made();
                (
                    table.grow_raw(more, RawRef::from(8), fuel, limiter),
                    seen(&table),
                )
            },
            |meter, asked| {
                let mut model = model();
                (model.grow(more, 8, meter, asked), seen_of(&model))
            },
        );
        for kind in KINDS {
            with_each(
                ("grow", ty, more, kind),
                &ANSWERS,
                |fuel, limiter| {
                    let mut table = made();
                    (table.grow(more, of(8, kind), fuel, limiter), seen(&table))
                },
                |meter, asked| {
                    let mut model = model();
                    (
                        matching(ty, kind, || model.grow(more, 8, meter, asked)),
                        seen_of(&model),
                    )
                },
            );
        }
    }
}

/// A call on a table of functions and on its model, with each meter.
macro_rules! calls {
    ($what:expr; $table:ident, $fuel:ident => $call:expr; $model:ident, $meter:ident => $expected:expr) => {
        with_each(
            $what,
            &[None],
            |$fuel, _| {
                let (mut $table, _) = filled(RefType::Func);
                ($call, seen(&$table))
            },
            |$meter, _| {
                let (_, mut $model) = filled(RefType::Func);
                ($expected, seen_of(&$model))
            },
        )
    };
}

#[test]
fn fillings() {
    let outside = TableError::FillOutOfBounds;
    for (dst, len) in pairs() {
        calls!(("fill_raw", dst, len);
            table, fuel => table.fill_raw(dst, RawRef::from(9), len, fuel);
            model, meter => write(&mut model.items, dst, len, Source::Filled(9), meter, outside, unpaid));
        for kind in KINDS {
            calls!(("fill", dst, len, kind);
            table, fuel => table.fill(dst, of(9, kind), len, fuel);
            model, meter => matching(model.ty, kind, || {
                write(&mut model.items, dst, len, Source::Filled(9), meter, outside, unpaid)
            }));
        }
    }
}

#[test]
fn copies() {
    let outside = TableError::CopyOutOfBounds;
    let others = KINDS.map(|kind| filled(kind).0);
    for ((dst, src), len) in pairs().flat_map(|pair| EDGES.map(|len| (pair, len))) {
        calls!(("copy_within", dst, src, len);
            table, fuel => table.copy_within(dst, src, len, fuel);
            model, meter => write(&mut model.items.clone(), dst, len, Source::Items(&model.items, src), meter, outside, unpaid)
                .map(|()| model.items.copy_within(src as usize..(src + len) as usize, dst as usize)));
        for (other, kind) in others.iter().zip(KINDS) {
            calls!(("copy", dst, src, len, kind);
            table, fuel => {
                table.fill_raw(0, RawRef::from(9), 4, None).expect("filled");
                Table::copy(&mut table, dst, other, src, len, fuel)
            };
            model, meter => {
                model.items.fill(9);
                let items = Source::Items(&[1, 2, 3, 4], src);
                matching(model.ty, kind, || write(&mut model.items, dst, len, items, meter, outside, unpaid))
            });
        }
    }
}

#[test]
fn initializations() {
    let outside = TableError::InitOutOfBounds;
    // Long enough for a source whose low 16 bits are those of another.
    let items: Vec<u32> = (1..65_541).collect();
    let segments =
        KINDS.map(|kind| ElementSegment::new(kind, items.iter().map(|&item| RawRef::from(item))));
    for (dst, (src, len)) in EDGES
        .into_iter()
        .flat_map(|dst| pairs().map(move |pair| (dst, pair)))
    {
        let [Ok(src), Ok(len)] = [u32::try_from(src), u32::try_from(len)] else {
            continue;
        };
        for (segment, kind) in segments.iter().zip(KINDS) {
            calls!(("init", dst, src, len, kind);
            table, fuel => table.init(segment.as_ref(), dst, src, len, fuel);
            model, meter => matching(model.ty, kind, || {
                // Nothing is taken for no items.
                let meter = meter.filter(|_| len > 0);
                write(&mut model.items, dst, len.into(), Source::Items(&items, src.into()), meter, outside, unpaid)
            }));
        }
    }
}

#[test]
fn elements() {
    for (index, kind) in EDGES
        .into_iter()
        .flat_map(|index| KINDS.map(|kind| (index, kind)))
    {
        let (mut table, mut model) = filled(RefType::Func);
        let place = usize::try_from(index)
            .ok()
            .and_then(|index| model.items.get_mut(index));
        let is_set = place
            .map(|item| *item = 9)
            .ok_or(TableError::SetOutOfBounds);
        assert_eq!(table.get(index).is_some(), is_set.is_ok(), "get {index}");
        assert_eq!(
            table.set(index, of(9, kind)),
            matching(model.ty, kind, || is_set),
            "set {index} {kind:?}"
        );
        assert_eq!(
            table.set_raw(index, RawRef::from(9)),
            is_set,
            "set_raw {index}"
        );
        assert_eq!(seen(&table), seen_of(&model), "set {index}");
    }
}

#[test]
fn segments() {
    for (kind, count) in KINDS
        .into_iter()
        .flat_map(|kind| [0, 1, 2, 100].map(|count| (kind, count)))
    {
        let items: Vec<RawRef> = (1..=count).map(RawRef::from).collect();
        let mut segment = ElementSegment::new(kind, items.clone());
        let read =
            |segment: &ElementSegment| (segment.ty(), segment.items().to_vec(), segment.size());
        let read_ref = |it: ElementSegmentRef<'_>| (it.ty(), it.items().to_vec(), it.size());
        let expected = (kind, items, count);
        assert_eq!(read(&segment), expected);
        assert_eq!(read_ref(segment.as_ref()), expected);
        assert_eq!(read_ref(ElementSegmentRef::from(&segment)), expected);
        segment.drop_items();
        assert_eq!(read(&segment), (kind, Vec::new(), 0));
    }
}

/// So many references, one `None`, after which nothing may be read, and what is said of their number.
struct Said {
    count: u32,
    read: u32,
    said: (usize, Option<usize>),
}

impl Iterator for Said {
    type Item = RawRef;

    fn next(&mut self) -> Option<RawRef> {
        self.read += 1;
        assert!(self.read <= self.count + 1, "read past the end");
        (self.read <= self.count).then_some(RawRef::from(self.read))
    }

    fn size_hint(&self) -> (usize, Option<usize>) {
        self.said
    }
}

#[test]
fn segments_have_all_items_up_to_the_first_none_whatever_is_said() {
    let most = u32::MAX as usize;
    for count in [0, 1, 3, 5, 9] {
        for said in [
            (0, None),
            (0, Some(0)),
            (0, Some(most)),
            (0, Some(usize::MAX)),
            (3, Some(3)),
            (9, None),
            (9, Some(9)),
        ] {
            let items = Said {
                count,
                read: 0,
                said,
            };
            let segment = ElementSegment::new(RefType::Func, items);
            let expected: Vec<RawRef> = (1..=count).map(RawRef::from).collect();
            assert_eq!(segment.items(), expected, "{count} {said:?}");
        }
    }
    // No room is made for what is said before there is an item.
    let items = Said {
        count: 0,
        read: 0,
        said: (most, Some(most)),
    };
    assert_eq!(ElementSegment::new(RefType::Func, items).size(), 0);
}

#[test]
#[should_panic = "element segment has too many items"]
#[cfg(target_pointer_width = "64")]
fn too_many_items_by_what_is_said_are_refused_unread() {
    let items = Said {
        count: 0,
        read: 1,
        said: (1 << 32, None),
    };
    ElementSegment::new(RefType::Func, items);
}

/// The texts of a table and of an element segment have the type and the size, and nothing of the references.
#[test]
fn debug_texts() {
    for kind in KINDS {
        let [one, other] = [171, 172].map(|item| {
            let table = Table::new(TableType::new(kind, 2, None), of(item, kind), &mut nobody());
            let segment = ElementSegment::new(kind, [RawRef::from(item), RawRef::from(0)]);
            (
                format!("{:?}", table.expect("a table")),
                format!("{segment:?}"),
            )
        });
        assert!(one.0.starts_with("Table { ty: ") && one.0.ends_with(", size: 2, .. }"));
        assert!(one.1.starts_with("ElementSegment { ty: ") && one.1.ends_with(", size: 2, .. }"));
        assert_eq!(one, other);
    }
}
