//! Laws over the turns and runs of a machine, besides those of `wasmi_machine::laws`, over its
//! meter and its indices, and over the tenants of a pool, in the order of the README: each function
//! does nothing, and states a law as its contract.

use crate::proved::machine::laws;
use crate::proved::meter::{Quota, ResourceLimiter};

/// A run can be cut at each place: what comes before it, of turns or of calls with the first
/// replies, is a run, and the rest is a run from where that ends. `wasmi_machine::laws::runs_join` is
/// the converse.
///
/// # Contract
///
/// ```text
/// ensures turns: RunsAreCut (optional_rules L.rules)
/// ensures calls: RunsOfCallsAreCut (optional_rules L.rules)
/// ```
///
/// Definitions: [`RunsAreCut`](crate::specs::laws::RunsSpecs#RunsAreCut), [`optional_rules`](crate::specs::meter::LimiterSpecs#optional_rules), [`RunsOfCallsAreCut`](crate::specs::laws::RunsSpecs#RunsOfCallsAreCut).
///
/// `L` is the type of the limiter, a [`ResourceLimiter`](crate::machine::ResourceLimiter#contract).
#[inline]
pub fn runs_are_cut<L: ResourceLimiter>() {}

/// No size shrinks in a run: a memory in bytes and a table in elements are afterwards at least what
/// they were at their index, as are the totals. One that was dropped counts with its last size.
///
/// # Contract
///
/// ```text
/// ensures sizes: SizesNeverShrink (optional_rules L.rules)
/// ensures totals: TotalsNeverShrink (optional_rules L.rules)
/// ```
///
/// Definitions: [`SizesNeverShrink`](crate::specs::laws::RunsSpecs#SizesNeverShrink), [`optional_rules`](crate::specs::meter::LimiterSpecs#optional_rules), [`TotalsNeverShrink`](crate::specs::laws::RunsSpecs#TotalsNeverShrink).
///
/// `L` is the type of the limiter, a [`ResourceLimiter`](crate::machine::ResourceLimiter#contract).
#[inline]
pub fn sizes_never_shrink<L: ResourceLimiter>() {}

/// A plain refusal changes neither the machine, nor its meter, nor the limiter: a trap, an index
/// that names nothing, an access past the end, another type, metering that is off, or no place for
/// a new slot (`IsPlainRefusal`). Nor does a run of such turns, nor any refusal of a call that
/// makes nothing and lets nothing grow, as one that lacks the fuel to write over a part of a table.
///
/// # Contract
///
/// ```text
/// ensures turn: PlainRefusalsChangeNothing (optional_rules L.rules)
/// ensures others: OtherRefusalsChangeNothing (optional_rules L.rules)
/// ensures run: PlainlyRefusedRunsChangeNothing (optional_rules L.rules)
/// ```
///
/// Definitions: [`PlainRefusalsChangeNothing`](crate::specs::laws::RunsSpecs#PlainRefusalsChangeNothing), [`optional_rules`](crate::specs::meter::LimiterSpecs#optional_rules), [`OtherRefusalsChangeNothing`](crate::specs::laws::RunsSpecs#OtherRefusalsChangeNothing), [`PlainlyRefusedRunsChangeNothing`](crate::specs::laws::RunsSpecs#PlainlyRefusedRunsChangeNothing).
///
/// `L` is the type of the limiter, a [`ResourceLimiter`](crate::machine::ResourceLimiter#contract).
#[inline]
pub fn plain_refusals_change_nothing<L: ResourceLimiter>() {}

/// Under a quota that holds what a machine has, and no more than its caps, the machine is within
/// these caps after each turn of a run, and not only at its end.
///
/// # Contract
///
/// ```text
/// ensures: CapsHoldInRuns
/// ```
///
/// Definitions: [`CapsHoldInRuns`](crate::specs::laws::RunsSpecs#CapsHoldInRuns).
#[inline]
pub fn caps_hold_in_runs() {
    laws::totals_are_held::<Quota>();
    laws::quotas_stay_within();
}

/// A run keeps the costs of its meter, and a meter that is on stays on, as one that is off stays
/// off. Calls that don't set the fuel leave no more of it than there was.
///
/// # Contract
///
/// ```text
/// ensures costs: CostsAreKept (optional_rules L.rules)
/// ensures switch: SwitchIsKept (optional_rules L.rules)
/// ensures fuel: FuelNeverRises (optional_rules L.rules)
/// ```
///
/// Definitions: [`CostsAreKept`](crate::specs::laws::RunsSpecs#CostsAreKept), [`optional_rules`](crate::specs::meter::LimiterSpecs#optional_rules), [`SwitchIsKept`](crate::specs::laws::RunsSpecs#SwitchIsKept), [`FuelNeverRises`](crate::specs::laws::RunsSpecs#FuelNeverRises).
///
/// `L` is the type of the limiter, a [`ResourceLimiter`](crate::machine::ResourceLimiter#contract).
#[inline]
pub fn meters_are_kept<L: ResourceLimiter>() {}

/// A run that never ran short of fuel is the same run with more fuel: the same replies, charges and
/// bytes, and the same machine, whose meter has that much more left. No call of it may set the fuel
/// or ask for it, no reply may say out of fuel, and the limiter accepts each notice.
///
/// # Contract
///
/// ```text
/// ensures: MoreFuelChangesNothing L.rules
/// ```
///
/// Definitions: [`MoreFuelChangesNothing`](crate::specs::laws::RunsSpecs#MoreFuelChangesNothing).
///
/// `L` is the type of the limiter, a [`ResourceLimiter`](crate::machine::ResourceLimiter#contract).
#[inline]
pub fn more_fuel_changes_nothing<L: ResourceLimiter>() {}

/// A call changes what is at one index at most: that of the memory, table, element segment, global
/// or register that it names for that (`changed_location`); one that makes something or only reads
/// changes none. So a run changes nothing at an index that none of its calls names for that.
///
/// # Contract
///
/// ```text
/// ensures turn: OthersStay (optional_rules L.rules)
/// ensures run: OthersStayInRuns (optional_rules L.rules)
/// ```
///
/// Definitions: [`OthersStay`](crate::specs::laws::PlacesSpecs#OthersStay), [`optional_rules`](crate::specs::meter::LimiterSpecs#optional_rules), [`OthersStayInRuns`](crate::specs::laws::PlacesSpecs#OthersStayInRuns).
///
/// `L` is the type of the limiter, a [`ResourceLimiter`](crate::machine::ResourceLimiter#contract).
#[inline]
pub fn others_stay<L: ResourceLimiter>() {}

/// What was made stays at the index of its making. A memory or a table keeps its type until it is
/// dropped, and then stays dropped, with its last size; an element segment keeps its type, and its
/// items until they are dropped; a global keeps its type, and a constant one its value.
///
/// A memory or a table is live until a call drops it.
///
/// # Contract
///
/// ```text
/// ensures later: IndicesLast (optional_rules L.rules)
/// ensures live: LiveUntilDropped (optional_rules L.rules)
/// ```
///
/// Definitions: [`IndicesLast`](crate::specs::laws::PlacesSpecs#IndicesLast), [`optional_rules`](crate::specs::meter::LimiterSpecs#optional_rules), [`LiveUntilDropped`](crate::specs::laws::PlacesSpecs#LiveUntilDropped).
///
/// `L` is the type of the limiter, a [`ResourceLimiter`](crate::machine::ResourceLimiter#contract).
#[inline]
pub fn indices_last<L: ResourceLimiter>() {}

/// A load without a sign returns the number that a store of as many bytes has written to the same
/// address of the same memory, cut to these bytes, whatever calls come between the two that may not
/// change this memory. An accepted store keeps all other bytes of the memory, and its size.
///
/// # Contract
///
/// ```text
/// ensures read: StoresAreReadBack (optional_rules L.rules)
/// ensures others: StoresKeepOtherBytes (optional_rules L.rules)
/// ```
///
/// Definitions: [`StoresAreReadBack`](crate::specs::laws::PlacesSpecs#StoresAreReadBack), [`optional_rules`](crate::specs::meter::LimiterSpecs#optional_rules), [`StoresKeepOtherBytes`](crate::specs::laws::PlacesSpecs#StoresKeepOtherBytes).
///
/// `L` is the type of the limiter, a [`ResourceLimiter`](crate::machine::ResourceLimiter#contract).
#[inline]
pub fn stores_are_read_back<L: ResourceLimiter>() {}

/// Two calls one after the other may be made in either order, if each acts on what is at indices
/// alone (`IsLocal`) and neither may change what the other may change or reads (`IsIndependent`):
/// both orders have the same replies, call by call, and lead to the same machine.
///
/// # Contract
///
/// ```text
/// ensures: IndependentTurnsSwap (optional_rules L.rules)
/// ```
///
/// Definitions: [`IndependentTurnsSwap`](crate::specs::laws::PlacesSpecs#IndependentTurnsSwap), [`optional_rules`](crate::specs::meter::LimiterSpecs#optional_rules).
///
/// `L` is the type of the limiter, a [`ResourceLimiter`](crate::machine::ResourceLimiter#contract).
#[inline]
pub fn independent_calls_commute<L: ResourceLimiter>() {}

/// A memory or a table that a host keeps by itself, as in a header and a region, does what the
/// machine's does that has the same one at an index: it grows with the same reply and leaves the
/// same, and the bytes of a memory are read and written alike.
///
/// # Contract
///
/// ```text
/// ensures memories_grow: MemoriesGrowAlike (optional_rules L.rules)
/// ensures tables_grow: TablesGrowAlike (optional_rules L.rules)
/// ensures memories_read: MemoriesReadAlike (optional_rules L.rules)
/// ensures memories_write: MemoriesWriteAlike (optional_rules L.rules)
/// ```
///
/// Definitions: [`MemoriesGrowAlike`](crate::specs::laws::PlacesSpecs#MemoriesGrowAlike), [`optional_rules`](crate::specs::meter::LimiterSpecs#optional_rules), [`TablesGrowAlike`](crate::specs::laws::PlacesSpecs#TablesGrowAlike), [`MemoriesReadAlike`](crate::specs::laws::PlacesSpecs#MemoriesReadAlike), [`MemoriesWriteAlike`](crate::specs::laws::PlacesSpecs#MemoriesWriteAlike).
///
/// `L` is the type of the limiter, a [`ResourceLimiter`](crate::machine::ResourceLimiter#contract).
#[inline]
pub fn machines_do_alike<L: ResourceLimiter>() {}

/// The reply to a call that needs no memory but what was reserved doesn't say out of memory
/// (`NeedsNoMemory`): it makes nothing, or a memory in the spare region, a global or a segment of
/// nothing in a slot that is reserved; a memory that it grows lies in a lent region, and a table
/// that it grows has the elements reserved; and it reads no byte.
///
/// Nor does any reply to a list of such calls, if each memory that they grow lies in a lent region
/// at first, each table that they grow is reserved up to its maximum, and as many slots of each kind
/// are reserved and free as the list takes (`IsReservedFor`): what is asked is known before the
/// first call. With as many more slots reserved as the list takes, enough slots are (`FitsSlots`).
///
/// # Contract
///
/// ```text
/// ensures turn: ReservedCallsSucceed (optional_rules L.rules)
/// ensures run: ReservedRunsSucceed (optional_rules L.rules)
/// ensures slots: SlotsSuffice
/// ```
///
/// Definitions: [`ReservedCallsSucceed`](crate::specs::laws::ReservedSpecs#ReservedCallsSucceed), [`optional_rules`](crate::specs::meter::LimiterSpecs#optional_rules), [`ReservedRunsSucceed`](crate::specs::laws::ReservedSpecs#ReservedRunsSucceed), [`SlotsSuffice`](crate::specs::laws::ReservedSpecs#SlotsSuffice).
///
/// `L` is the type of the limiter, a [`ResourceLimiter`](crate::machine::ResourceLimiter#contract).
#[inline]
pub fn reserved_suffices<L: ResourceLimiter>() {}

/// No reply to a tenant's calls says out of memory, in however many runs they are made, if its
/// machine has reserved what all of them need at first, as `reserved_suffices` says, whatever the
/// other tenants do in between, and whatever else is reserved, made or removed. So it is after
/// `Pool::reserve` of as many more slots as the calls take (`FitsSlots`).
///
/// # Contract
///
/// ```text
/// ensures runs: ReservedTenantsSucceed
/// ensures slots: SlotsSufficeForTenants
/// ```
///
/// Definitions: [`ReservedTenantsSucceed`](crate::specs::laws::ReservedPoolsSpecs#ReservedTenantsSucceed), [`SlotsSufficeForTenants`](crate::specs::laws::ReservedPoolsSpecs#SlotsSufficeForTenants).
#[inline]
pub fn reserved_tenants_suffice() {}
