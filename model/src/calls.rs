//! The hypercalls, each check in the order that the interface manual
//! (docs/INTERFACE.md) gives it.

use crate::descent::{descendants, PlaceSet};
use crate::descriptor::{Descriptor, Malformed, Range};
use crate::layout::{CPUS, DEPTH_LIMIT};
use crate::message;
use crate::status::{Reply, Status};
use crate::tables::{
    capability, Capability, Domain, Object, ObjectKind, Place, PlaceTable, Selector, Space, Tables,
    BIND_PT, BIND_SC,
};

/// Arguments of a hypercall after the caller, in journal order; unused ones are not read.
pub type Arguments = [u32; 6];

/// The hypercalls that are built; the numbers are the interface's.
#[derive(Clone, Copy, PartialEq, Eq, Debug)]
#[repr(u32)]
pub enum Hypercall {
    Call = 0,
    CreatePd = 2,
    CreateEc = 3,
    CreateSc = 4,
    CreatePt = 5,
    CreateSm = 6,
    Revoke = 7,
    Lookup = 8,
    SmCtrl = 11,
}

impl Hypercall {
    pub const ALL: [Hypercall; 9] = [
        Hypercall::Call,
        Hypercall::CreatePd,
        Hypercall::CreateEc,
        Hypercall::CreateSc,
        Hypercall::CreatePt,
        Hypercall::CreateSm,
        Hypercall::Revoke,
        Hypercall::Lookup,
        Hypercall::SmCtrl,
    ];

    pub const fn from_number(number: u32) -> Option<Hypercall> {
        Some(match number {
            0 => Hypercall::Call,
            2 => Hypercall::CreatePd,
            3 => Hypercall::CreateEc,
            4 => Hypercall::CreateSc,
            5 => Hypercall::CreatePt,
            6 => Hypercall::CreateSm,
            7 => Hypercall::Revoke,
            8 => Hypercall::Lookup,
            11 => Hypercall::SmCtrl,
            _ => return None,
        })
    }

    pub const fn number(self) -> u32 {
        self as u32
    }
}

/// The execution context that makes a call.
#[derive(Clone, Copy)]
pub(crate) struct Caller {
    pub object: Object,
    pub domain: Domain,
    pub cpu: u32,
}

/// Runs a hypercall. Only CALL reads the source block or writes the target block.
pub fn hypercall(
    number: u32,
    caller: u32,
    arguments: Arguments,
    places: &mut [u32],
    objects: &mut [u32],
    source: &[u32],
    target: &mut [u32],
) -> Reply {
    match Tables::sound(places, objects) {
        Some(tables) => serve(number, caller, arguments, tables, source, target),
        None => Reply::refused(Status::Damaged),
    }
}

/// Runs a hypercall on tables that are known to be sound: what `hypercall` does after its damage test.
pub fn serve(
    number: u32,
    caller: u32,
    arguments: Arguments,
    mut tables: Tables,
    source: &[u32],
    target: &mut [u32],
) -> Reply {
    dispatch(number, caller, arguments, &mut tables, source, target).into()
}

fn dispatch(
    number: u32,
    caller: u32,
    arguments: Arguments,
    tables: &mut Tables,
    source: &[u32],
    target: &mut [u32],
) -> Result<u32, Status> {
    let hypercall = Hypercall::from_number(number).ok_or(Status::BadHyp)?;
    let caller = Object::new(caller)
        .and_then(|object| execution_context(tables, object))
        .ok_or(Status::BadCaller)?;
    let domain = caller.domain;
    let [a, b, c, d, e, f] = arguments;
    match hypercall {
        Hypercall::Call => message::call(tables, caller, a, source, target),
        Hypercall::CreatePd => create_pd(tables, domain, a, b, c),
        Hypercall::CreateEc => create_ec(tables, domain, a, b, c, d),
        Hypercall::CreateSc => create_sc(tables, domain, a, b, c, d),
        Hypercall::CreatePt => create_pt(tables, domain, a, b, c, [d, e, f]),
        Hypercall::CreateSm => create_sm(tables, domain, a, b, c),
        Hypercall::Revoke => revoke(tables, domain, a, b),
        Hypercall::Lookup => lookup(tables.places, domain, a),
        Hypercall::SmCtrl => sm_ctrl(tables, domain, a, b),
    }
}

pub(crate) fn execution_context(tables: &Tables, object: Object) -> Option<Caller> {
    let [domain, cpu, ..] = tables.object(object, ObjectKind::Ec)?;
    Some(Caller {
        object,
        domain: Domain::new(domain)?,
        cpu,
    })
}

impl From<Malformed> for Status {
    fn from(_: Malformed) -> Status {
        Status::BadPar
    }
}

/// The checks that every creation starts with: the new place and the domain of the named PD.
fn creation(
    tables: &Tables,
    domain: Domain,
    new: u32,
    pd: u32,
    kind: ObjectKind,
) -> Result<(Place, Domain), Status> {
    let place = Place::new(domain, Space::Object, Selector::wrapped(new, Space::Object));
    if !tables.is_null(place) {
        return Err(Status::BadCap);
    }
    let (_, [number, ..]) = tables
        .named(domain, pd, ObjectKind::Pd, kind.create_permission())
        .ok_or(Status::BadCap)?;
    Ok((place, Domain::new(number).ok_or(Status::BadCap)?))
}

/// The execution context that a selector names with a bind permission.
fn bound(tables: &Tables, domain: Domain, ec: u32, permission: u32) -> Result<u32, Status> {
    let (object, _) = tables
        .named(domain, ec, ObjectKind::Ec, permission)
        .ok_or(Status::BadCap)?;
    Ok(object.number())
}

/// Stores a new object in a free record and its first capability in a null place.
fn store(tables: &mut Tables, place: Place, object: Object, kind: ObjectKind, words: [u32; 4]) {
    tables.set_object(object, kind, words);
    let capability = Capability {
        resource: object.number(),
        permissions: kind.greatest_permissions(),
        parent: None,
        depth: 0,
    };
    tables.fill(place, capability);
}

fn create_pd(
    tables: &mut Tables,
    domain: Domain,
    new: u32,
    pd: u32,
    initial: u32,
) -> Result<u32, Status> {
    let (place, _) = creation(tables, domain, new, pd, ObjectKind::Pd)?;
    let initial = Descriptor::from_word(initial).range()?;
    if initial.is_some_and(|range| range.space != Space::Object) {
        return Err(Status::BadPar);
    }
    let object = tables.free_object().ok_or(Status::NoRoom)?;
    let created = tables.next_domain().ok_or(Status::NoRoom)?;
    // The initial range goes first, so the new capability is not part of it.
    if let Some(range) = initial {
        delegate_range(tables, domain, range, created, range, range.mask);
    }
    store(
        tables,
        place,
        object,
        ObjectKind::Pd,
        [created.number(), 0, 0, 0],
    );
    Ok(0)
}

fn create_ec(
    tables: &mut Tables,
    domain: Domain,
    new: u32,
    pd: u32,
    cpu: u32,
    event_base: u32,
) -> Result<u32, Status> {
    let (place, joined) = creation(tables, domain, new, pd, ObjectKind::Ec)?;
    if cpu >= CPUS {
        return Err(Status::BadCpu);
    }
    let object = tables.free_object().ok_or(Status::NoRoom)?;
    let event_base = Selector::wrapped(event_base, Space::Object).number();
    store(
        tables,
        place,
        object,
        ObjectKind::Ec,
        [joined.number(), cpu, event_base, 0],
    );
    Ok(0)
}

fn create_sc(
    tables: &mut Tables,
    domain: Domain,
    new: u32,
    pd: u32,
    ec: u32,
    qpd: u32,
) -> Result<u32, Status> {
    let (place, _) = creation(tables, domain, new, pd, ObjectKind::Sc)?;
    let ec = bound(tables, domain, ec, BIND_SC)?;
    let (priority, quantum) = (qpd & 0xff, qpd >> 12);
    if priority == 0 || quantum == 0 {
        return Err(Status::BadPar);
    }
    let object = tables.free_object().ok_or(Status::NoRoom)?;
    store(
        tables,
        place,
        object,
        ObjectKind::Sc,
        [ec, priority, quantum, 0],
    );
    Ok(0)
}

fn create_pt(
    tables: &mut Tables,
    domain: Domain,
    new: u32,
    pd: u32,
    ec: u32,
    [mtd, ip, identifier]: [u32; 3],
) -> Result<u32, Status> {
    let (place, _) = creation(tables, domain, new, pd, ObjectKind::Pt)?;
    let ec = bound(tables, domain, ec, BIND_PT)?;
    let object = tables.free_object().ok_or(Status::NoRoom)?;
    store(
        tables,
        place,
        object,
        ObjectKind::Pt,
        [ec, mtd, ip, identifier],
    );
    Ok(0)
}

fn create_sm(
    tables: &mut Tables,
    domain: Domain,
    new: u32,
    pd: u32,
    count: u32,
) -> Result<u32, Status> {
    let (place, _) = creation(tables, domain, new, pd, ObjectKind::Sm)?;
    let object = tables.free_object().ok_or(Status::NoRoom)?;
    store(tables, place, object, ObjectKind::Sm, [count, 0, 0, 0]);
    Ok(0)
}

/// Delegates one place to another; says whether the destination was filled.
pub(crate) fn delegate(tables: &mut Tables, source: Place, destination: Place, mask: u32) -> bool {
    let Some(held) = tables.capability(source) else {
        return false;
    };
    let permissions = held.permissions & mask;
    if held.depth >= DEPTH_LIMIT || permissions == 0 || !tables.is_null(destination) {
        return false;
    }
    let capability = Capability {
        resource: held.resource,
        permissions,
        parent: Some(source),
        depth: held.depth + 1,
    };
    tables.fill(destination, capability);
    true
}

/// Delegates offset by offset between ranges of one order; counts the places filled.
pub(crate) fn delegate_range(
    tables: &mut Tables,
    source_domain: Domain,
    source: Range,
    target_domain: Domain,
    target: Range,
    mask: u32,
) -> u32 {
    let pairs = source
        .places(source_domain)
        .zip(target.places(target_domain));
    pairs
        .map(|(from, to)| u32::from(delegate(tables, from, to, mask)))
        .sum()
}

fn revoke(
    tables: &mut Tables,
    domain: Domain,
    descriptor: u32,
    self_word: u32,
) -> Result<u32, Status> {
    if self_word > 1 {
        return Err(Status::BadPar);
    }
    let Some(range) = Descriptor::from_word(descriptor).range()? else {
        return Ok(0);
    };
    // No capability of the space has a permission of such a mask.
    if range.mask & range.space.greatest_permissions() == 0 {
        return Err(Status::BadPar);
    }
    // All descendants are found before any place changes.
    let origins = PlaceSet::from_iter(range.places(domain));
    let heirs = descendants(tables.places, &origins, range.space);
    for place in heirs.iter() {
        tables.remove(place, range.mask);
    }
    if self_word == 1 {
        // Removing twice is removing once, so places that are heirs too do no harm.
        for place in range.places(domain) {
            tables.remove(place, range.mask);
        }
    }
    Ok(0)
}

fn lookup(places: &PlaceTable, domain: Domain, descriptor: u32) -> Result<u32, Status> {
    let Some(named) = Descriptor::from_word(descriptor).range()? else {
        return Ok(0);
    };
    let space = named.space;
    let at = |selector: u32| {
        capability(
            places,
            Place::new(domain, space, Selector::wrapped(selector, space)),
        )
    };
    let base = named.base.number();
    let Some(held) = at(base) else {
        return Ok(0);
    };
    // A run is doubled while its other half continues it.
    let continues = |selector: u32| {
        at(selector).is_some_and(|other| {
            let rise = selector.wrapping_sub(base);
            other.permissions == held.permissions
                && other.resource == held.resource.wrapping_add(rise)
        })
    };
    let (mut start, mut order) = (base, 0);
    while order < space.order_limit() {
        let other_half = start ^ (1 << order);
        if !(other_half..other_half + (1 << order)).all(continues) {
            break;
        }
        start = start.min(other_half);
        order += 1;
    }
    Ok(Descriptor::new(space, start, order, held.permissions).word())
}

fn sm_ctrl(
    tables: &mut Tables,
    domain: Domain,
    selector: u32,
    operation: u32,
) -> Result<u32, Status> {
    if operation > 1 {
        return Err(Status::BadPar);
    }
    let (object, [count, ..]) = tables
        .named(domain, selector, ObjectKind::Sm, 1 << operation)
        .ok_or(Status::BadCap)?;
    let count = if operation == 0 {
        count.checked_add(1).ok_or(Status::BadPar)?
    } else {
        count.checked_sub(1).ok_or(Status::ComTim)?
    };
    tables.set_object(object, ObjectKind::Sm, [count, 0, 0, 0]);
    Ok(0)
}
