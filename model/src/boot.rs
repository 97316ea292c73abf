//! The tables as they stand at boot.

use crate::calls::delegate;
use crate::layout::{
    CPUS, DOMAIN_PLACES, FRAMES, INTERRUPTS, OBJECTS, OBJECT_WIDTH, PLACE_WIDTH, SPACE_START,
};
use crate::status::{Reply, Status};
use crate::tables::{
    Capability, Domain, ObjectKind, ObjectRow, Place, PlaceRow, Selector, Space, Tables, FREE,
    IO_PERMISSIONS, MEMORY_PERMISSIONS, NULL_PLACE, OBJECT_PERMISSIONS, READ_PAGE, WRITE_PAGE,
};

/// The first object after the idle scheduling contexts and interrupt semaphores: the root PD.
pub const ROOT_PD: u32 = CPUS + INTERRUPTS;
pub const ROOT_EC: u32 = ROOT_PD + 1;
pub const ROOT_SC: u32 = ROOT_PD + 2;

/// Root selector of the root PD; the root EC and the root SC follow it.
pub const ROOT_SELECTOR: u32 = 32;

/// The page that tells the root about the machine: the last one.
pub const INFORMATION_PAGE: u32 = FRAMES - 1;

/// The page of the root EC's UTCB, just below the information page.
pub const UTCB_PAGE: u32 = INFORMATION_PAGE - 1;

/// The pages that domain 0 lends the root at boot, with the masks; the root has them at the
/// same selectors.
const LENT_PAGES: [(u32, u32); 2] = [
    (UTCB_PAGE, READ_PAGE | WRITE_PAGE),
    (INFORMATION_PAGE, READ_PAGE),
];

/// Places of domain 0.
pub const HYPERVISOR_PLACES: usize = DOMAIN_PLACES as usize;

/// The EC word of an idle scheduling context, which names no object.
const NO_EC: u32 = OBJECTS as u32;

const ROOT_PRIORITY: u32 = 1;
const ROOT_QUANTUM: u32 = 10_000;

/// The object records at boot.
pub const BOOT_OBJECTS: [ObjectRow; OBJECTS] = {
    let mut rows = [[FREE; OBJECT_WIDTH]; OBJECTS];
    let mut number = 0;
    while number < ROOT_PD {
        rows[number as usize] = if number < CPUS {
            [ObjectKind::Sc as u32, NO_EC, 0, 0, 0]
        } else {
            [ObjectKind::Sm as u32, 0, 0, 0, 0]
        };
        number += 1;
    }
    let root = Domain::ROOT.number();
    rows[ROOT_PD as usize] = [ObjectKind::Pd as u32, root, 0, 0, 0];
    rows[ROOT_EC as usize] = [ObjectKind::Ec as u32, root, 0, 0, 0];
    rows[ROOT_SC as usize] = [
        ObjectKind::Sc as u32,
        ROOT_EC,
        ROOT_PRIORITY,
        ROOT_QUANTUM,
        0,
    ];
    rows
};

/// Domain 0's places at boot: every page and port, and the objects before the root PD.
pub const BOOT_HYPERVISOR: [PlaceRow; HYPERVISOR_PLACES] = {
    let mut rows = [[0; PLACE_WIDTH]; HYPERVISOR_PLACES];
    let mut frame = 0;
    while frame < FRAMES {
        rows[(SPACE_START[0] + frame) as usize] = [frame, MEMORY_PERMISSIONS, 0, 0];
        rows[(SPACE_START[1] + frame) as usize] = [frame, IO_PERMISSIONS, 0, 0];
        frame += 1;
    }
    let mut number = 0;
    while number < ROOT_PD {
        let kind = BOOT_OBJECTS[number as usize][0];
        let permissions = OBJECT_PERMISSIONS[kind as usize];
        rows[(SPACE_START[2] + number) as usize] = [number, permissions, 0, 0];
        number += 1;
    }
    rows
};

/// Makes both tables those of boot, whatever they held; wrong lengths are damage.
pub fn boot(places: &mut [u32], objects: &mut [u32]) -> Reply {
    let Some(mut tables) = Tables::sized(places, objects) else {
        return Reply::refused(Status::Damaged);
    };
    tables.places.fill(NULL_PLACE);
    tables.places[..HYPERVISOR_PLACES].copy_from_slice(&BOOT_HYPERVISOR);
    tables.objects.copy_from_slice(&BOOT_OBJECTS);
    lend_pages(&mut tables);
    for (offset, kind) in [ObjectKind::Pd, ObjectKind::Ec, ObjectKind::Sc]
        .into_iter()
        .enumerate()
    {
        let offset = offset as u32;
        let selector = Selector::wrapped(ROOT_SELECTOR + offset, Space::Object);
        let capability = Capability {
            resource: ROOT_PD + offset,
            permissions: kind.greatest_permissions(),
            parent: None,
            depth: 0,
        };
        tables.fill(
            Place::new(Domain::ROOT, Space::Object, selector),
            capability,
        );
    }
    Reply::success(0)
}

/// Delegates the root's two pages from domain 0.
fn lend_pages(tables: &mut Tables) {
    for (page, mask) in LENT_PAGES {
        let selector = Selector::wrapped(page, Space::Memory);
        let [source, destination] = [Domain::HYPERVISOR, Domain::ROOT]
            .map(|domain| Place::new(domain, Space::Memory, selector));
        delegate(tables, source, destination, mask);
    }
}
