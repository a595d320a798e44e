//! The heap, its lists, and the services that read and write them (docs/SERVICES.md, docs/HEAP.md).
//! The bytes of the HOB list are kept up to its end; behind it the heap is zeros. Beside them stand vectors and maps.
use crate::bytes::*;
use crate::catalog::Catalog;
use crate::guids::MEMORY;
use crate::out::{Halt, Out};
use crate::plan::{Plan, Span};
use crate::put;
use crate::rules::rules;
use crate::script::Status;
use std::collections::{HashMap, VecDeque};
use std::hash::Hash;

pub const PPI: u8 = 0;
pub const CALLBACK: u8 = 1;
pub const DISPATCH: u8 = 2;
pub const CORE: u32 = 0xFFFF_FFFF;
const PAGE: u64 = 4_096;
const HANDOFF_LEN: usize = 56;
const NODE_LEN: usize = 32;
/// What a node costs, with its HOB's header.
const NODE_COST: u64 = 40;
const MOST_POOL: u32 = 65_520;

pub struct Desc {
    pub kind: u8,
    pub guid: Guid,
    /// Where the GUID stands, if not behind the descriptor.
    guid_at: Option<u64>,
    /// A PPI's value; module * 64 + block of a notification.
    pub number: u64,
    /// The offset of its bytes from the heap's base.
    pub place: usize,
}

#[derive(Clone, Copy)]
pub struct Entry {
    node: usize,
    pub desc: usize,
    pub by: u32,
}

#[derive(Clone, Copy)]
pub struct Pending {
    node: usize,
    pub desc: usize,
    pub ppi: usize,
}

/// From a key to the numbers under it, in order.
pub struct Index<K>(HashMap<K, Vec<usize>>);

impl<K: Hash + Eq> Index<K> {
    fn new() -> Self {
        Index(HashMap::new())
    }

    pub fn of(&self, key: &K) -> &[usize] {
        self.0.get(key).map_or(&[], Vec::as_slice)
    }

    fn add(&mut self, key: K, number: usize) {
        let list = self.0.entry(key).or_default();
        let at = list.partition_point(|other| *other < number);
        list.insert(at, number);
    }

    fn remove(&mut self, key: &K, number: usize) {
        let list = self.0.get_mut(key).unwrap();
        list.retain(|other| *other != number);
    }

    /// The first number under the key from a number on.
    pub fn next(&self, key: &K, from: usize) -> Option<usize> {
        let list = self.of(key);
        list.get(list.partition_point(|number| *number < from)).copied()
    }
}

/// The pairs that a call has still to visit: PPI by PPI, and for each the callbacks from `least` to `most`.
pub struct Sweep {
    first_ppi: usize,
    ppi: usize,
    last_ppi: usize,
    callback: usize,
    least: usize,
    most: usize,
}

impl Sweep {
    /// The first PPI that is still to be visited.
    pub fn first(&self) -> usize {
        self.ppi
    }
}

/// EDK2's ranges of dispatch notifications and PPIs: new notifications meet the PPIs that were there, and new PPIs the notifications.
#[derive(Clone, Copy, Default)]
struct Walk {
    seen_ppis: usize,
    seen_notifications: usize,
    /// What is walked over: from where to where, and at which pair.
    ppis: (usize, usize),
    notifications: (usize, usize),
    ppi: usize,
    /// What counts as seen when the walk ends.
    then: (usize, usize),
    /// The last walk was one of new PPIs: these go on until there are none.
    is_of_ppis: bool,
}

impl Walk {
    fn next(&mut self, ppis: &[Entry], notifications: &[Entry], descs: &[Desc]) -> Option<(usize, usize)> {
        while self.notifications.0 < self.notifications.1 {
            let notification = notifications[self.notifications.0].desc;
            while self.ppi < self.ppis.1 {
                let ppi = ppis[self.ppi].desc;
                self.ppi += 1;
                if descs[ppi].guid == descs[notification].guid {
                    return Some((ppi, notification));
                }
            }
            (self.ppi, self.notifications.0) = (self.ppis.0, self.notifications.0 + 1);
        }
        (self.seen_ppis, self.seen_notifications) = self.then;
        None
    }

    /// Begins the next walk; false where nothing is new.
    fn begin(&mut self, ppis: usize, notifications: usize) -> bool {
        let (is_notified, is_installed) = (self.seen_notifications < notifications, self.seen_ppis < ppis);
        self.is_of_ppis = is_installed && (self.is_of_ppis || !is_notified);
        if is_notified && !self.is_of_ppis {
            (self.ppis, self.notifications) = ((0, self.seen_ppis), (self.seen_notifications, notifications));
            self.then = (self.seen_ppis, notifications);
        } else if is_installed {
            (self.ppis, self.notifications) = ((self.seen_ppis, ppis), (0, self.seen_notifications));
            self.then = (ppis, self.seen_notifications);
        } else {
            return false;
        }
        self.ppi = self.ppis.0;
        true
    }
}

pub struct Store {
    walk: Walk,
    temp: Span,
    ram: Span,
    /// The plan's volumes: where each is mapped, and the number of its image.
    roms: Vec<(Span, usize)>,
    region: u64,
    base: u64,
    cap: u64,
    bytes: Vec<u8>,
    taken: u64,
    pub boot_mode: u32,
    pub planned: Option<(u64, u64)>,
    pub moved: bool,
    pub descs: Vec<Desc>,
    pub ppis: Vec<Entry>,
    pub callbacks: Vec<Entry>,
    pub dispatches: Vec<Entry>,
    pub pendings: VecDeque<Pending>,
    pub ppis_of: Index<Guid>,
    callbacks_of: Index<Guid>,
    dispatches_of: Index<Guid>,
    ppis_naming: Index<usize>,
    allocations: Vec<usize>,
}

impl Store {
    pub fn new(plan: &Plan, catalog: &Catalog) -> Store {
        let outer = catalog.volumes.iter().filter(|volume| volume.nested_in.is_none());
        let roms = outer.enumerate().map(|(image, volume)| (Span { base: volume.base, len: volume.length }, image)).collect();
        let mut store = Store {
            walk: Walk::default(),
            temp: plan.temp,
            ram: plan.ram,
            roms,
            region: plan.pages,
            base: plan.temp.base,
            cap: plan.temp.len - plan.pages,
            bytes: vec![0; HANDOFF_LEN + 8],
            taken: 0,
            boot_mode: 0,
            planned: None,
            moved: false,
            descs: Vec::new(),
            ppis: Vec::new(),
            callbacks: Vec::new(),
            dispatches: Vec::new(),
            pendings: VecDeque::new(),
            ppis_of: Index::new(),
            callbacks_of: Index::new(),
            dispatches_of: Index::new(),
            ppis_naming: Index::new(),
            allocations: Vec::new(),
        };
        store.write_handoff();
        store.write_end();
        store
    }

    /// FreeMemoryTop less the heap's base.
    fn free_top(&self) -> u64 {
        if self.moved {
            self.cap - self.taken
        } else {
            self.cap
        }
    }

    fn free(&self) -> u64 {
        self.free_top() - self.bytes.len() as u64
    }

    pub fn heap_len(&self) -> usize {
        self.bytes.len()
    }

    fn write_handoff(&mut self) {
        let top = self.base + self.free_top();
        self.bytes[..8].copy_from_slice(&[1, 0, HANDOFF_LEN as u8, 0, 0, 0, 0, 0]);
        self.bytes[8..12].copy_from_slice(&9u32.to_le_bytes());
        self.bytes[12..16].copy_from_slice(&self.boot_mode.to_le_bytes());
        put_u64(&mut self.bytes, 16, self.base + self.cap);
        put_u64(&mut self.bytes, 24, self.base);
        put_u64(&mut self.bytes, 32, top);
        let end = self.base + self.bytes.len() as u64;
        put_u64(&mut self.bytes, 40, end);
        put_u64(&mut self.bytes, 48, end - 8);
    }

    fn write_end(&mut self) {
        let at = self.bytes.len() - 8;
        self.bytes[at..].copy_from_slice(&[0xFF, 0xFF, 8, 0, 0, 0, 0, 0]);
    }

    /// Appends a HOB with so many bytes of body, all zeros; its body's place. The room is there.
    fn append(&mut self, kind: u16, body: usize) -> usize {
        let at = self.bytes.len() - 8;
        let len = 8 + round_up(body, 8);
        self.bytes.resize(at + len + 8, 0);
        self.bytes[at..at + 2].copy_from_slice(&kind.to_le_bytes());
        self.bytes[at + 2..at + 4].copy_from_slice(&(len as u16).to_le_bytes());
        self.bytes[at + 4..at + 8].fill(0);
        self.write_end();
        self.write_handoff();
        at + 8
    }

    pub fn pool(&mut self, size: u32) -> Result<usize, Status> {
        if size > MOST_POOL || round_up(size as usize, 8) as u64 + 8 > self.free() {
            return Err(Status::OutOfResources);
        }
        Ok(self.append(7, size as usize))
    }

    pub fn store(&mut self, place: usize, bytes: &[u8]) {
        self.bytes[place..place + bytes.len()].copy_from_slice(bytes);
    }

    pub fn address(&self, place: usize) -> u64 {
        self.base + place as u64
    }

    pub fn hob(&mut self, kind: u8, body: &[u8]) -> Result<usize, Status> {
        if 8 + round_up(body.len(), 8) as u64 > self.free() {
            return Err(Status::OutOfResources);
        }
        let place = self.append(kind as u16, body.len());
        let kept = if kind == 6 { 2 } else { body.len() };
        self.bytes[place..place + kept].copy_from_slice(&body[..kept]);
        Ok(place - 8)
    }

    pub fn desc(&mut self, kind: u8, guid: Guid, guid_at: Option<u64>, number: u64) -> Result<usize, Status> {
        let body = if guid_at.is_some() { 24 } else { 40 };
        if 8 + body as u64 > self.free() {
            return Err(Status::OutOfResources);
        }
        let place = self.append(7, body);
        self.descs.push(Desc { kind, guid, guid_at, number, place });
        self.write_desc(self.descs.len() - 1);
        Ok(self.descs.len() - 1)
    }

    fn write_desc(&mut self, number: usize) {
        let desc = &self.descs[number];
        let (place, behind) = (desc.place, self.base + desc.place as u64 + 24);
        put_u64(&mut self.bytes, place, 0x8000_0000 | 0x10 << desc.kind);
        put_u64(&mut self.bytes, place + 8, desc.guid_at.unwrap_or(behind));
        put_u64(&mut self.bytes, place + 16, desc.number);
        if desc.guid_at.is_none() {
            self.bytes[place + 24..place + 40].copy_from_slice(&desc.guid.0);
        }
    }

    /// A node with its descriptor, which the node before it links to.
    fn node(&mut self, before: Option<usize>, desc: usize, ppi: Option<usize>, by: u32) -> usize {
        let node = self.append(7, NODE_LEN);
        let address = self.address(node);
        if let Some(before) = before {
            put_u64(&mut self.bytes, before, address);
        }
        let desc = self.address(self.descs[desc].place);
        put_u64(&mut self.bytes, node + 8, desc);
        let second = ppi.map_or(0, |ppi| self.address(self.descs[ppi].place));
        put_u64(&mut self.bytes, node + 16, second);
        put_u64(&mut self.bytes, node + 24, by as u64);
        node
    }

    fn push_pending(&mut self, desc: usize, ppi: usize, by: u32) {
        let node = self.node(self.pendings.back().map(|last| last.node), desc, Some(ppi), by);
        self.pendings.push_back(Pending { node, desc, ppi });
    }

    /// How many pairs of a new PPI with the dispatch notifications there are.
    fn dispatches_for(&self, ppi: usize) -> usize {
        if rules().dispatch_by_lists {
            return 0;
        }
        self.dispatches_of.of(&self.descs[ppi].guid).len()
    }

    fn queue_pairs_of(&mut self, ppi: usize, by: u32) {
        if rules().dispatch_by_lists {
            return;
        }
        for number in self.dispatches_of.of(&self.descs[ppi].guid).to_vec() {
            self.push_pending(self.dispatches[number].desc, ppi, by);
        }
    }

    pub fn install(&mut self, descs: &[usize], by: u32) -> Result<Sweep, Status> {
        let pairs: usize = descs.iter().map(|desc| self.dispatches_for(*desc)).sum();
        if NODE_COST * (descs.len() + pairs) as u64 > self.free() {
            return Err(Status::OutOfResources);
        }
        let first = self.ppis.len();
        for &desc in descs {
            let node = self.node(self.ppis.last().map(|last| last.node), desc, None, by);
            self.ppis_of.add(self.descs[desc].guid, self.ppis.len());
            self.ppis_naming.add(desc, self.ppis.len());
            self.ppis.push(Entry { node, desc, by });
        }
        for &desc in descs {
            self.queue_pairs_of(desc, by);
        }
        Ok(Sweep { first_ppi: first, ppi: first, last_ppi: self.ppis.len(), callback: 0, least: 0, most: self.callbacks.len() })
    }

    pub fn reinstall(&mut self, old: usize, new: usize, by: u32) -> Result<Sweep, Status> {
        let &place = self.ppis_naming.of(&old).first().ok_or(Status::NotFound)?;
        if NODE_COST * self.dispatches_for(new) as u64 > self.free() {
            return Err(Status::OutOfResources);
        }
        self.ppis_naming.remove(&old, place);
        self.ppis_of.remove(&self.descs[old].guid, place);
        self.ppis_naming.add(new, place);
        self.ppis_of.add(self.descs[new].guid, place);
        self.ppis[place].desc = new;
        let (node, address) = (self.ppis[place].node, self.address(self.descs[new].place));
        put_u64(&mut self.bytes, node + 8, address);
        self.queue_pairs_of(new, by);
        Ok(Sweep { first_ppi: place, ppi: place, last_ppi: place + 1, callback: 0, least: 0, most: self.callbacks.len() })
    }

    pub fn notify(&mut self, descs: &[usize], by: u32) -> Result<Sweep, Status> {
        let queued: Vec<usize> = descs.iter().copied().filter(|desc| self.descs[*desc].kind == DISPATCH).collect();
        let mut pairs: Vec<(usize, usize)> = Vec::new();
        for (order, desc) in queued.iter().enumerate().filter(|_| !rules().dispatch_by_lists) {
            pairs.extend(self.ppis_of.of(&self.descs[*desc].guid).iter().map(|ppi| (*ppi, order)));
        }
        pairs.sort_unstable();
        if NODE_COST * (descs.len() + pairs.len()) as u64 > self.free() {
            return Err(Status::OutOfResources);
        }
        let least = self.callbacks.len();
        for &desc in descs {
            let guid = self.descs[desc].guid;
            if self.descs[desc].kind == CALLBACK {
                let node = self.node(self.callbacks.last().map(|last| last.node), desc, None, by);
                self.callbacks_of.add(guid, self.callbacks.len());
                self.callbacks.push(Entry { node, desc, by });
            } else {
                let node = self.node(self.dispatches.last().map(|last| last.node), desc, None, by);
                self.dispatches_of.add(guid, self.dispatches.len());
                self.dispatches.push(Entry { node, desc, by });
            }
        }
        for (ppi, order) in pairs {
            self.push_pending(queued[order], self.ppis[ppi].desc, by);
        }
        Ok(Sweep { first_ppi: 0, ppi: 0, last_ppi: self.ppis.len(), callback: least, least, most: self.callbacks.len() })
    }

    /// The next pair of a sweep that fires: the PPI and the callback, by their descriptors.
    pub fn fire(&self, sweep: &mut Sweep) -> Option<(usize, usize)> {
        if rules().callbacks_by_notification {
            return self.fire_by_notification(sweep);
        }
        while sweep.ppi < sweep.last_ppi && sweep.least < sweep.most {
            let desc = self.ppis[sweep.ppi].desc;
            if let Some(callback) = self.callbacks_of.next(&self.descs[desc].guid, sweep.callback).filter(|number| *number < sweep.most) {
                sweep.callback = callback + 1;
                return Some((desc, self.callbacks[callback].desc));
            }
            sweep.callback = sweep.least;
            // Of a few callbacks the next PPI that meets one is looked up.
            sweep.ppi = if sweep.most - sweep.least <= 8 { self.next_met(sweep) } else { sweep.ppi + 1 };
        }
        None
    }

    /// EDK2's order: notification by notification, and for each the PPIs of the call.
    fn fire_by_notification(&self, sweep: &mut Sweep) -> Option<(usize, usize)> {
        sweep.callback = sweep.callback.max(sweep.least);
        while sweep.callback < sweep.most {
            let callback = self.callbacks[sweep.callback].desc;
            while sweep.ppi < sweep.last_ppi {
                let ppi = self.ppis[sweep.ppi].desc;
                sweep.ppi += 1;
                if self.descs[ppi].guid == self.descs[callback].guid {
                    return Some((ppi, callback));
                }
            }
            (sweep.ppi, sweep.callback) = (sweep.first_ppi, sweep.callback + 1);
        }
        None
    }

    fn next_met(&self, sweep: &Sweep) -> usize {
        let guids = self.callbacks[sweep.least..sweep.most].iter().map(|entry| self.descs[entry.desc].guid);
        guids.filter_map(|guid| self.ppis_of.next(&guid, sweep.ppi + 1)).min().unwrap_or(sweep.last_ppi)
    }

    /// EDK2's way in the place of a queue: which PPI meets which dispatch notification next, by their descriptors.
    pub fn next_dispatch(&mut self) -> Option<(usize, usize)> {
        let mut walk = self.walk;
        let next = loop {
            if let Some(pair) = walk.next(&self.ppis, &self.dispatches, &self.descs) {
                break Some(pair);
            }
            if !walk.begin(self.ppis.len(), self.dispatches.len()) {
                break None;
            }
        };
        self.walk = walk;
        next
    }

    pub fn pop(&mut self) -> Option<Pending> {
        let pending = self.pendings.pop_front()?;
        self.bytes[pending.node..pending.node + NODE_LEN].fill(0);
        Some(pending)
    }

    pub fn pages(&mut self, kind: u8, count: u32) -> Result<u64, Status> {
        if !(kind <= 6 || kind == 9 || kind == 10) || count == 0 {
            return Err(Status::InvalidParameter);
        }
        let len = PAGE * count as u64;
        if !self.moved {
            if self.region == 0 {
                return Err(Status::NotAvailableYet);
            }
            if len > self.region - self.taken || 48 > self.free() {
                return Err(Status::OutOfResources);
            }
        } else if 48 + len > self.free() {
            return Err(Status::OutOfResources);
        }
        self.taken += len;
        let end = if self.moved { self.base + self.cap } else { self.temp.end() };
        let place = self.append(2, 40);
        put_u64(&mut self.bytes, place + 16, end - self.taken);
        put_u64(&mut self.bytes, place + 24, len);
        self.bytes[place + 32] = kind;
        self.allocations.push(place);
        Ok(end - self.taken)
    }

    pub fn set_boot_mode(&mut self, mode: u32) {
        self.boot_mode = mode;
        self.write_handoff();
    }

    pub fn plan_memory(&mut self, begin: u64, len: u64) -> Result<(), Status> {
        if rules().memory_again && self.moved {
            return Ok(());
        }
        let is_first = self.planned.is_none() || rules().memory_again;
        let sound = begin % PAGE == 0 && len % PAGE == 0 && self.ram.has(begin, len) && len >= self.temp.len && is_first;
        if !sound {
            return Err(Status::InvalidParameter);
        }
        self.planned = Some((begin, len));
        Ok(())
    }

    /// Moves the heap to the planned memory: the base before and the one behind it.
    pub fn migrate(&mut self) -> (u64, u64) {
        let (begin, len) = self.planned.unwrap();
        let (old, old_cap, old_end) = (self.base, self.cap, self.temp.end());
        (self.base, self.cap, self.moved) = (begin, len, true);
        let end = begin + len;
        let mut named = vec![false; self.descs.len()];
        for entry in self.ppis.iter().chain(&self.callbacks).chain(&self.dispatches) {
            named[entry.desc] = true;
        }
        for pending in &self.pendings {
            named[pending.desc] = true;
            named[pending.ppi] = true;
        }
        for number in (0..self.descs.len()).filter(|number| named[*number]) {
            let desc = &mut self.descs[number];
            if desc.kind == PPI && desc.number >= old && desc.number < old + old_cap {
                desc.number = desc.number - old + begin;
            } else if desc.kind == PPI && desc.number >= old + old_cap && desc.number < old_end {
                desc.number = end - (old_end - desc.number);
            }
            self.write_desc(number);
        }
        let nodes = self.ppis.iter().chain(&self.callbacks).chain(&self.dispatches).map(|entry| entry.node).chain(self.pendings.iter().map(|it| it.node));
        for node in nodes.collect::<Vec<_>>() {
            for at in [node, node + 8, node + 16] {
                let address = u64_at(&self.bytes, at);
                if address != 0 {
                    put_u64(&mut self.bytes, at, address - old + begin);
                }
            }
        }
        for place in self.allocations.clone() {
            let address = u64_at(&self.bytes, place + 16);
            put_u64(&mut self.bytes, place + 16, end - (old_end - address));
        }
        self.write_handoff();
        (old, begin)
    }

    pub fn install_memory_ppi(&mut self) -> Result<Sweep, Status> {
        let pairs = self.dispatches_of.of(&MEMORY).len() as u64;
        if 48 + NODE_COST * (1 + pairs) > self.free() {
            return Err(Status::OutOfResources);
        }
        let desc = self.desc(PPI, MEMORY, None, 0)?;
        self.install(&[desc], CORE)
    }

    /// The bytes at an address, where they all lie in one mapped region.
    pub fn read(&self, images: &[Vec<u8>], address: u64, len: usize) -> Option<Vec<u8>> {
        let volume = self.read_volumes(images, address, len);
        if volume.is_some() {
            return volume;
        }
        let mapped = self.ram.has(address, len as u64) || !self.moved && self.temp.has(address, len as u64);
        if !mapped {
            return None;
        }
        let mut read = vec![0; len];
        for (number, byte) in read.iter_mut().enumerate() {
            let at = (address + number as u64).wrapping_sub(self.base);
            *byte = self.bytes.get(at as usize).copied().unwrap_or(0);
        }
        Some(read)
    }

    pub fn read_volumes(&self, images: &[Vec<u8>], address: u64, len: usize) -> Option<Vec<u8>> {
        let (span, image) = self.roms.iter().find(|(span, _)| span.has(address, len as u64))?;
        let at = (address - span.base) as usize;
        Some(images[*image][at..at + len].to_vec())
    }

    pub fn hobs(&self) -> impl Iterator<Item = (u16, &[u8])> {
        let mut at = 0;
        std::iter::from_fn(move || {
            let (kind, len) = (u16_at(&self.bytes, at), u16_at(&self.bytes, at + 2) as usize);
            let body = &self.bytes[at + 8..at + len];
            at += len;
            (kind != 0xFFFF).then_some((kind, body))
        })
    }

    /// The lists behind a run, but for the handles.
    pub fn put_lists(&self, out: &mut Out) -> Result<(), Halt> {
        put!(out, "ppis {}", self.ppis.len())?;
        for entry in &self.ppis {
            let desc = &self.descs[entry.desc];
            if entry.by == CORE {
                put!(out, "ppi core {} {:#x}", desc.guid, desc.number)?;
            } else {
                put!(out, "ppi {} {} {:#x}", entry.by, desc.guid, desc.number)?;
            }
        }
        for (name, one, list) in [("callbacks", "callback", &self.callbacks), ("dispatches", "dispatch", &self.dispatches)] {
            put!(out, "{name} {}", list.len())?;
            for entry in list {
                let desc = &self.descs[entry.desc];
                put!(out, "{one} {} {} {}", desc.guid, desc.number / 64, desc.number % 64)?;
            }
        }
        put!(out, "pendings {}", self.pendings.len())?;
        for pending in &self.pendings {
            let entry = self.descs[pending.desc].number;
            put!(out, "pending {} {} {}", self.descs[pending.ppi].guid, entry / 64, entry % 64)?;
        }
        put!(out, "hobs {}", self.hobs().count())?;
        for (kind, body) in self.hobs() {
            if body.is_empty() {
                put!(out, "hob {kind} -")?;
            } else {
                put!(out, "hob {kind} {}", Hex(body))?;
            }
        }
        Ok(())
    }
}
