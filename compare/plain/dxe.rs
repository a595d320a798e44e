//! The DXE phase (docs/BOOT-MACHINE.md, "DXE").
use crate::bytes::{u64_at, Guid};
use crate::catalog::Catalog;
use crate::depex::Expr;
use crate::frame::{put_call, Frame, Reg, Shown, DEEPEST};
use crate::guids::ARCHITECTURAL;
use crate::out::{Halt, Out};
use crate::pei::End;
use crate::put;
use crate::rules::rules;
use crate::script::{Action, Phase, Status};
use crate::store::Store;
use crate::waiting::Waiting;
use std::collections::{BTreeMap, BTreeSet, HashMap, HashSet, VecDeque};

/// The notifications of a protocol that a call has still to run.
pub struct Sweep {
    guid: Guid,
    next: usize,
    end: usize,
    value: u64,
    handle: u32,
}

pub struct Dxe<'a> {
    catalog: &'a Catalog<'a>,
    images: &'a [Vec<u8>],
    store: &'a Store,
    fuel: u64,
    pub actions: u64,
    discovered: Vec<bool>,
    /// Whether a module is neither scheduled nor started.
    waits: Vec<bool>,
    requested: Vec<bool>,
    waiting: Waiting,
    queue: VecDeque<usize>,
    /// The places of drivers: by file name, and by the name that they give in BEFORE and AFTER.
    named: HashMap<Guid, Vec<usize>>,
    before: HashMap<Guid, Vec<usize>>,
    after: HashMap<Guid, Vec<usize>>,
    frames: Vec<Frame<'a, Sweep>>,
    notifications: HashMap<Guid, Vec<(usize, usize)>>,
    pub handles: BTreeMap<u32, Vec<(Guid, u64)>>,
    holders: HashMap<Guid, BTreeSet<u32>>,
    next_handle: u32,
    /// By EDK2's rules: the GUIDs that were there when the expression at a place was evaluated, and the events of notifications.
    once_there: HashSet<(usize, Guid)>,
    events: Events,
}

/// EDK2's notifications: an event each, which waits in a queue and then runs for each interface behind its position.
#[derive(Default)]
struct Events {
    /// The interfaces of a protocol in the order of their installing: a number of its own, the handle.
    interfaces: HashMap<Guid, Vec<(u64, u32)>>,
    next_interface: u64,
    /// Each registered event: protocol, module, block, and the number of the interface at which it stands.
    registered: Vec<(Guid, usize, usize, u64)>,
    queue: VecDeque<usize>,
    running: Option<usize>,
}

impl Events {
    fn install(&mut self, guid: Guid, handle: u32) {
        self.next_interface += 1;
        self.interfaces.entry(guid).or_default().push((self.next_interface, handle));
        for (event, registered) in self.registered.iter().enumerate() {
            if registered.0 == guid && !self.queue.contains(&event) {
                self.queue.push_back(event);
            }
        }
    }

    /// The interface goes, and who stands at it stands at the one before it.
    fn remove(&mut self, guid: Guid, handle: u32) {
        let interfaces = self.interfaces.get_mut(&guid).unwrap();
        let at = interfaces.iter().position(|(_, other)| *other == handle).unwrap();
        let before = if at == 0 { 0 } else { interfaces[at - 1].0 };
        let (gone, _) = interfaces.remove(at);
        for registered in self.registered.iter_mut().filter(|registered| registered.0 == guid && registered.3 == gone) {
            registered.3 = before;
        }
    }

    fn register(&mut self, guid: Guid, module: usize, block: usize) {
        let last = self.interfaces.get(&guid).and_then(|interfaces| interfaces.last()).map_or(0, |(number, _)| *number);
        self.registered.push((guid, module, block, last));
    }

    fn first(&self, guid: &Guid) -> Option<u32> {
        self.interfaces.get(guid).and_then(|interfaces| interfaces.first()).map(|(_, handle)| *handle)
    }

    /// The next notification: module, block, protocol and handle.
    fn next(&mut self) -> Option<(usize, usize, Guid, u32)> {
        loop {
            let event = self.running.or_else(|| self.queue.pop_front())?;
            self.running = Some(event);
            let (guid, module, block, position) = self.registered[event];
            let behind = self.interfaces.get(&guid).map_or(&[][..], Vec::as_slice);
            let at = behind.iter().position(|(number, _)| *number == position).map_or(0, |at| at + 1);
            if let Some(&(number, handle)) = behind.get(at) {
                self.registered[event].3 = number;
                return Some((module, block, guid, handle));
            }
            self.running = None;
        }
    }
}

impl<'a> Dxe<'a> {
    pub fn new(catalog: &'a Catalog<'a>, images: &'a [Vec<u8>], store: &'a Store, actions: u64, fuel: u64) -> Self {
        Dxe {
            catalog,
            images,
            store,
            fuel,
            actions,
            discovered: vec![false; catalog.volumes.len()],
            waits: vec![true; catalog.modules.len()],
            requested: vec![false; catalog.modules.len()],
            waiting: Waiting::default(),
            queue: VecDeque::new(),
            named: HashMap::new(),
            before: HashMap::new(),
            after: HashMap::new(),
            frames: Vec::new(),
            notifications: HashMap::new(),
            handles: BTreeMap::new(),
            holders: HashMap::new(),
            next_handle: 1,
            once_there: HashSet::new(),
            events: Events::default(),
        }
    }

    pub fn run(&mut self, out: &mut Out) -> Result<End, Halt> {
        let bases: Vec<u64> = self.store.hobs().filter(|(kind, _)| *kind == 5).map(|(_, body)| u64_at(body, 0)).collect();
        for base in bases {
            if let Some(volume) = self.catalog.volume_at(base) {
                self.discover(volume, out)?;
            }
        }
        loop {
            if let Some((module, block)) = self.fire() {
                if self.frames.len() == DEEPEST {
                    return Ok(End::Deep);
                }
                self.begin_notification(module, block, out)?;
            } else if let Some((module, block, guid, handle)) = self.next_event() {
                self.begin_event(module, block, guid, handle, out)?;
            } else if !self.frames.is_empty() {
                if self.actions == self.fuel {
                    return Ok(End::Spent);
                }
                self.actions += 1;
                self.act(out)?;
            } else if self.queue.is_empty() && !self.schedule_next(out) {
                return self.stop(out);
            } else {
                self.start(out)?;
            }
        }
    }

    fn discover(&mut self, volume: usize, out: &mut Out) -> Result<(), Halt> {
        for volume in self.catalog.tree(volume) {
            if std::mem::replace(&mut self.discovered[volume], true) || self.catalog.volumes[volume].dxe_refuses {
                continue;
            }
            put!(out, "dxe volume {volume}")?;
            for &number in &in_discovered_order(self.catalog, volume) {
                let module = &self.catalog.modules[number];
                let Some(part) = &module.dxe else { continue };
                let all: &[Guid] = if matches!(part.expr, Expr::Absent) { &ARCHITECTURAL } else { &[] };
                let place = self.waiting.push(number, part.expr.pushed().chain(all.iter().copied()));
                self.named.entry(module.name).or_default().push(place);
                match &part.expr {
                    Expr::Before(name) => self.before.entry(*name).or_default().push(place),
                    Expr::After(name) => self.after.entry(*name).or_default().push(place),
                    _ => {}
                }
                self.weigh(place);
            }
            for number in self.catalog.in_order(volume, Phase::Dxe) {
                if self.catalog.modules[number].dxe.as_ref().unwrap().rank.is_some() {
                    self.enqueue(self.waiting.place_of[&number]);
                }
            }
        }
        Ok(())
    }

    fn enqueue(&mut self, place: usize) {
        let number = self.waiting.order[place];
        self.waits[number] = false;
        self.waiting.ready.remove(&place);
        self.queue.push_back(number);
    }

    fn expr(&self, place: usize) -> &'a Expr {
        &self.catalog.modules[self.waiting.order[place]].dxe.as_ref().unwrap().expr
    }

    fn weigh(&mut self, place: usize) {
        let number = self.waiting.order[place];
        let holds = match self.expr(place) {
            Expr::Absent => ARCHITECTURAL.iter().all(|guid| self.waiting.is_installed(guid)),
            Expr::Tree { sor, ops } => (!sor || self.requested[number]) && self.waiting.holds_with(ops, |guid| self.once_there.contains(&(place, *guid))),
            _ => false,
        };
        if holds && self.waits[number] {
            self.waiting.ready.insert(place);
        } else {
            self.waiting.ready.remove(&place);
        }
    }

    /// Schedules the first driver that may start with its companions; false where none may.
    fn schedule_next(&mut self, out: &Out) -> bool {
        for place in self.waiting.stale() {
            self.weigh(place);
        }
        if rules().push_sticky {
            self.evaluate_all();
        }
        if rules().batch {
            return self.schedule_all();
        }
        let aimed = out.named("dxe").and_then(|name| self.head_of(name));
        let Some(place) = aimed.or(self.waiting.ready.first().copied()) else { return false };
        let mut group = Vec::new();
        self.gather(place, &mut group);
        for place in group {
            self.enqueue(place);
        }
        true
    }

    /// By EDK2's rule: each expression that is evaluated keeps the GUIDs that are there.
    fn evaluate_all(&mut self) {
        for place in 0..self.waiting.order.len() {
            let is_evaluated = match self.expr(place) {
                Expr::Tree { sor, .. } => !sor || self.requested[self.waiting.order[place]],
                _ => false,
            };
            if is_evaluated && self.waits[self.waiting.order[place]] {
                for guid in self.expr(place).pushed().filter(|guid| self.waiting.is_installed(guid)) {
                    self.once_there.insert((place, guid));
                }
                self.weigh(place);
            }
        }
    }

    /// By EDK2's rule: every driver that may start, in discovered order, each with its companions.
    fn schedule_all(&mut self) -> bool {
        let ready: Vec<usize> = self.waiting.ready.iter().copied().collect();
        for place in &ready {
            if self.waits[self.waiting.order[*place]] {
                let mut group = Vec::new();
                self.gather(*place, &mut group);
                for place in group {
                    self.enqueue(place);
                }
            }
        }
        !ready.is_empty()
    }

    /// The driver that may start and whose group begins with the named one.
    fn head_of(&self, (volume, name): (usize, Guid)) -> Option<usize> {
        let first = *self.named.get(&name)?.iter().find(|place| self.catalog.modules[self.waiting.order[**place]].volume == volume)?;
        let (mut place, mut steps) = (first, 0);
        while let Expr::Before(name) | Expr::After(name) = self.expr(place) {
            place = self.named.get(name)?[0];
            steps += 1;
            if steps > self.waiting.order.len() {
                return None;
            }
        }
        if !self.waiting.ready.contains(&place) {
            return None;
        }
        let mut group = Vec::new();
        self.gather(place, &mut group);
        (group[0] == first).then_some(place)
    }

    /// A driver and its companions: the groups of those BEFORE it, itself, the groups of those AFTER it.
    fn gather(&self, place: usize, group: &mut Vec<usize>) {
        let name = self.catalog.modules[self.waiting.order[place]].name;
        let is_named = self.named[&name][0] == place;
        let companions = |of: &HashMap<Guid, Vec<usize>>| -> Vec<usize> {
            let all = if is_named { of.get(&name).map_or(&[][..], Vec::as_slice) } else { &[] };
            all.iter().copied().filter(|other| self.waits[self.waiting.order[*other]]).collect()
        };
        for other in companions(&self.before) {
            self.gather(other, group);
        }
        group.push(place);
        for other in companions(&self.after) {
            self.gather(other, group);
        }
    }

    fn start(&mut self, out: &mut Out) -> Result<(), Halt> {
        let number = self.queue.pop_front().unwrap();
        let module = &self.catalog.modules[number];
        let part = module.dxe.as_ref().unwrap();
        let licence = match (&part.rank, &part.expr) {
            (Some(_), _) => "apriori",
            (_, Expr::Absent) => "absent",
            (_, Expr::Before(_)) => "before",
            (_, Expr::After(_)) => "after",
            _ => "true",
        };
        put!(out, "dxe start {} {} {licence}", module.volume, module.name)?;
        match &part.script {
            None => put!(out, "end Success"),
            Some(script) => {
                self.frames.push(Frame::new(number, script.clone(), 0));
                Ok(())
            }
        }
    }

    fn stop(&mut self, out: &mut Out) -> Result<End, Halt> {
        put!(out, "dxe stop")?;
        for (place, &number) in self.waiting.order.iter().enumerate() {
            if !self.waits[number] {
                continue;
            }
            let reason = match self.expr(place) {
                Expr::Absent => "absent",
                Expr::Malformed(_) => "malformed",
                Expr::Before(_) => "before",
                Expr::After(_) => "after",
                Expr::Tree { sor: true, .. } if !self.requested[number] => "unrequested",
                Expr::Tree { .. } => "false",
            };
            let module = &self.catalog.modules[number];
            put!(out, "waiting {} {} {reason}", module.volume, module.name)?;
        }
        Ok(End::Done)
    }

    /// By EDK2's rule events run while no notification does.
    fn next_event(&mut self) -> Option<(usize, usize, Guid, u32)> {
        if rules().notify_behind_the_running && self.frames.len() == 1 {
            self.events.next()
        } else {
            None
        }
    }

    fn begin_event(&mut self, number: usize, block: usize, guid: Guid, handle: u32, out: &mut Out) -> Result<(), Halt> {
        let module = &self.catalog.modules[number];
        put!(out, "notify protocol {} {} {guid}", module.volume, module.name)?;
        let interfaces = self.handles.get(&handle).map_or(&[][..], Vec::as_slice);
        let value = interfaces.iter().find(|(other, _)| *other == guid).map_or(0, |(_, value)| *value);
        let mut frame = Frame::new(number, module.dxe.as_ref().unwrap().script.clone().unwrap(), block);
        frame.regs[0] = Reg::Number(value);
        frame.regs[1] = Reg::Handle(handle);
        self.frames.push(frame);
        Ok(())
    }

    fn fire(&mut self) -> Option<(usize, usize)> {
        if rules().notify_behind_the_running {
            return None;
        }
        let sweep = self.frames.last_mut()?.sweep.as_mut()?;
        if sweep.next == sweep.end {
            return None;
        }
        sweep.next += 1;
        Some(self.notifications[&sweep.guid][sweep.next - 1])
    }

    fn begin_notification(&mut self, number: usize, block: usize, out: &mut Out) -> Result<(), Halt> {
        let sweep = self.frames.last().unwrap().sweep.as_ref().unwrap();
        let module = &self.catalog.modules[number];
        put!(out, "notify protocol {} {} {}", module.volume, module.name, sweep.guid)?;
        let mut frame = Frame::new(number, module.dxe.as_ref().unwrap().script.clone().unwrap(), block);
        frame.regs[0] = Reg::Number(sweep.value);
        frame.regs[1] = Reg::Handle(sweep.handle);
        self.frames.push(frame);
        Ok(())
    }

    fn act(&mut self, out: &mut Out) -> Result<(), Halt> {
        let frame = self.frames.last_mut().unwrap();
        let script = frame.script.clone();
        let action = &script.blocks[frame.block][frame.at];
        frame.at += 1;
        frame.sweep = None;
        match frame.take_common(action, self.store, self.images, out)? {
            Some(false) => {}
            Some(true) => {
                self.frames.pop();
            }
            None => {
                let mut frame = self.frames.pop().unwrap();
                self.serve(&mut frame, action, out)?;
                self.frames.push(frame);
            }
        }
        Ok(())
    }

    fn serve(&mut self, frame: &mut Frame<'a, Sweep>, action: &Action, out: &mut Out) -> Result<(), Halt> {
        let mut volume = None;
        let (name, answer) = match action {
            Action::InstallInterface(on, handle, guid, value) => ("install", self.install(frame, *on == 1, *handle, *guid, *value)),
            Action::ReinstallInterface(handle, guid, old, new) => ("reinstall", self.reinstall(frame, *handle, *guid, *old, *new)),
            Action::Uninstall(handle, guid, value) => ("uninstall", self.uninstall(frame, *handle, *guid, *value)),
            Action::LocateProtocol(handle, value, guid) => ("locate", self.locate(frame, *handle, *value, *guid)),
            Action::NotifyProtocol(guid, block) => {
                self.notifications.entry(*guid).or_default().push((frame.module, *block as usize));
                self.events.register(*guid, frame.module, *block as usize);
                ("notify", Ok(Shown::Nothing))
            }
            Action::Schedule(guid) => ("schedule", self.request(*guid)),
            Action::Process(base) => (
                "process",
                frame.number(*base).and_then(|base| self.catalog.volume_at(base).ok_or(status_of_no_volume())).and_then(|found| {
                    if self.discovered[found] {
                        return Err(Status::AlreadyStarted);
                    }
                    if self.catalog.volumes[found].dxe_refuses {
                        self.discovered[found] = true;
                        return Err(Status::VolumeCorrupted);
                    }
                    volume = Some(found);
                    Ok(Shown::Nothing)
                }),
            ),
            _ => ("dispatch", Err(Status::AlreadyStarted)),
        };
        frame.last = put_call(out, name, answer)?;
        volume.map_or(Ok(()), |volume| self.discover(volume, out))
    }

    /// The live handle that a register holds.
    fn handle(&self, frame: &Frame<'a, Sweep>, register: u8) -> Result<u32, Status> {
        match frame.regs[register as usize] {
            Reg::Handle(handle) if self.handles.contains_key(&handle) => Ok(handle),
            _ => Err(Status::InvalidParameter),
        }
    }

    fn sweep(&self, guid: Guid, value: u64, handle: u32) -> Sweep {
        Sweep { guid, next: 0, end: self.notifications.get(&guid).map_or(0, Vec::len), value, handle }
    }

    fn install(&mut self, frame: &mut Frame<'a, Sweep>, on: bool, register: u8, guid: Guid, value: u8) -> Result<Shown, Status> {
        let (handle, shown) = if on { (self.handle(frame, register)?, Shown::Nothing) } else { (self.next_handle, Shown::Hex(self.next_handle as u64)) };
        let value = frame.number(value)?;
        if on && self.handles[&handle].iter().any(|(other, _)| *other == guid) {
            return Err(Status::InvalidParameter);
        }
        if !on {
            self.next_handle += 1;
            frame.set(register, Reg::Handle(handle));
        }
        self.handles.entry(handle).or_default().push((guid, value));
        self.holders.entry(guid).or_default().insert(handle);
        self.waiting.came(guid);
        self.events.install(guid, handle);
        frame.sweep = Some(self.sweep(guid, value, handle));
        Ok(shown)
    }

    fn reinstall(&mut self, frame: &mut Frame<'a, Sweep>, register: u8, guid: Guid, old: u8, new: u8) -> Result<Shown, Status> {
        let handle = self.handle(frame, register)?;
        let (old, new) = (frame.number(old)?, frame.number(new)?);
        let interfaces = self.handles.get_mut(&handle).unwrap();
        let interface = interfaces.iter_mut().find(|interface| **interface == (guid, old)).ok_or(Status::NotFound)?;
        interface.1 = new;
        self.events.remove(guid, handle);
        self.events.install(guid, handle);
        frame.sweep = Some(self.sweep(guid, new, handle));
        Ok(Shown::Nothing)
    }

    fn uninstall(&mut self, frame: &Frame<'a, Sweep>, register: u8, guid: Guid, value: u8) -> Result<Shown, Status> {
        let handle = self.handle(frame, register)?;
        let value = frame.number(value)?;
        let interfaces = self.handles.get_mut(&handle).unwrap();
        let place = interfaces.iter().position(|interface| *interface == (guid, value)).ok_or(Status::NotFound)?;
        interfaces.remove(place);
        if interfaces.is_empty() {
            self.handles.remove(&handle);
        }
        self.holders.get_mut(&guid).unwrap().remove(&handle);
        self.waiting.went(guid);
        self.events.remove(guid, handle);
        Ok(Shown::Nothing)
    }

    fn locate(&self, frame: &mut Frame<'a, Sweep>, to: u8, value_to: u8, guid: Guid) -> Result<Shown, Status> {
        let lowest = self.holders.get(&guid).and_then(|holders| holders.first()).copied();
        let first = if rules().locate_first_installed { self.events.first(&guid) } else { lowest };
        let handle = first.ok_or(Status::NotFound)?;
        let value = self.handles[&handle].iter().find(|(other, _)| *other == guid).unwrap().1;
        frame.set(to, Reg::Handle(handle));
        frame.set(value_to, Reg::Number(value));
        Ok(Shown::Hex(value))
    }

    /// Requests the first driver of a name that waits for it.
    fn request(&mut self, name: Guid) -> Result<Shown, Status> {
        let asks = |place: &&usize| {
            let number = self.waiting.order[**place];
            self.waits[number] && !self.requested[number] && matches!(self.expr(**place), Expr::Tree { sor: true, .. })
        };
        let place = *self.named.get(&name).and_then(|places| places.iter().find(asks)).ok_or(Status::NotFound)?;
        self.requested[self.waiting.order[place]] = true;
        self.weigh(place);
        Ok(Shown::Nothing)
    }
}

fn status_of_no_volume() -> Status {
    if rules().process_none_corrupted {
        Status::VolumeCorrupted
    } else {
        Status::NotFound
    }
}

/// The modules of a volume by place; by EDK2's rule by type, and of one type by place.
fn in_discovered_order(catalog: &Catalog, volume: usize) -> Vec<usize> {
    let mut numbers = catalog.of_volume[volume].clone();
    if rules().types_in_turn {
        numbers.sort_by_key(|number| [0x07, 0x0C, 0x08].iter().position(|kind| *kind == catalog.modules[*number].kind));
    }
    numbers
}
