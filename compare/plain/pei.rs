//! The PEI phase (docs/BOOT-MACHINE.md, "PEI").
use crate::bytes::{u64_at, Guid};
use crate::catalog::Catalog;
use crate::depex::Expr;
use crate::frame::{put_call, Frame, Reg, Shown, DEEPEST};
use crate::guids::{DXE_IPL, FFS2, FFS3, MEMORY, VOLUME_INFO};
use crate::out::{Halt, Out};
use crate::put;
use crate::rules::rules;
use crate::script::{Action, Phase, Status, Where};
use crate::store::{Store, Sweep, PPI};
use crate::waiting::Waiting;
use std::collections::{HashMap, VecDeque};

#[derive(Clone, Copy, PartialEq)]
enum State {
    Waits,
    Started,
    Registered,
    Done,
}

#[derive(Clone, Copy, PartialEq, Debug)]
pub enum End {
    Done,
    NoMemory,
    NoIpl,
    Spent,
    Deep,
}

pub struct Pei<'a> {
    pub catalog: &'a Catalog<'a>,
    pub images: &'a [Vec<u8>],
    pub store: Store,
    pub fuel: u64,
    pub actions: u64,
    /// How many starts there were, and the module of the last.
    pub starts: (usize, Option<usize>),
    reported: Vec<bool>,
    states: Vec<State>,
    waiting: Waiting,
    cursor: usize,
    frames: Vec<Frame<'a, Sweep>>,
    core_sweep: Option<Sweep>,
    by_name: HashMap<(usize, Guid), usize>,
    /// By EDK2's rule: the places whose second starts come next.
    second: VecDeque<usize>,
    second_begun: bool,
    /// By the same: dispatch notifications run, and no memory moves before they have.
    lists_under_way: bool,
}

/// The boot mode of a resume from S3.
const ON_S3_RESUME: u32 = 0x11;

impl<'a> Pei<'a> {
    pub fn new(catalog: &'a Catalog<'a>, images: &'a [Vec<u8>], store: Store, fuel: u64) -> Self {
        let by_name = catalog.modules.iter().enumerate().map(|(number, module)| ((module.volume, module.name), number)).collect();
        Pei {
            catalog,
            images,
            store,
            fuel,
            actions: 0,
            starts: (0, None),
            reported: vec![false; catalog.volumes.len()],
            states: vec![State::Waits; catalog.modules.len()],
            waiting: Waiting::default(),
            cursor: 0,
            frames: Vec::new(),
            core_sweep: None,
            by_name,
            second: VecDeque::new(),
            second_begun: false,
            lists_under_way: false,
        }
    }

    pub fn run(&mut self, out: &mut Out) -> Result<End, Halt> {
        self.report(0, out)?;
        loop {
            if let Some((ppi, callback)) = self.fire() {
                if self.frames.len() == DEEPEST {
                    return Ok(End::Deep);
                }
                self.begin_notification("callback", callback, ppi, out)?;
            } else if !self.frames.is_empty() {
                if self.actions == self.fuel {
                    return Ok(End::Spent);
                }
                self.actions += 1;
                self.act(out)?;
            } else if self.store.planned.is_some() && !self.store.moved && !self.lists_under_way {
                self.move_memory(out)?;
            } else if let Some(pending) = self.store.pop() {
                self.core_sweep = None;
                self.begin_notification("dispatch", pending.desc, pending.ppi, out)?;
            } else if let Some((ppi, notification)) = self.next_dispatch() {
                self.core_sweep = None;
                self.lists_under_way = true;
                self.begin_notification("dispatch", notification, ppi, out)?;
            } else if std::mem::take(&mut self.lists_under_way) {
                // The lists are through: memory that was planned meanwhile moves now.
            } else if let Some(place) = self.next_second() {
                let cursor = self.cursor;
                self.start(place, out)?;
                self.cursor = cursor;
            } else if let Some(place) = self.next(out) {
                self.core_sweep = None;
                self.start(place, out)?;
            } else {
                return self.stop(out);
            }
        }
    }

    fn fire(&mut self) -> Option<(usize, usize)> {
        let sweep = match self.frames.last_mut() {
            Some(frame) => &mut frame.sweep,
            None => &mut self.core_sweep,
        };
        let fired = self.store.fire(sweep.as_mut()?);
        if fired.is_none() {
            *sweep = None;
        }
        fired
    }

    fn next_dispatch(&mut self) -> Option<(usize, usize)> {
        if rules().dispatch_by_lists {
            self.store.next_dispatch()
        } else {
            None
        }
    }

    /// EDK2 starts all that registered right behind the move, and one that registers later right behind its first start.
    fn next_second(&mut self) -> Option<usize> {
        if !rules().shadow_at_once || !self.store.moved {
            self.second.clear();
            return None;
        }
        // The boot mode counts where the second starts begin, and then where one comes behind its first start.
        if !std::mem::replace(&mut self.second_begun, true) && self.is_without_second_starts() {
            self.second.clear();
        }
        let waits = |module: &usize| self.states[*module] == State::Registered && !self.is_without_second_starts();
        let last = self.starts.1.filter(waits);
        self.second.pop_front().or(last.map(|module| self.waiting.place_of[&module]))
    }

    fn is_without_second_starts(&self) -> bool {
        rules().shadow_not_on_s3 && self.store.boot_mode == ON_S3_RESUME
    }

    /// Reports a volume and those nested in it.
    fn report(&mut self, volume: usize, out: &mut Out) -> Result<(), Halt> {
        let told = if rules().nested_in_turn { volume..volume + 1 } else { self.catalog.tree(volume) };
        for volume in told {
            if std::mem::replace(&mut self.reported[volume], true) {
                continue;
            }
            put!(out, "report {volume}")?;
            if self.catalog.volumes[volume].pei_asserts {
                put!(out, "assert FwVol.c ((BOOLEAN)(0==1))")?;
            }
            for number in self.parts_of(volume) {
                let expr = self.catalog.modules.get(number).map(|module| &module.pei.as_ref().unwrap().expr);
                let place = self.waiting.push(number, expr.into_iter().flat_map(|expr| expr.pushed()));
                self.weigh(place);
            }
        }
        Ok(())
    }

    /// The parts of a volume in order. By EDK2's rule the files of nested volumes stand among them, with the numbers behind the modules'.
    fn parts_of(&self, volume: usize) -> Vec<usize> {
        let mut parts = self.catalog.in_order(volume, Phase::Pei);
        if rules().nested_in_turn {
            let first = self.catalog.of_volume[volume].first().copied().unwrap_or(0);
            for (nested, mapped) in self.catalog.volumes.iter().enumerate().filter(|(_, mapped)| mapped.nested_in == Some(volume)) {
                let is_behind = |number: &usize| *number >= first + mapped.modules_before && *number < self.catalog.modules.len();
                let is_unranked = |number: &usize| self.catalog.modules[*number].pei.as_ref().unwrap().rank.is_none();
                let at = parts.iter().position(|number| is_behind(number) && is_unranked(number)).unwrap_or(parts.len());
                parts.insert(at, self.catalog.modules.len() + nested);
            }
        }
        parts
    }

    /// The FV and FV2 HOBs of a nested volume.
    fn tell_nested(&mut self, volume: usize) {
        let mapped = &self.catalog.volumes[volume];
        let mut body = [mapped.base.to_le_bytes(), mapped.length.to_le_bytes()].concat();
        let _ = self.store.hob(5, &body);
        body.extend(mapped.name.map_or([0; 16], |name| name.0));
        body.extend(mapped.file_name.map_or([0; 16], |name| name.0));
        let _ = self.store.hob(9, &body);
    }

    /// The nested volume whose file stands among the parts under this number.
    fn nested_at(&self, number: usize) -> Option<usize> {
        number.checked_sub(self.catalog.modules.len())
    }

    /// Enters a part among those that may start, or takes it out.
    fn weigh(&mut self, place: usize) {
        let module = self.waiting.order[place];
        if let Some(volume) = self.nested_at(module) {
            if self.reported[volume] {
                self.waiting.ready.remove(&place);
            } else {
                self.waiting.ready.insert(place);
            }
            return;
        }
        let part = self.catalog.modules[module].pei.as_ref().unwrap();
        let may = match self.states[module] {
            State::Waits => {
                part.rank.is_some()
                    || match &part.expr {
                        Expr::Absent => true,
                        Expr::Tree { ops, .. } => self.waiting.holds(ops),
                        _ => false,
                    }
            }
            State::Registered => self.store.moved && !rules().shadow_at_once && !self.is_without_second_starts(),
            _ => false,
        };
        if may {
            self.waiting.ready.insert(place);
        } else {
            self.waiting.ready.remove(&place);
        }
    }

    fn next(&mut self, out: &Out) -> Option<usize> {
        for place in self.waiting.stale() {
            self.weigh(place);
        }
        let named = out.named("pei").and_then(|name| self.by_name.get(&name)).and_then(|module| self.waiting.place_of.get(module));
        if let Some(place) = named.filter(|place| self.waiting.ready.contains(place)) {
            return Some(*place);
        }
        let ready = &self.waiting.ready;
        ready.range(self.cursor..).next().or(ready.first()).copied()
    }

    fn start(&mut self, place: usize, out: &mut Out) -> Result<(), Halt> {
        let number = self.waiting.order[place];
        if let Some(volume) = self.nested_at(number) {
            self.report(volume, out)?;
            self.tell_nested(volume);
            self.weigh(place);
            self.cursor = place + 1;
            return Ok(());
        }
        let module = &self.catalog.modules[number];
        let part = module.pei.as_ref().unwrap();
        let (licence, state) = match self.states[number] {
            State::Registered => ("shadow", State::Done),
            _ if part.rank.is_some() => ("apriori", State::Started),
            _ if matches!(part.expr, Expr::Absent) => ("absent", State::Started),
            _ => ("true", State::Started),
        };
        self.states[number] = state;
        self.waiting.ready.remove(&place);
        self.cursor = place + 1;
        self.starts = (self.starts.0 + 1, Some(number));
        put!(out, "pei start {} {} {licence}", module.volume, module.name)?;
        match &part.script {
            None => put!(out, "end Success"),
            Some(script) => {
                self.frames.push(Frame::new(number, script.clone(), 0));
                Ok(())
            }
        }
    }

    fn begin_notification(&mut self, kind: &str, notification: usize, ppi: usize, out: &mut Out) -> Result<(), Halt> {
        let entry = self.store.descs[notification].number;
        let number = (entry / 64) as usize;
        let module = &self.catalog.modules[number];
        let ppi_desc = &self.store.descs[ppi];
        put!(out, "notify {kind} {} {} {}", module.volume, module.name, ppi_desc.guid)?;
        let mut frame = Frame::new(number, module.pei.as_ref().unwrap().script.clone().unwrap(), (entry % 64) as usize);
        frame.regs[0] = Reg::Number(ppi_desc.number);
        frame.regs[1] = Reg::Desc(ppi);
        self.frames.push(frame);
        Ok(())
    }

    fn move_memory(&mut self, out: &mut Out) -> Result<(), Halt> {
        let (old, new) = self.store.migrate();
        put!(out, "migrate {old:#x} {new:#x}")?;
        for place in 0..self.waiting.order.len() {
            if self.states.get(self.waiting.order[place]) == Some(&State::Registered) {
                self.second.push_back(place);
                self.weigh(place);
            }
        }
        match self.store.install_memory_ppi() {
            Ok(sweep) => {
                self.core_sweep = Some(sweep);
                self.waiting.came(MEMORY);
                put!(out, "core install Success")
            }
            Err(status) => put!(out, "core install {status:?}"),
        }
    }

    fn stop(&mut self, out: &mut Out) -> Result<End, Halt> {
        put!(out, "pei stop")?;
        for &number in self.waiting.order.iter().filter(|number| self.nested_at(**number).is_none()) {
            let module = &self.catalog.modules[number];
            let reason = match (self.states[number], &module.pei.as_ref().unwrap().expr) {
                (State::Registered, _) => "shadow",
                (State::Waits, Expr::Malformed(_)) => "malformed",
                (State::Waits, _) => "false",
                _ => continue,
            };
            put!(out, "waiting {} {} {reason}", module.volume, module.name)?;
        }
        if !self.store.moved {
            return Ok(End::NoMemory);
        }
        if self.store.ppis_of.of(&DXE_IPL).is_empty() {
            return Ok(End::NoIpl);
        }
        put!(out, "handoff {:#x}", self.store.address(0))?;
        Ok(End::Done)
    }

    /// Takes the next action of the top frame.
    fn act(&mut self, out: &mut Out) -> Result<(), Halt> {
        let frame = self.frames.last_mut().unwrap();
        let script = frame.script.clone();
        let action = &script.blocks[frame.block][frame.at];
        frame.at += 1;
        frame.sweep = None;
        match frame.take_common(action, &self.store, self.images, out)? {
            Some(false) => return Ok(()),
            Some(true) => {
                self.frames.pop();
                return Ok(());
            }
            None => {}
        }
        let mut frame = self.frames.pop().unwrap();
        if let Some((sweep, first, count)) = self.serve(&mut frame, action, name_of(action), out)? {
            for ppi in first..first + count {
                self.look_at(ppi, out)?;
            }
            frame.sweep = Some(sweep);
        }
        self.frames.push(frame);
        Ok(())
    }

    /// Answers a service's action; a sweep, with the PPIs that the call installed, where it begins one.
    fn serve(&mut self, frame: &mut Frame<'a, Sweep>, action: &Action, name: &str, out: &mut Out) -> Result<Option<(Sweep, usize, usize)>, Halt> {
        let mut swept = None;
        let by = frame.module as u32;
        if rules().memory_again && self.store.moved && matches!(action, Action::Memory(..)) {
            put!(out, "assert MemoryServices.c ((BOOLEAN)(0==1))")?;
        }
        let answer = match action {
            Action::Addr(to, from, offset) => {
                let place = match frame.regs[*from as usize] {
                    Reg::Pool { place, .. } => Some(place),
                    Reg::Desc(desc) => Some(self.store.descs[desc].place),
                    _ => None,
                };
                frame.last = match place {
                    Some(place) => {
                        frame.set(*to, Reg::Number(self.store.address(place).wrapping_add(*offset as u64)));
                        Status::Success
                    }
                    None => Status::InvalidParameter,
                };
                return Ok(None);
            }
            Action::Pool(to, size) => self.store.pool(*size).map(|place| {
                frame.set(*to, Reg::Pool { place, size: *size });
                Shown::Hex(self.store.address(place))
            }),
            Action::Store(pool, offset, bytes) => match frame.regs[*pool as usize] {
                Reg::Pool { place, size } if *offset as u64 + bytes.len() as u64 <= size as u64 => {
                    self.store.store(place + *offset as usize, bytes);
                    Ok(Shown::Nothing)
                }
                _ => Err(Status::InvalidParameter),
            },
            Action::Desc(to, kind, place, argument) => self.desc(frame, *to, *kind, place, *argument),
            Action::Install(registers) => self.install(frame, registers, by, &mut swept),
            Action::Reinstall(old, new) => self.reinstall(frame, *old, *new, by, &mut swept),
            Action::Notify(registers) => {
                descs_in(&self.store, frame, registers, |kind| kind != PPI).and_then(|descs| self.store.notify(&descs, by)).map(|sweep| {
                    swept = Some((sweep, 0, 0));
                    Shown::Nothing
                })
            }
            Action::Locate(to, value, guid, instance) => match self.store.ppis_of.of(guid).get(*instance as usize) {
                None => Err(Status::NotFound),
                Some(ppi) => {
                    let desc = self.store.ppis[*ppi].desc;
                    let number = self.store.descs[desc].number;
                    frame.set(*to, Reg::Desc(desc));
                    frame.set(*value, Reg::Number(number));
                    Ok(Shown::Hex(number))
                }
            },
            Action::Hob(kind, body) => self.store.hob(*kind, body).map(|place| Shown::Hex(self.store.address(place))),
            Action::Memory(begin, len) => frame
                .number(*begin)
                .and_then(|begin| Ok((begin, frame.number(*len)?)))
                .and_then(|(begin, len)| self.store.plan_memory(begin, len))
                .map(|()| Shown::Nothing),
            Action::Pages(to, kind, count) => self.store.pages(*kind, *count).map(|address| {
                frame.set(*to, Reg::Number(address));
                Shown::Hex(address)
            }),
            Action::BootMode(0, to) => {
                frame.set(*to, Reg::Number(self.store.boot_mode as u64));
                Ok(Shown::Hex(self.store.boot_mode as u64))
            }
            Action::BootMode(_, from) => match frame.number(*from).map(u32::try_from) {
                Ok(Ok(mode)) => {
                    self.store.set_boot_mode(mode);
                    Ok(Shown::Nothing)
                }
                _ => Err(Status::InvalidParameter),
            },
            Action::Shadow => self.shadow(frame.module),
            _ => unreachable!("an action of DXE"),
        };
        frame.last = put_call(out, name, answer)?;
        Ok(swept)
    }

    fn desc(&mut self, frame: &mut Frame<'a, Sweep>, to: u8, kind: u8, place: &Where, argument: u8) -> Result<Shown, Status> {
        let number = if kind == PPI { frame.number(argument)? } else { frame.module as u64 * 64 + argument as u64 };
        let (guid, at) = match place {
            Where::Here(guid) => (*guid, None),
            Where::At(register) => {
                let at = frame.number(*register)?;
                let bytes = self.store.read_volumes(self.images, at, 16).ok_or(Status::InvalidParameter)?;
                (Guid::at(&bytes, 0), Some(at))
            }
        };
        let desc = self.store.desc(kind, guid, at, number)?;
        frame.set(to, Reg::Desc(desc));
        Ok(Shown::Hex(self.store.address(self.store.descs[desc].place)))
    }

    fn install(&mut self, frame: &Frame<'a, Sweep>, registers: &[u8], by: u32, swept: &mut Option<(Sweep, usize, usize)>) -> Result<Shown, Status> {
        let descs = descs_in(&self.store, frame, registers, |kind| kind == PPI)?;
        let first = self.store.ppis.len();
        *swept = Some((self.store.install(&descs, by)?, first, descs.len()));
        for desc in descs {
            self.waiting.came(self.store.descs[desc].guid);
        }
        Ok(Shown::Nothing)
    }

    fn reinstall(&mut self, frame: &Frame<'a, Sweep>, old: u8, new: u8, by: u32, swept: &mut Option<(Sweep, usize, usize)>) -> Result<Shown, Status> {
        let old = descs_in(&self.store, frame, &[old], |_| true)?[0];
        let new = descs_in(&self.store, frame, &[new], |kind| kind == PPI)?[0];
        let sweep = self.store.reinstall(old, new, by)?;
        let place = sweep.first();
        self.waiting.went(self.store.descs[old].guid);
        self.waiting.came(self.store.descs[new].guid);
        *swept = Some((sweep, place, 1));
        Ok(Shown::Nothing)
    }

    fn shadow(&mut self, module: usize) -> Result<Shown, Status> {
        if rules().shadow_current_alone && self.starts.1 != Some(module) {
            return Err(Status::NotFound);
        }
        if self.states[module] != State::Started {
            return Err(Status::AlreadyStarted);
        }
        self.states[module] = State::Registered;
        self.weigh(self.waiting.place_of[&module]);
        Ok(Shown::Nothing)
    }

    /// Reports the volume that an installed PPI tells of.
    fn look_at(&mut self, ppi: usize, out: &mut Out) -> Result<(), Halt> {
        let desc = &self.store.descs[self.store.ppis[ppi].desc];
        if desc.guid != VOLUME_INFO {
            return Ok(());
        }
        let Some(bytes) = self.store.read(self.images, desc.number, 48) else { return Ok(()) };
        let system = Guid::at(&bytes, 0);
        match self.catalog.volume_at(u64_at(&bytes, 16)) {
            Some(volume) if (system == FFS2 || system == FFS3) && !self.reported[volume] => self.report(volume, out),
            _ => Ok(()),
        }
    }
}

fn descs_in(store: &Store, frame: &Frame<'_, Sweep>, registers: &[u8], wanted: impl Fn(u8) -> bool) -> Result<Vec<usize>, Status> {
    let desc = |register: &u8| match frame.regs[*register as usize] {
        Reg::Desc(desc) if wanted(store.descs[desc].kind) => Ok(desc),
        _ => Err(Status::InvalidParameter),
    };
    registers.iter().map(desc).collect()
}

fn name_of(action: &Action) -> &'static str {
    match action {
        Action::Pool(..) => "pool",
        Action::Store(..) => "store",
        Action::Desc(..) => "desc",
        Action::Install(..) => "install",
        Action::Reinstall(..) => "reinstall",
        Action::Notify(..) => "notify",
        Action::Locate(..) => "locate",
        Action::Hob(..) => "hob",
        Action::Memory(..) => "memory",
        Action::Pages(..) => "pages",
        Action::BootMode(..) => "boot_mode",
        Action::Shadow => "shadow",
        _ => "addr",
    }
}
