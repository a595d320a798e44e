//! The catalogue of a plan's images (docs/CATALOGUE.md).
use crate::bytes::Guid;
use crate::depex::{self, Expr};
use crate::guids::{DXE_APRIORI, PEI_APRIORI};
use crate::plan::{Plan, Span, TOP};
use crate::script::{self, Phase, Script};
use crate::volume::{read_sections, read_volume, Fault, File, Section};
use std::collections::HashMap;
use std::rc::Rc;

pub struct Part<'a> {
    pub rank: Option<u32>,
    pub expr: Expr,
    pub script: Option<Rc<Script<'a>>>,
}

pub struct Module<'a> {
    pub volume: usize,
    pub name: Guid,
    pub kind: u8,
    pub pei: Option<Part<'a>>,
    pub dxe: Option<Part<'a>>,
}

pub struct Mapped {
    pub base: u64,
    pub length: u64,
    pub name: Option<Guid>,
    pub nested_in: Option<usize>,
    /// How many modules of the volume that it is nested in stand before its file.
    pub modules_before: usize,
    /// The name of the file that it is nested in.
    pub file_name: Option<Guid>,
    pub pei_asserts: bool,
    pub dxe_refuses: bool,
}

#[derive(Default)]
pub struct Catalog<'a> {
    pub volumes: Vec<Mapped>,
    pub modules: Vec<Module<'a>>,
    /// The modules of each volume, by place.
    pub of_volume: Vec<Vec<usize>>,
    by_base: HashMap<u64, usize>,
    parts: usize,
    script_bytes: usize,
    /// Modules by volume, until all volumes are known.
    found: Vec<Vec<Module<'a>>>,
}

const MOST_VOLUMES: usize = 256;
const MOST_MODULES: usize = 4_096;
const MOST_SCRIPT_BYTES: usize = 16 << 20;
const DEEPEST: usize = 4;

/// The catalogue, or the plan's volume and the fault of the first image that has one.
pub fn catalog<'a>(plan: &Plan, images: &'a [Vec<u8>]) -> Result<Catalog<'a>, (usize, Fault)> {
    let mut catalog = Catalog::default();
    for (number, image) in images.iter().enumerate() {
        catalog.add_volume(plan, number, image, 0, image.len(), None, None, 0).map_err(|fault| (number, fault))?;
    }
    for modules in std::mem::take(&mut catalog.found) {
        let first = catalog.modules.len();
        catalog.modules.extend(modules);
        catalog.of_volume.push((first..catalog.modules.len()).collect());
    }
    catalog.by_base = catalog.volumes.iter().enumerate().map(|(number, volume)| (volume.base, number)).collect();
    Ok(catalog)
}

impl<'a> Catalog<'a> {
    pub fn volume_at(&self, base: u64) -> Option<usize> {
        self.by_base.get(&base).copied()
    }

    /// A volume and all that are nested in it, in order.
    pub fn tree(&self, volume: usize) -> std::ops::Range<usize> {
        let mut end = volume + 1;
        while end < self.volumes.len() && self.volumes[end].nested_in.is_some_and(|parent| parent >= volume) {
            end += 1;
        }
        volume..end
    }

    #[allow(clippy::too_many_arguments)]
    fn add_volume(
        &mut self,
        plan: &Plan,
        number: usize,
        image: &'a [u8],
        at: usize,
        end: usize,
        nested_in: Option<usize>,
        file_name: Option<Guid>,
        depth: usize,
    ) -> Result<(), Fault> {
        if depth > DEEPEST {
            return Err(Fault("Nesting", at));
        }
        if self.volumes.len() == MOST_VOLUMES {
            return Err(Fault("TooManyVolumes", at));
        }
        let volume = read_volume(&image[at..end]).map_err(|Fault(cause, place)| Fault(cause, at + place))?;
        let base = match nested_in {
            None => plan.volumes[number].0,
            Some(_) => plan.volumes[number].0 + at as u64,
        };
        if nested_in.is_none() {
            let place = Span { base, len: volume.length };
            let ends = base.checked_add(volume.length).is_some_and(|end| end <= TOP);
            let taken = |span: &Span| span.meets(&place);
            let plan_volumes = self.volumes.iter().filter(|other| other.nested_in.is_none()).map(|other| Span { base: other.base, len: other.length });
            if !ends || taken(&plan.temp) || taken(&plan.ram) || plan_volumes.into_iter().any(|other| taken(&other)) {
                return Err(Fault("Place", 0));
            }
        }
        let own = self.volumes.len();
        self.volumes.push(Mapped {
            base,
            length: volume.length,
            name: volume.name,
            nested_in,
            modules_before: nested_in.map_or(0, |parent| self.found[parent].len()),
            file_name,
            pei_asserts: volume.pei_asserts,
            dxe_refuses: volume.dxe_refuses,
        });
        self.found.push(Vec::new());
        let mut lists: [Option<&[u8]>; 2] = [None, None];
        for file in &volume.files {
            let begin = at + file.begin;
            let body = &image[begin..at + file.end];
            let fault_in = |Fault(cause, place): Fault| Fault(cause, begin + place);
            match file.kind {
                0x06 | 0x07 | 0x08 | 0x0C => {
                    if self.parts == MOST_MODULES {
                        return Err(Fault("TooManyModules", at + file.at));
                    }
                    self.parts += 1;
                    let sections = read_sections(body).map_err(fault_in)?;
                    let module = self.module(own, file, body, &sections).map_err(fault_in)?;
                    self.found[own].push(module);
                }
                0x0B => {
                    let sections = read_sections(body).map_err(fault_in)?;
                    for section in sections.iter().filter(|section| section.kind == 0x17) {
                        self.add_volume(plan, number, image, begin + section.begin, begin + section.end, Some(own), Some(file.name), depth + 1)?;
                    }
                }
                0x02 => {
                    let which = [PEI_APRIORI, DXE_APRIORI].iter().position(|name| *name == file.name);
                    if let Some(which) = which.filter(|which| file.found[*which] && lists[*which].is_none()) {
                        let sections = read_sections(body).map_err(fault_in)?;
                        let list = sections.iter().find(|section| section.kind == 0x19).map_or(&body[..0], |section| &body[section.begin..section.end]);
                        lists[which] = Some(list);
                    }
                }
                _ => {}
            }
        }
        self.rank(own, Phase::Pei, lists[0].take().unwrap_or_default());
        self.rank(own, Phase::Dxe, lists[1].take().unwrap_or_default());
        Ok(())
    }

    fn module(&mut self, volume: usize, file: &File, body: &'a [u8], sections: &[Section]) -> Result<Module<'a>, Fault> {
        let mut scripts: [Option<Rc<Script<'a>>>; 2] = [None, None];
        for section in sections.iter().filter(|section| section.kind == 0x19) {
            let bytes = &body[section.begin..section.end];
            if bytes.starts_with(b"PIAS") {
                let script = script::read(bytes).map_err(|Fault(cause, at)| Fault(cause, section.begin + at))?;
                self.script_bytes += bytes.len();
                if self.script_bytes > MOST_SCRIPT_BYTES {
                    return Err(Fault("ScriptTotal", section.begin));
                }
                scripts[(script.phase == Phase::Dxe) as usize].get_or_insert(Rc::new(script));
            }
        }
        let expr = |kind: u8, phase: Phase| match sections.iter().find(|section| section.kind == kind) {
            None => Expr::Absent,
            Some(section) => depex::read(&body[section.begin..section.end], phase),
        };
        let [pei, dxe] = scripts;
        let part = |is_there: bool, expr: Expr, script: Option<Rc<Script<'a>>>| is_there.then_some(Part { rank: None, expr, script });
        Ok(Module {
            volume,
            name: file.name,
            kind: file.kind,
            pei: part([0x06, 0x08].contains(&file.kind) && file.found[0], expr(0x1B, Phase::Pei), pei),
            dxe: part(file.kind != 0x06 && file.found[1], expr(0x13, Phase::Dxe), dxe),
        })
    }

    /// Gives the parts of a volume their ranks in an a priori list.
    fn rank(&mut self, volume: usize, phase: Phase, list: &[u8]) {
        // The first file of each name, until it has its rank.
        let mut first: HashMap<Guid, Option<usize>> = HashMap::new();
        for (number, module) in self.found[volume].iter().enumerate() {
            if module.part(phase).is_some() {
                first.entry(module.name).or_insert(Some(number));
            }
        }
        let mut next = 0;
        for name in list.chunks_exact(16) {
            if let Some(number) = first.get_mut(&Guid::at(name, 0)).and_then(Option::take) {
                let module = &mut self.found[volume][number];
                let part = if phase == Phase::Pei { &mut module.pei } else { &mut module.dxe };
                part.as_mut().unwrap().rank = Some(next);
                next += 1;
            }
        }
    }

    /// The parts of a volume in the order of the phase: those with a rank by rank, the others by place.
    pub fn in_order(&self, volume: usize, phase: Phase) -> Vec<usize> {
        let mut parts: Vec<usize> = self.of_volume[volume].iter().copied().filter(|module| self.modules[*module].part(phase).is_some()).collect();
        parts.sort_by_key(|module| self.modules[*module].part(phase).unwrap().rank.unwrap_or(u32::MAX));
        parts
    }
}

impl<'a> Module<'a> {
    pub fn part(&self, phase: Phase) -> Option<&Part<'a>> {
        if phase == Phase::Pei {
            self.pei.as_ref()
        } else {
            self.dxe.as_ref()
        }
    }
}
