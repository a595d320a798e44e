//! A plain program beside the proved ones: the same command lines, the same texts, the same exit statuses, written from
//! docs/FORMATS.md, docs/SERVICES.md, docs/BOOT-MACHINE.md and docs/TOOLS.md with vectors and hash maps, and without proofs.
//! `scripts/measure` builds it with `rustc -O` and compares what the two take.
mod bytes;
mod catalog;
mod depex;
mod dxe;
mod frame;
mod gcd;
mod generate;
mod guids;
mod mp;
mod out;
mod pei;
mod plan;
mod rules;
mod script;
mod store;
mod text;
mod volume;
mod waiting;
mod walk;

use bytes::Hex;
use catalog::{catalog, Catalog, Part};
use depex::Expr;
use dxe::Dxe;
use out::{Halt, Out};
use pei::{End, Pei};
use plan::Plan;
use script::Phase;
use std::collections::HashSet;
use store::Store;
use volume::Fault;

/// An answer other than the run's own text: its line and its exit status.
struct Refusal(String, i32);

const DONE: i32 = 0;
const USAGE: i32 = 1;
const FILE_FAULT: i32 = 2;
const TOO_LONG: i32 = 3;
const PLAN_REFUSED: i32 = 4;
const IMAGE_REFUSED: i32 = 5;
const NO_HANDOFF: i32 = 6;
const SPENT: i32 = 7;
const DEEP: i32 = 8;
const SINK_FAULT: i32 = 9;
const NO: i32 = 11;
const TWINS: i32 = 12;
const HOBS_REFUSED: i32 = 13;
const COMMAND_REFUSED: i32 = 14;
const TEXT_REFUSED: i32 = 15;

const KIB_64: u64 = 64 << 10;
const MIB_1: u64 = 1 << 20;
const MIB_64: u64 = 64 << 20;

fn main() {
    let mut words: Vec<String> = std::env::args_os().skip(1).map(|word| word.into_string().unwrap_or_default()).collect();
    if let Err(word) = rules::take(&mut words) {
        eprintln!("plain: {word} is no rule of EDK2 (compare/plain/rules.rs)");
        std::process::exit(USAGE);
    }
    // An expression's text may be nested as deep as it is long.
    let run = std::thread::Builder::new().stack_size(1 << 30).spawn(move || answer(&words)).unwrap();
    std::process::exit(run.join().unwrap());
}

fn answer(words: &[String]) -> i32 {
    let mut out = Out::printed();
    let told = tell(&words.iter().map(String::as_str).collect::<Vec<_>>(), &mut out);
    let put = match told {
        Err(Refusal(line, status)) if !line.is_empty() => put!(&mut out, "{line}").map(|()| status),
        Err(Refusal(_, status)) | Ok(status) => Ok(status),
    };
    match put.and_then(|status| out.end().map(|()| status)) {
        Ok(status) => status,
        Err(_) => SINK_FAULT,
    }
}

fn tell(words: &[&str], out: &mut Out) -> Result<i32, Refusal> {
    if words.iter().any(|word| word.is_empty()) {
        return Err(usage());
    }
    match words {
        ["boot", name] => {
            let (plan, images) = read_boot(name)?;
            boot(&plan, &examined(&plan, &images)?, &images, out).map_err(halted)
        }
        ["audit", name] => {
            let (plan, images) = read_boot(name)?;
            audit(&examined(&plan, &images)?, out).map_err(halted)
        }
        ["generate", count] => match count.parse::<usize>() {
            Ok(number) if (1..=4_096).contains(&number) && number.to_string() == *count => generated(number, out),
            _ => Err(usage()),
        },
        ["check", name, trace] => check(name, trace, out),
        ["gcd", hobs, commands] => {
            let (hobs, commands) = (read_file(hobs, MIB_1)?, read_file(commands, KIB_64)?);
            let mut map = gcd::map_of(&hobs).map_err(|Fault(cause, at)| Refusal(format!("refused hobs {cause} {at}"), HOBS_REFUSED))?;
            let commands = gcd::read_commands(&commands).map_err(bad_command)?;
            gcd::run(&mut map, &commands, out).map(|()| DONE).map_err(halted)
        }
        ["mp", name] => {
            let text = read_file(name, KIB_64)?;
            mp::read(&text).map_err(bad_command)?.run(out).map(|()| DONE).map_err(halted)
        }
        ["asm", kind @ ("depex" | "script"), name] => {
            let text = read_file(name, MIB_1)?;
            let bytes = if *kind == "depex" { text::asm_depex(&text) } else { text::asm_script(&text) };
            let refused = |refused| match refused {
                text::Refused::Line(line) => Refusal(format!("refused text {line}"), TEXT_REFUSED),
                text::Refused::Long => Refusal("refused text long".into(), TEXT_REFUSED),
            };
            put!(out, "{}", Hex(&bytes.map_err(refused)?)).map(|()| DONE).map_err(halted)
        }
        ["dis", kind @ ("pei" | "dxe" | "script"), name] => {
            let bytes = read_file(name, MIB_1)?;
            let refused = |Fault(cause, at)| Refusal(format!("refused bytes {cause} {at}"), TEXT_REFUSED);
            let text = match *kind {
                "script" => text::dis_script(&script::read(&bytes).map_err(refused)?),
                phase => match depex::read(&bytes, if phase == "pei" { Phase::Pei } else { Phase::Dxe }) {
                    Expr::Malformed(at) => return Err(refused(Fault("Malformed", at))),
                    expr => text::dis_depex(&expr) + "\n",
                },
            };
            put!(out, "{}", text.trim_end_matches('\n')).map(|()| DONE).map_err(halted)
        }
        _ => Err(usage()),
    }
}

fn usage() -> Refusal {
    Refusal("refused usage".into(), USAGE)
}

fn bad_command(line: usize) -> Refusal {
    Refusal(format!("refused command {line}"), COMMAND_REFUSED)
}

fn halted(halt: Halt) -> Refusal {
    match halt {
        Halt::Other(line) => Refusal(format!("no {line}"), NO),
        Halt::Sink => Refusal(String::new(), SINK_FAULT),
    }
}

fn read_file(name: &str, most: u64) -> Result<Vec<u8>, Refusal> {
    use std::io::Read;
    let fault = |_| Refusal(format!("refused file {name}"), FILE_FAULT);
    let file = std::fs::File::open(name).map_err(fault)?;
    let mut bytes = Vec::with_capacity(file.metadata().map_or(0, |it| it.len().min(most) as usize + 1));
    file.take(most + 1).read_to_end(&mut bytes).map_err(fault)?;
    if bytes.len() as u64 > most {
        Err(Refusal(format!("refused long {name}"), TOO_LONG))
    } else {
        Ok(bytes)
    }
}

/// A plan and the images of its volumes.
fn read_boot(name: &str) -> Result<(Plan, Vec<Vec<u8>>), Refusal> {
    read_images(&read_file(name, KIB_64)?)
}

/// The plan that a text is, and the images of its volumes.
fn read_images(text: &[u8]) -> Result<(Plan, Vec<Vec<u8>>), Refusal> {
    let plan = plan::read(text).map_err(|(line, cause)| Refusal(format!("refused plan {line} {cause}"), PLAN_REFUSED))?;
    let images = plan.volumes.iter().map(|(_, name)| read_file(name, MIB_64)).collect::<Result<_, _>>()?;
    Ok((plan, images))
}

fn examined<'a>(plan: &Plan, images: &'a [Vec<u8>]) -> Result<Catalog<'a>, Refusal> {
    catalog(plan, images).map_err(|(volume, Fault(cause, at))| Refusal(format!("refused image {volume} {at} {cause}"), IMAGE_REFUSED))
}

fn boot(plan: &Plan, catalog: &Catalog, images: &[Vec<u8>], out: &mut Out) -> Result<i32, Halt> {
    let mut pei = Pei::new(catalog, images, Store::new(plan, catalog), plan.fuel);
    let mut end = pei.run(out)?;
    let mut dxe = Dxe::new(catalog, images, &pei.store, pei.actions, plan.fuel);
    if end == End::Done {
        end = dxe.run(out)?;
    }
    pei.store.put_lists(out)?;
    put!(out, "handles {}", dxe.handles.values().map(Vec::len).sum::<usize>())?;
    for (handle, interfaces) in &dxe.handles {
        for (guid, value) in interfaces {
            put!(out, "handle {handle} {guid} {value:#x}")?;
        }
    }
    put!(out, "result {end:?}")?;
    Ok(status_of(end))
}

fn status_of(end: End) -> i32 {
    match end {
        End::Done => DONE,
        End::NoMemory | End::NoIpl => NO_HANDOFF,
        End::Spent => SPENT,
        End::Deep => DEEP,
    }
}

fn audit(catalog: &Catalog, out: &mut Out) -> Result<i32, Halt> {
    for (number, volume) in catalog.volumes.iter().enumerate() {
        out.add(format_args!("volume {number} {:#x} {} ", volume.base, volume.length));
        match volume.name {
            Some(name) => put!(out, "{name}")?,
            None => put!(out, "-")?,
        }
        for &number in &catalog.of_volume[number] {
            let module = &catalog.modules[number];
            out.add(format_args!("module {number} {} {} {:02x}", module.volume, module.name, module.kind));
            for part in [&module.pei, &module.dxe] {
                match part.as_ref().and_then(|part| part.rank) {
                    Some(rank) => out.add(format_args!(" {rank}")),
                    None => out.add(format_args!(" -")),
                }
            }
            put!(out, " {} {}", expr_word(&module.pei), expr_word(&module.dxe))?;
        }
    }
    put!(out, "result Done")?;
    Ok(DONE)
}

fn expr_word(part: &Option<Part>) -> String {
    match part.as_ref().map(|part| &part.expr) {
        None => "-".into(),
        Some(Expr::Absent) => "absent".into(),
        Some(Expr::Malformed(at)) => format!("malformed@{at}"),
        Some(Expr::Tree { sor: true, .. }) => "sor".into(),
        Some(Expr::Tree { .. }) => "expr".into(),
        Some(Expr::Before(name)) => format!("before={name}"),
        Some(Expr::After(name)) => format!("after={name}"),
    }
}

fn generated(count: usize, out: &mut Out) -> Result<i32, Refusal> {
    let plan = plan::read(generate::PLAN).ok().unwrap();
    let images = vec![generate::volume(count)];
    let catalog = examined(&plan, &images)?;
    let mut pei = Pei::new(&catalog, &images, Store::new(&plan, &catalog), plan.fuel);
    let mut nowhere = Out::nowhere();
    let mut end = pei.run(&mut nowhere).map_err(halted)?;
    if end == End::Done {
        end = Dxe::new(&catalog, &images, &pei.store, pei.actions, plan.fuel).run(&mut nowhere).map_err(halted)?;
    }
    let mut put = |name: &str, number: String| put!(&mut *out, "{name} {number}").map_err(halted);
    put("modules", count.to_string())?;
    put("starts", pei.starts.0.to_string())?;
    put("last", pei.starts.1.map_or("-".into(), |module| generate::number_of(&catalog.modules[module].name).to_string()))?;
    put("actions", pei.actions.to_string())?;
    put("ppis", pei.store.ppis.len().to_string())?;
    put("hobs", pei.store.hobs().count().to_string())?;
    put("heap", pei.store.heap_len().to_string())?;
    put("result", format!("{end:?}"))?;
    Ok(status_of(end))
}

fn check(name: &str, trace: &str, out: &mut Out) -> Result<i32, Refusal> {
    let (text, trace) = (read_file(name, KIB_64)?, read_file(trace, MIB_64)?);
    let (plan, images) = read_images(&text)?;
    let catalog = examined(&plan, &images)?;
    let mut names = HashSet::new();
    if let Some(twin) = catalog.modules.iter().find(|module| !names.insert((module.volume, module.name))) {
        return Err(Refusal(format!("refused twins {}", twin.volume), TWINS));
    }
    let mut beside = Out::beside(&trace);
    boot(&plan, &catalog, &images, &mut beside).and_then(|_| beside.end()).map_err(halted)?;
    put!(out, "yes").map(|()| DONE).map_err(halted)
}
