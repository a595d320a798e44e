//! Runs a program and tells what it took: `took SECONDS PROGRAM WORD..`. Standard output is the program's.
//! On standard error stands one line: the exit status (or 128 and the signal), microseconds of user and of system time, and
//! the most resident memory in KiB. After so many seconds of processor time the program is killed.
//! A small program is needed for it: a child begins with the most memory that its parent had, and Python's is 20 MB.
use std::ffi::{c_int, c_long};
use std::os::unix::process::CommandExt;
use std::process::{exit, Command};

#[repr(C)]
#[derive(Default)]
struct Time {
    seconds: c_long,
    micros: c_long,
}

/// `struct rusage` of Linux; what stands behind the most memory is not read.
#[repr(C)]
#[derive(Default)]
struct Usage {
    user: Time,
    system: Time,
    most_memory: c_long,
    rest: [c_long; 13],
}

#[repr(C)]
struct Limit {
    soft: u64,
    hard: u64,
}

const PROCESSOR_SECONDS: c_int = 0;

extern "C" {
    fn wait4(pid: c_int, status: *mut c_int, options: c_int, usage: *mut Usage) -> c_int;
    fn setrlimit(which: c_int, limit: *const Limit) -> c_int;
}

fn main() {
    let mut words = std::env::args_os().skip(1);
    let (seconds, program) = match (words.next().and_then(|word| word.to_str()?.parse::<u64>().ok()), words.next()) {
        (Some(seconds), Some(program)) => (seconds, program),
        _ => usage(),
    };
    let mut command = Command::new(program);
    // SAFETY: between fork and exec only `setrlimit` is called, with a limit that lives there.
    unsafe {
        command.args(words).pre_exec(move || {
            setrlimit(PROCESSOR_SECONDS, &Limit { soft: seconds, hard: seconds });
            Ok(())
        });
    }
    let child = command.spawn().unwrap_or_else(|fault| {
        eprintln!("took: {fault}");
        exit(127)
    });
    let (mut status, mut used) = (0, Usage::default());
    // SAFETY: the child is this process's own and was not waited for; both places are there to be written.
    unsafe { wait4(child.id() as c_int, &mut status, 0, &mut used) };
    let code = if status & 0x7f == 0 { status >> 8 & 0xff } else { 128 + (status & 0x7f) };
    let micros = |time: Time| time.seconds * 1_000_000 + time.micros;
    eprintln!("{code} {} {} {}", micros(used.user), micros(used.system), used.most_memory);
}

fn usage() -> ! {
    eprintln!("took SECONDS PROGRAM WORD..");
    exit(2)
}
