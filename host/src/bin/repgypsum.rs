//! The planner's command line; what it does is in `repgypsum_host::command`.

use repgypsum_host::command::{run, Complaint, Done};
use std::ffi::OsString;
use std::io::{self, ErrorKind, Write};
use std::process::ExitCode;
use std::sync::atomic::{AtomicBool, Ordering};

/// Whether standard output was closed when the program began: the standard library puts an empty file in its place.
static CLOSED: AtomicBool = AtomicBool::new(false);

#[cfg(target_os = "linux")]
mod before_main {
    use super::{Ordering, CLOSED};

    extern "C" {
        fn fcntl(descriptor: i32, command: i32, ...) -> i32;
    }

    /// fcntl's question for a descriptor's flags, which fails for a closed one.
    const GET_FLAGS: i32 = 1;

    extern "C" fn look_at_output() {
        // Safety: fcntl takes any descriptor and changes nothing with this command.
        let closed = unsafe { fcntl(1, GET_FLAGS) } == -1;
        CLOSED.store(closed, Ordering::Relaxed);
    }

    /// Called by the loader before the standard library begins.
    #[used]
    #[link_section = ".init_array"]
    static LOOK: extern "C" fn() = look_at_output;
}

/// Writes the output whole, or says why it cannot be written. A reader that wants no more of it gets no more.
fn write(done: &Done) -> Result<u8, Complaint> {
    let complaint = |error| Complaint::new(format!("standard output cannot be written: {error}"));
    if CLOSED.load(Ordering::Relaxed) {
        return Err(complaint("it is closed".to_string()));
    }
    let mut out = io::stdout().lock();
    let written = out.write_all(&done.output).and_then(|()| out.flush());
    match written {
        Ok(()) => {}
        Err(error) if error.kind() == ErrorKind::BrokenPipe => {}
        Err(error) => return Err(complaint(error.to_string())),
    }
    for note in &done.notes {
        // Nothing is left to do where standard error is closed.
        let _ = writeln!(io::stderr(), "repgypsum: {note}");
    }
    Ok(done.status)
}

fn main() -> ExitCode {
    let arguments: Vec<OsString> = std::env::args_os().skip(1).collect();
    match run(&arguments, &mut io::stdin().lock()).and_then(|done| write(&done)) {
        Ok(status) => ExitCode::from(status),
        Err(complaint) => {
            let _ = io::stderr().write_all(complaint.text().as_bytes());
            ExitCode::from(complaint.status)
        }
    }
}
