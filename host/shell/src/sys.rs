//! The few calls of the system that the standard library lacks at this version of Rust. No other
//! file has unsafe code.

#![allow(unsafe_code)]

use std::fs::File;
use std::os::fd::AsRawFd;
use std::os::unix::process::CommandExt;
use std::process::Command;

/// Locks a file against other processes; false where another one has it for a second. A process that
/// this one starts has its locks for a moment, until it is another program, also one that was released.
pub fn lock(file: &File) -> bool {
    let is_locked = || {
        // SAFETY: the descriptor is open, and the call reads and writes no memory of this process.
        unsafe { libc::flock(file.as_raw_fd(), libc::LOCK_EX | libc::LOCK_NB) == 0 }
    };
    (0..100).any(|_| {
        let is_locked = is_locked();
        if !is_locked {
            std::thread::sleep(std::time::Duration::from_millis(10));
        }
        is_locked
    })
}

/// Fills this, at most 256 bytes, with some that nobody can foresee, once the system has enough.
pub fn draw(to: &mut [u8]) -> std::io::Result<()> {
    // SAFETY: the call writes that many bytes at most, which are those of `to`.
    let size = unsafe { libc::getrandom(to.as_mut_ptr().cast(), to.len(), 0) };
    // So few bytes come all together, or none.
    if usize::try_from(size) == Ok(to.len()) {
        Ok(())
    } else {
        Err(std::io::Error::last_os_error())
    }
}

/// Has the allocator keep memory level over sessions. By default it gives threads heaps of their own,
/// from which other threads free what a session took, and keeps more of what is free with each log
/// that was read.
#[cfg(target_env = "gnu")]
pub fn keep_memory_level() {
    const MAPPED_FROM: libc::c_int = 1 << 18;
    // SAFETY: the calls take numbers, and no other thread runs yet.
    unsafe {
        libc::mallopt(libc::M_ARENA_MAX, 1);
        libc::mallopt(libc::M_MMAP_THRESHOLD, MAPPED_FROM);
    }
}

/// Other allocators decide that by themselves.
#[cfg(not(target_env = "gnu"))]
pub fn keep_memory_level() {}

/// Gives memory back to the system that a session or a log took.
pub fn return_free_memory() {
    // SAFETY: the call takes a number, and touches no memory that is in use.
    #[cfg(target_env = "gnu")]
    unsafe {
        libc::malloc_trim(0);
    }
}

/// Ends the process as a crash does.
pub fn die() -> ! {
    // SAFETY: neither call reads or writes memory of this process.
    unsafe { libc::kill(libc::getpid(), libc::SIGKILL) };
    std::process::abort()
}

/// Has a command let other processes have the processors first. Where that is not allowed, nothing
/// changes.
///
/// Linux shares the processors out among sessions of processes before it looks at priorities
/// (autogroups): as one of its replica's session, a process of the lowest priority would take from
/// other replicas as much as this one. So it gets a session of its own, with a low priority: a tenth
/// of what others get, so that it ends also where all processors are busy.
pub fn yield_to_others(command: &mut Command) {
    let before_it_starts = || {
        // SAFETY: each call may be made between a fork and the start of a program. None of them
        // writes memory of this process, and what they read is constant.
        unsafe {
            libc::setsid();
            libc::setpriority(libc::PRIO_PROCESS, 0, 19);
            let file = libc::open(c"/proc/self/autogroup".as_ptr(), libc::O_WRONLY);
            if file >= 0 {
                libc::write(file, c"10".as_ptr().cast(), 2);
                libc::close(file);
            }
        }
        Ok(())
    };
    // SAFETY: the closure allocates nothing, takes no lock and does not panic.
    unsafe { command.pre_exec(before_it_starts) };
}

/// Has Linux send SIGTERM to this process once its parent has ended.
pub fn stop_with_parent() {
    // SAFETY: this option takes a number, and reads and writes no memory of this process.
    unsafe { libc::prctl(libc::PR_SET_PDEATHSIG, libc::SIGTERM) };
}

#[cfg(test)]
mod tests {
    use super::*;

    #[test]
    fn a_command_that_yields_has_a_low_priority_also_among_sessions() {
        let run = || {
            let mut command = Command::new("sh");
            command.args(["-c", "nice; grep . /proc/self/autogroup || echo none nice 10"]);
            yield_to_others(&mut command);
            String::from_utf8(command.output().unwrap().stdout).unwrap()
        };
        let yields = |it: &str| it.starts_with("19\n") && it.ends_with("nice 10\n");
        // Linux sets few of them a second, and tells those that come too early to try again.
        let pause = || std::thread::sleep(std::time::Duration::from_millis(100));
        let mut outputs = (0..100).map(|_| run()).inspect(|it| {
            if !yields(it) {
                pause();
            }
        });
        assert!(outputs.any(|it| yields(&it)), "{}", run());
    }
}
