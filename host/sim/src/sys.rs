//! A run in a process of its own: the few calls of the system for that. No other file has unsafe code.

#![allow(unsafe_code)]

use std::fs::File;
use std::io::{Error, Read, Result, Write};
use std::mem::MaybeUninit;
use std::os::fd::FromRawFd;
use std::time::Duration;

/// A run that uses more processor time hangs. Seconds.
const MAX_SECONDS: u64 = 1800;

/// A process that was forked.
pub struct Child {
    process: libc::pid_t,
    pipe: File,
}

/// How a process ended.
pub struct Ended {
    /// What it wrote.
    pub bytes: Vec<u8>,
    /// The signal that ended it.
    pub signal: Option<i32>,
    /// The processor time that it used.
    pub used: Duration,
}

fn checked(result: libc::c_int) -> Result<libc::c_int> {
    if result < 0 {
        Err(Error::last_os_error())
    } else {
        Ok(result)
    }
}

fn pipe() -> Result<(File, File)> {
    let mut ends = [0; 2];
    // SAFETY: the call writes two descriptors into an array of two, and nobody else owns them.
    unsafe {
        checked(libc::pipe2(ends.as_mut_ptr(), libc::O_CLOEXEC))?;
        Ok((File::from_raw_fd(ends[0]), File::from_raw_fd(ends[1])))
    }
}

/// Forks. The child does the work, whose result is at most 64 KB, and ends.
///
/// Call it while this process has one thread.
pub fn fork(work: impl FnOnce() -> Vec<u8>) -> Result<Child> {
    let (reader, mut writer) = pipe()?;
    // SAFETY: there is one thread, so no lock is held that the child would wait for.
    let process = checked(unsafe { libc::fork() })?;
    if process > 0 {
        return Ok(Child { process, pipe: reader });
    }
    drop(reader);
    limit();
    let is_written = writer.write_all(&work()).is_ok();
    // SAFETY: the call ends this process.
    unsafe { libc::_exit(i32::from(!is_written)) }
}

/// This process ends with its parent, and where it hangs.
fn limit() {
    let limit = libc::rlimit { rlim_cur: MAX_SECONDS, rlim_max: MAX_SECONDS + 5 };
    // SAFETY: both calls take numbers, or read the limit. Where they fail, the child is not limited.
    unsafe {
        libc::prctl(libc::PR_SET_PDEATHSIG, libc::SIGKILL);
        libc::setrlimit(libc::RLIMIT_CPU, &raw const limit);
    }
}

fn duration(time: libc::timeval) -> Duration {
    Duration::from_secs(time.tv_sec as u64) + Duration::from_micros(time.tv_usec as u64)
}

/// Waits until one of these processes ends, and takes it from the list: its position, and how it ended.
pub fn wait(children: &mut Vec<Child>) -> Result<(usize, Ended)> {
    let (mut status, mut usage) = (0, MaybeUninit::<libc::rusage>::zeroed());
    // SAFETY: the call writes the status and the usage; zeros are a usage too.
    let (process, usage) = unsafe {
        let process = checked(libc::wait4(-1, &raw mut status, 0, usage.as_mut_ptr()))?;
        (process, usage.assume_init())
    };
    let Some(at) = children.iter().position(|it| it.process == process) else {
        return wait(children);
    };
    let mut bytes = Vec::new();
    children.remove(at).pipe.read_to_end(&mut bytes)?;
    let signal = libc::WIFSIGNALED(status).then(|| libc::WTERMSIG(status));
    Ok((at, Ended { bytes, signal, used: duration(usage.ru_utime) + duration(usage.ru_stime) }))
}
