//! The calls of the system that the standard library has no name for, declared by hand for Linux.

use std::ffi::CString;
use std::fs::File;
use std::io;
use std::net::TcpStream;
use std::os::raw::{c_char, c_int, c_uint, c_ulong, c_void};
use std::os::unix::io::AsRawFd;
use std::os::unix::net::UnixDatagram;
use std::os::unix::process::CommandExt;
use std::process::{Child, Command};
use std::time::Duration;

pub const SIGHUP: i32 = 1;
pub const SIGINT: i32 = 2;
pub const SIGTERM: i32 = 15;
const SIGKILL: c_int = 9;

const SOL_SOCKET: c_int = 1;
const SO_KEEPALIVE: c_int = 9;
const IPPROTO_TCP: c_int = 6;
const TCP_KEEPIDLE: c_int = 4;
const TCP_KEEPINTVL: c_int = 5;
const TCP_KEEPCNT: c_int = 6;
const TCP_USER_TIMEOUT: c_int = 18;
const AF_UNIX: u16 = 1;
const LOCK_EX: c_int = 2;
const LOCK_NB: c_int = 4;
const LOCK_UN: c_int = 8;
const F_SETFD: c_int = 2;
const X_OK: c_int = 1;
const PR_SET_PDEATHSIG: c_int = 1;
const MSG_NOSIGNAL: c_int = 0x4000;

extern "C" {
    fn signal(number: c_int, handler: extern "C" fn(c_int)) -> usize;
    fn umask(mask: c_uint) -> c_uint;
    fn chown(path: *const c_char, user: c_uint, group: c_uint) -> c_int;
    fn flock(file: c_int, operation: c_int) -> c_int;
    fn setpgid(process: c_int, group: c_int) -> c_int;
    fn getppid() -> c_int;
    fn prctl(option: c_int, ...) -> c_int;
    fn fcntl(file: c_int, command: c_int, ...) -> c_int;
    fn access(path: *const c_char, mode: c_int) -> c_int;
    fn kill(process: c_int, number: c_int) -> c_int;
    fn setsockopt(socket: c_int, level: c_int, name: c_int, value: *const c_void, length: c_uint) -> c_int;
    fn sendto(
        socket: c_int,
        bytes: *const c_void,
        length: usize,
        flags: c_int,
        address: *const UnixAddress,
        address_length: c_uint,
    ) -> isize;
}

/// `struct sockaddr_un`.
#[repr(C)]
struct UnixAddress {
    family: u16,
    path: [u8; 108],
}

/// The handler must do nothing but store to an atomic.
pub fn on_signal(number: i32, handler: extern "C" fn(i32)) {
    // SAFETY: the handler is a function that lives as long as the program and, by this function's demand, only stores to an
    // atomic, which is allowed in a signal handler.
    unsafe { signal(number, handler) };
}

/// Does something while new files are made for their owner only.
pub fn with_private_files<T>(act: impl FnOnce() -> T) -> T {
    // SAFETY: umask has no precondition; it changes a number of the process.
    let before = unsafe { umask(0o177) };
    let done = act();
    // SAFETY: as above.
    unsafe { umask(before) };
    done
}

/// Takes a lock that ends with the file or with the process; an error of kind WouldBlock where another has it.
pub fn lock(file: &File) -> io::Result<()> {
    // SAFETY: the file is open while it is borrowed.
    if unsafe { flock(file.as_raw_fd(), LOCK_EX | LOCK_NB) } == 0 {
        Ok(())
    } else {
        Err(io::Error::last_os_error())
    }
}

/// Ends a lock for all that have the file from us, too.
pub fn unlock(file: &File) {
    // SAFETY: the file is open while it is borrowed.
    unsafe { flock(file.as_raw_fd(), LOCK_UN) };
}

/// Errors that go away without another word from anybody: no space, too many files, a file system that is read-only or gives errors.
pub fn may_pass(error: &io::Error) -> bool {
    const EIO: i32 = 5;
    const ENFILE: i32 = 23;
    const EMFILE: i32 = 24;
    const ENOSPC: i32 = 28;
    const EROFS: i32 = 30;
    const EDQUOT: i32 = 122;
    matches!(error.raw_os_error(), Some(EIO | ENFILE | EMFILE | ENOSPC | EROFS | EDQUOT))
}

/// Whether we may run this file.
pub fn is_executable(path: &str) -> io::Result<()> {
    let path = CString::new(path)?;
    // SAFETY: the path ends with a zero and lives during the call.
    match unsafe { access(path.as_ptr(), X_OK) } {
        0 => Ok(()),
        _ => Err(io::Error::last_os_error()),
    }
}

/// The program that is run, and all that it runs, make a group of their own: a signal from the terminal is not theirs. It is killed when the
/// thread that ran it is gone, however we end, and it and all that it runs keep `lock` open.
pub fn bind_to_us(command: &mut Command, lock: Option<&File>) {
    let (us, lock) = (std::process::id() as c_int, lock.map(AsRawFd::as_raw_fd));
    let before_exec = move || {
        // SAFETY: between fork and exec the closure makes system calls with numbers alone and nothing else.
        let done = unsafe {
            setpgid(0, 0) == 0
                && prctl(PR_SET_PDEATHSIG, SIGKILL as c_ulong) == 0
                && lock.map_or(true, |lock| fcntl(lock, F_SETFD, 0 as c_int) == 0)
                // Were we gone before it was asked for, nothing would kill it.
                && getppid() == us
        };
        if done {
            Ok(())
        } else {
            Err(io::Error::last_os_error())
        }
    };
    // SAFETY: as above, and what it gives allocates nothing.
    unsafe { command.pre_exec(before_exec) };
}

/// Ends a child that was run in a group of its own and has not been waited for, with all that it runs.
pub fn kill_group(child: &Child) {
    // SAFETY: kill has no precondition; until it is waited for, no other process has the child's number.
    unsafe { kill(-(child.id() as c_int), SIGKILL) };
}

fn set_option(stream: &TcpStream, level: c_int, name: c_int, value: c_int) -> io::Result<()> {
    let length = std::mem::size_of::<c_int>() as c_uint;
    // SAFETY: the socket is open while `stream` is borrowed, and the value is an int that lives during the call, of the length that
    // is passed.
    let done = unsafe { setsockopt(stream.as_raw_fd(), level, name, (&value as *const c_int).cast(), length) };
    if done == 0 {
        Ok(())
    } else {
        Err(io::Error::last_os_error())
    }
}

/// A connection whose other end is gone without a word ends by itself: asked after `idle` of silence, three times; and what is
/// sent and not taken ends it after `unanswered`.
pub fn end_when_dead(stream: &TcpStream, idle: Duration, unanswered: Duration) -> io::Result<()> {
    let seconds = idle.as_secs().max(1) as c_int;
    set_option(stream, SOL_SOCKET, SO_KEEPALIVE, 1)?;
    set_option(stream, IPPROTO_TCP, TCP_KEEPIDLE, seconds)?;
    set_option(stream, IPPROTO_TCP, TCP_KEEPINTVL, (seconds / 3).max(1))?;
    set_option(stream, IPPROTO_TCP, TCP_KEEPCNT, 3)?;
    set_option(stream, IPPROTO_TCP, TCP_USER_TIMEOUT, unanswered.as_millis() as c_int)
}

/// Gives a file to a group; its user stays.
pub fn give_to_group(path: &str, group: u32) -> io::Result<()> {
    let path = CString::new(path)?;
    // SAFETY: the path ends with a zero and lives during the call; u32::MAX leaves the user as it is.
    match unsafe { chown(path.as_ptr(), u32::MAX, group) } {
        0 => Ok(()),
        _ => Err(io::Error::last_os_error()),
    }
}

/// Sends a datagram to a Unix socket by its path, or by its abstract name where the path begins with @.
pub fn send_datagram(socket: &UnixDatagram, path: &[u8], bytes: &[u8]) -> io::Result<()> {
    let mut address = UnixAddress { family: AF_UNIX, path: [0; 108] };
    if path.is_empty() || path.len() >= address.path.len() {
        return Err(io::ErrorKind::InvalidInput.into());
    }
    address.path[..path.len()].copy_from_slice(path);
    if path[0] == b'@' {
        address.path[0] = 0;
    }
    let length = std::mem::size_of::<u16>() + path.len();
    // SAFETY: the socket is open while it is borrowed; the bytes and the address live during the call, and the lengths are theirs:
    // the path was checked to fit.
    let sent = unsafe { sendto(socket.as_raw_fd(), bytes.as_ptr().cast(), bytes.len(), MSG_NOSIGNAL, &address, length as c_uint) };
    if sent < 0 {
        Err(io::Error::last_os_error())
    } else {
        Ok(())
    }
}

#[cfg(test)]
mod tests {
    use super::*;
    use std::net::TcpListener;

    extern "C" {
        fn getsockopt(socket: c_int, level: c_int, name: c_int, value: *mut c_void, length: *mut c_uint) -> c_int;
    }

    fn option(stream: &TcpStream, level: c_int, name: c_int) -> c_int {
        let (mut value, mut length): (c_int, c_uint) = (-1, 4);
        // SAFETY: the value has the four bytes that the length says.
        let done = unsafe { getsockopt(stream.as_raw_fd(), level, name, (&mut value as *mut c_int).cast(), &mut length) };
        assert_eq!(done, 0);
        value
    }

    #[test]
    fn dead_connections_end() {
        let listener = TcpListener::bind("127.0.0.1:0").unwrap();
        let stream = TcpStream::connect(listener.local_addr().unwrap()).unwrap();
        end_when_dead(&stream, Duration::from_secs(30), Duration::from_secs(60)).unwrap();
        assert_eq!(option(&stream, SOL_SOCKET, SO_KEEPALIVE), 1);
        let times = [TCP_KEEPIDLE, TCP_KEEPINTVL, TCP_KEEPCNT].map(|name| option(&stream, IPPROTO_TCP, name));
        assert_eq!(times, [30, 10, 3]);
        assert_eq!(option(&stream, IPPROTO_TCP, TCP_USER_TIMEOUT), 60_000);
    }

    #[test]
    fn abstract_names_are_reached() {
        let socket = UnixDatagram::unbound().unwrap();
        let nowhere = send_datagram(&socket, b"@nobody listens here", b"x").unwrap_err();
        assert_eq!(nowhere.kind(), io::ErrorKind::ConnectionRefused);
        assert!(send_datagram(&socket, &[b'/'; 200], b"x").is_err());
    }
}
