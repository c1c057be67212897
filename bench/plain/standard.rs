//! What the sources find as `std`: Rattle's library as far as they use it, over that of plain Rust.

pub use std::{cmp, mem, slice, str};

pub mod alloc {
    pub use crate::prelude::{AllocError, AllocFailed, Global};
}

pub mod collections {
    pub use crate::prelude::{BinaryHeap, LinkedList};
}

pub mod marker {
    pub use crate::prelude::Model;
    pub use std::marker::{Send, Sync};
}

pub mod snapshot {
    pub use crate::prelude::Snapshot;
}

pub mod process {
    pub use std::process::ExitCode;

    /// What may end the program.
    pub trait Abort {}

    impl Abort for super::rt::HostRuntime {}
}

/// What tests answer.
pub mod test {
    use crate::standard::rt::HostRuntime;
    use std::fmt::{Debug, Display};

    /// Why a test came to no end.
    pub struct Fail(String);

    impl Fail {
        pub fn new(why: impl Display) -> Fail {
            Fail(why.to_string())
        }
    }

    impl<E: Debug> From<E> for Fail {
        fn from(error: E) -> Fail {
            Fail(std::format!("{error:?}"))
        }
    }

    /// What a test answers.
    pub trait Outcome {
        fn check(self);
    }

    impl Outcome for () {
        fn check(self) {}
    }

    impl Outcome for Result<(), Fail> {
        fn check(self) {
            if let Err(Fail(error)) = self {
                std::panic!("{error}");
            }
        }
    }

    /// Runs a test, and fails where it came to no end.
    pub fn ended<O: Outcome>(test: impl FnOnce(HostRuntime) -> O) {
        test(HostRuntime).check();
    }
}

pub mod fmt {
    /// `write!` calls a method of `String` itself.
    pub trait Write {}
}

pub mod hash {
    pub use std::hash::{BuildHasher, Hasher};

    /// A hasher that is copied, as Rattle's is: FNV-1a, mixed at its end.
    #[derive(Clone, Copy)]
    pub struct DefaultHasher(u64);

    impl DefaultHasher {
        pub fn new() -> DefaultHasher {
            DefaultHasher(0xcbf2_9ce4_8422_2325)
        }
    }

    impl Hasher for DefaultHasher {
        fn write(&mut self, bytes: &[u8]) {
            for byte in bytes {
                self.0 = (self.0 ^ u64::from(*byte)).wrapping_mul(0x0100_0000_01b3);
            }
        }

        fn finish(&self) -> u64 {
            let mixed = (self.0 ^ (self.0 >> 32)).wrapping_mul(0x9e37_79b9_7f4a_7c15);
            mixed ^ (mixed >> 29)
        }
    }
}

pub mod io {
    pub use super::rt::{Stdin, Stdout};
    pub use std::io::{Error, ErrorKind, IsTerminal, Read, Result, Write};
}

pub mod fs {
    /// What opens files.
    pub trait Files {
        type File;
    }

    impl Files for super::rt::HostRuntime {
        type File = File;
    }

    /// A file of the system, which was opened for reading.
    pub struct File(std::fs::File);

    impl File {
        pub fn open<R: Files>(_: &R, name: &str) -> std::io::Result<File> {
            std::fs::File::open(name).map(File)
        }
    }

    impl std::io::Read for File {
        fn read(&mut self, buf: &mut [u8]) -> std::io::Result<usize> {
            self.0.read(buf)
        }
    }
}

pub mod env {
    use crate::prelude::String;
    use crate::standard::rt::Env;
    use std::io::{Error, ErrorKind};

    /// The program's name and its arguments, or an error where one isn't text.
    pub fn args<R: Env>(_: &R) -> Result<std::vec::IntoIter<String>, Error> {
        let mut found = std::vec::Vec::new();
        for word in std::env::args_os() {
            let word = word.into_string().map_err(|_| Error::from(ErrorKind::InvalidData))?;
            found.push(String(word));
        }
        Ok(found.into_iter())
    }
}

/// The runtime, and the traits that say what of it a function uses.
pub mod rt {
    pub use super::fs::Files;
    use std::fmt::Arguments;
    use std::fs::File;
    use std::io::{Error, IsTerminal, Read, Write};
    use std::mem::ManuallyDrop;
    use std::os::fd::FromRawFd;

    pub trait Env {}
    pub trait Clock {}
    pub trait Print {}
    pub trait Eprint {}
    pub trait AllocGlobal {
        fn alloc(&self) {}
    }

    pub struct HostRuntime;

    impl Env for HostRuntime {}
    impl Clock for HostRuntime {}
    impl Print for HostRuntime {}
    impl Eprint for HostRuntime {}
    impl AllocGlobal for HostRuntime {}
    impl super::sync::Wait for HostRuntime {}
    impl super::thread::Threads for HostRuntime {}

    impl HostRuntime {
        pub fn stdin(&self) -> Stdin {
            Stdin
        }

        pub fn stdout(&self) -> Stdout {
            Stdout
        }

        pub fn stderr(&self) -> std::io::Stderr {
            std::io::stderr()
        }
    }

    /// The file behind a descriptor that stays open.
    fn file(descriptor: i32) -> ManuallyDrop<File> {
        ManuallyDrop::new(unsafe { File::from_raw_fd(descriptor) })
    }

    /// Standard input, unbuffered.
    #[derive(Clone, Copy)]
    pub struct Stdin;

    impl Stdin {
        pub fn is_terminal(&self) -> bool {
            std::io::stdin().is_terminal()
        }
    }

    impl Read for Stdin {
        fn read(&mut self, buf: &mut [u8]) -> Result<usize, Error> {
            file(0).read(buf)
        }
    }

    /// Standard output, unbuffered.
    #[derive(Clone, Copy)]
    pub struct Stdout;

    impl Write for Stdout {
        fn write(&mut self, piece: &[u8]) -> Result<usize, Error> {
            file(1).write(piece)
        }

        fn flush(&mut self) -> Result<(), Error> {
            Ok(())
        }
    }

    /// Writes words and what ends them to a stream, in one call where it takes them.
    pub fn written<R>(_: &R, mut stream: impl Write, words: Arguments<'_>, end: &str) -> Result<(), Error> {
        let text = std::format!("{words}{end}");
        stream.write_all(text.as_bytes())?;
        stream.flush()
    }
}

pub mod sync {
    pub use std::sync::atomic;
    use std::sync::{Condvar as PlainCondvar, Mutex as PlainMutex, MutexGuard, PoisonError};

    /// What may wait for another thread.
    pub trait Wait {
        fn forever(&self) -> std::iter::Repeat<()> {
            std::iter::repeat(())
        }
    }

    pub struct Mutex<T>(PlainMutex<T>);

    impl<T> Mutex<T> {
        pub const fn new(value: T) -> Mutex<T> {
            Mutex(PlainMutex::new(value))
        }

        pub fn lock<R: Wait>(&self, _: &R) -> MutexGuard<'_, T> {
            self.0.lock().unwrap_or_else(PoisonError::into_inner)
        }

        pub fn try_lock(&self) -> Option<MutexGuard<'_, T>> {
            self.0.try_lock().ok()
        }
    }

    pub struct Condvar(PlainCondvar);

    impl Condvar {
        pub const fn new() -> Condvar {
            Condvar(PlainCondvar::new())
        }

        pub fn notify_all(&self) {
            self.0.notify_all();
        }

        pub fn wait_while<'g, R: Wait, T>(
            &self,
            _: &R,
            guard: MutexGuard<'g, T>,
            waits: impl FnMut(&mut T) -> bool,
        ) -> MutexGuard<'g, T> {
            self.0.wait_while(guard, waits).unwrap_or_else(PoisonError::into_inner)
        }
    }
}

pub mod thread {
    use std::sync::{Mutex, PoisonError};
    pub use std::thread::yield_now;
    use std::thread::{Builder, scope};
    use std::time::Duration;

    pub trait Threads {}

    pub fn available_parallelism<R: Threads>(_: &R) -> std::io::Result<std::num::NonZeroUsize> {
        std::thread::available_parallelism()
    }

    pub fn sleep<R>(_: &R, time: Duration) {
        std::thread::sleep(time);
    }

    /// Calls f in a new thread, or last where none can be made, and g in this one.
    pub fn join_mut<R: Threads, A: Send, B>(
        _: &R,
        f: &mut (impl FnMut() -> A + Send),
        g: &mut impl FnMut() -> B,
    ) -> (A, B) {
        let (first, second) = scope(|scope| {
            let started = Builder::new().spawn_scoped(scope, &mut *f).ok();
            let second = g();
            (started.and_then(|thread| thread.join().ok()), second)
        });
        (first.unwrap_or_else(f), second)
    }

    /// Has each item worked on, by so many threads where they can be made. The caller's thread is one of them. As in
    /// Rattle's library, each takes as many items that stand side by side.
    pub fn for_each_mut<R: Threads, T: Send>(
        _: &R,
        items: &mut [T],
        threads: usize,
        work: &(impl Fn(usize, &mut T) + Sync),
    ) {
        let size = items.len().div_ceil(threads).max(1);
        let runs = items.len().div_ceil(size);
        let left = Mutex::new(items.chunks_mut(size).enumerate());
        let next = || left.lock().unwrap_or_else(PoisonError::into_inner).next();
        let work_off = || {
            while let Some((run, items)) = next() {
                for (place, item) in items.iter_mut().enumerate() {
                    work(run * size + place, item);
                }
            }
        };
        scope(|scope| {
            for _ in 1..runs {
                if Builder::new().spawn_scoped(scope, &work_off).is_err() {
                    break;
                }
            }
            work_off();
        });
    }
}

pub mod time {
    pub use crate::standard::rt::Clock;
    pub use std::time::Duration;
    use std::time::Instant as PlainInstant;

    #[derive(Clone, Copy)]
    pub struct Instant(PlainInstant);

    impl Instant {
        pub fn now<R>(_: &R) -> Result<Instant, ()> {
            Ok(Instant(PlainInstant::now()))
        }

        pub fn elapsed<R>(&self, _: &R) -> Result<Duration, ()> {
            Ok(self.0.elapsed())
        }
    }
}
