//! SIGHUP, SIGINT and SIGTERM: something is done before they end the command. All that is `unsafe` in the command stands here, since std
//! has no signals.

/// Sees to it that `last` is called before one of the three signals ends the command, which then ends by that signal. To be called before
/// any thread is started: each has to leave the signals to the one that waits for them. Elsewhere than on Linux nothing is done.
pub fn before_the_end(last: fn()) {
    #[cfg(all(target_os = "linux", any(target_arch = "x86_64", target_arch = "aarch64", target_arch = "riscv64")))]
    linux::before_the_end(last);
    #[cfg(not(all(target_os = "linux", any(target_arch = "x86_64", target_arch = "aarch64", target_arch = "riscv64"))))]
    let _ = last;
}

#[cfg(all(target_os = "linux", any(target_arch = "x86_64", target_arch = "aarch64", target_arch = "riscv64")))]
mod linux {
    use std::ffi::c_int;
    use std::ptr::null_mut;

    const SIGNALS: [c_int; 3] = [1, 2, 15]; // SIGHUP, SIGINT, SIGTERM
    const BLOCK: c_int = 0;
    const UNBLOCK: c_int = 1;
    const SET: c_int = 2;
    const DEFAULT: usize = 0;
    const IGNORED: usize = 1;

    /// `sigset_t`, which has 1,024 bits with glibc and with musl.
    #[derive(Clone, Copy)]
    #[repr(C)]
    struct Set([u64; 16]);

    extern "C" {
        fn sigaddset(set: *mut Set, signal: c_int) -> c_int;
        fn sigismember(set: *const Set, signal: c_int) -> c_int;
        fn pthread_sigmask(how: c_int, set: *const Set, before: *mut Set) -> c_int;
        fn sigwait(set: *const Set, got: *mut c_int) -> c_int;
        fn signal(signal: c_int, action: usize) -> usize;
        fn raise(signal: c_int) -> c_int;
    }

    pub fn before_the_end(last: fn()) {
        let (mut all, mut before, mut ours) = (Set([0; 16]), Set([0; 16]), Set([0; 16]));
        // SAFETY: each pointer is to a set of this function, which outlives the call; no action is a function of ours.
        unsafe {
            for number in SIGNALS {
                sigaddset(&mut all, number);
            }
            pthread_sigmask(BLOCK, &all, &mut before);
            for number in SIGNALS {
                // one that is ignored (as nohup does) or held back from the start stays so; while all are blocked, none is lost by asking
                let ignored = signal(number, DEFAULT) == IGNORED;
                if ignored {
                    signal(number, IGNORED);
                }
                if !ignored && sigismember(&before, number) == 0 {
                    sigaddset(&mut ours, number);
                }
            }
            pthread_sigmask(SET, &before, null_mut());
            pthread_sigmask(BLOCK, &ours, null_mut());
        }
        if std::thread::Builder::new().spawn(move || wait(&ours, last)).is_err() {
            // SAFETY: as above.
            unsafe { pthread_sigmask(SET, &before, null_mut()) };
        }
    }

    fn wait(ours: &Set, last: fn()) {
        let mut got = 0;
        // SAFETY: both pointers are to what lives here.
        while unsafe { sigwait(ours, &mut got) } != 0 {}
        last();
        // SAFETY: as above. The signal's own action ends the process: with no other way to end is its status the signal's.
        unsafe {
            signal(got, DEFAULT);
            pthread_sigmask(UNBLOCK, ours, null_mut());
            raise(got);
        }
    }
}
