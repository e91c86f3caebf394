//! Whether standard input and output were open when the process started.
//!
//! The runtime opens `/dev/null` in the place of a standard stream that is closed, before `main`.
//! Then what is printed would be lost without an error, so this looks earlier, where the loader
//! runs the functions that `.init_array` lists.

#[cfg(target_os = "linux")]
mod look {
    use std::sync::atomic::{AtomicBool, Ordering};

    static INPUT_CLOSED: AtomicBool = AtomicBool::new(false);
    static OUTPUT_CLOSED: AtomicBool = AtomicBool::new(false);

    const STANDARD_INPUT: i32 = 0;
    const STANDARD_OUTPUT: i32 = 1;
    const GET_FLAGS: i32 = 1;

    extern "C" {
        fn fcntl(file: i32, command: i32, ...) -> i32;
    }

    fn is_closed(file: i32) -> bool {
        // SAFETY: asking for a descriptor's flags changes nothing, and one that isn't open is -1.
        unsafe { fcntl(file, GET_FLAGS) == -1 }
    }

    extern "C" fn look() {
        INPUT_CLOSED.store(is_closed(STANDARD_INPUT), Ordering::Relaxed);
        OUTPUT_CLOSED.store(is_closed(STANDARD_OUTPUT), Ordering::Relaxed);
    }

    #[used]
    #[link_section = ".init_array"]
    static LOOK: extern "C" fn() = look;

    pub fn input_closed() -> bool {
        INPUT_CLOSED.load(Ordering::Relaxed)
    }

    pub fn output_closed() -> bool {
        OUTPUT_CLOSED.load(Ordering::Relaxed)
    }
}

#[cfg(not(target_os = "linux"))]
mod look {
    pub fn input_closed() -> bool {
        false
    }

    pub fn output_closed() -> bool {
        false
    }
}

pub use look::{input_closed, output_closed};
