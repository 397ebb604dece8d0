//! Our library's errors, declared as in `ours`.

use crate::ours::Room;

mod exports {
    unsafe extern "C" {
        #[link_name = "winnow_bench_join_empty"]
        pub fn join_empty(input: *const u8, length: usize, number: u64) -> u64;
        #[link_name = "winnow_bench_join_input"]
        pub fn join_input(input: *const u8, length: usize, number: u64) -> u64;
        #[link_name = "winnow_bench_push_contexts"]
        pub fn push_contexts(input: *const u8, length: usize, number: u64) -> u64;
    }
}

unsafe extern "C" {
    fn winnow_bench_mode_text(kind: u64, number: u64, out: *mut u64, room: usize) -> u64;
    fn winnow_bench_or_text(first: u64, second: u64, out: *mut u64, room: usize) -> u64;
    fn winnow_bench_input_text(input: *const u8, length: usize, out: *mut u64, room: usize) -> u64;
    fn winnow_bench_context_text(number: u64, out: *mut u64, room: usize) -> u64;
    fn winnow_bench_explanation_text(
        contexts: *const u64,
        count: usize,
        causes: u64,
        cause: *const u8,
        length: usize,
        out: *mut u64,
        room: usize,
    ) -> u64;
}

pub fn join_empty(input: &[u8], number: u64) -> u64 {
    unsafe { exports::join_empty(input.as_ptr(), input.len(), number) }
}

pub fn join_input(input: &[u8], number: u64) -> u64 {
    unsafe { exports::join_input(input.as_ptr(), input.len(), number) }
}

pub fn push_contexts(input: &[u8], number: u64) -> u64 {
    unsafe { exports::push_contexts(input.as_ptr(), input.len(), number) }
}

// The text that a row of numbers is, or what is wrong with it.
fn text(told: Option<&[u64]>) -> String {
    match told {
        Some([_, bytes @ ..]) => String::from_utf8_lossy(&bytes.iter().map(|byte| *byte as u8).collect::<Vec<_>>()).into_owned(),
        Some([]) => "nothing".to_owned(),
        None => "no memory, or no room".to_owned(),
    }
}

impl Room {
    /// A mode with an empty error, and with a number.
    pub fn mode_text(&mut self, kind: u64, number: u64) -> String {
        text(self.told(|out, room| unsafe { winnow_bench_mode_text(kind, number, out, room) }))
    }

    /// Which of two modes `or` keeps.
    pub fn or_text(&mut self, first: u64, second: u64) -> String {
        text(self.told(|out, room| unsafe { winnow_bench_or_text(first, second, out, room) }))
    }

    /// An error at an input.
    pub fn input_text(&mut self, input: &str) -> String {
        text(self.told(|out, room| unsafe { winnow_bench_input_text(input.as_ptr(), input.len(), out, room) }))
    }

    /// A context and its value, by their number.
    pub fn context_text(&mut self, number: u64) -> String {
        text(self.told(|out, room| unsafe { winnow_bench_context_text(number, out, room) }))
    }

    /// An error with contexts, and with a cause where one is given.
    pub fn explanation_text(&mut self, contexts: &[u64], cause: Option<&str>) -> String {
        let causes = u64::from(cause.is_some());
        let cause = cause.unwrap_or("");
        text(self.told(|out, room| unsafe {
            winnow_bench_explanation_text(contexts.as_ptr(), contexts.len(), causes, cause.as_ptr(), cause.len(), out, room)
        }))
    }
}
