//! The exports of `crates/winnow_bench_parsers`, each with a safe function over it: workloads by parsers, and written by hand.

macro_rules! workloads {
    ($($export:ident { $($name:ident = $number:literal)* })*) => {
        unsafe extern "C" {
            $(fn $export(input: *const u8, length: usize, workload: u64) -> u64;)*
        }

        $($(pub fn $name(input: &[u8]) -> u64 {
            unsafe { $export(input.as_ptr(), input.len(), $number) }
        })*)*
    };
}

/// By parsers, over a whole input.
pub mod whole {
    workloads! {
        winnow_bench_parse_tokens { any = 0 one_of = 1 literal = 2 take = 3 take_while = 4 take_till = 5 take_until = 6 }
        winnow_bench_parse_parts { alt = 0 repeat_count = 1 repeat_vec = 2 separated = 3 alt_of_array = 4 verify_fold = 5 float = 6 }
        winnow_bench_parse_records { records = 0 records_written = 1 }
    }
}

/// By parsers, over an input that may be longer.
pub mod partial {
    workloads! {
        winnow_bench_parse_some_tokens { any = 0 one_of = 1 literal = 2 take = 3 take_while = 4 take_till = 5 }
    }
}

/// By hand, over a whole input.
pub mod by_hand {
    workloads! {
        winnow_bench_by_hand_tokens { any = 0 one_of = 1 literal = 2 take = 3 take_while = 4 take_till = 5 take_until = 6 }
        winnow_bench_by_hand_parts { alt = 0 repeat_count = 1 repeat_vec = 2 separated = 3 alt_of_array = 4 verify_fold = 5 float = 6 }
        winnow_bench_by_hand_records { records = 0 records_written = 1 }
    }
}

/// By hand, over an input that may be longer.
pub mod partial_by_hand {
    workloads! {
        winnow_bench_by_hand_some_tokens { any = 0 one_of = 1 literal = 2 take = 3 take_while = 4 take_till = 5 }
    }
}
