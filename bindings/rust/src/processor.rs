//! Whether this processor runs the library that is linked.

/// Evaluates to whether the processor has each of these.
macro_rules! has_all {
    ($($feature:tt),*) => { $(std::is_x86_feature_detected!($feature))&&* };
}

/// What x86-64-v2 and x86-64-v3 name as theirs, of which an instruction may be in the library.
#[cfg(target_arch = "x86_64")]
pub(crate) fn runs_library() -> bool {
    let is_default = has_all!("cmpxchg16b", "popcnt", "sse3", "sse4.1", "sse4.2", "ssse3");
    if cfg!(p3_fri_cpu = "x86-64-v3") {
        is_default && has_all!("avx", "avx2", "bmi1", "bmi2", "f16c", "fma", "lzcnt", "movbe")
    } else {
        is_default
    }
}

/// The library is for x86-64 alone.
#[cfg(not(target_arch = "x86_64"))]
pub(crate) fn runs_library() -> bool {
    false
}
