// The symbol of a function of the static library: its name, the version of what it takes and answers, and what to do. An archive of another
// version does not have it, so it does not link, and the linker's own message says how to get one that does, by the command's older name:
// today it is `bin/archive`.
// build.rs reads this file too. `bin/raise-version` raises the version here, in the C header and in crates/exports.
macro_rules! symbol {
    ($name:literal) => {
        concat!($name, "_v3_else_run_rt_staticlib_exports")
    };
}
