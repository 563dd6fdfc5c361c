//! What tests of several files use.

use std::panic::{self, AssertUnwindSafe};
use std::time::{Duration, Instant};
use std::{env, fs, path::PathBuf, thread};

#[allow(dead_code)] // not each file waits
pub const SHORT: Duration = Duration::from_millis(10);
#[allow(dead_code)] // the same
pub const LONG: Duration = Duration::from_secs(30);

/// Puts a history into the folder that AQS_HISTORIES names, for `aqs audit`.
#[allow(dead_code)] // not each file has one
pub fn keep(name: &str, history: String) {
    assert!(history.starts_with("aqs-history ") && !history.contains('\0'));
    if let Some(folder) = env::var_os("AQS_HISTORIES") {
        fs::write(PathBuf::from(folder).join(format!("rust-{name}.history")), history).unwrap();
    }
}

/// What a call said when it panicked.
#[allow(dead_code)] // not each file asks
pub fn refusal(call: impl FnOnce()) -> String {
    let failed = panic::catch_unwind(AssertUnwindSafe(call)).expect_err("it should have panicked");
    let text = failed.downcast_ref::<&str>().map(|it| it.to_string());
    text.unwrap_or_else(|| failed.downcast_ref::<String>().unwrap().clone())
}

/// Waits until it is so.
#[allow(dead_code)] // not each file waits for others
pub fn until(is_so: impl Fn() -> bool) {
    let begin = Instant::now();
    while !is_so() {
        assert!(begin.elapsed() < LONG, "it did not come about");
        thread::yield_now();
    }
}
