//! Mistakes put into the library, all looked for in one run of the comparison: what is expected is worked out once for each
//! call, and each mistake that has not shown yet is held to it.

/// What is wrong, and the call that is wrong in this way.
pub type Mistake<Caller> = (&'static str, Caller);

/// A mistake, and after how many calls it showed.
pub struct Sought<Caller> {
    pub what: &'static str,
    caller: Caller,
    pub found_after: Option<u64>,
}

impl<Caller: Copy> Sought<Caller> {
    pub fn new(&(what, caller): &Mistake<Caller>) -> Sought<Caller> {
        Sought { what, caller, found_after: None }
    }
}

/// Notes each mistake that shows in the last of so many calls.
pub fn look<Caller: Copy>(sought: &mut [Sought<Caller>], calls: u64, shows: impl Fn(Caller) -> bool) {
    for mistake in sought.iter_mut().filter(|mistake| mistake.found_after.is_none()) {
        if shows(mistake.caller) {
            mistake.found_after = Some(calls);
        }
    }
}

/// Whether mistakes were looked for, and each has shown.
pub fn all_found<Caller>(sought: &[Sought<Caller>]) -> bool {
    !sought.is_empty() && sought.iter().all(|mistake| mistake.found_after.is_some())
}
