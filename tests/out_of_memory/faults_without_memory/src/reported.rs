use owned_model::LoadError;

/// How many loads reported the expected fault, and how many did not.
pub type Reported = (u32, u32);

/// Counts one load more.
pub fn counted(reported: Reported, is_reported: bool) -> Reported {
    let (passed, failed) = reported;
    if is_reported {
        (passed + 1, failed)
    } else {
        (passed, failed + 1)
    }
}

/// What both have reported.
pub fn both(one: Reported, other: Reported) -> Reported {
    (one.0 + other.0, one.1 + other.1)
}

/// Whether a load is refused with this fault.
pub fn is_refused<T: Drop>(answer: Result<T, LoadError>, code: u16, offset: u64) -> bool {
    match answer {
        Err(LoadError::Fault(fault)) => (fault.code, fault.offset) == (code, offset),
        _ => false,
    }
}
