use packed::Fault;

/// The code and the offset of the fault that bytes are refused with, if they are refused.
pub fn fault_of(refused: Option<Fault>) -> Option<(u16, u64)> {
    let fault = refused?;
    Some((fault.code, fault.offset))
}
