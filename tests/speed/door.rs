
/// For speed/speed.rs: the published function, called as it is.
pub fn verify_operation(
    m: &crate::ir::Module,
    op: &crate::ir::Operation,
    caps: &crate::capabilities::TargetCapabilities,
) -> std::result::Result<(), crate::capabilities::CapabilityError> {
    crate::verify_target::verify_operation(m, op, caps)
}
