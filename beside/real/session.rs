//! What decoding and evaluation run with. Neither happens here.

#[derive(Clone, Debug)]
pub struct VortexSession;

pub struct ExecutionCtx;

pub trait VortexSessionExecute {
    fn create_execution_ctx(&self) -> ExecutionCtx;
}

impl VortexSessionExecute for VortexSession {
    fn create_execution_ctx(&self) -> ExecutionCtx {
        ExecutionCtx
    }
}
