//! Bytes that were read. They stay with the caller, so nothing is in them here.

#[derive(Clone, Debug)]
pub struct BufferHandle;

#[derive(Clone, Debug)]
pub struct ByteBuffer;
