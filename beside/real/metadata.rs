//! Metadata of plans, which no scan writes.

pub trait SerializeMetadata {
    fn serialize(self) -> Vec<u8>;
}

pub struct EmptyMetadata;

impl SerializeMetadata for EmptyMetadata {
    fn serialize(self) -> Vec<u8> {
        Vec::new()
    }
}
