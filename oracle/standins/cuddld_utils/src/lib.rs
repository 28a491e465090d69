//! Stand-in: number types with one field each.
pub mod ints;

pub mod raw_types {
    pub struct RawTypeContext;

    impl RawTypeContext {
        pub fn new<Class, Endian, Abi>(_: Class, _: Endian, _: Abi) -> Self {
            RawTypeContext
        }
    }
}
