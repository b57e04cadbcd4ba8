//! The supplied modules, and those that they name and a split proposal never calls.

pub mod allocator;

include!(concat!(env!("OUT_DIR"), "/internal.rs"));

pub mod value_live_ranges {
    use super::live_range::ValueSegment;

    entity_def! {
        pub entity ValueSet(u32, "set");
    }

    pub struct ValueLiveRanges;

    impl ValueLiveRanges {
        pub fn take_all_value_sets(&mut self) -> std::vec::IntoIter<(ValueSet, Vec<ValueSegment>)> {
            unreachable!()
        }
    }
}

pub mod coalescing {
    use super::value_live_ranges::ValueSet;
    use crate::function::Value;

    pub struct Coalescing;

    impl Coalescing {
        pub fn set_for_value(&mut self, _value: Value) -> ValueSet {
            unreachable!()
        }
    }
}

pub mod spill_allocator {
    use super::live_range::{LiveRangeSegment, ValueSegment};
    use super::value_live_ranges::ValueSet;
    use crate::function::Function;

    pub struct SpillAllocator;

    impl SpillAllocator {
        pub fn clear(&mut self, _func: &impl Function) {
            unreachable!()
        }

        pub fn set_range(&mut self, _set: ValueSet, _size: u32, _range: LiveRangeSegment) {
            unreachable!()
        }

        pub fn spill_segment(&mut self, _set: ValueSet, _segment: ValueSegment) {
            unreachable!()
        }
    }
}
