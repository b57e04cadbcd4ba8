
// ---- Appended by the oracle's build. ----

impl VirtRegs {
    /// Adds a virtual register with these segments and this spill weight as they are.
    pub fn oracle_put(&mut self, segments: &[ValueSegment], spill_weight: f32) -> VirtReg {
        let segments = CompactList::from_iter(segments.iter().copied(), &mut self.segment_pool);
        self.virt_regs.push(VirtRegData {
            segments,
            class: RegClass::new(0),
            group_index: 0,
            group: None.into(),
            has_fixed_hint: false,
            value_set: ValueSet::new(0),
            spill_weight,
        })
    }
}
