
// ---- Appended by the oracle's build. ----

impl RegMatrix {
    /// Puts a row into a unit's tree as it is.
    pub fn oracle_put_row(
        &mut self,
        unit: RegUnit,
        range: LiveRangeSegment,
        vreg: Option<VirtReg>,
        fixed_use: u32,
    ) {
        let entry = Entry { from: range.from, vreg: vreg.into(), fixed_use };
        let prev = self.reservations[unit].btree.insert(range.to, entry);
        assert!(prev.is_none());
    }

    /// Puts a fixed use at the end of a unit's list.
    pub fn oracle_put_fixed_use(&mut self, unit: RegUnit, from: LiveRangePoint, value: Value) {
        self.reservations[unit].fixed_uses.push((from, value));
    }
}
