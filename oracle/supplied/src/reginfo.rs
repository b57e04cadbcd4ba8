//! Registers, units and classes, and the trait that the supplied files ask.

entity_def! {
    pub entity PhysReg(u16, "r");
    pub entity RegUnit(u16, "unit");
    pub entity RegClass(u16, "class");
    pub entity RegBank(u16, "bank");
}

pub const MAX_PHYSREGS: usize = 1 << 12;
pub const MAX_REG_UNITS: usize = 8;
pub const MAX_UNITS_PER_REG: usize = 8;
pub const MAX_GROUP_SIZE: usize = 8;

pub trait RegInfo {
    fn reg_units(&self, reg: PhysReg) -> impl Iterator<Item = RegUnit>;
    fn is_memory(&self, reg: PhysReg) -> bool;
    fn class_spill_cost(&self, class: RegClass) -> f32;

    fn class_includes_spillslots(&self, class: RegClass) -> bool;
    fn class_group_size(&self, class: RegClass) -> usize;
    fn common_subclass(&self, a: RegClass, b: RegClass) -> Option<RegClass>;
    fn top_level_class(&self, bank: RegBank) -> RegClass;
    fn spillslot_size(&self, bank: RegBank) -> u32;
}
