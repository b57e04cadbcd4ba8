//! The allocator's context: the fields that `split.rs` reads and writes.

use super::coalescing::Coalescing;
use super::hints::Hints;
use super::live_range::ValueSegment;
use super::reg_matrix::RegMatrix;
use super::spill_allocator::SpillAllocator;
use super::split_placement::SplitPlacement;
use super::uses::Uses;
use super::virt_regs::builder::VirtRegBuilder;
use super::virt_regs::{VirtReg, VirtRegGroup, VirtRegs};
use crate::entity::SecondaryMap;
use crate::reginfo::{PhysReg, RegInfo};
use crate::{Options, Stats};
use queue::{AllocationQueue, VirtRegOrGroup};
use split::Splitter;

include!(concat!(env!("OUT_DIR"), "/allocator.rs"));

pub struct Context<'a, F, R> {
    pub func: &'a F,
    pub reginfo: &'a R,
    pub options: &'a Options,
    pub stats: &'a mut Stats,
    pub uses: &'a mut Uses,
    pub hints: &'a Hints,
    pub virt_regs: &'a mut VirtRegs,
    pub virt_reg_builder: &'a mut VirtRegBuilder,
    pub coalescing: &'a mut Coalescing,
    pub spill_allocator: &'a mut SpillAllocator,
    pub split_placement: &'a SplitPlacement,
    pub reg_matrix: &'a mut RegMatrix,
    pub allocator: &'a mut Allocator,
}

impl<F, R> Context<'_, F, R> {
    fn try_evict(&mut self, _vreg: VirtReg) -> bool {
        unreachable!()
    }
}

pub struct Allocator {
    pub splitter: Splitter,
    pub queue: AllocationQueue,
    pub assignments: SecondaryMap<VirtReg, Assignment>,
    pub remat_segments: Vec<ValueSegment>,
    pub allocation_order: AllocationOrder,
}

#[derive(Default)]
pub enum Assignment {
    #[default]
    Dead,
    Unassigned {
        evicted_for_preference: bool,
    },
}

pub enum Stage {
    Evict,
    Split,
}

pub struct AllocationOrder;

pub struct Candidate {
    pub reg: PhysReg,
}

impl AllocationOrder {
    fn order(&mut self, _: VirtReg, _: &VirtRegs, _: &impl RegInfo) -> std::vec::IntoIter<Candidate> {
        unreachable!()
    }
}

pub trait AbstractVirtRegGroup: Copy + Into<VirtRegOrGroup> {
    fn is_group() -> bool;
    fn vregs(self, virt_regs: &VirtRegs) -> std::vec::IntoIter<VirtReg>;

    fn first_vreg(self, virt_regs: &VirtRegs) -> VirtReg {
        self.vregs(virt_regs).next().unwrap()
    }
}

impl AbstractVirtRegGroup for VirtReg {
    fn is_group() -> bool {
        false
    }

    fn vregs(self, _virt_regs: &VirtRegs) -> std::vec::IntoIter<VirtReg> {
        vec![self].into_iter()
    }
}

impl AbstractVirtRegGroup for VirtRegGroup {
    fn is_group() -> bool {
        true
    }

    fn vregs(self, virt_regs: &VirtRegs) -> std::vec::IntoIter<VirtReg> {
        virt_regs.group_members(self).to_vec().into_iter()
    }
}

impl From<VirtReg> for VirtRegOrGroup {
    fn from(vreg: VirtReg) -> Self {
        Self::Reg(vreg)
    }
}

impl From<VirtRegGroup> for VirtRegOrGroup {
    fn from(group: VirtRegGroup) -> Self {
        Self::Group(group)
    }
}
