//! A job put into the supplied Rust's own types, and run.

use std::cell::{Cell, RefCell};
use std::panic::{self, AssertUnwindSafe};
use std::sync::Once;

use sheet::{
    ABSENT, Answer, FIXED_DEF, FIXED_HINT, Gap, GapSegment, Job, LIVE_IN, LIVE_OUT, Link, Proposal, Tables, UseRow,
};

use crate::Options;
use crate::function::{
    Block, Function, IndirectRemat, Inst, InstRange, Operand, OperandConstraint, RematCost, TerminatorKind, Value,
    ValueGroup,
};
use crate::internal::allocator::queue::AllocationQueue;
use crate::internal::allocator::split::{OracleProposal, OracleRun, Splitter};
use crate::internal::allocator::{AllocationOrder, Allocator, Context};
use crate::internal::coalescing::Coalescing;
use crate::internal::hints::Hints;
use crate::internal::live_range::{LiveRangePoint, LiveRangeSegment, ValueSegment};
use crate::internal::reg_matrix::RegMatrix;
use crate::internal::spill_allocator::SpillAllocator;
use crate::internal::split_placement::SplitPlacement;
use crate::internal::uses::{Use, UseKind, Uses};
use crate::internal::virt_regs::builder::{VirtRegBuilder, normalize_spill_weight};
use crate::internal::virt_regs::{VirtReg, VirtRegs};
use crate::options::{SplitStrategy, Stats};
use crate::reginfo::{PhysReg, RegBank, RegClass, RegInfo, RegUnit};

/// The register asked about, one in memory, and one that isn't.
const ASKED: usize = 0;
const IN_MEMORY: usize = 1;
const IN_REGISTER: usize = 2;

/// A run that ended: its answer and the tables filled.
pub struct Ran {
    pub answer: Answer,
    pub tables: Tables,
}

/// Runs an accepted job. An assertion that fires, or any other panic, is the error's text.
pub fn run_job(job: &Job) -> Result<Ran, String> {
    caught(|| run(job))
}

/// `find_optimal_split_point` over a sound block list, `after` below `before` and `before` within it.
pub fn split_point(blocks: &[sheet::Block], after: u32, before: u32, early: bool) -> Result<u32, String> {
    caught(|| {
        let job = Job { blocks: blocks.to_vec(), ..Job::default() };
        let func = JobFunction(&job, BlockOf::Search);
        let mut placement = SplitPlacement::new();
        placement.prepare(&func);
        let (after, before) = (Inst::new(after as usize), Inst::new(before as usize));
        placement.find_optimal_split_point(after, before, early, &func).index() as u32
    })
}

/// What a panic inside `f` said, with the file and line of the supplied Rust (or of the shim) where it did.
fn caught<T>(f: impl FnOnce() -> T) -> Result<T, String> {
    thread_local! {
        static INSIDE: Cell<bool> = const { Cell::new(false) };
        static SAID: RefCell<String> = const { RefCell::new(String::new()) };
    }
    static HOOK: Once = Once::new();
    HOOK.call_once(|| {
        let usual = panic::take_hook();
        panic::set_hook(Box::new(move |info| {
            if !INSIDE.get() {
                return usual(info);
            }
            let at = info.location().unwrap();
            let file = at.file().rsplit('/').next().unwrap();
            let what = info.payload_as_str().unwrap_or("panic").replace('\n', " ");
            SAID.set(format!("{file}:{}: {what}", at.line()));
        }));
    });
    INSIDE.set(true);
    let result = panic::catch_unwind(AssertUnwindSafe(f));
    INSIDE.set(false);
    result.map_err(|_| SAID.take())
}

fn run(job: &Job) -> Ran {
    let mut kept = Kept::new();
    let mut placed = Placed::of(job);
    kept.split_placement.prepare(&placed.func());
    let blocks = placed.func().blocks();
    let links = blocks.map(|block| {
        let placement = &kept.split_placement;
        let [prev, next] = [placement.prev_lower_freq(block), placement.next_lower_freq(block)]
            .map(|link| link.map_or(ABSENT, |b| b.index() as u32));
        Link { prev, next }
    });
    let links = links.collect();
    let run = placed.with_context(&mut kept, |context, vreg| context.oracle_run(vreg, PhysReg::new(ASKED)));
    told(links, run, &placed.options)
}

/// A job in the Rust's own types: its uses, segments, reservations and fixed uses.
pub struct Placed<'a> {
    job: &'a Job,
    /// The block of each instruction before the last block, if the job has such a table.
    table: Option<Vec<u16>>,
    options: Options,
    uses: Uses,
    virt_regs: VirtRegs,
    vreg: VirtReg,
    reg_matrix: RegMatrix,
}

/// What the allocator keeps from one register to the next: the vectors of the splitter and of the links.
pub struct Kept {
    split_placement: SplitPlacement,
    allocator: Allocator,
    virt_reg_builder: VirtRegBuilder,
    hints: Hints,
}

impl Kept {
    pub fn new() -> Self {
        Self {
            split_placement: SplitPlacement::new(),
            allocator: Allocator {
                splitter: Splitter::new(),
                queue: AllocationQueue::new(),
                assignments: Default::default(),
                remat_segments: vec![],
                allocation_order: AllocationOrder,
            },
            virt_reg_builder: VirtRegBuilder::new(),
            hints: Hints::new(),
        }
    }
}

impl<'a> Placed<'a> {
    pub fn of(job: &'a Job) -> Self {
        let scales = job.scales.map(f32::from_bits);
        let options = Options {
            spill_weight_adjust: job.k,
            direct_remat_cheaper_than_move_cost_scale: scales[0],
            direct_remat_cheaper_than_load_cost_scale: scales[1],
            indirect_remat_cost_scale: scales[2],
            split_strategy: SplitStrategy::Split,
        };

        // A spill weight's index is its virtual register's; the register to split comes last.
        let mut uses = Uses::new();
        let segments = segments_of(job, &mut uses);
        let mut virt_regs = VirtRegs::new();
        let others: Vec<_> = job.weights.iter().map(|w| virt_regs.oracle_put(&[], f32::from_bits(*w))).collect();
        let vreg = virt_regs.oracle_put(&segments, 0.0);

        let mut reg_matrix = RegMatrix::new();
        for row in &job.rows {
            let range = LiveRangeSegment::new(point(row.start), point(row.end));
            let (other, fixed_use) = match row.kind {
                0 => (Some(others[row.index as usize]), row.fixed),
                1 => (None, !0),
                _ => (None, row.index),
            };
            reg_matrix.oracle_put_row(RegUnit::new(row.unit as usize), range, other, fixed_use);
        }
        for f in &job.fixed {
            let value = Value::new(f.value as usize);
            reg_matrix.oracle_put_fixed_use(RegUnit::new(f.unit as usize), point(f.point), value);
        }
        Self { job, table: None, options, uses, virt_regs, vreg, reg_matrix }
    }

    /// The same with a table of the block of each instruction, as a compiler may have one.
    pub fn with_table(job: &'a Job) -> Self {
        let (_, before) = job.blocks.split_last().unwrap();
        let rows = before.iter().enumerate();
        let table = rows.flat_map(|(at, b)| std::iter::repeat_n(at as u16, (b.end - b.first) as usize)).collect();
        Self { table: Some(table), ..Self::of(job) }
    }

    fn func(&self) -> JobFunction<'_> {
        JobFunction(self.job, self.table.as_deref().map_or(BlockOf::Search, BlockOf::Table))
    }

    /// Prepares the links and runs every call of a proposal, as the allocator does: what is timed. No table is copied.
    pub fn propose(&mut self, kept: &mut Kept) -> Option<Proposal> {
        kept.split_placement.prepare(&self.func());
        self.with_context(kept, |context, vreg| context.oracle_propose(vreg, PhysReg::new(ASKED))).map(proposal_of)
    }

    fn with_context<T>(
        &mut self,
        kept: &mut Kept,
        f: impl FnOnce(&mut Context<'_, JobFunction<'_>, JobRegInfo<'_>>, VirtReg) -> T,
    ) -> T {
        let block_of = self.table.as_deref().map_or(BlockOf::Search, BlockOf::Table);
        let mut context = Context {
            func: &JobFunction(self.job, block_of),
            reginfo: &JobRegInfo(self.job),
            options: &self.options,
            stats: &mut Stats,
            uses: &mut self.uses,
            hints: &kept.hints,
            virt_regs: &mut self.virt_regs,
            virt_reg_builder: &mut kept.virt_reg_builder,
            coalescing: &mut Coalescing,
            spill_allocator: &mut SpillAllocator,
            split_placement: &kept.split_placement,
            reg_matrix: &mut self.reg_matrix,
            allocator: &mut kept.allocator,
        };
        f(&mut context, self.vreg)
    }
}

fn point(bits: u32) -> LiveRangePoint {
    LiveRangePoint { bits }
}

/// The segments with their use lists, whose indices are those of the job's uses.
fn segments_of(job: &Job, uses: &mut Uses) -> Vec<ValueSegment> {
    let segments = job.segments.iter().map(|s| {
        let range = s.first_use as usize..s.end_use as usize;
        let mut use_list = uses.add_use_list(range.map(|at| use_of(job, at)));
        use_list.set_livein(s.flags & LIVE_IN != 0);
        use_list.set_liveout(s.flags & LIVE_OUT != 0);
        use_list.set_fixedhint(s.flags & FIXED_HINT != 0);
        use_list.set_fixeddef(s.flags & FIXED_DEF != 0);
        ValueSegment {
            live_range: LiveRangeSegment::new(point(s.start), point(s.end)),
            use_list,
            value: Value::new(s.value as usize),
        }
    });
    segments.collect()
}

/// A use. Its class, if it has one, has the use's index, so that each has its own cost.
fn use_of(job: &Job, at: usize) -> Use {
    let u = job.uses[at];
    let reg = PhysReg::new(if u.cost == 1 { IN_MEMORY } else { IN_REGISTER });
    let class = RegClass::new(at);
    let (slot, group_index) = (0, 0);
    let kind = match u.kind {
        0 => UseKind::FixedDef { reg },
        1 => UseKind::FixedUse { reg },
        2 => UseKind::TiedUse { use_slot: 0, def_slot: 0, class, group_index },
        3 => UseKind::ConstraintConflict {},
        4 => UseKind::ClassUse { slot, class },
        5 => UseKind::ClassDef { slot, class },
        6 => UseKind::GroupClassUse { slot, class, group_index },
        7 => UseKind::GroupClassDef { slot, class, group_index },
        8 => UseKind::BlockparamIn { blockparam_idx: 0 },
        _ => UseKind::BlockparamOut {},
    };
    Use { pos: Inst::new(u.pos as usize), kind }
}

fn told(links: Vec<Link>, run: OracleRun, options: &Options) -> Ran {
    let uses = run.uses.iter().map(|&[inst, main, left, right]| UseRow { inst, main, left, right });
    let block = ABSENT;
    let gap = |&[from, to, weight, live_insts, freq]: &[u32; 5]| Gap { from, to, weight, live_insts, freq, block };
    let gaps = run.gaps.iter().map(gap);
    let gap_segments = run.gap_segments.iter().map(|&[from, to, value, gap]| GapSegment { from, to, value, gap });
    let tables = Tables { links, uses: uses.collect(), gaps: gaps.collect(), gap_segments: gap_segments.collect() };
    let answer = match run.proposal {
        Some(p) => {
            let normalised = normalize_spill_weight(p.use_weight, p.live_insts, options);
            Answer::Proposed(proposal_of(p), normalised.to_bits())
        }
        None => Answer::None(if run.best_use { 2 } else { 1 }),
    };
    Ran { answer, tables }
}

fn proposal_of(p: OracleProposal) -> Proposal {
    Proposal {
        left: p.left,
        right: p.right,
        use_weight: p.use_weight.to_bits(),
        live_insts: p.live_insts,
        interference_weight: p.interference_weight.to_bits(),
        split_cost: p.split_cost.to_bits(),
    }
}

/// The job's blocks and values as a function.
struct JobFunction<'a>(&'a Job, BlockOf<'a>);

/// How the block of an instruction is found.
#[derive(Clone, Copy)]
enum BlockOf<'a> {
    /// By halves over the blocks' ends.
    Search,
    /// From a table of the instructions before the last block.
    Table(&'a [u16]),
}

impl Function for JobFunction<'_> {
    fn num_blocks(&self) -> usize {
        self.0.blocks.len()
    }

    fn block_insts(&self, block: Block) -> InstRange {
        let b = self.0.blocks[block.index()];
        InstRange::new(Inst::new(b.first as usize), Inst::new(b.end as usize))
    }

    fn inst_block(&self, inst: Inst) -> Block {
        debug_assert!(inst.index() < self.0.last_end() as usize, "an instruction outside the blocks");
        Block::new(match self.1 {
            BlockOf::Search => self.0.blocks.partition_point(|b| b.end as usize <= inst.index()),
            BlockOf::Table(table) => table.get(inst.index()).map_or(self.0.blocks.len() - 1, |block| *block as usize),
        })
    }

    fn block_frequency(&self, block: Block) -> f32 {
        f32::from_bits(self.0.blocks[block.index()].freq)
    }

    fn can_rematerialize(&self, value: Value) -> Option<(RematCost, RegClass)> {
        let cost = match self.0.values[value.index()] {
            1 => RematCost::CheaperThanMove,
            2 => RematCost::CheaperThanLoad,
            _ => return None,
        };
        Some((cost, RegClass::new(0)))
    }

    fn can_indirectly_rematerialize(&self, value: Value) -> Option<IndirectRemat<'_>> {
        (self.0.values[value.index()] == 3).then_some(IndirectRemat {
            constraint: OperandConstraint::Class(RegClass::new(0)),
            inputs: &[],
            allow_destination_overlap: true,
        })
    }

    // A split proposal asks none of these.

    fn num_insts(&self) -> usize {
        unreachable!()
    }

    fn entry_points(&self) -> &[Block] {
        unreachable!()
    }

    fn block_succs(&self, _: Block) -> &[Block] {
        unreachable!()
    }

    fn block_preds(&self, _: Block) -> &[Block] {
        unreachable!()
    }

    fn block_immediate_dominator(&self, _: Block) -> Option<Block> {
        unreachable!()
    }

    fn block_params(&self, _: Block) -> &[Value] {
        unreachable!()
    }

    fn terminator_kind(&self, _: Inst) -> Option<TerminatorKind> {
        unreachable!()
    }

    fn jump_blockparams(&self, _: Block) -> &[Value] {
        unreachable!()
    }

    fn block_is_critical_edge(&self, _: Block) -> bool {
        unreachable!()
    }

    fn inst_operands(&self, _: Inst) -> &[Operand] {
        unreachable!()
    }

    fn inst_clobbers(&self, _: Inst) -> impl Iterator<Item = RegUnit> {
        std::iter::empty()
    }

    fn num_values(&self) -> usize {
        unreachable!()
    }

    fn value_bank(&self, _: Value) -> RegBank {
        unreachable!()
    }

    fn num_value_groups(&self) -> usize {
        unreachable!()
    }

    fn value_group_members(&self, _: ValueGroup) -> &[Value] {
        unreachable!()
    }

    fn can_eliminate_dead_inst(&self, _: Inst) -> bool {
        unreachable!()
    }
}

/// The job's units and class costs.
struct JobRegInfo<'a>(&'a Job);

impl RegInfo for JobRegInfo<'_> {
    fn reg_units(&self, _: PhysReg) -> impl Iterator<Item = RegUnit> {
        (0..self.0.units as usize).map(RegUnit::new)
    }

    fn is_memory(&self, reg: PhysReg) -> bool {
        reg.index() == IN_MEMORY
    }

    fn class_spill_cost(&self, class: RegClass) -> f32 {
        f32::from_bits(self.0.uses[class.index()].cost)
    }

    // A split proposal asks none of these.

    fn class_includes_spillslots(&self, _: RegClass) -> bool {
        unreachable!()
    }

    fn class_group_size(&self, _: RegClass) -> usize {
        unreachable!()
    }

    fn common_subclass(&self, _: RegClass, _: RegClass) -> Option<RegClass> {
        unreachable!()
    }

    fn top_level_class(&self, _: RegBank) -> RegClass {
        unreachable!()
    }

    fn spillslot_size(&self, _: RegBank) -> u32 {
        unreachable!()
    }
}
