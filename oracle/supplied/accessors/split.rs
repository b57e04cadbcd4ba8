
// ---- Appended by the oracle's build. ----

/// What one run filled and found, as bits and whole numbers.
pub struct OracleRun {
    pub uses: Vec<[u32; 4]>,
    pub best_use: bool,
    pub gaps: Vec<[u32; 5]>,
    pub gap_segments: Vec<[u32; 4]>,
    pub proposal: Option<OracleProposal>,
}

pub struct OracleProposal {
    pub left: Option<u32>,
    pub right: Option<u32>,
    pub use_weight: f32,
    pub live_insts: u32,
    pub interference_weight: f32,
    pub split_cost: f32,
}

impl<F: Function, R: RegInfo> Context<'_, F, R> {
    /// The calls of `split_or_spill` up to one candidate's proposal, in its order.
    pub fn oracle_run(&mut self, vreg: VirtReg, reg: PhysReg) -> OracleRun {
        let mut run = OracleRun {
            uses: vec![],
            best_use: false,
            gaps: vec![],
            gap_segments: vec![],
            proposal: None,
        };
        self.collect_uses(vreg);
        run.uses = (self.allocator.splitter.uses.iter())
            .map(|u| {
                let weights = [u.weight, u.left_weight, u.right_weight].map(f32::to_bits);
                [u.inst.index() as u32, weights[0], weights[1], weights[2]]
            })
            .collect();
        let Some(best_use) = self.find_best_use() else {
            return run;
        };
        run.best_use = true;
        let initial_gap = self.collect_gaps(best_use);
        self.count_live_insts(vreg, initial_gap);
        self.build_gap_segments(vreg);
        let splitter = &self.allocator.splitter;
        run.gaps = (splitter.gaps.iter())
            .map(|g| {
                let (from, to) = (g.range.from.index() as u32, g.range.to.index() as u32);
                [from, to, g.weight.to_bits(), g.live_insts, g.min_freq.to_bits()]
            })
            .collect();
        run.gap_segments = (splitter.gap_segments.iter())
            .map(|s| {
                let range = s.live_range;
                [range.from.bits, range.to.bits, s.value.index() as u32, s.gap_idx]
            })
            .collect();
        let proposal = Self::find_split_region(
            reg,
            initial_gap,
            splitter,
            self.reg_matrix,
            self.virt_regs,
            self.reginfo,
            self.stats,
            self.options,
        );
        run.proposal = proposal.map(oracle_proposal);
        run
    }

    /// The same calls with nothing copied in between.
    pub fn oracle_propose(&mut self, vreg: VirtReg, reg: PhysReg) -> Option<OracleProposal> {
        self.collect_uses(vreg);
        let best_use = self.find_best_use()?;
        let initial_gap = self.collect_gaps(best_use);
        self.count_live_insts(vreg, initial_gap);
        self.build_gap_segments(vreg);
        let proposal = Self::find_split_region(
            reg,
            initial_gap,
            &self.allocator.splitter,
            self.reg_matrix,
            self.virt_regs,
            self.reginfo,
            self.stats,
            self.options,
        );
        proposal.map(oracle_proposal)
    }
}

fn oracle_proposal(p: SplitProposal) -> OracleProposal {
    OracleProposal {
        left: p.left.map(|i| i.index() as u32),
        right: p.right.map(|i| i.index() as u32),
        use_weight: p.use_weight,
        live_insts: p.live_insts,
        interference_weight: p.interference_weight,
        split_cost: p.split_cost,
    }
}
