//! Slips that a port could make, each put into the reading by its name.

macro_rules! slips {
    ($($name:ident: $what:literal;)*) => {
        #[derive(Clone, Copy, Debug, PartialEq, Eq)]
        pub enum Slip {
            $($name,)*
        }

        impl Slip {
            pub const ALL: &'static [Slip] = &[$(Slip::$name,)*];

            /// The slip in words.
            pub fn what(self) -> &'static str {
                match self {
                    $(Slip::$name => $what,)*
                }
            }
        }
    };
}

slips! {
    LinkEqual: "a link to an equal block";
    GrowEqual: "growth on equality";
    RetryBarred: "a barred side tried again";
    FixedStopAtEnd: "fixed uses stop at the row's end";
    AddUsesBackwards: "use weights of an instruction added from the last";
    AddLeftGap: "left gap: left weight added last";
    AddRightGap: "right gap: right weight added last";
    AddRegion: "region's weight added from left to right";
    AddFused: "cost times frequency not rounded before it is added";
    TieEqualLive: "equal frequency and live instructions: right";
    TieFewerLive: "equal frequency: the side with fewer live instructions";
    TieIgnoresLive: "equal frequency: always left";
    LowerFirst: "the side of lower frequency first";
    BarredWeightKept: "the heaviest weight of a barred gap kept";
    CostOfOwnGap: "split cost from the region's outermost gaps";
    CostOneSide: "split cost without the right neighbour";
    FreqOtherEnd: "a gap's frequency from its other end";
    BlockOtherEnd: "the block at a gap's other end";
    BlockOfBest: "the best use's block for the gaps beside it";
    CutLeftStart: "left cut at the block's start";
    CutRightEnd: "right cut at the block's end";
    ChainFromUse: "the chain of cuts from the near use's own block";
    ChainShort: "a link to the far use's block cuts no more";
    ChainOne: "one cut only";
    LiveTwice: "a shared instruction counted live twice";
    LiveWhole: "a gap's live instructions are all its instructions";
    LiveNeighbour: "a gap's live instructions are those of the gap before it";
    LiveLeftBehind: "a gap in which a segment ends gets no live instructions of the next one";
    BestLatest: "best use latest on ties";
    BestOneRow: "a best use in a table of one row";
    BestAnySide: "best use by the sum of all three weights";
    FixedFromStart: "fixed uses before the row's start left out";
    FixedFromFirst: "fixed uses before the row's fixed row counted";
    FixedSameValue: "fixed uses of the segment's own value counted";
    FixedLong: "a fixed use lasts to the next instruction";
    Kind1Free: "kind 1 not counted as fixed";
    Kind2Always: "kind 2 fixed also for its own value";
    Kind2Never: "kind 2 never fixed";
    FirstUnitOnly: "only the first unit looked at";
    TouchMeets: "rows that only touch a segment meet it";
    MemoryExchanged: "memory and register costs exchanged";
    TiedFull: "tied uses at the full reload cost";
    ScalesExchanged: "scales of codes 1 and 2 exchanged";
    IndirectUnscaled: "code 3 not scaled";
    ZeroCostRow: "a use of cost zero has a row";
    ZeroFreqNoRow: "a use of frequency zero has no row";
    DefInside: "a fixed def's weight added to the main weight";
    EndInside: "the weight of a use at the end added to the main weight";
    DefBehind: "a fixed def before the last row merged into that row";
    NeverBack: "a fixed def before the use before it weighed in that one's block";
    FirstWithoutDef: "first row without the first segment's fixed def";
    LastCovered: "last row at the last covered instruction, not at the last use";
    NearWeightFar: "where cuts stand, the near use's side weight put to the far gap";
    KLeftOut: "k left out";
    KTwice: "k counted for each gap";
    NoMargin: "weight test without 2007/2048";
    NoCap: "normalised weight not capped";
    OwnUntested: "own gap not tested when nothing is met";
    OwnLive: "own gap's instruction counted twice";
}

/// Slips in the lower-cost split point.
#[derive(Clone, Copy, Debug, PartialEq, Eq)]
pub enum PointSlip {
    /// The other one of blocks with equal frequency.
    Ties,
    /// Early and late exchanged.
    Exchanged,
    /// The point at the end not preferred may not be taken.
    Short,
    /// The first instruction itself is looked at.
    FromAfter,
}

impl PointSlip {
    pub const ALL: [PointSlip; 4] = [PointSlip::Ties, PointSlip::Exchanged, PointSlip::Short, PointSlip::FromAfter];
}

/// Slips in the checks.
#[derive(Clone, Copy, Debug, PartialEq, Eq)]
pub enum CheckSlip {
    /// A clause left out.
    LeftOut(Clause),
    /// A limit one too high.
    Looser(Clause),
    /// A limit one too low.
    Tighter(Clause),
    /// A number's check made after the next one's.
    Later(u32),
    /// The last failing place instead of the first.
    LastPlace(u32),
}

macro_rules! clauses {
    (limits { $($limit:ident)* } others { $($other:ident)* }) => {
        /// The clauses of document 01's table, limits first.
        #[derive(Clone, Copy, Debug, PartialEq, Eq)]
        pub enum Clause {
            $($limit,)*
            $($other,)*
        }

        const LIMITS: &[Clause] = &[$(Clause::$limit,)*];
        const OTHERS: &[Clause] = &[$(Clause::$other,)*];
    };
}

clauses! {
    limits {
        K Scale1 Scale2 Scale3 Units Items BlockEnd Frequency Code SegmentEmpty SegmentEnd SegmentOrder SegmentValue
        Flags ListPast MemoryField ClassCost UseKind UsePastBlocks UseBefore UseBehind LastEnd Weight RowUnit RowOrder
        RowEmpty RowEnd RowWeight RowFixed RowValue FixedUnit FixedPoint FixedOrder FixedValue UseRoom GapRoom
        GapSegmentRoom LinkRoom AfterBefore BeforeEnd
    }
    others {
        NoBlock NoSegment NoUnit Hole Overlap EmptyBlock StartSlot EndSlot ListStart ListFalls ListShort DefBoundary
        DefInst DefMissing DefKind DefPosition NoCostField UseFalls OutBoundary OutUse LastNoUse RowUnitFalls
        RowStartSlot RowEndSlot Kind1Fields Kind2Fixed RowKind FixedUnitFalls FixedBoundary
    }
}

impl CheckSlip {
    /// Every clause left out, every limit moved by one either way, each pair of checks exchanged, each last place.
    pub fn all() -> Vec<CheckSlip> {
        let limits =
            LIMITS.iter().flat_map(|c| [CheckSlip::LeftOut(*c), CheckSlip::Looser(*c), CheckSlip::Tighter(*c)]);
        let others = OTHERS.iter().map(|c| CheckSlip::LeftOut(*c));
        let later = (1..12).map(CheckSlip::Later);
        let last = (3..13).map(CheckSlip::LastPlace);
        limits.chain(others).chain(later).chain(last).collect()
    }
}
