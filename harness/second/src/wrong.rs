/// Ways in which a program can look right and be wrong.
#[derive(Clone, Copy, Debug, PartialEq, Eq)]
pub enum Wrong {
    /// Peels sides of exactly the limit's length.
    AtLeastTheLimit,
    /// Of equal lengths, takes the lower triangle first.
    NoTieOrder,
    /// Compares the ends of equal lengths as directed, not by the first end first.
    DirectedTieOrder,
    /// Of equal lengths, goes by point numbers.
    TiesByNumbers,
    /// Answers the hull for each limit.
    HullAtOnce,
    /// Stops at the first long side that may not be removed.
    StopsAtLongSide,
    /// Marks no bared corner as rim.
    ForgetsBaredCorner,
    /// Peels once and only counts afterwards.
    PeelsOnce,
    /// Lists an outline after each peel.
    ListsEachPeel,
    /// Starts the ring where the rim was met, not at its lowest number.
    RingFromAnywhere,
    /// Clears the ring buffer past the ring.
    ClearsRingBuffer,
    /// Leaves the doubled area as it was at the start.
    AreaOfHull,
    /// Refuses points on a circle.
    RefusesOnCircle,
    /// Asks for the circle only across inner sides.
    CircleOfNeighboursOnly,
    /// Names the highest faulty place.
    HighestPlace,
    /// Names the earlier point of an equal pair.
    EarlierOfEqualPoints,
    /// Takes a rim that passes a point twice.
    TakesPinchedRim,
    /// Gives 13 the first point that a walk along the rim meets.
    RightOfFirstSide,
    /// Asks for the buffers after everything else.
    BuffersLast,
    /// Takes -0 as 0.
    TakesMinusZero,
    /// Never compares the closing position.
    NoClosingCompare,
    /// Fills the lists while it reads, so that a refusal leaves something written.
    WritesBeforeFault,
    /// Judges a position's coordinates only once both are there.
    PositionFirst,
    /// Ignores bytes left over.
    IgnoresBytesLeft,
    /// Reads the counts little-endian whatever the byte order says.
    CountsLittleEndian,
    /// Reads every Point of a point file in the byte order of the file.
    FileOrderInPoints,
    /// Adds up the lengths of a district's rings in 16 bits.
    SumIn16Bits,
    /// Asks of each polygon of a district whether its ring alone fits the lists.
    WholeRoomForEachRing,
    /// Counts a district's places from the start of the polygon at fault.
    PlaceFromPolygon,
    /// Leaves the rings before the one at fault in the lists.
    KeepsEarlierRings,
    /// Asks for the C function's output first.
    OutputFirst,
    /// Takes a ring of the buffer's whole length as too long.
    OutlineShortOfBuffer,
    /// Takes numbers of six digits.
    TakesSixDigits,
    /// Takes tabs as white space.
    TakesTabs,
}

impl Wrong {
    pub const ALL: [Wrong; 34] = [
        Wrong::AtLeastTheLimit,
        Wrong::NoTieOrder,
        Wrong::DirectedTieOrder,
        Wrong::TiesByNumbers,
        Wrong::HullAtOnce,
        Wrong::StopsAtLongSide,
        Wrong::ForgetsBaredCorner,
        Wrong::PeelsOnce,
        Wrong::ListsEachPeel,
        Wrong::RingFromAnywhere,
        Wrong::ClearsRingBuffer,
        Wrong::AreaOfHull,
        Wrong::RefusesOnCircle,
        Wrong::CircleOfNeighboursOnly,
        Wrong::HighestPlace,
        Wrong::EarlierOfEqualPoints,
        Wrong::TakesPinchedRim,
        Wrong::RightOfFirstSide,
        Wrong::BuffersLast,
        Wrong::TakesMinusZero,
        Wrong::NoClosingCompare,
        Wrong::WritesBeforeFault,
        Wrong::PositionFirst,
        Wrong::IgnoresBytesLeft,
        Wrong::CountsLittleEndian,
        Wrong::FileOrderInPoints,
        Wrong::SumIn16Bits,
        Wrong::WholeRoomForEachRing,
        Wrong::PlaceFromPolygon,
        Wrong::KeepsEarlierRings,
        Wrong::OutputFirst,
        Wrong::OutlineShortOfBuffer,
        Wrong::TakesSixDigits,
        Wrong::TakesTabs,
    ];
}
