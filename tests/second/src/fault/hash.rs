//! Wrong hashes by bytes, and wrong decisions that seeds are the house seeds.

macro_rules! faults_of_hash {
    ([$($rest:ident)*] { $($listed:tt)* }) => { joined! { [$($rest)*] { $($listed)*
    [TABLE]
    /// The high and the low byte of the row are exchanged.
    BytesExchanged,
    /// Only the low byte is hashed.
    BytesLowOnly,
    /// Only the high byte is hashed.
    BytesHighOnly,
    /// The words of the high byte are those of the low byte.
    BytesHighAsLow,
    /// The two words are joined by or.
    BytesOred,
    /// The two words are added modulo 1,024.
    BytesAdded,
    /// Each word is that of the next value.
    BytesShifted,
    /// Function 1 has the words of function 0.
    BytesZeroForOne,
    /// The first word is wrong: function 0, high byte 0.
    BytesFirstWordWrong,
    /// A word in the middle is wrong: function 1, low byte 232.
    BytesMiddleWordWrong,
    /// The last word is wrong: function 3, low byte 255.
    BytesLastWordWrong,
    /// The words are cut to 8 bits.
    BytesCut,
    [HOUSE]
    /// The first seed is not compared.
    HouseFirstLeftOut,
    /// Seed 29, function 1 and bit 13, is not compared.
    HouseMiddleLeftOut,
    /// The last seed is not compared.
    HouseLastLeftOut,
    /// The seeds of function 0 alone are compared.
    HouseFirstFunctionOnly,
    /// The seeds of function 3 are not compared.
    HouseLastFunctionLeftOut,
    /// The first seed of each function alone is compared.
    HouseFirstOfEachOnly,
    /// The house seeds may stand in any order.
    HouseInAnyOrder,
    /// The low bytes of the seeds are compared.
    HouseLowBytesOnly,
    /// The bit of 512 is not compared, nor are those above it.
    HouseHighestBitIgnored,
    /// The lowest bits of the seeds are not compared.
    HouseLowestBitIgnored,
    /// One seed may be another.
    HouseOneMayDiffer,
    /// One house seed in its place is enough.
    HouseOneIsEnough,
    /// The table is taken for all seeds.
    HouseAlways,
    /// An activation is counted by the table under all seeds.
    HouseAlwaysInCount,
    /// The estimate is read by the table under all seeds.
    HouseAlwaysInEstimate,
    } } };
}
