//! The errors that the two files name, and one for a row without a marker, which only our codec finds.

#[derive(Clone, Copy, Debug, PartialEq, Eq)]
pub enum ChalametPIRError {
    ArithmeticOverflowAddingQueryIndicator,
    DecodedRowNotPrependedWithDigestOfKey,
    FailedToDeserializeFilterFromBytes,
    FailedToDeserializeMatrixFromBytes,
    ImpossibleEncodedDBMatrixElementBitLength,
    IncompatibleDimensionForMatrixAddition,
    IncompatibleDimensionForMatrixMultiplication,
    IncompatibleDimensionForRowVectorTransposedMatrixMultiplication,
    InvalidDimensionForVector,
    InvalidHintMatrix,
    InvalidMatrixDimension,
    InvalidNumberOfElementsInMatrix,
    InvalidResponseVector,
    PendingQueryDoesNotExistForKey,
    PendingQueryExistsForKey,
    RowHasNoMarker,
    UnsupportedArityForBinaryFuseFilter,
}
