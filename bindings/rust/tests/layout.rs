//! The table's memory is what include/ladletwig.h says. The answers' structs are of the module `raw`, whose own test
//! holds theirs.

use std::mem::{align_of, offset_of, size_of};

use ladletwig::Table;

#[test]
fn the_table_lies_as_the_header_has_it() {
    assert_eq!((size_of::<Table>(), align_of::<Table>()), (2328, 8));
    assert_eq!(offset_of!(Table, b), 0);
    assert_eq!(offset_of!(Table, columns), 8);
    assert_eq!(offset_of!(Table, next), 16);
    assert_eq!(offset_of!(Table, numbers), 20);
    assert_eq!(offset_of!(Table, digests), 276);
}
