//! Options of Write and Find: Write is asked for constant clauses or not, Find is told to use them or not, with the largest
//! allowance where no other is named.

use nesskettle::{FindOptions, Symmetry, Terms, WriteOptions};

/// The clauses are those of the sheet and no others.
pub const fn not_asked(terms: Terms) -> WriteOptions {
    let symmetry = Symmetry::Kept;
    WriteOptions { terms, symmetry }
}

pub const fn asked(terms: Terms) -> WriteOptions {
    let symmetry = Symmetry::Reduced;
    WriteOptions { terms, symmetry }
}

/// The model found is the least of all.
pub const fn told_no(terms: Terms) -> FindOptions {
    told(terms, Symmetry::Kept)
}

pub const fn told_yes(terms: Terms) -> FindOptions {
    told(terms, Symmetry::Reduced)
}

pub const fn told(terms: Terms, symmetry: Symmetry) -> FindOptions {
    FindOptions {
        terms,
        symmetry,
        allowance: FindOptions::LARGEST_ALLOWANCE,
    }
}
