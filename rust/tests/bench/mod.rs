//! The drive of document 01's bench cases. Its 12 sectors have 48 words.

use pantoglide::Setup;

pub const BENCH: Setup = Setup {
    cylinders: 2,
    heads: 2,
    sectors: 3,
    header: 1,
    field1: 2,
    field2: 1,
    address: 3,
};
