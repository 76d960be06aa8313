//! The archive's calls for the maker's defect map.

/// Octets of a defect.
pub const DEFECT_OCTETS: usize = 12;

/// The numbers of a set-up, in the order in which [`power_up`](super::power_up) takes them.
pub type Numbers = [u16; 7];

mod archive {
    extern "C" {
        pub fn pg_decode_defect(
            octets: *const u8,
            octets_length: usize,
            cylinder: *mut u32,
            head: *mut u16,
            offset: *mut u32,
            length: *mut u16,
        ) -> u8;
        pub fn pg_encode_defect(
            cylinder: u32,
            head: u16,
            offset: u32,
            length: u16,
            octets: *mut u8,
            octets_length: usize,
        ) -> u8;
        pub fn pg_map_place(
            cylinders: u16,
            heads: u16,
            sectors: u16,
            header: u16,
            field1: u16,
            field2: u16,
            address: u16,
            data_field: usize,
            cylinder: *mut u16,
            head: *mut u16,
            sector: *mut u16,
        ) -> u8;
        pub fn pg_decode_map(
            cylinders: u16,
            heads: u16,
            sectors: u16,
            header: u16,
            field1: u16,
            field2: u16,
            address: u16,
            octets: *const u8,
            octets_length: usize,
            defects: *mut u8,
            defects_length: usize,
            count: *mut usize,
            storage_cylinder: *mut u16,
            storage_head: *mut u16,
            offset: *mut usize,
        ) -> u8;
        pub fn pg_encode_map(
            cylinders: u16,
            heads: u16,
            sectors: u16,
            header: u16,
            field1: u16,
            field2: u16,
            address: u16,
            storage_cylinder: u16,
            storage_head: u16,
            defects: *const u8,
            defects_length: usize,
            out: *mut u8,
            out_length: usize,
            size: *mut usize,
        ) -> u8;
        pub fn pg_read_map(
            cylinders: u16,
            heads: u16,
            sectors: u16,
            header: u16,
            field1: u16,
            field2: u16,
            address: u16,
            sector_words: *const u16,
            sector_length: usize,
            defects: *mut u8,
            defects_length: usize,
            count: *mut usize,
            storage_cylinder: *mut u16,
            storage_head: *mut u16,
            offset: *mut usize,
        ) -> u8;
        pub fn pg_write_map(
            cylinders: u16,
            heads: u16,
            sectors: u16,
            header: u16,
            field1: u16,
            field2: u16,
            address: u16,
            storage_cylinder: u16,
            storage_head: u16,
            defects: *const u8,
            defects_length: usize,
            sector_words: *mut u16,
            sector_length: usize,
        ) -> u8;
    }
}

/// Calls the archive with the numbers of a set-up before the other arguments. Why that is safe
/// stands beside the calls of [`raw`](super).
macro_rules! with_setup {
    ($call:ident, $setup:expr, $($argument:expr),+ $(,)?) => {{
        let [cylinders, heads, sectors, header, field1, field2, address] = $setup;
        unsafe {
            archive::$call(
                cylinders, heads, sectors, header, field1, field2, address, $($argument),+
            )
        }
    }};
}

/// The numbers of the defect in the first 12 octets: 0 and all four written, or 10 and nothing
/// changed.
#[inline(always)]
pub fn decode_defect(
    octets: &[u8],
    cylinder: &mut u32,
    head: &mut u16,
    offset: &mut u32,
    length: &mut u16,
) -> u8 {
    let (start, octets_length) = (octets.as_ptr(), octets.len());
    unsafe { archive::pg_decode_defect(start, octets_length, cylinder, head, offset, length) }
}

/// A defect into the first 12 octets: 0 and those written, or 10 and nothing changed.
#[inline(always)]
pub fn encode_defect(cylinder: u32, head: u16, offset: u32, length: u16, octets: &mut [u8]) -> u8 {
    let (start, octets_length) = (octets.as_mut_ptr(), octets.len());
    unsafe { archive::pg_encode_defect(cylinder, head, offset, length, start, octets_length) }
}

/// Where a data field of the map stands: 0 and the place written, or 9 or 16 and nothing changed.
#[inline(always)]
pub fn map_place(
    setup: Numbers,
    data_field: usize,
    cylinder: &mut u16,
    head: &mut u16,
    sector: &mut u16,
) -> u8 {
    with_setup!(pg_map_place, setup, data_field, cylinder, head, sector)
}

/// The map that octets are: 0, its defects at the front of `defects`, how many they are and the
/// storage track, with `offset` as it was; or 9, 10 or 16 to 28 and nothing changed but `offset`,
/// which is where the first offence lies.
#[inline(always)]
pub fn decode_map(
    setup: Numbers,
    octets: &[u8],
    defects: &mut [u8],
    count: &mut usize,
    storage_cylinder: &mut u16,
    storage_head: &mut u16,
    offset: &mut usize,
) -> u8 {
    with_setup!(
        pg_decode_map,
        setup,
        octets.as_ptr(),
        octets.len(),
        defects.as_mut_ptr(),
        defects.len(),
        count,
        storage_cylinder,
        storage_head,
        offset,
    )
}

/// A map as octets at the front of `out`: 0 and their number, or 9, 10 or 8 and nothing changed.
#[inline(always)]
pub fn encode_map(
    setup: Numbers,
    storage_cylinder: u16,
    storage_head: u16,
    defects: &[u8],
    out: &mut [u8],
    size: &mut usize,
) -> u8 {
    with_setup!(
        pg_encode_map,
        setup,
        storage_cylinder,
        storage_head,
        defects.as_ptr(),
        defects.len(),
        out.as_mut_ptr(),
        out.len(),
        size,
    )
}

/// The map that stands on the last cylinder, whatever follows it there: as [`decode_map`], but
/// never 17 or 28.
#[inline(always)]
pub fn read_map(
    setup: Numbers,
    sector_words: &[u16],
    defects: &mut [u8],
    count: &mut usize,
    storage_cylinder: &mut u16,
    storage_head: &mut u16,
    offset: &mut usize,
) -> u8 {
    with_setup!(
        pg_read_map,
        setup,
        sector_words.as_ptr(),
        sector_words.len(),
        defects.as_mut_ptr(),
        defects.len(),
        count,
        storage_cylinder,
        storage_head,
        offset,
    )
}

/// A map onto the last cylinder: 0 and the words of its data fields written, or 9, 10 or 8 and
/// nothing changed.
#[inline(always)]
pub fn write_map(
    setup: Numbers,
    storage_cylinder: u16,
    storage_head: u16,
    defects: &[u8],
    sector_words: &mut [u16],
) -> u8 {
    with_setup!(
        pg_write_map,
        setup,
        storage_cylinder,
        storage_head,
        defects.as_ptr(),
        defects.len(),
        sector_words.as_mut_ptr(),
        sector_words.len(),
    )
}
