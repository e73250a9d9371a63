//! Our functions, as the static libraries `comparison` and `vaikelomu` export them, each where an archive has it.
//!
//! A Rattle slice passes as a pointer and then a length.

/// A function of ours.
pub struct Ours<F> {
    pub name: &'static str,
    /// Where an archive has it.
    pub function: Option<F>,
}

macro_rules! ours {
    ($($name:ident($($type:ty),*) $(-> $out:ty)?;)*) => {
        $(
            #[allow(non_upper_case_globals)]
            pub const $name: Ours<unsafe extern "C" fn($($type),*) $(-> $out)?> = {
                #[cfg($name)]
                unsafe extern "C" {
                    fn $name($(_: $type),*) $(-> $out)?;
                }
                #[cfg($name)]
                let function = Some($name as _);
                #[cfg(not($name))]
                let function = None;
                Ours { name: stringify!($name), function }
            };
        )*

        const DECLARED: &[&str] = &[$(stringify!($name)),*];
    };
}

ours! {
    vk_round_f32(f32) -> f32;
    vk_floor_f32(f32) -> f32;
    vk_min_f32(f32, f32) -> f32;
    vk_round_to_u8(f32) -> u8;
    // The values, and as many samples; nothing is written where the numbers differ.
    vk_round_all_to_u8(*const f32, usize, *mut u8, usize);
    vk_f32_from_bits(u32) -> f32;
    vk_in_unit(f32) -> bool;
    vk_floor_f64_to_i64(f64) -> i64;
    vk_ceil_f64_to_i64(f64) -> i64;
    vk_max_f64(f64, f64) -> f64;
    vk_abs_f64(f64) -> f64;
    vk_narrow_f64(f64) -> f32;

    vk_crc32(*const u8, usize) -> u32;

    vk_chacha20_block(&[u8; 32], u32, &[u8; 12], &mut [u8; 64]);
    // Key, nonce, position in the stream and then the next one, and the bytes; 0, or 14 where the stream ends before the last.
    vk_chacha20_apply(&[u8; 32], &[u8; 12], &mut u64, *mut u8, usize) -> u8;

    vk_utf8_well_formed(*const u8, usize) -> bool;
    vk_utf8_counted(*const u8, usize) -> bool;

    // Text, whether there is a key, key, salt; record and number given. 0, or the refusal.
    vk_record(*const u8, usize, bool, &[u8; 32], &[u8; 4], &mut [u8; 46], &mut u64) -> u8;
    // Record, whether there is a key, key; text, length and number given. 0, or the refusal.
    vk_parse(&[u8; 46], bool, &[u8; 32], &mut [u8; 32], &mut usize, &mut u64) -> u8;

    vk_block_bits(&[u8; 748], &mut [u8; 1024]);
    vk_gather(&[f32; 1024], &mut [f32; 748]);
    // The numbers of four picture blocks.
    vk_dither(u32, &mut [f32; 16]);
    // Key, len, count, and the places lent for entries; their number.
    vk_shuffle(&[u8; 32], usize, usize, *mut u16, usize) -> usize;

    vk_forward(&mut [f32; 64]);
    vk_inverse(&mut [f32; 64]);
    vk_mark_block(&mut [f32; 64], &[f32; 4], u8);
    vk_block_vote(&[f32; 64], &[f32; 4]) -> f32;
    vk_load_block(&[f32; 65536], u16, &mut [f32; 64]);
    vk_store_block(&mut [f32; 65536], u16, &[f32; 64]);
    // Each block of the plane transformed, and transformed back.
    vk_there_and_back(&mut [f32; 65536]);

    vk_encode(&[u8; 46], &mut [u8; 748]);
    // The votes, and the record; the metric with which state 0 ended.
    vk_decode(&[f32; 748], &mut [u8; 46]) -> f32;

    // Source size, output size, output number; first and last source number; centre, support and sum.
    vk_window(usize, usize, usize, &mut [i64; 2], &mut [f64; 3]);
    // The same and a source number; whether it has a weight, and the weight or 0.
    vk_weight(usize, usize, usize, i64, &mut f32) -> bool;
    // A row of samples, channels, and the luma of its pixels; whether it is a picture's.
    vk_luma(*const u8, usize, usize, *mut f32, usize) -> bool;
    // Samples, width, height, channels, and the plane; whether they are a picture's.
    vk_plane(*const u8, usize, usize, usize, usize, *mut f32, usize) -> bool;
    // A change of the plane, width, height, channels, and the samples; whether they are those of a picture no smaller.
    vk_change(*const f32, usize, usize, usize, usize, *mut u8, usize) -> bool;

    // As include/vaikelomu.h has them.
    vaikelomu_write(
        *mut u8, usize, usize, usize, usize, *const u8, usize, u8, &[u8; 32], &[u8; 4], *mut f32, usize, &mut u64
    ) -> u8;
    vaikelomu_read(
        *const u8, usize, usize, usize, usize, u8, &[u8; 32], *mut f32, usize, &mut [u8; 32], &mut usize, &mut u64
    ) -> u8;
    vaikelomu_read_votes(
        *const f32, usize, u8, &[u8; 32], &mut [u8; 32], &mut usize, &mut u64
    ) -> u8;
    vaikelomu_record(*const f32, usize, &mut [u8; 46], &mut u64) -> u8;
    vaikelomu_version() -> u32;
}

/// Whether an archive has a function.
pub fn has(name: &str) -> bool {
    env!("VAIKELOMU_SYMBOLS").split_whitespace().any(|symbol| symbol == name)
}

/// The functions that an archive has and that are not compared.
pub fn undeclared() -> impl Iterator<Item = &'static str> {
    env!("VAIKELOMU_SYMBOLS").split_whitespace().filter(|symbol| !DECLARED.contains(symbol))
}
