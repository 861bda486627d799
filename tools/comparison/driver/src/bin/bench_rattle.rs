//! Times the original and a static library `rattle_flat` (rattle_flat.h) side by side, in one run,
//! on the same inputs. One line each:
//!
//!     name ORIGINAL LIBRARY unit ratio RATIO
//!
//! where both numbers are the best of several rounds and RATIO is the library's time by the
//! original's (above 1: the library is slower). The two sides take turns within each round, so a
//! disturbance of the machine meets both. `differs` stands at the end where the checksums differ;
//! the status is then 1. What the library does not define is listed as `missing`.
//!
//! `bench_rattle [PREFIX..]` measures only what begins with one of the words. BENCH_ROUNDS: 9; BENCH_SLICE: 200
//! (milliseconds; on a busy machine 2, with 300 rounds).
use bench::data::{self, Text};
use bench::ops;
use bench::plain;
use bench::timing::{keep_memory, rounds, slice};
use std::time::Instant;

/// The functions of rattle_flat.h.
#[allow(dead_code)]
mod library {
    extern "C" {
        pub fn rattle_flat_prim_push(v: *const i64, nv: usize, m: *const u8, nm: usize, rounds: usize) -> u64;
        pub fn rattle_flat_prim_push_reserved(v: *const i64, nv: usize, rounds: usize) -> u64;
        pub fn rattle_flat_prim_extend(v: *const i64, nv: usize, m: *const u8, nm: usize, rounds: usize) -> u64;
        pub fn rattle_flat_prim_extend_slice(v: *const i64, nv: usize, piece: usize, rounds: usize) -> u64;
        pub fn rattle_flat_prim_iter_sum(v: *const i64, nv: usize, m: *const u8, nm: usize, rounds: usize) -> u64;
        pub fn rattle_flat_prim_values_sum(v: *const i64, nv: usize, rounds: usize) -> u64;
        pub fn rattle_flat_prim_value_sum(v: *const i64, nv: usize, rounds: usize) -> u64;
        pub fn rattle_flat_prim_get_sum(v: *const i64, nv: usize, m: *const u8, nm: usize, rounds: usize) -> u64;
        pub fn rattle_flat_prim_slice_sum(v: *const i64, nv: usize, m: *const u8, nm: usize, window: usize, rounds: usize) -> u64;
        pub fn rattle_flat_bits_push(p: *const u8, np: usize, times: usize, rounds: usize) -> u64;
        pub fn rattle_flat_bits_unset(p: *const u8, np: usize, times: usize, rounds: usize) -> u64;
        pub fn rattle_flat_bits_freeze_unset(p: *const u8, np: usize, times: usize, rounds: usize) -> u64;
        pub fn rattle_flat_bits_iter(p: *const u8, np: usize, times: usize, rounds: usize) -> u64;
        pub fn rattle_flat_bool_push(b: *const u8, nb: usize, m: *const u8, nm: usize, rounds: usize) -> u64;
        pub fn rattle_flat_bool_iter(b: *const u8, nb: usize, m: *const u8, nm: usize, rounds: usize) -> u64;
        pub fn rattle_flat_utf8_try_new(d: *const u8, nd: usize, o: *const i32, no: usize, rounds: usize) -> u64;
        pub fn rattle_flat_utf8_iter(d: *const u8, nd: usize, o: *const i32, no: usize, rounds: usize) -> u64;
        pub fn rattle_flat_bin_push(d: *const u8, nd: usize, item: usize, times: usize, m: *const u8, nm: usize, rounds: usize) -> u64;
        pub fn rattle_flat_vbin_push(d: *const u8, nd: usize, item: usize, times: usize, rounds: usize) -> u64;
        pub fn rattle_flat_bin_extend(d: *const u8, nd: usize, item: usize, times: usize, rounds: usize) -> u64;
        pub fn rattle_flat_bin_extend_values(d: *const u8, nd: usize, item: usize, times: usize, rounds: usize) -> u64;
        pub fn rattle_flat_utf8_push(d: *const u8, nd: usize, item: usize, times: usize, m: *const u8, nm: usize, rounds: usize) -> u64;
        pub fn rattle_flat_prim_extend_self(v: *const i64, nv: usize, m: *const u8, nm: usize, rounds: usize) -> u64;
        pub fn rattle_flat_bin_extend_self(d: *const u8, nd: usize, item: usize, m: *const u8, nm: usize, rounds: usize) -> u64;
        pub fn rattle_flat_utf8_extend_self(d: *const u8, nd: usize, item: usize, m: *const u8, nm: usize, rounds: usize) -> u64;
        pub fn rattle_flat_prim_freeze_thaw(v: *const i64, nv: usize, m: *const u8, nm: usize, rounds: usize) -> u64;
        pub fn rattle_flat_bin_freeze_thaw(d: *const u8, nd: usize, item: usize, m: *const u8, nm: usize, rounds: usize) -> u64;
        pub fn rattle_flat_prim_thaw_push(v: *const i64, nv: usize, m: *const u8, nm: usize, rounds: usize) -> u64;
        pub fn rattle_flat_filter_prim(v: *const i64, nv: usize, m: *const u8, nm: usize, k: *const u8, nk: usize, rounds: usize) -> u64;
        pub fn rattle_flat_filter_utf8(d: *const u8, nd: usize, o: *const i32, no: usize, m: *const u8, nm: usize, k: *const u8, nk: usize, rounds: usize) -> u64;
        pub fn rattle_flat_take_prim(v: *const i64, nv: usize, m: *const u8, nm: usize, k: *const i64, nk: usize, rounds: usize) -> u64;
        pub fn rattle_flat_take_utf8(d: *const u8, nd: usize, o: *const i32, no: usize, m: *const u8, nm: usize, k: *const i64, nk: usize, rounds: usize) -> u64;
        pub fn rattle_flat_cmp_lt(v: *const i64, nv: usize, w: *const i64, nw: usize, m: *const u8, nm: usize, rounds: usize) -> u64;
        pub fn rattle_flat_cmp_eq(v: *const i64, nv: usize, w: *const i64, nw: usize, m: *const u8, nm: usize, rounds: usize) -> u64;
        pub fn rattle_flat_cmp_lt_scalar(v: *const i64, nv: usize, m: *const u8, nm: usize, rounds: usize) -> u64;
        pub fn rattle_flat_cmp_eq_validity(v: *const i64, nv: usize, w: *const i64, nw: usize, m: *const u8, nm: usize, rounds: usize) -> u64;
        pub fn rattle_flat_cmp_eq_scalar_validity(v: *const i64, nv: usize, m: *const u8, nm: usize, rounds: usize) -> u64;
        pub fn rattle_flat_cmp_eq_utf8(d: *const u8, nd: usize, e: *const u8, ne: usize, o: *const i32, no: usize, rounds: usize) -> u64;
        pub fn rattle_flat_logic_and(b: *const u8, nb: usize, c: *const u8, nc: usize, m: *const u8, nm: usize, rounds: usize) -> u64;
        pub fn rattle_flat_logic_not(b: *const u8, nb: usize, m: *const u8, nm: usize, rounds: usize) -> u64;
        pub fn rattle_flat_logic_is_null(v: *const i64, nv: usize, m: *const u8, nm: usize, rounds: usize) -> u64;
        pub fn rattle_flat_kleene_and(b: *const u8, nb: usize, c: *const u8, nc: usize, m: *const u8, nm: usize, rounds: usize) -> u64;
        pub fn rattle_flat_kleene_and_null(b: *const u8, nb: usize, m: *const u8, nm: usize, rounds: usize) -> u64;
        pub fn rattle_flat_arith_add_i64(v: *const i64, nv: usize, w: *const i64, nw: usize, m: *const u8, nm: usize, rounds: usize) -> u64;
        pub fn rattle_flat_arith_checked_add_i64(v: *const i64, nv: usize, w: *const i64, nw: usize, m: *const u8, nm: usize, rounds: usize) -> u64;
        pub fn rattle_flat_arith_mul_i64(v: *const i64, nv: usize, w: *const i64, nw: usize, m: *const u8, nm: usize, rounds: usize) -> u64;
        pub fn rattle_flat_arith_div_i64(v: *const i64, nv: usize, w: *const i64, nw: usize, m: *const u8, nm: usize, rounds: usize) -> u64;
        pub fn rattle_flat_arith_sub_scalar_i64(v: *const i64, nv: usize, m: *const u8, nm: usize, rounds: usize) -> u64;
        pub fn rattle_flat_arith_negate_i64(v: *const i64, nv: usize, m: *const u8, nm: usize, rounds: usize) -> u64;
        pub fn rattle_flat_arith_add_i32(v: *const i64, nv: usize, w: *const i64, nw: usize, rounds: usize) -> u64;
        pub fn rattle_flat_arith_saturating_add_i32(v: *const i64, nv: usize, w: *const i64, nw: usize, rounds: usize) -> u64;
        pub fn rattle_flat_cast_wrap_i32(v: *const i64, nv: usize, m: *const u8, nm: usize, rounds: usize) -> u64;
        pub fn rattle_flat_cast_fit_i32(v: *const i64, nv: usize, m: *const u8, nm: usize, rounds: usize) -> u64;
        pub fn rattle_flat_cast_to_utf8(v: *const i64, nv: usize, m: *const u8, nm: usize, rounds: usize) -> u64;
        pub fn rattle_flat_cast_of_utf8(d: *const u8, nd: usize, o: *const i32, no: usize, m: *const u8, nm: usize, rounds: usize) -> u64;
        pub fn rattle_flat_cast_to_bool(v: *const i64, nv: usize, m: *const u8, nm: usize, rounds: usize) -> u64;
        pub fn rattle_flat_cast_of_bool(b: *const u8, nb: usize, m: *const u8, nm: usize, rounds: usize) -> u64;
        pub fn rattle_flat_cast_bool_utf8(b: *const u8, nb: usize, m: *const u8, nm: usize, rounds: usize) -> u64;
        pub fn rattle_flat_agg_sum(v: *const i64, nv: usize, m: *const u8, nm: usize, rounds: usize) -> u64;
        pub fn rattle_flat_agg_sum_wide(v: *const i64, nv: usize, m: *const u8, nm: usize, rounds: usize) -> u64;
        pub fn rattle_flat_agg_min(v: *const i64, nv: usize, m: *const u8, nm: usize, rounds: usize) -> u64;
        pub fn rattle_flat_agg_max(v: *const i64, nv: usize, m: *const u8, nm: usize, rounds: usize) -> u64;
        pub fn rattle_flat_agg_min_utf8(d: *const u8, nd: usize, o: *const i32, no: usize, m: *const u8, nm: usize, rounds: usize) -> u64;
        pub fn rattle_flat_group_prim(v: *const i64, nv: usize, m: *const u8, nm: usize, rounds: usize) -> u64;
        pub fn rattle_flat_group_utf8(d: *const u8, nd: usize, o: *const i32, no: usize, m: *const u8, nm: usize, rounds: usize) -> u64;
        pub fn rattle_flat_group_sum(v: *const i64, nv: usize, w: *const i64, nw: usize, m: *const u8, nm: usize, rounds: usize) -> u64;
        pub fn rattle_flat_group_sum_wide(v: *const i64, nv: usize, w: *const i64, nw: usize, m: *const u8, nm: usize, rounds: usize) -> u64;
        pub fn rattle_flat_group_min(v: *const i64, nv: usize, w: *const i64, nw: usize, m: *const u8, nm: usize, rounds: usize) -> u64;
        pub fn rattle_flat_hash_prim(v: *const i64, nv: usize, m: *const u8, nm: usize, rounds: usize) -> u64;
        pub fn rattle_flat_select_take(v: *const i64, nv: usize, w: *const i64, nw: usize, m: *const u8, nm: usize, rounds: usize) -> u64;
        pub fn rattle_flat_select_if_then_else(b: *const u8, nb: usize, v: *const i64, nv: usize, w: *const i64, nw: usize, m: *const u8, nm: usize, rounds: usize) -> u64;
        pub fn rattle_flat_select_nullif(v: *const i64, nv: usize, w: *const i64, nw: usize, m: *const u8, nm: usize, rounds: usize) -> u64;
        pub fn rattle_flat_select_length(d: *const u8, nd: usize, o: *const i32, no: usize, m: *const u8, nm: usize, rounds: usize) -> u64;
        pub fn rattle_flat_sort_prim(v: *const i64, nv: usize, m: *const u8, nm: usize, rounds: usize) -> u64;
        pub fn rattle_flat_sort_utf8(d: *const u8, nd: usize, o: *const i32, no: usize, m: *const u8, nm: usize, rounds: usize) -> u64;
        pub fn rattle_flat_sort_limit(v: *const i64, nv: usize, rounds: usize) -> u64;
        pub fn rattle_flat_lexsort(v: *const i64, nv: usize, w: *const i64, nw: usize, m: *const u8, nm: usize, rounds: usize) -> u64;
        pub fn rattle_flat_lexsort_limit(v: *const i64, nv: usize, w: *const i64, nw: usize, m: *const u8, nm: usize, rounds: usize) -> u64;
        pub fn rattle_flat_partition(v: *const i64, nv: usize, w: *const i64, nw: usize, rounds: usize) -> u64;
        pub fn rattle_flat_prim_push_null(count: usize, rounds: usize) -> u64;
        pub fn rattle_flat_prim_push_pop(v: *const i64, nv: usize, m: *const u8, nm: usize, rounds: usize) -> u64;
        pub fn rattle_flat_prim_push_freeze(v: *const i64, nv: usize, m: *const u8, nm: usize, rounds: usize) -> u64;
        pub fn rattle_flat_prim_builder_iter_sum(v: *const i64, nv: usize, m: *const u8, nm: usize, rounds: usize) -> u64;
        pub fn rattle_flat_prim_null_count(v: *const i64, nv: usize, m: *const u8, nm: usize, rounds: usize) -> u64;
        pub fn rattle_flat_bits_extend_constant(piece: usize, times: usize, rounds: usize) -> u64;
        pub fn rattle_flat_bits_get_bit(p: *const u8, np: usize, times: usize, rounds: usize) -> u64;
        pub fn rattle_flat_bits_get(p: *const u8, np: usize, times: usize, rounds: usize) -> u64;
        pub fn rattle_flat_bits_set(p: *const u8, np: usize, rounds: usize) -> u64;
    }
}

/// The original in the library's place, to try the driver: every ratio should be about 1.
#[cfg(feature = "stub")]
mod stub {
    use bench::{ops, plain};
    use std::slice::from_raw_parts as list;

    fn each(mut op: impl FnMut(u64) -> u64, rounds: usize) -> u64 {
        (0..rounds as u64).fold(0, |sum, r| sum.wrapping_add(op(r)))
    }

    macro_rules! export {
        ($($name:ident ( $($arg:ident : $t:ty),* ) $body:expr;)*) => {
            $(
                #[no_mangle]
                #[inline(never)]
                pub unsafe extern "C" fn $name($($arg: $t,)* rounds: usize) -> u64 {
                    each($body, rounds)
                }
            )*
        };
    }

    export! {
        rattle_flat_prim_push(v: *const i64, nv: usize, m: *const u8, nm: usize) ops::prim_push(list(v, nv), list(m, nm));
        rattle_flat_prim_push_reserved(v: *const i64, nv: usize) ops::prim_push_reserved(list(v, nv));
        rattle_flat_prim_extend(v: *const i64, nv: usize, m: *const u8, nm: usize) ops::prim_extend(list(v, nv), list(m, nm));
        rattle_flat_prim_extend_slice(v: *const i64, nv: usize, piece: usize) ops::prim_extend_slice(list(v, nv), piece);
        rattle_flat_prim_iter_sum(v: *const i64, nv: usize, m: *const u8, nm: usize) ops::prim_iter_sum(list(v, nv), list(m, nm));
        rattle_flat_prim_values_sum(v: *const i64, nv: usize) ops::prim_values_sum(list(v, nv));
        rattle_flat_prim_value_sum(v: *const i64, nv: usize) ops::prim_value_sum(list(v, nv));
        rattle_flat_prim_get_sum(v: *const i64, nv: usize, m: *const u8, nm: usize) ops::prim_get_sum(list(v, nv), list(m, nm));
        rattle_flat_prim_slice_sum(v: *const i64, nv: usize, m: *const u8, nm: usize, window: usize) ops::prim_slice_sum(list(v, nv), list(m, nm), window);
        rattle_flat_bits_push(p: *const u8, np: usize, times: usize) ops::bits_push(list(p, np), times);
        rattle_flat_bits_unset(p: *const u8, np: usize, times: usize) ops::bits_unset(list(p, np), times);
        rattle_flat_bits_freeze_unset(p: *const u8, np: usize, times: usize) ops::bits_freeze_unset(list(p, np), times);
        rattle_flat_bits_iter(p: *const u8, np: usize, times: usize) ops::bits_iter(list(p, np), times);
        rattle_flat_bool_push(b: *const u8, nb: usize, m: *const u8, nm: usize) ops::bool_push(list(b, nb), list(m, nm));
        rattle_flat_bool_iter(b: *const u8, nb: usize, m: *const u8, nm: usize) ops::bool_iter(list(b, nb), list(m, nm));
        rattle_flat_utf8_try_new(d: *const u8, nd: usize, o: *const i32, no: usize) ops::utf8_try_new(list(d, nd), list(o, no));
        rattle_flat_utf8_iter(d: *const u8, nd: usize, o: *const i32, no: usize) ops::utf8_iter(list(d, nd), list(o, no));
        rattle_flat_bin_push(d: *const u8, nd: usize, item: usize, times: usize, m: *const u8, nm: usize) ops::bin_push(list(d, nd), item, times, list(m, nm));
        rattle_flat_vbin_push(d: *const u8, nd: usize, item: usize, times: usize) ops::vbin_push(list(d, nd), item, times);
        rattle_flat_bin_extend(d: *const u8, nd: usize, item: usize, times: usize) ops::bin_extend(list(d, nd), item, times);
        rattle_flat_bin_extend_values(d: *const u8, nd: usize, item: usize, times: usize) ops::bin_extend_values(list(d, nd), item, times);
        rattle_flat_utf8_push(d: *const u8, nd: usize, item: usize, times: usize, m: *const u8, nm: usize) ops::utf8_push(list(d, nd), item, times, list(m, nm));
        rattle_flat_prim_extend_self(v: *const i64, nv: usize, m: *const u8, nm: usize) ops::prim_extend_self(list(v, nv), list(m, nm));
        rattle_flat_bin_extend_self(d: *const u8, nd: usize, item: usize, m: *const u8, nm: usize) ops::bin_extend_self(list(d, nd), item, list(m, nm));
        rattle_flat_utf8_extend_self(d: *const u8, nd: usize, item: usize, m: *const u8, nm: usize) ops::utf8_extend_self(list(d, nd), item, list(m, nm));
        rattle_flat_prim_freeze_thaw(v: *const i64, nv: usize, m: *const u8, nm: usize) ops::prim_freeze_thaw(list(v, nv), list(m, nm));
        rattle_flat_bin_freeze_thaw(d: *const u8, nd: usize, item: usize, m: *const u8, nm: usize) ops::bin_freeze_thaw(list(d, nd), item, list(m, nm));
        rattle_flat_prim_thaw_push(v: *const i64, nv: usize, m: *const u8, nm: usize) ops::prim_thaw_push(list(v, nv), list(m, nm));
        rattle_flat_filter_prim(v: *const i64, nv: usize, m: *const u8, nm: usize, k: *const u8, nk: usize) ops::filter_prim(list(v, nv), list(m, nm), list(k, nk), ops::FILTER_PRIM[1].1);
        rattle_flat_filter_utf8(d: *const u8, nd: usize, o: *const i32, no: usize, m: *const u8, nm: usize, k: *const u8, nk: usize) ops::filter_utf8(list(d, nd), list(o, no), list(m, nm), list(k, nk), ops::FILTER_UTF8[1].1);
        rattle_flat_take_prim(v: *const i64, nv: usize, m: *const u8, nm: usize, k: *const i64, nk: usize) ops::take_prim(list(v, nv), list(m, nm), list(k, nk), ops::TAKE_PRIM[1].1);
        rattle_flat_take_utf8(d: *const u8, nd: usize, o: *const i32, no: usize, m: *const u8, nm: usize, k: *const i64, nk: usize) ops::take_utf8(list(d, nd), list(o, no), list(m, nm), list(k, nk), ops::TAKE_UTF8[1].1);
        rattle_flat_prim_push_null(n: usize) ops::prim_push_null(n);
        rattle_flat_prim_push_pop(v: *const i64, nv: usize, m: *const u8, nm: usize) ops::prim_push_pop(list(v, nv), list(m, nm));
        rattle_flat_prim_push_freeze(v: *const i64, nv: usize, m: *const u8, nm: usize) ops::prim_push_freeze(list(v, nv), list(m, nm));
        rattle_flat_prim_builder_iter_sum(v: *const i64, nv: usize, m: *const u8, nm: usize) ops::prim_builder_iter_sum(list(v, nv), list(m, nm));
        rattle_flat_prim_null_count(v: *const i64, nv: usize, m: *const u8, nm: usize) ops::prim_null_count(list(v, nv), list(m, nm));
        rattle_flat_bits_extend_constant(piece: usize, times: usize) ops::bits_extend_constant(piece, times);
        rattle_flat_bits_get_bit(p: *const u8, np: usize, times: usize) ops::bits_get_bit(list(p, np), times);
        rattle_flat_bits_get(p: *const u8, np: usize, times: usize) ops::bits_get(list(p, np), times);
        rattle_flat_bits_set(p: *const u8, np: usize) ops::bits_set(list(p, np));
        rattle_flat_cmp_lt(v: *const i64, nv: usize, w: *const i64, nw: usize, m: *const u8, nm: usize) plain::compare(plain::lt, list(v, nv), list(w, nw), list(m, nm));
        rattle_flat_cmp_eq(v: *const i64, nv: usize, w: *const i64, nw: usize, m: *const u8, nm: usize) plain::compare(plain::eq, list(v, nv), list(w, nw), list(m, nm));
        rattle_flat_cmp_lt_scalar(v: *const i64, nv: usize, m: *const u8, nm: usize) plain::compare_zero(plain::lt_scalar, list(v, nv), list(m, nm));
        rattle_flat_cmp_eq_validity(v: *const i64, nv: usize, w: *const i64, nw: usize, m: *const u8, nm: usize) plain::compare(plain::eq_validity, list(v, nv), list(w, nw), list(m, nm));
        rattle_flat_cmp_eq_scalar_validity(v: *const i64, nv: usize, m: *const u8, nm: usize) plain::compare_zero(plain::eq_scalar_validity, list(v, nv), list(m, nm));
        rattle_flat_cmp_eq_utf8(d: *const u8, nd: usize, e: *const u8, ne: usize, o: *const i32, no: usize) plain::compare_texts(list(d, nd), list(e, ne), list(o, no));
        rattle_flat_logic_and(b: *const u8, nb: usize, c: *const u8, nc: usize, m: *const u8, nm: usize) plain::combine_marks(plain::and, list(b, nb), list(c, nc), list(m, nm));
        rattle_flat_logic_not(b: *const u8, nb: usize, m: *const u8, nm: usize) plain::map_marks(plain::not, list(b, nb), list(m, nm));
        rattle_flat_logic_is_null(v: *const i64, nv: usize, m: *const u8, nm: usize) plain::logic_is_null(list(v, nv).len(), list(m, nm));
        rattle_flat_kleene_and(b: *const u8, nb: usize, c: *const u8, nc: usize, m: *const u8, nm: usize) plain::combine_marks(plain::kleene_and, list(b, nb), list(c, nc), list(m, nm));
        rattle_flat_kleene_and_null(b: *const u8, nb: usize, m: *const u8, nm: usize) plain::combine_marks_with_null(list(b, nb), list(m, nm));
        rattle_flat_arith_add_i64(v: *const i64, nv: usize, w: *const i64, nw: usize, m: *const u8, nm: usize) plain::combine(plain::add, list(v, nv), list(w, nw), list(m, nm));
        rattle_flat_arith_checked_add_i64(v: *const i64, nv: usize, w: *const i64, nw: usize, m: *const u8, nm: usize) plain::combine(plain::checked_add, list(v, nv), list(w, nw), list(m, nm));
        rattle_flat_arith_mul_i64(v: *const i64, nv: usize, w: *const i64, nw: usize, m: *const u8, nm: usize) plain::combine(plain::mul, list(v, nv), list(w, nw), list(m, nm));
        rattle_flat_arith_div_i64(v: *const i64, nv: usize, w: *const i64, nw: usize, m: *const u8, nm: usize) plain::combine(plain::div, list(v, nv), list(w, nw), list(m, nm));
        rattle_flat_arith_sub_scalar_i64(v: *const i64, nv: usize, m: *const u8, nm: usize) plain::map_values(plain::sub_seven, list(v, nv), list(m, nm));
        rattle_flat_arith_negate_i64(v: *const i64, nv: usize, m: *const u8, nm: usize) plain::map_values(plain::negate, list(v, nv), list(m, nm));
        rattle_flat_arith_add_i32(v: *const i64, nv: usize, w: *const i64, nw: usize) plain::combine_i32(plain::add_i32, list(v, nv), list(w, nw));
        rattle_flat_arith_saturating_add_i32(v: *const i64, nv: usize, w: *const i64, nw: usize) plain::combine_i32(plain::saturating_add_i32, list(v, nv), list(w, nw));
        rattle_flat_cast_wrap_i32(v: *const i64, nv: usize, m: *const u8, nm: usize) plain::cast_i32(plain::wrap_i32, list(v, nv), list(m, nm));
        rattle_flat_cast_fit_i32(v: *const i64, nv: usize, m: *const u8, nm: usize) plain::cast_i32(plain::fit_i32, list(v, nv), list(m, nm));
        rattle_flat_cast_to_utf8(v: *const i64, nv: usize, m: *const u8, nm: usize) plain::cast_to_utf8(list(v, nv), list(m, nm));
        rattle_flat_cast_of_utf8(d: *const u8, nd: usize, o: *const i32, no: usize, m: *const u8, nm: usize) plain::cast_of_utf8(list(d, nd), list(o, no), list(m, nm));
        rattle_flat_cast_to_bool(v: *const i64, nv: usize, m: *const u8, nm: usize) plain::compare_zero(plain::ne_scalar, list(v, nv), list(m, nm));
        rattle_flat_cast_of_bool(b: *const u8, nb: usize, m: *const u8, nm: usize) plain::cast_of_bool(list(b, nb), list(m, nm));
        rattle_flat_cast_bool_utf8(b: *const u8, nb: usize, m: *const u8, nm: usize) plain::cast_bool_utf8(list(b, nb), list(m, nm));
        rattle_flat_agg_sum(v: *const i64, nv: usize, m: *const u8, nm: usize) plain::aggregate(plain::sum, list(v, nv), list(m, nm));
        rattle_flat_agg_sum_wide(v: *const i64, nv: usize, m: *const u8, nm: usize) plain::agg_sum_wide(list(v, nv), list(m, nm));
        rattle_flat_agg_min(v: *const i64, nv: usize, m: *const u8, nm: usize) plain::aggregate(plain::least, list(v, nv), list(m, nm));
        rattle_flat_agg_max(v: *const i64, nv: usize, m: *const u8, nm: usize) plain::aggregate(plain::greatest, list(v, nv), list(m, nm));
        rattle_flat_agg_min_utf8(d: *const u8, nd: usize, o: *const i32, no: usize, m: *const u8, nm: usize) plain::agg_min_utf8(list(d, nd), list(o, no), list(m, nm));
        rattle_flat_group_prim(v: *const i64, nv: usize, m: *const u8, nm: usize) plain::group_prim(list(v, nv), list(m, nm));
        rattle_flat_group_utf8(d: *const u8, nd: usize, o: *const i32, no: usize, m: *const u8, nm: usize) plain::group_utf8(list(d, nd), list(o, no), list(m, nm));
        rattle_flat_group_sum(v: *const i64, nv: usize, w: *const i64, nw: usize, m: *const u8, nm: usize) plain::sum_groups(list(v, nv), list(w, nw), list(m, nm));
        rattle_flat_group_sum_wide(v: *const i64, nv: usize, w: *const i64, nw: usize, m: *const u8, nm: usize) plain::sum_groups_wide(list(v, nv), list(w, nw), list(m, nm));
        rattle_flat_group_min(v: *const i64, nv: usize, w: *const i64, nw: usize, m: *const u8, nm: usize) plain::least_of_groups(list(v, nv), list(w, nw), list(m, nm));
        rattle_flat_hash_prim(v: *const i64, nv: usize, m: *const u8, nm: usize) plain::hash_prim(list(v, nv), list(m, nm));
        rattle_flat_select_take(v: *const i64, nv: usize, w: *const i64, nw: usize, m: *const u8, nm: usize) plain::select_take(list(v, nv), list(w, nw), list(m, nm));
        rattle_flat_select_if_then_else(b: *const u8, nb: usize, v: *const i64, nv: usize, w: *const i64, nw: usize, m: *const u8, nm: usize) plain::select_if_then_else(list(b, nb), list(v, nv), list(w, nw), list(m, nm));
        rattle_flat_select_nullif(v: *const i64, nv: usize, w: *const i64, nw: usize, m: *const u8, nm: usize) plain::select_nullif(list(v, nv), list(w, nw), list(m, nm));
        rattle_flat_select_length(d: *const u8, nd: usize, o: *const i32, no: usize, m: *const u8, nm: usize) plain::select_length(list(d, nd), list(o, no), list(m, nm));
        rattle_flat_sort_prim(v: *const i64, nv: usize, m: *const u8, nm: usize) plain::sort_prim(list(v, nv), list(m, nm));
        rattle_flat_sort_utf8(d: *const u8, nd: usize, o: *const i32, no: usize, m: *const u8, nm: usize) plain::sort_utf8(list(d, nd), list(o, no), list(m, nm));
        rattle_flat_sort_limit(v: *const i64, nv: usize) plain::sort_limit(list(v, nv));
        rattle_flat_lexsort(v: *const i64, nv: usize, w: *const i64, nw: usize, m: *const u8, nm: usize) plain::lexsort(plain::sort_rows, list(v, nv), list(w, nw), list(m, nm));
        rattle_flat_lexsort_limit(v: *const i64, nv: usize, w: *const i64, nw: usize, m: *const u8, nm: usize) plain::lexsort(plain::sort_first_rows, list(v, nv), list(w, nw), list(m, nm));
        rattle_flat_partition(v: *const i64, nv: usize, w: *const i64, nw: usize) plain::partition(list(v, nv), list(w, nw));
    }
}

/// How a number is shown.
#[derive(Clone, Copy)]
#[allow(dead_code)]
enum Unit {
    /// nanoseconds for each of so many items
    Item(usize),
    /// nanoseconds for the whole
    Whole,
    /// so many bytes in a second
    Bytes(usize),
}

struct Out {
    only: Vec<String>,
    rounds: usize,
    differs: bool,
}

impl Out {
    fn wants(&self, name: &str) -> bool {
        self.only.is_empty() || self.only.iter().any(|p| name.starts_with(p.as_str()))
    }

    #[allow(dead_code)]
    fn missing(&self, name: &str) {
        if self.wants(name) {
            println!("{name} missing");
        }
    }

    /// `make` prepares the original's operation; `library` makes its own and runs so many rounds.
    /// `same`: the two checksums have to be equal.
    #[allow(dead_code)]
    fn side(
        &mut self,
        name: &str,
        unit: Unit,
        same: bool,
        make: &dyn Fn() -> Box<dyn FnMut(u64) -> u64>,
        library: &dyn Fn(usize) -> u64,
    ) {
        if !self.wants(name) {
            return;
        }
        let original = |rounds: usize| {
            let mut op = make();
            (0..rounds as u64).fold(0u64, |sum, r| {
                sum.wrapping_add(op(std::hint::black_box(r)))
            })
        };
        let (a, b) = (original(3), library(3));
        let differs = b == u64::MAX || (same && a != b);
        self.differs |= differs;
        // so many rounds of each side that they make a slice, and twice what is done once
        let time = |f: &dyn Fn(usize) -> u64, rounds: usize| {
            let start = Instant::now();
            std::hint::black_box(f(std::hint::black_box(rounds)));
            start.elapsed().as_nanos() as f64
        };
        // The least of three, since one that something interrupts would end the search too early: a difference of a few
        // short calls is lost in what is done once.
        let least_of = |f: &dyn Fn(usize) -> u64, rounds| (0..3).map(|_| time(f, rounds)).fold(f64::INFINITY, f64::min);
        let many = |f: &dyn Fn(usize) -> u64| {
            let prepared = least_of(f, 1);
            let mut more = 1;
            let mut took = (least_of(f, 2) - prepared).max(20.0);
            while took < 1e6 && more < 1_000_000 {
                more = (more * 8).min(1_000_000);
                took = (least_of(f, 1 + more) - prepared).max(20.0);
            }
            ((slice() + prepared.min(2.0 * slice())) / (took / more as f64)).clamp(2.0, 2_000_000.0) as usize
        };
        let (more_a, more_b) = (many(&original), many(library));
        let mut least = [f64::INFINITY; 4];
        for _ in 0..self.rounds {
            let now = [
                time(&original, 1),
                time(library, 1),
                time(&original, 1 + more_a),
                time(library, 1 + more_b),
            ];
            for (least, now) in least.iter_mut().zip(now) {
                *least = least.min(now);
            }
        }
        let ours = (least[2] - least[0]).max(0.0) / more_a as f64;
        let theirs = (least[3] - least[1]).max(0.0) / more_b as f64;
        let (x, y, word) = match unit {
            Unit::Item(n) => (ours / n as f64, theirs / n as f64, "ns/item"),
            Unit::Whole => (ours, theirs, "ns/op"),
            Unit::Bytes(n) => (n as f64 / ours, n as f64 / theirs, "GB/s"),
        };
        println!(
            "{name} {x:.3} {y:.3} {word} ratio {:.2}{}",
            theirs / ours,
            if differs { " differs" } else { "" }
        );
    }
}

macro_rules! side {
    ($out:ident, $have:ident, $name:expr, $unit:expr, $same:expr, $ours:expr, |$rounds:ident| $theirs:expr) => {
        #[cfg($have)]
        $out.side(
            &$name,
            $unit,
            $same,
            &|| Box::new($ours),
            // Safety: the declarations are those of rattle_flat.h, and the slices live through the call
            &|$rounds| unsafe { $theirs },
        );
        #[cfg(not($have))]
        $out.missing(&$name);
    };
}

fn leak<T>(list: Vec<T>) -> &'static [T] {
    Vec::leak(list)
}

#[allow(unused_variables, unused_mut, unused_imports)]
fn main() {
    use library::*;
    keep_memory();
    let mut out = Out {
        only: std::env::args().skip(1).collect(),
        rounds: rounds(),
        differs: false,
    };
    const N: usize = 10_000_000;
    let values = leak(data::values(N));
    let valid = leak(data::marks(N, 90, 2));
    let bits = leak(data::marks(N, 50, 3));
    let ones = leak(vec![1u8; N]);
    let none: &'static [u8] = &[];
    let v = values.as_ptr();
    let nothing = [("some", none), ("null10", valid)];

    for (word, m) in nothing {
        side!(out, have_prim_push, format!("prim_push_{word}"), Unit::Item(N), true,
            ops::prim_push(values, m),
            |r| rattle_flat_prim_push(v, N, m.as_ptr(), m.len(), r));
    }
    side!(out, have_prim_push_reserved, "prim_push_some_reserved", Unit::Item(N), true,
        ops::prim_push_reserved(values),
        |r| rattle_flat_prim_push_reserved(v, N, r));
    side!(out, have_prim_extend, "prim_extend_null10", Unit::Item(N), true,
        ops::prim_extend(values, valid),
        |r| rattle_flat_prim_extend(v, N, valid.as_ptr(), N, r));
    for (word, piece) in [("all", N), ("1000", 1000)] {
        side!(out, have_prim_extend_slice, format!("prim_extend_slice_{word}"), Unit::Item(N), true,
            ops::prim_extend_slice(values, piece),
            |r| rattle_flat_prim_extend_slice(v, N, piece, r));
    }
    for (word, m) in [("null10", valid), ("nonull", none)] {
        side!(out, have_prim_iter_sum, format!("prim_iter_sum_{word}"), Unit::Item(N), true,
            ops::prim_iter_sum(values, m),
            |r| rattle_flat_prim_iter_sum(v, N, m.as_ptr(), m.len(), r));
    }
    side!(out, have_prim_values_sum, "prim_values_iter_sum", Unit::Item(N), true,
        ops::prim_values_sum(values),
        |r| rattle_flat_prim_values_sum(v, N, r));
    side!(out, have_prim_value_sum, "prim_value_sum", Unit::Item(N), true,
        ops::prim_value_sum(values),
        |r| rattle_flat_prim_value_sum(v, N, r));
    side!(out, have_prim_get_sum, "prim_get_sum_null10", Unit::Item(N), true,
        ops::prim_get_sum(values, valid),
        |r| rattle_flat_prim_get_sum(v, N, valid.as_ptr(), N, r));
    for window in [1000, 10] {
        side!(out, have_prim_slice_sum, format!("prim_slice_sum_{window}_null10"), Unit::Item(N), true,
            ops::prim_slice_sum(values, valid, window),
            |r| rattle_flat_prim_slice_sum(v, N, valid.as_ptr(), N, window, r));
    }

    side!(out, have_prim_push_null, "prim_push_null", Unit::Item(N), true,
        ops::prim_push_null(N),
        |r| rattle_flat_prim_push_null(N, r));
    side!(out, have_prim_push_pop, "prim_push_pop_null10", Unit::Item(100_000), true,
        ops::prim_push_pop(&values[..100_000], &valid[..100_000]),
        |r| rattle_flat_prim_push_pop(v, 100_000, valid.as_ptr(), 100_000, r));
    for (word, m) in nothing {
        side!(out, have_prim_push_freeze, format!("prim_push_freeze_{word}"), Unit::Item(N), true,
            ops::prim_push_freeze(values, m),
            |r| rattle_flat_prim_push_freeze(v, N, m.as_ptr(), m.len(), r));
    }
    side!(out, have_prim_push_freeze, "prim_push_freeze_20", Unit::Whole, true,
        ops::prim_push_freeze(&values[..20], &valid[..20]),
        |r| rattle_flat_prim_push_freeze(v, 20, valid.as_ptr(), 20, r));
    for (word, m) in [("null10", valid), ("nonull", none)] {
        side!(out, have_prim_builder_iter_sum, format!("prim_builder_iter_sum_{word}"), Unit::Item(N), true,
            ops::prim_builder_iter_sum(values, m),
            |r| rattle_flat_prim_builder_iter_sum(v, N, m.as_ptr(), m.len(), r));
    }
    for n in [100, 1_000_000] {
        side!(out, have_prim_null_count, format!("prim_null_count_{n}"), Unit::Whole, true,
            ops::prim_null_count(&values[..n], &valid[..n]),
            |r| rattle_flat_prim_null_count(v, n, valid.as_ptr(), n, r));
    }

    const P: usize = 1_000_000;
    const Q: usize = 10;
    for (word, piece, times) in [("1000003", 1_000_003, Q), ("1000", 1000, 100_000), ("13", 13, 1_000_000)] {
        side!(out, have_bits_extend_constant, format!("bits_extend_constant_{word}"), Unit::Item(piece * times), true,
            ops::bits_extend_constant(piece, times),
            |r| rattle_flat_bits_extend_constant(piece, times, r));
    }
    side!(out, have_bits_get_bit, "bits_get_bit", Unit::Item(Q * P), true,
        ops::bits_get_bit(&bits[..P], Q),
        |r| rattle_flat_bits_get_bit(bits.as_ptr(), P, Q, r));
    side!(out, have_bits_get, "bits_get", Unit::Item(Q * P), true,
        ops::bits_get(&bits[..P], Q),
        |r| rattle_flat_bits_get(bits.as_ptr(), P, Q, r));
    side!(out, have_bits_set, "bits_set", Unit::Item(N), true,
        ops::bits_set(bits),
        |r| rattle_flat_bits_set(bits.as_ptr(), N, r));
    for (word, p) in [("", &bits[..P]), ("_ones", &ones[..P])] {
        side!(out, have_bits_push, format!("bits_push{word}"), Unit::Item(Q * P), true,
            ops::bits_push(p, Q),
            |r| rattle_flat_bits_push(p.as_ptr(), P, Q, r));
    }
    let p = &bits[..P];
    side!(out, have_bits_unset, "bits_unset", Unit::Item(Q * P), true,
        ops::bits_unset(p, Q),
        |r| rattle_flat_bits_unset(p.as_ptr(), P, Q, r));
    side!(out, have_bits_freeze_unset, "bits_freeze_unset", Unit::Item(Q * P), true,
        ops::bits_freeze_unset(p, Q),
        |r| rattle_flat_bits_freeze_unset(p.as_ptr(), P, Q, r));
    side!(out, have_bits_iter, "bits_iter", Unit::Item(Q * P), true,
        ops::bits_iter(p, Q),
        |r| rattle_flat_bits_iter(p.as_ptr(), P, Q, r));
    for (word, b, m) in [("some", bits, none), ("some_ones", ones, none), ("null10", bits, valid)] {
        side!(out, have_bool_push, format!("bool_push_{word}"), Unit::Item(N), true,
            ops::bool_push(b, m),
            |r| rattle_flat_bool_push(b.as_ptr(), N, m.as_ptr(), m.len(), r));
    }
    side!(out, have_bool_iter, "bool_iter_null10", Unit::Item(N), true,
        ops::bool_iter(bits, valid),
        |r| rattle_flat_bool_iter(bits.as_ptr(), N, valid.as_ptr(), N, r));

    // 64 MiB, which no cache holds, and 256 KiB, a batch
    for (size, text_bytes) in [("", 64 << 20), ("_256k", 256 << 10)] {
        for row in [12, 100] {
            for sort in Text::ALL {
                let name = format!("utf8_try_new_{}_{row}{size}", sort.name());
                let iter = format!("utf8_iter_{}_{row}", sort.name());
                let wants_iter = size.is_empty() && out.wants(&iter);
                if !out.wants(&name) && !wants_iter {
                    continue;
                }
                let (bytes, offsets) = data::text(sort, text_bytes, row);
                let (bytes, offsets) = (leak(bytes), leak(offsets));
                let rows = offsets.len() - 1;
                let (d, nd, o, no) = (bytes.as_ptr(), bytes.len(), offsets.as_ptr(), offsets.len());
                side!(out, have_utf8_try_new, name, Unit::Bytes(nd), true,
                    ops::utf8_try_new(bytes, offsets),
                    |r| rattle_flat_utf8_try_new(d, nd, o, no, r));
                if wants_iter {
                    side!(out, have_utf8_iter, iter, Unit::Item(rows), true,
                        ops::utf8_iter(bytes, offsets),
                        |r| rattle_flat_utf8_iter(d, nd, o, no, r));
                }
            }
        }
    }

    const M: usize = 5_000_000;
    let letters = leak(data::letters(M, 12));
    let valid_m = &valid[..M];
    let (d, nd) = (letters.as_ptr(), letters.len());
    // five thousand items, a thousand times
    let some = &letters[..5000 * 12];
    let ns = some.len();
    for (word, m) in [("", none), ("_null10", valid_m)] {
        side!(out, have_bin_push, format!("bin_push_12{word}"), Unit::Item(M), true,
            ops::bin_push(some, 12, 1000, m),
            |r| rattle_flat_bin_push(d, ns, 12, 1000, m.as_ptr(), m.len(), r));
        side!(out, have_utf8_push, format!("utf8_push_12{word}"), Unit::Item(M), true,
            ops::utf8_push(some, 12, 1000, m),
            |r| rattle_flat_utf8_push(d, ns, 12, 1000, m.as_ptr(), m.len(), r));
    }
    side!(out, have_vbin_push, "vbin_push_12", Unit::Item(M), true,
        ops::vbin_push(some, 12, 1000),
        |r| rattle_flat_vbin_push(d, ns, 12, 1000, r));
    side!(out, have_bin_extend, "bin_extend_12", Unit::Item(M), true,
        ops::bin_extend(some, 12, 1000),
        |r| rattle_flat_bin_extend(d, ns, 12, 1000, r));
    side!(out, have_bin_extend_values, "bin_extend_values_12", Unit::Item(M), true,
        ops::bin_extend_values(some, 12, 1000),
        |r| rattle_flat_bin_extend_values(d, ns, 12, 1000, r));

    for (word, m) in [("", none), ("_null10", valid)] {
        side!(out, have_prim_extend_self, format!("prim_extend_self{word}"), Unit::Item(2 * N), true,
            ops::prim_extend_self(values, m),
            |r| rattle_flat_prim_extend_self(v, N, m.as_ptr(), m.len(), r));
    }
    let (m, nm) = (valid_m.as_ptr(), M);
    side!(out, have_bin_extend_self, "bin_extend_self_12_null10", Unit::Item(2 * M), true,
        ops::bin_extend_self(letters, 12, valid_m),
        |r| rattle_flat_bin_extend_self(d, nd, 12, m, nm, r));
    side!(out, have_utf8_extend_self, "utf8_extend_self_12_null10", Unit::Item(2 * M), true,
        ops::utf8_extend_self(letters, 12, valid_m),
        |r| rattle_flat_utf8_extend_self(d, nd, 12, m, nm, r));
    side!(out, have_prim_freeze_thaw, "prim_freeze_thaw_null10", Unit::Item(N), true,
        ops::prim_freeze_thaw(values, valid),
        |r| rattle_flat_prim_freeze_thaw(v, N, valid.as_ptr(), N, r));
    side!(out, have_prim_freeze_thaw, "prim_freeze_thaw_20", Unit::Whole, true,
        ops::prim_freeze_thaw(&values[..20], &valid[..20]),
        |r| rattle_flat_prim_freeze_thaw(v, 20, valid.as_ptr(), 20, r));
    side!(out, have_bin_freeze_thaw, "bin_freeze_thaw_12_null10", Unit::Item(M), true,
        ops::bin_freeze_thaw(letters, 12, valid_m),
        |r| rattle_flat_bin_freeze_thaw(d, nd, 12, m, nm, r));
    for (word, n) in [("1m", 1_000_000), ("100", 100)] {
        side!(out, have_prim_thaw_push, format!("prim_thaw_push_{word}_null10"), Unit::Whole, true,
            ops::prim_thaw_push(&values[..n], &valid[..n]),
            |r| rattle_flat_prim_thaw_push(v, n, valid.as_ptr(), n, r));
    }

    // filter and take: a million rows; the original's side is hand-written (src/kernels.rs)
    const K: usize = 1_000_000;
    let (values, valid) = (&values[..K], &valid[..K]);
    let (bytes, mut offsets) = data::text(Text::Ascii, 13 * K, 12);
    offsets.truncate(K + 1);
    let (bytes, offsets) = (leak(bytes), leak(offsets));
    let (d, nd, o, no) = (bytes.as_ptr(), bytes.len(), offsets.as_ptr(), offsets.len());
    let keys = leak(data::keys(K, K, 14));
    let masks = [
        ("half", leak(data::marks(K, 50, 11))),
        ("most", leak(data::marks(K, 99, 12))),
        ("runs", leak(data::runs(K, 13))),
    ];
    for (nulls, m) in [("nonull", none), ("null10", valid)] {
        for at in 0..2 {
            for (which, k) in masks {
                let (how, kernel) = ops::FILTER_PRIM[at];
                side!(out, have_filter_prim, format!("filter_prim_{which}_{nulls}_{how}"), Unit::Item(K), true,
                    ops::filter_prim(values, m, k, kernel),
                    |r| rattle_flat_filter_prim(v, K, m.as_ptr(), m.len(), k.as_ptr(), K, r));
                let (how, kernel) = ops::FILTER_UTF8[at];
                side!(out, have_filter_utf8, format!("filter_utf8_{which}_{nulls}_{how}"), Unit::Item(K), true,
                    ops::filter_utf8(bytes, offsets, m, k, kernel),
                    |r| rattle_flat_filter_utf8(d, nd, o, no, m.as_ptr(), m.len(), k.as_ptr(), K, r));
            }
            let (how, kernel) = ops::TAKE_PRIM[at];
            side!(out, have_take_prim, format!("take_prim_{nulls}_{how}"), Unit::Item(K), true,
                ops::take_prim(values, m, keys, kernel),
                |r| rattle_flat_take_prim(v, K, m.as_ptr(), m.len(), keys.as_ptr(), K, r));
            let (how, kernel) = ops::TAKE_UTF8[at];
            side!(out, have_take_utf8, format!("take_utf8_{nulls}_{how}"), Unit::Item(K), true,
                ops::take_utf8(bytes, offsets, m, keys, kernel),
                |r| rattle_flat_take_utf8(d, nd, o, no, m.as_ptr(), m.len(), keys.as_ptr(), K, r));
        }
    }

    // column kernels over 65,536 rows; the original's side is plain loops over slices (src/plain.rs)
    const C: usize = 65_536;
    let (values, others, valid, bits) = (&values[..C], &values[C..2 * C], &valid[..C], &bits[..C]);
    let other_bits = leak(data::marks(C, 50, 22));
    // numbers of at most six digits; a hundred different ones; and numbers of which one of ten takes more than 32 bits
    let small = leak(data::keys(C, 1_000_000, 21));
    let few = leak(data::keys(C, 100, 23));
    let other_few = leak(data::keys(C, 100, 24));
    let wide = leak((0..C).map(|i| if i % 10 == 0 { values[i] } else { small[i] }).collect());
    let divisors = leak(small.iter().map(|x| x + 1).collect());
    let keys = leak(data::keys(C, C, 25));
    // the same values in other orders, and eight different ones; and two columns that are sorted by their rows
    let (ascending, descending) = (leak(data::ascending(values)), leak(data::descending(values)));
    let eight = leak(values.iter().map(|x| x.rem_euclid(8)).collect());
    let (first, second) = data::sorted_rows(few, other_few);
    let (first, second) = (leak(first), leak(second));
    let ends = &offsets[..=C];
    let texts = &bytes[..ends[C] as usize];
    let half_equal = leak(data::half_equal(texts, ends, bits));
    let (digits, digit_ends) = data::decimals(small);
    let (digits, digit_ends) = (leak(digits), leak(digit_ends));
    let (words, word_ends) = data::words(few);
    let (words, word_ends) = (leak(words), leak(word_ends));
    for (word, m) in [("nonull", none), ("null10", valid)] {
        side!(out, have_cmp_lt, format!("cmp_lt_{word}"), Unit::Item(C), true,
            plain::compare(plain::lt, small, values, m),
            |r| rattle_flat_cmp_lt(small.as_ptr(), small.len(), values.as_ptr(), values.len(), m.as_ptr(), m.len(), r));
        side!(out, have_cmp_lt_scalar, format!("cmp_lt_scalar_{word}"), Unit::Item(C), true,
            plain::compare_zero(plain::lt_scalar, values, m),
            |r| rattle_flat_cmp_lt_scalar(values.as_ptr(), values.len(), m.as_ptr(), m.len(), r));
        side!(out, have_cmp_eq, format!("cmp_eq_{word}"), Unit::Item(C), true,
            plain::compare(plain::eq, few, other_few, m),
            |r| rattle_flat_cmp_eq(few.as_ptr(), few.len(), other_few.as_ptr(), other_few.len(), m.as_ptr(), m.len(), r));
        side!(out, have_cmp_eq_validity, format!("cmp_eq_validity_{word}"), Unit::Item(C), true,
            plain::compare(plain::eq_validity, few, other_few, m),
            |r| rattle_flat_cmp_eq_validity(few.as_ptr(), few.len(), other_few.as_ptr(), other_few.len(), m.as_ptr(), m.len(), r));
        side!(out, have_cmp_eq_scalar_validity, format!("cmp_eq_scalar_validity_{word}"), Unit::Item(C), true,
            plain::compare_zero(plain::eq_scalar_validity, few, m),
            |r| rattle_flat_cmp_eq_scalar_validity(few.as_ptr(), few.len(), m.as_ptr(), m.len(), r));
        side!(out, have_logic_and, format!("logic_and_{word}"), Unit::Item(C), true,
            plain::combine_marks(plain::and, bits, other_bits, m),
            |r| rattle_flat_logic_and(bits.as_ptr(), bits.len(), other_bits.as_ptr(), other_bits.len(), m.as_ptr(), m.len(), r));
        side!(out, have_logic_not, format!("logic_not_{word}"), Unit::Item(C), true,
            plain::map_marks(plain::not, bits, m),
            |r| rattle_flat_logic_not(bits.as_ptr(), bits.len(), m.as_ptr(), m.len(), r));
        side!(out, have_logic_is_null, format!("logic_is_null_{word}"), Unit::Item(C), true,
            plain::logic_is_null(values.len(), m),
            |r| rattle_flat_logic_is_null(values.as_ptr(), values.len(), m.as_ptr(), m.len(), r));
        side!(out, have_kleene_and, format!("kleene_and_{word}"), Unit::Item(C), true,
            plain::combine_marks(plain::kleene_and, bits, other_bits, m),
            |r| rattle_flat_kleene_and(bits.as_ptr(), bits.len(), other_bits.as_ptr(), other_bits.len(), m.as_ptr(), m.len(), r));
        side!(out, have_kleene_and_null, format!("kleene_and_null_{word}"), Unit::Item(C), true,
            plain::combine_marks_with_null(bits, m),
            |r| rattle_flat_kleene_and_null(bits.as_ptr(), bits.len(), m.as_ptr(), m.len(), r));
        side!(out, have_arith_add_i64, format!("arith_add_i64_{word}"), Unit::Item(C), true,
            plain::combine(plain::add, values, others, m),
            |r| rattle_flat_arith_add_i64(values.as_ptr(), values.len(), others.as_ptr(), others.len(), m.as_ptr(), m.len(), r));
        side!(out, have_arith_checked_add_i64, format!("arith_checked_add_i64_{word}"), Unit::Item(C), true,
            plain::combine(plain::checked_add, values, others, m),
            |r| rattle_flat_arith_checked_add_i64(values.as_ptr(), values.len(), others.as_ptr(), others.len(), m.as_ptr(), m.len(), r));
        side!(out, have_arith_sub_scalar_i64, format!("arith_sub_scalar_i64_{word}"), Unit::Item(C), true,
            plain::map_values(plain::sub_seven, values, m),
            |r| rattle_flat_arith_sub_scalar_i64(values.as_ptr(), values.len(), m.as_ptr(), m.len(), r));
        side!(out, have_arith_negate_i64, format!("arith_negate_i64_{word}"), Unit::Item(C), true,
            plain::map_values(plain::negate, values, m),
            |r| rattle_flat_arith_negate_i64(values.as_ptr(), values.len(), m.as_ptr(), m.len(), r));
        side!(out, have_cast_wrap_i32, format!("cast_wrap_i32_{word}"), Unit::Item(C), true,
            plain::cast_i32(plain::wrap_i32, wide, m),
            |r| rattle_flat_cast_wrap_i32(wide.as_ptr(), wide.len(), m.as_ptr(), m.len(), r));
        side!(out, have_cast_fit_i32, format!("cast_fit_i32_{word}"), Unit::Item(C), true,
            plain::cast_i32(plain::fit_i32, wide, m),
            |r| rattle_flat_cast_fit_i32(wide.as_ptr(), wide.len(), m.as_ptr(), m.len(), r));
        side!(out, have_cast_to_utf8, format!("cast_to_utf8_{word}"), Unit::Item(C), true,
            plain::cast_to_utf8(small, m),
            |r| rattle_flat_cast_to_utf8(small.as_ptr(), small.len(), m.as_ptr(), m.len(), r));
        side!(out, have_cast_of_utf8, format!("cast_of_utf8_{word}"), Unit::Item(C), true,
            plain::cast_of_utf8(digits, digit_ends, m),
            |r| rattle_flat_cast_of_utf8(digits.as_ptr(), digits.len(), digit_ends.as_ptr(), digit_ends.len(), m.as_ptr(), m.len(), r));
        side!(out, have_cast_to_bool, format!("cast_to_bool_{word}"), Unit::Item(C), true,
            plain::compare_zero(plain::ne_scalar, few, m),
            |r| rattle_flat_cast_to_bool(few.as_ptr(), few.len(), m.as_ptr(), m.len(), r));
        side!(out, have_cast_of_bool, format!("cast_of_bool_{word}"), Unit::Item(C), true,
            plain::cast_of_bool(bits, m),
            |r| rattle_flat_cast_of_bool(bits.as_ptr(), bits.len(), m.as_ptr(), m.len(), r));
        side!(out, have_cast_bool_utf8, format!("cast_bool_utf8_{word}"), Unit::Item(C), true,
            plain::cast_bool_utf8(bits, m),
            |r| rattle_flat_cast_bool_utf8(bits.as_ptr(), bits.len(), m.as_ptr(), m.len(), r));
        side!(out, have_agg_sum, format!("agg_sum_{word}"), Unit::Item(C), true,
            plain::aggregate(plain::sum, small, m),
            |r| rattle_flat_agg_sum(small.as_ptr(), small.len(), m.as_ptr(), m.len(), r));
        side!(out, have_agg_sum_wide, format!("agg_sum_wide_{word}"), Unit::Item(C), true,
            plain::agg_sum_wide(values, m),
            |r| rattle_flat_agg_sum_wide(values.as_ptr(), values.len(), m.as_ptr(), m.len(), r));
        side!(out, have_agg_min, format!("agg_min_{word}"), Unit::Item(C), true,
            plain::aggregate(plain::least, values, m),
            |r| rattle_flat_agg_min(values.as_ptr(), values.len(), m.as_ptr(), m.len(), r));
        side!(out, have_agg_max, format!("agg_max_{word}"), Unit::Item(C), true,
            plain::aggregate(plain::greatest, values, m),
            |r| rattle_flat_agg_max(values.as_ptr(), values.len(), m.as_ptr(), m.len(), r));
        side!(out, have_group_prim, format!("group_few_{word}"), Unit::Item(C), true,
            plain::group_prim(few, m),
            |r| rattle_flat_group_prim(few.as_ptr(), few.len(), m.as_ptr(), m.len(), r));
        side!(out, have_group_prim, format!("group_many_{word}"), Unit::Item(C), true,
            plain::group_prim(values, m),
            |r| rattle_flat_group_prim(values.as_ptr(), values.len(), m.as_ptr(), m.len(), r));
        side!(out, have_group_sum, format!("group_sum_few_{word}"), Unit::Item(C), true,
            plain::sum_groups(small, few, m),
            |r| rattle_flat_group_sum(small.as_ptr(), small.len(), few.as_ptr(), few.len(), m.as_ptr(), m.len(), r));
        side!(out, have_group_sum_wide, format!("group_sum_wide_few_{word}"), Unit::Item(C), true,
            plain::sum_groups_wide(values, few, m),
            |r| rattle_flat_group_sum_wide(values.as_ptr(), values.len(), few.as_ptr(), few.len(), m.as_ptr(), m.len(), r));
        side!(out, have_group_min, format!("group_min_few_{word}"), Unit::Item(C), true,
            plain::least_of_groups(values, few, m),
            |r| rattle_flat_group_min(values.as_ptr(), values.len(), few.as_ptr(), few.len(), m.as_ptr(), m.len(), r));
        // the hash functions are two
        side!(out, have_hash_prim, format!("hash_prim_{word}"), Unit::Item(C), false,
            plain::hash_prim(values, m),
            |r| rattle_flat_hash_prim(values.as_ptr(), values.len(), m.as_ptr(), m.len(), r));
        side!(out, have_select_if_then_else, format!("select_if_then_else_{word}"), Unit::Item(C), true,
            plain::select_if_then_else(bits, values, others, m),
            |r| rattle_flat_select_if_then_else(bits.as_ptr(), bits.len(), values.as_ptr(), values.len(), others.as_ptr(), others.len(), m.as_ptr(), m.len(), r));
        side!(out, have_select_nullif, format!("select_nullif_{word}"), Unit::Item(C), true,
            plain::select_nullif(few, other_few, m),
            |r| rattle_flat_select_nullif(few.as_ptr(), few.len(), other_few.as_ptr(), other_few.len(), m.as_ptr(), m.len(), r));
        side!(out, have_select_length, format!("select_length_{word}"), Unit::Item(C), true,
            plain::select_length(texts, ends, m),
            |r| rattle_flat_select_length(texts.as_ptr(), texts.len(), ends.as_ptr(), ends.len(), m.as_ptr(), m.len(), r));
        side!(out, have_sort_prim, format!("sort_prim_{word}"), Unit::Item(C), true,
            plain::sort_prim(values, m),
            |r| rattle_flat_sort_prim(values.as_ptr(), values.len(), m.as_ptr(), m.len(), r));
        side!(out, have_lexsort, format!("lexsort_two_{word}"), Unit::Item(C), true,
            plain::lexsort(plain::sort_rows, few, values, m),
            |r| rattle_flat_lexsort(few.as_ptr(), few.len(), values.as_ptr(), values.len(), m.as_ptr(), m.len(), r));
        side!(out, have_lexsort_limit, format!("lexsort_limit_{word}"), Unit::Item(C), true,
            plain::lexsort(plain::sort_first_rows, few, values, m),
            |r| rattle_flat_lexsort_limit(few.as_ptr(), few.len(), values.as_ptr(), values.len(), m.as_ptr(), m.len(), r));
    }
    side!(out, have_cmp_eq_utf8, "cmp_eq_utf8_nonull", Unit::Item(C), true,
        plain::compare_texts(texts, half_equal, ends),
        |r| rattle_flat_cmp_eq_utf8(texts.as_ptr(), texts.len(), half_equal.as_ptr(), half_equal.len(), ends.as_ptr(), ends.len(), r));
    side!(out, have_arith_mul_i64, "arith_mul_i64_nonull", Unit::Item(C), true,
        plain::combine(plain::mul, values, others, none),
        |r| rattle_flat_arith_mul_i64(values.as_ptr(), values.len(), others.as_ptr(), others.len(), none.as_ptr(), none.len(), r));
    side!(out, have_arith_div_i64, "arith_div_i64_nonull", Unit::Item(C), true,
        plain::combine(plain::div, values, divisors, none),
        |r| rattle_flat_arith_div_i64(values.as_ptr(), values.len(), divisors.as_ptr(), divisors.len(), none.as_ptr(), none.len(), r));
    side!(out, have_arith_add_i32, "arith_add_i32_nonull", Unit::Item(C), true,
        plain::combine_i32(plain::add_i32, values, others),
        |r| rattle_flat_arith_add_i32(values.as_ptr(), values.len(), others.as_ptr(), others.len(), r));
    side!(out, have_arith_saturating_add_i32, "arith_saturating_add_i32_nonull", Unit::Item(C), true,
        plain::combine_i32(plain::saturating_add_i32, values, others),
        |r| rattle_flat_arith_saturating_add_i32(values.as_ptr(), values.len(), others.as_ptr(), others.len(), r));
    side!(out, have_agg_min_utf8, "agg_min_utf8_null10", Unit::Item(C), true,
        plain::agg_min_utf8(texts, ends, valid),
        |r| rattle_flat_agg_min_utf8(texts.as_ptr(), texts.len(), ends.as_ptr(), ends.len(), valid.as_ptr(), valid.len(), r));
    side!(out, have_group_utf8, "group_utf8_few_nonull", Unit::Item(C), true,
        plain::group_utf8(words, word_ends, none),
        |r| rattle_flat_group_utf8(words.as_ptr(), words.len(), word_ends.as_ptr(), word_ends.len(), none.as_ptr(), none.len(), r));
    side!(out, have_select_take, "select_take_null10", Unit::Item(C), true,
        plain::select_take(keys, values, valid),
        |r| rattle_flat_select_take(keys.as_ptr(), keys.len(), values.as_ptr(), values.len(), valid.as_ptr(), valid.len(), r));
    side!(out, have_sort_utf8, "sort_utf8_nonull", Unit::Item(C), true,
        plain::sort_utf8(texts, ends, none),
        |r| rattle_flat_sort_utf8(texts.as_ptr(), texts.len(), ends.as_ptr(), ends.len(), none.as_ptr(), none.len(), r));
    for (word, values) in [("sorted", ascending), ("reversed", descending), ("few", eight)] {
        side!(out, have_sort_prim, format!("sort_{word}_nonull"), Unit::Item(C), true,
            plain::sort_prim(values, none),
            |r| rattle_flat_sort_prim(values.as_ptr(), values.len(), none.as_ptr(), none.len(), r));
    }
    side!(out, have_sort_limit, "sort_limit_nonull", Unit::Item(C), true,
        plain::sort_limit(values),
        |r| rattle_flat_sort_limit(values.as_ptr(), values.len(), r));
    side!(out, have_partition, "partition_two_nonull", Unit::Item(C), true,
        plain::partition(first, second),
        |r| rattle_flat_partition(first.as_ptr(), first.len(), second.as_ptr(), second.len(), r));
    if out.differs {
        std::process::exit(1);
    }
}
