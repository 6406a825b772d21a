//! The U-Box register that all uncore counting hangs on, U_MSR_PMON_GLOBAL_CTL (document 004, 2.1.1 and Table 2-2; order 7).
//! The place of en_all and the low end of pmi_core_sel are not in document 004 as we hold it: they are those of the Linux driver.

pub const ADDRESS: u64 = 0xC00;
/// pmi_en of a counter's control register, on S (Table 2-30) and on C (Table 2-13): an overflow is sent to the U-Box.
pub const PMI_EN: u64 = 1 << 20;
/// pmi_core_sel has a bit for each core, as the printed values do.
pub const CORES: u64 = 8;

const FRZ_ALL: u64 = 1 << 31;
const EN_ALL: u64 = 1 << 28;
/// The bit of core 0 in pmi_core_sel, 8:1.
const CORE_0: u64 = 1 << 1;

/// What lets all uncore counters count: with the freeze where it is 1, and the bit of the core where there is one.
pub fn value(freeze: u64, core: Option<u64>) -> u64 {
    EN_ALL + freeze * FRZ_ALL + core.map_or(0, |core| CORE_0 << core)
}
