//! The proved functions, as include/boanhetri.h declares them, called as the reference's are.

pub mod changes;
pub mod guarded;

use host::reference::{Call, Noted, Outcome, Record};

/// `struct boanhetri_verdict`.
#[repr(C)]
struct Verdict {
    answer: u16,
    count: u16,
    words: [u64; 3],
}

extern "C" {
    fn boanhetri_judge(
        line: *const u8,
        line_len: usize,
        lei: *const u8,
        lei_len: usize,
        cty: *const u8,
        cty_len: usize,
        ccy: *const u8,
        ccy_len: usize,
        ven: *const u8,
        ven_len: usize,
        ins: *const u8,
        ins_len: usize,
        reg: *mut u8,
        reg_len: usize,
        day: u32,
        micro: u64,
        polish: u32,
        findings: *mut u16,
        findings_len: usize,
    ) -> Verdict;

    fn boanhetri_convert(from: *const u8, from_len: usize, to: *mut u8, to_len: usize) -> u16;

    fn boanhetri_note(
        records: *mut Record,
        count: usize,
        common: *mut Record,
        line: *const u8,
        line_len: usize,
        verdict: Verdict,
    ) -> Noted;
}

/// Judges one call by the proved function.
pub fn judge(call: Call) -> Outcome {
    let Call { line, lei, cty, ccy, ven, ins, register, day, micro, polish, findings } = call;
    // Slices are what the header asks for: good for their lengths, aligned, and those that are written overlap nothing.
    let verdict = unsafe {
        boanhetri_judge(
            line.as_ptr(),
            line.len(),
            lei.as_ptr(),
            lei.len(),
            cty.as_ptr(),
            cty.len(),
            ccy.as_ptr(),
            ccy.len(),
            ven.as_ptr(),
            ven.len(),
            ins.as_ptr(),
            ins.len(),
            register.as_mut_ptr(),
            register.len(),
            day,
            micro,
            polish,
            findings.as_mut_ptr(),
            findings.len(),
        )
    };
    Outcome { answer: verdict.answer, count: verdict.count, words: verdict.words }
}

/// Converts a register by the proved function. Hands back its answer.
pub fn convert(from: &[u8], to: &mut [u8]) -> u16 {
    // As above: the target is written and overlaps nothing.
    unsafe { boanhetri_convert(from.as_ptr(), from.len(), to.as_mut_ptr(), to.len()) }
}

/// Notes a line with its verdict by the proved function.
pub fn note(records: &mut [Record], common: &mut Record, line: &[u8], outcome: &Outcome) -> Noted {
    let Outcome { answer, count, words } = *outcome;
    // As above: the records are written and overlap nothing.
    unsafe {
        boanhetri_note(
            records.as_mut_ptr(),
            records.len(),
            common,
            line.as_ptr(),
            line.len(),
            Verdict { answer, count, words },
        )
    }
}
