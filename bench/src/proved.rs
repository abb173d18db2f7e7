// The proved ledger, behind the functions of the crate bench_calls. Nothing checks these declarations: they say what
// crates/bench_calls/src/lib.rt says, where a slice is a pointer and a length, and the heap takes no bytes.
use crate::calls::{CallNumbers, ReplyNumbers};

type Exported = unsafe extern "C" fn(
    cells: u32,
    asked: *const CallNumbers,
    asked_len: usize,
    out: *mut ReplyNumbers,
    out_len: usize,
) -> usize;

extern "C" {
    fn huvapyto_counter_calls(
        cells: u32,
        asked: *const CallNumbers,
        asked_len: usize,
        out: *mut ReplyNumbers,
        out_len: usize,
    ) -> usize;

    fn huvapyto_settings_calls(
        cells: u32,
        asked: *const CallNumbers,
        asked_len: usize,
        out: *mut ReplyNumbers,
        out_len: usize,
    ) -> usize;

    fn huvapyto_status_calls(
        cells: u32,
        asked: *const CallNumbers,
        asked_len: usize,
        out: *mut ReplyNumbers,
        out_len: usize,
    ) -> usize;
}

fn answer(
    exported: Exported,
    cells: u32,
    asked: &[CallNumbers],
    out: &mut [ReplyNumbers],
) -> usize {
    // SAFETY: the functions require nothing, read `asked` and write `out`, both within their lengths.
    unsafe { exported(cells, asked.as_ptr(), asked.len(), out.as_mut_ptr(), out.len()) }
}

pub fn counter(cells: u32, asked: &[CallNumbers], out: &mut [ReplyNumbers]) -> usize {
    answer(huvapyto_counter_calls, cells, asked, out)
}

pub fn settings(cells: u32, asked: &[CallNumbers], out: &mut [ReplyNumbers]) -> usize {
    answer(huvapyto_settings_calls, cells, asked, out)
}

pub fn status(cells: u32, asked: &[CallNumbers], out: &mut [ReplyNumbers]) -> usize {
    answer(huvapyto_status_calls, cells, asked, out)
}
