//! The static libraries libbeyunlak.a and libharness.a, and the program. A slice passes as its pointer and its length.

use crate::library::Library;
use crate::model::calls::{Answer, Asked, Loose, LooseRecord};
use crate::model::{Commitment, Prefer, Rule};
use std::io::Write;
use std::process::{Command, Stdio};

/// The header's struct of a rule.
#[repr(C)]
struct LentRule {
    from: u8,
    to: u8,
    bound: i32,
}

extern "C" {
    fn beyunlak_plan(ticket: *const u8, ticket_len: usize, out: *mut u8, out_len: usize) -> u32;
    fn beyunlak_plan_latest(ticket: *const u8, ticket_len: usize, out: *mut u8, out_len: usize) -> u32;
    fn beyunlak_commit(
        record: *const u8,
        record_len: usize,
        caller: u32,
        event: u32,
        open: u32,
        close: u32,
        out: *mut u8,
        out_len: usize,
    ) -> u32;
    fn beyunlak_table(
        horizon: u32,
        events: u32,
        rules: *const LentRule,
        rules_len: usize,
        out: *mut i32,
        out_len: usize,
    ) -> u32;
    fn beyunlak_table_after(ticket: *const u8, ticket_len: usize, stops: u32, out: *mut i32, out_len: usize) -> u32;
    fn beyunlak_reason(
        ticket: *const u8,
        ticket_len: usize,
        labels: *const u8,
        labels_len: usize,
        roster: *const u8,
        roster_len: usize,
        out: *mut u8,
        out_len: usize,
        length: *mut u32,
    ) -> u32;
    fn beyunlak_mend(
        ticket: *const u8,
        ticket_len: usize,
        out: *mut u8,
        out_len: usize,
        dropped: *mut u8,
        dropped_len: usize,
    ) -> u32;
    fn beyunlak_part(ticket: *const u8, ticket_len: usize, device: u32, out: *mut u8, out_len: usize) -> u32;
    fn beyunlak_view(record: *const u8, record_len: usize, caller: u32, out: *mut u8, out_len: usize) -> u32;
    fn harness_plan(
        ticket: *const u8,
        ticket_len: usize,
        out: *mut u8,
        out_len: usize,
        scratch: *mut u32,
        scratch_len: usize,
        length: *mut u32,
        total: *mut u32,
    ) -> u32;
    fn harness_plan_latest(
        ticket: *const u8,
        ticket_len: usize,
        out: *mut u8,
        out_len: usize,
        scratch: *mut u32,
        scratch_len: usize,
        length: *mut u32,
        total: *mut u32,
    ) -> u32;
    fn harness_commit(
        record: *const u8,
        record_len: usize,
        caller: u32,
        event: u32,
        open: u32,
        close: u32,
        out: *mut u8,
        out_len: usize,
        scratch: *mut u32,
        scratch_len: usize,
        length: *mut u32,
        total: *mut u32,
    ) -> u32;
    fn harness_rewrite_ticket(
        ticket: *const u8,
        ticket_len: usize,
        out: *mut u8,
        out_len: usize,
        length: *mut u32,
    ) -> u32;
    fn harness_rewrite_record(
        record: *const u8,
        record_len: usize,
        out: *mut u8,
        out_len: usize,
        length: *mut u32,
    ) -> u32;
    fn harness_write_ticket(
        horizon: u32,
        events: u32,
        owners: *const u8,
        owners_len: usize,
        rules: u32,
        from: *const u8,
        from_len: usize,
        to: *const u8,
        to_len: usize,
        bound: *const i32,
        bound_len: usize,
        out: *mut u8,
        out_len: usize,
        length: *mut u32,
    ) -> u32;
    fn harness_write_record(
        horizon: u32,
        events: u32,
        owners: *const u8,
        owners_len: usize,
        rules: u32,
        from: *const u8,
        from_len: usize,
        to: *const u8,
        to_len: usize,
        bound: *const i32,
        bound_len: usize,
        flags: *const u8,
        flags_len: usize,
        opens: *const u32,
        opens_len: usize,
        closes: *const u32,
        closes_len: usize,
        counts: *const u32,
        counts_len: usize,
        out: *mut u8,
        out_len: usize,
        length: *mut u32,
    ) -> u32;
}

/// The program, from the root of the repository, where tests/run starts this one.
const PLANNER: &str = "crates/planner/out/planner";

/// What the program prints: standard output, then standard error, which has to stay empty, and a status that is not 0.
fn run_planner(prefer: Prefer, ticket: &[u8]) -> std::io::Result<String> {
    let mut command = Command::new(PLANNER);
    if prefer == Prefer::Latest {
        command.arg("latest");
    }
    let mut program = command.stdin(Stdio::piped()).stdout(Stdio::piped()).stderr(Stdio::piped()).spawn()?;
    // The program stops reading after the longest ticket and a byte: what it leaves in the pipe is no error.
    let _ = program.stdin.take().map(|mut pipe| pipe.write_all(ticket));
    let output = program.wait_with_output()?;
    let mut text = String::from_utf8_lossy(&output.stdout).into_owned();
    text += &String::from_utf8_lossy(&output.stderr);
    if !output.status.success() {
        text += &format!("{}\n", output.status);
    }
    Ok(text)
}

/// What a result holds before a call; each call has to write it.
const UNWRITTEN: u32 = 0xdead_beef;

pub struct Linked;

impl Library for Linked {
    fn plan_door(&self, prefer: Prefer, ticket: &[u8], out: &mut [u8]) -> u32 {
        let plan = match prefer {
            Prefer::Earliest => beyunlak_plan,
            Prefer::Latest => beyunlak_plan_latest,
        };
        unsafe { plan(ticket.as_ptr(), ticket.len(), out.as_mut_ptr(), out.len()) }
    }

    fn commit_door(&self, record: &[u8], c: Commitment, out: &mut [u8]) -> u32 {
        let (bytes, length) = (record.as_ptr(), record.len());
        unsafe { beyunlak_commit(bytes, length, c.caller, c.event, c.open, c.close, out.as_mut_ptr(), out.len()) }
    }

    fn plan(&self, prefer: Prefer, ticket: &[u8], out: &mut [u8], scratch: &mut [u32]) -> Answer {
        let plan = match prefer {
            Prefer::Earliest => harness_plan,
            Prefer::Latest => harness_plan_latest,
        };
        let (mut length, mut total) = (UNWRITTEN, UNWRITTEN);
        let number = unsafe {
            plan(
                ticket.as_ptr(),
                ticket.len(),
                out.as_mut_ptr(),
                out.len(),
                scratch.as_mut_ptr(),
                scratch.len(),
                &mut length,
                &mut total,
            )
        };
        Answer { number, length, total }
    }

    fn commit(&self, record: &[u8], c: Commitment, out: &mut [u8], scratch: &mut [u32]) -> Answer {
        let (mut length, mut total) = (UNWRITTEN, UNWRITTEN);
        let number = unsafe {
            harness_commit(
                record.as_ptr(),
                record.len(),
                c.caller,
                c.event,
                c.open,
                c.close,
                out.as_mut_ptr(),
                out.len(),
                scratch.as_mut_ptr(),
                scratch.len(),
                &mut length,
                &mut total,
            )
        };
        Answer { number, length, total }
    }

    fn table(&self, horizon: u32, events: u32, rules: &[Rule], out: &mut [i32]) -> u32 {
        let lent: Vec<LentRule> = rules.iter().map(|r| LentRule { from: r.from, to: r.to, bound: r.bound }).collect();
        unsafe { beyunlak_table(horizon, events, lent.as_ptr(), lent.len(), out.as_mut_ptr(), out.len()) }
    }

    fn table_after(&self, ticket: &[u8], stops: u32, out: &mut [i32]) -> u32 {
        unsafe { beyunlak_table_after(ticket.as_ptr(), ticket.len(), stops, out.as_mut_ptr(), out.len()) }
    }

    fn rewrite_ticket(&self, ticket: &[u8], out: &mut [u8]) -> (u32, u32) {
        let mut length = UNWRITTEN;
        let number =
            unsafe { harness_rewrite_ticket(ticket.as_ptr(), ticket.len(), out.as_mut_ptr(), out.len(), &mut length) };
        (number, length)
    }

    fn rewrite_record(&self, record: &[u8], out: &mut [u8]) -> (u32, u32) {
        let mut length = UNWRITTEN;
        let number =
            unsafe { harness_rewrite_record(record.as_ptr(), record.len(), out.as_mut_ptr(), out.len(), &mut length) };
        (number, length)
    }

    fn write_ticket(&self, loose: &Loose, out: &mut [u8]) -> (u32, u32) {
        let mut length = UNWRITTEN;
        let (owners, from, to, bound) = (&loose.owners, &loose.from, &loose.to, &loose.bound);
        let number = unsafe {
            harness_write_ticket(
                loose.horizon,
                loose.events,
                owners.as_ptr(),
                owners.len(),
                loose.rules,
                from.as_ptr(),
                from.len(),
                to.as_ptr(),
                to.len(),
                bound.as_ptr(),
                bound.len(),
                out.as_mut_ptr(),
                out.len(),
                &mut length,
            )
        };
        (number, length)
    }

    fn write_record(&self, loose: &LooseRecord, out: &mut [u8]) -> (u32, u32) {
        let mut length = UNWRITTEN;
        let LooseRecord { ticket, flags, opens, closes, counts } = loose;
        let number = unsafe {
            harness_write_record(
                ticket.horizon,
                ticket.events,
                ticket.owners.as_ptr(),
                ticket.owners.len(),
                ticket.rules,
                ticket.from.as_ptr(),
                ticket.from.len(),
                ticket.to.as_ptr(),
                ticket.to.len(),
                ticket.bound.as_ptr(),
                ticket.bound.len(),
                flags.as_ptr(),
                flags.len(),
                opens.as_ptr(),
                opens.len(),
                closes.as_ptr(),
                closes.len(),
                counts.as_ptr(),
                counts.len(),
                out.as_mut_ptr(),
                out.len(),
                &mut length,
            )
        };
        (number, length)
    }

    fn reason(&self, asked: &Asked, out: &mut [u8]) -> (u32, u32) {
        let mut length = UNWRITTEN;
        let Asked { ticket, labels, roster } = asked;
        let number = unsafe {
            beyunlak_reason(
                ticket.as_ptr(),
                ticket.len(),
                labels.as_ptr(),
                labels.len(),
                roster.as_ptr(),
                roster.len(),
                out.as_mut_ptr(),
                out.len(),
                &mut length,
            )
        };
        (number, length)
    }

    fn mend(&self, ticket: &[u8], out: &mut [u8], dropped: &mut [u8]) -> u32 {
        let (bytes, length) = (ticket.as_ptr(), ticket.len());
        unsafe { beyunlak_mend(bytes, length, out.as_mut_ptr(), out.len(), dropped.as_mut_ptr(), dropped.len()) }
    }

    fn part(&self, ticket: &[u8], device: u32, out: &mut [u8]) -> u32 {
        unsafe { beyunlak_part(ticket.as_ptr(), ticket.len(), device, out.as_mut_ptr(), out.len()) }
    }

    fn view(&self, record: &[u8], caller: u32, out: &mut [u8]) -> u32 {
        unsafe { beyunlak_view(record.as_ptr(), record.len(), caller, out.as_mut_ptr(), out.len()) }
    }

    fn printed(&self, prefer: Prefer, ticket: &[u8]) -> String {
        run_planner(prefer, ticket).unwrap_or_else(|error| format!("{PLANNER}: {error}"))
    }
}
