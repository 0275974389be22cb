//! The functions under test, behind one trait: the linked library, or the model standing in for it.

use crate::model::calls::{self, Answer, Asked, Loose, LooseRecord, Outcome};
use crate::model::{text, Commitment, Prefer, Rule, Solver};

pub trait Library: Sync {
    /// The C doors on bytes: the refusal number only. Planning is the plan or, where the latest is preferred, the latest plan.
    fn plan_door(&self, prefer: Prefer, ticket: &[u8], out: &mut [u8]) -> u32;
    fn commit_door(&self, record: &[u8], commitment: Commitment, out: &mut [u8]) -> u32;

    /// Planning and commitment with lent scratch.
    fn plan(&self, prefer: Prefer, ticket: &[u8], out: &mut [u8], scratch: &mut [u32]) -> Answer;
    fn commit(&self, record: &[u8], commitment: Commitment, out: &mut [u8], scratch: &mut [u32]) -> Answer;

    /// The C door of the table.
    fn table(&self, horizon: u32, events: u32, rules: &[Rule], out: &mut [i32]) -> u32;

    /// The C door of a ticket's table after this many stops.
    fn table_after(&self, ticket: &[u8], stops: u32, out: &mut [i32]) -> u32;

    /// Reading and then writing: number and length.
    fn rewrite_ticket(&self, ticket: &[u8], out: &mut [u8]) -> (u32, u32);
    fn rewrite_record(&self, record: &[u8], out: &mut [u8]) -> (u32, u32);

    /// Writing a ticket or a record of any values: number and length.
    fn write_ticket(&self, loose: &Loose, out: &mut [u8]) -> (u32, u32);
    fn write_record(&self, loose: &LooseRecord, out: &mut [u8]) -> (u32, u32);

    /// The C door of the reason in words: number and length.
    fn reason(&self, asked: &Asked, out: &mut [u8]) -> (u32, u32);

    /// The C door of mending: the mended ticket to one output, the list of dropped rules to the other.
    fn mend(&self, ticket: &[u8], out: &mut [u8], dropped: &mut [u8]) -> u32;

    /// The C door of a device's part.
    fn part(&self, ticket: &[u8], device: u32, out: &mut [u8]) -> u32;

    /// The C door of a caller's view.
    fn view(&self, record: &[u8], caller: u32, out: &mut [u8]) -> u32;

    /// What the program prints for these bytes, with the word `latest` where that is preferred.
    fn printed(&self, prefer: Prefer, ticket: &[u8]) -> String;
}

/// The model as a library. A faulty library overrides `planned`, `committed` and the rest.
pub struct Model;

pub fn planned(prefer: Prefer, ticket: &[u8]) -> Outcome {
    calls::plan(ticket, prefer, Solver::Flow)
}

pub fn committed(record: &[u8], commitment: Commitment) -> Outcome {
    calls::commit(record, commitment, Solver::Flow)
}

impl Library for Model {
    fn plan_door(&self, prefer: Prefer, ticket: &[u8], out: &mut [u8]) -> u32 {
        calls::deliver(|| planned(prefer, ticket), out, &mut vec![0; calls::SCRATCH]).number
    }

    fn commit_door(&self, record: &[u8], commitment: Commitment, out: &mut [u8]) -> u32 {
        calls::deliver(|| committed(record, commitment), out, &mut vec![0; calls::SCRATCH]).number
    }

    fn plan(&self, prefer: Prefer, ticket: &[u8], out: &mut [u8], scratch: &mut [u32]) -> Answer {
        calls::deliver(|| planned(prefer, ticket), out, scratch)
    }

    fn commit(&self, record: &[u8], commitment: Commitment, out: &mut [u8], scratch: &mut [u32]) -> Answer {
        calls::deliver(|| committed(record, commitment), out, scratch)
    }

    fn table(&self, horizon: u32, events: u32, rules: &[Rule], out: &mut [i32]) -> u32 {
        calls::table(horizon, events, rules, out, Solver::Flow)
    }

    fn table_after(&self, ticket: &[u8], stops: u32, out: &mut [i32]) -> u32 {
        calls::table_after(ticket, stops, out, Solver::Flow)
    }

    fn rewrite_ticket(&self, ticket: &[u8], out: &mut [u8]) -> (u32, u32) {
        calls::rewrite_ticket(ticket, out)
    }

    fn rewrite_record(&self, record: &[u8], out: &mut [u8]) -> (u32, u32) {
        calls::rewrite_record(record, out)
    }

    fn write_ticket(&self, loose: &Loose, out: &mut [u8]) -> (u32, u32) {
        calls::write_ticket(loose, out)
    }

    fn write_record(&self, loose: &LooseRecord, out: &mut [u8]) -> (u32, u32) {
        calls::write_record(loose, out)
    }

    fn reason(&self, asked: &Asked, out: &mut [u8]) -> (u32, u32) {
        calls::reason(asked, out, Solver::Flow)
    }

    fn mend(&self, ticket: &[u8], out: &mut [u8], dropped: &mut [u8]) -> u32 {
        calls::hand_out(|| calls::mend(ticket, Solver::Flow), out, dropped).0
    }

    fn part(&self, ticket: &[u8], device: u32, out: &mut [u8]) -> u32 {
        calls::hand_out_part(|| calls::part(ticket, device, Solver::Flow), out).0
    }

    fn view(&self, record: &[u8], caller: u32, out: &mut [u8]) -> u32 {
        calls::hand_out_view(|| calls::view(record, caller, Solver::Flow), out).0
    }

    fn printed(&self, prefer: Prefer, ticket: &[u8]) -> String {
        text::printed(&planned(prefer, ticket))
    }
}
