//! What the program prints.

use super::calls::Outcome;
use super::{parts, Solver, Ticket, DEVICES};

/// "plan", event count, total, then event, owner, open, close of each event, then the five part totals; or "refused" and the
/// number.
pub fn printed(outcome: &Outcome) -> String {
    let totals = |ticket: &Ticket| parts::totals(ticket, Solver::Flow);
    with_totals(outcome, |ticket| totals(ticket).unwrap_or([0; DEVICES]))
}

/// The same with the part totals from elsewhere.
pub fn with_totals(outcome: &Outcome, totals: impl FnOnce(&Ticket) -> [i64; DEVICES]) -> String {
    let (record, total) = match outcome {
        Err(number) => return format!("refused {number}\n"),
        Ok(planned) => planned,
    };
    let mut text = format!("plan {} {total}\n", record.windows.len());
    for (k, (owner, window)) in record.ticket.owners.iter().zip(&record.windows).enumerate() {
        text += &format!("{} {owner} {} {}\n", k + 1, window.open, window.close);
    }
    text + &totals_line(&totals(&record.ticket))
}

/// The line of these totals.
pub fn totals_line(totals: &[i64]) -> String {
    let words: Vec<String> = totals.iter().map(i64::to_string).collect();
    words.join(" ") + "\n"
}
