//! Mending (02, change 6): the rules are walked in ticket order, and one is kept if a schedule exists for it together with
//! those kept so far. Each step is decided from nothing, as `possible` decides whether a ticket has a schedule.

use super::Ticket;

/// The ticket with the kept rules, and the numbers of the dropped ones, from 1 and rising.
pub fn walked(ticket: &Ticket, possible: impl Fn(&Ticket) -> bool) -> (Ticket, Vec<u16>) {
    let mut kept = Ticket { rules: Vec::new(), ..ticket.clone() };
    let mut dropped = Vec::new();
    for (rule, number) in ticket.rules.iter().zip(1..) {
        kept.rules.push(*rule);
        if !possible(&kept) {
            kept.rules.pop();
            dropped.push(number);
        }
    }
    (kept, dropped)
}
