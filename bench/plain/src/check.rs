//! The check of a parsed log, with its exact first fault.

use crate::fault::{Fault, Kind};
use crate::log::{
    Act, Columns, Log, MOST_KEYS, MOST_STATEMENTS, MOST_TERMS, NOWHERE, Source, Statement, Term, Txn,
};
use crate::names::Name;

pub const MOST_TXNS: usize = 1_000_000;
const MOST_SHOWS: usize = 16;

pub fn check(log: &Log) -> Result<(), Fault> {
    check_store(log)?;
    if log.txns.len() > MOST_TXNS {
        return Err(Fault::Check(Kind::Limit, 0, 0));
    }
    let names = log.names.all();
    check_txns(&log.txns, log.store.len(), |number| &names[number as usize])
}

pub fn check_store(log: &Log) -> Result<(), Fault> {
    let names = &log.names.all()[..log.store.len()];
    let rises = names.is_sorted_by(|first, second| first < second);
    if rises { Ok(()) } else { Err(Fault::Check(Kind::Order, 0, 0)) }
}

/// The first fault of the transactions, counted from 1. The first `stored` names are those of the store.
#[inline(always)]
pub fn check_txns<'a>(txns: &Columns, stored: usize, name: impl Fn(u32) -> &'a Name) -> Result<(), Fault> {
    // Stored keys are numbered in the order of their names.
    let rises = |[first, second]: &[u32; 2]| match (*first, *second) {
        (first, second) if (first as usize) < stored && (second as usize) < stored => first < second,
        (first, second) => name(first) < name(second),
    };
    for index in 0..txns.len() {
        let txn = txns.txn(index);
        let fault = |kind, statement| Err(Fault::Check(kind, index + 1, statement));
        if !txn.reads.array_windows().all(rises) || !txn.writes.array_windows().all(rises) {
            return fault(Kind::Order, 0);
        }
        let shows = txns.shows(index + 1) - txns.shows(index);
        if txn.body.len() > MOST_STATEMENTS
            || txn.reads.len() > MOST_KEYS
            || txn.writes.len() > MOST_KEYS
            || shows > MOST_SHOWS
        {
            return fault(Kind::Limit, 0);
        }
        if !is_sound(&txn)
            && let Some((kind, statement)) = body_fault(&txn)
        {
            return fault(kind, statement);
        }
    }
    Ok(())
}

/// Whether a body has no fault, by a quick scan of its terms and statements.
#[inline(always)]
fn is_sound(txn: &Txn) -> bool {
    let worst = txn.terms.iter().fold(0, |worst, term| worst.max(term.source as u8));
    worst < Source::Unbound as u8
        && txn.body.iter().all(|statement| {
            let placed =
                statement.place != NOWHERE || matches!(statement.act, Act::Need | Act::Show | Act::Fail);
            placed && statement.terms.iter().all(|count| usize::from(*count) <= MOST_TERMS)
        })
}

/// The first fault of a body, and its statement from 1.
fn body_fault(txn: &Txn) -> Option<(Kind, usize)> {
    let mut terms = txn.terms;
    for (index, statement) in txn.body.iter().enumerate() {
        let own;
        (own, terms) = terms.split_at(statement.terms.iter().map(|count| usize::from(*count)).sum());
        if let Some(kind) = statement_fault(statement, own) {
            return Some((kind, index + 1));
        }
    }
    None
}

fn statement_fault(statement: &Statement, terms: &[Term]) -> Option<Kind> {
    let has = |source| terms.iter().any(|term| term.source == source);
    let nowhere = statement.place == NOWHERE;
    let act = statement.act;
    if has(Source::Unread) || nowhere && matches!(act, Act::Has | Act::Lacks) {
        Some(Kind::Unread)
    } else if nowhere && matches!(act, Act::Put | Act::PutWhen | Act::Drop) {
        Some(Kind::Unwritten)
    } else if has(Source::Unbound) || nowhere && act == Act::Bind {
        Some(Kind::Local)
    } else if statement.terms.iter().any(|count| usize::from(*count) > MOST_TERMS) {
        Some(Kind::Limit)
    } else {
        None
    }
}
