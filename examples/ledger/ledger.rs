//! A ledger. Channel 0 has its entries, a line "account amount" each; channel 1 gets the balance of each account, in
//! the order in which they come first.
//!
//! It has a fault: an entry counts for each account whose name its line begins with, so what belongs to the account
//! `rent-2026` counts for `rent` too. With `--cfg fix` the whole name has to be the same.
#![no_std]
#![no_main]
#![allow(unknown_lints, unexpected_cfgs)]
extern crate alloc;

use alloc::vec::Vec;
use core::fmt::Write;

struct Entry<'a> {
    account: &'a str,
    amount: i64,
}

fn entry(line: &str) -> Option<Entry<'_>> {
    let (account, amount) = line.split_once(' ')?;
    Some(Entry { account, amount: amount.parse().ok()? })
}

fn belongs(entry: &Entry, account: &str) -> bool {
    if cfg!(fix) { entry.account == account } else { entry.account.starts_with(account) }
}

#[no_mangle]
pub extern "C" fn main() -> i32 {
    let bytes = jet::input(0);
    let text = match core::str::from_utf8(&bytes) {
        Ok(text) => text,
        Err(_) => return 1,
    };
    let entries: Vec<Entry> = text.lines().filter_map(entry).collect();
    let mut accounts: Vec<&str> = Vec::new();
    for entry in &entries {
        if !accounts.contains(&entry.account) {
            accounts.push(entry.account);
        }
    }
    for account in accounts {
        let balance: i64 = entries.iter().filter(|entry| belongs(entry, account)).map(|entry| entry.amount).sum();
        if writeln!(jet::Output(1), "{account} {balance}").is_err() {
            return 1;
        }
    }
    0
}
