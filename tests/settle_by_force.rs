//! settle_by_force: what `settle` prints, found by the brute-force lister. Only for small plans.

#[allow(dead_code)]
mod lister;

use std::io::Read;

fn main() {
    let mut plan = Vec::new();
    std::io::stdin().read_to_end(&mut plan).expect("standard input cannot be read");
    print!("{}", lister::sheet(&lister::list(&plan, lister::TABLE_WORDS)));
}
