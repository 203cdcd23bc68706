//! draw FOLDER COUNT [SEED]: writes drawn plans of the comparison's generator as FOLDER/N.plan, for tests that are not in Rust.

#![allow(dead_code)] // the modules serve the comparison

mod blame_plans;
mod broken_plans;
mod counted_plans;
mod draft;
mod encode;
mod generator;
mod lister;
mod packed;
mod random;
mod shown_plans;
mod stop_plans;
mod table_plans;
mod valid_plans;

fn main() -> std::io::Result<()> {
    let arguments: Vec<String> = std::env::args().collect();
    let number = |place: usize, otherwise| arguments.get(place).map_or(Ok(otherwise), |text| text.parse::<u64>());
    let (Some(folder), Ok(count), Ok(seed)) = (arguments.get(1), number(2, 100), number(3, 1)) else {
        eprintln!("usage: draw FOLDER COUNT [SEED]");
        std::process::exit(2);
    };
    std::fs::create_dir_all(folder)?;
    (0..count).try_for_each(|number| std::fs::write(format!("{}/{}.plan", folder, number), generator::case(seed, number).plan))
}
