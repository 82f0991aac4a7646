//! What is printed: tables of figures.

pub const KIB: usize = 1024;
pub const MIB: usize = 1024 * KIB;

/// The sizes of the files that are measured.
pub const SIZES: [usize; 3] = [64 * KIB, MIB, 16 * MIB];

pub fn size_name(size: usize) -> String {
    if size < MIB { format!("{} KiB", size / KIB) } else { format!("{} MiB", size / MIB) }
}

/// The head of a table, under a line of words.
pub fn table(words: &str, columns: &[&str]) {
    println!("\n{words}\n");
    println!("| {} |", columns.join(" | "));
    println!("|{}", "---|".repeat(columns.len()));
}

pub fn row(cells: impl IntoIterator<Item = String>) {
    println!("| {} |", cells.into_iter().collect::<Vec<_>>().join(" | "));
}
