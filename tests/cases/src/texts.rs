//! Texts of sheets, and of sheets with something about them.

/// A sheet over n inputs, a clause to a line.
pub fn sheet(n: u32, numbers: &[i32]) -> String {
    let body: Vec<String> =
        numbers.split_inclusive(|&z| z == 0).map(|clause| clause.iter().map(i32::to_string).collect::<Vec<_>>().join(" ")).collect();
    let clauses = numbers.iter().filter(|&&z| z == 0).count();
    format!("p cnf {n} {clauses}\n{}", body.iter().map(|line| format!("{line}\n")).collect::<String>())
}

/// The sheet after a comment that makes it this many bytes long.
pub fn padded(size: usize, sheet: &str) -> String {
    format!("c{}\n{sheet}", "-".repeat(size - sheet.len() - 2))
}

/// One clause of this many numbers, its 0 with them.
pub fn long_clause(n: u32, numbers: usize) -> String {
    let mut clause = vec![1; numbers - 1];
    clause.push(0);
    sheet(n, &clause)
}
