//! Sheets put together from their parts.

/// A sheet from its declarations and clauses.
pub fn sheet_of(functions: &[&str], predicates: &[&str], clauses: &[&str]) -> Vec<u8> {
    let mut text = "sheet=1\n".to_string();
    for (count, key, lines) in [
        ("funs", "fun", functions),
        ("preds", "pred", predicates),
        ("clauses", "clause", clauses),
    ] {
        text += &format!("{count}={}\n", lines.len());
        lines.iter().for_each(|line| text += &format!("{key}={line}\n"));
    }
    text.into_bytes()
}
