//! The page that the table is put into.

/// The line above the table.
pub const BEGIN: &str = "<!-- ./bench --peers --write: begin -->";
/// The line below it.
pub const END: &str = "<!-- ./bench --peers --write: end -->";

/// The text with these lines between the two marks, in place of what was there.
pub fn put(text: &str, lines: &[String]) -> Result<String, String> {
    let missing = |mark| format!("the page has no line {mark}");
    let (before, rest) = text.split_once(BEGIN).ok_or_else(|| missing(BEGIN))?;
    let (_, after) = rest.split_once(END).ok_or_else(|| missing(END))?;
    let lines = lines.join("\n");
    Ok(format!("{before}{BEGIN}\n\n{lines}\n\n{END}{after}"))
}

#[cfg(test)]
mod tests {
    use super::*;

    #[test]
    fn the_table_is_put_between_the_marks() {
        let page = format!("a\n{BEGIN}\nold\n{END}\nb\n");
        let lines = ["| x |".to_owned(), "| y |".to_owned()];
        let put = put(&page, &lines).unwrap();
        assert_eq!(put, format!("a\n{BEGIN}\n\n| x |\n| y |\n\n{END}\nb\n"));
    }

    #[test]
    fn a_page_without_marks_is_refused() {
        assert!(put("a", &[]).is_err());
        assert!(put(&format!("a\n{END}\n{BEGIN}\n"), &[]).is_err());
    }

    /// The page that the table is for has the marks.
    #[test]
    fn the_server_page_has_the_marks() {
        let page = include_str!("../../../docs/server.md");
        assert!(put(page, &[]).is_ok());
    }
}
