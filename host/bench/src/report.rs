//! The table, on the terminal and as a page.

use crate::cases::Case;
use crate::client;
use crate::{Cost, BATCHES, KEYS, ROUNDS};
use std::fmt::Write;

fn nanoseconds(cost: f64) -> String {
    let digits = format!("{cost:.0}");
    let mut text = String::new();
    for (i, digit) in digits.chars().enumerate() {
        if i > 0 && (digits.len() - i).is_multiple_of(3) {
            text.push(',');
        }
        text.push(digit);
    }
    text
}

/// A row on the terminal.
pub fn line(case: &Case, costs: &[Cost; 3]) -> String {
    let mut line = format!("{:<38}", case.name);
    for (keys, cost) in KEYS.iter().zip(costs) {
        let (library, reference) = (nanoseconds(cost.library), nanoseconds(cost.reference));
        let ratio = cost.ratio;
        let _ = write!(
            line,
            " | {keys:>4} keys {library:>9} / {reference:>9} = {ratio:>7.2}"
        );
    }
    line
}

/// A row of the client's side on the terminal.
pub fn client_line(name: &str, cost: client::Cost) -> String {
    let (library, plain) = (nanoseconds(cost.library), nanoseconds(cost.plain));
    format!(
        "{name:<38} | {library:>9} / {plain:>9} = {:>7.2}",
        cost.ratio
    )
}

/// The page; `measured` says when, from which commit and on which machine.
pub fn page(rows: &[(Case, [Cost; 3])], client_rows: &[client::Row], measured: &str) -> String {
    let mut page = String::new();
    let batches = ROUNDS * (BATCHES - 1);
    let _ = writeln!(page, "# What the calls cost\n");
    let _ = writeln!(
        page,
        "Nanoseconds of processor time per call of the library, and in brackets its cost as a \
         multiple of the reference's\n(host/reference, which has ordinary collections and no lent \
         memory to check) in the same run. Each number is the median\nof {batches} batches; the \
         batches of the two sides alternate. `./bench --write` measures again and writes this \
         page.\n"
    );
    let _ = writeln!(page, "All figures were measured {measured}.\nOne thread.\n");
    let _ = writeln!(
        page,
        "The state: 32 slots, of which 25 are open; 24 of the clients hold two patterns each that \
         match no key. Keys have 15\nbytes and values 8. \"Growth\" is the library's cost with \
         1,024 keys as a multiple of that with 10.\n"
    );
    let _ = writeln!(page, "| Call | 10 keys | 100 keys | 1,024 keys | Growth |");
    let _ = writeln!(page, "|---|---|---|---|---|");
    for (case, costs) in rows {
        let cells = costs.map(|cost| {
            let library = nanoseconds(cost.library);
            format!("{library} ({:.1}×)", cost.ratio)
        });
        let growth = costs[2].library / costs[0].library;
        let _ = writeln!(
            page,
            "| {} | {} | {growth:.1} |",
            case.name,
            cells.join(" | ")
        );
    }
    own_costs(&mut page, rows);
    let _ = writeln!(page, "\n## The rows\n");
    for (case, _) in rows {
        page.push_str(&item(&format!("**{}**: {}", case.name, case.text)));
    }
    let costs = client_rows.iter().map(|row| (row, row.cost()));
    client_side(&mut page, &costs.collect::<Vec<_>>());
    page
}

/// The calls of the client's side, and what their rows are.
fn client_side(page: &mut String, rows: &[(&client::Row, client::Cost)]) {
    let _ = writeln!(page, "\n## The client's side\n");
    let _ = writeln!(
        page,
        "Commands written and messages read. These calls have no memory and no test of it. Beside \
         them stands a plain\nimplementation in Rust that works on slices too and refuses the same \
         (host/bench/src/plain.rs). More than twice its cost\nis bold.\n"
    );
    let _ = writeln!(page, "| Call | Library | Plain Rust | Multiple |");
    let _ = writeln!(page, "|---|---|---|---|");
    for (row, cost) in rows {
        let (library, plain) = (nanoseconds(cost.library), nanoseconds(cost.plain));
        let ratio = match cost.ratio {
            ratio if ratio > 2.0 => format!("**{ratio:.1}×**"),
            ratio => format!("{ratio:.1}×"),
        };
        let _ = writeln!(page, "| {} | {library} | {plain} | {ratio} |", row.name);
    }
    page.push('\n');
    for (row, _) in rows {
        page.push_str(&item(&format!("**{}**: {}", row.name, row.text)));
    }
}

/// An item of a list, in lines of at most 120 bytes.
fn item(text: &str) -> String {
    let mut lines = String::from("-");
    let mut len = 1;
    for word in text.split(' ') {
        if len + 1 + word.len() > 120 {
            lines.push_str("\n ");
            len = 1;
        }
        lines.push(' ');
        lines.push_str(word);
        len += 1 + word.len();
    }
    lines + "\n"
}

/// What each call costs beyond the test of the memory, which is the first row.
fn own_costs(page: &mut String, rows: &[(Case, [Cost; 3])]) {
    let _ = writeln!(page, "\n## A call's own cost\n");
    let _ = writeln!(
        page,
        "Every call first tests the rules of the whole memory (answer 7), which walks the store's \
         rows and the open clients: the\nfirst row is that test, and it is part of all others. Here \
         each row stands less that test, measured on the same memory\nbefore and after each batch: \
         what the call itself costs, and in brackets as a multiple of the reference's cost. More\n\
         than twice the reference is bold.\n"
    );
    let _ = writeln!(page, "| Call | 10 keys | 100 keys | 1,024 keys |");
    let _ = writeln!(page, "|---|---|---|---|");
    for (case, costs) in &rows[1..] {
        let cells: Vec<String> = costs
            .iter()
            .map(|cost| {
                let own = cost.own.max(0.0);
                let ratio = own / cost.reference;
                let text = format!("{} ({ratio:.1}×)", nanoseconds(own));
                if ratio > 2.0 {
                    format!("**{text}**")
                } else {
                    text
                }
            })
            .collect();
        let _ = writeln!(page, "| {} | {} |", case.name, cells.join(" | "));
    }
}

#[cfg(test)]
mod tests {
    use super::*;

    #[test]
    fn items_are_wrapped() {
        assert_eq!(item("**a**: b c"), "- **a**: b c\n");
        let long = item(&"word ".repeat(40));
        assert!(long.lines().count() == 2 && long.lines().all(|line| line.len() <= 120));
        assert!(long
            .lines()
            .nth(1)
            .is_some_and(|line| line.starts_with("  word")));
    }

    #[test]
    fn the_page_says_when_it_was_measured() {
        let page = page(&crate::one_row(), &[], "2026-01-31, commit abc1234");
        assert!(page.contains("All figures were measured 2026-01-31, commit abc1234."));
        assert!(page.contains("| 1,234 (2.0×) |"), "{page}");
    }

    #[test]
    fn the_client_s_side_has_a_table() {
        let cost = |ratio| client::Cost {
            library: 1234.0,
            plain: 617.0,
            ratio,
        };
        let rows = client::rows();
        let mut page = String::new();
        client_side(&mut page, &[(&rows[0], cost(2.0)), (&rows[2], cost(2.5))]);
        let first = "| write WRITE, packet | 1,234 | 617 | 2.0× |";
        let second = "| write WRITE, line | 1,234 | 617 | **2.5×** |";
        assert!(page.contains(first) && page.contains(second), "{page}");
        assert!(page.contains("- **write WRITE, line**: The same as text"));
        assert!(page.lines().all(|line| line.len() <= 120), "{page}");
        assert_eq!(
            client_line(rows[0].name, cost(2.0)),
            format!("{:<38} |     1,234 /       617 =    2.00", rows[0].name)
        );
    }
}
