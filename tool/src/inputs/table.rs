//! CSV as a spreadsheet writes it: the first line names the columns, each further line is a row.

use csv::{ErrorKind, Reader, ReaderBuilder, StringRecord, Trim};

/// A reader of the rows, and the names of the columns.
pub type Table<'a> = (Reader<&'a [u8]>, StringRecord);

/// The table; or the line that is wrong, and what is wrong there.
pub fn table(text: &str) -> Result<Table<'_>, (u64, String)> {
    let text = text.trim_start_matches('\u{FEFF}');
    // a spreadsheet writes semicolons where its language has commas in numbers
    let first = text.lines().next().unwrap_or_default();
    let between = if first.contains(';') && !first.contains(',') { b';' } else { b',' };
    for (line, number) in text.replace("\r\n", "\n").split(['\n', '\r']).zip(1..) {
        if !quotes_close(line, between) {
            let rule = "a quoted value is not closed; it must end on the line where it begins";
            return Err((number, rule.to_string()));
        }
    }
    let mut reader =
        ReaderBuilder::new().trim(Trim::All).delimiter(between).from_reader(text.as_bytes());
    let heads = reader.headers().map_err(|error| (1, error.to_string()))?.clone();
    let twice = |(n, head): &(usize, &str)| heads.iter().take(*n).any(|before| before == *head);
    if let Some((_, head)) = heads.iter().enumerate().find(twice) {
        return Err((1, format!("the column `{head}` appears twice")));
    }
    Ok((reader, heads))
}

/// The line of a row that cannot be read, and what is wrong there.
pub fn wrong_row(error: &csv::Error) -> (u64, String) {
    let line = error.position().map_or(1, csv::Position::line);
    match error.kind() {
        ErrorKind::UnequalLengths { expected_len, len, .. } => (
            line,
            format!("the line has {len} values; the first line names {expected_len} columns"),
        ),
        _ => (line, error.to_string()),
    }
}

/// Whether every quoted value of a line ends on it. One that goes on would take the rows after it for a part of itself.
fn quotes_close(line: &str, between: u8) -> bool {
    let (mut begins, mut quoted) = (true, false);
    let mut bytes = line.bytes().peekable();
    while let Some(byte) = bytes.next() {
        match byte {
            b'"' if quoted => quoted = bytes.next_if_eq(&b'"').is_some(),
            b'"' if begins => quoted = true,
            _ => {}
        }
        begins = !quoted && byte == between;
    }
    !quoted
}

#[cfg(test)]
mod tests {
    use super::*;

    #[test]
    fn a_quoted_value_ends_on_its_line() {
        for (line, closed) in [
            ("a,b", true),
            ("\"a\",\"b,c\"", true),
            ("\"say \"\"b\"\"\",c", true),
            ("12\" wafer,b", true),
            ("a,\"b", false),
            ("\"a\"\"", false),
            ("a,\"b\"\",c", false),
        ] {
            assert_eq!(quotes_close(line, b','), closed, "{line}");
        }
        let (line, _) = table("part,note\r\na,b\r\nc,\"d\r\ne,f\"\r\n").err().unwrap();
        assert_eq!(line, 3);
    }
}
