//! The page whose tables stand between marks; the rest of it is written by hand.

/// The page with another text between the marks of a name.
pub fn with(page: &str, name: &str, text: &str) -> Result<String, String> {
    let (start, end) = (format!("<!-- {name} -->\n"), format!("<!-- end of {name} -->"));
    let missing = || format!("the page has no place for {name}");
    let (before, rest) = page.split_once(&start).ok_or_else(missing)?;
    let (_, after) = rest.split_once(&end).ok_or_else(missing)?;
    Ok([before, &start, text, "\n", &end, after].concat()) // a table ends with an empty line
}
