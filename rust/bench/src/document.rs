//! Puts the tables into a document, between `<!-- bench NAME -->` and the next `<!-- end -->`.

pub fn filled(document: &str, sections: &[(&str, String)]) -> String {
    let mut text = document.to_string();
    for (name, table) in sections {
        let begin = format!("<!-- bench {name} -->\n");
        let from = text
            .find(&begin)
            .expect("the document has a place for each table")
            + begin.len();
        let to = from
            + text[from..]
                .find("<!-- end -->")
                .expect("each place has an end");
        text.replace_range(from..to, table);
    }
    text
}
