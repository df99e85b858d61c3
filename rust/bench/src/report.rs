//! Markdown tables.

/// Rows of cells below a head.
pub struct Table {
    columns: usize,
    text: String,
}

impl Table {
    pub fn new<T: AsRef<str>>(head: &[T]) -> Table {
        let mut table = Table {
            columns: head.len(),
            text: String::new(),
        };
        table.row(head.iter().map(|cell| cell.as_ref().to_string()).collect());
        table.row(vec!["---".to_string(); head.len()]);
        table
    }

    pub fn row(&mut self, cells: Vec<String>) {
        assert!(
            cells.len() == self.columns,
            "a row has a cell for each column"
        );
        self.text += &format!("| {} |\n", cells.join(" | "));
    }

    pub fn text(self) -> String {
        self.text
    }
}

/// A number with commas: 57,600.
pub fn grouped(n: u32) -> String {
    let digits = n.to_string();
    let mut text = String::new();
    for (i, digit) in digits.chars().enumerate() {
        if i > 0 && (digits.len() - i) % 3 == 0 {
            text.push(',');
        }
        text.push(digit);
    }
    text
}
