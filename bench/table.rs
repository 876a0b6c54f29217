//! Tables as they are printed: in columns, or in Markdown.

use std::io::Write;

pub enum Column {
    /// A word, from the left.
    Word(&'static str, usize),
    /// A number, from the right.
    Number(&'static str, usize),
    /// A number that Markdown has in bold.
    Bold(&'static str, usize),
}

impl Column {
    fn head(&self) -> &'static str {
        match self {
            Column::Word(head, _) | Column::Number(head, _) | Column::Bold(head, _) => head,
        }
    }

    /// The field as wide as the column.
    fn padded(&self, field: &str) -> String {
        match self {
            Column::Word(_, width) => format!("{field:<width$}"),
            Column::Number(_, width) | Column::Bold(_, width) => format!("{field:>width$}"),
        }
    }

    fn in_markdown(&self, field: &str) -> String {
        match self {
            Column::Bold(..) if field != "-" => format!("**{field}**"),
            _ => field.to_string(),
        }
    }
}

pub fn print_heading(text: &str, markdown: bool) {
    let mark = if markdown { "## " } else { "" };
    println!("\n{mark}{text}");
}

pub struct Table {
    columns: Vec<Column>,
    markdown: bool,
}

impl Table {
    /// Prints the heads.
    pub fn begin(columns: Vec<Column>, markdown: bool) -> Table {
        let table = Table { columns, markdown };
        let heads = table.columns.iter().map(Column::head);
        println!();
        if markdown {
            println!("| {} |", heads.collect::<Vec<_>>().join(" | "));
            println!("|{}", "---|".repeat(table.columns.len()));
        } else {
            table.print_padded(heads);
        }
        table
    }

    /// A long run is to be seen while it goes on; where nobody reads it, it goes on all the same.
    pub fn print(&self, fields: &[String]) {
        assert_eq!(fields.len(), self.columns.len());
        if self.markdown {
            let columns = self.columns.iter().zip(fields);
            let fields = columns.map(|(column, field)| column.in_markdown(field));
            println!("| {} |", fields.collect::<Vec<_>>().join(" | "));
        } else {
            self.print_padded(fields.iter().map(String::as_str));
        }
        let _ = std::io::stdout().flush();
    }

    fn print_padded<'a>(&self, fields: impl Iterator<Item = &'a str>) {
        let columns = self.columns.iter().zip(fields);
        let fields = columns.map(|(column, field)| column.padded(field));
        println!("{}", fields.collect::<Vec<_>>().join(" "));
    }
}
