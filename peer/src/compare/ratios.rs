//! How the ratios of the benchmark are printed: a line for each case, or a table for a document.

use super::cases::{size_words, sizes, Size};

/// The ratios of a case, a round each, in rising order.
pub struct Measure {
    pub size: Option<Size>,
    pub kind: String,
    pub ratios: Vec<f64>,
}

/// How ratios are printed, and how the load of halls is, a line or a row for each hall.
#[derive(Debug, Clone, Copy, PartialEq, Eq)]
pub enum Form {
    /// A line for each case.
    Lines,
    /// A row of a Markdown table for each kind of case, with a column for each size of hall.
    Markdown,
}

impl Form {
    /// What stands above the lines of a call's measures; a call with the same above it needs it no more.
    pub fn head(self, measures: &[Measure]) -> String {
        match self {
            Form::Lines => line("call", "case", "median", "least .. most"),
            Form::Markdown => {
                let mut columns = vec!["call".to_owned(), "case".to_owned()];
                columns.extend(cells_of(measures).map(cell_words));
                format!("{}\n|{}", row(&columns), "---|".repeat(columns.len()))
            }
        }
    }

    /// The lines of a call's measures.
    pub fn lines(self, call: &str, measures: &[Measure]) -> Vec<String> {
        match self {
            Form::Lines => measures.iter().map(|measure| measure.line(call)).collect(),
            Form::Markdown => rows(call, measures),
        }
    }
}

impl Measure {
    /// The line of the case.
    fn line(&self, call: &str) -> String {
        let size = self.size.map_or_else(String::new, size_words);
        let case = format!("{size} {}", self.kind);
        let [least, median, most] = self.spread();
        line(call, case.trim(), &median, &format!("{least} .. {most}"))
    }

    /// The case in a cell of the table.
    fn cell(&self) -> String {
        let [least, median, most] = self.spread();
        format!("{median} ({least} .. {most})")
    }

    /// The first, the middle and the last of the ratios.
    fn spread(&self) -> [String; 3] {
        let places = [0, self.ratios.len() / 2, self.ratios.len() - 1];
        places.map(|place| format!("{:.2}", self.ratios[place]))
    }
}

/// A line of the benchmark, its columns one below the other.
fn line(call: &str, case: &str, median: &str, spread: &str) -> String {
    format!("{call:<14} | {case:<26} | {median:>6} | {spread}")
}

/// The rows of a call, one for each kind of its cases in their order.
fn rows(call: &str, measures: &[Measure]) -> Vec<String> {
    let kinds = measures.chunk_by(|one, next| one.kind == next.kind);
    kinds.map(|measures| kind_row(call, measures)).collect()
}

/// The row of one kind: a cell for each size of hall, or one alone where the call is given no hall.
fn kind_row(call: &str, measures: &[Measure]) -> String {
    let of = |size| measures.iter().find(|measure| measure.size == size);
    let cell = |size| of(size).map_or_else(String::new, Measure::cell);
    let mut columns = vec![call.to_owned(), measures[0].kind.clone()];
    columns.extend(cells_of(measures).map(cell));
    row(&columns)
}

/// What the cells of a row are of: each size of hall, or none where the call is given no hall.
fn cells_of(measures: &[Measure]) -> impl Iterator<Item = Option<Size>> {
    let sized = measures.iter().any(|measure| measure.size.is_some());
    let none = (!sized).then_some(None);
    let sizes = sizes().filter(move |_| sized).map(Some);
    none.into_iter().chain(sizes)
}

/// The words above a cell.
fn cell_words(size: Option<Size>) -> String {
    size.map_or_else(|| "ratio".to_owned(), size_words)
}

/// A row of a Markdown table.
fn row(columns: &[String]) -> String {
    format!("| {} |", columns.join(" | "))
}

#[cfg(test)]
mod tests {
    use super::*;

    /// A measure of some ratios.
    fn measure(size: Option<Size>, kind: &str, ratios: &[f64]) -> Measure {
        Measure {
            size,
            kind: kind.to_owned(),
            ratios: ratios.to_vec(),
        }
    }

    /// The columns of a line.
    fn columns(line: &str) -> Vec<&str> {
        line.split('|').map(str::trim).collect()
    }

    #[test]
    fn the_spread_is_the_least_the_median_and_the_most() {
        let many = measure(None, "", &[0.5, 0.75, 1.0, 1.5, 9.0]);
        assert_eq!(many.spread(), ["0.50", "1.00", "9.00"]);
        assert_eq!(measure(None, "", &[1.25]).spread(), ["1.25"; 3]);
    }

    #[test]
    fn a_line_has_the_median_before_the_spread() {
        let measures = [measure(Some([8, 3]), "b=1 5% down", &[0.5, 1.0, 2.0])];
        let lines = Form::Lines.lines("step", &measures);
        let right = ["step", "n=8 k=3 b=1 5% down", "1.00", "0.50 .. 2.00"];
        assert_eq!(columns(&lines[0]), right);
    }

    #[test]
    fn a_row_has_the_sizes_of_one_kind_and_leaves_room_for_those_not_measured() {
        let measures = [
            measure(Some([4, 2]), "all up", &[1.0]),
            measure(Some([8, 3]), "all up", &[2.0]),
            measure(Some([8, 3]), "5% down", &[3.0]),
        ];
        let lines = Form::Markdown.lines("check", &measures);
        let [first, second] = ["2.00 (2.00 .. 2.00)", "3.00 (3.00 .. 3.00)"];
        let other = "1.00 (1.00 .. 1.00)";
        let right = ["", "check", "all up", "", other, "", "", "", first, ""];
        assert_eq!(columns(&lines[0]), right);
        let right = ["", "check", "5% down", "", "", "", "", "", second, ""];
        assert_eq!(columns(&lines[1]), right);
        assert_eq!(lines.len(), 2);
        let head = Form::Markdown.head(&measures);
        assert!(head.starts_with("| call | case | n=4 k=1 | n=4 k=2 | n=4 k=3 | n=8 k=1 |"));
        assert!(head.ends_with("\n|---|---|---|---|---|---|---|---|"));
    }

    #[test]
    fn a_call_without_a_hall_has_one_cell() {
        let measures = [measure(None, "proxy", &[1.0])];
        let lines = Form::Markdown.lines("write header", &measures);
        assert_eq!(lines, ["| write header | proxy | 1.00 (1.00 .. 1.00) |"]);
        let head = Form::Markdown.head(&measures);
        assert_eq!(head, "| call | case | ratio |\n|---|---|---|");
    }
}
