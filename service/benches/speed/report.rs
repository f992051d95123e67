//! The rows that are printed, and the mean of their ratios.

/// What was measured of one table.
pub struct Row {
    pub name: &'static str,
    pub words: usize,
    /// The library's nanoseconds, then plain Rust's.
    pub times: [f64; 2],
}

impl Row {
    pub fn ratio(&self) -> f64 {
        self.times[0] / self.times[1]
    }

    /// The same for a word of the table.
    pub fn for_a_word(self) -> Row {
        let times = self.times.map(|time| time / self.words as f64);
        Row { times, ..self }
    }
}

pub fn print(what: &str, unit: &str, rows: &[Row]) {
    let (library, plain) = (format!("{unit} library"), format!("{unit} plain"));
    println!(
        "\n{what:34}{:>8}{library:>18}{plain:>18}{:>8}",
        "words", "ratio"
    );
    for row in rows {
        let Row {
            name,
            words,
            times: [library, plain],
        } = row;
        println!(
            "{name:34}{words:>8}{library:>18.2}{plain:>18.2}{:>8.2}",
            row.ratio()
        );
    }
}

pub fn print_mean<'a>(what: &str, rows: impl Iterator<Item = &'a Row>) {
    let logs: Vec<f64> = rows.map(|row| row.ratio().ln()).collect();
    let mean = (logs.iter().sum::<f64>() / logs.len() as f64).exp();
    println!("{what:78}{mean:>8.2}");
}
