//! Readings of the panel beside the positions: tenths of a millisecond, one for each position in turn.

use super::super::html::escaped;

/// One reading for each position, in the list's order; `None` is not measured. What is largest and what is above the limit is the library's to say.
#[derive(Clone, Debug, Default)]
pub struct Readings {
    pub tenths: Vec<Option<u64>>,
    /// The largest with its place from 0.
    pub largest: Option<(u64, usize)>,
    /// Places from 0 of those above the limit.
    pub above: Vec<usize>,
    pub limit: Option<u64>,
    /// Where they come from, such as the run's file.
    pub source: String,
}

impl Readings {
    /// The cell of a position, counted from 0. A mark and a word say that it is above the limit.
    pub fn cell(&self, place: usize) -> String {
        match self.tenths.get(place).copied().flatten() {
            None => "<td class=\"m\"><span aria-hidden=\"true\">–</span><i>not measured</i>".to_string(),
            Some(tenths) if self.above.contains(&place) => {
                format!("<td class=\"m above\" data-v=\"{}\">▲ {}<i> above the limit</i>", tenths, milliseconds(tenths))
            }
            Some(tenths) => format!("<td class=\"m\" data-v=\"{}\">{}", tenths, milliseconds(tenths)),
        }
    }

    /// The readings in a line: the largest with its position, those above the limit, those not measured.
    pub fn told(&self) -> String {
        let largest = match self.largest {
            Some((tenths, place)) => format!("largest <b>{} ms</b> at position {}", milliseconds(tenths), place + 1),
            None => "none measured".to_string(),
        };
        let above = self.limit.map_or(String::new(), |limit| format!("<li>above {} ms: <b>{}</b></li>", milliseconds(limit), self.above.len()));
        let open = self.tenths.iter().filter(|tenths| tenths.is_none()).count();
        let source = if self.source.is_empty() { String::new() } else { format!("<li>{}</li>", escaped(&self.source)) };
        format!(
            "<div class=\"line\"><span id=\"h-readings\">Readings</span><ul aria-labelledby=\"h-readings\">\
             <li>{}</li>{}<li>not measured: <b>{}</b></li>{}</ul></div>",
            largest, above, open, source
        )
    }
}

pub fn milliseconds(tenths: u64) -> String {
    format!("{}.{}", tenths / 10, tenths % 10)
}
