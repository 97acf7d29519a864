//! Where a chart stands on the page.

use super::chart::{Chart, Control};
use super::marks::{cross, cross_at, triangle, wait_at, waited};
use super::svg::Svg;
use lembuya::Class;

/// Blue and orange of Okabe and Ito's palette: told apart by readers with any colour vision, and by their lightness too.
const STYLES: &str = "\
text{font-family:sans-serif;font-size:11px;fill:#222}
.page{fill:#fff}
.head{font-size:15px;font-weight:bold}
.small{font-size:9px}
.axis{text-anchor:middle}
.tree,.grid,.frame,.moved{fill:none;stroke-width:1}
.tree{stroke:#888}
.grid{stroke:#eee}
.frame{stroke:#555;stroke-dasharray:4 3}
.frames{font-weight:bold}
.hubrow{fill:#f4f4f4}
.rest{fill:#bbb;fill-opacity:.35}
.normal{fill:#0072b2}
.high{fill:#e69f00;stroke:#7a5400;stroke-width:.4}
.control{fill:#444}
.moved{stroke:#888;stroke-opacity:.7}
.wait{fill:none;stroke:#222;stroke-width:1}
.limit{fill:#000}
.refused{fill:none;stroke:#b00020;stroke-width:1.5}
";

/// The page's measures.
pub struct Page {
    pub row: f64,
    left: f64,
    top: f64,
    width: f64,
    pub from: u64,
    to: u64,
}

impl Page {
    fn new(chart: &Chart) -> Page {
        let row = match chart.rows.len() {
            0..=40 => 24.0,
            41..=100 => 17.0,
            _ => 13.0,
        };
        let deepest = chart.rows.iter().map(|row| row.depth).max().unwrap_or(0);
        // Enough for each frame to be seen; a page wider than this is better drawn in parts.
        let width = (chart.frames.len() as f64 * 40.0).clamp(1_000.0, 4_000.0);
        Page { row, left: 66.0 + 14.0 * deepest as f64, top: 78.0, width, from: chart.from, to: chart.to }
    }

    /// Where a time stands; what lies outside the range stands at its edge.
    pub fn x(&self, time: u64) -> f64 {
        let part = (time.clamp(self.from, self.to) - self.from) as f64 / (self.to - self.from) as f64;
        self.left + self.width * part
    }

    pub fn y(&self, row: usize) -> f64 {
        self.top + self.row * row as f64
    }

    pub fn middle(&self, row: usize) -> f64 {
        self.y(row) + self.row / 2.0
    }

    /// Half the size of a mark on a row.
    pub fn mark(&self) -> f64 {
        (self.row / 6.0).max(2.5)
    }
}

/// The picture of a chart.
pub fn page(chart: &Chart) -> String {
    let page = Page::new(chart);
    let bottom = page.y(chart.rows.len());
    let mut svg = Svg::new(page.left + page.width + 60.0, bottom + 40.0, STYLES, &chart.title);
    svg.text("head", 10.0, 20.0, &chart.title);
    svg.text("", 10.0, 37.0, &chart.figures);
    legend(&mut svg);
    rows(&mut svg, &page, chart);
    times(&mut svg, &page, chart, bottom);
    for rest in &chart.rests {
        let (from, to) = (page.x(rest.from), page.x(rest.to));
        svg.rect("rest", from, page.top, (to - from).max(0.5), bottom - page.top, &rest.title);
    }
    controls(&mut svg, &page, &chart.controls);
    for bar in &chart.bars {
        let (class, height) = match bar.class {
            Class::Normal => ("normal", 0.5),
            Class::High => ("high", 0.8),
        };
        let (from, to) = (page.x(bar.from), page.x(bar.to));
        let height = page.row * height;
        svg.rect(class, from, page.middle(bar.row) - height / 2.0, (to - from).max(0.8), height, &bar.title);
    }
    for wait in &chart.waits {
        waited(&mut svg, &page, wait);
    }
    for limit in &chart.limits {
        triangle(&mut svg, &page, limit);
    }
    for refused in &chart.refusals {
        cross(&mut svg, &page, refused);
    }
    svg.end()
}

fn legend(svg: &mut Svg) {
    let (mut x, y) = (10.0, 46.0);
    let mut item = |svg: &mut Svg, draw: fn(&mut Svg, f64, f64), words: &str| {
        draw(svg, x, y);
        svg.text("", x + 24.0, y + 10.0, words);
        x += 34.0 + 6.3 * words.len() as f64;
    };
    item(svg, |svg, x, y| svg.rect("high", x, y, 18.0, 12.0, ""), "high grant");
    item(svg, |svg, x, y| svg.rect("normal", x, y + 2.0, 18.0, 8.0, ""), "normal grant");
    item(svg, |svg, x, y| wait_at(svg, (x, x + 18.0), y + 6.0, 4.0, ""), "wait, from its request on");
    item(svg, |svg, x, y| svg.rect("rest", x, y, 18.0, 12.0, ""), "rest");
    item(svg, |svg, x, y| svg.rect("control", x, y + 5.0, 18.0, 2.0, ""), "control, with its moves");
    item(
        svg,
        |svg, x, y| svg.path("limit", &[(x + 5.0, y + 11.0), (x + 13.0, y + 11.0), (x + 9.0, y + 2.0)], ""),
        "delay limit",
    );
    item(svg, |svg, x, y| cross_at(svg, x + 9.0, y + 6.0, 4.0, ""), "refused event");
}

/// Each row's ground, its label, and the tree's lines beside it.
fn rows(svg: &mut Svg, page: &Page, chart: &Chart) {
    let right = page.left + page.width;
    let step = |depth: usize| 14.0 + 14.0 * depth as f64;
    for (row, what) in chart.rows.iter().enumerate() {
        if what.is_hub {
            svg.rect("hubrow", 8.0, page.y(row), right - 8.0, page.row, "");
        }
        svg.path("grid", &[(page.left, page.y(row)), (right, page.y(row))], "");
    }
    for (row, what) in chart.rows.iter().enumerate() {
        // The tree's line comes down from the row above that it stands in.
        let above = chart.rows[..row].iter().rposition(|other| other.depth < what.depth);
        if let Some(above) = above {
            let x = step(what.depth - 1);
            let last =
                chart.rows[above + 1..].iter().take_while(|other| other.depth > chart.rows[above].depth);
            let is_last = !last.skip(row - above).any(|other| other.depth == what.depth);
            let end = if is_last { page.middle(row) } else { page.y(row) + page.row };
            svg.path("tree", &[(x, page.y(row)), (x, end)], "");
            svg.path("tree", &[(x, page.middle(row)), (x + 9.0, page.middle(row))], "");
        }
        // A line of a hub further out goes on beside the rows of one that lies within it.
        for depth in 1..what.depth {
            let within = chart.rows[row..].iter().take_while(|other| other.depth >= depth);
            if within.skip(1).any(|other| other.depth == depth) {
                let x = step(depth - 1);
                svg.path("tree", &[(x, page.y(row)), (x, page.y(row) + page.row)], "");
            }
        }
        let small = if page.row < 15.0 { "small" } else { "" };
        svg.text(small, step(what.depth) - 3.0, page.middle(row) + 3.5, &what.label);
    }
}

/// Frames with their numbers above, and times below.
fn times(svg: &mut Svg, page: &Page, chart: &Chart, bottom: f64) {
    let every = label_every(chart.frames.len(), page.width / 46.0);
    for (at, (number, start)) in chart.frames.iter().enumerate() {
        let x = page.x(*start);
        svg.path("frame", &[(x, page.top - 4.0), (x, bottom)], "");
        if at.is_multiple_of(every) {
            svg.text("frames", x + 2.0, page.top - 5.0, &format!("frame {number}"));
            if chart.rows.len() > 40 {
                svg.text("frames", x + 2.0, bottom + 31.0, &format!("frame {number}"));
            }
        }
    }
    let step = round_step((page.to - page.from) as f64 / (page.width / 110.0));
    let mut time = page.from.div_ceil(step) * step;
    while time <= page.to {
        let x = page.x(time);
        svg.path("tree", &[(x, bottom), (x, bottom + 5.0)], "");
        svg.text("axis", x, bottom + 18.0, &grouped(time));
        time += step;
    }
}

/// Of so many labels every which one stands, so that not more than `room` of them do.
fn label_every(labels: usize, room: f64) -> usize {
    let steps = [1, 2, 5, 10, 20, 50, 100, 200, 500];
    steps.into_iter().find(|every| labels as f64 / *every as f64 <= room).unwrap_or(1_000)
}

/// The least of 1, 2 and 5 times a power of ten that isn't less.
fn round_step(least: f64) -> u64 {
    let mut ten = 1;
    loop {
        for step in [ten, 2 * ten, 5 * ten] {
            if step as f64 >= least {
                return step;
            }
        }
        ten *= 10;
    }
}

/// A number with a comma at each thousand.
fn grouped(number: u64) -> String {
    let digits = number.to_string();
    let mut grouped = String::new();
    for (at, digit) in digits.chars().enumerate() {
        if at > 0 && (digits.len() - at).is_multiple_of(3) {
            grouped.push(',');
        }
        grouped.push(digit);
    }
    grouped
}

/// Who has control, as a dark line on a hub's row; where it passes, a line between the rows and the number of moves.
fn controls(svg: &mut Svg, page: &Page, controls: &[Control]) {
    // From where on there is room for a number on a row.
    let mut free = std::collections::HashMap::new();
    for control in controls {
        let (from, to) = (page.x(control.from), page.x(control.to));
        let y = page.middle(control.row);
        svg.rect("control", from, y - 1.0, (to - from).max(0.5), 2.0, &control.title);
        if control.moves > 0 && control.from >= page.from {
            if control.row != control.before {
                svg.path("moved", &[(from, page.middle(control.before)), (from, y)], &control.title);
            } else {
                svg.rect("control", from - 1.0, y - 4.0, 2.0, 8.0, &control.title);
            }
            let words = control.moves.to_string();
            let width = 3.0 + 5.5 * words.len() as f64;
            if free.get(&control.row).is_none_or(|free| from >= *free) {
                svg.text("small", from + 2.0, y - 2.5, &words);
                free.insert(control.row, from + width);
            }
        }
    }
}

#[cfg(test)]
mod tests {
    use super::super::chart::Bar;
    use super::super::places::Row;
    use super::*;

    /// The number behind a name in an element.
    fn number(element: &str, name: &str) -> f64 {
        let behind = element.split_once(&format!(" {name}=\"")).unwrap().1;
        behind.split_once('"').unwrap().0.parse().unwrap()
    }

    #[test]
    fn a_bar_stands_where_its_times_and_its_row_are() {
        let row =
            |label: &str, is_hub: bool| Row { depth: usize::from(!is_hub), label: label.into(), is_hub };
        let rows = vec![row("hub 1", true), row("node 1", false), row("node 2", false)];
        let mut chart = Chart::empty("t", String::new(), 1_000, 2_000, rows);
        let bar = |row, from, to, class| Bar { row, from, to, class, title: format!("bar {from}") };
        chart.bars = vec![bar(1, 900, 1_250, Class::Normal), bar(2, 1_500, 1_600, Class::High)];
        let page = page(&chart);
        let found = |title: &str| page.lines().find(|line| line.contains(title)).unwrap();
        let (left, scale) = (66.0 + 14.0, 1.0);
        // What lies before the range is cut off at its edge.
        let low = found("<title>bar 900<");
        assert_eq!((number(low, "x"), number(low, "width")), (left, 250.0 * scale));
        let high = found("<title>bar 1500<");
        assert_eq!((number(high, "x"), number(high, "width")), (left + 500.0 * scale, 100.0 * scale));
        // One row further down, and taller by its class, about the row's middle.
        let middle = |bar| number(bar, "y") + number(bar, "height") / 2.0;
        assert_eq!(middle(high) - middle(low), 24.0);
        assert!(number(high, "height") > number(low, "height"));
        assert!(low.starts_with("<rect class=\"normal\"") && high.starts_with("<rect class=\"high\""));
    }

    #[test]
    fn labels_leave_room() {
        assert_eq!(label_every(3, 20.0), 1);
        assert_eq!(label_every(100, 20.0), 5);
        assert_eq!([1.0, 3.0, 21.0, 500_000.0].map(round_step), [1, 5, 50, 500_000]);
        assert_eq!([0, 999, 1_000, 1_234_567].map(grouped), ["0", "999", "1,000", "1,234,567"]);
    }
}
