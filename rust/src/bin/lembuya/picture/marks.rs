//! Marks on a node's row: its waits, its delay limits and its refused events.

use super::chart::{Mark, Wait};
use super::draw::Page;
use super::svg::Svg;

/// A wait goes over the bars, so that one that was put up during its node's own packet is seen there. Its stroke stands where the
/// request was put up, if that is in the range.
pub fn waited(svg: &mut Svg, page: &Page, wait: &Wait) {
    let half = if wait.from < page.from { 0.0 } else { page.mark() };
    wait_at(svg, (page.x(wait.from), page.x(wait.to)), page.middle(wait.row), half, &wait.title);
}

pub fn wait_at(svg: &mut Svg, (from, to): (f64, f64), y: f64, half: f64, title: &str) {
    svg.path("wait", &[(from, y - half), (from, y + half), (from, y), (to, y)], title);
}

pub fn triangle(svg: &mut Svg, page: &Page, mark: &Mark) {
    let (x, y) = (page.x(mark.at), page.y(mark.row) + page.row);
    let half = page.mark();
    svg.path("limit", &[(x - half, y), (x + half, y), (x, y - 2.2 * half)], &mark.title);
}

pub fn cross(svg: &mut Svg, page: &Page, mark: &Mark) {
    cross_at(svg, page.x(mark.at), page.middle(mark.row), page.mark(), &mark.title);
}

pub fn cross_at(svg: &mut Svg, x: f64, y: f64, half: f64, title: &str) {
    svg.path("refused", &[(x - half, y - half), (x + half, y + half)], title);
    svg.path("refused", &[(x - half, y + half), (x + half, y - half)], title);
}

#[cfg(test)]
mod tests {
    use super::super::chart::{Bar, Chart};
    use super::super::draw::page;
    use super::super::places::Row;
    use super::*;
    use lembuya::Class;

    /// From 1,000 to 2,000 on 1,000 units from 80 on; rows of 24 from 78 on, so that row 1's middle is at 114.
    #[test]
    fn a_wait_is_a_line_that_starts_with_a_stroke_over_the_bars() {
        let row = |depth: usize| Row { depth, label: String::new(), is_hub: depth == 0 };
        let mut chart = Chart::empty("t", String::new(), 1_000, 2_000, vec![row(0), row(1)]);
        chart.bars = vec![Bar { row: 1, from: 1_300, to: 1_400, class: Class::Normal, title: "bar".into() }];
        let wait = |from, to| Wait { row: 1, from, to, title: format!("wait {from}") };
        chart.waits = vec![wait(1_100, 1_300), wait(900, 1_050), wait(1_900, 2_500)];
        let page = page(&chart);
        let path = |points: &str, title: &str| {
            page.find(&format!("<path class=\"wait\" d=\"{points}\"><title>{title}</title></path>\n"))
        };
        let bar = page.find("<title>bar</title>").unwrap();
        assert!(path("M180 110L180 118L180 114L380 114", "wait 1100").is_some_and(|at| at > bar), "{page}");
        // Put up before the range: no stroke. Granted behind it: up to its edge.
        assert!(path("M80 114L80 114L80 114L130 114", "wait 900").is_some(), "{page}");
        assert!(path("M980 110L980 118L980 114L1080 114", "wait 1900").is_some(), "{page}");
        assert!(page.contains(">wait, from its request on</text>"));
    }

    /// With 256 nodes a row is 13 units high: a stroke of 5 is within it, and within its bars, which are 6.5 high at least.
    #[test]
    fn a_wait_stays_on_its_row_among_256() {
        let row = |at: usize| Row { depth: usize::from(at > 0), label: String::new(), is_hub: at == 0 };
        let mut chart = Chart::empty("t", String::new(), 0, 1_000, (0..=256).map(row).collect());
        chart.waits = vec![Wait { row: 256, from: 100, to: 300, title: "last".into() }];
        let middle = 78.0 + 13.0 * 256.5;
        let points = format!("M180 {}L180 {}L180 {middle}L380 {middle}", middle - 2.5, middle + 2.5);
        assert!(page(&chart).contains(&format!("<path class=\"wait\" d=\"{points}\"><title>last<")));
    }
}
