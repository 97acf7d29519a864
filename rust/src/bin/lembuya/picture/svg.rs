//! The elements of an SVG page as text.

use std::fmt::{Display, Write};

/// A page that is being written.
pub struct Svg(String);

/// A text with what XML doesn't allow in it written as it asks.
pub fn escaped(text: &str) -> String {
    let shown = text.chars().filter(|letter| *letter >= ' ');
    let mut escaped = String::new();
    for letter in shown {
        match letter {
            '&' => escaped += "&amp;",
            '<' => escaped += "&lt;",
            '>' => escaped += "&gt;",
            '"' => escaped += "&quot;",
            other => escaped.push(other),
        }
    }
    escaped
}

/// A place on the page, with at most two digits behind the point and none that say nothing.
pub struct At(pub f64);

impl Display for At {
    fn fmt(&self, f: &mut std::fmt::Formatter<'_>) -> std::fmt::Result {
        let shown = format!("{:.2}", self.0);
        f.write_str(shown.trim_end_matches('0').trim_end_matches('.'))
    }
}

impl Svg {
    /// A page of a size, with its styles and its title.
    pub fn new(width: f64, height: f64, styles: &str, title: &str) -> Svg {
        let (width, height, title) = (At(width), At(height), escaped(title));
        Svg(format!(
            "<svg xmlns=\"http://www.w3.org/2000/svg\" width=\"{width}\" height=\"{height}\" viewBox=\"0 0 {width} {height}\">\n\
             <title>{title}</title>\n<style>\n{styles}</style>\n\
             <rect class=\"page\" width=\"{width}\" height=\"{height}\"/>\n"
        ))
    }

    fn title(title: &str) -> String {
        if title.is_empty() {
            "/>".into()
        } else {
            format!("><title>{}</title></", escaped(title))
        }
    }

    /// An element with its attributes; a title, if any, is what a browser shows of it.
    fn element(&mut self, name: &str, class: &str, attributes: &str, title: &str) {
        let end = Svg::title(title);
        let close = if title.is_empty() { "" } else { name };
        let mark = if title.is_empty() { "" } else { ">" };
        writeln!(self.0, "<{name} class=\"{class}\"{attributes}{end}{close}{mark}")
            .expect("a String takes it");
    }

    /// A box.
    pub fn rect(&mut self, class: &str, x: f64, y: f64, width: f64, height: f64, title: &str) {
        let (x, y, width, height) = (At(x), At(y), At(width), At(height));
        self.element(
            "rect",
            class,
            &format!(" x=\"{x}\" y=\"{y}\" width=\"{width}\" height=\"{height}\""),
            title,
        );
    }

    /// A line through the points of a path.
    pub fn path(&mut self, class: &str, points: &[(f64, f64)], title: &str) {
        let mut path = String::new();
        for (at, (x, y)) in points.iter().enumerate() {
            let letter = if at == 0 { 'M' } else { 'L' };
            write!(path, "{letter}{} {}", At(*x), At(*y)).expect("a String takes it");
        }
        self.element("path", class, &format!(" d=\"{path}\""), title);
    }

    /// Words; the class says how large they are and where they hang.
    pub fn text(&mut self, class: &str, x: f64, y: f64, words: &str) {
        let (x, y, words) = (At(x), At(y), escaped(words));
        writeln!(self.0, "<text class=\"{class}\" x=\"{x}\" y=\"{y}\">{words}</text>")
            .expect("a String takes it");
    }

    /// The whole page.
    pub fn end(self) -> String {
        self.0 + "</svg>\n"
    }
}

#[cfg(test)]
mod tests {
    use super::*;

    #[test]
    fn words_are_escaped_and_places_short() {
        assert_eq!(escaped("a<b & \"c\">\u{7}"), "a&lt;b &amp; &quot;c&quot;&gt;");
        assert_eq!([0.0, 10.0, 1.5, 2.126].map(|at| At(at).to_string()), ["0", "10", "1.5", "2.13"]);
    }

    #[test]
    fn elements_have_titles_where_there_are_words() {
        let mut svg = Svg::new(2.0, 1.0, "", "t");
        svg.rect("a", 0.0, 0.0, 1.0, 1.0, "x & y");
        svg.path("b", &[(0.0, 0.0), (1.0, 0.5)], "");
        let page = svg.end();
        assert!(page.contains(
            "<rect class=\"a\" x=\"0\" y=\"0\" width=\"1\" height=\"1\"><title>x &amp; y</title></rect>\n"
        ));
        assert!(page.contains("<path class=\"b\" d=\"M0 0L1 0.5\"/>\n"));
    }
}
