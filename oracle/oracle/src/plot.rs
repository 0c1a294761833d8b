//! A plot as SVG: panels side by side, lines over logarithmic axes.

/// A line of the plot: its name and its points.
pub struct Line {
    pub name: &'static str,
    pub colour: &'static str,
    pub points: Vec<(f64, f64)>,
}

/// A panel: what its axes measure, and its lines.
pub struct Panel {
    pub title: String,
    pub across: &'static str,
    pub lines: Vec<Line>,
}

const WIDTH: f64 = 460.0;
const HEIGHT: f64 = 360.0;
const LEFT: f64 = 70.0;
const RIGHT: f64 = 16.0;
const TOP: f64 = 36.0;
const BOTTOM: f64 = 78.0;

/// The panels as one picture. Points are in the unit of the axis across, and in seconds.
pub fn svg(panels: &[Panel]) -> String {
    let width = WIDTH * panels.len() as f64;
    let mut out = format!(
        "<svg xmlns=\"http://www.w3.org/2000/svg\" width=\"{width}\" height=\"{HEIGHT}\" viewBox=\"0 0 {width} {HEIGHT}\" \
         font-family=\"sans-serif\" font-size=\"12\" fill=\"#222\">\n<rect width=\"100%\" height=\"100%\" fill=\"#fff\"/>\n"
    );
    for (i, panel) in panels.iter().enumerate() {
        out.push_str(&format!("<g transform=\"translate({} 0)\">\n{}</g>\n", WIDTH * i as f64, drawn(panel)));
    }
    out + "</svg>\n"
}

/// A logarithmic axis: values from `low` to `high` lie on pixels from `from` to `to`.
struct Axis {
    low: f64,
    high: f64,
    from: f64,
    to: f64,
}

impl Axis {
    /// From the power of the base below the smallest value to the one above the largest.
    fn over(values: impl Iterator<Item = f64> + Clone, base: f64, from: f64, to: f64) -> Axis {
        let low = values.clone().fold(f64::INFINITY, f64::min).log(base).floor();
        let high = values.fold(0.0, f64::max).log(base).ceil().max(low + 1.0);
        Axis { low: base.powf(low), high: base.powf(high), from, to }
    }

    fn place(&self, value: f64) -> f64 {
        self.from + (self.to - self.from) * (value / self.low).ln() / (self.high / self.low).ln()
    }

    /// The powers of the base on it.
    fn ticks(&self, base: f64) -> Vec<f64> {
        let steps = (self.high / self.low).log(base).round() as i32;
        (0..=steps).map(|step| self.low * base.powi(step)).collect()
    }
}

fn drawn(panel: &Panel) -> String {
    let points = panel.lines.iter().flat_map(|line| line.points.iter());
    let x = Axis::over(points.clone().map(|p| p.0), 2.0, LEFT, WIDTH - RIGHT);
    let y = Axis::over(points.map(|p| p.1), 10.0, HEIGHT - BOTTOM, TOP);
    let mut out = words(WIDTH / 2.0, 20.0, "middle", &panel.title);
    for tick in x.ticks(2.0) {
        out += &ruled((x.place(tick), TOP), (x.place(tick), HEIGHT - BOTTOM));
        out += &words(x.place(tick), HEIGHT - BOTTOM + 16.0, "middle", &tick.round().to_string());
    }
    for tick in y.ticks(10.0) {
        out += &ruled((LEFT, y.place(tick)), (WIDTH - RIGHT, y.place(tick)));
        out += &words(LEFT - 6.0, y.place(tick) + 4.0, "end", &seconds(tick));
    }
    out += &words(WIDTH / 2.0, HEIGHT - BOTTOM + 36.0, "middle", panel.across);
    for (i, line) in panel.lines.iter().enumerate() {
        out += &traced(line, &x, &y);
        let at = LEFT + 140.0 * i as f64;
        out +=
            &format!("<rect x=\"{at}\" y=\"{}\" width=\"14\" height=\"4\" fill=\"{}\"/>\n", HEIGHT - 20.0, line.colour);
        out += &words(at + 20.0, HEIGHT - 13.0, "start", line.name);
    }
    out
}

fn words(x: f64, y: f64, anchor: &str, text: &str) -> String {
    format!("<text x=\"{x:.1}\" y=\"{y:.1}\" text-anchor=\"{anchor}\">{text}</text>\n")
}

fn ruled(from: (f64, f64), to: (f64, f64)) -> String {
    format!("<line x1=\"{:.1}\" y1=\"{:.1}\" x2=\"{:.1}\" y2=\"{:.1}\" stroke=\"#ddd\"/>\n", from.0, from.1, to.0, to.1)
}

fn traced(line: &Line, x: &Axis, y: &Axis) -> String {
    let places: Vec<_> = line.points.iter().map(|p| (x.place(p.0), y.place(p.1))).collect();
    let joined: Vec<_> = places.iter().map(|(x, y)| format!("{x:.1},{y:.1}")).collect();
    let mut out = format!(
        "<polyline points=\"{}\" fill=\"none\" stroke=\"{}\" stroke-width=\"2\"/>\n",
        joined.join(" "),
        line.colour
    );
    for (x, y) in places {
        out += &format!("<circle cx=\"{x:.1}\" cy=\"{y:.1}\" r=\"3\" fill=\"{}\"/>\n", line.colour);
    }
    out
}

/// A time in the unit that suits it.
pub fn seconds(s: f64) -> String {
    let (value, unit) = match s {
        s if s < 0.999e-6 => (s * 1e9, "ns"),
        s if s < 0.999e-3 => (s * 1e6, "µs"),
        s if s < 0.999 => (s * 1e3, "ms"),
        s => (s, "s"),
    };
    format!("{} {unit}", value.round())
}

#[cfg(test)]
mod tests {
    use super::*;

    #[test]
    fn values_lie_between_the_ends_of_their_axis() {
        let axis = Axis::over([3.0, 40.0].into_iter(), 2.0, 0.0, 100.0);
        assert_eq!((axis.low, axis.high), (2.0, 64.0));
        assert_eq!((axis.place(2.0), axis.place(64.0)), (0.0, 100.0));
        assert!((axis.place(8.0) - 40.0).abs() < 1e-9);
        assert_eq!(axis.ticks(2.0), [2.0, 4.0, 8.0, 16.0, 32.0, 64.0]);
    }

    #[test]
    fn times_are_shown_in_their_unit() {
        let shown = [1e-9, 1e-6, 1e-5, 1e-3, 1.0].map(seconds);
        assert_eq!(shown, ["1 ns", "1 µs", "10 µs", "1 ms", "1 s"]);
    }
}
