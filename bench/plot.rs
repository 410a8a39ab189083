//! A plain plot of lines as SVG.

pub struct Line {
    pub name: &'static str,
    pub points: Vec<(f64, f64)>,
}

pub struct Plot {
    pub title: &'static str,
    pub x: &'static str,
    pub y: &'static str,
    pub lines: Vec<Line>,
}

const WIDTH: f64 = 760.0;
const HEIGHT: f64 = 480.0;
const LEFT: f64 = 80.0;
const RIGHT: f64 = 610.0;
const TOP: f64 = 50.0;
const BOTTOM: f64 = 420.0;
/// The least distance of two names.
const APART: f64 = 17.0;
const COLOURS: [&str; 7] = ["#1f6fb4", "#d1495b", "#2e8b57", "#8e5bb5", "#c77d11", "#444444", "#1aa3a3"];
/// Lines that share a place are told apart by their strokes too.
const STROKES: [&str; 7] = ["none", "none", "none", "6 3", "2 3", "6 3", "none"];

/// A step of 1, 2 or 5 times a power of ten that cuts the most into about eight.
fn step(most: f64) -> f64 {
    let power = 10f64.powf((most / 8.0).log10().floor());
    [1.0, 2.0, 5.0, 10.0].map(|n| n * power).into_iter().find(|step| most / step <= 8.0).unwrap_or(most)
}

fn text(x: f64, y: f64, anchor: &str, rest: &str, text: &str) -> String {
    format!("<text x=\"{x:.1}\" y=\"{y:.1}\" font-size=\"13\" text-anchor=\"{anchor}\" fill=\"#222\" {rest}>{text}</text>\n")
}

impl Plot {
    fn most(&self, of: fn(&(f64, f64)) -> f64) -> f64 {
        self.lines.iter().flat_map(|line| &line.points).map(of).fold(1.0, f64::max)
    }

    /// The greatest of each axis.
    fn ends(&self) -> (f64, f64) {
        let y = self.most(|point| point.1);
        (self.most(|point| point.0), (y / step(y)).ceil() * step(y))
    }

    fn place(&self, point: (f64, f64)) -> (f64, f64) {
        let (x, y) = self.ends();
        (LEFT + point.0 / x * (RIGHT - LEFT), BOTTOM - point.1 / y * (BOTTOM - TOP))
    }

    fn axes(&self) -> String {
        let (x_end, y_end) = self.ends();
        let mut svg = String::new();
        for n in 0..=(y_end / step(y_end)).round() as u32 {
            let value = f64::from(n) * step(y_end);
            let y = self.place((0.0, value)).1;
            svg += &format!(
                "<line x1=\"{LEFT}\" y1=\"{y:.1}\" x2=\"{RIGHT}\" y2=\"{y:.1}\" stroke=\"#ddd\"/>\n"
            );
            svg += &text(LEFT - 8.0, y + 4.0, "end", "", &format!("{value:.0}"));
        }
        for n in 0..=8 {
            let value = x_end / 8.0 * f64::from(n);
            let x = self.place((value, 0.0)).0;
            svg += &format!(
                "<line x1=\"{x:.1}\" y1=\"{BOTTOM}\" x2=\"{x:.1}\" y2=\"{}\" stroke=\"#444\"/>\n",
                BOTTOM + 5.0
            );
            svg += &text(x, BOTTOM + 20.0, "middle", "", &format!("{value:.0}"));
        }
        let corner = format!("{LEFT},{TOP} {LEFT},{BOTTOM} {RIGHT},{BOTTOM}");
        svg += &format!("<polyline points=\"{corner}\" fill=\"none\" stroke=\"#444\"/>\n");
        svg += &text((LEFT + RIGHT) / 2.0, BOTTOM + 44.0, "middle", "", self.x);
        let (x, y) = (22.0, (TOP + BOTTOM) / 2.0);
        svg + &text(x, y, "middle", &format!("transform=\"rotate(-90 {x} {y})\""), self.y)
    }

    /// Where the names stand: at the ends of their lines, but apart.
    fn names_at(&self) -> Vec<f64> {
        let end = |line: &Line| line.points.last().map_or(BOTTOM, |&point| self.place(point).1);
        let mut order: Vec<(usize, f64)> = self.lines.iter().map(end).enumerate().collect();
        order.sort_by(|a, b| b.1.total_cmp(&a.1));
        let (mut places, mut lowest) = (vec![0.0; order.len()], f64::MAX);
        for (line, y) in order {
            lowest = y.min(lowest - APART);
            places[line] = lowest;
        }
        places
    }

    fn line(&self, line: &Line, name_at: f64, colour: &str, stroke: &str) -> String {
        let places: Vec<(f64, f64)> = line.points.iter().map(|&point| self.place(point)).collect();
        let points: Vec<String> = places.iter().map(|(x, y)| format!("{x:.1},{y:.1}")).collect();
        let mut svg = format!(
            "<polyline points=\"{}\" fill=\"none\" stroke=\"{colour}\" stroke-width=\"2\" stroke-dasharray=\"{stroke}\"/>\n",
            points.join(" ")
        );
        for (x, y) in &places {
            svg += &format!("<circle cx=\"{x:.1}\" cy=\"{y:.1}\" r=\"3\" fill=\"{colour}\"/>\n");
        }
        if let Some((x, y)) = places.last() {
            let to = (RIGHT + 14.0, name_at);
            svg += &format!(
                "<line x1=\"{x:.1}\" y1=\"{y:.1}\" x2=\"{}\" y2=\"{:.1}\" stroke=\"{colour}\"/>\n",
                to.0, to.1
            );
        }
        svg + &text(RIGHT + 18.0, name_at + 4.0, "start", "", line.name)
    }

    pub fn svg(&self) -> String {
        let mut svg = format!(
            "<svg xmlns=\"http://www.w3.org/2000/svg\" width=\"{WIDTH}\" height=\"{HEIGHT}\" viewBox=\"0 0 {WIDTH} {HEIGHT}\" font-family=\"sans-serif\">\n"
        );
        svg += &format!("<rect width=\"{WIDTH}\" height=\"{HEIGHT}\" fill=\"#fff\"/>\n");
        svg += &text((LEFT + RIGHT) / 2.0, 28.0, "middle", "font-weight=\"bold\"", self.title);
        svg += &self.axes();
        let looks = COLOURS.into_iter().zip(STROKES).cycle();
        for ((line, name_at), (colour, stroke)) in self.lines.iter().zip(self.names_at()).zip(looks) {
            svg += &self.line(line, name_at, colour, stroke);
        }
        svg + "</svg>\n"
    }
}
