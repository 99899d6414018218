//! The growth as a picture in SVG: a panel by sessions and one by links, on a white ground, with the
//! same scale of time.

use super::growth::{Growth, Point};

// The whole picture, and where in it the panels begin. Left of a panel and below it stand numbers,
// right of it the times at the lines' ends.
const WIDTH: f64 = 960.0;
const HEIGHT: f64 = 424.0;
const LEFT: [f64; 2] = [60.0, 530.0];
const TOP: f64 = 100.0;
const PANEL_WIDTH: f64 = 350.0;
const PANEL_HEIGHT: f64 = 250.0;
// The least distance of two lines of text.
const LINE_HEIGHT: f64 = 15.0;

const DARK: &str = "#222222";
const AXIS: &str = "#666666";
const GRID: &str = "#dddddd";
const BLUE: &str = "#0b5cad";
const RED: &str = "#c2410c";
const PURPLE: &str = "#7e22ce";

// One line of each panel: its name, how it looks, and its time at a point.
struct Series {
    name: String,
    color: &'static str,
    dashes: &'static str,
    time: fn(&Point) -> Option<f64>,
}

/// The picture.
pub fn svg(growth: &Growth) -> String {
    let series = all_series(growth);
    let points = growth.sessions.iter().chain(&growth.links);
    let times = points.flat_map(|point| series.iter().filter_map(|line| (line.time)(point)));
    let step = step_of(times.clone().fold(0.0, f64::max));
    let steps = (times.fold(0.0, f64::max) / step).ceil() as usize;
    let mut picture = Picture::start();
    picture.legend(&series);
    for (left, name, points) in [
        (LEFT[0], "sessions, at 64 links", &growth.sessions),
        (LEFT[1], "links, at 32 sessions", &growth.links),
    ] {
        let panel = Panel {
            left,
            largest: points.iter().map(|point| point.size).max().unwrap_or(1),
            step,
            steps,
        };
        picture.axes(&panel, name);
        picture.lines(&panel, points, &series);
    }
    picture.svg + "</svg>\n"
}

fn all_series(growth: &Growth) -> Vec<Series> {
    let mut series = vec![Series {
        name: "library".to_string(),
        color: BLUE,
        dashes: "none",
        time: |point| Some(point.library()),
    }];
    if let Some(peer) = &growth.peer {
        series.push(Series {
            name: format!("{peer} from nothing, without disposing"),
            color: RED,
            dashes: "none",
            time: |point| point.peer().map(|peer| peer.fresh),
        });
        series.push(Series {
            name: format!("{peer} kept"),
            color: PURPLE,
            dashes: "none",
            time: |point| point.peer().map(|peer| peer.kept),
        });
        series.push(Series {
            name: "of that, solving".to_string(),
            color: PURPLE,
            dashes: "5 4",
            time: |point| point.peer().map(|peer| peer.solving),
        });
    }
    series
}

// A round step, of which at most six lead to the largest time.
fn step_of(largest: f64) -> f64 {
    let mut power = 0.01;
    loop {
        for step in [power, 2.0 * power, 5.0 * power] {
            if largest <= 6.0 * step {
                return step;
            }
        }
        power *= 10.0;
    }
}

// Where a panel stands, and what its axes count: sizes up to the largest, and steps of time.
struct Panel {
    left: f64,
    largest: usize,
    step: f64,
    steps: usize,
}

impl Panel {
    const BOTTOM: f64 = TOP + PANEL_HEIGHT;

    fn across(&self, size: usize) -> f64 {
        self.left + PANEL_WIDTH * size as f64 / self.largest as f64
    }

    fn up(&self, time: f64) -> f64 {
        Panel::BOTTOM - PANEL_HEIGHT * time / (self.step * self.steps as f64)
    }
}

struct Picture {
    svg: String,
}

impl Picture {
    fn start() -> Picture {
        let mut picture = Picture { svg: String::new() };
        picture.add(format!(
            r#"<svg xmlns="http://www.w3.org/2000/svg" viewBox="0 0 {WIDTH} {HEIGHT}" width="{WIDTH}" height="{HEIGHT}" font-family="sans-serif" font-size="13" fill="{DARK}">"#
        ));
        let title = "Time of one calculation, in microseconds";
        picture.add(format!("<title>{title}, by sessions and by links</title>"));
        picture.add(format!(
            r#"<rect width="{WIDTH}" height="{HEIGHT}" fill="white"/>"#
        ));
        picture.add(format!(
            r#"<text x="24" y="34" font-size="17" font-weight="bold">{title}</text>"#
        ));
        picture
    }

    fn add(&mut self, element: String) {
        self.svg.push_str(&element);
        self.svg.push('\n');
    }

    fn stroke(&mut self, [x1, y1, x2, y2]: [f64; 4], color: &str) {
        self.add(format!(
            r#"<path d="M {x1:.1} {y1:.1} L {x2:.1} {y2:.1}" stroke="{color}"/>"#
        ));
    }

    // `anchor` is the end of the text that stands at this place.
    fn text(&mut self, x: f64, y: f64, anchor: &str, color: &str, text: &str) {
        self.add(format!(
            r#"<text x="{x:.1}" y="{y:.1}" text-anchor="{anchor}" fill="{color}">{text}</text>"#
        ));
    }

    fn path(&mut self, places: &[(f64, f64)], series: &Series) {
        let places = places.iter().map(|(x, y)| format!("{x:.1},{y:.1}"));
        let places: Vec<String> = places.collect();
        self.add(format!(
            r#"<polyline points="{}" fill="none" stroke="{}" stroke-width="2.5" stroke-dasharray="{}"/>"#,
            places.join(" "),
            series.color,
            series.dashes
        ));
    }

    fn legend(&mut self, series: &[Series]) {
        let (mut x, y) = (24.0, 62.0);
        for line in series {
            self.path(&[(x, y), (x + 30.0, y)], line);
            self.text(x + 38.0, y + 4.5, "start", DARK, &line.name);
            // Room for the name: its letters are some 7 wide.
            x += 38.0 + 7.0 * line.name.len() as f64 + 22.0;
        }
    }

    // Lines across at each step of time, and ticks at the quarters of the largest size.
    fn axes(&mut self, panel: &Panel, name: &str) {
        let right = panel.left + PANEL_WIDTH;
        for step in 0..=panel.steps {
            let time = panel.step * step as f64;
            let y = panel.up(time);
            let color = if step == 0 { AXIS } else { GRID };
            self.stroke([panel.left, y, right, y], color);
            self.text(panel.left - 9.0, y + 4.5, "end", DARK, &round(time));
        }
        for quarter in 0..=4 {
            let size = panel.largest * quarter / 4;
            let x = panel.across(size);
            self.stroke([x, Panel::BOTTOM, x, Panel::BOTTOM + 5.0], AXIS);
            self.text(x, Panel::BOTTOM + 21.0, "middle", DARK, &size.to_string());
        }
        let middle = panel.left + PANEL_WIDTH / 2.0;
        self.text(middle, Panel::BOTTOM + 46.0, "middle", DARK, name);
    }

    // The lines with a dot at each point, and at their ends the times, none on top of another.
    fn lines(&mut self, panel: &Panel, points: &[Point], series: &[Series]) {
        let mut ends = Vec::new();
        for line in series {
            let times = points
                .iter()
                .filter_map(|point| Some((point.size, (line.time)(point)?)));
            let times: Vec<(usize, f64)> = times.collect();
            let places = times
                .iter()
                .map(|&(size, time)| (panel.across(size), panel.up(time)));
            let places: Vec<(f64, f64)> = places.collect();
            self.path(&places, line);
            for (x, y) in places {
                let color = line.color;
                self.add(format!(
                    r#"<circle cx="{x:.1}" cy="{y:.1}" r="3.2" fill="{color}"/>"#
                ));
            }
            ends.extend(times.last().map(|&(_, time)| (time, line.color)));
        }
        ends.sort_by(|one, other| one.0.total_cmp(&other.0));
        let mut below = f64::INFINITY;
        for (time, color) in ends {
            let y = (panel.up(time) + 4.5).min(below - LINE_HEIGHT);
            let x = panel.left + PANEL_WIDTH + 9.0;
            self.text(x, y, "start", color, &format!("{time:.1}"));
            below = y;
        }
    }
}

// A number of steps without the digits that floating point adds.
fn round(number: f64) -> String {
    format!("{number:.2}")
        .trim_end_matches('0')
        .trim_end_matches('.')
        .to_string()
}

#[cfg(test)]
mod tests {
    use super::{round, step_of};

    #[test]
    fn steps_are_round() {
        for (largest, step) in [
            (22.1, "5"),
            (12.0, "2"),
            (12.1, "5"),
            (0.4, "0.1"),
            (301.0, "100"),
        ] {
            assert_eq!(round(step_of(largest)), step);
        }
    }
}
