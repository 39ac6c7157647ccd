// The growth over sizes 1 to 64 as a drawing: a panel for each shape of call, a line for each side and list, time upwards on a scale of tens.
use crate::input::SHAPES;
use std::collections::BTreeMap;
use std::fmt::Write;

const WIDTH: f64 = 420.0;
const HEIGHT: f64 = 300.0;
const MARGIN: f64 = 50.0;
const LOW: f64 = 1.0;
const HIGH: f64 = 5.0;
const LINES: [(&str, &str, &str); 4] = [
    ("ours, prepared", "#1b6ca8", ""),
    ("ours, cold", "#1b6ca8", "5 4"),
    ("Rust, prepared", "#c0392b", ""),
    ("Rust, cold", "#c0392b", "5 4"),
];

type Points = BTreeMap<(String, String), Vec<(f64, f64)>>;

// Rows of `bench growth`: shape, list, size, nanoseconds of ours and of the Rust.
fn read(rows: &str) -> Option<Points> {
    let mut points = Points::new();
    for row in rows.lines().skip(1) {
        let cells: Vec<&str> = row.split(',').collect();
        let [shape, list, size, ours, rust] = cells[..] else {
            return None;
        };
        for (side, nanos) in [("ours", ours), ("Rust", rust)] {
            let line = (shape.to_owned(), format!("{side}, {list}"));
            let point = (size.parse().ok()?, nanos.parse().ok()?);
            points.entry(line).or_default().push(point);
        }
    }
    Some(points)
}

fn place((size, nanos): (f64, f64)) -> (f64, f64) {
    let x = MARGIN + (size - 1.0) / 63.0 * (WIDTH - MARGIN - 10.0);
    let up = (nanos.log10().clamp(LOW, HIGH) - LOW) / (HIGH - LOW);
    (x, HEIGHT - MARGIN + 10.0 - up * (HEIGHT - MARGIN - 20.0))
}

fn grid(svg: &mut String) -> std::fmt::Result {
    for tens in LOW as i32..=HIGH as i32 {
        let (_, y) = place((1.0, 10f64.powi(tens)));
        let label = ["10 ns", "100 ns", "1 µs", "10 µs", "100 µs"][(tens - 1) as usize];
        writeln!(
            svg,
            "<line x1='{MARGIN}' y1='{y:.1}' x2='{}' y2='{y:.1}' stroke='#ddd'/>",
            WIDTH - 10.0
        )?;
        writeln!(
            svg,
            "<text x='{}' y='{:.1}' text-anchor='end'>{label}</text>",
            MARGIN - 4.0,
            y + 4.0
        )?;
    }
    for size in [1, 16, 32, 48, 64] {
        let (x, _) = place((size as f64, 10.0));
        writeln!(
            svg,
            "<text x='{x:.1}' y='{}' text-anchor='middle'>{size}</text>",
            HEIGHT - 22.0
        )?;
    }
    Ok(())
}

fn panel(svg: &mut String, points: &Points, shape: &str) -> std::fmt::Result {
    grid(svg)?;
    writeln!(
        svg,
        "<text x='{}' y='{}' text-anchor='middle'>{shape}, by number of parameters</text>",
        WIDTH / 2.0,
        HEIGHT - 6.0
    )?;
    for (name, colour, dashes) in LINES {
        let Some(all) = points.get(&(shape.to_owned(), name.to_owned())) else {
            continue;
        };
        let path: Vec<String> = all
            .iter()
            .map(|p| place(*p))
            .map(|(x, y)| format!("{x:.1},{y:.1}"))
            .collect();
        writeln!(
            svg,
            "<polyline fill='none' stroke='{colour}' stroke-dasharray='{dashes}' points='{}'/>",
            path.join(" ")
        )?;
    }
    Ok(())
}

fn legend(svg: &mut String) -> std::fmt::Result {
    for (i, (name, colour, dashes)) in LINES.iter().enumerate() {
        let x = MARGIN + 190.0 * i as f64;
        writeln!(svg, "<line x1='{x}' y1='12' x2='{}' y2='12' stroke='{colour}' stroke-dasharray='{dashes}'/>", x + 30.0)?;
        writeln!(svg, "<text x='{}' y='16'>{name}</text>", x + 36.0)?;
    }
    Ok(())
}

pub fn plot(rows: &str) -> Option<String> {
    let points = read(rows)?;
    let mut svg = format!("<svg xmlns='http://www.w3.org/2000/svg' width='{}' height='{}' font-family='sans-serif' font-size='11'>\n<rect width='100%' height='100%' fill='white'/>\n", 2.0 * WIDTH, SHAPES.len().div_ceil(2) as f64 * HEIGHT + 24.0);
    legend(&mut svg).ok()?;
    for (i, shape) in SHAPES.iter().enumerate() {
        let (x, y) = (WIDTH * (i % 2) as f64, 24.0 + HEIGHT * (i / 2) as f64);
        writeln!(svg, "<g transform='translate({x},{y})'>").ok()?;
        panel(&mut svg, &points, &shape.to_string()).ok()?;
        svg.push_str("</g>\n");
    }
    svg.push_str("</svg>\n");
    Some(svg)
}
