//! The few shapes that the plot is drawn with, as SVG text.

pub type Point = (f64, f64);

/// One line of text. `anchor` says which of its ends is at `at`: start, middle or end.
pub fn text(at: Point, anchor: &str, size: u32, words: &str) -> String {
    let (x, y) = at;
    format!("<text x=\"{x:.1}\" y=\"{y:.1}\" text-anchor=\"{anchor}\" font-size=\"{size}\">{words}</text>\n")
}

/// A thin line of a grid.
pub fn rule(from: Point, to: Point) -> String {
    format!(
        "<path d=\"M{:.1} {:.1}L{:.1} {:.1}\" stroke=\"#dddddd\"/>\n",
        from.0, from.1, to.0, to.1
    )
}

pub fn frame(corner: Point, size: Point, stroke: &str, fill: &str) -> String {
    format!(
        "<rect x=\"{}\" y=\"{}\" width=\"{}\" height=\"{}\" stroke=\"{stroke}\" fill=\"{fill}\"/>\n",
        corner.0, corner.1, size.0, size.1
    )
}

/// A line through points, each with its mark: solid with full marks, or dashed with hollow ones.
pub fn line(points: &[Point], colour: &str, dashed: bool) -> String {
    let path: Vec<String> = points
        .iter()
        .map(|(x, y)| format!("{x:.1} {y:.1}"))
        .collect();
    let (dashes, inside) = match dashed {
        true => (" stroke-dasharray=\"5 4\"", "#ffffff"),
        false => ("", colour),
    };
    let mut svg = format!(
        "<path d=\"M{}\" fill=\"none\" stroke=\"{colour}\" stroke-width=\"2\"{dashes}/>\n",
        path.join("L")
    );
    for (x, y) in points {
        svg += &format!(
            "<circle cx=\"{x:.1}\" cy=\"{y:.1}\" r=\"3.5\" fill=\"{inside}\" stroke=\"{colour}\" stroke-width=\"1.5\"/>\n"
        );
    }
    svg
}
