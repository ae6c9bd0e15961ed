//! The drawing that `solve --draw` prints: "a line for each node, in document order, two spaces further in than its parent's".

/// Of an answer file that is not refused.
pub fn of(answer: &[u8]) -> String {
    let records: Vec<&[u8]> = answer.chunks(4).collect();
    let (nodes, places): (Vec<&[u8]>, Vec<&[u8]>) = records.into_iter().partition(|record| record[0] == 1);
    let mut drawing = String::new();
    draw(&nodes, &places, 0, 0, &mut drawing);
    drawing
}

fn draw(nodes: &[&[u8]], places: &[&[u8]], node: usize, depth: usize, drawing: &mut String) {
    let on_it = places.iter().filter(|place| place[2] as usize == node);
    let variables: String = on_it.map(|place| format!(" {}", place[1])).collect();
    let variables = if variables.is_empty() { variables } else { format!("  var{variables}") };
    *drawing += &format!("{}{}{variables}\n", "  ".repeat(depth), name_of(node, nodes[node][3]));
    for child in (1..nodes.len()).filter(|&child| nodes[child][2] as usize == node) {
        draw(nodes, places, child, depth + 1, drawing);
    }
}

/// "`/` for the document node, a letter, `_` for a blank, or the number of another label."
fn name_of(node: usize, label: u8) -> String {
    match label {
        _ if node == 0 => "/".to_string(),
        0 => "_".to_string(),
        b'a'..=b'z' | b'A'..=b'Z' => (label as char).to_string(),
        _ => label.to_string(),
    }
}
