//! What tshark shows of a capture: the fields of each message, and whatever speaks against a frame.

use crate::capture::{PORT, Side};
use crate::field::{ENTRY, Field};
use crate::pdml::Node;

/// A message that tshark shows.
#[derive(Clone, Debug, PartialEq, Eq)]
pub struct Shown {
    /// The frame in which it is whole.
    pub frame: u32,
    pub stream: usize,
    pub from: Side,
    pub fields: Vec<Field>,
}

/// All that tshark shows of a capture.
#[derive(Clone, Debug, Default)]
pub struct Page {
    pub messages: Vec<Shown>,
    pub complaints: Vec<Complaint>,
}

/// What tshark says against a frame, or what it could not make messages of.
#[derive(Clone, Debug, PartialEq, Eq)]
pub struct Complaint {
    pub frame: u32,
    pub stream: usize,
    pub why: String,
}

/// The layers that a frame may have; TCP's reassembly has no name of its own.
const LAYERS: [&str; 7] = [
    "geninfo",
    "frame",
    "eth",
    "ip",
    "tcp",
    "ocp1",
    "fake-field-wrapper",
];
/// The least severity of a complaint: notes are also of a connection that opens or ends.
const WARNING: u32 = 0x0060_0000;

pub fn page(frames: &[Node]) -> Result<Page, String> {
    let mut page = Page::default();
    for frame in frames {
        let number = shown_number(frame, "frame.number")?;
        let stream = shown_number(frame, "tcp.stream")? as usize;
        let from = match shown_number(frame, "tcp.srcport")? == u32::from(PORT) {
            true => Side::Device,
            false => Side::Controller,
        };
        for layer in &frame.children {
            let against = match layer.name.as_str() {
                "ocp1" => against_protocol(layer),
                _ => against_layer(layer),
            };
            page.complaints
                .extend(against.into_iter().map(|why| Complaint {
                    frame: number,
                    stream,
                    why,
                }));
            let messages = layer.children.iter().filter(|_| layer.name == "ocp1");
            page.messages.extend(messages.map(|message| Shown {
                frame: number,
                stream,
                from,
                fields: fields(message),
            }));
        }
    }
    Ok(page)
}

fn shown_number(frame: &Node, name: &str) -> Result<u32, String> {
    let number = frame.find(name).and_then(|node| node.show.parse().ok());
    number.ok_or_else(|| format!("a frame without {name}"))
}

/// The layer of messages holds messages alone, which fill it.
fn against_protocol(layer: &Node) -> Vec<String> {
    let mut against = Vec::new();
    let mut at = layer.position;
    for message in &layer.children {
        if !message.name.is_empty() || message.position != at {
            against.push(format!(
                "{} {} where a message was due",
                message.name, message.showname
            ));
        }
        at = message.position + message.size;
    }
    if at != layer.position + layer.size {
        against.push("bytes that are in no message".to_string());
    }
    against
}

/// A layer that does not belong here, a warning or an error, and a checksum that is not right.
fn against_layer(layer: &Node) -> Vec<String> {
    let mut against = Vec::new();
    if !LAYERS.contains(&layer.name.as_str()) {
        against.push(format!("{} {}", layer.name, layer.showname));
    }
    against_fields(layer, &mut against);
    against
}

fn against_fields(node: &Node, against: &mut Vec<String>) {
    // one that is no number is not known to be slight
    let grave = |severity: &Node| {
        severity
            .show
            .parse()
            .map_or(true, |value: u32| value >= WARNING)
    };
    let is_good = node.show == "1" || node.show == "Good";
    match node.name.as_str() {
        "_ws.expert" if node.find("_ws.expert.severity").is_some_and(grave) => {
            against.push(node.showname.clone());
        }
        "ip.checksum.status" | "tcp.checksum.status" if !is_good => {
            against.push(format!("{} {}", node.name, node.showname));
        }
        // segments that are missing, come again or in another order
        "tcp.analysis.flags" => against.push(node.showname.clone()),
        _ => {}
    }
    for child in &node.children {
        against_fields(child, against);
    }
}

fn fields(message: &Node) -> Vec<Field> {
    let mut found = Vec::new();
    for child in &message.children {
        add_fields(child, message.position, &mut found);
    }
    found
}

/// A node and those below it, each with its place in the message.
fn add_fields(node: &Node, start: usize, found: &mut Vec<Field>) {
    let here = Some((node.position.wrapping_sub(start), node.size));
    let mut add = |name: &str, value: &str, place| {
        found.push(Field {
            name: name.to_string(),
            value: value.to_string(),
            place,
        });
    };
    match node.name.as_str() {
        "" if heads_entry(node) => add(ENTRY, "", here),
        // headings, and what later versions add to a command
        "" | "data" | "data.len" | "ocp1.response_in" => {}
        "_ws.expert" => {
            // its first field has the name, the others say how grave it is
            let name = node.children.first().map_or("", |first| &first.name);
            add(name, "", None);
            return;
        }
        "ocp1.response_to" => add(&node.name, &node.show, None),
        // shown in words alone, and with its unit
        "ocp1.params.classid" | "ocp1.heartbeat.time" => add(&node.name, node.told(), here),
        "ocp1.params.bool" => add(&node.name, bit(&node.show), here),
        _ => add(&node.name, &node.show, here),
    }
    for child in &node.children {
        add_fields(child, start, found);
    }
}

/// A heading over an entry: the others have no size of an entry below them.
fn heads_entry(node: &Node) -> bool {
    node.children
        .iter()
        .any(|child| child.name == "ocp1.msgsize")
}

/// Later versions say a truth value in words.
fn bit(shown: &str) -> &str {
    match shown {
        "True" => "1",
        "False" => "0",
        _ => shown,
    }
}
