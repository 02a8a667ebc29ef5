//! What tshark prints by `-T pdml`: a tree of fields for each frame.

/// A field, or a protocol with its fields.
#[derive(Clone, Debug, Default, PartialEq, Eq)]
pub struct Node {
    /// The field's name; a heading that is no field has none.
    pub name: String,
    pub show: String,
    pub showname: String,
    pub position: usize,
    pub size: usize,
    pub children: Vec<Node>,
}

impl Node {
    /// The first node of that name, in the order of the page.
    pub fn find(&self, name: &str) -> Option<&Node> {
        if self.name == name {
            return Some(self);
        }
        self.children.iter().find_map(|child| child.find(name))
    }

    /// What it shows behind its title: the value as a person reads it.
    pub fn told(&self) -> &str {
        self.showname
            .split_once(": ")
            .map_or(self.showname.as_str(), |(_, told)| told)
    }

    fn of(tag: &str) -> Node {
        let mut node = Node::default();
        for (name, value) in attributes(tag) {
            match name {
                "name" => node.name = value,
                "show" => node.show = value,
                "showname" => node.showname = value,
                "pos" => node.position = value.parse().unwrap_or_default(),
                "size" => node.size = value.parse().unwrap_or_default(),
                _ => {}
            }
        }
        node
    }
}

/// A node for each frame, its protocols below it.
pub fn frames(text: &str) -> Result<Vec<Node>, String> {
    let mut open: Vec<Node> = vec![Node::default()];
    let mut rest = text;
    while let Some(start) = rest.find('<') {
        let from = &rest[start + 1..];
        let end = tag_end(from).ok_or("a tag does not end")?;
        let tag = &from[..end];
        rest = &from[end + 1..];
        if tag.starts_with(['?', '!']) {
            continue;
        }
        if tag.starts_with('/') {
            close(&mut open)?;
        } else {
            open.push(Node::of(tag));
            if tag.ends_with('/') {
                close(&mut open)?;
            }
        }
    }
    match open.as_mut_slice() {
        [page] => Ok(page
            .children
            .drain(..)
            .flat_map(|pdml| pdml.children)
            .collect()),
        _ => Err("the page does not end".to_string()),
    }
}

/// Puts the innermost open node below the one around it.
fn close(open: &mut Vec<Node>) -> Result<(), String> {
    match (open.pop(), open.last_mut()) {
        (Some(node), Some(around)) => around.children.push(node),
        _ => return Err("a tag ends that did not begin".to_string()),
    }
    Ok(())
}

/// Where the `>` stands that is in no attribute.
fn tag_end(from: &str) -> Option<usize> {
    let mut quoted = false;
    from.bytes().position(|byte| {
        quoted ^= byte == b'"';
        byte == b'>' && !quoted
    })
}

fn attributes(tag: &str) -> Vec<(&str, String)> {
    let mut found = Vec::new();
    let mut rest = tag;
    while let Some((before, after)) = rest.split_once("=\"") {
        let name = before.rsplit(' ').next().unwrap_or_default();
        let Some((value, behind)) = after.split_once('"') else {
            break;
        };
        found.push((name, plain(value)));
        rest = behind;
    }
    found
}

/// The text that an escaped one stands for.
fn plain(escaped: &str) -> String {
    if !escaped.contains('&') {
        return escaped.to_string();
    }
    escaped
        .replace("&lt;", "<")
        .replace("&gt;", ">")
        .replace("&quot;", "\"")
        .replace("&apos;", "'")
        .replace("&amp;", "&")
}

#[cfg(test)]
mod tests {
    use super::*;

    const PAGE: &str = r#"<?xml version="1.0"?>
<!-- a > b -->
<pdml version="0">
<packet>
  <proto name="ocp1" showname="Open &amp; closed" size="27" pos="54">
    <field name="" show="A PDU">
      <field name="ocp1.size" showname="Size: 26: &lt;so&gt;" size="4" pos="57" show="26" value="0000001a"/>
    </field>
  </proto>
</packet>
<packet>
</packet>
</pdml>
"#;

    #[test]
    fn a_page_is_a_tree_of_fields() {
        let frames = frames(PAGE).unwrap();
        assert_eq!(frames.len(), 2);
        let protocol = &frames[0].children[0];
        assert_eq!(
            (protocol.name.as_str(), protocol.told()),
            ("ocp1", "Open & closed")
        );
        assert_eq!((protocol.position, protocol.size), (54, 27));
        let size = protocol.find("ocp1.size").unwrap();
        assert_eq!((size.show.as_str(), size.told()), ("26", "26: <so>"));
        assert_eq!(&protocol.children[0].children[0], size);
        assert_eq!(frames[1].find("ocp1.size"), None);
    }

    #[test]
    fn a_page_that_is_cut_off_is_refused() {
        let whole = PAGE.trim_end();
        for end in [whole.len() - 1, whole.len() - 7, 200] {
            assert!(frames(&whole[..end]).is_err(), "{end}");
        }
        assert!(frames("<pdml></pdml></pdml>").is_err());
    }
}
