//! Holds what tshark shows of a capture to what the library's reader says of the messages in it.

use crate::capture::Side;
use crate::field::{self, Asking, Field};
use crate::message::Message;
use crate::shown::{Page, Shown};
use std::collections::{HashMap, VecDeque};

/// A message that was sent, as the reader tells it.
#[derive(Clone, Debug, PartialEq, Eq)]
pub struct Sent {
    pub stream: usize,
    pub from: Side,
    pub message: Message,
}

/// A difference, or something that tshark says against a frame.
#[derive(Clone, Debug, PartialEq, Eq)]
pub struct Difference {
    pub stream: usize,
    pub told: String,
}

/// What a comparison came to.
#[derive(Clone, Debug, Default)]
pub struct Verdict {
    pub differences: Vec<Difference>,
    /// How many fields of each sent message were compared, in the order of the messages.
    pub compared: Vec<usize>,
}

/// The messages of one side of a connection that tshark has not shown yet.
type Waiting<'a> = HashMap<(usize, Side), VecDeque<(usize, &'a Message)>>;

/// Each message is to be shown once, in the order of its connection and side, with all its fields and no others.
pub fn compare(sent: &[Sent], page: &Page) -> Verdict {
    let mut waiting = Waiting::new();
    for (number, sent) in sent.iter().enumerate() {
        let side = waiting.entry((sent.stream, sent.from)).or_default();
        side.push_back((number, &sent.message));
    }
    let mut verdict = Verdict {
        differences: complaints(page),
        compared: vec![0; sent.len()],
    };
    let mut asked: HashMap<usize, Asking> = HashMap::new();
    for shown in &page.messages {
        let side = waiting.get_mut(&(shown.stream, shown.from));
        let told = match side.and_then(VecDeque::pop_front) {
            Some((number, message)) => {
                let expected = expected(message, shown, asked.entry(shown.stream).or_default());
                verdict.compared[number] = expected.len();
                difference(&expected, &shown.fields)
            }
            None => Some("shown and not sent".to_string()),
        };
        if let Some(told) = told {
            let Shown { frame, from, .. } = shown;
            verdict.differ(
                shown.stream,
                format!("frame {frame}, from the {from}: {told}"),
            );
        }
    }
    verdict.miss(&waiting);
    verdict
}

/// The fields that a message is to be shown with; what it asks is kept for the responses.
fn expected(message: &Message, shown: &Shown, asking: &mut Asking) -> Vec<Field> {
    field::keep_asked(message, shown.frame, asking);
    let shows_entries = shown.fields.iter().any(|field| field.name == field::ENTRY);
    let mut fields = field::fields(message, asking, shows_entries);
    if shown.from == Side::Device {
        // the device answers what was asked, so the dissector has to know the command
        fields.retain(|field| field.name != field::UNASKED);
    }
    fields
}

impl Verdict {
    fn differ(&mut self, stream: usize, told: String) {
        self.differences.push(Difference { stream, told });
    }

    /// What is still waiting is not shown, in the order in which it was sent.
    fn miss(&mut self, waiting: &Waiting) {
        let sides = waiting.iter();
        let each =
            sides.flat_map(|(side, left)| left.iter().map(move |(number, _)| (*number, *side)));
        let mut missing: Vec<(usize, (usize, Side))> = each.collect();
        missing.sort();
        for (number, (stream, from)) in missing {
            self.differ(
                stream,
                format!("message {number}, from the {from}: sent and not shown"),
            );
        }
    }
}

fn complaints(page: &Page) -> Vec<Difference> {
    let each = page.complaints.iter().map(|complaint| Difference {
        stream: complaint.stream,
        told: format!("frame {}: {}", complaint.frame, complaint.why),
    });
    each.collect()
}

/// The first field that is not as it should be.
fn difference(expected: &[Field], shown: &[Field]) -> Option<String> {
    let longer = expected.len().max(shown.len());
    let number = (0..longer).find(|k| expected.get(*k) != shown.get(*k))?;
    let tell = |field: Option<&Field>| match field {
        Some(Field { name, value, place }) => match place {
            Some((start, length)) => format!("{name} {value} ({length} bytes at {start})"),
            None => format!("{name} {value}"),
        },
        None => "nothing".to_string(),
    };
    let (said, shown) = (tell(expected.get(number)), tell(shown.get(number)));
    Some(format!("the reader says {said}, tshark shows {shown}"))
}
