//! The listing: bytes in, text out.

use super::wire::{self, Judgement};

/// One line for each sound message, and a last line saying how the input ends.
pub fn list(input: &[u8]) -> String {
    let mut text = String::new();
    let mut offset = 0;
    loop {
        let rest = &input[offset..];
        match wire::judge(rest) {
            Judgement::Sound { length } => {
                let header = wire::header(rest);
                text += &format!(
                    "{offset} {} {} {}\n",
                    header.kind, header.count, header.size
                );
                offset += length;
            }
            Judgement::Fault { fault, .. } => return text + &format!("{offset} stop {fault}\n"),
            Judgement::Undecided if rest.is_empty() => return text + &format!("{offset} end\n"),
            Judgement::Undecided => return text + &format!("{offset} part {}\n", rest.len()),
        }
    }
}
