//! Whom rows ask.
use answers::Text;

/// Who answers.
#[derive(Clone, Copy)]
pub enum Topic {
    /// A crate below the subcommands of `dpbr`.
    Below(answers::Topic),
    /// What stands in texts that these read and print.
    Texts,
}

/// The topic that the line names, if it names one.
pub fn named(line: &str) -> Option<Topic> {
    match line.strip_prefix("== ")? {
        "texts" => Some(Topic::Texts),
        word => Some(Topic::Below(answers::Topic::named(word)?)),
    }
}

/// Whether rows end where a blank line stands, and not with each line.
pub fn goes_on(topic: Option<Topic>) -> bool {
    matches!(
        topic,
        Some(Topic::Below(answers::Topic::Members | answers::Topic::Nodes))
    )
}

/// Puts what the row is answered, as a line where it isn't lines by itself. It is lost where memory
/// runs out, or where nobody is asked.
pub fn answer(topic: Option<Topic>, row: &[String], out: &mut Text) {
    match (topic, row.first()) {
        (Some(Topic::Below(topic)), _) => {
            answers::answer(topic, row, out);
            out.put("\n");
        }
        (Some(Topic::Texts), Some(line)) => {
            match texts_probe::answer(out.alloc(), line.as_bytes()) {
                Ok(text) => out.put_bytes(text.as_slice()),
                Err(_) => out.lose(),
            }
        }
        _ => out.lose(),
    }
}
