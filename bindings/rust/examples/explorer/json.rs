//! The JSON of the page.

use crate::node::{Node, PAGE, Seen};
use crate::post::MEMBERS;
use crate::validator::Validator;
use crate::world::World;
use narwhal_store::Digest;
use std::fmt::Display;

/// The most events of a history that the page gets.
const EVENTS: usize = 40;

fn joined(values: impl IntoIterator<Item = impl Display>) -> String {
    let texts = values.into_iter().map(|value| value.to_string());
    texts.collect::<Vec<_>>().join(",")
}

fn array(values: impl IntoIterator<Item = impl Display>) -> String {
    format!("[{}]", joined(values))
}

pub fn object<const N: usize>(fields: [(&str, &dyn Display); N]) -> String {
    let field = |(name, value): (&str, &dyn Display)| format!("\"{name}\":{value}");
    format!("{{{}}}", joined(fields.map(field)))
}

/// A string. It leaves out what would need an escape, which no text of the explorer has.
pub fn text(value: impl Display) -> String {
    let is_plain = |letter: &char| matches!(letter, ' '..='~') && !matches!(letter, '"' | '\\');
    let plain: String = value.to_string().chars().filter(is_plain).collect();
    format!("\"{plain}\"")
}

fn or_null(value: Option<String>) -> String {
    value.unwrap_or_else(|| "null".into())
}

/// What the page shows of a store.
pub fn state(world: &World, store: u16) -> String {
    let flags = (0..MEMBERS).map(|number| flags_of(&world.validator(number)));
    let (flags, (is_paused, beats)) = (array(flags), world.pace());
    let mut validator = world.validator(store);
    let content = or_null(validator.node.as_mut().map(content_of));
    object([
        ("store", &store),
        ("paused", &is_paused),
        ("beats", &beats),
        ("ms", &world.began.elapsed().as_millis()),
        ("validators", &flags),
        ("verified", &validator.verified),
        ("asked", &validator.asked),
        ("replayed", &validator.replayed),
        ("logged", &validator.log.messages.len()),
        ("loses", &world.post.is_losing(store)),
        ("double_votes", &world.post.double_votes()),
        ("content", &content),
    ])
}

fn flags_of(validator: &Validator) -> String {
    object([
        ("silent", &validator.is_silent),
        ("equivocates", &validator.makes_twin),
        ("down", &validator.node.is_none()),
    ])
}

/// The counts and the blocks of a store.
fn content_of(node: &mut Node) -> String {
    let (status, rows) = (node.status, node.rows());
    let blocks = rows.into_iter().map(|(key, state)| {
        let parents = node.seen.get(&key).map(|(block, _)| block.parents());
        let parents = parents
            .into_iter()
            .flatten()
            .map(|(_, digest)| text(digest));
        object([
            ("digest", &text(key.2)),
            ("round", &key.0),
            ("author", &key.1),
            ("state", &text(state)),
            ("parents", &array(parents)),
        ])
    });
    object([
        ("round", &node.newest()),
        ("garbage", &status.garbage_round),
        ("stored", &status.blocks),
        ("certificates", &status.certificates),
        ("complete", &status.complete),
        ("missing", &status.wanted),
        ("absent", &node.absent.len()),
        ("events", &node.store.events()),
        ("walk", &array(node.walk.iter().map(text))),
        ("blocks", &array(blocks)),
    ])
}

/// What the page shows of a block, or `None` if the store has nothing of this digest.
pub fn block(node: &mut Node, digest: &Digest) -> Option<String> {
    let (key, state) = node.rows().into_iter().find(|(key, _)| key.2 == *digest)?;
    Some(object([
        ("digest", &text(digest)),
        ("round", &key.0),
        ("author", &key.1),
        ("state", &text(state)),
        ("signers", &or_null(node.signers.get(&key).map(array))),
        ("written", &or_null(node.seen.get(&key).map(written_of))),
    ]))
}

/// The parts of a block, the reply to its last write, and the end of the history that explains the reply.
fn written_of((block, answer): &Seen) -> String {
    let parent =
        |(author, digest): &(u16, Digest)| object([("author", author), ("digest", &text(digest))]);
    let events = answer.history().events();
    let history: Vec<_> = events.filter(|event| event.session != PAGE).collect();
    let first = history.len().saturating_sub(EVENTS);
    let events = history[first..].iter().map(|event| {
        object([
            ("session", &event.session),
            ("number", &event.number),
            ("call", &text(format!("{:?}", event.call))),
            ("reply", &text(format!("{:?}", event.reply))),
        ])
    });
    let transactions = block.transactions().map(String::from_utf8_lossy);
    object([
        ("parents", &array(block.parents().iter().map(parent))),
        ("transactions", &array(transactions.map(text))),
        ("reply", &text(format!("{:?}", answer.reply()))),
        ("length", &history.len()),
        ("history", &array(events)),
    ])
}
