//! The oracle's answers, with what 01 adds about tables and outputs.

use crate::answer::{Answer, Ask, Question, Tables};
use oracle::pack::Pack;
use oracle::value::Event;
use oracle::{answers, cells, limits, listing, merge};

type Line<'a> = Result<Option<(&'a str, Event)>, u8>;

/// Keeps the line that was read last: it is packed and listed.
#[derive(Default)]
pub struct Oracle<'a> {
    last: Option<(&'a [u8], Line<'a>)>,
}

impl<'a> Oracle<'a> {
    /// The right answer, and the output's length that the question means.
    pub fn answer(&mut self, question: &Question<'a>) -> (Answer, usize) {
        let answer = self.without_room(question);
        let room = (answer.length() as i64 + question.slack as i64).max(0) as usize;
        if answer.length() > room {
            return (refused(question.ask, 5), room);
        }
        (answer, room)
    }

    fn without_room(&mut self, question: &Question<'a>) -> Answer {
        if !question.lent.is_enough() && question.ask.has_tables() {
            return refused(question.ask, 1);
        }
        let text = question.text;
        match question.ask {
            Ask::Judge => match limits::log(text) {
                Ok(events) => Answer::Events(events.len()),
                Err((number, line)) => Answer::RefusedAt(number, line),
            },
            Ask::Read => {
                self.line(text, |line, event| Answer::Pack(tables(Pack::of_event(line, event))))
            }
            Ask::List(number) => self.line(text, |line, event| {
                let listed = listing::event(number, event);
                assert!(listed.len() <= limits::listing(line), "a listing is too long: {line}");
                Answer::Text(listed.into_bytes())
            }),
            Ask::Cut => {
                let places = answers::cut_places(text)
                    .map(|places| places.into_iter().map(|at| at as u64).collect());
                places.map_or_else(Answer::Refused, Answer::Places)
            }
            Ask::Decode => answers::decoded(text)
                .map_or_else(Answer::Refused, |text| Answer::Text(text.into_bytes())),
            Ask::Key => answers::stored_key(question.other, text)
                .map_or_else(Answer::Refused, |key| Answer::Text(key.into_bytes())),
            Ask::Cells => {
                cells::pack(text).map_or_else(Answer::Refused, |pack| Answer::Pack(tables(pack)))
            }
            Ask::Merge => match merge::logs(text, question.other, usize::MAX) {
                Ok(merged) => Answer::Text(merged.into_bytes()),
                Err((number, log, line)) => Answer::RefusedIn(number, log, line),
            },
        }
    }

    fn line(&mut self, text: &'a [u8], of_event: impl Fn(&str, &Event) -> Answer) -> Answer {
        let same =
            |kept: &[u8]| std::ptr::eq(kept.as_ptr(), text.as_ptr()) && kept.len() == text.len();
        let known = self.last.as_ref().is_some_and(|(kept, _)| same(kept));
        if !known {
            self.last = Some((text, limits::line(text)));
        }
        match &self.last.as_ref().expect("the line was just read").1 {
            Ok(Some((line, event))) => of_event(line, event),
            Ok(None) => Answer::Blank,
            Err(number) => Answer::Refused(*number),
        }
    }
}

fn tables(Pack { kinds, numbers, texts }: Pack) -> Tables {
    Tables { kinds, numbers, texts }
}

/// A refusal that speaks of no text.
fn refused(ask: Ask, number: u8) -> Answer {
    match ask {
        Ask::Judge => Answer::RefusedAt(number, 0),
        Ask::Merge => Answer::RefusedIn(number, 0, 0),
        _ => Answer::Refused(number),
    }
}
