//! What a question, an answer or a tree is told, by the second side: a verdict or a refusal.

use crate::forms::{self, Form};
use crate::held::{held, refused_at, Held, Refused};
use crate::lines::Side;
use crate::{path_machine, places, xml_machine};
use second::verdict::{FillVerdict, MarkerVerdict};
use second::{constraint, path, translate, Refusal};
use second::{LEAST_NODES_BUFFER, LEAST_RECORDS_BUFFER, LEAST_TEXT_BUFFER};

/// The records of a question that questions 1 to 6, 13 and 14 let pass.
pub fn question(file: &[u8]) -> Result<Held, Refused> {
    let form = forms::of_question(file);
    if form == Form::Paths {
        return paths(file);
    }
    let held = held(Side::Question, form, file)?;
    match constraint::read(&held.records) {
        Ok(_) => Ok(held),
        Err(Refusal(number)) => Err(held.refused(number, places::in_question(number, &held.records))),
    }
}

/// A text of paths; nothing is passed over in it.
pub fn paths(file: &[u8]) -> Result<Held, Refused> {
    let verdict = second::paths(file, LEAST_RECORDS_BUFFER);
    assert_eq!(path_machine::is_of_form(file), verdict != FillVerdict::Refused(Refusal(13)), "{}", file.escape_ascii());
    match verdict {
        FillVerdict::Refused(Refusal(13)) => Err(refused_at(13, Form::Paths, file, path_machine::no_form(file))),
        FillVerdict::Refused(_) => {
            Err(refused_at(14, Form::Paths, file, (path_machine::too_many_variables(file), "at a byte")))
        }
        FillVerdict::Written(records) => {
            let lines = path::read(file).expect("a text of paths");
            let written_by = |end: usize| translate::translate(&lines[..end]).records.len();
            let records_by_line = (1..=lines.len()).map(written_by).collect();
            Ok(Held::of_paths(records, records_by_line))
        }
    }
}

pub enum Marked {
    Met,
    Unmet { position: usize, record: Vec<u8>, line: Option<usize> },
    RefusedQuestion(Refused),
    RefusedAnswer(Refused),
}

/// The question is asked before the answer.
pub fn mark(question_file: &[u8], answer_file: &[u8]) -> Marked {
    let asked = match question(question_file) {
        Ok(held) => held,
        Err(refused) => return Marked::RefusedQuestion(refused),
    };
    mark_held(&asked, answer_file)
}

/// Of a question that is not refused.
pub fn mark_held(asked: &Held, answer_file: &[u8]) -> Marked {
    let answer = match held(Side::Answer, forms::of_answer(answer_file), answer_file) {
        Ok(held) => held,
        Err(refused) => return Marked::RefusedAnswer(refused),
    };
    match second::mark(&asked.records, &answer.records) {
        MarkerVerdict::Met => Marked::Met,
        MarkerVerdict::Unmet { position, .. } => {
            let record = asked.records[4 * position..][..4].to_vec();
            Marked::Unmet { position, record, line: asked.line_of(position) }
        }
        MarkerVerdict::Refused(Refusal(number)) => {
            let constraints = constraint::read(&asked.records).expect("a question that is not refused");
            let variables = constraint::number_of_variables(&constraints);
            let at = places::in_answer(number, &answer.records, variables);
            Marked::RefusedAnswer(answer.refused(number, at))
        }
    }
}

pub enum Converted {
    Xml(Vec<u8>),
    Nodes(Vec<u8>),
}

/// A tree as XML, or XML as a tree.
pub fn xml(file: &[u8]) -> Result<Converted, Refused> {
    match forms::of_tree(file) {
        Form::Xml => xml_read(file).map(Converted::Nodes),
        form => xml_write(form, file).map(Converted::Xml),
    }
}

/// "A newline behind XML is left off."
fn xml_read(file: &[u8]) -> Result<Vec<u8>, Refused> {
    let text = file.strip_suffix(b"\n").unwrap_or(file);
    match (second::xml_read(text, LEAST_NODES_BUFFER), xml_machine::no_form(text)) {
        (FillVerdict::Written(nodes), None) => Ok(nodes),
        (FillVerdict::Refused(_), Some(found)) => Err(refused_at(16, Form::Xml, text, found)),
        _ => panic!("the two readers of XML differ on {}", text.escape_ascii()),
    }
}

/// "Places behind the nodes that it reads are left out."
fn xml_write(form: Form, file: &[u8]) -> Result<Vec<u8>, Refused> {
    let held = held(Side::Answer, form, file)?;
    let nodes = held.records.chunks_exact(4).take_while(|record| record[0] == 1).count();
    let behind = &held.records[4 * nodes..];
    let only_places = behind.len() % 4 == 0 && behind.chunks(4).all(|record| record[0] == 2);
    let asked = if only_places { &held.records[..4 * nodes] } else { &held.records[..] };
    match second::xml_write(asked, LEAST_TEXT_BUFFER) {
        FillVerdict::Written(text) => Ok(text),
        FillVerdict::Refused(Refusal(number)) => Err(held.refused(number, places::in_answer(number, &held.records, 0))),
    }
}
