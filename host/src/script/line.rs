//! Answers as lines.

use crc32fast::hash as crc32;

use crate::ffi::{
    self, ChunkAnswer, CopiesAnswer, CopyAnswer, CountsAnswer, HistoryAnswer, KindAnswer,
    ListAnswer, PlaceAnswer, RunAnswer, SizeAnswer, SpanAnswer, SpansAnswer, StandingAnswer,
    TableAnswer, TallyAnswer, WhyAnswer,
};
use crate::fields;
use crate::reasons::Reason;
use crate::records::standing_name;
use crate::refusal::{kind_name, SHORT_BUFFER};
use crate::tree::Tree;

/// A refusal with its visits; with the length needed if a buffer was too short.
pub fn refused(number: u32, visits: u32, need: u32) -> String {
    match number {
        SHORT_BUFFER => format!("refusal={number} visits={visits} need={need}"),
        _ => format!("refusal={number} visits={visits}"),
    }
}

/// What was done, or the number of its refusal.
pub fn done(number: u32) -> String {
    match number {
        0 => "done".to_string(),
        _ => refused(number, 0, 0),
    }
}

/// What a page is, and what it says.
pub fn kind(answer: KindAnswer) -> String {
    let (name, fields) = (kind_name(answer.kind), answer.fields());
    match fields.is_empty() {
        true => name.to_string(),
        false => format!("{name} {}", fields::line(&fields)),
    }
}

pub fn counts(c: CountsAnswer) -> String {
    let (blank, foreign, damaged) = (c.blank, c.foreign, c.damaged);
    let (headers, data) = (c.headers, c.data);
    format!("blank={blank} foreign={foreign} damaged={damaged} headers={headers} data={data}")
}

pub fn size(answer: SizeAnswer) -> String {
    match answer.refusal {
        0 => format!("size={} visits={}", answer.size, answer.visits),
        number => refused(number, answer.visits, 0),
    }
}

pub fn chunk(answer: ChunkAnswer) -> String {
    if answer.refusal != 0 {
        return refused(answer.refusal, answer.visits, answer.need);
    }
    let place = match answer.page() {
        Some(page) => format!("page={page}"),
        None => "hole".to_string(),
    };
    let (valid, shown, visits) = (answer.valid, answer.shown, answer.visits);
    format!("{place} valid={valid} shown={shown} visits={visits}")
}

/// A read's answer, with the whole buffer as it was left.
pub fn read(answer: ChunkAnswer, buffer: &[u8]) -> String {
    let line = chunk(answer);
    match answer.refusal {
        0 => format!("{line} buffer={}/{:08x}", buffer.len(), crc32(buffer)),
        _ => line,
    }
}

pub fn part(place: PlaceAnswer, dump: &[u8]) -> String {
    if place.length == 0 {
        return "part=empty".to_string();
    }
    let (offset, length) = (place.offset, place.length);
    format!("part={offset}+{length}/{:08x}", crc32(place.of(dump)))
}

/// How a run of additions ended: with the page whose addition was refused.
pub fn run(answer: RunAnswer) -> String {
    match answer.refusal {
        0 => done(0),
        number => format!("{} page={}", done(number), answer.page),
    }
}

/// The ids that a listing wrote in front of the words, and how many words it
/// was lent.
pub fn list(answer: ListAnswer, words: &[u32]) -> String {
    listed("ids", answer, words)
}

/// The same of the pages of an object's records.
pub fn records(answer: ListAnswer, words: &[u32]) -> String {
    listed("records", answer, words)
}

fn listed(name: &str, answer: ListAnswer, words: &[u32]) -> String {
    if answer.refusal != 0 {
        return refused(answer.refusal, 0, answer.need);
    }
    let listed = words.iter().take(answer.count as usize);
    let listed: Vec<String> = listed.map(u32::to_string).collect();
    format!("{name}={} words={}", listed.join(","), words.len())
}

pub fn objects(answer: TallyAnswer) -> String {
    match answer.refusal {
        0 => format!("objects={}", answer.count),
        number => done(number),
    }
}

/// The rows that were written in front of the words, and how many words were
/// lent.
pub fn table(answer: TableAnswer, words: &[u32]) -> String {
    if answer.refusal != 0 {
        return refused(answer.refusal, 0, answer.need);
    }
    let rows = words.chunks_exact(2).take(answer.rows as usize);
    let rows: Vec<String> = rows.map(|row| format!("{}:{}", row[0], row[1])).collect();
    let (size, length) = (answer.size, words.len());
    format!("size={size} rows={} words={length}", rows.join(","))
}

/// The copies that were written in front of the rows, and how many rows were lent.
pub fn copies(answer: CopiesAnswer, rows: &[u64]) -> String {
    if answer.refusal != 0 {
        return refused(answer.refusal, 0, answer.need);
    }
    let copies = rows.iter().take(answer.count as usize);
    let copies = copies.map(|&row| ffi::copy(row));
    let copies: Vec<String> = copies
        .map(|copy| format!("{}:{}:{}", copy.chunk, copy.page, copy.valid))
        .collect();
    let CopiesAnswer { size, damaged, .. } = answer;
    let (copies, length) = (copies.join(","), rows.len());
    format!("size={size} copies={copies} damaged={damaged} rows={length}")
}

/// What a row says.
pub fn copy(copy: CopyAnswer) -> String {
    let CopyAnswer { chunk, page, valid } = copy;
    format!("chunk={chunk} page={page} valid={valid}")
}

/// The number of a refusal alone.
pub fn number(refusal: u32) -> String {
    format!("refusal={refusal}")
}

/// Why a byte is what it is, or the number of the refusal.
pub fn why(answer: WhyAnswer) -> String {
    if answer.refusal != 0 {
        return number(answer.refusal);
    }
    let mut fields = Reason::from(answer).fields();
    fields.push(("until", answer.until.into()));
    fields::line(&fields)
}

/// The runs of a file: where each begins, its reason, and its page if it has one.
pub fn spans(answer: SpansAnswer, runs: &[SpanAnswer]) -> String {
    if answer.refusal != 0 {
        return number(answer.refusal);
    }
    let runs = runs.iter().map(|&run| {
        let reason = Reason::from(run);
        let page = reason.page().map(|page| format!(":{page}"));
        format!("{}:{}{}", run.from, reason.name(), page.unwrap_or_default())
    });
    let runs: Vec<String> = runs.collect();
    format!("size={} spans={}", answer.size, runs.join(","))
}

/// How each record of an object stands, and the page or the bytes that this names.
pub fn stands(records: &[StandingAnswer]) -> String {
    let records = records.iter().map(|record| {
        let (page, name) = (record.page, standing_name(record.stands));
        match record.stands {
            StandingAnswer::SUPERSEDED | StandingAnswer::CUT => {
                format!("{page}:{name}:{}", record.by)
            }
            StandingAnswer::HOLDS => {
                format!("{page}:{name}:{}:{}", record.from, record.until)
            }
            _ => format!("{page}:{name}"),
        }
    });
    let records: Vec<String> = records.collect();
    format!("stands={}", records.join(","))
}

/// The size after each record of an object, or the refusal.
pub fn history(records: &[HistoryAnswer]) -> String {
    let records = records.iter().map(|record| match record.refusal {
        0 => format!("{}:size:{}", record.page, record.size),
        number => format!("{}:refusal:{number}", record.page),
    });
    let records: Vec<String> = records.collect();
    format!("history={}", records.join(","))
}

/// How many objects of a tree have a path and how many have none, and its text.
pub fn tree(tree: &Tree<'_>, text: &[u8]) -> String {
    let (listed, others) = (tree.listed(), tree.others());
    let (length, crc) = (text.len(), crc32(text));
    format!("listed={listed} others={others} text={length}/{crc:08x}")
}
