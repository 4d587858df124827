//! The library's answers to the same requests: each is put to it as a line of
//! a script, as the command would.

use lohenarr::script::request;
use lohenarr::script::runner::{Answer, Runner};

use crate::second::script::Request;

/// The library with the memory that it is lent.
pub struct Library<'d>(Runner<'d>);

impl<'d> Library<'d> {
    pub fn new(dump: &'d [u8], requests: &[Request]) -> Library<'d> {
        let lines: Vec<_> = requests.iter().map(read).collect();
        let runner = Runner::new(dump, &lines);
        Library(runner.unwrap_or_else(|_| panic!("no memory for the index")))
    }

    /// The answer to a request.
    pub fn answer(&mut self, request: &Request) -> Answer {
        let answer = self.0.answer(&read(request));
        answer.unwrap_or_else(|_| panic!("no answer to {request}"))
    }

    /// The words of the index, as the last call left them.
    pub fn index(&self) -> &[u32] {
        &self.0.index
    }
}

/// The request as the command reads it.
pub fn read(request: &Request) -> request::Request {
    let read = request::request(&request.to_string());
    read.unwrap().expect("a request")
}
