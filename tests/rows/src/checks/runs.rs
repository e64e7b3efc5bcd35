//! Answers to numbers that go up, with equal ones after one another told once.
use std::alloc::{AllocError, Global};

/// The answers so far.
#[derive(Drop)]
pub struct Runs<'a> {
    sign: &'a str,
    text: String,
    first: usize,
    last: usize,
    latest: Option<String>,
}

impl<'a> Runs<'a> {
    /// No answers; runs are told with the sign between them.
    pub fn new(alloc: Global, sign: &'a str) -> Runs<'a> {
        Runs {
            sign,
            text: String::new(alloc),
            first: 0,
            last: 0,
            latest: None,
        }
    }

    fn close(&mut self, alloc: Global) -> Result<(), AllocError> {
        if let Some(latest) = &self.latest {
            if self.text.len() > 0 {
                self.text.push_str(self.sign)?;
            }
            let told = format!(in alloc; "{}-{} {}", self.first, self.last, latest.as_str())?;
            self.text.push_str(told.as_str())?;
        }
        Ok(())
    }

    fn goes_on(&self, answer: &str) -> bool {
        match &self.latest {
            Some(latest) => latest.as_str() == answer,
            None => false,
        }
    }

    /// The answer to the next number.
    pub fn add(&mut self, alloc: Global, at: usize, answer: String) -> Result<(), AllocError> {
        if !self.goes_on(answer.as_str()) {
            self.close(alloc)?;
            self.first = at;
            self.latest = Some(answer);
        }
        self.last = at;
        Ok(())
    }

    /// The next number has the answer of the one before it.
    pub fn again(&mut self, at: usize) {
        self.last = at;
    }

    /// All runs as text.
    pub fn finish(mut self, alloc: Global) -> Result<String, AllocError> {
        self.close(alloc)?;
        Ok(self.text)
    }
}
