//! What a taker takes of the batches of a circuit. A row has the words of lines that submit one, after the circuit, with /
//! between them.
use crate::groups::batches::{batch_of, offer};
use crate::words::{
    Answered, RowFault, Telling, definition, halves, hex_text, long, made, numbers, state_text,
    text_of,
};
use spl_agree::Place;
use spl_delta::{Taker, WatchAnswer, replay};
use spl_scabbard::Service;
use spl_state::State;
use std::alloc::Global;

/// The circuit of the batches.
fn taker(alloc: Global, start: u32) -> Result<Taker, RowFault> {
    let line =
        "propose alpha Ab3dE-00001 1 1 grid trade alpha,beta aaaa:scabbard:alpha,bbbb:scabbard:beta";
    let definition = definition(alloc, line)?;
    let taker = Taker::new(alloc, &definition, Place(start))?;
    if !taker.fits(&definition) {
        return Err(RowFault::BadRow);
    }
    Ok(taker)
}

/// A service that was offered these batches, and the state that the first so many left.
fn service_of(alloc: Global, first: u32, batches: &str) -> Result<(Service, State), RowFault> {
    let mut service = Service::new(alloc);
    let mut base = service.state().copy(alloc)?;
    for words in batches.split('/') {
        offer(alloc, &mut service, batch_of(alloc, words)?)?;
        if service.history().len() <= first as usize {
            base = service.state().copy(alloc)?;
        }
    }
    Ok((service, base))
}

/// What is taken, which is replayed too.
fn take_text(
    alloc: Global,
    taker: &mut Taker,
    service: &Service,
    base: &mut State,
    count: u64,
) -> Answered {
    let deltas = taker.take(alloc, service, u32::try_from(count).unwrap_or(64))?;
    replay(alloc, base, &deltas)?;
    let text = WatchAnswer::Taken(deltas).text(alloc)?;
    text_of(alloc, text.bytes())
}

fn root_text(base: &State, service: &Service) -> &'static str {
    if base.root() == service.root() {
        "the root of the service"
    } else {
        "another root"
    }
}

/// What a taker takes that begins at a place, by these counts, the place of what it takes next, and what the deltas make of
/// the state before the place: PLACE COUNT,COUNT .. BATCH / BATCH ..
pub fn taken(alloc: Global, text: &str) -> Answered {
    let (start, rest) = halves(text, ' ')?;
    let (counts, batches) = halves(rest, ' ')?;
    let start = long(start)?;
    let mut taker = taker(alloc, start)?;
    let (service, mut base) = service_of(alloc, start, batches)?;
    let mut told = Telling::new(alloc);
    for count in numbers(alloc, counts)?.iter() {
        told.tell(
            "\n  ",
            take_text(alloc, &mut taker, &service, &mut base, *count),
        );
    }
    told.tell("\n  next ", made(format!(in alloc; "{}", taker.next().0)));
    told.tell("\n  state ", state_text(alloc, &base));
    told.tell(
        ", ",
        made(String::from_str(alloc, root_text(&base, &service))),
    );
    told.finish()
}
