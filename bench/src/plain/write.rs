//! Writing an answer.

use super::run::{Machine, Stop};
use super::text::{Text, RECORD, VARIABLE};
use super::unify::{read, Rest, LIST};

impl Machine {
    /// Writes an answer into the front of what is left of the buffer, and says how many bytes it took; of a stopped one nothing stays.
    pub fn write(&mut self, text: &Text, number: u32, rest: &mut [u8]) -> Result<usize, Stop> {
        let mut at = 0;
        let written = self.write_unknowns(text, number, rest, &mut at);
        for v in self.open.drain(..) {
            self.renumbered[v as usize] = 0;
        }
        if written.is_err() {
            rest[..at].fill(0);
        }
        written.map(|()| at)
    }

    fn write_unknowns(&mut self, text: &Text, number: u32, rest: &mut [u8], at: &mut usize) -> Result<(), Stop> {
        for unknown in 0..text.unknowns {
            let waiting = (text.unknowns - unknown - 1) as u32;
            let mut depth = 0;
            let mut now = Rest::default();
            let mut term = read(&self.slots, VARIABLE | unknown as u32);
            loop {
                let place = rest.get_mut(*at..*at + 8).ok_or(Stop::Buffer)?;
                *at += 8;
                let arguments = self.write_record(text, number, term, place);
                if arguments.link != arguments.end {
                    let others = self.looks[depth].waiting + now.end - now.link;
                    if waiting + (others + arguments.end - arguments.link) as u32 > LIST {
                        return Err(Stop::List);
                    }
                    if now.link != now.end {
                        depth += 1;
                        self.looks[depth] = Rest { waiting: others, ..now };
                    }
                    now = arguments;
                }
                if now.link == now.end {
                    if depth == 0 {
                        break;
                    }
                    now = self.looks[depth];
                    depth -= 1;
                }
                term = read(&self.slots, text.links[now.link as usize] + now.base as u32);
                now.link += 1;
            }
        }
        Ok(())
    }

    /// Writes one record and gives the arguments to go on.
    fn write_record(&mut self, text: &Text, number: u32, term: u32, place: &mut [u8]) -> Rest {
        let (kind, symbol, count, arguments) = if term & VARIABLE != 0 {
            let v = term as u16;
            if self.renumbered[v as usize] == 0 {
                self.open.push(v);
                self.renumbered[v as usize] = self.open.len() as u16;
            }
            (1, self.renumbered[v as usize] - 1, 0, 0)
        } else {
            let t = text.terms[(term / RECORD) as usize];
            (2, (t.symbol >> 4) as u16, t.count() as u16, t.arguments as u16)
        };
        for (k, n) in [number as u16, kind, symbol, count].into_iter().enumerate() {
            place[2 * k..2 * k + 2].copy_from_slice(&n.to_le_bytes());
        }
        Rest { link: arguments, end: arguments + count, base: term as u16, waiting: 0 }
    }
}
