//! A line by its own tests: all its words, then all its numbers, then their ranges.

use super::grammar::{fault, item, Kind, Refused};
use super::words::{number, Words};
use crate::jump::{PORTS, STRIDE};

/// The most numbers of a line, without a route.
const NUMBERS: usize = 5;

/// The ports of a route; those behind the most of any form are counted and not kept.
pub struct Route {
    ports: [u64; STRIDE],
    hops: usize,
    bad: bool,
}

impl Route {
    fn read(words: &mut Words) -> Route {
        let mut route = Route { ports: [0; STRIDE], hops: 0, bad: false };
        for word in words {
            match number(word) {
                Some(port) => {
                    if let Some(place) = route.ports.get_mut(route.hops) {
                        *place = port;
                    }
                }
                None => route.bad = true,
            }
            route.hops += 1;
        }
        route
    }

    pub fn ports(&self) -> &[u64] {
        &self.ports[..self.hops]
    }

    fn test_numbers(&self) -> Result<(), Refused> {
        if self.bad || self.hops == 0 {
            return Err(Refused::new(fault::NUMBER, item::ROUTE, 0));
        }
        Ok(())
    }

    fn test_ranges(&self, most: usize) -> Result<(), Refused> {
        if self.hops > most {
            return Err(Refused::new(fault::RANGE, item::HOPS, self.hops as u64));
        }
        match self.ports().iter().find(|port| !(1..=PORTS as u64).contains(port)) {
            Some(port) => Err(Refused::new(fault::RANGE, item::ROUTE, *port)),
            None => Ok(()),
        }
    }

    /// The set of its ports, none where one stands there twice.
    pub fn set(&self) -> Option<u64> {
        let mut set = 0;
        for port in self.ports() {
            let bit = 1 << (port - 1);
            if set & bit != 0 {
                return None;
            }
            set |= bit;
        }
        Some(set)
    }
}

pub struct Line {
    pub kind: Kind,
    pub numbers: [u64; NUMBERS],
    pub route: Option<Route>,
}

impl Line {
    /// The line of a kind, from behind its first word on.
    pub fn read(kind: Kind, words: &mut Words, most_hops: usize) -> Result<Line, Refused> {
        let places = kind.places();
        let mut told = [None; NUMBERS];
        for (place, told) in places.iter().zip(&mut told) {
            *told = place.take(words)?;
        }
        let route = if kind == Kind::Flow {
            if !words.accept(b"route") {
                return Err(Refused::new(fault::WORD, item::ROUTE, 0));
            }
            Some(Route::read(words))
        } else if words.next().is_some() {
            return Err(Refused::new(fault::WORD, item::END, 0));
        } else {
            None
        };
        let mut numbers = [0; NUMBERS];
        for ((place, told), number) in places.iter().zip(told).zip(&mut numbers) {
            *number = told.ok_or(Refused::new(fault::NUMBER, place.item, 0))?;
        }
        route.as_ref().map_or(Ok(()), Route::test_numbers)?;
        if let Some((place, number)) = places.iter().zip(numbers).find(|(place, number)| !place.allows(*number)) {
            return Err(Refused::new(fault::RANGE, place.item, number));
        }
        route.as_ref().map_or(Ok(()), |route| route.test_ranges(most_hops))?;
        Ok(Line { kind, numbers, route })
    }
}
