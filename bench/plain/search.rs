//! Plans an instance by one worker, as the crates do: `search FILE NODES`. Nothing is proved here.
#![allow(dead_code, unused)]

#[macro_use]
mod macros;
mod prelude;
mod standard;

mod finding;
mod vs_turn {
    pub trait Kept {}
}
// CRATES

use std::collections::HashMap;
use std::time::Instant;
use std::{env, fs};
use vs_instance::{Deadhead, Instance, Layer, MAX_TRIPS, Parts, Trip, USUAL_TRIPS};
use vs_tree::{Report, Take, Tree};
use vs_types::{LayerNo, LayerSet, StopNo};

/// Of so many cases, plans are sought by passes on one, as `vs_crew` does, and where cases are in vain.
const TURNS: u32 = 2;
const TURNS_IN_VAIN: u32 = 16;

/// The minute that a time such as 7:05 stands for.
fn minute(text: &str) -> u32 {
    let (hours, minutes) = text.split_once(':').expect("a time");
    60 * hours.parse::<u32>().expect("hours") + minutes.parse::<u32>().expect("minutes")
}

fn number(text: &str) -> u64 {
    text.parse().expect("a number")
}

/// The parts of an instance while it is read.
#[derive(Default)]
struct Reading {
    most: u32,
    stops: HashMap<String, u32>,
    names: HashMap<String, u32>,
    deadheads: Vec<Deadhead>,
    layers: Vec<Layer>,
    trips: Vec<Trip>,
}

impl Reading {
    fn stop(&self, name: &str) -> StopNo {
        StopNo(self.stops[name])
    }

    fn take(&mut self, fields: &[&str]) {
        match *fields {
            ["instance", version, ..] => self.most = if version == "3" { MAX_TRIPS } else { USUAL_TRIPS },
            ["stop", name, ..] => {
                self.stops.insert(name.to_string(), self.stops.len() as u32);
            }
            ["deadhead", from, to, minutes, metres, ..] => self.deadheads.push(Deadhead {
                from: self.stop(from),
                to: self.stop(to),
                minutes: number(minutes),
                metres: number(metres),
            }),
            ["layer", name, depot, fleet, fixed, per_minute, per_metre, ..] => {
                self.names.insert(name.to_string(), self.names.len() as u32);
                self.layers.push(Layer {
                    depot: self.stop(depot),
                    fleet: number(fleet),
                    fixed: number(fixed),
                    per_minute: number(per_minute),
                    per_metre: number(per_metre),
                    stay: fields.get(7).map(|minutes| number(minutes)),
                });
            }
            ["trip", _, from, start, to, end, metres, ref layers @ ..] => self.trips.push(Trip {
                from: self.stop(from),
                start: minute(start),
                to: self.stop(to),
                end: minute(end),
                metres: number(metres),
                layers: layers
                    .iter()
                    .fold(LayerSet(0), |set, name| set.with(LayerNo(self.names[*name]))),
            }),
            _ => {}
        }
    }

    fn made(self) -> Instance {
        let parts = Parts {
            stops: self.stops.len() as u32,
            deadheads: prelude::Vec(self.deadheads),
            layers: prelude::Vec(self.layers),
            trips: prelude::Vec(self.trips),
            most: self.most,
        };
        Instance::new((), parts).ok().expect("an instance")
    }
}

fn tell(report: &Report, begun: Instant) -> String {
    let cost = i128::from(report.cost.unwrap_or(0));
    let bound = report.bound.unwrap_or(0);
    let apart = 100.0 * (cost - bound) as f64 / cost.max(1) as f64;
    let seconds = begun.elapsed().as_secs_f64();
    std::format!("{:?} cost {cost} bound {bound} apart {apart:.4} % cases {} {seconds:.2} s", report.claim, report.finished)
}

fn main() {
    let words: Vec<String> = env::args().collect();
    let text = fs::read_to_string(&words[1]).expect("a file");
    let mut reading = Reading::default();
    for line in text.lines().take_while(|line| !line.starts_with("result")) {
        reading.take(&line.split(',').collect::<Vec<_>>());
    }
    let instance = reading.made();
    let nets = vs_match::layer_nets((), &instance).expect("nets");
    let first = vs_plan::greedy((), &instance).expect("memory");
    let copy = instance.copy(()).expect("memory");
    let mut tree = Tree::start((), copy, number(&words[2]) as u32, 1, first).expect("memory");
    let mut task = vs_node::Task {
        sets: vs_prices::permitted_sets((), &instance).expect("memory"),
        table: vs_prices::Table::zero((), &instance).expect("memory"),
        known: None,
        root: false,
    };
    let mut room = vs_node::Room::new((), &nets, 1).expect("memory");
    let (begun, log) = (Instant::now(), env::var("LOG").is_ok());
    let mut taken = 0;
    loop {
        let Take::Node { leaf, known } = tree.take(0, &mut task.sets, &mut task.table) else {
            break;
        };
        (task.known, task.root) = (known, leaf == 0);
        let turns = if room.progress.is_vain() { TURNS_IN_VAIN } else { TURNS };
        let passes = taken >= turns - 1;
        taken = if passes { 0 } else { taken + 1 };
        let found = finding::found((), &instance, &nets, &mut task, passes, &mut room, &vs_multi::NoWatch);
        let found = found.expect("memory").expect("a search that nothing ends");
        if let Some(plan) = found.outcome.plan {
            tree.offer(0, plan);
        }
        tree.finish_as(0, leaf, found.outcome.table, found.finish);
        if log {
            std::eprintln!("{}", tell(&tree.report(), begun));
        }
    }
    std::println!("{}", tell(&tree.report(), begun));
}
