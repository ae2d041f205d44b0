//! The segments of one heap, marking and sweeping.

use crate::exits::ExitTable;
use crate::names::{Name, Seg};
use crate::segment::{Body, Segment, Stored};

pub struct Area {
    segments: Vec<Segment>,
    // Where the segment of each number below the room may stand.
    hints: Vec<usize>,
    // Where a gray object was found last.
    gray_at: usize,
}

impl Area {
    pub fn of(segment: Segment) -> Area {
        Area::of_many(vec![segment])
    }

    pub fn of_many(segments: Vec<Segment>) -> Area {
        let mut hints = vec![0; segments.len()];
        for (at, segment) in segments.iter().enumerate() {
            if let Some(hint) = hints.get_mut(segment.number.0 as usize) {
                *hint = at;
            }
        }
        Area {
            segments,
            hints,
            gray_at: 0,
        }
    }

    fn place(&self, seg: Seg) -> Option<usize> {
        if let Some(hint) = self.hints.get(seg.0 as usize) {
            if self.segments.get(*hint).is_some_and(|s| s.number == seg) {
                return Some(*hint);
            }
        }
        self.segments.iter().position(|s| s.number == seg)
    }

    pub fn get(&self, seg: Seg) -> Option<&Segment> {
        self.segments.get(self.place(seg)?)
    }

    pub fn make_gray(&mut self, target: Name) {
        if let Some(at) = self.place(target.seg) {
            self.segments[at].make_gray(target.serial);
        }
    }

    fn take_gray_at(&mut self, at: usize) -> Option<Name> {
        let segment = self.segments.get_mut(at)?;
        let seg = segment.number;
        let serial = segment.take_gray()?;
        Some(Name { seg, serial })
    }

    fn take_gray(&mut self) -> Option<Name> {
        if let Some(name) = self.take_gray_at(self.gray_at) {
            return Some(name);
        }
        for i in 0..self.segments.len() {
            if let Some(name) = self.take_gray_at(i) {
                self.gray_at = i;
                return Some(name);
            }
        }
        None
    }

    fn body_of(&self, at: Name) -> &Body {
        let segment = self.get(at.seg).unwrap();
        segment.body_at(segment.find(at.serial).unwrap())
    }
}

pub fn clear(area: &mut Area, exits: &mut ExitTable) {
    for segment in &mut area.segments {
        segment.unmark_all();
    }
    exits.unmark_all();
}

fn look(area: &mut Area, exits: &mut ExitTable, stored: Stored) {
    let Stored::Refers(name) = stored else {
        return;
    };
    if area.get(name.seg).is_some() {
        area.make_gray(name);
    } else {
        exits.mark(name);
    }
}

pub fn mark(area: &mut Area, exits: &mut ExitTable) {
    while let Some(at) = area.take_gray() {
        for field in 0..area.body_of(at).fields.len() {
            let stored = area.body_of(at).fields[field];
            look(area, exits, stored);
        }
    }
}

#[derive(Clone, Copy, Default)]
pub struct Swept {
    pub objects: u32,
    pub bytes: u64,
}

pub fn sweep(area: &mut Area, swept: &mut Swept) {
    for segment in &mut area.segments {
        let mut from = 0;
        while let Some(gone) = segment.sweep_next(from) {
            from = gone.slot;
            swept.objects += 1;
            swept.bytes += gone.bytes;
        }
    }
}
