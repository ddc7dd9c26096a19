//! The lengths of the slices that a caller lends.

use crate::Scene;
use crate::limits::{
    COMPONENT, CONNECTION, INPUT_ROW, INPUTS_EACH, KEPT_ROW, SOURCE_ROW, SOURCES_EACH, STACK_PAIR,
};

/// Lengths in numbers, one for each slice that some entry takes.
#[derive(Clone, Copy, Debug, Default, Eq, PartialEq)]
pub struct Lent {
    pub nets: usize,
    pub fragments: usize,
    pub ports: usize,
    pub regions: usize,
    pub sources: usize,
    pub inputs: usize,
    pub stack: usize,
}

impl Lent {
    /// The fewest numbers that are enough for the scene's lists.
    #[must_use]
    pub const fn enough(scene: &Scene) -> Self {
        let components = scene.components.len() / COMPONENT;
        Self {
            nets: components,
            fragments: components,
            ports: scene.connections.len() / CONNECTION * KEPT_ROW,
            regions: components,
            sources: components * SOURCES_EACH * SOURCE_ROW,
            inputs: components * INPUTS_EACH * INPUT_ROW,
            stack: components * STACK_PAIR,
        }
    }

    /// The same length for every slice.
    #[must_use]
    pub const fn all(length: usize) -> Self {
        Self {
            nets: length,
            fragments: length,
            ports: length,
            regions: length,
            sources: length,
            inputs: length,
            stack: length,
        }
    }

    /// The same, or where a length is far beyond what is enough, somewhat beyond it.
    #[must_use]
    pub fn within(&self, enough: &Self) -> Self {
        const BEYOND: usize = 100;
        let (mut lent, mut enough) = (*self, *enough);
        for (length, enough) in lent.each().into_iter().zip(enough.each()) {
            *length = (*length).min(*enough + BEYOND);
        }
        lent
    }

    fn each(&mut self) -> [&mut usize; 7] {
        [
            &mut self.nets,
            &mut self.fragments,
            &mut self.ports,
            &mut self.regions,
            &mut self.sources,
            &mut self.inputs,
            &mut self.stack,
        ]
    }

    /// Copies with one slice changed: one number short, empty, one number
    /// over. A slice of whole places is short by a place as soon as a number
    /// is missing, and a number over is no fault.
    #[must_use]
    pub fn variants(&self) -> Vec<Self> {
        let mut all = vec![*self, Self::all(0), Self::all(usize::MAX)];
        for slice in 0..7 {
            for change in [
                |length: usize| length.saturating_sub(1),
                |_| 0,
                |length: usize| length + 1,
            ] {
                let mut lent = *self;
                let length = &mut *lent.each()[slice];
                *length = change(*length);
                all.push(lent);
            }
        }
        all
    }
}
