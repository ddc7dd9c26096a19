//! A stand-in for `World`: cells and their blocks. Only the support relation
//! asks it, and no compared answer shows that relation.

use std::collections::BTreeMap;

use crate::{Block, Pos};

#[derive(Clone, Debug, Default, Eq, PartialEq)]
pub struct World {
    blocks: BTreeMap<Pos, Block>,
}

impl World {
    #[must_use]
    pub fn get(&self, pos: Pos) -> Option<&Block> {
        self.blocks.get(&pos)
    }
}
