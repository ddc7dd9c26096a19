//! A plot held open while pupils build.

use crate::bytes::{SETS, WORDS};
use crate::liveness::{Answer, found};
use crate::numbers::{counts, records};
use crate::work::{component, position};
use crate::{
    Component, ComponentId, Liveness, PortConnection, Position, Reason, Refusal, Rules, limits,
};

mod raw {
    //! As in `include/dustroute_held.h`: a slice passes as a pointer and then a
    //! count of its numbers.

    unsafe extern "C" {
        pub fn dustroute_open(
            rules: i64,
            given: *const i64,
            given_len: usize,
            state: *mut usize,
            state_len: usize,
            frontiers: *mut i64,
            frontiers_len: usize,
            places: *mut i64,
            places_len: usize,
            connections: *mut i64,
            connections_len: usize,
        ) -> u64;

        pub fn dustroute_place(
            state: *mut usize,
            state_len: usize,
            frontiers: *const i64,
            frontiers_len: usize,
            places: *mut i64,
            places_len: usize,
            connections: *const i64,
            connections_len: usize,
            block: *const i64,
            block_len: usize,
        ) -> u64;

        pub fn dustroute_break(
            state: *mut usize,
            state_len: usize,
            frontiers: *const i64,
            frontiers_len: usize,
            places: *mut i64,
            places_len: usize,
            connections: *mut i64,
            connections_len: usize,
            id: u64,
        ) -> u64;

        pub fn dustroute_connect(
            state: *mut usize,
            state_len: usize,
            frontiers: *const i64,
            frontiers_len: usize,
            places: *const i64,
            places_len: usize,
            connections: *mut i64,
            connections_len: usize,
            connection: *const i64,
            connection_len: usize,
        ) -> u64;

        pub fn dustroute_held_liveness(
            state: *const usize,
            state_len: usize,
            frontiers: *const i64,
            frontiers_len: usize,
            places: *const i64,
            places_len: usize,
            connections: *const i64,
            connections_len: usize,
            components: *mut i64,
            components_len: usize,
            regions: *mut u64,
            regions_len: usize,
            sources: *mut u64,
            sources_len: usize,
            inputs: *mut u64,
            inputs_len: usize,
            sets: *mut u64,
            sets_len: usize,
            stack: *mut usize,
            stack_len: usize,
        ) -> u64;
    }
}

/// The counts at the front of the state: rules number, places used, places freed,
/// connections held, frontiers. The freed places follow.
const COUNTS: usize = 5;

/// Numbers of each slice of a plot.
const STATE: usize = COUNTS + limits::COMPONENTS;
const FRONTIERS: usize = limits::FRONTIERS * 3;
const PLACES: usize = limits::COMPONENTS * 8;
const CONNECTIONS: usize = limits::CONNECTIONS * 5;

/// A plot that is held open: it opens empty, with rules and frontiers that remain;
/// blocks are placed and broken and connections added, one click at a time, and
/// [`liveness`](Self::liveness) marks what stands. Each click is checked, a refused
/// one changes nothing, and no click names a block that is gone: breaking a block
/// drops all connections at it.
///
/// ```
/// use dustroute::{
///     BlockKind, Component, ComponentId, Facing, HeldPlot, PortConnection, PortRef, Position,
///     Reason, RequiredInputStatus, Rules, TransferKind,
/// };
///
/// let mut plot = HeldPlot::open(Rules::Two, &[])?;
/// let lever = Component::new(ComponentId(1), Position::new(0, 0, 0), BlockKind::Lever);
/// let repeater = Component {
///     facing: Some(Facing::East),
///     ..Component::new(ComponentId(2), Position::new(1, 0, 0), BlockKind::Repeater)
/// };
/// let fed = PortConnection {
///     source: PortRef::new(ComponentId(1), 1),
///     sink: PortRef::new(ComponentId(2), 1),
///     transfer: TransferKind::DirectionalDevice,
/// };
/// plot.place(&repeater)?;
/// plot.place(&lever)?;
/// plot.connect(&fed)?;
/// assert_eq!(plot.components(), [lever, repeater]);
/// let status = plot.liveness()?.inputs[0].status;
/// assert_eq!(status, RequiredInputStatus::DrivenByKnownSource);
///
/// plot.break_block(ComponentId(1))?;
/// assert_eq!(plot.connections(), []);
/// assert_eq!(plot.liveness()?.inputs[0].status, RequiredInputStatus::Disconnected);
/// let gone = plot.break_block(ComponentId(1));
/// assert_eq!(gone.map_err(|refusal| refusal.reason), Err(Reason::AbsentId));
///
/// // What was saved is the same plot again; what is damaged is told to be.
/// let saved = plot.save();
/// assert_eq!(HeldPlot::load(&saved)?, plot);
/// let lost = HeldPlot::load(&saved[..100]).map_err(|refusal| refusal.to_string());
/// let text = "refusal 18: a plot that no opening and clicks can leave: it is damaged";
/// assert_eq!(lost, Err(text.to_string()));
/// # Ok::<(), dustroute::Refusal>(())
/// ```
#[derive(Clone, Debug, Eq, PartialEq)]
pub struct HeldPlot {
    state: Vec<usize>,
    frontiers: Vec<i64>,
    places: Vec<i64>,
    connections: Vec<i64>,
}

impl HeldPlot {
    /// A plot with no blocks.
    ///
    /// # Errors
    /// The refusal of frontiers over their limit or out of their range.
    pub fn open(rules: Rules, frontiers: &[Position]) -> Result<Self, Refusal> {
        let mut plot = Self {
            state: vec![0; STATE],
            frontiers: vec![0; FRONTIERS],
            places: vec![0; PLACES],
            connections: vec![0; CONNECTIONS],
        };
        let given = records(frontiers, limits::FRONTIERS, Position::record);
        let given = given.as_flattened();
        // SAFETY: each pointer is to a whole slice of the length beside it. The
        // callee only reads the first, and the borrows keep the others apart.
        let answer = unsafe {
            raw::dustroute_open(
                rules.number(),
                given.as_ptr(),
                given.len(),
                plot.state.as_mut_ptr(),
                plot.state.len(),
                plot.frontiers.as_mut_ptr(),
                plot.frontiers.len(),
                plot.places.as_mut_ptr(),
                plot.places.len(),
                plot.connections.as_mut_ptr(),
                plot.connections.len(),
            )
        };
        counts(answer)?;
        Ok(plot)
    }

    /// Places a block, and tells its place: the one freed last of those that are
    /// free, or else the lowest never used.
    ///
    /// # Errors
    /// [`Reason::OutOfRange`], [`Reason::PresentId`] or [`Reason::FullPlot`], in this
    /// order.
    pub fn place(&mut self, block: &Component) -> Result<usize, Refusal> {
        let block = block.record();
        // SAFETY: as for `open`; the callee only reads the slices that are not mutable.
        let answer = unsafe {
            raw::dustroute_place(
                self.state.as_mut_ptr(),
                self.state.len(),
                self.frontiers.as_ptr(),
                self.frontiers.len(),
                self.places.as_mut_ptr(),
                self.places.len(),
                self.connections.as_ptr(),
                self.connections.len(),
                block.as_ptr(),
                block.len(),
            )
        };
        let [place, ..] = counts(answer)?;
        Ok(place)
    }

    /// Breaks a block: frees its place, and drops all connections at it, those of
    /// support too. The others keep their order.
    ///
    /// # Errors
    /// [`Reason::AbsentId`].
    pub fn break_block(&mut self, id: ComponentId) -> Result<(), Refusal> {
        // SAFETY: as for `place`.
        let answer = unsafe {
            raw::dustroute_break(
                self.state.as_mut_ptr(),
                self.state.len(),
                self.frontiers.as_ptr(),
                self.frontiers.len(),
                self.places.as_mut_ptr(),
                self.places.len(),
                self.connections.as_mut_ptr(),
                self.connections.len(),
                id.0.into(),
            )
        };
        counts(answer).map(|_| ())
    }

    /// Adds a connection between two blocks that are present. One that is there
    /// already changes nothing.
    ///
    /// # Errors
    /// [`Reason::AbsentId`] for either end, or [`Reason::Length`] for a new one where
    /// as many are held as a list may have.
    pub fn connect(&mut self, connection: &PortConnection) -> Result<(), Refusal> {
        let connection = connection.record();
        // SAFETY: as for `place`.
        let answer = unsafe {
            raw::dustroute_connect(
                self.state.as_mut_ptr(),
                self.state.len(),
                self.frontiers.as_ptr(),
                self.frontiers.len(),
                self.places.as_ptr(),
                self.places.len(),
                self.connections.as_mut_ptr(),
                self.connections.len(),
                connection.as_ptr(),
                connection.len(),
            )
        };
        counts(answer).map(|_| ())
    }

    /// Marks what stands: the same as [`liveness`](crate::liveness()) of
    /// [`components`](Self::components), [`connections`](Self::connections) and the
    /// frontiers, by the plot's rules.
    ///
    /// # Errors
    /// None: a plot made by this type is always marked.
    pub fn liveness(&self) -> Result<Liveness, Refusal> {
        let present = self.present();
        let mut components = vec![[0; 8]; present];
        let mut regions = vec![0; present];
        let mut sources = vec![[0; 2]; 2 * present];
        let mut inputs = vec![[0; 3]; 4 * present];
        let mut sets = [[0; WORDS]; SETS];
        let answer = self.report(
            components.as_flattened_mut(),
            &mut regions,
            sources.as_flattened_mut(),
            inputs.as_flattened_mut(),
            sets.as_flattened_mut(),
        );
        let counts = counts(answer)?;
        let components = components.iter().map(component).collect::<Option<Vec<_>>>();
        let bytes = u64::to_le_bytes;
        found(
            &components.ok_or(Refusal::UNREADABLE)?,
            Answer {
                regions: regions.into_iter().map(bytes).collect(),
                sources: sources.iter().map(|row| row.map(bytes)).collect(),
                inputs: inputs.iter().map(|row| row.map(bytes)).collect(),
                sets: sets.map(|words| words.map(bytes)),
                counts,
            },
        )
    }

    /// The blocks that stand, by rising position and id, as a list has them.
    #[must_use]
    pub fn components(&self) -> Vec<Component> {
        let freed = self.state.iter().skip(COUNTS).take(self.count(2));
        let freed: Vec<usize> = freed.copied().collect();
        let used = self.places.as_chunks().0.iter().take(self.count(1));
        let each = used.enumerate().filter(|(place, _)| !freed.contains(place));
        let mut components: Vec<Component> = each.filter_map(|(_, it)| component(it)).collect();
        components.sort_by_key(Component::order);
        components
    }

    /// The connections that are held, in the order in which they were added.
    #[must_use]
    pub fn connections(&self) -> Vec<PortConnection> {
        let held = self.connections.as_chunks().0.iter().take(self.count(3));
        held.filter_map(|it| PortConnection::of_record(*it))
            .collect()
    }

    /// The frontiers with which it was opened.
    #[must_use]
    pub fn frontiers(&self) -> Vec<Position> {
        let given = self.frontiers.as_chunks().0.iter().take(self.count(4));
        given.filter_map(position).collect()
    }

    /// The rules by which it is marked.
    ///
    /// # Errors
    /// None: they were known when it was opened.
    pub fn rules(&self) -> Result<Rules, Refusal> {
        let number = i64::try_from(self.count(0)).map_err(|_| Refusal::UNREADABLE)?;
        Rules::try_from(number)
    }

    /// How many blocks are present.
    #[must_use]
    pub fn present(&self) -> usize {
        self.count(1).saturating_sub(self.count(2))
    }

    /// The plot as bytes, to be kept: its numbers, eight bytes each, lowest first.
    #[must_use]
    pub fn save(&self) -> Vec<u8> {
        let state = self.state.iter().map(|it| (*it as u64).to_le_bytes());
        let lists = [&self.frontiers, &self.places, &self.connections];
        let lists = lists.into_iter().flatten().map(|it| it.to_le_bytes());
        state.chain(lists).flatten().collect()
    }

    /// The plot that was saved. It is looked at as a whole: what no opening and
    /// clicks can leave is never marked.
    ///
    /// # Errors
    /// [`Reason::StrangePlot`] for any bytes but those of a saved plot.
    pub fn load(saved: &[u8]) -> Result<Self, Refusal> {
        let strange = Refusal {
            reason: Reason::StrangePlot,
            place: None,
        };
        let (numbers, rest) = saved.as_chunks();
        let whole = STATE + FRONTIERS + PLACES + CONNECTIONS;
        if numbers.len() != whole || !rest.is_empty() {
            return Err(strange);
        }
        let numbers: Vec<i64> = numbers.iter().map(|it| i64::from_le_bytes(*it)).collect();
        let mut numbers = numbers.into_iter();
        let state = numbers.by_ref().take(STATE).map(usize::try_from);
        let plot = Self {
            state: state.collect::<Result<_, _>>().map_err(|_| strange)?,
            frontiers: numbers.by_ref().take(FRONTIERS).collect(),
            places: numbers.by_ref().take(PLACES).collect(),
            connections: numbers.collect(),
        };
        // Without room for a row it is refused with 18 or 2, or has none.
        match Refusal::of(plot.report(&mut [], &mut [], &mut [], &mut [], &mut [])) {
            Some(refusal) if refusal.reason != Reason::ShortSlice => Err(refusal),
            _ => Ok(plot),
        }
    }

    /// A number at the front of the state.
    fn count(&self, place: usize) -> usize {
        self.state.get(place).copied().unwrap_or(0)
    }

    /// The call.
    fn report(
        &self,
        components: &mut [i64],
        regions: &mut [u64],
        sources: &mut [u64],
        inputs: &mut [u64],
        sets: &mut [u64],
    ) -> u64 {
        let mut stack = vec![0; 2 * regions.len()];
        // SAFETY: as for `place`.
        unsafe {
            raw::dustroute_held_liveness(
                self.state.as_ptr(),
                self.state.len(),
                self.frontiers.as_ptr(),
                self.frontiers.len(),
                self.places.as_ptr(),
                self.places.len(),
                self.connections.as_ptr(),
                self.connections.len(),
                components.as_mut_ptr(),
                components.len(),
                regions.as_mut_ptr(),
                regions.len(),
                sources.as_mut_ptr(),
                sources.len(),
                inputs.as_mut_ptr(),
                inputs.len(),
                sets.as_mut_ptr(),
                sets.len(),
                stack.as_mut_ptr(),
                stack.len(),
            )
        }
    }
}
