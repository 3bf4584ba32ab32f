//! The calls of the benchmark once more, as one would write them in plain Rust: records behind `&mut`, slices, no `unsafe`. It is what the
//! proved calls are timed beside, so it makes the same tests in the same order and leaves the same records and bytes. It shares no line with
//! them.
#![forbid(unsafe_code)]
use crate::field::{double, inverse, times};

const ENTRIES: usize = 16;
const IDS: usize = 8;
const NODES: usize = 18;
const POSITIONS: usize = 12;
const LAST_NUMBER: u32 = 999_999;
const LIMIT: u32 = 1_000_000;

#[derive(Clone, Copy)]
pub struct Sizes {
    pub k: usize,
    pub n: usize,
    pub b: usize,
    pub failures: usize,
    pub m: usize,
}

impl Sizes {
    fn within(&self) -> bool {
        let redundant = self.n.wrapping_sub(self.k);
        (2..=12).contains(&self.k)
            && (1..=6).contains(&redundant)
            && redundant <= self.k
            && (1..=4096).contains(&self.b)
            && self.failures <= redundant
            && (1..=8).contains(&self.m)
    }

    fn is_client(&self, c: u8) -> bool {
        (1..=self.m).contains(&c.into())
    }

    fn is_position(&self, i: u8) -> bool {
        (1..=self.k).contains(&i.into())
    }

    fn is_node(&self, j: u8) -> bool {
        (1..=self.n).contains(&j.into())
    }

    fn is_redundant(&self, j: u8) -> bool {
        self.is_node(j) && !self.is_position(j)
    }
}

/// Node j is bit j - 1.
#[derive(Clone, Copy, Default)]
struct NodeSet(u32);

impl NodeSet {
    fn put(&mut self, j: usize, is: bool) {
        let bit = 1 << (j - 1);
        self.0 = if is { self.0 | bit } else { self.0 & !bit };
    }

    fn contains(self, j: usize) -> bool {
        (1..=NODES).contains(&j) && self.0 >> (j - 1) & 1 == 1
    }

    fn size(self) -> usize {
        self.0.count_ones() as usize
    }

    fn is_within(self, n: usize) -> bool {
        self.0 >> n == 0
    }

    fn has_all(self, from: usize, to: usize) -> bool {
        (from..=to).all(|j| self.contains(j))
    }

    fn members(self) -> impl Iterator<Item = usize> {
        (1..=NODES).filter(move |&j| self.contains(j))
    }
}

#[derive(Clone, Copy, PartialEq, Default)]
struct WriteId {
    client: u8,
    position: u8,
    number: u32,
}

impl WriteId {
    fn is_within(&self, z: &Sizes) -> bool {
        z.is_client(self.client) && z.is_position(self.position) && self.number <= LAST_NUMBER
    }
}

#[derive(Clone, Copy, Default)]
struct Entry {
    id: WriteId,
    old: bool,
    age: u8,
}

/// The first `count` items.
#[derive(Clone, Copy)]
struct List<T, const N: usize> {
    items: [T; N],
    count: usize,
}

impl<T: Copy + Default, const N: usize> List<T, N> {
    fn new() -> Self {
        List {
            items: [T::default(); N],
            count: 0,
        }
    }

    fn all(&self, test: impl FnMut(&T) -> bool) -> bool {
        self.items
            .get(..self.count)
            .is_some_and(|items| items.iter().all(test))
    }

    fn get(&self) -> &[T] {
        &self.items[..self.count]
    }

    fn get_mut(&mut self) -> &mut [T] {
        &mut self.items[..self.count]
    }

    fn is_full(&self) -> bool {
        self.count >= N
    }

    fn push(&mut self, item: T) {
        self.items[self.count] = item;
        self.count += 1;
    }
}

#[derive(Clone, Copy, PartialEq)]
enum Opmode {
    Norm,
    Recons,
    Init,
}

#[derive(Clone, Copy, PartialEq)]
enum Lmode {
    Unl,
    #[allow(dead_code)] // only a weaken leaves it, which is not timed
    L0,
    L1,
    Exp,
}

impl Lmode {
    fn is_locked(self) -> bool {
        matches!(self, Lmode::L0 | Lmode::L1)
    }
}

#[derive(Clone, Copy)]
pub struct Node {
    opmode: Opmode,
    lmode: Lmode,
    holder: Option<u8>,
    epoch: u32,
    rset: NodeSet,
    entries: List<Entry, ENTRIES>,
}

impl Node {
    pub fn fresh() -> Self {
        Node::empty(Opmode::Norm)
    }

    pub fn failed() -> Self {
        Node::empty(Opmode::Init)
    }

    /// With as many entries as there may be, all recent.
    pub fn full() -> Self {
        let mut node = Node::fresh();
        for number in 0..ENTRIES as u32 {
            node.enter(WriteId {
                client: 1,
                position: 1,
                number,
            });
        }
        node
    }

    fn empty(opmode: Opmode) -> Self {
        Node {
            opmode,
            lmode: Lmode::Unl,
            holder: None,
            epoch: 0,
            rset: NodeSet::default(),
            entries: List::new(),
        }
    }

    fn is_within(&self, z: &Sizes) -> bool {
        let holder = match self.holder {
            None => !self.lmode.is_locked(),
            Some(c) => self.lmode.is_locked() && z.is_client(c),
        };
        holder
            && self.epoch <= LIMIT
            && self.rset.is_within(z.n)
            && self.entries.all(|e| e.id.is_within(z))
    }

    fn held_by(&self, c: u8) -> bool {
        self.lmode.is_locked() && self.holder == Some(c)
    }

    fn give_back(&mut self, c: u8, old: Lmode) {
        if self.held_by(c) {
            (self.lmode, self.holder) = (old, None);
        }
    }

    fn enter(&mut self, id: WriteId) {
        self.entries.push(Entry {
            id,
            old: false,
            age: 0,
        });
    }

    fn tick(&mut self) {
        for e in self.entries.get_mut().iter_mut().filter(|e| !e.old) {
            e.age = e.age.saturating_add(1);
        }
    }

    fn last_recent(&self) -> Option<WriteId> {
        let entries = self.entries.get().iter();
        entries.rev().find(|e| !e.old).map(|e| e.id)
    }
}

#[derive(Clone, Copy)]
struct Write {
    id: WriteId,
    previous: Option<WriteId>,
    epoch: u32,
    done: NodeSet,
}

#[derive(Clone, Copy)]
enum Phase {
    NoRebuild,
    Locking(u8, NodeSet),
    Picking(u8),
    Writing(u8, NodeSet, u32),
    Settling(u8, u32),
    Unlocking(u8),
}

#[derive(Clone, Copy)]
pub struct Client {
    hand: Option<Write>,
    phase: Phase,
    finished: List<WriteId, IDS>,
    moved: List<WriteId, IDS>,
    round: u8,
    next: u32,
}

impl Client {
    /// Client c with its first write in hand, at position 1.
    pub fn writing(c: u8) -> Self {
        let mut client = Client::fresh();
        let mut done = NodeSet::default();
        done.put(1, true);
        let id = WriteId {
            client: c,
            position: 1,
            number: 0,
        };
        client.next = 1;
        client.hand = Some(Write {
            id,
            previous: None,
            epoch: 0,
            done,
        });
        client
    }

    pub fn fresh() -> Self {
        Client {
            hand: None,
            phase: Phase::NoRebuild,
            finished: List::new(),
            moved: List::new(),
            round: 0,
            next: 0,
        }
    }

    fn is_within(&self, z: &Sizes) -> bool {
        let hand = match &self.hand {
            None => self.finished.count <= IDS,
            Some(w) => {
                w.id.is_within(z)
                    && w.previous.is_none_or(|id| id.is_within(z))
                    && w.epoch <= LIMIT
                    && w.done.is_within(z.n)
                    && self.finished.count < IDS
            }
        };
        let phase = match self.phase {
            Phase::NoRebuild => true,
            Phase::Locking(x, _) => 1 <= x && usize::from(x) < z.n,
            Phase::Picking(j) => j == 0 || z.is_redundant(j),
            Phase::Writing(j, set, e) => z.is_node(j) && set.is_within(z.n) && e < LIMIT,
            Phase::Settling(j, e) => z.is_node(j) && e < LIMIT,
            Phase::Unlocking(j) => z.is_node(j),
        };
        hand && phase
            && self.finished.all(|id| id.is_within(z))
            && self.moved.all(|id| id.is_within(z))
            && usize::from(self.round) < 2 * z.n
            && self.next <= LIMIT
    }
}

/// The records and the tables of one stripe, all lent.
pub struct Stripe<'a> {
    pub nodes: &'a mut [Node],
    pub clients: &'a mut [Client],
    pub blocks: &'a mut [u8],
    pub spare: &'a mut [u8],
    pub differences: &'a mut [u8],
}

/// The number of document 01's table, 0 if the call is accepted.
type Number = u8;

/// What the points of two nodes differ by.
fn apart(j: usize, i: usize) -> u8 {
    (j - 1) as u8 ^ (i - 1) as u8
}

fn product(factors: impl Iterator<Item = u8>) -> u8 {
    factors.fold(1, times)
}

// ---- blocks

fn part(b: usize, j: usize) -> std::ops::Range<usize> {
    (j - 1) * b..j * b
}

fn swap_block(block: &mut [u8], difference: &mut [u8], value: &[u8]) {
    for ((d, b), v) in difference.iter_mut().zip(block).zip(value) {
        *d = *v ^ *b;
        *b = *v;
    }
}

/// By the bits of each source byte, which the compiler makes wide.
fn add_times(dst: &mut [u8], src: &[u8], c: u8) {
    let mut doublings = [c; 8];
    for i in 1..8 {
        doublings[i] = double(doublings[i - 1]);
    }
    for (d, &s) in dst.iter_mut().zip(src) {
        for (i, &c) in doublings.iter().enumerate() {
            *d ^= (s >> i & 1).wrapping_neg() & c;
        }
    }
}

/// The sum of these blocks times their weights, by the bits of the weights over whole blocks.
fn combine(out: &mut [u8], table: &[u8], nodes: &[usize], weights: &[u8]) {
    let b = out.len();
    out.fill(0);
    for bit in (0..8).rev() {
        out.iter_mut().for_each(|d| *d = double(*d));
        let chosen = nodes
            .iter()
            .zip(weights)
            .filter(|(_, w)| **w >> bit & 1 == 1);
        let mut sources = [&[][..]; POSITIONS];
        let mut count = 0;
        for (j, _) in chosen {
            sources[count] = &table[part(b, *j)];
            count += 1;
        }
        let mut fours = sources[..count].chunks_exact(4);
        for four in &mut fours {
            let (p, q, r, s) = (four[0], four[1], four[2], four[3]);
            for ((((d, p), q), r), s) in out.iter_mut().zip(p).zip(q).zip(r).zip(s) {
                *d ^= p ^ q ^ r ^ s;
            }
        }
        for source in fours.remainder() {
            out.iter_mut().zip(*source).for_each(|(d, s)| *d ^= s);
        }
    }
}

/// Each node's block of the codeword that agrees with the set's k lowest members, by interpolation.
fn recover(z: &Sizes, set: NodeSet, blocks: &[u8], out: &mut [u8]) {
    let k = z.k;
    let mut held = [0; POSITIONS];
    held.iter_mut().zip(set.members()).for_each(|(h, j)| *h = j);
    let held = &held[..k];
    let scale = |j| product((1..=k).filter(|&l| l != j).map(|l| apart(l, j)));
    let mut shares = [0; POSITIONS];
    for (share, &j) in shares.iter_mut().zip(held) {
        let others = held.iter().filter(|&&l| l != j);
        *share = times(scale(j), inverse(product(others.map(|&l| apart(l, j)))));
    }
    for (j, out) in (1..=z.n).zip(out.chunks_exact_mut(z.b)) {
        if held.contains(&j) {
            out.copy_from_slice(&blocks[part(z.b, j)]);
            continue;
        }
        let all = times(
            product(held.iter().map(|&l| apart(j, l))),
            inverse(scale(j)),
        );
        let mut weights = [0; POSITIONS];
        for ((weight, share), &l) in weights.iter_mut().zip(shares).zip(held) {
            *weight = times(times(share, inverse(apart(j, l))), all);
        }
        combine(out, blocks, held, &weights[..k]);
    }
}

// ---- the set of a pick

/// The recent ids of each node, without those that are old at a NORM node.
fn recent_ids(nodes: &[Node]) -> [List<WriteId, ENTRIES>; NODES] {
    let is_old = |id| {
        let norm = nodes.iter().filter(|node| node.opmode == Opmode::Norm);
        norm.flat_map(|node| node.entries.get())
            .any(|e| e.old && e.id == id)
    };
    let mut recent = [List::new(); NODES];
    for (recent, node) in recent.iter_mut().zip(nodes) {
        for e in node.entries.get() {
            if !e.old && !is_old(e.id) {
                recent.push(e.id);
            }
        }
    }
    recent
}

fn resumed_set(nodes: &[Node]) -> NodeSet {
    let mut set = NodeSet::default();
    for (i, node) in nodes.iter().enumerate() {
        let is = match node.opmode {
            Opmode::Norm => nodes.iter().any(|other| other.rset.contains(i + 1)),
            Opmode::Recons => true,
            Opmode::Init => false,
        };
        set.put(i + 1, is);
    }
    set
}

fn same<'a>(one: impl Iterator<Item = &'a WriteId> + Clone, other: &[WriteId]) -> bool {
    one.clone().all(|id| other.contains(id)) && other.iter().all(|id| one.clone().any(|x| x == id))
}

fn largest_set(z: &Sizes, nodes: &[Node]) -> NodeSet {
    let recent = recent_ids(nodes);
    let mut largest = NodeSet::default();
    for (i, node) in nodes[..z.k].iter().enumerate() {
        largest.put(i + 1, node.opmode == Opmode::Norm);
    }
    for r in (z.k..z.n).filter(|&r| nodes[r].opmode == Opmode::Norm) {
        let mut set = NodeSet::default();
        for (i, node) in nodes.iter().enumerate() {
            let theirs = recent[r].get().iter();
            let own = recent[i].get();
            let fits = match i < z.k {
                true => same(theirs.filter(|id| usize::from(id.position) == i + 1), own),
                false => same(theirs, own),
            };
            set.put(i + 1, node.opmode == Opmode::Norm && fits);
        }
        if largest.size() < set.size() {
            largest = set;
        }
    }
    largest
}

// ---- the calls

/// The records of node j and client c, if they are there and within the limits.
fn taken<'a>(
    z: &Sizes,
    nodes: &'a mut [Node],
    clients: &'a mut [Client],
    j: usize,
    c: usize,
) -> Result<(&'a mut Node, &'a mut Client), Number> {
    let node = nodes.get_mut(j.wrapping_sub(1)).ok_or(2)?;
    let client = clients.get_mut(c.wrapping_sub(1)).ok_or(2)?;
    match node.is_within(z) && client.is_within(z) {
        true => Ok((node, client)),
        false => Err(1),
    }
}

impl Stripe<'_> {
    fn are_tables_within(&self, z: &Sizes) -> bool {
        z.within()
            && self.nodes.len() == z.n
            && self.clients.len() == z.m
            && self.blocks.len() == z.n * z.b
            && self.spare.len() == z.n * z.b
            && self.differences.len() == z.m * z.b
    }

    #[inline(never)]
    pub fn swap(&mut self, z: &Sizes, c: u8, i: u8, value: &[u8]) -> Number {
        if !self.are_tables_within(z) || value.len() != z.b {
            return 1;
        }
        let (at, by) = (usize::from(i), usize::from(c));
        let (node, client) = match taken(z, self.nodes, self.clients, at, by) {
            Ok(taken) => taken,
            Err(number) => return number,
        };
        if !z.is_position(i) {
            return 2;
        }
        if client.hand.is_some() || client.round > 0 {
            return 3;
        }
        if node.opmode != Opmode::Norm || node.lmode != Lmode::Unl {
            return 4;
        }
        if node.entries.is_full() || client.finished.is_full() {
            return 7;
        }
        if client.next >= LIMIT {
            return 8;
        }
        swap_block(
            &mut self.blocks[part(z.b, at)],
            &mut self.differences[part(z.b, by)],
            value,
        );
        let id = WriteId {
            client: c,
            position: i,
            number: client.next,
        };
        let mut done = NodeSet::default();
        done.put(at, true);
        client.hand = Some(Write {
            id,
            previous: node.last_recent(),
            epoch: node.epoch,
            done,
        });
        client.next += 1;
        node.enter(id);
        0
    }

    #[inline(never)]
    pub fn add(&mut self, z: &Sizes, c: u8, j: u8) -> Number {
        if !self.are_tables_within(z) {
            return 1;
        }
        let (at, by) = (usize::from(j), usize::from(c));
        let (node, client) = match taken(z, self.nodes, self.clients, at, by) {
            Ok(taken) => taken,
            Err(number) => return number,
        };
        if !z.is_redundant(j) {
            return 2;
        }
        let Some(write) = &mut client.hand else {
            return 3;
        };
        if write.done.contains(at) {
            return 3;
        }
        if node.opmode != Opmode::Norm || !matches!(node.lmode, Lmode::Unl | Lmode::L0) {
            return 4;
        }
        if write.epoch < node.epoch {
            return 5;
        }
        let is_listed = |id| node.entries.get().iter().any(|e| e.id == id);
        if write.previous.is_some_and(|id| !is_listed(id)) {
            return 6;
        }
        if node.entries.is_full() {
            return 7;
        }
        let i = usize::from(write.id.position);
        add_times(
            &mut self.blocks[part(z.b, at)],
            &self.differences[part(z.b, by)],
            inverse(apart(at, i)),
        );
        node.enter(write.id);
        write.done.put(at, true);
        if write.done.contains(i) && write.done.has_all(z.k + 1, z.n) {
            let id = write.id;
            client.hand = None;
            client.finished.push(id);
        }
        0
    }

    fn are_nodes_within(&self, z: &Sizes) -> bool {
        self.are_tables_within(z) && self.nodes.iter().all(|node| node.is_within(z))
    }

    #[inline(never)]
    pub fn tick(&mut self, z: &Sizes) -> Number {
        if !self.are_nodes_within(z) {
            return 1;
        }
        self.nodes.iter_mut().for_each(Node::tick);
        0
    }

    /// The tests that every call of a rebuild begins with: 1, then 2.
    fn admitted(&self, z: &Sizes, c: u8) -> Result<usize, Number> {
        if !self.are_nodes_within(z) {
            return Err(1);
        }
        let by = usize::from(c).wrapping_sub(1);
        match self.clients.get(by) {
            Some(client) if client.is_within(z) => Ok(by),
            Some(_) => Err(1),
            None => Err(2),
        }
    }

    fn lose(&mut self, c: u8, by: usize) -> Number {
        self.nodes
            .iter_mut()
            .for_each(|node| node.give_back(c, Lmode::Exp));
        self.clients[by].phase = Phase::NoRebuild;
        10
    }

    #[inline(never)]
    pub fn lock(&mut self, z: &Sizes, c: u8) -> Number {
        let by = match self.admitted(z, c) {
            Ok(by) => by,
            Err(number) => return number,
        };
        let client = &mut self.clients[by];
        let (x, mut expired) = match client.phase {
            Phase::NoRebuild => (0, NodeSet::default()),
            Phase::Locking(x, expired) => (x, expired),
            _ => return 3,
        };
        let at = usize::from(x);
        let old = self.nodes[at].lmode;
        if old.is_locked() {
            for (i, node) in self.nodes[..at].iter_mut().enumerate() {
                let was_exp = expired.contains(i + 1);
                node.give_back(c, if was_exp { Lmode::Exp } else { Lmode::Unl });
            }
            client.phase = Phase::NoRebuild;
            return 9;
        }
        let node = &mut self.nodes[at];
        (node.lmode, node.holder) = (Lmode::L1, Some(c));
        expired.put(at + 1, old == Lmode::Exp);
        client.phase = match z.n <= at + 1 {
            true => Phase::Picking(0),
            false => Phase::Locking(x + 1, expired),
        };
        0
    }

    #[inline(never)]
    pub fn pick(&mut self, z: &Sizes, c: u8) -> Number {
        let by = match self.admitted(z, c) {
            Ok(by) => by,
            Err(number) => return number,
        };
        if !matches!(self.clients[by].phase, Phase::Picking(0)) {
            return 3;
        }
        let epoch = self.nodes.iter().map(|node| node.epoch).max().unwrap_or(0);
        if LIMIT <= epoch {
            return 8;
        }
        if !self
            .nodes
            .iter()
            .all(|node| node.lmode == Lmode::L1 && node.holder == Some(c))
        {
            return self.lose(c, by);
        }
        let init = self.nodes.iter().filter(|node| node.opmode == Opmode::Init);
        let slack = z.failures.saturating_sub(init.count());
        let is_resumed = self.nodes.iter().any(|node| node.opmode == Opmode::Recons);
        let (set, needed) = match is_resumed {
            true => (resumed_set(self.nodes), z.k),
            false => (largest_set(z, self.nodes), z.k + slack),
        };
        if set.size() < needed {
            return 11;
        }
        recover(z, set, self.blocks, self.spare);
        self.clients[by].phase = Phase::Writing(1, set, epoch);
        0
    }

    /// The next write, settle or unlock, by the phase that the rebuild is in.
    #[inline(never)]
    pub fn advance(&mut self, z: &Sizes, c: u8) -> Number {
        let by = match self.admitted(z, c) {
            Ok(by) => by,
            Err(number) => return number,
        };
        let phase = self.clients[by].phase;
        let (Phase::Writing(j, ..) | Phase::Settling(j, _) | Phase::Unlocking(j)) = phase else {
            return 3;
        };
        let at = usize::from(j);
        let is_held = match phase {
            Phase::Settling(..) => self.nodes.iter().all(|node| node.held_by(c)),
            _ => self.nodes[at - 1].held_by(c),
        };
        if !is_held {
            return self.lose(c, by);
        }
        let node = &mut self.nodes[at - 1];
        let is_last = z.n <= at;
        self.clients[by].phase = match phase {
            Phase::Writing(j, set, e) => {
                self.blocks[part(z.b, at)].copy_from_slice(&self.spare[part(z.b, at)]);
                (node.opmode, node.epoch, node.rset) = (Opmode::Recons, e, set);
                if is_last {
                    Phase::Settling(1, e)
                } else {
                    Phase::Writing(j + 1, set, e)
                }
            }
            Phase::Settling(j, e) => {
                (node.opmode, node.epoch, node.rset) = (Opmode::Norm, e + 1, NodeSet::default());
                node.entries.count = 0;
                if is_last {
                    Phase::Unlocking(1)
                } else {
                    Phase::Settling(j + 1, e)
                }
            }
            _ => {
                (node.lmode, node.holder) = (Lmode::Unl, None);
                if is_last {
                    Phase::NoRebuild
                } else {
                    Phase::Unlocking(j + 1)
                }
            }
        };
        0
    }
}
