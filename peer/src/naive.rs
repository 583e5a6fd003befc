//! Slow, literal second versions of the rules of docs/RULES.md, which the tests compare with the fast ones.

use crate::forward::{self, Packet};
use crate::hall::Hall;

/// The code of a port that is up.
const UP: u8 = 1;
/// The distance of a server that cannot be reached.
pub const NEVER: u32 = u32::MAX;

/// Every full hall of few servers, with each b it may have.
pub fn small_halls() -> Vec<Hall> {
    let tops = [(2, 3), (3, 2), (4, 2), (5, 1), (6, 1), (7, 1), (8, 1)];
    let mut halls = Vec::new();
    for (n, top) in tops {
        for k in 0..=top {
            for b in 0..=k.min(1) {
                halls.push(Hall::full(n, k, b));
            }
        }
    }
    halls
}

/// The small halls of top level 2 and above with a random number of DCell(1)s fitted, often one at which something turns.
pub fn part_halls(random: &mut crate::random::Random) -> Vec<Hall> {
    let tall = small_halls().into_iter().filter(|h| h.k >= 2);
    let part = |h: Hall| {
        let turn = size(h.n, 1) + 1;
        let count = match random.below(6) {
            0 => 0,
            1 => 1 + random.below(2),
            2 => (turn + random.below(3)).saturating_sub(1),
            3 => (turn * turn + random.below(3)).saturating_sub(1),
            4 => h.count - random.below(2),
            _ => random.below(h.count + 1),
        };
        Hall {
            count: count.min(h.count),
            ..h
        }
    };
    tall.map(part).collect()
}

/// The DCell(1)s of a hall in the order in which the paper's figure 6 adds them, as a(3) and a(2); so many of them.
pub fn placed(n: u32, k: u32, additions: u32) -> Vec<(u32, u32)> {
    let mut existing = Vec::new();
    for _ in 0..additions {
        let place = add_dcell(n, &existing, &[], k);
        existing.push(place);
    }
    existing
}

/// The figure's procedure: the place that one more DCell(1) gets in the DCell of a level that a prefix names.
fn add_dcell(n: u32, existing: &[(u32, u32)], prefix: &[u32], level: u32) -> (u32, u32) {
    if level == 2 {
        let row = prefix.first().copied().unwrap_or(0);
        let beside = existing.iter().filter(|&&(a3, _)| a3 == row);
        let largest = beside.map(|&(_, a2)| a2).max();
        return (row, largest.map_or(0, |largest| largest + 1));
    }
    let id = get_index(n, existing);
    add_dcell(n, existing, &[id], level - 1)
}

/// The figure's sub-routine: the DCell(2) of a DCell(3) to add to.
fn get_index(n: u32, existing: &[(u32, u32)]) -> u32 {
    let t1 = size(n, 1);
    let mut held = std::collections::BTreeMap::new();
    for &(a3, _) in existing {
        *held.entry(a3).or_insert(0) += 1;
    }
    let m = held.len() as u32;
    if m < t1 + 1 {
        return m;
    }
    let not_full = held.into_iter().find(|&(_, cells)| cells < t1 + 1);
    not_full.map_or(m, |(smallest, _)| smallest)
}

/// Whether each server of a hall is fitted, in uid order.
pub fn fitted(h: Hall) -> Vec<bool> {
    if h.k < 2 {
        return vec![true; servers(h) as usize];
    }
    let mut fitted = vec![false; servers(h) as usize];
    for (a3, a2) in placed(h.n, h.k, h.count) {
        let first = a3 * size(h.n, 2) + a2 * size(h.n, 1);
        for uid in first..first + size(h.n, 1) {
            fitted[uid as usize] = true;
        }
    }
    fitted
}

/// The hall table as it counts: 0 at every port whose own server or far server is not fitted.
pub fn counted(h: Hall, hall_table: &[u8]) -> Vec<u8> {
    let fitted = fitted(h);
    let mut table = hall_table.to_vec();
    for uid in 0..servers(h) {
        for level in 0..=h.k {
            let far = if level == 0 {
                uid
            } else {
                neighbour(h, uid, level)
            };
            if !fitted[uid as usize] || !fitted[far as usize] {
                table[(uid * (h.k + 1) + level) as usize] = 0;
            }
        }
    }
    table
}

/// A table lent to a step of a server as it counts: 0 at every near and far port whose own server or far server is not fitted.
pub fn counted_step(h: Hall, step_table: &[u8], uid: u32) -> Vec<u8> {
    let whole = vec![UP; (servers(h) * (h.k + 1)) as usize];
    let counts = counted(h, &whole);
    let places = step_places(h, uid).into_iter();
    let pairs = places.zip(step_table);
    pairs
        .map(|(place, &code)| if counts[place] == UP { code } else { 0 })
        .collect()
}

/// The table of the DCell(b) of a server as it counts.
pub fn counted_cell(h: Hall, cell_table: &[u8], uid: u32) -> Vec<u8> {
    let mut lent = cell_table.to_vec();
    lent.resize(step_length(h), UP);
    let mut counts = counted_step(h, &lent, uid);
    counts.truncate(cell_table.len());
    counts
}

/// t(level).
pub fn size(n: u32, level: u32) -> u32 {
    match level {
        0 => n,
        _ => (size(n, level - 1) + 1) * size(n, level - 1),
    }
}

/// The servers of a hall.
pub fn servers(h: Hall) -> u32 {
    size(h.n, h.k)
}

/// The tuple of a uid, by plain division.
pub fn tuple(h: Hall, uid: u32) -> [u32; 4] {
    let mut answer = [uid % h.n, 0, 0, 0];
    for level in 1..=h.k {
        let g = size(h.n, level - 1) + 1;
        answer[level as usize] = uid / size(h.n, level - 1) % g;
    }
    answer
}

/// Whether one DCell(level) holds both servers.
pub fn same_cell(h: Hall, x: u32, y: u32, level: u32) -> bool {
    let above = level as usize + 1;
    tuple(h, x)[above..] == tuple(h, y)[above..]
}

/// Whether a link of the level joins two servers, by the words of the definition.
pub fn linked(h: Hall, x: u32, y: u32, level: u32) -> bool {
    if x == y || !same_cell(h, x, y, level) {
        return false;
    }
    if level == 0 {
        return true;
    }
    let place = level as usize;
    let (low, high) = if tuple(h, x)[place] < tuple(h, y)[place] {
        (x, y)
    } else {
        (y, x)
    };
    let (p, q) = (tuple(h, low)[place], tuple(h, high)[place]);
    let t = size(h.n, level - 1);
    p < q && low % t == q - 1 && high % t == p
}

/// The lowest level whose cell holds both servers.
pub fn joint_level(h: Hall, x: u32, y: u32) -> u32 {
    (0..h.k).find(|&i| same_cell(h, x, y, i)).unwrap_or(h.k)
}

/// The one linked pair of servers between the sub-cells of x and y at a level, that on the side of x first.
fn crossing(h: Hall, x: u32, y: u32, level: u32) -> (u32, u32) {
    let t = size(h.n, level - 1);
    let (p, q) = (tuple(h, x)[level as usize], tuple(h, y)[level as usize]);
    let (from, to) = (x / t * t, y / t * t);
    if p < q {
        (from + q - 1, to + p)
    } else {
        (from + q, to + p - 1)
    }
}

/// The neighbour of a server at a level above 0: of all sub-cells the one whose link with its own ends at it.
pub fn neighbour(h: Hall, uid: u32, level: u32) -> u32 {
    let t = size(h.n, level - 1);
    let first = uid / size(h.n, level) * size(h.n, level);
    let others = (first..first + size(h.n, level)).step_by(t as usize);
    others
        .filter(|&other| other / t != uid / t)
        .map(|other| crossing(h, uid, other, level))
        .find(|&(near, _)| near == uid)
        .map(|(_, far)| far)
        .expect("each server has one neighbour at each level")
}

/// The route from x to y, by the words of the definition.
pub fn route(h: Hall, x: u32, y: u32) -> Vec<u32> {
    if x == y {
        return vec![x];
    }
    let level = joint_level(h, x, y);
    if level == 0 {
        return vec![x, y];
    }
    let (n1, n2) = crossing(h, x, y, level);
    assert!(linked(h, n1, n2, level));
    let mut servers = route(h, x, n1);
    servers.extend(route(h, n2, y));
    servers
}

/// Whether the port of a server has code 1, in a table that begins at server `first`.
fn up(h: Hall, first: u32, table: &[u8], uid: u32, level: u32) -> bool {
    table[((uid - first) * (h.k + 1) + level) as usize] == UP
}

/// Whether a link of level <= top, with code 1 at both ends, joins two servers of a table that begins at server `first`.
fn usable(h: Hall, first: u32, table: &[u8], x: u32, y: u32, top: u32) -> bool {
    (0..=top).any(|level| {
        linked(h, x, y, level) && up(h, first, table, x, level) && up(h, first, table, y, level)
    })
}

/// The distance of every server of a table from one of them over links of level <= top, by relaxing until nothing changes.
pub fn distances(h: Hall, first: u32, table: &[u8], origin: u32, top: u32) -> Vec<u32> {
    let count = table.len() as u32 / (h.k + 1);
    let mut edges = Vec::new();
    for x in first..first + count {
        for y in first..first + count {
            if usable(h, first, table, x, y, top) {
                edges.push(((x - first) as usize, (y - first) as usize));
            }
        }
    }
    let mut distance = vec![NEVER; count as usize];
    distance[(origin - first) as usize] = 0;
    loop {
        let before = distance.clone();
        for &(x, y) in &edges {
            distance[y] = distance[y].min(distance[x].saturating_add(1));
        }
        if distance == before {
            return distance;
        }
    }
}

/// The local next hop from x towards y, in the cell of level b that begins at server `first`.
pub fn next_hop(h: Hall, first: u32, table: &[u8], x: u32, y: u32) -> Option<u32> {
    let to_y = distances(h, first, table, y, h.b);
    let away = to_y[(x - first) as usize];
    if away == NEVER || away == 0 {
        return None;
    }
    let cell = first..first + to_y.len() as u32;
    cell.into_iter().find(|&near| {
        usable(h, first, table, x, near, h.b) && to_y[(near - first) as usize] == away - 1
    })
}

/// The places in the hall table of the codes lent to a step of a server: those of its cell, then those of the far ports above b.
pub fn step_places(h: Hall, uid: u32) -> Vec<usize> {
    let t = size(h.n, h.b);
    let cell = uid / t * t..uid / t * t + t;
    let mut ports = Vec::new();
    for server in cell.clone() {
        ports.extend((0..=h.k).map(|level| (server, level)));
    }
    for server in cell {
        ports.extend((h.b + 1..=h.k).map(|level| (neighbour(h, server, level), level)));
    }
    let place = |(server, level)| (server * (h.k + 1) + level) as usize;
    ports.into_iter().map(place).collect()
}

/// The table lent to a step of a server, filled from the hall table code by code.
pub fn step_table(h: Hall, hall_table: &[u8], uid: u32) -> Vec<u8> {
    let places = step_places(h, uid).into_iter();
    places.map(|place| hall_table[place]).collect()
}

/// The bytes of a table lent to a step.
pub fn step_length(h: Hall) -> usize {
    (size(h.n, h.b) * (h.k + 1 + h.k - h.b)) as usize
}

/// What a literal step works on: the hall, the server itself, its cell's table, the far codes, and the packet as it came.
struct Stand<'a> {
    h: Hall,
    own: u32,
    first: u32,
    table: &'a [u8],
    far: &'a [u8],
    came: Packet,
}

/// What changes while a literal step goes on.
#[derive(Clone)]
struct Work {
    proxy: Option<u32>,
    retry: u8,
    arrived: bool,
    reroutes: u32,
}

/// A literal step: the numbered sentences of docs/RULES.md, each in its place.
pub fn step(h: Hall, own: u32, came: Packet, step_table: &[u8]) -> forward::Step {
    let t = size(h.n, h.b);
    let (table, far) = step_table.split_at((t * (h.k + 1)) as usize);
    let stand = Stand {
        h,
        own,
        first: own / t * t,
        table,
        far,
        came,
    };
    let mut work = Work {
        proxy: came.has_proxy.then_some(came.proxy),
        retry: came.retry,
        arrived: false,
        reroutes: 0,
    };
    if own == came.dst {
        return stand.end(forward::DELIVERED, &work);
    }
    if came.ttl == 0 {
        return stand.end(forward::DROP_TTL, &work);
    }
    if work.proxy == Some(own) {
        work.proxy = None;
        work.arrived = true;
    }
    stand.sentence_4(work)
}

/// A literal journey: the table of each step is filled from the hall table.
pub fn journey(h: Hall, source: u32, packet: Packet, hall_table: &[u8]) -> forward::Journey {
    let mut answer = forward::Journey {
        refusal: 0,
        ending: forward::FORWARDED,
        links: 0,
        reroutes: 0,
        uids: [0; 256],
    };
    let (mut uid, mut packet) = (source, packet);
    loop {
        answer.uids[answer.links as usize] = uid;
        let turn = step(h, uid, packet, &step_table(h, hall_table, uid));
        answer.reroutes += turn.reroutes;
        if turn.ending != forward::FORWARDED {
            answer.ending = turn.ending;
            return answer;
        }
        answer.links += 1;
        (uid, packet) = (turn.next, turn.packet);
    }
}

impl Stand<'_> {
    /// Whether the link of a level above b is usable, from a server of the cell: both its ports have code 1.
    fn usable_above(&self, uid: u32, level: u32) -> bool {
        let Hall { k, b, .. } = self.h;
        let far = (uid - self.first) * (k - b) + level - b - 1;
        up(self.h, self.first, self.table, uid, level) && self.far[far as usize] == UP
    }

    /// Delivery or a drop, with the packet as it came.
    fn end(&self, ending: u32, work: &Work) -> forward::Step {
        let proxy = if self.came.has_proxy {
            self.came.proxy
        } else {
            0
        };
        forward::Step {
            refusal: 0,
            ending,
            next: 0,
            packet: Packet { proxy, ..self.came },
            reroutes: work.reroutes,
        }
    }

    /// Forwarding to the next server.
    fn send(&self, next: u32, work: &Work) -> forward::Step {
        let packet = Packet {
            dst: self.came.dst,
            has_proxy: work.proxy.is_some(),
            proxy: work.proxy.unwrap_or(0),
            retry: work.retry,
            ttl: self.came.ttl - 1,
        };
        forward::Step {
            refusal: 0,
            ending: forward::FORWARDED,
            next,
            packet,
            reroutes: work.reroutes,
        }
    }

    /// Sentences 4 to 10.
    fn sentence_4(&self, work: Work) -> forward::Step {
        let goal = work.proxy.unwrap_or(self.came.dst);
        let servers = route(self.h, self.own, goal);
        let mut links = servers.windows(2).map(|pair| (pair[0], pair[1]));
        let above = links.find(|&(x, y)| joint_level(self.h, x, y) > self.h.b);
        let target = match above {
            None => goal,
            Some((n1, n2)) => {
                let level = joint_level(self.h, n1, n2);
                if !self.usable_above(n1, level) {
                    return self.reroute(work, above);
                }
                if self.own == n1 {
                    return self.send(n2, &work);
                }
                n1
            }
        };
        if let Some(next) = next_hop(self.h, self.first, self.table, self.own, target) {
            return self.send(next, &work);
        }
        if same_cell(self.h, self.own, self.came.dst, self.h.b) {
            return self.end(forward::DROP_NO_ROUTE, &work);
        }
        self.reroute(work, above)
    }

    /// The reroute.
    fn reroute(&self, mut work: Work, above: Option<(u32, u32)>) -> forward::Step {
        if work.retry <= 1 {
            return self.end(forward::DROP_RETRY, &work);
        }
        work.retry -= 1;
        let Some((n1, n2)) = above else {
            work.proxy = None;
            work.arrived = false;
            work.reroutes += 1;
            return self.sentence_4(work);
        };
        let mut m = joint_level(self.h, n1, n2);
        if work.arrived && m < self.h.k {
            m += 1;
        }
        let Some(proxy) = self.proxy_from(m) else {
            return self.end(forward::DROP_NO_PROXY, &work);
        };
        work.proxy = Some(proxy);
        work.arrived = false;
        work.reroutes += 1;
        self.sentence_4(work)
    }

    /// The proxy the candidates of the first level with any give.
    fn proxy_from(&self, m: u32) -> Option<u32> {
        let distance = distances(self.h, self.first, self.table, self.own, self.h.b);
        for level in m..=self.h.k {
            let mut candidates = Vec::new();
            for (p1, &away) in (self.first..).zip(&distance) {
                if away != NEVER && self.usable_above(p1, level) {
                    candidates.push((away, p1));
                }
            }
            if let Some(&(_, p1)) = candidates.iter().min() {
                return Some(neighbour(self.h, p1, level));
            }
        }
        None
    }
}

/// A random table of so many bytes: mostly code 1 when failures are rare, and now and then an unknown code.
pub fn table(random: &mut crate::random::Random, length: usize, one_fault_in: u32) -> Vec<u8> {
    let mut code = || {
        if random.once_in(one_fault_in) {
            [0, 2, 3, 4, 7, 255][random.below(6) as usize]
        } else {
            UP
        }
    };
    (0..length).map(|_| code()).collect()
}
