//! Writes the larger example sheet: a hall of n = 6, k = 2, b = 1 with some cables out, and packets that meet them.

use peer::hall::{self, Hall};
use peer::ports::UP;

/// The hall of the example: 1,806 servers in 43 DCell(1)s of 42.
const HALL: Hall = Hall::full(6, 2, 1);
/// The servers of the hall.
const SERVERS: u32 = 1_806;
/// The servers of a DCell(1).
const CELL: u32 = 42;
/// The ports of a server.
const PORTS: u32 = 3;
/// Port codes that are not up.
const NOT_FITTED: u8 = 0;
const DOWN: u8 = 2;
const SILENT: u8 = 3;
const HELD: u8 = 4;

/// Single cables that are out: a server, the level of its cable, and the code of the ports at both ends.
const CABLES_OUT: [(u32, u32, u8); 7] = [
    (0, 2, DOWN),
    (8, 2, SILENT),
    (253, 2, DOWN),
    (9, 1, HELD),
    (20, 1, DOWN),
    (1_000, 2, HELD),
    (1_700, 1, SILENT),
];
/// Cables that are heard from one side alone: the server whose port is out, the level, and the code of that port.
const ONE_SIDED: [(u32, u32, u8); 1] = [(252, 2, SILENT)];
/// Servers that are off their switch: port 0 alone is out.
const OFF_SWITCH: [u32; 3] = [30, 130, 1_234];
/// Servers with every port out.
const CUT_OFF: [u32; 2] = [100, 200];
/// The DCell(1) that is not cabled to any other.
const UNPLUGGED: u32 = 10;

/// The packets: source, dst, retry, TTL.
const PACKETS: [(u32, u32, u8, u8); 24] = [
    // Straight on.
    (0, 0, 5, 15),
    (0, 1, 5, 15),
    (3, 41, 5, 15),
    (600, 1_805, 5, 15),
    (1_805, 7, 15, 255),
    (425, 460, 5, 15),
    // Around what is out, inside a DCell(1): no reroute.
    (30, 35, 5, 15),
    (130, 1_234, 5, 64),
    // Around a cable between two DCell(1)s, by a proxy.
    (0, 42, 5, 15),
    (42, 0, 5, 64),
    (4, 45, 5, 15),
    (10, 385, 5, 64),
    (252, 47, 5, 64),
    (5, 50, 3, 64),
    // Lost: TTL.
    (3, 1_800, 5, 0),
    (3, 1_800, 5, 3),
    // Lost: no route to a server of the same DCell(1).
    (99, 100, 5, 15),
    (1_500, 100, 5, 15),
    // Lost: retry spent; one more is enough for the second of these packets.
    (5, 50, 1, 64),
    (5, 50, 2, 64),
    (0, 430, 5, 64),
    (1_805, 430, 15, 255),
    // Lost: no proxy.
    (200, 5, 5, 15),
    (430, 5, 5, 15),
];

/// The bytes of the sheet.
pub fn sheet() -> Vec<u8> {
    let codes = codes();
    let mut bytes = vec![0, 0, 0, 3];
    bytes.extend([HALL.n, HALL.k, HALL.b].map(|number| number as u8));
    bytes.extend((codes.len() as u32).to_be_bytes());
    bytes.extend(codes);
    bytes.extend((PACKETS.len() as u32).to_be_bytes());
    for (source, dst, retry, ttl) in PACKETS {
        bytes.extend(source.to_be_bytes());
        bytes.extend(dst.to_be_bytes());
        bytes.extend([retry, ttl]);
    }
    bytes
}

/// The hall table: all up but what is out.
fn codes() -> Vec<u8> {
    let mut codes = vec![UP; (SERVERS * PORTS) as usize];
    for (uid, level, code) in CABLES_OUT {
        put_cable(&mut codes, uid, level, code);
    }
    for (uid, level, code) in ONE_SIDED {
        put(&mut codes, uid, level, code);
    }
    for uid in OFF_SWITCH {
        put(&mut codes, uid, 0, DOWN);
    }
    for uid in CUT_OFF {
        (0..PORTS).for_each(|port| put(&mut codes, uid, port, DOWN));
    }
    for uid in UNPLUGGED * CELL..(UNPLUGGED + 1) * CELL {
        put_cable(&mut codes, uid, 2, NOT_FITTED);
    }
    codes
}

/// Writes a code for both ends of a cable.
fn put_cable(codes: &mut [u8], uid: u32, level: u32, code: u8) {
    put(codes, uid, level, code);
    put(codes, hall::neighbour(HALL, uid, level).uid, level, code);
}

/// Writes a code for a port.
fn put(codes: &mut [u8], uid: u32, port: u32, code: u8) {
    codes[(uid * PORTS + port) as usize] = code;
}

#[cfg(test)]
mod tests {
    use super::*;
    use peer::{report, sheet as sheets};

    /// The examples, as they are kept beside this package.
    const KEPT: &[u8] = include_bytes!("../../examples/large.sheet");
    const EXPECTED: &[u8] = include_bytes!("../../examples/large.expected");

    #[test]
    fn the_sheet_is_sound_and_is_the_one_that_is_kept() {
        assert_eq!(sheets::read(&sheet()).refusal, 0);
        assert_eq!(sheet(), KEPT);
    }

    #[test]
    fn the_expected_text_is_the_peers_trace() {
        assert_eq!(report::trace(KEPT), EXPECTED);
    }

    #[test]
    fn every_ending_is_met_and_some_packets_are_rerouted() {
        let text = String::from_utf8_lossy(EXPECTED);
        for ending in ["DELIVERED", "DROP1", "DROP2", "DROP3", "DROP4"] {
            assert!(text.contains(ending), "{ending}");
        }
        let rerouted = |line: &&str| line.split(' ').nth(4).is_some_and(|count| count != "0");
        let delivered = text.lines().filter(|line| line.contains("DELIVERED"));
        assert!(delivered.filter(rerouted).count() >= 3);
    }
}
