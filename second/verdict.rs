//! Whether a packet's checksums may be believed (M-104): one verdict for L3 and one for L4, read
//! from word 1 of its last slot in the order of 02's sentences.

use crate::packet_type::{look_up, PacketType};
use crate::record::bits;

/// Each as it prints.
#[derive(Clone, Copy, Debug, PartialEq, Eq)]
pub enum Verdict {
    NotChecked = 0,
    Good = 1,
    Bad = 2,
}

/// The bits by their names in 01, and what the packet type says.
struct WriteBack {
    l3l4p: bool,
    ipv6exadd: bool,
    int_udp_0: bool,
    ipe: bool,
    l4e: bool,
    packet_type: PacketType,
}

/// L3's verdict and L4's.
pub fn verdicts(word1: u64) -> [Verdict; 2] {
    let written = WriteBack::read(word1);
    if !written.l3l4p || written.packet_type.is_of("unknown") {
        return [Verdict::NotChecked; 2];
    }
    [written.l3(), written.l4()]
}

impl WriteBack {
    fn read(word1: u64) -> WriteBack {
        let (status, error) = (bits(word1, 18, 0), bits(word1, 26, 19));
        let set = |field: u64, bit: u32| bits(field, bit, bit) == 1;
        WriteBack {
            l3l4p: set(status, 3),
            ipv6exadd: set(status, 15),
            int_udp_0: set(status, 18),
            ipe: set(error, 3),
            l4e: set(error, 4),
            packet_type: look_up(bits(word1, 37, 30) as u8),
        }
    }

    /// Of a packet that the hardware processed, its type known. IPv4 types only are checked.
    fn l3(&self) -> Verdict {
        if !self.packet_type.is_of("IPv4") {
            return Verdict::NotChecked;
        }
        decided_by(self.ipe)
    }

    /// Of such a packet too. INT_UDP_0 says something of UDP alone.
    fn l4(&self) -> Verdict {
        let packet_type = &self.packet_type;
        if packet_type.is_fragment() || packet_type.has("ICMP") || packet_type.has("none") {
            return Verdict::NotChecked;
        }
        let udp_without_checksum = packet_type.has("UDP") && self.int_udp_0;
        if udp_without_checksum && packet_type.is_of("IPv4") {
            return Verdict::NotChecked;
        }
        // this comes before IPV6EXADD
        if udp_without_checksum && packet_type.is_of("IPv6") {
            return Verdict::Bad;
        }
        if self.ipv6exadd {
            return Verdict::NotChecked;
        }
        decided_by(self.l4e)
    }
}

fn decided_by(error: bool) -> Verdict {
    if error {
        Verdict::Bad
    } else {
        Verdict::Good
    }
}
