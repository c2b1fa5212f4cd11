//! The sheet: numbers in groups of seven bits, and the nodes that they say (1 to 5, with the byte place).
use super::maps::*;
use super::records::*;
use super::refusals::*;

/// Bits of a number in one group; the bit above them says that another group follows.
pub const GROUP_BITS: u64 = 7;
pub const MORE: u8 = 1 << GROUP_BITS;
/// "At most 8 groups."
pub const MOST_GROUPS: u64 = 8;

struct Sheet<'a> {
    bytes: &'a [u8],
    at: usize,
}

impl Sheet<'_> {
    fn byte(&mut self) -> Result<u8, Refusal> {
        match self.bytes.get(self.at) {
            None => refuse(SHORT, self.bytes.len() as u64, 0),
            Some(&b) => {
                self.at += 1;
                Ok(b)
            }
        }
    }

    fn number(&mut self) -> Result<u64, Refusal> {
        let mut value = 0;
        for group in 0..MOST_GROUPS {
            let place = self.at as u64;
            let b = self.byte()?;
            value += u64::from(b % MORE) << (GROUP_BITS * group);
            let more = b >= MORE;
            if more && group == MOST_GROUPS - 1 {
                return refuse(NUMBER, place, 0);
            }
            if b == 0 && group > 0 {
                return refuse(NUMBER, place, 0);
            }
            if !more {
                break;
            }
        }
        Ok(value)
    }

    /// "Kind, parent + 1 (0 for none), offset, size, priority field; then by kind."
    fn node(&mut self) -> Result<Node, Refusal> {
        let mut node = Node::default();
        let place = self.at as u64;
        node.kind = self.number()?;
        if node.kind > LAST_KIND {
            return refuse(KIND, place, 0);
        }
        node.parent = self.number()?;
        node.offset = self.number()?;
        node.size = self.number()?;
        node.priority = self.number()?;
        match node.kind {
            kind if has_memory(kind) => node.start = self.number()?,
            MMIO => node.port = self.number()?,
            ALIAS => {
                node.target = self.number()?;
                node.alias_offset = self.number()?;
            }
            _ => {}
        }
        Ok(node)
    }
}

/// Reads a sheet and checks the map.
pub fn read_sheet(bytes: &[u8], memory_length: u64) -> Result<Vec<Node>, Refusal> {
    let mut sheet = Sheet { bytes, at: 0 };
    let count = sheet.number()?;
    if count == 0 || count > MOST_NODES {
        return refuse(COUNT, 0, 0);
    }
    let mut nodes = Vec::new();
    for _ in 0..count {
        nodes.push(sheet.node()?);
    }
    if sheet.at < bytes.len() {
        return refuse(TAIL, sheet.at as u64, 0);
    }
    check_nodes(&nodes, memory_length)?;
    Ok(nodes)
}
