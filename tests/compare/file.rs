//! Makes image files (PROTOCOL 3, "Image files").

/// A directory entry.
#[derive(Clone, Copy)]
pub struct Region {
    pub address: u32,
    pub offset: u32,
    pub length: u32,
}

impl Region {
    /// The first address behind it.
    pub fn end(&self) -> u64 {
        u64::from(self.address) + u64::from(self.length)
    }
}

/// Region bytes, directory, trailer; the count is the number of entries.
pub fn build(body: &[u8], regions: &[Region], transfer: u32) -> Vec<u8> {
    let mut file = body.to_vec();
    for region in regions {
        for number in [region.address, region.offset, region.length] {
            file.extend(number.to_le_bytes());
        }
    }
    file.extend((body.len() as u32).to_le_bytes());
    file.extend((regions.len() as u32).to_le_bytes());
    file.extend(transfer.to_le_bytes());
    file.extend((file.len() as u32 + 4).to_le_bytes());
    file
}
