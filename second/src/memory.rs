//! Lent RAM at the bottom of the address space, lent ROM at its top.

pub const ADDRESS_SPACE: usize = 1 << 20;

/// What an address outside RAM and ROM reads as.
const EMPTY: u8 = 0xFF;

pub struct Memory<'a> {
    ram: &'a mut [u8],
    rom: &'a [u8],
    rom_start: usize,
}

impl<'a> Memory<'a> {
    pub fn new(ram: &'a mut [u8], rom: &'a [u8]) -> Memory<'a> {
        let rom_start = ADDRESS_SPACE.saturating_sub(rom.len());
        Memory {
            ram,
            rom,
            rom_start,
        }
    }

    pub fn fits_the_address_space(&self) -> bool {
        self.ram.len() + self.rom.len() <= ADDRESS_SPACE
    }

    #[inline]
    pub fn read_byte(&self, segment: u16, offset: u16) -> u8 {
        let address = address(segment, offset);
        if let Some(byte) = self.ram.get(address) {
            *byte
        } else if address >= self.rom_start {
            self.rom[address - self.rom_start]
        } else {
            EMPTY
        }
    }

    #[inline]
    pub fn read_word(&self, segment: u16, offset: u16) -> u16 {
        let low = self.read_byte(segment, offset);
        let high = self.read_byte(segment, offset.wrapping_add(1));
        u16::from_le_bytes([low, high])
    }

    /// Drops a byte that does not fall into RAM, and says how many it dropped.
    #[inline]
    pub fn write_byte(&mut self, segment: u16, offset: u16, value: u8) -> u32 {
        match self.ram.get_mut(address(segment, offset)) {
            Some(byte) => {
                *byte = value;
                0
            }
            None => 1,
        }
    }

    /// Each half falls into RAM or is dropped by itself.
    #[inline]
    pub fn write_word(&mut self, segment: u16, offset: u16, value: u16) -> u32 {
        let [low, high] = value.to_le_bytes();
        self.write_byte(segment, offset, low)
            + self.write_byte(segment, offset.wrapping_add(1), high)
    }
}

#[inline]
pub fn address(segment: u16, offset: u16) -> usize {
    (usize::from(segment) * 16 + usize::from(offset)) % ADDRESS_SPACE
}
