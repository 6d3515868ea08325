//! The plant second's 36 bytes, little-endian.

pub const LENGTH: usize = 36;

#[derive(Clone, Copy, Debug, Default, PartialEq)]
pub struct Record {
    pub measured: i32,
    pub working_point: i32,
    pub fcr_held: i32,
    pub afrr_held_up: i32,
    pub afrr_held_down: i32,
    pub afrr_setpoint: i32,
    pub mfrr_target: i32,
    pub delivery_end: u32,
    pub deviation: i16,
    pub status: u8,
    pub call: u8,
}

fn four(bytes: &[u8], at: usize) -> [u8; 4] {
    [bytes[at], bytes[at + 1], bytes[at + 2], bytes[at + 3]]
}

impl Record {
    /// The fields of 36 bytes.
    pub fn read(bytes: &[u8]) -> Record {
        Record {
            measured: i32::from_le_bytes(four(bytes, 0)),
            working_point: i32::from_le_bytes(four(bytes, 4)),
            fcr_held: i32::from_le_bytes(four(bytes, 8)),
            afrr_held_up: i32::from_le_bytes(four(bytes, 12)),
            afrr_held_down: i32::from_le_bytes(four(bytes, 16)),
            afrr_setpoint: i32::from_le_bytes(four(bytes, 20)),
            mfrr_target: i32::from_le_bytes(four(bytes, 24)),
            delivery_end: u32::from_le_bytes(four(bytes, 28)),
            deviation: i16::from_le_bytes([bytes[32], bytes[33]]),
            status: bytes[34],
            call: bytes[35],
        }
    }

    /// The 36 bytes of the fields.
    pub fn write(&self) -> [u8; LENGTH] {
        let mut bytes = [0; LENGTH];
        bytes[0..4].copy_from_slice(&self.measured.to_le_bytes());
        bytes[4..8].copy_from_slice(&self.working_point.to_le_bytes());
        bytes[8..12].copy_from_slice(&self.fcr_held.to_le_bytes());
        bytes[12..16].copy_from_slice(&self.afrr_held_up.to_le_bytes());
        bytes[16..20].copy_from_slice(&self.afrr_held_down.to_le_bytes());
        bytes[20..24].copy_from_slice(&self.afrr_setpoint.to_le_bytes());
        bytes[24..28].copy_from_slice(&self.mfrr_target.to_le_bytes());
        bytes[28..32].copy_from_slice(&self.delivery_end.to_le_bytes());
        bytes[32..34].copy_from_slice(&self.deviation.to_le_bytes());
        bytes[34] = self.status;
        bytes[35] = self.call;
        bytes
    }
}
