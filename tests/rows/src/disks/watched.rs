//! A disk in memory whose length is known without a call.
use spl_edge::{DeviceError, Disk, Fill, Pair, StopDisk};
use spl_memory::MemDisk;
use std::alloc::{AllocError, Global};

/// A disk in memory, and how long it is where no call failed. A call of its own would count where the disk is armed.
#[derive(Drop)]
pub struct WatchedDisk {
    disk: MemDisk,
    len: u64,
}

/// Two of them.
pub type WatchedDisks = Pair<WatchedDisk>;

impl WatchedDisk {
    /// A disk that has these bytes.
    pub fn of(alloc: Global, bytes: &[u8]) -> Result<WatchedDisk, DeviceError> {
        let mut disk = WatchedDisk {
            disk: MemDisk::new(alloc, Vec::new(alloc)),
            len: 0,
        };
        disk.write_at(0, bytes)?;
        disk.sync()?;
        Ok(disk)
    }

    /// All its bytes.
    pub fn bytes(&mut self, alloc: Global) -> Result<Vec<u8>, DeviceError> {
        let len = self.len()?;
        let mut found = vec![in alloc; 0u8; len as usize]?;
        self.read(0, &mut found)?;
        Ok(found)
    }

    /// How many bytes it has. No call is made.
    pub fn known_len(&self) -> u64 {
        self.len
    }

    /// Lets so many more calls pass, and none after them.
    pub fn stop_after(&mut self, calls: u32) {
        self.disk.stop_after(calls);
    }

    /// Makes what a stop may leave the content, and disarms.
    pub fn pick(&mut self, alloc: Global, fill: Fill) -> Result<(), AllocError> {
        self.disk.pick(alloc, fill)?;
        self.len = self.disk.len().unwrap_or(0);
        Ok(())
    }
}

impl Disk for WatchedDisk {
    ghost view = { _ };

    ghost possible = { _ };

    fn len(&mut self) -> Result<u64, DeviceError> {
        self.disk.len()
    }

    fn read(&mut self, at: u64, buf: &mut [u8]) -> Result<usize, DeviceError> {
        self.disk.read(at, buf)
    }

    fn write_at(&mut self, at: u64, bytes: &[u8]) -> Result<(), DeviceError> {
        self.disk.write_at(at, bytes)?;
        self.len = self.len.max(at + bytes.len() as u64);
        Ok(())
    }

    fn cut(&mut self, len: u64) -> Result<(), DeviceError> {
        self.disk.cut(len)?;
        self.len = len;
        Ok(())
    }

    fn sync(&mut self) -> Result<(), DeviceError> {
        self.disk.sync()
    }
}
