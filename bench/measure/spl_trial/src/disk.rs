//! A disk in memory that tells nothing of what it holds, so that its calls ask for nothing either.
ghost use Rattle.std.specs.Prelude.{◌≤◌, length, IfSome, None};
ghost use Rattle.spl_edge.specs.Devices.{image_now};
ghost use Rattle.spl_memory.specs.MemDisks.{disk_view};

use spl_edge::{DeviceError, Disk, Fill, Pair, StopDisk};
use spl_memory::MemDisk;
use std::alloc::{AllocError, Global};

/// A disk in memory, which is made to stop as any is.
#[derive(Drop)]
pub struct PlainDisk {
    disk: MemDisk,
    /// It has no fewer bytes.
    least: u64,
    ghost within: { IfSome (image_now (disk_view disk)) (λ i. least ≤ length i.bytes) },
}

/// Two of them.
pub type PlainDisks = Pair<PlainDisk>;

impl PlainDisk {
    /// A blank disk.
    pub fn blank(alloc: Global) -> PlainDisk {
        PlainDisk {
            disk: MemDisk::new(alloc, Vec::new(alloc)),
            least: 0,
        }
    }

    /// A disk that has these bytes.
    pub fn of(alloc: Global, bytes: &[u8]) -> Result<PlainDisk, DeviceError> {
        let mut disk = PlainDisk::blank(alloc);
        disk.write_at(0, bytes)?;
        disk.sync()?;
        Ok(disk)
    }

    /// All its bytes.
    pub fn bytes(&mut self, alloc: Global) -> Result<Vec<u8>, DeviceError> {
        let len = self.len()?;
        let mut found = vec![in alloc; 0u8; len as usize]?;
        self.read(0, &mut found)?;
        Ok(found)
    }

    /// How many bytes it has at least, and exactly where no call failed. No call is made.
    pub fn least(&self) -> u64 {
        self.least
    }

    /// Lets so many more calls pass, and none after them.
    pub fn stop_after(&mut self, calls: u32) {
        self.disk.stop_after(calls);
    }

    /// Makes what a stop may leave the content, and disarms.
    pub fn pick(&mut self, alloc: Global, fill: Fill) -> Result<(), AllocError> {
        self.least = 0;
        self.disk.pick(alloc, fill)?;
        if let Ok(len) = self.disk.len() {
            self.least = len;
        }
        Ok(())
    }
}

impl Disk for PlainDisk {
    ghost use Rattle.spl_edge.specs.Devices.{untold_disk};
    ghost use Rattle.spl_memory.specs.MemDisks.{disk_view};

    ghost view = { λ d. untold_disk (disk_view d.disk).moment (disk_view d.disk).faults };

    ghost possible = { λ _. tt };

    fn len(&mut self) -> Result<u64, DeviceError> {
        self.disk.len()
    }

    fn read(&mut self, at: u64, buf: &mut [u8]) -> Result<usize, DeviceError> {
        self.disk.read(at, buf)
    }

    fn write_at(&mut self, at: u64, bytes: &[u8]) -> Result<(), DeviceError> {
        if self.least < at {
            let _ = self.disk.len();
            return Err(DeviceError::NoMemory);
        }
        self.disk.write_at(at, bytes)?;
        self.least = self.least.max(at + bytes.len() as u64);
        Ok(())
    }

    fn cut(&mut self, len: u64) -> Result<(), DeviceError> {
        if self.least < len {
            let _ = self.disk.len();
            return Err(DeviceError::NoMemory);
        }
        self.least = len;
        self.disk.cut(len)
    }

    fn sync(&mut self) -> Result<(), DeviceError> {
        self.disk.sync()
    }
}
