//! list IMAGE [SECTOR_SIZE]: a line for each partition of an image: its number, its sectors, its name.

use std::fs::File;
use std::os::unix::fs::FileExt;
use std::process::ExitCode;

/// A table, but for its partitions: gptman_table of gptman.h.
#[repr(C)]
#[derive(Default)]
struct Table {
    disk_guid: [u8; 16],
    first_usable_lba: u64,
    last_usable_lba: u64,
    align: u64,
    entry_count: u32,
    is_backup: u32,
    primary_header_lba: u64,
    primary_entries_lba: u64,
    backup_header_lba: u64,
    backup_entries_lba: u64,
    reserved: [u64; 6],
}

/// An entry of a table: gptman_partition.
#[repr(C)]
#[derive(Clone, Copy)]
struct Partition {
    type_guid: [u8; 16],
    unique_guid: [u8; 16],
    first_lba: u64,
    last_lba: u64,
    attributes: u64,
    name: [u16; 36],
}

const UNUSED: Partition = Partition {
    type_guid: [0; 16],
    unique_guid: [0; 16],
    first_lba: 0,
    last_lba: 0,
    attributes: 0,
    name: [0; 36],
};

/// What a call needs: gptman_needed.
#[repr(C)]
#[derive(Default)]
struct Needed {
    steps: u64,
    bytes: u64,
    from: u64,
    length: u64,
}

const OK: u32 = 0;
const IO: u32 = 1;
const LACKS_BYTES: u32 = 103;
const LACKS_ROOM: u32 = 104;

/// An end is made no longer than this, as a table that asks for more is none that a system reads.
const MOST_BYTES: u64 = 1 << 28;

extern "C" {
    fn gptman_read(
        head: *const u8,
        head_length: usize,
        tail: *const u8,
        tail_length: usize,
        disk_size: u64,
        sector_size: u64,
        table: *mut Table,
        partitions: *mut Partition,
        partition_count: usize,
        needed: *mut Needed,
    ) -> u32;
}

/// The first and the last bytes of a disk.
struct Ends<'a> {
    disk: &'a File,
    size: u64,
    head_end: u64,
    tail_start: u64,
}

impl Ends<'_> {
    /// Makes the end longer that is nearer to the bytes that are lacking. Two ends that meet are the whole disk.
    fn add(&mut self, needed: &Needed) -> Result<(), u32> {
        let (first, last) = (needed.from + needed.length, self.size - needed.from);
        if first.min(last) > MOST_BYTES {
            return Err(LACKS_BYTES);
        }
        if first <= last {
            self.head_end = self.head_end.max(first);
        } else {
            self.tail_start = self.tail_start.min(needed.from);
        }
        if self.head_end >= self.tail_start {
            (self.head_end, self.tail_start) = (self.size, self.size);
        }
        Ok(())
    }

    fn bytes(&self, from: u64, to: u64) -> Result<Vec<u8>, u32> {
        let mut bytes = vec![0; usize::try_from(to - from).map_err(|_| IO)?];
        self.disk.read_exact_at(&mut bytes, from).map_err(|_| IO)?;
        Ok(bytes)
    }
}

/// The entries of the table of a disk, or the number of the fault. The ends grow, and the list of entries too,
/// until the library has what it needs.
fn read(disk: &File, sector_size: u64) -> Result<Vec<Partition>, u32> {
    let size = disk.metadata().map_err(|_| IO)?.len();
    let head_end = sector_size.saturating_mul(34).min(size);
    let tail_start = size
        .saturating_sub(sector_size.saturating_mul(33))
        .max(head_end);
    let mut ends = Ends {
        disk,
        size,
        head_end,
        tail_start,
    };
    let mut partitions = vec![UNUSED; 128];
    loop {
        let (head, tail) = (
            ends.bytes(0, ends.head_end)?,
            ends.bytes(ends.tail_start, size)?,
        );
        let (mut table, mut needed) = (Table::default(), Needed::default());
        // SAFETY: every pointer is that of an array of as many elements as the count behind it says.
        let answer = unsafe {
            gptman_read(
                head.as_ptr(),
                head.len(),
                tail.as_ptr(),
                tail.len(),
                size,
                sector_size,
                &mut table,
                partitions.as_mut_ptr(),
                partitions.len(),
                &mut needed,
            )
        };
        match answer {
            OK => {
                partitions.truncate(table.entry_count as usize);
                return Ok(partitions);
            }
            LACKS_ROOM => partitions.resize(table.entry_count as usize, UNUSED),
            LACKS_BYTES => ends.add(&needed)?,
            fault => return Err(fault),
        }
    }
}

/// The name of a partition. A unit that is half of a pair gives U+FFFD.
fn name(partition: &Partition) -> String {
    let units = partition.name.iter().copied().take_while(|&unit| unit != 0);
    char::decode_utf16(units)
        .map(|c| c.unwrap_or(char::REPLACEMENT_CHARACTER))
        .collect()
}

fn list(path: &str, sector_size: u64) -> Result<(), u32> {
    let disk = File::open(path).map_err(|_| IO)?;
    for (i, partition) in read(&disk, sector_size)?.iter().enumerate() {
        if partition.type_guid != [0; 16] {
            println!(
                "{} {} {} {}",
                i + 1,
                partition.first_lba,
                partition.last_lba,
                name(partition)
            );
        }
    }
    Ok(())
}

fn main() -> ExitCode {
    let words: Vec<String> = std::env::args().skip(1).collect();
    let Some(path) = words.first() else {
        return ExitCode::from(2);
    };
    let sector_size = words.get(1).map_or(Some(512), |word| word.parse().ok());
    let Some(sector_size) = sector_size else {
        return ExitCode::from(2);
    };
    match list(path, sector_size) {
        Ok(()) => ExitCode::SUCCESS,
        Err(fault) => {
            eprintln!("list: fault: {fault}");
            ExitCode::FAILURE
        }
    }
}
