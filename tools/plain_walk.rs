//! A plain walk over a UFS1 or UFS2 volume, to measure dfredact against. It reads each directory once, the blocks of pointers of a
//! directory twice and of other files once, and keeps each file's names and pieces. Of the inodes it keeps the block that was read
//! last: it reads each block once where the entries stand in the order of their inodes, and else again at each return to it. Nothing
//! is proved of it, and a damaged image stops it anyhow.
//!
//!     rustc --edition 2021 -O -o /tmp/plain_walk tools/plain_walk.rs && time /tmp/plain_walk IMAGE
//!
//! It prints how many names, files and pieces there are.
use std::collections::{BTreeMap, HashMap};
use std::fs::File;
use std::os::unix::fs::FileExt;

/// The volume, and the block of inodes that was read last.
struct Volume {
    file: File,
    version: u8,
    super_block: Vec<u8>,
    inodes_at: u64,
    inodes: Vec<u8>,
}

/// A file: its names, and its pieces as places and lengths in bytes.
#[derive(Default)]
struct Entry {
    names: Vec<String>,
    pieces: Vec<(u64, u64)>,
}

/// What an inode says of a stream.
struct Inode {
    mode: u16,
    size: u64,
    pointers: Vec<u64>,
}

fn number(bytes: &[u8], at: usize, len: usize) -> u64 {
    bytes[at..at + len].iter().rev().fold(0, |n, byte| n << 8 | u64::from(*byte))
}

impl Volume {
    fn open(path: &str) -> Volume {
        let file = File::open(path).expect("the image can be opened");
        let (version, super_block) = [(2, 65536, 0x19540119), (1, 8192, 0x011954)]
            .into_iter()
            .find_map(|(version, at, magic)| {
                let mut bytes = vec![0; 1376];
                file.read_exact_at(&mut bytes, at).ok()?;
                (number(&bytes, 1372, 4) == magic).then_some((version, bytes))
            })
            .expect("the image is a UFS volume");
        Volume { file, version, super_block, inodes_at: u64::MAX, inodes: Vec::new() }
    }

    fn field(&self, at: usize) -> u64 {
        number(&self.super_block, at, 4)
    }

    fn read(&self, at: u64, len: u64) -> Vec<u8> {
        let mut bytes = vec![0; len as usize];
        self.file.read_exact_at(&mut bytes, at).expect("the block lies in the image");
        bytes
    }

    fn pointer_len(&self) -> usize {
        if self.version == 1 { 4 } else { 8 }
    }

    fn inode(&mut self, number_of: u32) -> Inode {
        let (per_group, per_block) = (self.field(184), self.field(120));
        let (group, in_group) = (u64::from(number_of) / per_group, u64::from(number_of) % per_group);
        let moved = if self.version == 1 { self.field(24) * (group & !self.field(28) & 0xFFFF_FFFF) } else { 0 };
        let fragment = self.field(188) * group + moved + self.field(16) + in_group / per_block * self.field(56);
        let at = fragment * self.field(52);
        if at != self.inodes_at {
            self.inodes = self.read(at, self.field(48));
            self.inodes_at = at;
        }
        let (len, size_at, pointers_at) = if self.version == 1 { (128, 8, 40) } else { (256, 16, 112) };
        let begin = (in_group % per_block) as usize * len;
        let inode = &self.inodes[begin..begin + len];
        let width = self.pointer_len();
        Inode {
            mode: number(inode, 0, 2) as u16,
            size: number(inode, size_at, 8),
            pointers: (0..15).map(|i| number(inode, pointers_at + i * width, width)).collect(),
        }
    }

    /// The blocks of a stream, in order: where each begins, or 0 for a hole.
    fn blocks(&self, inode: &Inode) -> Vec<u64> {
        let count = inode.size.div_ceil(self.field(48));
        let mut blocks = Vec::new();
        for (i, pointer) in inode.pointers.iter().enumerate() {
            self.push_blocks(*pointer, i.saturating_sub(11), count, &mut blocks);
        }
        blocks
    }

    fn push_blocks(&self, pointer: u64, level: usize, count: u64, blocks: &mut Vec<u64>) {
        if blocks.len() as u64 >= count {
            return;
        }
        if level == 0 {
            blocks.push(pointer * self.field(52));
        } else if pointer == 0 {
            let span = self.field(116).pow(level as u32).min(count - blocks.len() as u64);
            blocks.extend(std::iter::repeat(0).take(span as usize));
        } else {
            let bytes = self.read(pointer * self.field(52), self.field(48));
            for pointer in bytes.chunks(self.pointer_len()) {
                self.push_blocks(number(pointer, 0, pointer.len()), level - 1, count, blocks);
            }
        }
    }

    fn pieces(&self, inode: &Inode) -> Vec<(u64, u64)> {
        let unit = self.field(48);
        let mut pieces: Vec<(u64, u64)> = Vec::new();
        for (i, at) in self.blocks(inode).into_iter().enumerate() {
            let len = unit.min(inode.size - i as u64 * unit);
            match pieces.last_mut() {
                Some(last) if at != 0 && last.0 + last.1 == at => last.1 += len,
                _ => pieces.push((at, len)),
            }
        }
        pieces
    }
}

fn main() {
    let path = std::env::args().nth(1).expect("usage: plain_walk IMAGE");
    let mut volume = Volume::open(&path);
    let mut files: BTreeMap<u32, Entry> = BTreeMap::new();
    let mut inodes: HashMap<u32, Inode> = HashMap::new();
    inodes.insert(2, volume.inode(2));
    files.entry(2).or_default().names.push("/".to_string());
    let mut directories = vec![(2, String::new())];
    while let Some((directory, parent)) = directories.pop() {
        for (at, len) in volume.pieces(&inodes[&directory]) {
            let bytes = volume.read(at, len);
            let mut entry = 0;
            while entry + 8 <= bytes.len() {
                let child = number(&bytes, entry, 4) as u32;
                let name = &bytes[entry + 8..entry + 8 + usize::from(bytes[entry + 7])];
                entry += number(&bytes, entry + 4, 2) as usize;
                if child == 0 || name == b"." || name == b".." {
                    continue;
                }
                let path = format!("{parent}/{}", String::from_utf8_lossy(name));
                let inode = inodes.entry(child).or_insert_with(|| volume.inode(child));
                if inode.mode >> 12 == 4 {
                    directories.push((child, path.clone()));
                }
                files.entry(child).or_default().names.push(path);
            }
        }
    }
    for (number, entry) in &mut files {
        entry.pieces = volume.pieces(&inodes[number]);
    }
    let names: usize = files.values().map(|entry| entry.names.len()).sum();
    let pieces: usize = files.values().map(|entry| entry.pieces.len()).sum();
    println!("{names} names, {} files, {pieces} pieces", files.len());
}
