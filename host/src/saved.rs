//! Saved states: a gateway as bytes with a header before them, and files that are written so that a crash leaves the old or the new content.

use crate::{Gateway, Refusal, CACHE_PLACE, FORMAT, NODE_SIZE, SEEN_ROW};
use std::error::Error;
use std::ffi::OsString;
use std::fmt;
use std::fs::{self, File, OpenOptions};
use std::io::{self, Read, Write};
use std::path::{Path, PathBuf};

/// What a saved state begins with.
const NAME: &[u8; 16] = b"pradulins-saved\n";

// Where the numbers of the header stand, the lowest byte first: a format of 4 bytes, a length and a checksum of 8.
const FORMAT_AT: usize = 16;
const LENGTH_AT: usize = 20;
const CHECKSUM_AT: usize = 28;
const HEADER: usize = 36;

/// What stands after the header of the largest state: a node, 256 rows and 64 places.
const LARGEST: usize = NODE_SIZE + 256 * SEEN_ROW + 64 * CACHE_PLACE;

/// Why a gateway was not loaded.
#[derive(Debug)]
pub enum LoadError {
    /// The file could not be read. Where there is none, the error's kind is [`io::ErrorKind::NotFound`].
    Read(io::Error),
    /// There are fewer bytes than the 36 of the header.
    Short {
        /// How many there are.
        found: usize,
    },
    /// The bytes do not begin with the name of a saved state.
    Name,
    /// The state was saved in another format.
    Format {
        /// The format that it was saved in.
        found: u32,
        /// The format that this crate reads, [`FORMAT`].
        read: u32,
    },
    /// The bytes after the header are not as many as it says, or more than any state has.
    Length {
        /// How many it says.
        said: u64,
        /// How many there are; of a file that does not tell its length, at least so many.
        found: u64,
    },
    /// The bytes after the header are not those that were saved.
    Checksum,
    /// The bytes are as they were saved, and they are no node with its stores. [`Gateway::save`] writes no such bytes of a gateway that no damaged
    /// state was loaded into.
    Refused(Refusal),
}

impl fmt::Display for LoadError {
    fn fmt(&self, f: &mut fmt::Formatter<'_>) -> fmt::Result {
        match self {
            LoadError::Read(why) => write!(f, "the saved state cannot be read: {why}"),
            LoadError::Short { found } => write!(f, "no saved state: it has {found} bytes, and the header alone has {HEADER}"),
            LoadError::Name => write!(f, "no saved state: it does not begin with `pradulins-saved`"),
            LoadError::Format { found, read } => write!(f, "the state was saved in format {found}, and format {read} is read"),
            LoadError::Length { said, found } if said == found => {
                write!(f, "the saved state has {found} bytes after its header, and the largest has {LARGEST}")
            }
            LoadError::Length { said, found } => write!(f, "the saved state has {found} bytes after its header, which says {said}"),
            LoadError::Checksum => write!(f, "the saved state was damaged: its checksum is another"),
            LoadError::Refused(refusal) => write!(f, "the saved state is {refusal}"),
        }
    }
}

impl Error for LoadError {
    fn source(&self) -> Option<&(dyn Error + 'static)> {
        match self {
            LoadError::Read(why) => Some(why),
            LoadError::Refused(refusal) => Some(refusal),
            _ => None,
        }
    }
}

/// What each byte does to a checksum.
static TABLE: [u64; 256] = table();

const fn table() -> [u64; 256] {
    // The polynomial of CRC-64/XZ, 0x42F0E1EBA9EA3693, with its bits in the other order.
    const POLYNOMIAL: u64 = 0xc96c_5795_d787_0f42;
    let mut table = [0; 256];
    let mut byte = 0;
    while byte < 256 {
        let mut rest = byte as u64;
        let mut bit = 0;
        while bit < 8 {
            rest = if rest & 1 == 1 { rest >> 1 ^ POLYNOMIAL } else { rest >> 1 };
            bit += 1;
        }
        table[byte] = rest;
        byte += 1;
    }
    table
}

/// CRC-64/XZ.
fn checksum(bytes: &[u8]) -> u64 {
    let mut sum = !0;
    for byte in bytes {
        sum = sum >> 8 ^ TABLE[usize::from(sum as u8 ^ *byte)];
    }
    !sum
}

/// The header with what it stands before.
fn sealed(parts: &[&[u8]]) -> Vec<u8> {
    let length: usize = parts.iter().map(|part| part.len()).sum();
    let mut bytes = Vec::with_capacity(HEADER + length);
    bytes.extend_from_slice(NAME);
    bytes.extend_from_slice(&FORMAT.to_le_bytes());
    bytes.extend_from_slice(&(length as u64).to_le_bytes());
    bytes.extend_from_slice(&[0; 8]);
    for part in parts {
        bytes.extend_from_slice(part);
    }
    let sum = checksum(&bytes[HEADER..]);
    bytes[CHECKSUM_AT..HEADER].copy_from_slice(&sum.to_le_bytes());
    bytes
}

/// What a header stands before, if all of the header is right. These are the first bytes of so many: all, or more than the largest state has.
fn opened(bytes: &[u8], length: u64) -> Result<&[u8], LoadError> {
    if bytes.len() < HEADER {
        return Err(LoadError::Short { found: bytes.len() });
    }
    let (header, rest) = bytes.split_at(HEADER);
    let number = |from: usize, to: usize| header[from..to].iter().rev().fold(0, |v, byte| v << 8 | u64::from(*byte));
    if header[..FORMAT_AT] != NAME[..] {
        return Err(LoadError::Name);
    }
    let format = number(FORMAT_AT, LENGTH_AT) as u32;
    if format != FORMAT {
        return Err(LoadError::Format { found: format, read: FORMAT });
    }
    let (said, found) = (number(LENGTH_AT, CHECKSUM_AT), length - HEADER as u64);
    if said != found || found > LARGEST as u64 {
        return Err(LoadError::Length { said, found });
    }
    if number(CHECKSUM_AT, HEADER) != checksum(rest) {
        return Err(LoadError::Checksum);
    }
    Ok(rest)
}

impl Gateway {
    /// Its state as bytes, for [`Gateway::load`]: a header of 36 bytes, then the node and its two stores.
    ///
    /// The header has a name, `pradulins-saved` and a newline, in 16 bytes; then, each with its lowest byte first, the [`FORMAT`] in 4, the length of
    /// what follows the header in 8, and the checksum of what follows it in 8, which is CRC-64/XZ.
    pub fn save(&self) -> Vec<u8> {
        let (node, seen, cache) = self.parts();
        sealed(&[node, seen, cache])
    }

    /// The gateway that was saved.
    ///
    /// Bytes of any origin may be passed. In this order it is tested that there are as many as a header has ([`LoadError::Short`]), its name, its
    /// format, its length and its checksum. Then the library tests the node and its stores ([`LoadError::Refused`]): [`Refusal::Malformed`] (42) for
    /// fewer bytes than a node has, and for settings that no gateway is started with; [`Refusal::BadStore`] (41) where the stores are not as long as the
    /// settings say; then [`Refusal::Malformed`] where node and stores are not well formed. `load(&[])` is `Err(LoadError::Short { found: 0 })`.
    ///
    /// What a version before 0.7.0 saved is not loaded: a state of 0.3 to 0.6 is of format 2, one of 0.2.0 of format 1 ([`LoadError::Format`]), and one of 0.1.0 has no
    /// header ([`LoadError::Name`]). Start a new gateway then, and let it catch up; docs/OPERATING.md of the repository says what that means.
    ///
    /// The checksum finds bytes that were damaged. It is not a signature: who can write the file can write any state with a right checksum.
    pub fn load(bytes: &[u8]) -> Result<Gateway, LoadError> {
        Gateway::load_part(bytes, bytes.len() as u64)
    }

    /// The same of the first bytes of so many.
    fn load_part(bytes: &[u8], length: u64) -> Result<Gateway, LoadError> {
        let rest = opened(bytes, length)?;
        if rest.len() < NODE_SIZE {
            return Err(LoadError::Refused(Refusal::Malformed));
        }
        let (node, stores) = rest.split_at(NODE_SIZE);
        Gateway::tested(node, stores).map_err(LoadError::Refused)
    }

    /// Writes [`Gateway::save`] to a file by [`write_file`], so that a crash leaves the state that was saved before, or this one.
    pub fn save_to(&self, path: impl AsRef<Path>) -> io::Result<()> {
        write_file(path, &self.save())
    }

    /// The gateway that [`Gateway::save_to`] wrote to a file. Of a file that is longer than any state it reads no more than the largest has.
    ///
    /// A host that starts for the first time has no file, and should start a new gateway then and only then: what is wrong with a file is for a
    /// person to look at, since a new gateway has seen nothing and calls old notices new.
    ///
    /// ```no_run
    /// use pradulins::{Gateway, LoadError, Settings};
    /// use std::io::ErrorKind;
    ///
    /// let settings = Settings { ttl: 3_600_000, max_seen: 256, history_len: 4, max_messages: 64, allow_unsigned: false, skip_groups: false };
    /// let gateway = match Gateway::load_from("gateway.state") {
    ///     Ok(gateway) => gateway,
    ///     Err(LoadError::Read(why)) if why.kind() == ErrorKind::NotFound => Gateway::start(settings)?,
    ///     Err(why) => return Err(why.into()),
    /// };
    /// # Ok::<(), Box<dyn std::error::Error>>(())
    /// ```
    pub fn load_from(path: impl AsRef<Path>) -> Result<Gateway, LoadError> {
        let (bytes, length) = read_part(path.as_ref()).map_err(LoadError::Read)?;
        Gateway::load_part(&bytes, length)
    }
}

/// Writes a file so that a crash leaves the old content or the new.
///
/// The bytes go to a file beside it, with `.new` after the name, and to the disk; that file is then renamed over the old one, and the folder is
/// flushed. On an error the file beside is removed, and the old one stays; only where flushing the folder is what failed, the new one is there. A
/// `.new` file that a crash left is removed by the next call.
///
/// A state holds what notices hold. On Unix the new file has the permissions of the old one; where there is none, its owner alone may read and write
/// it (0600). Its owner is the program's user.
///
/// Two writers of one file at once are not for this: each takes the other's `.new` file for its own.
pub fn write_file(path: impl AsRef<Path>, bytes: &[u8]) -> io::Result<()> {
    let path = path.as_ref();
    let beside = beside(path)?;
    let written = write_whole(&beside, bytes, path).and_then(|()| fs::rename(&beside, path));
    if let Err(why) = written {
        let _ = fs::remove_file(&beside);
        return Err(why);
    }
    let folder = match path.parent() {
        Some(folder) if !folder.as_os_str().is_empty() => folder,
        _ => Path::new("."),
    };
    File::open(folder)?.sync_all()
}

/// The name of the file beside.
fn beside(path: &Path) -> io::Result<PathBuf> {
    let Some(name) = path.file_name() else {
        return Err(io::Error::new(io::ErrorKind::InvalidInput, "the path names no file"));
    };
    let mut name = OsString::from(name);
    name.push(".new");
    Ok(path.with_file_name(name))
}

/// A new file with these bytes, on the disk, with the permissions of the old one.
fn write_whole(path: &Path, bytes: &[u8], old: &Path) -> io::Result<()> {
    match fs::remove_file(path) {
        Err(why) if why.kind() != io::ErrorKind::NotFound => return Err(why),
        _ => {}
    }
    let mut options = OpenOptions::new();
    options.write(true).create_new(true);
    let mut file = kept(options, path, old)?;
    file.write_all(bytes)?;
    file.sync_all()
}

/// Opens a new file for its owner alone; then it gets the permissions of the old file, if there is one.
#[cfg(unix)]
fn kept(mut options: OpenOptions, path: &Path, old: &Path) -> io::Result<File> {
    use std::os::unix::fs::OpenOptionsExt;
    let file = options.mode(0o600).open(path)?;
    if let Ok(old) = fs::metadata(old) {
        if file.metadata()?.permissions() != old.permissions() {
            file.set_permissions(old.permissions())?;
        }
    }
    Ok(file)
}

#[cfg(not(unix))]
fn kept(options: OpenOptions, path: &Path, _old: &Path) -> io::Result<File> {
    options.open(path)
}

/// The bytes of a file, but at most one more than the largest state has; and how many it has.
fn read_part(path: &Path) -> io::Result<(Vec<u8>, u64)> {
    let file = File::open(path)?;
    let told = file.metadata()?.len();
    let mut bytes = Vec::new();
    file.take((HEADER + LARGEST) as u64 + 1).read_to_end(&mut bytes)?;
    let read = bytes.len() as u64;
    Ok((bytes, if read > (HEADER + LARGEST) as u64 { read.max(told) } else { read }))
}

#[cfg(test)]
mod tests {
    use super::*;

    /// The word that an error is, for comparing.
    fn word(result: Result<impl Sized, LoadError>) -> String {
        match result {
            Ok(_) => "loaded".to_string(),
            Err(LoadError::Read(why)) => format!("Read({:?})", why.kind()),
            Err(why) => format!("{why:?}"),
        }
    }

    fn whole(bytes: &[u8]) -> Result<&[u8], LoadError> {
        opened(bytes, bytes.len() as u64)
    }

    #[test]
    fn the_checksum_is_crc_64_xz() {
        assert_eq!(checksum(b"123456789"), 0x995d_c9bb_df19_39fa);
        assert_eq!(checksum(b""), 0);
    }

    #[test]
    fn the_header_stands_as_told() {
        let bytes = sealed(&[b"1234", b"", b"56789"]);
        assert_eq!(bytes[..16], *b"pradulins-saved\n");
        assert_eq!(bytes[16..20], [3, 0, 0, 0]);
        assert_eq!(bytes[20..28], [9, 0, 0, 0, 0, 0, 0, 0]);
        assert_eq!(bytes[28..36], 0x995d_c9bb_df19_39fa_u64.to_le_bytes());
        assert_eq!(bytes[36..], *b"123456789");
        assert_eq!(whole(&bytes).unwrap(), b"123456789");
    }

    #[test]
    fn the_header_is_tested_in_order() {
        let right = sealed(&[b"123456789"]);
        assert_eq!(word(whole(&[])), "Short { found: 0 }");
        assert_eq!(word(whole(&[b'x'; 35])), "Short { found: 35 }");
        assert_eq!(word(whole(&right[..35])), "Short { found: 35 }");
        assert_eq!(word(whole(&[0; 36])), "Name");
        let mut bytes = right.clone();
        bytes[40] = 0;
        assert_eq!(word(whole(&bytes)), "Checksum");
        bytes.push(0);
        assert_eq!(word(whole(&bytes)), "Length { said: 9, found: 10 }");
        bytes[17] = 1;
        assert_eq!(word(whole(&bytes)), "Format { found: 259, read: 3 }");
        bytes[0] = b'P';
        assert_eq!(word(whole(&bytes)), "Name");
        assert_eq!(word(whole(&right[..36])), "Length { said: 9, found: 0 }");
    }

    /// Its length and its checksum are right, and the format is what is told.
    #[test]
    fn headers_of_the_formats_1_and_2() {
        for (format, node) in [(1, 11_344), (2, 12_432)] {
            let mut old = sealed(&[&vec![0; node], &[0; 4 * SEEN_ROW], &[0; 2 * CACHE_PLACE]]);
            assert_eq!(whole(&old).unwrap().len(), old.len() - HEADER);
            old[FORMAT_AT] = format;
            assert_eq!(word(Gateway::load(&old)), format!("Format {{ found: {format}, read: 3 }}"));
        }
    }

    #[test]
    fn no_state_is_longer() {
        let largest = sealed(&[&vec![7; LARGEST]]);
        assert_eq!((LARGEST, whole(&largest).unwrap().len()), (307_608, LARGEST));
        let longer = sealed(&[&vec![7; LARGEST + 1]]);
        assert_eq!(word(whole(&longer)), "Length { said: 307609, found: 307609 }");
        // The first bytes of a file that has more.
        assert_eq!(word(opened(&longer, 1_000_000)), "Length { said: 307609, found: 999964 }");
        assert_eq!(word(opened(&largest, 1_000_000)), "Length { said: 307608, found: 999964 }");
    }

    #[test]
    fn no_more_is_read_than_the_largest_has() {
        let folder = Folder::new("largest");
        let file = folder.0.join("file");
        let most = HEADER + LARGEST;
        for (length, read) in [(0, 0), (5, 5), (most, most), (most + 1, most + 1), (most + 2, most + 1), (3_000_000_000, most + 1)] {
            File::create(&file).unwrap().set_len(length as u64).unwrap();
            let (bytes, told) = read_part(&file).unwrap();
            assert_eq!((bytes.len(), told), (read, length as u64));
        }
        assert_eq!(word(Gateway::load_from(&file)), "Name");
        // A header, and then more than is read.
        let mut long = File::create(&file).unwrap();
        long.write_all(&sealed(&[b"123456789"])).unwrap();
        long.set_len(3_000_000_036).unwrap();
        assert_eq!(word(Gateway::load_from(&file)), "Length { said: 9, found: 3000000000 }");
        assert_eq!(word(Gateway::load_from(&folder.0)), format!("Read({:?})", fs::read(&folder.0).unwrap_err().kind()));
    }

    #[test]
    #[cfg(unix)]
    fn who_may_read_it() {
        use std::os::unix::fs::PermissionsExt;
        let folder = Folder::new("mode");
        let file = folder.0.join("a.state");
        let mode = || fs::metadata(&file).unwrap().permissions().mode() & 0o7777;
        write_file(&file, b"first").unwrap();
        assert_eq!(mode(), 0o600);
        for kept in [0o640, 0o604, 0o666, 0o400, 0o600] {
            fs::set_permissions(&file, fs::Permissions::from_mode(kept)).unwrap();
            // One that a crash left, which anybody may read.
            let left = folder.0.join("a.state.new");
            fs::write(&left, b"left by a crash").unwrap();
            fs::set_permissions(&left, fs::Permissions::from_mode(0o444)).unwrap();
            write_file(&file, b"next").unwrap();
            assert_eq!((mode(), fs::read(&file).unwrap()), (kept, b"next".to_vec()));
        }
        assert_eq!(folder.names(), ["a.state"]);
    }

    #[test]
    fn errors_in_words() {
        let missing = io::Error::new(io::ErrorKind::NotFound, "there is no file");
        for (why, words) in [
            (LoadError::Read(missing), "the saved state cannot be read: there is no file"),
            (LoadError::Short { found: 0 }, "no saved state: it has 0 bytes, and the header alone has 36"),
            (LoadError::Name, "no saved state: it does not begin with `pradulins-saved`"),
            (LoadError::Format { found: 2, read: 3 }, "the state was saved in format 2, and format 3 is read"),
            (LoadError::Length { said: 9, found: 8 }, "the saved state has 8 bytes after its header, which says 9"),
            (LoadError::Length { said: 400_000, found: 400_000 }, "the saved state has 400000 bytes after its header, and the largest has 307608"),
            (LoadError::Checksum, "the saved state was damaged: its checksum is another"),
            (LoadError::Refused(Refusal::Malformed), "the saved state is refused 42: node and stores, or the rows of an RPC, are not well formed"),
        ] {
            assert_eq!(why.to_string(), words);
            assert_eq!(why.source().is_some(), matches!(why, LoadError::Read(_) | LoadError::Refused(_)));
        }
    }

    /// A folder of a test's own, removed at its end.
    struct Folder(PathBuf);

    impl Folder {
        fn new(name: &str) -> Folder {
            let path = std::env::temp_dir().join(format!("pradulins-{name}-{}", std::process::id()));
            fs::create_dir_all(&path).unwrap();
            Folder(path)
        }

        fn names(&self) -> Vec<String> {
            let mut names: Vec<_> = fs::read_dir(&self.0).unwrap().map(|entry| entry.unwrap().file_name().into_string().unwrap()).collect();
            names.sort();
            names
        }
    }

    impl Drop for Folder {
        fn drop(&mut self) {
            let _ = fs::remove_dir_all(&self.0);
        }
    }

    #[test]
    fn a_file_is_written_and_written_over() {
        let folder = Folder::new("written");
        let file = folder.0.join("a.state");
        write_file(&file, b"first").unwrap();
        fs::write(folder.0.join("a.state.new"), b"left by a crash, and longer").unwrap();
        write_file(&file, b"second").unwrap();
        assert_eq!(fs::read(&file).unwrap(), b"second");
        assert_eq!(folder.names(), ["a.state"]);
    }

    #[test]
    fn on_an_error_the_old_file_stays() {
        let folder = Folder::new("error");
        // A folder that is not empty cannot be renamed over.
        let held = folder.0.join("held");
        fs::create_dir(&held).unwrap();
        fs::write(held.join("inside"), b"old").unwrap();
        assert!(write_file(&held, b"new").is_err());
        assert_eq!(folder.names(), ["held"]);
        assert_eq!(fs::read(held.join("inside")).unwrap(), b"old");
        // A file beside that cannot be written.
        let file = folder.0.join("file");
        write_file(&file, b"old").unwrap();
        fs::create_dir(folder.0.join("file.new")).unwrap();
        assert!(write_file(&file, b"new").is_err());
        assert_eq!(fs::read(&file).unwrap(), b"old");
        // No such folder, and no file's name.
        assert_eq!(write_file(folder.0.join("none/file"), b"").unwrap_err().kind(), io::ErrorKind::NotFound);
        assert_eq!(write_file("/", b"").unwrap_err().kind(), io::ErrorKind::InvalidInput);
        assert_eq!(write_file("..", b"").unwrap_err().kind(), io::ErrorKind::InvalidInput);
    }

    #[cfg(not(no_archive))]
    mod states {
        use super::*;
        use crate::{body_of, Admitted, Edition, Settings};

        const SETTINGS: Settings = Settings { ttl: 1000, max_seen: 4, history_len: 2, max_messages: 2, allow_unsigned: false, skip_groups: false };

        // Where things stand in what a header stands before.
        const EXPIRIES: usize = 80;
        const SEEN: usize = NODE_SIZE;
        const CACHE: usize = SEEN + 4 * 129;
        const DATA: usize = 42; // of a message

        /// A body with one message, whose data is `data`.
        fn body(key: u8) -> Vec<u8> {
            body_of(key, b"\x12\x04data\x1a\x01\x01\x22\x01t")
        }

        fn filled() -> Gateway {
            let mut gateway = Gateway::start(SETTINGS).unwrap();
            for key in b'A'..b'D' {
                assert_eq!(gateway.admit(Edition::V1_1, &body(key), 0, true, 5), Ok(Admitted::New));
            }
            gateway
        }

        /// Saved bytes changed after the header, and the header made anew.
        fn resealed(gateway: &Gateway, change: impl FnOnce(&mut Vec<u8>)) -> Vec<u8> {
            let mut rest = gateway.save().split_off(HEADER);
            change(&mut rest);
            sealed(&[&rest])
        }

        #[test]
        fn saved_and_loaded() {
            let gateway = filled();
            let saved = gateway.save();
            assert_eq!(saved.len(), HEADER + NODE_SIZE + 4 * 129 + 2 * 4096);
            assert!(Gateway::load(&saved).unwrap() == gateway);
            assert_eq!(word(Gateway::load(&[])), "Short { found: 0 }");
            assert_eq!(word(Gateway::load(&saved[HEADER..])), "Name");
        }

        /// The same gateway as earlier versions saved it: its node ends where the flags begin, and before that where the places of the topics begin.
        #[test]
        fn states_of_before() {
            let rest = filled().save().split_off(HEADER);
            for (format, node, as_today) in [(1, 11_344, "BadStore"), (2, 12_432, "Malformed")] {
                let mut old = sealed(&[&rest[..node], &rest[NODE_SIZE..]]);
                old[FORMAT_AT] = format;
                let folder = Folder::new(&format!("before-{format}"));
                let file = folder.0.join("gateway.state");
                fs::write(&file, &old).unwrap();
                assert_eq!(word(Gateway::load_from(&file)), format!("Format {{ found: {format}, read: 3 }}"));
                let words = format!("the state was saved in format {format}, and format 3 is read");
                assert_eq!(Gateway::load(&old).unwrap_err().to_string(), words);
                assert_eq!(fs::read(&file).unwrap(), old);
                // Without its header, as 0.1.0 saved it; and with today's number written over its own.
                assert_eq!(word(Gateway::load(&old[HEADER..])), "Name");
                old[FORMAT_AT] = 3;
                assert_eq!(word(Gateway::load(&old)), format!("Refused({as_today})"));
            }
        }

        /// Of an unsigned message that is kept, the gateway that keeps it must allow such, and of one that has a group it must skip groups; that it does so while it
        /// keeps none is not found out.
        #[test]
        fn flags_that_were_changed() {
            const FLAGS: usize = 12_432;
            let with = |gateway: &Gateway, flags: u8| word(Gateway::load(&resealed(gateway, |rest| rest[FLAGS] = flags)));
            let told = |gateway: &Gateway| [0, 1, 2, 3].map(|flags| with(gateway, flags) == "loaded");
            let unsigned = [&[0x12, 0x2e, 0x0a, 0x26][..], &body(b'U')[4..42], b"\x1a\x01\x01\x22\x01t"].concat();
            let mut training = Gateway::start(Settings { allow_unsigned: true, ..SETTINGS }).unwrap();
            assert_eq!(training.admit(Edition::V1_1, &unsigned, 0, false, 5), Ok(Admitted::New));
            assert_eq!((with(&training, 0), told(&training)), ("Refused(Malformed)".to_string(), [false, true, false, true]));
            assert!(Gateway::load(&training.save()).unwrap().settings().allow_unsigned);
            let grouped = body_of(b'U', b"\x1a\x01\x01\x22\x01t\x0b\x0c");
            let mut skipping = Gateway::start(Settings { skip_groups: true, ..SETTINGS }).unwrap();
            assert_eq!(skipping.admit(Edition::V1_1, &grouped, 0, true, 5), Ok(Admitted::New));
            assert_eq!((with(&skipping, 0), told(&skipping)), ("Refused(Malformed)".to_string(), [false, false, true, true]));
            assert!(Gateway::load(&skipping.save()).unwrap().settings().skip_groups);
            let gateway = filled();
            assert_eq!(told(&gateway), [true; 4]);
            for flags in [4, 5, 6, 7, 0x80, 0xff] {
                assert_eq!(with(&gateway, flags), "Refused(Malformed)");
            }
            assert_eq!(word(Gateway::load(&resealed(&gateway, |rest| rest[FLAGS + 7] = 1))), "Refused(Malformed)");
        }

        /// A message that is kept is of a peer id, and another peer id is not found out.
        #[test]
        fn senders_that_were_changed() {
            let gateway = filled();
            // The sender of the newest message is replaced wherever it stands: in the message, in its id, in the list of seen ids.
            let sender = &body(b'C')[4..42];
            let with = |other: &[u8]| {
                word(Gateway::load(&resealed(&gateway, |rest| {
                    let places: Vec<_> = (0..rest.len() - 37).filter(|at| rest[*at..*at + 38] == *sender).collect();
                    assert_eq!(places.len(), 3);
                    places.iter().for_each(|at| rest[*at..*at + 38].copy_from_slice(other));
                })))
            };
            assert_eq!(with(&body(b'Z')[4..42]), "loaded");
            // A host's name, as a site sent it; a byte of the multihash; a key of a type that there is not.
            assert_eq!(with(b"gateway-17.north.radiology.example.org"), "Refused(Malformed)");
            let changed = |at: usize, byte: u8| with(&[&sender[..at], &[byte], &sender[at + 1..]].concat());
            assert_eq!(changed(0, 0x12), "Refused(Malformed)");
            assert_eq!(changed(1, 0x23), "Refused(Malformed)");
            assert_eq!(changed(3, 3), "loaded");
            assert_eq!(changed(3, 4), "Refused(Malformed)");
        }

        #[test]
        fn every_damage_is_found() {
            let saved = filled().save();
            for at in (0..saved.len()).step_by(7).chain(0..HEADER + 200) {
                for bits in [0x01, 0x80, 0xff] {
                    let mut bytes = saved.clone();
                    bytes[at] ^= bits;
                    let told = word(Gateway::load(&bytes));
                    let start = match at {
                        0..=15 => "Name",
                        16..=19 => "Format { found: ",
                        20..=27 => "Length { said: ",
                        _ => "Checksum",
                    };
                    assert!(told.starts_with(start), "byte {at}: {told}");
                    if at > HEADER + 200 {
                        break;
                    }
                }
            }
        }

        #[test]
        fn every_cut_is_found() {
            let saved = filled().save();
            let rest = saved.len() - HEADER;
            for length in (0..=200).chain([NODE_SIZE - 1, NODE_SIZE, HEADER + NODE_SIZE - 1, HEADER + NODE_SIZE, HEADER + CACHE, saved.len() - 1]) {
                let wanted = match length.checked_sub(HEADER) {
                    None => format!("Short {{ found: {length} }}"),
                    Some(found) => format!("Length {{ said: {rest}, found: {found} }}"),
                };
                assert_eq!(word(Gateway::load(&saved[..length])), wanted);
            }
            for more in [1, 2, 128, 129, 4096] {
                let longer = [&saved[..], &vec![0; more]].concat();
                assert_eq!(word(Gateway::load(&longer)), format!("Length {{ said: {rest}, found: {} }}", rest + more));
            }
        }

        #[test]
        fn the_library_tests_what_is_sealed() {
            let gateway = filled();
            let loaded = |change: &dyn Fn(&mut Vec<u8>)| word(Gateway::load(&resealed(&gateway, change)));
            assert_eq!(loaded(&|_| ()), "loaded");
            // Too few bytes for a node, or none; settings; lengths of stores; a count.
            assert_eq!(loaded(&|rest| rest.clear()), "Refused(Malformed)");
            assert_eq!(loaded(&|rest| rest.truncate(NODE_SIZE - 1)), "Refused(Malformed)");
            for (at, value) in [(8, 257), (40, 0), (40, 17), (48, 65)] {
                assert_eq!(loaded(&|rest| rest[at..at + 8].copy_from_slice(&u64::to_le_bytes(value))), "Refused(Malformed)");
            }
            assert_eq!(loaded(&|rest| rest[15] = 0xff), "Refused(Malformed)");
            assert_eq!(loaded(&|rest| rest.truncate(NODE_SIZE)), "Refused(BadStore)");
            assert_eq!(loaded(&|rest| rest.push(0)), "Refused(BadStore)");
            assert_eq!(loaded(&|rest| rest[8] = 5), "Refused(BadStore)");
            assert_eq!(loaded(&|rest| rest[32] = 5), "Refused(Malformed)");
        }

        /// Why there is a checksum: the library alone does not find these.
        #[test]
        fn damage_that_is_well_formed() {
            let gateway = filled();
            let request = Gateway::start(SETTINGS).unwrap().ask(Edition::V1_1, &gateway.advertise(b"t", 2).unwrap()).unwrap();
            // A byte of a message's data: it is served as it now stands.
            let damaged = Gateway::load(&resealed(&gateway, |rest| rest[CACHE + DATA] = b'D')).unwrap();
            let (right, wrong) = (gateway.serve(Edition::V1_1, &request).unwrap().body, damaged.serve(Edition::V1_1, &request).unwrap().body);
            assert_eq!(right.iter().zip(&wrong).filter(|(a, b)| a != b).map(|(_, b)| *b).collect::<Vec<_>>(), b"D");
            // A byte of an id that was seen: the notice is new again.
            let mut damaged = Gateway::load(&resealed(&gateway, |rest| rest[SEEN + 1] = b'Z')).unwrap();
            assert_eq!(gateway.clone().admit(Edition::V1_1, &body(b'A'), 0, true, 5), Ok(Admitted::Duplicate));
            assert_eq!(damaged.admit(Edition::V1_1, &body(b'A'), 0, true, 5), Ok(Admitted::New));
            // An expiry far ahead: it admits once, and what that leaves is refused ever after, since expiries may not fall.
            let newest = EXPIRIES + 2 * 8;
            let mut damaged = Gateway::load(&resealed(&gateway, |rest| rest[newest + 6] = 1)).unwrap();
            assert_eq!(damaged.admit(Edition::V1_1, &body(b'E'), 0, true, 6), Ok(Admitted::New));
            assert_eq!(damaged.admit(Edition::V1_1, &body(b'F'), 0, true, 7), Err(Refusal::Malformed));
            assert_eq!(damaged.heartbeat(7), Err(Refusal::Malformed));
            assert_eq!(word(Gateway::load(&damaged.save())), "Refused(Malformed)");
        }

        #[test]
        fn files() {
            let folder = Folder::new("files");
            let file = folder.0.join("gateway.state");
            assert_eq!(word(Gateway::load_from(&file)), "Read(NotFound)");
            let mut gateway = filled();
            gateway.save_to(&file).unwrap();
            assert!(Gateway::load_from(&file).unwrap() == gateway);
            gateway.heartbeat(9).unwrap();
            gateway.save_to(&file).unwrap();
            assert_eq!(Gateway::load_from(&file).unwrap().clock(), 9);
            assert_eq!(folder.names(), ["gateway.state"]);
            fs::write(&file, b"").unwrap();
            assert_eq!(word(Gateway::load_from(&file)), "Short { found: 0 }");
        }
    }
}
