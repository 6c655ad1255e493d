//! Readers, writers and files.

use rattle_std::alloc::Global;
use rattle_std::fs;
use rattle_std::io::{self, BufWriter, Error, ErrorKind, IsTerminal, Read, Write};
use rattle_std::os::unix::fs::{MetadataExt, PermissionsExt};
use rattle_std::rt::HostRuntime;
use rattle_std::time::{Clock, Instant};
use rattle_std::vec::Vec;

const RT: HostRuntime = HostRuntime;

/// Returns a path in the folder of the tests of this package.
fn path(name: &str) -> String {
    format!("{}/{name}", env!("CARGO_TARGET_TMPDIR"))
}

/// A reader that is interrupted every other time, and returns at most `most` bytes.
struct Slow<'b> {
    bytes: &'b [u8],
    most: usize,
    is_due: bool,
}

impl Read for Slow<'_> {
    fn read(&mut self, buf: &mut [u8]) -> io::Result<usize> {
        self.is_due = !self.is_due;
        if self.is_due {
            return Err(Error::from(ErrorKind::Interrupted));
        }
        let most = self.most.min(buf.len());
        self.bytes.read(&mut buf[..most])
    }
}

#[test]
fn read_to_end_reads_all() {
    let bytes: std::vec::Vec<u8> = (0..100_000u32).map(|k| (k * 31) as u8).collect();
    for most in [1, 700, 8192, 1 << 20] {
        let mut all = Vec::from_slice(Global, b"ab").unwrap();
        let mut slow = Slow {
            bytes: &bytes,
            most,
            is_due: false,
        };
        assert_eq!(slow.read_to_end(&mut all).unwrap(), 100_000);
        assert!(all.starts_with(b"ab") && all[2..] == bytes[..]);
    }
}

#[test]
fn take_limits_a_reader() {
    let mut front = Vec::new(Global);
    b"abcdef".take(4).read_to_end(&mut front).unwrap();
    assert_eq!(front.as_slice(), b"abcd");
    assert_eq!(
        io::read_to_string(Global, b"abc".take(9)).unwrap().as_str(),
        "abc"
    );
    let error = io::read_to_string(Global, b"\xFF".as_slice()).unwrap_err();
    assert_eq!(error.kind(), ErrorKind::InvalidData);
}

/// A writer that takes two bytes at a time, and `left` in all.
struct Narrow {
    taken: std::vec::Vec<u8>,
    left: usize,
}

impl Write for Narrow {
    fn write(&mut self, buf: &[u8]) -> io::Result<usize> {
        let count = buf.len().min(2).min(self.left);
        self.taken.extend_from_slice(&buf[..count]);
        self.left -= count;
        Ok(count)
    }

    fn flush(&mut self) -> io::Result<()> {
        Ok(())
    }
}

#[test]
fn write_all_writes_all_or_says_so() {
    let mut out = Narrow {
        taken: vec![],
        left: 8,
    };
    write!(out, "abc-{:02}", 7).unwrap();
    assert_eq!(out.taken, b"abc-07");
    assert_eq!(
        out.write_all(b"xyz").unwrap_err().kind(),
        ErrorKind::WriteZero
    );
    let mut bytes = Vec::new(Global);
    assert!(!bytes.is_terminal());
    write!(&mut bytes, "{}", 12).unwrap();
    assert_eq!(bytes.as_slice(), b"12");
}

#[test]
fn a_buffered_writer_writes_blocks() {
    let mut out = Vec::new(Global);
    let mut buffered = BufWriter::new(Global, &mut out).unwrap();
    buffered.write_all(b"ab").unwrap();
    buffered.write_all(&[b'x'; 9000]).unwrap();
    buffered.write_all(b"cd").unwrap();
    buffered.flush().unwrap();
    drop(buffered);
    assert_eq!(out.len(), 9004);
    assert!(out.starts_with(b"abx") && out.ends_with(b"xcd"));
}

#[test]
fn files() {
    let (folder, name) = (path("files/a/./"), path("files/a/new"));
    let _ = std::fs::remove_dir_all(path("files"));
    fs::create_dir_all(&RT, &folder).unwrap();
    let mut file = fs::File::create_new(&RT, &name).unwrap();
    file.write_all(b"text").unwrap();
    assert_eq!(
        fs::File::create_new(&RT, &name).err().unwrap().kind(),
        ErrorKind::AlreadyExists
    );
    assert_eq!(fs::read(&RT, &name).unwrap().as_slice(), b"text");
    fs::write(&RT, &name, b"\xFF").unwrap();
    assert_eq!(
        fs::read_to_string(&RT, &name).unwrap_err().kind(),
        ErrorKind::InvalidData
    );
    let found = fs::metadata(&RT, &name).unwrap();
    assert!(found.is_file() && found.len() == 1);
    let names: std::vec::Vec<_> = fs::read_dir(&RT, &path("files/a")).unwrap().collect();
    assert_eq!(
        (names.len(), names[0].as_ref().unwrap().file_name()),
        (1, "new")
    );
    fs::rename(&RT, &name, &path("files/a/other")).unwrap();
    fs::remove_file(&RT, &path("files/a/other")).unwrap();
    assert_eq!(
        fs::read(&RT, &name).unwrap_err().kind(),
        ErrorKind::NotFound
    );
    assert_eq!(
        fs::open(&RT, &path("files/a/none")).err().unwrap().kind(),
        ErrorKind::NotFound
    );
}

#[test]
#[cfg(unix)]
fn files_of_unix() {
    let _ = std::fs::remove_dir_all(path("unix"));
    fs::create_dir_all(&RT, &path("unix")).unwrap();
    fs::write(&RT, &path("unix/file"), b"").unwrap();
    let found = fs::metadata(&RT, &path("unix/file")).unwrap();
    let mut permissions = found.permissions();
    permissions.set_mode(0o640);
    fs::set_permissions(&RT, &path("unix/file"), permissions).unwrap();
    let after = fs::metadata(&RT, &path("unix/file")).unwrap();
    assert_eq!(
        (after.mode() & 0o777, after.ino(), after.dev()),
        (0o640, found.ino(), found.dev())
    );
    std::os::unix::fs::symlink("file", path("unix/link")).unwrap();
    assert_eq!(
        fs::read_link(&RT, &path("unix/link"))
            .unwrap()
            .into_string()
            .as_str(),
        "file"
    );
    let whole = fs::canonicalize(&RT, &path("unix/link"))
        .unwrap()
        .into_string();
    assert!(whole.ends_with("unix/file"));
    std::os::unix::fs::symlink("round", path("unix/round")).unwrap();
    assert_eq!(
        fs::read(&RT, &path("unix/round")).unwrap_err().kind(),
        ErrorKind::FilesystemLoop
    );
    assert_eq!(
        fs::read(&RT, &path("unix")).unwrap_err().kind(),
        ErrorKind::IsADirectory
    );
}

#[test]
fn the_program_is_what_was_set() {
    fs::set_program(b"commit: none\n");
    assert_eq!(
        fs::read(&RT, "/proc/self/exe").unwrap().as_slice(),
        b"commit: none\n"
    );
}

#[test]
fn clocks_go_on() {
    let start = Instant::now(&RT).unwrap();
    let elapsed = start.elapsed(&RT).unwrap();
    assert!(RT.monotonic().unwrap() >= elapsed);
    assert!(Instant::now(&RT).unwrap() >= start);
}
