//! The list program, as `rt ci` or `./list` builds it: what it writes, also after a read that failed.
use std::fs::File;
use std::io::Write;
use std::os::fd::OwnedFd;
use std::os::unix::net::UnixStream;
use std::process::{Child, Command, Output, Stdio};
use std::time::Duration;

const PROGRAM: &str = concat!(env!("CARGO_MANIFEST_DIR"), "/../crates/list/out/list");
const H: &[u8] = b"cbabacbac";
const LISTING_OF_H: &str = "length=9\npieces=2\nends=5:1,9:2\nstrict=5,8,9\nlongest=5\nfrom=0\nbands=0,0,2,0,0,0,0,0,0,0,0,0,0\n";

fn start(input: impl Into<OwnedFd>) -> Child {
    let mut list = Command::new(PROGRAM);
    list.stdin(input.into()).stdout(Stdio::piped()).stderr(Stdio::piped());
    list.spawn().expect("`./list` builds the program")
}

fn listed(output: Output, want: &str) {
    assert!(output.status.success());
    assert_eq!(String::from_utf8_lossy(&output.stdout), want);
    assert_eq!(output.stderr, b"");
}

fn not_read(output: Output) {
    assert_eq!(output.stdout, b"");
    assert_eq!(String::from_utf8_lossy(&output.stderr), "list: the record could not be read\n");
}

/// An input that gives these bytes and then fails: the other end of the connection is closed with a byte in it that was not read.
fn broken_after(bytes: &[u8]) -> UnixStream {
    let (mut ours, mut its) = UnixStream::pair().unwrap();
    its.write_all(b"x").unwrap();
    ours.write_all(bytes).unwrap();
    its
}

#[test]
fn a_record_that_comes_in_parts() {
    let (mut ours, its) = UnixStream::pair().unwrap();
    let list = start(its);
    for part in H.chunks(2) {
        ours.write_all(part).unwrap();
        std::thread::sleep(Duration::from_millis(5));
    }
    drop(ours);
    listed(list.wait_with_output().unwrap(), LISTING_OF_H);
}

#[test]
fn a_folder_for_a_record() {
    not_read(start(File::open(".").unwrap()).wait_with_output().unwrap());
}

/// At the first read; midway; where the record is just as long as one may be; beyond what is kept of it.
#[test]
fn a_read_that_fails() {
    for length in [0, 1, 9, 4095, 4096, 4097, 4098, 70_000] {
        not_read(start(broken_after(&vec![b'a'; length])).wait_with_output().unwrap());
    }
}

/// A read with a time limit on it is interrupted where the program is stopped and goes on.
#[test]
fn a_read_that_is_interrupted() {
    let (mut ours, its) = UnixStream::pair().unwrap();
    its.set_read_timeout(Some(Duration::from_secs(60))).unwrap();
    let list = start(its);
    ours.write_all(&H[..4]).unwrap();
    for signal in ["-STOP", "-CONT"] {
        std::thread::sleep(Duration::from_millis(100));
        assert!(Command::new("kill").args([signal, &list.id().to_string()]).status().unwrap().success());
    }
    std::thread::sleep(Duration::from_millis(100));
    ours.write_all(&H[4..]).unwrap();
    drop(ours);
    listed(list.wait_with_output().unwrap(), LISTING_OF_H);
}
