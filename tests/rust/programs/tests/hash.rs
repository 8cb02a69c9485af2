//! Document 01, "The hash program".

use std::io::{ErrorKind, Read, Write};
use std::os::fd::{AsRawFd, OwnedFd};
use std::os::unix::net::UnixStream;
use std::os::unix::process::CommandExt;
use std::process::{Child, ChildStdin, Command, Output, Stdio};
use std::thread::sleep;
use std::time::Duration;

use reference::field::{add, multiply, power};
use reference::ghash::{block_count, ghash, pair_block};
use reference::random::Random;

/// The program, to be started with its outputs in pipes.
fn program() -> Command {
    let path = std::env::var_os("HASH_PROGRAM")
        .expect("set HASH_PROGRAM to the path of the built hash program");
    let mut command = Command::new(path);
    command.stdout(Stdio::piped()).stderr(Stdio::piped());
    command
}

fn started(command: &mut Command) -> Child {
    let begun = command.spawn();
    begun.unwrap_or_else(|e| panic!("HASH_PROGRAM {command:?} does not start: {e}"))
}

/// The program, started with the given standard input.
fn spawn(input: Stdio) -> Child {
    started(program().stdin(input))
}

/// Writes pieces to the program's pipe, pausing after each. A program that
/// has stopped reading is judged by its output, not here.
fn feed(mut pipe: ChildStdin, pieces: &[&[u8]], pause: Duration) {
    for piece in pieces {
        match pipe.write_all(piece).and_then(|()| pipe.flush()) {
            Err(e) if e.kind() == ErrorKind::BrokenPipe => return,
            answer => answer.expect("write to the program"),
        }
        if !pause.is_zero() {
            sleep(pause);
        }
    }
}

/// What the program prints for an input delivered in these pieces.
fn printed_for_pieces(pieces: &[&[u8]], pause: Duration) -> String {
    let mut child = spawn(Stdio::piped());
    let pipe = child.stdin.take().expect("a pipe");
    let output = std::thread::scope(|scope| {
        scope.spawn(|| feed(pipe, pieces, pause));
        child.wait_with_output().expect("the program's output")
    });
    printed(&output)
}

/// What a program that ended by itself printed on standard output.
fn printed(output: &Output) -> String {
    assert!(output.status.code().is_some(), "ended by {}", output.status);
    String::from_utf8(output.stdout.clone()).expect("text")
}

/// What the program prints for an input delivered as fast as it reads.
fn printed_for(input: &[u8]) -> String {
    printed_for_pieces(&[input], Duration::ZERO)
}

fn hex(bytes: &[u8]) -> String {
    bytes.iter().map(|byte| format!("{byte:02x}")).collect()
}

/// The three lines for a file of n bytes whose GHASH is this.
fn lines(n: usize, hash: &str) -> String {
    let blocks = n.div_ceil(16);
    format!("bytes {n}\nblocks {blocks}\nghash {hash}\n")
}

/// The text that the program must print for an input, by `reference`.
fn expected_for(input: &[u8]) -> String {
    match input.split_first_chunk::<16>() {
        None => "refused 1\n".to_string(),
        Some((h, file)) => lines(file.len(), &hex(&ghash(h, file, &[]))),
    }
}

/// Compares the program with `reference` on random inputs of these sizes, H
/// counted.
fn compare_on_sizes(seed: u64, sizes: impl IntoIterator<Item = usize>) {
    let mut random = Random::for_test(seed);
    for size in sizes {
        let input = random.bytes(size);
        assert_eq!(printed_for(&input), expected_for(&input), "{size} bytes");
    }
}

#[test]
fn example_of_document_01() {
    let mut input = [0; 17];
    input[0] = 0x80;
    input[16] = 0x01;
    let expected = "bytes 1\nblocks 1\nghash 01000000000000080000000000000000\n";
    assert_eq!(printed_for(&input), expected);
    assert_eq!(expected_for(&input), expected);
}

/// What the toolchain's own check holds the program to is what the second
/// implementation says.
#[test]
fn the_stored_run() {
    let input = include_bytes!("../../../../crates/hash/stdin");
    assert_eq!(
        expected_for(input),
        include_str!("../../../../crates/hash/stdout")
    );
    assert_eq!(printed_for(input), expected_for(input));
}

#[test]
fn under_16_bytes_of_input() {
    let mut random = Random::for_test(1);
    for size in 0..16 {
        for input in [random.bytes(size), vec![0; size]] {
            assert_eq!(printed_for(&input), "refused 1\n", "{size} bytes");
        }
    }
}

#[test]
fn an_empty_file() {
    let expected = "bytes 0\nblocks 0\nghash 00000000000000000000000000000000\n";
    for h in [[0; 16], [0x5a; 16], [0xff; 16]] {
        assert_eq!(printed_for(&h), expected);
    }
}

#[test]
fn a_zero_hash_key() {
    let input = [vec![0; 16], vec![7; 33]].concat();
    assert_eq!(printed_for(&input), lines(33, &"0".repeat(32)));
}

#[test]
fn small_files() {
    compare_on_sizes(2, [1, 15, 16, 17].map(|n| 16 + n));
    compare_on_sizes(3, 16..100);
}

/// Sizes around those of usual buffers, once with H counted and once for the
/// file alone.
#[test]
fn sizes_around_buffers() {
    for buffer in [512, 1024, 4096, 8192, 16384, 32768, 65536] {
        for size in [buffer - 1, buffer, buffer + 1] {
            compare_on_sizes(size as u64, [size, size + 16]);
        }
    }
}

/// Files around 512 bytes, from where on the sum goes by batches of 256, and
/// around the ends of batches; alone, and behind a whole buffer of the program.
#[test]
fn sizes_around_batches() {
    const BUFFER: usize = 65536;
    for end in [256, 512, 768, 1024] {
        compare_on_sizes(end as u64, 16 + end - 17..=16 + end + 17);
        let near = [end - 16, end - 1, end, end + 1, end + 16];
        compare_on_sizes(end as u64, near.map(|n| 16 + BUFFER + n));
    }
    compare_on_sizes(11, [1, 17, 512].map(|n| 16 + 2 * BUFFER + n));
}

/// Bytes that are special in text: line ends, zero, end of file, the highest.
#[test]
fn bytes_special_in_text() {
    for byte in [0x00, 0x04, 0x0a, 0x0d, 0x1a, 0x80, 0xff] {
        let input = vec![byte; 100];
        assert_eq!(printed_for(&input), expected_for(&input), "{byte:02x}");
    }
}

/// Input and expected GHASH from OpenSSL: H is AES(key, zero block), and the
/// GHASH is the tag of AES-128-GCM over the file as A, under a nonce of
/// twelve zero bytes, plus AES(key, J), with J that nonce and the number 1.
/// Here stand the file's byte count, H and GHASH; the comments give the keys.
const FROM_OPENSSL: [(usize, u128, u128); 8] = [
    // 00 01 .. 0f
    (0, 0xc6a13b37878f5b826f4f8162a1c8d879, 0),
    // 10 11 .. 1f
    (
        1,
        0xeda330f90eecd16c003e5fb09bcff358,
        0x0e2cf6b38c04bd61f7f68e5a8788a1cf,
    ),
    // 20 21 .. 2f
    (
        16,
        0xae3a71384013479e5a259218e4df8cbf,
        0xac63d1e469fe95a11769c87b211e5deb,
    ),
    // 30 31 .. 3f
    (
        17,
        0x87b514cc01246af8ac95686a46edb60b,
        0x42bb45f7660f70e461be7ab6066e8454,
    ),
    // 40 41 .. 4f
    (
        1000,
        0x1899564a9da8de833d25c71739eaadce,
        0x02a56f8a8d41858f7a8f8ee4897dd674,
    ),
    // 50 51 .. 5f
    (
        4096,
        0x2195c4637e1ed75e92bafff38ae3dd67,
        0x54b91a896aec87fdb9c5c001d20db45e,
    ),
    // 60 61 .. 6f
    (
        65537,
        0xaf1322495504f592b0f247ae53dc7aa8,
        0x47aa73b003eb358b1676b18cae5775b1,
    ),
    // 70 71 .. 7f
    (
        (5 << 20) + 3,
        0x76d0554effd828c702538425786a66c6,
        0xb93802b51570369300355337fb0846d0,
    ),
];

/// Byte i of the files hashed by OpenSSL: the lowest eight bits of
/// 7i + 3(i / 256) + 5(i / 65536) + 1, each division rounded down.
fn file_byte(i: usize) -> u8 {
    (7 * i + 3 * (i / 256) + 5 * (i / 65536) + 1) as u8
}

#[test]
fn values_from_openssl() {
    for (n, h, hash) in FROM_OPENSSL {
        let mut input = h.to_be_bytes().to_vec();
        input.extend((0..n).map(file_byte));
        let expected = lines(n, &format!("{hash:032x}"));
        assert_eq!(printed_for(&input), expected, "{n} bytes");
        assert_eq!(expected_for(&input), expected, "{n} bytes");
    }
}

#[test]
fn a_file_longer_than_any_buffer() {
    compare_on_sizes(4, [16 + (5 << 20) + 3]);
}

/// More bytes than 24 bits count.
#[test]
fn a_file_of_more_than_2_24_bytes() {
    compare_on_sizes(8, [16 + (1 << 24) + 21]);
}

/// More bytes than 32 bits count, all zero but for the first and the last
/// block, so that the hash is made of two powers of H. The program takes some
/// seconds for them.
#[test]
fn a_file_of_more_than_2_32_bytes() {
    const HOLE: u64 = 1 << 32;
    let mut random = Random::for_test(9);
    let [h, first, last] = [random.block(), random.block(), random.block()];
    let zeros = vec![0; 1 << 20];
    let mut pieces = vec![&h[..], &first];
    pieces.extend((0..HOLE >> 20).map(|_| &zeros[..]));
    pieces.push(&last);
    let n = HOLE + 32;
    let weighed = multiply(&first, &power(&h, block_count(n).into()));
    let sum = add(&weighed, &multiply(&last, &h));
    let hash = multiply(&add(&sum, &pair_block(8 * n, 0)), &h);
    let expected = lines(n as usize, &hex(&hash));
    assert_eq!(printed_for_pieces(&pieces, Duration::ZERO), expected);
}

/// Cuts the input in random pieces of 1 to `longest` bytes.
fn cut<'a>(input: &'a [u8], longest: u64, random: &mut Random) -> Vec<&'a [u8]> {
    let mut pieces = Vec::new();
    let mut rest = input;
    while !rest.is_empty() {
        let length = 1 + random.below(longest) as usize;
        let (piece, after) = rest.split_at(length.min(rest.len()));
        pieces.push(piece);
        rest = after;
    }
    pieces
}

#[test]
fn a_pipe_of_irregular_pieces() {
    let mut random = Random::for_test(5);
    for (size, longest) in [(16 + 3000, 97), (16 + 4097, 40), (16 + 5000, 700)] {
        let input = random.bytes(size);
        let pieces = cut(&input, longest, &mut random);
        let answer = printed_for_pieces(&pieces, Duration::from_millis(1));
        assert_eq!(answer, expected_for(&input), "{size} bytes");
    }
}

#[test]
fn a_pipe_of_single_bytes() {
    let mut random = Random::for_test(6);
    for size in [0, 1, 15, 16, 17, 31, 32, 33, 300] {
        let input = random.bytes(size);
        let pieces = cut(&input, 1, &mut random);
        let answer = printed_for_pieces(&pieces, Duration::from_millis(1));
        assert_eq!(answer, expected_for(&input), "{size} bytes");
    }
}

/// Two pieces parted at every place near the end of H and of a block.
#[test]
fn a_pipe_parted_once() {
    let mut random = Random::for_test(7);
    let input = random.bytes(50);
    for place in 0..=50 {
        let (first, second) = input.split_at(place);
        let answer = printed_for_pieces(&[first, second], Duration::from_millis(20));
        assert_eq!(answer, expected_for(&input), "parted at {place}");
    }
}

/// A regular file as standard input.
#[test]
fn a_file_as_standard_input() {
    let path = concat!(env!("CARGO_MANIFEST_DIR"), "/tests/hash.rs");
    let input = std::fs::read(path).expect("this test's source");
    let file = std::fs::File::open(path).expect("this test's source");
    let output = spawn(file.into()).wait_with_output().expect("output");
    assert_eq!(printed(&output), expected_for(&input));
}

/// Holds a program that could not do its work to saying so, and to printing
/// nothing that could be taken for an answer.
fn told_on_standard_error(output: &Output, what: &str) {
    assert_eq!(printed(output), "", "{what}");
    let said = String::from_utf8_lossy(&output.stderr);
    assert!(
        said.starts_with("hash: ") && said.ends_with('\n'),
        "{what}: {said:?}"
    );
}

/// A directory opens for reading, and then every read of it fails. The
/// program must not take that for the end of the input.
#[test]
fn a_failing_standard_input() {
    let directory = std::fs::File::open(env!("CARGO_MANIFEST_DIR")).expect("a directory");
    let output = spawn(directory.into()).wait_with_output().expect("output");
    told_on_standard_error(&output, "a directory");
}

/// A socket whose other end is closed while bytes lie there unread is reset:
/// what was sent can still be read, and the read after it fails. Sizes around
/// H and around the program's buffers.
#[test]
fn a_read_that_fails_after_some_bytes() {
    let mut random = Random::for_test(10);
    for size in [
        0, 1, 15, 16, 17, 100, 4_096, 65_536, 65_552, 65_553, 100_000,
    ] {
        let (mut ours, mut program_s) = UnixStream::pair().expect("sockets");
        program_s.write_all(b"never read").expect("room");
        ours.write_all(&random.bytes(size)).expect("room");
        drop(ours);
        let input = OwnedFd::from(program_s);
        let output = spawn(input.into()).wait_with_output().expect("output");
        told_on_standard_error(&output, &format!("reset after {size} bytes"));
    }
}

/// The C library's own, which the standard library links, and Linux's numbers
/// for x86-64.
mod system {
    use std::ffi::c_int;

    extern "C" {
        pub fn signal(number: c_int, handler: usize) -> usize;
        pub fn setrlimit(resource: c_int, limits: *const [u64; 2]) -> c_int;
        pub fn fcntl(file: c_int, command: c_int, ...) -> c_int;
    }

    pub const SIGPIPE: c_int = 13;
    pub const SIGXFSZ: c_int = 25;
    pub const SIG_IGN: usize = 1;
    pub const RLIMIT_FSIZE: c_int = 1;
    pub const F_SETFL: c_int = 4;
    pub const O_NONBLOCK: c_int = 0o4000;
    pub const F_SETPIPE_SZ: c_int = 1031;
}

/// Runs the program on each input that it answers in its own way, with this
/// standard output. Signals are ignored that would end it where a write fails,
/// and files end at `limit` bytes. It must say that it could not write.
fn cannot_write(what: &str, limit: u64, output: impl Fn() -> OwnedFd) {
    for input in [&[7; 5][..], &[7; 33], &[7; 100_000]] {
        let mut command = program();
        command.stdin(Stdio::piped()).stdout(output());
        // SAFETY: these calls are safe between fork and exec.
        unsafe {
            command.pre_exec(move || {
                system::signal(system::SIGPIPE, system::SIG_IGN);
                system::signal(system::SIGXFSZ, system::SIG_IGN);
                system::setrlimit(system::RLIMIT_FSIZE, &[limit, limit]);
                Ok(())
            });
        }
        let mut child = started(&mut command);
        drop(command); // which holds the output too
        feed(
            child.stdin.take().expect("a pipe"),
            &[input],
            Duration::ZERO,
        );
        let output = child.wait_with_output().expect("the program's output");
        told_on_standard_error(&output, what);
    }
}

#[test]
fn a_full_device() {
    cannot_write("a full device", u64::MAX, || {
        let device = std::fs::File::create("/dev/full");
        device.expect("/dev/full").into()
    });
}

#[test]
fn a_pipe_that_nobody_reads() {
    cannot_write("a closed pipe", u64::MAX, || {
        let (reader, writer) = std::io::pipe().expect("a pipe");
        drop(reader);
        writer.into()
    });
}

/// A pipe with room for the first word of the answer and not for all of it
/// takes nothing: the answer is one write, of which no half is ever left.
#[test]
fn a_pipe_without_room_for_the_whole() {
    let (mut reader, mut writer) = std::io::pipe().expect("a pipe");
    let filler = [b'.'; 4096 - 9];
    // SAFETY: these calls touch nothing but the pipe.
    let size = unsafe {
        system::fcntl(writer.as_raw_fd(), system::F_SETFL, system::O_NONBLOCK);
        system::fcntl(writer.as_raw_fd(), system::F_SETPIPE_SZ, 4096)
    };
    assert_eq!(size, 4096, "a pipe of one page");
    writer.write_all(&filler).expect("room");
    cannot_write("a pipe without room", u64::MAX, || {
        writer.try_clone().expect("the pipe").into()
    });
    drop(writer);
    let mut left = Vec::new();
    reader.read_to_end(&mut left).expect("the filler");
    assert_eq!(left.len(), filler.len(), "part of an answer is left");
}

/// A file that may grow to nine bytes takes the answer's first nine. What is
/// there cannot be taken back, but the program says that it is not all.
#[test]
fn a_short_write() {
    let path = std::env::temp_dir().join(format!("armfile-hash-{}", std::process::id()));
    cannot_write("a short write", 9, || {
        std::fs::File::create(&path).expect("a file").into()
    });
    let left = std::fs::read(&path).expect("the file");
    std::fs::remove_file(&path).expect("the file");
    assert_eq!(left, b"bytes 999");
}

/// An argument is no input: the program says how it is used, and reads nothing.
#[test]
fn an_argument() {
    let output = program().arg("FILE").stdin(Stdio::piped()).output();
    let output = output.expect("output");
    assert_eq!(printed(&output), "");
    let said = String::from_utf8_lossy(&output.stderr);
    assert!(
        said.starts_with("usage: hash") && said.ends_with('\n'),
        "{said:?}"
    );
}
