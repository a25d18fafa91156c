// The same question from Rust:
// rustc example.rs -L native=PREFIX/lib -o example
use std::io::Write;
use std::os::raw::c_int;

#[repr(C)]
struct Text {
    bytes: *mut u8,
    len: usize,
}

/// As in memcgrun.h. Every default is 0.
#[repr(C)]
#[derive(Default)]
struct Options {
    size: usize,
    turns: u32,
    labels: bool,
    strict: bool,
    as_linux: bool,
    explain: bool,
    quiet: bool,
    summary: bool,
    reserved: [u8; 6],
}

const OK: c_int = 0;
const NO_MEMORY: c_int = 2;

#[link(name = "memcgrun", kind = "static")]
extern "C" {
    fn memcgrun_schedule(script: *const u8, len: usize, options: *const Options, out: *mut Text, err: *mut Text) -> c_int;
    fn memcgrun_text_free(text: *mut Text);
}

/// The answers of a script, or why there are none.
fn schedule(script: &str, options: Options) -> Result<Vec<u8>, Vec<u8>> {
    let options = Options { size: std::mem::size_of::<Options>(), ..options };
    let empty = || Text { bytes: std::ptr::null_mut(), len: 0 };
    let (mut out, mut err) = (empty(), empty());
    // Both texts are the library's until they are given back.
    unsafe {
        let status = memcgrun_schedule(script.as_ptr(), script.len(), &options, &mut out, &mut err);
        let copy = |text: &Text| {
            if text.bytes.is_null() { Vec::new() } else { std::slice::from_raw_parts(text.bytes, text.len).to_vec() }
        };
        let (answers, fault) = (copy(&out), copy(&err));
        memcgrun_text_free(&mut out);
        memcgrun_text_free(&mut err);
        match status {
            OK => Ok(answers),
            NO_MEMORY => Err(b"not enough memory\n".to_vec()),
            _ => Err(fault),
        }
    }
}

fn main() {
    let script = "group /job\nset /job memory.max 8192\ntask 1 /job\ntask 2 /job\n\
                  1 write 0 0 1\n1 write 1 0 1\n2 write 0 0 1\n";
    match schedule(script, Options { labels: true, ..Options::default() }) {
        Ok(answers) => std::io::stdout().write_all(&answers).unwrap(),
        Err(fault) => {
            std::io::stderr().write_all(&fault).unwrap();
            std::process::exit(1);
        }
    }
}
