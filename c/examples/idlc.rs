//! Accepted tables in Rust, over libidlc.a: a safe wrapper, and a program that encodes by it.
//!
//!     rustc -L dist/c -l static=idlc c/examples/idlc.rs -o encode
//!     ./encode point.idl Point '{"x":3,"y":-4}'
use std::ffi::c_void;

/// What `struct idlc_table` is.
#[repr(C)]
struct Handle {
    at: *mut c_void,
    loaded: bool,
}

/// Where a text was refused: lines and columns count from 1, 0 where it isn't known.
#[repr(C)]
#[derive(Clone, Copy, Debug, Default)]
pub struct Place {
    pub number: u32,
    pub line: usize,
    pub column: usize,
}

extern "C" {
    fn idlc_compile(table: *mut Handle, source: *const u8, len: usize, place: *mut Place) -> u32;
    fn idlc_share(table: *mut Handle, other: *mut Handle) -> u32;
    fn idlc_free(table: *mut Handle);
    fn idlc_find(table: *mut Handle, name: *const u8, len: usize, node: *mut u32) -> u32;
    fn idlc_encode_text(
        table: *mut Handle, node: u32, little: bool, pos: u64, text: *const u8, text_len: usize, out: *mut u8,
        room: usize, len: *mut usize, place: *mut Place,
    ) -> u32;
    fn idlc_decode_text(
        table: *mut Handle, node: u32, little: bool, pos: u64, octets: *const u8, octets_len: usize,
        taken: *mut usize, out: *mut u8, room: usize, len: *mut usize,
    ) -> u32;
}

const NO_ROOM: u32 = 45;
const FAULTY_IDL: u32 = 47;

/// A table that was found right.
pub struct Table(Handle);

// SAFETY: a table belongs to no thread, and every call takes it by `&mut`.
unsafe impl Send for Table {}

impl Drop for Table {
    fn drop(&mut self) {
        // SAFETY: the handle began with zeros, and nothing but the library changes it.
        unsafe { idlc_free(&mut self.0) }
    }
}

/// Octets that a call hands over, which is asked for their length first.
fn handed(mut call: impl FnMut(*mut u8, usize, &mut usize) -> u32) -> Result<Vec<u8>, u32> {
    let (mut len, mut out) = (0, vec![0]);
    match call(out.as_mut_ptr(), 0, &mut len) {
        0 => return Ok(Vec::new()),
        NO_ROOM => out.resize(len, 0),
        number => return Err(number),
    }
    match call(out.as_mut_ptr(), len, &mut len) {
        0 => Ok(out),
        number => Err(number),
    }
}

impl Table {
    fn none() -> Table {
        Table(Handle { at: std::ptr::null_mut(), loaded: false })
    }

    /// The table of an IDL text, as a preprocessor leaves it.
    pub fn compile(idl: &str) -> Result<Table, Place> {
        let (mut table, mut place) = (Table::none(), Place::default());
        // SAFETY: a slice's pointer is never null, and what is handed in lies apart.
        match unsafe { idlc_compile(&mut table.0, idl.as_ptr(), idl.len(), &mut place) } {
            0 => Ok(table),
            FAULTY_IDL => Err(place),
            number => Err(Place { number, ..place }),
        }
    }

    /// Another owner of the same table, for a thread of its own; None for want of memory.
    pub fn another(&mut self) -> Option<Table> {
        let mut other = Table::none();
        // SAFETY: as in `compile`.
        (unsafe { idlc_share(&mut self.0, &mut other.0) } == 0).then_some(other)
    }

    /// The node of a type's name.
    pub fn find(&mut self, name: &str) -> Option<u32> {
        let mut node = 0;
        // SAFETY: as in `compile`.
        (unsafe { idlc_find(&mut self.0, name.as_ptr(), name.len(), &mut node) } == 0).then_some(node)
    }

    /// The octets of the value that a text says.
    pub fn encode(&mut self, node: u32, little: bool, pos: u64, text: &str) -> Result<Vec<u8>, Place> {
        let mut place = Place::default();
        // SAFETY: as in `compile`.
        let done = handed(|out, room, len| unsafe {
            idlc_encode_text(&mut self.0, node, little, pos, text.as_ptr(), text.len(), out, room, len, &mut place)
        });
        done.map_err(|number| Place { number, ..place })
    }

    /// The text of the value that a front of the octets encodes, and how many octets that front has.
    pub fn decode(&mut self, node: u32, little: bool, pos: u64, octets: &[u8]) -> Result<(String, usize), u32> {
        let mut taken = 0;
        // SAFETY: as in `compile`.
        let text = handed(|out, room, len| unsafe {
            let (at, octets_len) = (octets.as_ptr(), octets.len());
            idlc_decode_text(&mut self.0, node, little, pos, at, octets_len, &mut taken, out, room, len)
        })?;
        Ok((String::from_utf8_lossy(&text).into_owned(), taken))
    }
}

fn main() {
    let words: Vec<String> = std::env::args().collect();
    let [_, file, name, text] = &words[..] else { panic!("encode FILE NAME TEXT") };
    let idl = std::fs::read_to_string(file).expect("a file");
    let mut table = Table::compile(&idl).unwrap_or_else(|place| panic!("{place:?}"));
    let node = table.find(name).expect("a name");
    let (mut other, said) = (table.another().expect("memory"), text.clone());
    let thread = std::thread::spawn(move || other.encode(node, false, 0, &said));
    let octets = table.encode(node, false, 0, text).unwrap_or_else(|place| panic!("{place:?}"));
    assert_eq!(thread.join().expect("a thread").ok().as_ref(), Some(&octets));
    for octet in &octets {
        print!("{octet:02x}");
    }
    let (again, taken) = table.decode(node, false, 0, &octets).expect("a value");
    println!("\n{taken} {again}");
}
