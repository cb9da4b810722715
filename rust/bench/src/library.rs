//! An archive of proved calls, loaded while this program runs, so that those
//! of two checkouts can be timed against each other in one process.

use std::ffi::{CString, c_char, c_int, c_void};
use std::fs;
use std::io;
use std::path::{Path, PathBuf};
use std::process::Command;

mod c {
    use super::{c_char, c_int, c_void};

    unsafe extern "C" {
        pub fn dlopen(file: *const c_char, how: c_int) -> *mut c_void;
        pub fn dlsym(library: *mut c_void, name: *const c_char) -> *mut c_void;
    }
}

/// Finds every name when the library is loaded, and keeps its names apart from
/// those of others.
const RTLD_NOW: c_int = 2;

/// How far a library's code is moved up, in bytes: a processor fetches code in
/// blocks of 32 or 64, and where a loop stands in them moves its time by some
/// hundredths. Functions begin at every sixteenth byte.
pub const PLACES: [usize; 4] = [0, 16, 32, 48];

/// The checkout that this program was built in.
pub fn own() -> PathBuf {
    Path::new(env!("CARGO_MANIFEST_DIR")).join("../..")
}

struct Library {
    handle: *mut c_void,
}

impl Library {
    /// What `tools/build NAME` wrote in a checkout, its code moved up.
    fn of(checkout: &Path, name: &str, up: usize) -> io::Result<Library> {
        let folder = checkout.join("target/staticlib");
        let archive = folder.join(format!("lib{name}.a"));
        if !archive.exists() {
            let told = format!(
                "no {}: `tools/build {name}` there makes it",
                archive.display()
            );
            return Err(io::Error::other(told));
        }
        let [shared, gap] = ["so", "s"].map(|kind| folder.join(format!("lib{name}-{up}.{kind}")));
        let no_stack = ".section .note.GNU-stack,\"\",@progbits";
        fs::write(&gap, format!(".text\n.p2align 6\n.fill {up}\n{no_stack}\n"))?;
        let mut compiler = Command::new("cc");
        compiler.args(["-shared", "-o"]).arg(&shared).arg(&gap);
        compiler.arg("-Wl,--whole-archive").arg(&archive);
        compiler.arg("-Wl,--no-whole-archive");
        if !compiler.status()?.success() {
            return Err(io::Error::other(format!("cc made no {}", shared.display())));
        }
        let path = shared.canonicalize()?.into_os_string().into_encoded_bytes();
        let path = CString::new(path).expect("a path has no zero byte");
        // SAFETY: the path ends in a zero byte; loading runs no code of the
        // library's, which has no constructors.
        let handle = unsafe { c::dlopen(path.as_ptr(), RTLD_NOW) };
        if handle.is_null() {
            return Err(io::Error::other(format!(
                "{} is not loaded",
                shared.display()
            )));
        }
        Ok(Library { handle })
    }

    /// Where a call of this name stands, if the archive has one.
    fn find(&self, name: &str) -> Option<*mut c_void> {
        let name = CString::new(name).expect("a name has no zero byte");
        // SAFETY: the handle is of a library that is never unloaded.
        let found = unsafe { c::dlsym(self.handle, name.as_ptr()) };
        (!found.is_null()).then_some(found)
    }

    /// The same of one that every archive of this kind has.
    fn needed(&self, name: &str) -> io::Result<*mut c_void> {
        let found = self.find(name);
        found.ok_or_else(|| io::Error::other(format!("no call {name}")))
    }
}

type TakeFrame = unsafe extern "C" fn(*const u8, usize, *const u8, usize, *mut u8, usize) -> i64;
type Beat = unsafe extern "C" fn(*const u8, usize, *mut u8, usize, *mut u8, usize) -> i64;
type Enter = unsafe extern "C" fn(*const u8, usize, u64, *mut u8, usize) -> i64;
type Count = unsafe extern "C" fn(*const u8, usize) -> i64;
type Round = unsafe extern "C" fn(*const u8, usize, *mut u64, usize) -> usize;
type PlaceIn = unsafe extern "C" fn(*const u64, usize, usize, u64) -> usize;
type PlacesIn = unsafe extern "C" fn(*const u64, usize, usize, u64, u64, *mut usize, usize) -> bool;

/// Host calls of one checkout; an early one has not all of them.
#[derive(Clone, Copy)]
pub struct Host {
    take_frame: TakeFrame,
    beat: Beat,
    enter: Option<Enter>,
    count: Option<Count>,
}

impl Host {
    pub fn of(checkout: &Path, up: usize) -> io::Result<Host> {
        let host = Library::of(checkout, "host", up)?;
        let take_frame = host.needed("minutefrost_take_frame")?;
        let beat = host.needed("minutefrost_beat")?;
        let (enter, count) = (
            host.find("minutefrost_enter"),
            host.find("minutefrost_count"),
        );
        // SAFETY: these are the calls' types in every checkout that has them.
        unsafe {
            Ok(Host {
                take_frame: std::mem::transmute::<*mut c_void, TakeFrame>(take_frame),
                beat: std::mem::transmute::<*mut c_void, Beat>(beat),
                enter: enter.map(|call| std::mem::transmute::<*mut c_void, Enter>(call)),
                count: count.map(|call| std::mem::transmute::<*mut c_void, Count>(call)),
            })
        }
    }

    pub fn has_enter_and_count(&self) -> bool {
        self.enter.is_some() && self.count.is_some()
    }

    pub fn take_frame(&self, image: &[u8], frame: &[u8], out: &mut [u8]) -> i64 {
        // SAFETY: each pointer comes with the length of its slice, and what is
        // written overlaps nothing that is read; so in the calls below.
        unsafe {
            (self.take_frame)(
                image.as_ptr(),
                image.len(),
                frame.as_ptr(),
                frame.len(),
                out.as_mut_ptr(),
                out.len(),
            )
        }
    }

    pub fn beat(&self, image: &[u8], out: &mut [u8], frames: &mut [u8]) -> i64 {
        // SAFETY: as above.
        unsafe {
            (self.beat)(
                image.as_ptr(),
                image.len(),
                out.as_mut_ptr(),
                out.len(),
                frames.as_mut_ptr(),
                frames.len(),
            )
        }
    }

    /// Of a checkout that has the call.
    pub fn enter(&self, image: &[u8], key: u64, out: &mut [u8]) -> i64 {
        let enter = self.enter.expect("asked for");
        // SAFETY: as above.
        unsafe {
            enter(
                image.as_ptr(),
                image.len(),
                key,
                out.as_mut_ptr(),
                out.len(),
            )
        }
    }

    /// Of a checkout that has the call.
    pub fn count(&self, image: &[u8]) -> i64 {
        let count = self.count.expect("asked for");
        // SAFETY: as above.
        unsafe { count(image.as_ptr(), image.len()) }
    }
}

/// A round of the stores of two images, by one checkout.
#[derive(Clone, Copy)]
pub struct TimedRound {
    round: Round,
}

impl TimedRound {
    pub fn of(checkout: &Path, up: usize) -> io::Result<TimedRound> {
        let rehearsal = Library::of(checkout, "rehearsal", up)?;
        let round = rehearsal.needed("minutefrost_timed_round")?;
        // SAFETY: this is the call's type.
        let round = unsafe { std::mem::transmute::<*mut c_void, Round>(round) };
        Ok(TimedRound { round })
    }

    /// The deliveries, with a record for each in the words; 0 where refused.
    pub fn run(&self, images: &[u8], words: &mut [u64]) -> usize {
        // SAFETY: as above.
        unsafe {
            (self.round)(
                images.as_ptr(),
                images.len(),
                words.as_mut_ptr(),
                words.len(),
            )
        }
    }
}

/// The search of a run of keys, by one checkout.
#[derive(Clone, Copy)]
pub struct Search {
    place_in: PlaceIn,
    places_in: PlacesIn,
}

impl Search {
    pub fn of(checkout: &Path, up: usize) -> io::Result<Search> {
        let searches = Library::of(checkout, "searches", up)?;
        let place_in = searches.needed("minutefrost_place_in")?;
        let places_in = searches.needed("minutefrost_places_in")?;
        // SAFETY: these are the calls' types.
        unsafe {
            Ok(Search {
                place_in: std::mem::transmute::<*mut c_void, PlaceIn>(place_in),
                places_in: std::mem::transmute::<*mut c_void, PlacesIn>(places_in),
            })
        }
    }

    /// The place of a key as one number: twice the position, and one more
    /// where the key is held.
    pub fn place_in(&self, keys: &[u64], count: usize, key: u64) -> usize {
        // SAFETY: as above.
        unsafe { (self.place_in)(keys.as_ptr(), keys.len(), count, key) }
    }

    /// Two of them, in the first two that are lent; whether so many are.
    pub fn places_in(
        &self,
        keys: &[u64],
        count: usize,
        lo: u64,
        hi: u64,
        told: &mut [usize],
    ) -> bool {
        // SAFETY: as above.
        unsafe {
            (self.places_in)(
                keys.as_ptr(),
                keys.len(),
                count,
                lo,
                hi,
                told.as_mut_ptr(),
                told.len(),
            )
        }
    }
}
