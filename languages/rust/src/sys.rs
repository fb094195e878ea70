//! What this crate has of `samvolip_map.h` and `samvolip_objects.h`, and all of its unsafe code: the functions of C, and safe ones
//! over them.

#![allow(unsafe_code)]

use crate::{Error, WrongOption};
use std::ffi::{c_char, c_void, CStr};
use std::marker::PhantomData;
use std::mem::{forget, size_of};
use std::process::abort;
use std::ptr::{self, NonNull};
use std::sync::Arc;

/// The version of the header that this file tells of.
const VERSION: u32 = 0x000900;

/// The greatest key.
pub const KEY_MAX: u64 = u64::MAX - 2;
/// The greatest value.
pub const VALUE_MAX: u64 = (1 << 60) - 1;

const OK: i32 = 0;
const ABSENT: i32 = 0;
const PRESENT: i32 = 1;

pub const E_OUT_OF_MEMORY: i32 = -8;
pub const E_KEY_RANGE: i32 = -9;
pub const E_VALUE_RANGE: i32 = -10;
pub const E_SUM_RANGE: i32 = -15;
pub const E_ROOM: i32 = -18;
pub const E_VERSION: i32 = -20;
pub const E_NESTED: i32 = -22;
pub const E_OPTIONS: i32 = -23;

pub const KEYS_SECRET: u32 = 0;
pub const KEYS_MIXED: u32 = 1;
pub const KEYS_AS_THEY_ARE: u32 = 2;

/// `samvolip_map`, of which only C knows what is in it.
#[repr(C)]
struct CMap([u8; 0]);

/// `samvolip_map_walk`, the same.
#[repr(C)]
struct CWalk([u8; 0]);

/// `samvolip_map_options`. 0 stands for the default.
#[repr(C)]
#[derive(Clone, Copy, Debug, Default, PartialEq, Eq)]
pub struct Options {
    pub room: u64,
    pub memory: u64,
    pub growth: u32,
    pub threads: u32,
    pub keys: u32,
}

/// `samvolip_map_figures`.
#[repr(C)]
#[derive(Default)]
pub struct Figures {
    pub renewals: u64,
    pub refused: u64,
    pub write_stop: u64,
    pub read_stop: u64,
    pub all_stops: u64,
    pub slots: u64,
    pub keys: u64,
    pub own_threads: u64,
}

/// `samvolip_object_figures`.
#[repr(C)]
#[derive(Default)]
pub struct ObjectFigures {
    pub retired: u64,
    pub waiting: u64,
    pub oldest_pin: u64,
}

/// `samvolip_reply`.
#[repr(C)]
#[derive(Default)]
struct Reply {
    before: u64,
    had: u32,
    matched: u32,
}

/// `samvolip_entry`.
#[repr(C)]
#[derive(Clone, Copy, Default)]
pub struct Entry {
    pub key: u64,
    pub number: u64,
}

extern "C" {
    fn samvolip_map_open_with(
        version: u32,
        options_size: usize,
        figures_size: usize,
        options: *const Options,
        map: *mut *mut CMap,
    ) -> i32;
    fn samvolip_map_wrong_option(options: *const Options) -> *const c_char;
    fn samvolip_map_free(map: *mut CMap);
    fn samvolip_map_get(map: *mut CMap, key: u64, value: *mut u64) -> i32;
    fn samvolip_map_contains(map: *mut CMap, key: u64) -> i32;
    fn samvolip_map_put(map: *mut CMap, key: u64, value: u64, before: *mut u64) -> i32;
    fn samvolip_map_put_if_absent(map: *mut CMap, key: u64, value: u64, before: *mut u64) -> i32;
    fn samvolip_map_fetch_max(map: *mut CMap, key: u64, value: u64, before: *mut u64) -> i32;
    fn samvolip_map_fetch_min(map: *mut CMap, key: u64, value: u64, before: *mut u64) -> i32;
    fn samvolip_map_add(map: *mut CMap, key: u64, value: u64, before: *mut u64) -> i32;
    fn samvolip_map_replace(map: *mut CMap, key: u64, value: u64, before: *mut u64) -> i32;
    fn samvolip_map_replace_if(map: *mut CMap, key: u64, old: u64, value: u64) -> i32;
    fn samvolip_map_remove(map: *mut CMap, key: u64, before: *mut u64) -> i32;
    fn samvolip_map_remove_if(map: *mut CMap, key: u64, value: u64) -> i32;
    fn samvolip_map_compare_exchange(
        map: *mut CMap,
        key: u64,
        expected: *const u64,
        next: *const u64,
        reply: *mut Reply,
    ) -> i32;
    fn samvolip_map_size(map: *mut CMap, size: *mut u64) -> i32;
    fn samvolip_map_size_estimate(map: *mut CMap, size: *mut u64) -> i32;
    fn samvolip_map_clear(
        map: *mut CMap,
        visit: Option<extern "C" fn(context: *mut c_void, key: u64, value: u64)>,
        context: *mut c_void,
    ) -> i32;
    fn samvolip_map_snapshot(map: *mut CMap, entries: *mut Entry, room: usize, count: *mut usize) -> i32;
    fn samvolip_map_renew(map: *mut CMap, room: u64) -> i32;
    fn samvolip_map_look(map: *mut CMap, figures: *mut Figures) -> i32;
    fn samvolip_map_walk_begin(map: *mut CMap, walk: *mut *mut CWalk) -> i32;
    fn samvolip_map_walk_next(walk: *mut CWalk, key: *mut u64, value: *mut u64) -> i32;
    fn samvolip_map_walk_end(walk: *mut CWalk);
    fn samvolip_map_pin(map: *mut CMap) -> i32;
    fn samvolip_map_unpin(map: *mut CMap);
    fn samvolip_map_ready(map: *mut CMap) -> i32;
    fn samvolip_map_retire(map: *mut CMap, pointer: *mut c_void, free_function: Free) -> i32;
    fn samvolip_map_collect(map: *mut CMap) -> i32;
    fn samvolip_map_look_at_objects(map: *mut CMap, figures: *mut ObjectFigures) -> i32;
    fn samvolip_map_each(
        map: *mut CMap,
        visit: Option<extern "C" fn(context: *mut c_void, key: u64, value: u64)>,
        context: *mut c_void,
    ) -> i32;
}

/// A function that frees an object.
type Free = extern "C" fn(pointer: *mut c_void);

/// Frees a map when its last handle goes.
struct Owner(NonNull<CMap>);

// SAFETY: any thread may free a map.
unsafe impl Send for Owner {}
// SAFETY: an owner can't be called.
unsafe impl Sync for Owner {}

impl Drop for Owner {
    fn drop(&mut self) {
        // SAFETY: no handle is left, and a walk borrows one; so all calls have ended.
        unsafe { samvolip_map_free(self.0.as_ptr()) }
    }
}

/// An open map. It has the address of C's map beside the owner, so that a call needn't look there.
#[derive(Clone)]
pub struct Handle {
    map: NonNull<CMap>,
    _owner: Arc<Owner>,
}

// SAFETY: any thread may call a map.
unsafe impl Send for Handle {}
// SAFETY: so may many at a time.
unsafe impl Sync for Handle {}

impl Handle {
    pub fn open(options: &Options) -> Result<Handle, Error> {
        let mut map = ptr::null_mut();
        // SAFETY: the version and the sizes are those of this file.
        let code = unsafe { samvolip_map_open_with(VERSION, size_of::<Options>(), size_of::<Figures>(), options, &mut map) };
        if code == E_OPTIONS {
            // SAFETY: it reads the options, and returns a text that is there as long as the library, as one is wrong.
            let text = unsafe { CStr::from_ptr(samvolip_map_wrong_option(options)) };
            return Err(Error::Options(WrongOption::of_text(text.to_bytes())));
        }
        made(code)?;
        let map = NonNull::new(map).expect("an open map has an address");
        Ok(Handle { map, _owner: Arc::new(Owner(map)) })
    }

    /// Makes a call. The map is open, since there is a handle, and any thread may call it.
    #[inline]
    fn call<T>(&self, call: impl FnOnce(*mut CMap) -> T) -> T {
        call(self.map.as_ptr())
    }

    #[inline]
    pub fn get(&self, key: u64) -> Result<Option<u64>, Error> {
        // SAFETY: see `call`; what is written goes to a number.
        found(|value| self.call(|map| unsafe { samvolip_map_get(map, key, value) }))
    }

    #[inline]
    pub fn contains(&self, key: u64) -> Result<bool, Error> {
        // SAFETY: see `call`.
        is_so(self.call(|map| unsafe { samvolip_map_contains(map, key) }))
    }

    #[inline]
    pub fn put(&self, key: u64, value: u64) -> Result<Option<u64>, Error> {
        // SAFETY: as for `get`.
        found(|before| self.call(|map| unsafe { samvolip_map_put(map, key, value, before) }))
    }

    #[inline]
    pub fn put_if_absent(&self, key: u64, value: u64) -> Result<Option<u64>, Error> {
        // SAFETY: as for `get`.
        found(|before| self.call(|map| unsafe { samvolip_map_put_if_absent(map, key, value, before) }))
    }

    #[inline]
    pub fn fetch_max(&self, key: u64, value: u64) -> Result<Option<u64>, Error> {
        // SAFETY: as for `get`.
        found(|before| self.call(|map| unsafe { samvolip_map_fetch_max(map, key, value, before) }))
    }

    #[inline]
    pub fn fetch_min(&self, key: u64, value: u64) -> Result<Option<u64>, Error> {
        // SAFETY: as for `get`.
        found(|before| self.call(|map| unsafe { samvolip_map_fetch_min(map, key, value, before) }))
    }

    #[inline]
    pub fn add(&self, key: u64, value: u64) -> Result<Option<u64>, Error> {
        // SAFETY: as for `get`.
        found(|before| self.call(|map| unsafe { samvolip_map_add(map, key, value, before) }))
    }

    #[inline]
    pub fn replace(&self, key: u64, value: u64) -> Result<Option<u64>, Error> {
        // SAFETY: as for `get`.
        found(|before| self.call(|map| unsafe { samvolip_map_replace(map, key, value, before) }))
    }

    #[inline]
    pub fn replace_if(&self, key: u64, old: u64, value: u64) -> Result<bool, Error> {
        // SAFETY: see `call`.
        is_so(self.call(|map| unsafe { samvolip_map_replace_if(map, key, old, value) }))
    }

    #[inline]
    pub fn remove(&self, key: u64) -> Result<Option<u64>, Error> {
        // SAFETY: as for `get`.
        found(|before| self.call(|map| unsafe { samvolip_map_remove(map, key, before) }))
    }

    #[inline]
    pub fn remove_if(&self, key: u64, value: u64) -> Result<bool, Error> {
        // SAFETY: see `call`.
        is_so(self.call(|map| unsafe { samvolip_map_remove_if(map, key, value) }))
    }

    /// What was found: `Ok` if that was `expected`, so that it was exchanged, and else `Err`.
    #[inline]
    pub fn compare_exchange(
        &self,
        key: u64,
        expected: Option<u64>,
        next: Option<u64>,
    ) -> Result<Result<Option<u64>, Option<u64>>, Error> {
        let pointer = |value: &Option<u64>| value.as_ref().map_or(ptr::null(), |value| value as *const u64);
        let (expected, next) = (pointer(&expected), pointer(&next));
        let mut reply = Reply::default();
        // SAFETY: see `call`; the pointers are null, or to numbers that live until it returns.
        made(self.call(|map| unsafe { samvolip_map_compare_exchange(map, key, expected, next, &mut reply) }))?;
        let before = (reply.had == 1).then_some(reply.before);
        Ok(if reply.matched == 1 { Ok(before) } else { Err(before) })
    }

    pub fn size(&self) -> Result<u64, Error> {
        let mut size = 0;
        // SAFETY: see `call`; what is written goes to a number.
        made(self.call(|map| unsafe { samvolip_map_size(map, &mut size) }))?;
        Ok(size)
    }

    pub fn size_estimate(&self) -> Result<u64, Error> {
        let mut size = 0;
        // SAFETY: as for `size`.
        made(self.call(|map| unsafe { samvolip_map_size_estimate(map, &mut size) }))?;
        Ok(size)
    }

    pub fn clear(&self) -> Result<(), Error> {
        // SAFETY: see `call`; nothing is shown to nobody.
        made(self.call(|map| unsafe { samvolip_map_clear(map, None, ptr::null_mut()) }))
    }

    pub fn drain(&self) -> Result<Vec<(u64, u64)>, Error> {
        extern "C" fn push(entries: *mut c_void, key: u64, value: u64) {
            // SAFETY: it is the vector below, which nobody else has during the call. A push doesn't unwind: there are too few keys
            // for a capacity overflow, and want of memory is an abort.
            unsafe { &mut *entries.cast::<Vec<(u64, u64)>>() }.push((key, value));
        }
        let mut entries = Vec::new();
        let context: *mut Vec<_> = &mut entries;
        // SAFETY: see `call`; `push` is called in it alone, with this vector.
        made(self.call(|map| unsafe { samvolip_map_clear(map, Some(push), context.cast()) }))?;
        Ok(entries)
    }

    /// All entries, if the vector has room for them; else how many there are, and the vector is empty.
    pub fn snapshot(&self, entries: &mut Vec<Entry>) -> Result<Option<usize>, Error> {
        entries.clear();
        let mut count = 0;
        // SAFETY: see `call`; the vector has so much room.
        let code = self.call(|map| unsafe { samvolip_map_snapshot(map, entries.as_mut_ptr(), entries.capacity(), &mut count) });
        if code == E_ROOM {
            return Ok(Some(count));
        }
        made(code)?;
        // SAFETY: so many entries were written, and there was room for them.
        unsafe { entries.set_len(count) };
        Ok(None)
    }

    pub fn renew(&self, room: u64) -> Result<(), Error> {
        // SAFETY: see `call`.
        made(self.call(|map| unsafe { samvolip_map_renew(map, room) }))
    }

    pub fn look(&self) -> Result<Figures, Error> {
        let mut figures = Figures::default();
        // SAFETY: see `call`; what is written goes to the figures.
        made(self.call(|map| unsafe { samvolip_map_look(map, &mut figures) }))?;
        Ok(figures)
    }

    pub fn walk(&self) -> Result<Walk<'_>, Error> {
        let mut walk = ptr::null_mut();
        // SAFETY: see `call`; what is written goes to a pointer.
        made(self.call(|map| unsafe { samvolip_map_walk_begin(map, &mut walk) }))?;
        Ok(Walk { walk: NonNull::new(walk).expect("a walk has an address"), map: PhantomData })
    }
}

/// A walk over a map. It borrows a handle, so that the map stays open.
pub struct Walk<'m> {
    walk: NonNull<CWalk>,
    map: PhantomData<&'m Handle>,
}

// SAFETY: a walk may be taken on by any thread, by one at a time.
unsafe impl Send for Walk<'_> {}
// SAFETY: whatever reaches C takes the walk by `&mut`.
unsafe impl Sync for Walk<'_> {}

impl Walk<'_> {
    #[inline]
    pub fn next(&mut self) -> Result<Option<(u64, u64)>, Error> {
        let (mut key, mut value) = (0, 0);
        // SAFETY: the walk goes on until it is dropped, and nobody else has it.
        let code = unsafe { samvolip_map_walk_next(self.walk.as_ptr(), &mut key, &mut value) };
        Ok(is_so(code)?.then_some((key, value)))
    }
}

impl Drop for Walk<'_> {
    fn drop(&mut self) {
        // SAFETY: as for `next`, and nobody has it afterwards.
        unsafe { samvolip_map_walk_end(self.walk.as_ptr()) }
    }
}

/// What a call found at its key: it wrote that, and answered whether there was a value.
#[inline]
fn found(call: impl FnOnce(*mut u64) -> i32) -> Result<Option<u64>, Error> {
    let mut value = 0;
    let code = call(&mut value);
    Ok(is_so(code)?.then_some(value))
}

/// Whether it is so, by a call's code.
#[inline]
fn is_so(code: i32) -> Result<bool, Error> {
    match code {
        PRESENT => Ok(true),
        ABSENT => Ok(false),
        refused => Err(Error::of_code(refused)),
    }
}

/// Whether a call was made, by its code.
#[inline]
fn made(code: i32) -> Result<(), Error> {
    match code {
        OK => Ok(()),
        refused => Err(Error::of_code(refused)),
    }
}

/// A map whose values are the addresses of boxes. Clones are of one map; the last one drops what is in it.
pub struct Boxes<V: Send + Sync> {
    handle: Handle,
    owner: Arc<BoxesOwner<V>>,
}

/// Drops the boxes that are in a map when its last handle goes.
struct BoxesOwner<V: Send + Sync> {
    handle: Handle,
    /// It owns objects,
    owns: PhantomData<V>,
    /// and takes them by `&`.
    takes: PhantomData<fn(V)>,
}

impl<V: Send + Sync> Clone for Boxes<V> {
    fn clone(&self) -> Boxes<V> {
        Boxes { handle: self.handle.clone(), owner: self.owner.clone() }
    }
}

/// A pin of its thread on such a map. What is got by it stays as long as it stands.
pub struct Pin<'m, V: Send + Sync> {
    of: &'m Boxes<V>,
    /// It stays on its thread.
    thread: PhantomData<*mut ()>,
}

impl<V: Send + Sync> Drop for Pin<'_, V> {
    fn drop(&mut self) {
        told::unpins();
        // SAFETY: see `call`; the thread pinned the map when this was made.
        self.of.handle.call(|map| unsafe { samvolip_map_unpin(map) })
    }
}

impl<'m, V: Send + Sync> Pin<'m, V> {
    /// Whether it is a pin on this map.
    #[inline]
    pub fn is_on(&self, map: &Boxes<V>) -> bool {
        ptr::eq(self.of, map) || Arc::ptr_eq(&self.of.owner, &map.owner)
    }

    /// The object with this address, which the map had at some moment since the pin stands.
    #[inline]
    fn object(&self, value: u64) -> &V {
        told::got(value);
        // SAFETY: it was put as a box. Whoever takes it out retires it, and then it isn't freed while the pin stands, which is as long as
        // this borrow. Nobody has it mutably. Who ends and forgets the pin leaves it standing, so it does stand.
        unsafe { &*(value as *const V) }
    }

    #[inline]
    pub fn get(&self, key: u64) -> Result<Option<&V>, Error> {
        Ok(self.of.handle.get(key)?.map(|value| self.object(value)))
    }

    /// Puts an object at a key, and returns what was there. A refused call gives it back.
    pub fn put(&self, key: u64, object: Box<V>) -> Result<Option<&V>, (Error, Box<V>)> {
        let value = number_of(object);
        match self.of.exchange(|| self.of.handle.put(key, value)) {
            Ok(before) => Ok(before.map(|value| self.object(value))),
            // SAFETY: it was a box just now, and the map hasn't got it.
            Err(error) => Err((error, unsafe { box_of(value) })),
        }
    }

    pub fn remove(&self, key: u64) -> Result<Option<&V>, Error> {
        let before = self.of.exchange(|| self.of.handle.remove(key))?;
        Ok(before.map(|value| self.object(value)))
    }

    /// Puts an object at a key that has the expected one, or none, and returns it. Else it gives the object back, with an error if it
    /// was refused.
    pub fn exchange(&self, key: u64, expected: Option<&V>, object: Box<V>) -> Result<&V, (Option<Error>, Box<V>)> {
        let value = number_of(object);
        match self.of.exchange_at(key, expected, Some(value)) {
            Ok(true) => Ok(self.object(value)),
            // SAFETY: as for `put`.
            answer => Err((answer.err(), unsafe { box_of(value) })),
        }
    }

    /// Removes a key that has the expected object, and returns whether it had.
    pub fn remove_at(&self, key: u64, expected: &V) -> Result<bool, Error> {
        self.of.exchange_at(key, Some(expected), None)
    }

    pub fn walk(&self) -> Result<ObjectWalk<'_, V>, Error> {
        Ok(ObjectWalk { walk: self.of.handle.walk()?, pin: self })
    }
}

impl<V: Send + Sync> Boxes<V> {
    pub fn open(options: &Options) -> Result<Boxes<V>, Error> {
        let handle = Handle::open(options)?;
        let owner = BoxesOwner { handle: handle.clone(), owns: PhantomData, takes: PhantomData };
        Ok(Boxes { handle, owner: Arc::new(owner) })
    }

    /// For the calls that see no object.
    pub fn handle(&self) -> &Handle {
        &self.handle
    }

    #[inline]
    pub fn pin(&self) -> Result<Pin<'_, V>, Error> {
        // SAFETY: see `call`.
        made(self.handle.call(|map| unsafe { samvolip_map_pin(map) }))?;
        Ok(Pin { of: self, thread: PhantomData })
    }

    /// Makes a call that answers the address that it took out of the map, and retires that. What memory that needs is taken before.
    fn exchange(&self, call: impl FnOnce() -> Result<Option<u64>, Error>) -> Result<Option<u64>, Error> {
        // SAFETY: see `call`.
        made(self.handle.call(|map| unsafe { samvolip_map_ready(map) }))?;
        let before = call()?;
        if let Some(value) = before {
            // SAFETY: see `call`; this call alone took it out of the map, where it was put as a box. It isn't refused now.
            self.handle.call(|map| unsafe { samvolip_map_retire(map, value as *mut c_void, free_box::<V>) });
        }
        Ok(before)
    }

    /// Whether the key had the expected object, or none, so that it was exchanged.
    fn exchange_at(&self, key: u64, expected: Option<&V>, next: Option<u64>) -> Result<bool, Error> {
        let expected = expected.map(|object| object as *const V as u64);
        let mut matched = false;
        self.exchange(|| {
            let answer = self.handle.compare_exchange(key, expected, next)?;
            matched = answer.is_ok();
            Ok(answer.unwrap_or(None))
        })?;
        Ok(matched)
    }

    pub fn collect(&self) -> Result<(), Error> {
        // SAFETY: see `call`.
        made(self.handle.call(|map| unsafe { samvolip_map_collect(map) }))
    }

    pub fn look_at_objects(&self) -> Result<ObjectFigures, Error> {
        let mut figures = ObjectFigures::default();
        // SAFETY: see `call`; what is written goes to the figures.
        made(self.handle.call(|map| unsafe { samvolip_map_look_at_objects(map, &mut figures) }))?;
        Ok(figures)
    }
}

impl<V: Send + Sync> Drop for BoxesOwner<V> {
    fn drop(&mut self) {
        extern "C" fn free<V>(_: *mut c_void, _: u64, value: u64) {
            free_box::<V>(value as *mut c_void)
        }
        // SAFETY: see `call`; nobody has the map any more, and so nobody what is in it. What was retired goes with the map.
        self.handle.call(|map| unsafe { samvolip_map_each(map, Some(free::<V>), ptr::null_mut()) });
    }
}

/// Drops an object that was put as a box. It doesn't unwind into C: a panic of its `drop` ends the program.
extern "C" fn free_box<V>(pointer: *mut c_void) {
    struct Ends;
    impl Drop for Ends {
        fn drop(&mut self) {
            abort()
        }
    }
    let ends = Ends;
    told::got(pointer as u64);
    told::frees();
    // SAFETY: C calls it once, with what was put as a box and was taken out of the map, when nobody has it any more.
    drop(unsafe { box_of::<V>(pointer as u64) });
    forget(ends);
}

/// A walk over the objects, under a pin that stood before.
pub struct ObjectWalk<'p, V: Send + Sync> {
    walk: Walk<'p>,
    pin: &'p Pin<'p, V>,
}

impl<'p, V: Send + Sync> ObjectWalk<'p, V> {
    pub fn next(&mut self) -> Result<Option<(u64, &'p V)>, Error> {
        Ok(self.walk.next()?.map(|(key, value)| (key, self.pin.object(value))))
    }
}

/// The address of what is in a box, which nobody frees.
fn number_of<V>(object: Box<V>) -> u64 {
    let value = Box::into_raw(object) as u64;
    told::put(value);
    value
}

/// The box with this address.
///
/// # Safety
///
/// It was a box, and nobody else makes it one again, nor has what is in it.
unsafe fn box_of<V>(value: u64) -> Box<V> {
    Box::from_raw(value as *mut V)
}

/// The thread sanitizer doesn't look into the library: with `--cfg samvolip_tells_order` it is told what that orders. Who gets an object
/// comes after who put it, and who frees one after all who have unpinned.
#[cfg(samvolip_tells_order)]
mod told {
    use std::ffi::c_void;

    extern "C" {
        fn __tsan_acquire(address: *mut c_void);
        fn __tsan_release(address: *mut c_void);
    }

    static UNPINNED: u64 = 0;

    fn unpinned() -> *mut c_void {
        std::ptr::addr_of!(UNPINNED).cast_mut().cast()
    }

    // SAFETY: the sanitizer takes any address.
    pub fn put(value: u64) {
        unsafe { __tsan_release(value as *mut c_void) }
    }

    pub fn got(value: u64) {
        unsafe { __tsan_acquire(value as *mut c_void) }
    }

    pub fn unpins() {
        unsafe { __tsan_release(unpinned()) }
    }

    pub fn frees() {
        unsafe { __tsan_acquire(unpinned()) }
    }
}

#[cfg(not(samvolip_tells_order))]
mod told {
    #[inline]
    pub fn put(_: u64) {}
    #[inline]
    pub fn got(_: u64) {}
    #[inline]
    pub fn unpins() {}
    #[inline]
    pub fn frees() {}
}
