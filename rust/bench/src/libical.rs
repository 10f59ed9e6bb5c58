//! libical, where it is installed: its shared library is opened while the program runs, so that nothing needs it to build.

use std::ffi::{c_char, c_int, c_long, c_void, CStr, CString};
use std::ptr;

/// A component of libical's, known by its pointer alone.
type Component = *mut c_void;

/// `struct icaltimetype` of libical 3.
#[derive(Clone, Copy)]
#[repr(C)]
struct Time {
    fields: [c_int; 8],
    zone: *const c_void,
}

/// `struct icaltime_span` of libical 3.
#[repr(C)]
struct Span {
    start: c_long,
    end: c_long,
    is_busy: c_int,
}

type Expand = unsafe extern "C" fn(rule: *const c_char, start: c_long, count: c_int, array: *mut c_long) -> c_int;
type Parse = unsafe extern "C" fn(text: *const c_char) -> Component;
type FirstReal = unsafe extern "C" fn(calendar: Component) -> Component;
type FromSeconds = unsafe extern "C" fn(seconds: c_long, is_date: c_int, zone: *const c_void) -> Time;
type Visit = unsafe extern "C" fn(component: Component, span: *mut Span, data: *mut c_void);
type ForEach = unsafe extern "C" fn(component: Component, start: Time, end: Time, visit: Visit, data: *mut c_void);
type Free = unsafe extern "C" fn(component: Component);

extern "C" {
    fn dlopen(name: *const c_char, flags: c_int) -> *mut c_void;
    fn dlsym(library: *mut c_void, name: *const c_char) -> *mut c_void;
}

const RTLD_NOW: c_int = 2;

/// The functions of libical that expand a rule, and that read an event and visit its occurrences.
pub struct Libical {
    expand: Expand,
    parse: Parse,
    first_real: FirstReal,
    from_seconds: FromSeconds,
    for_each: ForEach,
    free: Free,
}

impl Libical {
    /// Opens the library, if it is there.
    pub fn load() -> Option<Libical> {
        // SAFETY: both names end with a zero.
        let library = [c"libical.so.3", c"libical.so"]
            .into_iter()
            .map(|name| unsafe { dlopen(name.as_ptr(), RTLD_NOW) })
            .find(|library| !library.is_null())?;
        let find = |name: &CStr| {
            // SAFETY: the library is open, and stays so.
            let function = unsafe { dlsym(library, name.as_ptr()) };
            (!function.is_null()).then_some(function)
        };
        // SAFETY: in libical 3 the functions have these types (ical.h).
        unsafe {
            Some(Libical {
                expand: std::mem::transmute::<*mut c_void, Expand>(find(c"icalrecur_expand_recurrence")?),
                parse: std::mem::transmute::<*mut c_void, Parse>(find(c"icalparser_parse_string")?),
                first_real: std::mem::transmute::<*mut c_void, FirstReal>(find(c"icalcomponent_get_first_real_component")?),
                from_seconds: std::mem::transmute::<*mut c_void, FromSeconds>(find(c"icaltime_from_timet_with_zone")?),
                for_each: std::mem::transmute::<*mut c_void, ForEach>(find(c"icalcomponent_foreach_recurrence")?),
                free: std::mem::transmute::<*mut c_void, Free>(find(c"icalcomponent_free")?),
            })
        }
    }

    /// The first dates of a rule from a start: libical's rule alone, from its own form to local times.
    pub fn expand(&self, (rule, start): &(String, i64), count: usize) -> Vec<c_long> {
        let rule = CString::new(rule.as_str()).expect("a rule has no zero byte");
        let mut dates = vec![0; count];
        // SAFETY: the rule ends with a zero, and the array has room for as many dates as are asked for.
        unsafe { (self.expand)(rule.as_ptr(), *start, count as c_int, dates.as_mut_ptr()) };
        dates
    }

    /// The start and the end in UTC of each occurrence in a window: libical's whole call, from an iCalendar text on.
    pub fn occurrences(&self, text: &CStr, window: (i64, i64)) -> Vec<(i64, i64)> {
        let mut spans: Vec<(i64, i64)> = Vec::new();
        // SAFETY: the text ends with a zero. The calendar lives until it is freed, and the event within it; the list is borrowed by nobody
        // else while its occurrences are visited.
        unsafe {
            let calendar = (self.parse)(text.as_ptr());
            let event = (self.first_real)(calendar);
            let [start, end] = [window.0, window.1].map(|seconds| (self.from_seconds)(seconds, 0, ptr::null()));
            (self.for_each)(event, start, end, keep, (&raw mut spans).cast());
            (self.free)(calendar);
        }
        spans
    }
}

/// Puts the span of an occurrence into the list of spans.
unsafe extern "C" fn keep(_: Component, span: *mut Span, spans: *mut c_void) {
    // SAFETY: libical passes on the list that `occurrences` gave it, and a span that is valid during the call.
    unsafe { (*spans.cast::<Vec<(i64, i64)>>()).push(((*span).start, (*span).end)) }
}
