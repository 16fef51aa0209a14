//! The C functions of the static libraries, in this one file.

/// generate and contained: the algebra, a slice, the output.
pub type WithSlice = unsafe extern "C" fn(
    n: usize,
    arities: *const u8,
    arities_len: usize,
    cells: *const u8,
    cells_len: usize,
    slice: *const u8,
    slice_len: usize,
    out: *mut u8,
    out_len: usize,
) -> u32;

/// separate: the algebra, two elements, the output.
pub type WithElements = unsafe extern "C" fn(
    n: usize,
    arities: *const u8,
    arities_len: usize,
    cells: *const u8,
    cells_len: usize,
    v: usize,
    w: usize,
    out: *mut u8,
    out_len: usize,
) -> u32;

/// decompose: the algebra, the output.
pub type Alone = unsafe extern "C" fn(
    n: usize,
    arities: *const u8,
    arities_len: usize,
    cells: *const u8,
    cells_len: usize,
    out: *mut u8,
    out_len: usize,
) -> u32;

/// certify: the algebra, the maps.
pub type WithMaps = unsafe extern "C" fn(
    n: usize,
    arities: *const u8,
    arities_len: usize,
    cells: *const u8,
    cells_len: usize,
    maps: *const u8,
    maps_len: usize,
) -> u32;

/// The services of one static library. The product has the last two in another one, the probe.
#[derive(Clone, Copy)]
pub struct Library {
    pub name: &'static str,
    pub generate: WithSlice,
    pub contained: WithSlice,
    pub separate: WithElements,
    pub decompose: Alone,
    pub certify: Option<WithMaps>,
    pub quotient: Option<WithSlice>,
}

macro_rules! library {
    ($name:literal, $generate:ident, $contained:ident, $separate:ident, $decompose:ident, $certify:expr, $quotient:expr) => {{
        extern "C" {
            fn $generate(
                n: usize,
                arities: *const u8,
                arities_len: usize,
                cells: *const u8,
                cells_len: usize,
                pairs: *const u8,
                pairs_len: usize,
                out: *mut u8,
                out_len: usize,
            ) -> u32;
            fn $contained(
                n: usize,
                arities: *const u8,
                arities_len: usize,
                cells: *const u8,
                cells_len: usize,
                map: *const u8,
                map_len: usize,
                out: *mut u8,
                out_len: usize,
            ) -> u32;
            fn $separate(
                n: usize,
                arities: *const u8,
                arities_len: usize,
                cells: *const u8,
                cells_len: usize,
                v: usize,
                w: usize,
                out: *mut u8,
                out_len: usize,
            ) -> u32;
            fn $decompose(
                n: usize,
                arities: *const u8,
                arities_len: usize,
                cells: *const u8,
                cells_len: usize,
                out: *mut u8,
                out_len: usize,
            ) -> u32;
        }
        Library {
            name: $name,
            generate: $generate,
            contained: $contained,
            separate: $separate,
            decompose: $decompose,
            certify: $certify,
            quotient: $quotient,
        }
    }};
}

#[cfg(have_baseline)]
pub fn baseline() -> Option<Library> {
    extern "C" {
        fn baseline_certify(
            n: usize,
            arities: *const u8,
            arities_len: usize,
            cells: *const u8,
            cells_len: usize,
            maps: *const u8,
            maps_len: usize,
        ) -> u32;
        fn baseline_quotient(
            n: usize,
            arities: *const u8,
            arities_len: usize,
            cells: *const u8,
            cells_len: usize,
            map: *const u8,
            map_len: usize,
            out: *mut u8,
            out_len: usize,
        ) -> u32;
    }
    Some(library!(
        "baseline",
        baseline_generate,
        baseline_contained,
        baseline_separate,
        baseline_decompose,
        Some(baseline_certify),
        Some(baseline_quotient)
    ))
}

#[cfg(not(have_baseline))]
pub fn baseline() -> Option<Library> {
    None
}

#[cfg(have_worksheet)]
pub fn worksheet() -> Option<Library> {
    #[cfg(have_probe)]
    let (certify, quotient): (Option<WithMaps>, Option<WithSlice>) =
        (Some(probe::probe_certify), Some(probe::probe_quotient));
    #[cfg(not(have_probe))]
    let (certify, quotient) = (None, None);
    Some(library!(
        "worksheet",
        congruence_generate,
        congruence_contained,
        congruence_separate,
        congruence_decompose,
        certify,
        quotient
    ))
}

#[cfg(not(have_worksheet))]
pub fn worksheet() -> Option<Library> {
    None
}

/// The writer of algebra texts: the algebra, the output.
pub type Write = unsafe extern "C" fn(
    n: usize,
    arities: *const u8,
    arities_len: usize,
    cells: *const u8,
    cells_len: usize,
    out: *mut u8,
    out_len: usize,
) -> u64;

/// The reader of algebra texts: the text, the cells, the head.
pub type Read = unsafe extern "C" fn(
    text: *const u8,
    text_len: usize,
    cells: *mut u8,
    cells_len: usize,
    head: *mut u8,
    head_len: usize,
) -> u64;

/// The writer and the reader of one static library.
#[derive(Clone, Copy)]
pub struct Texts {
    pub name: &'static str,
    pub write: Write,
    pub read: Read,
}

#[cfg(any(have_baseline, have_probe))]
macro_rules! texts {
    ($name:literal, $write:ident, $read:ident) => {{
        extern "C" {
            fn $write(
                n: usize,
                arities: *const u8,
                arities_len: usize,
                cells: *const u8,
                cells_len: usize,
                out: *mut u8,
                out_len: usize,
            ) -> u64;
            fn $read(
                text: *const u8,
                text_len: usize,
                cells: *mut u8,
                cells_len: usize,
                head: *mut u8,
                head_len: usize,
            ) -> u64;
        }
        Texts { name: $name, write: $write, read: $read }
    }};
}

#[cfg(have_baseline)]
pub fn baseline_texts() -> Option<Texts> {
    Some(texts!("baseline", text_baseline_write, text_baseline_read))
}

#[cfg(not(have_baseline))]
pub fn baseline_texts() -> Option<Texts> {
    None
}

#[cfg(have_probe)]
pub fn probe_texts() -> Option<Texts> {
    Some(texts!("probe", probe_write, probe_read))
}

#[cfg(not(have_probe))]
pub fn probe_texts() -> Option<Texts> {
    None
}

/// What else tests/PROBE.md describes.
#[cfg(have_probe)]
pub mod probe {
    extern "C" {
        pub fn probe_meet(
            n: usize,
            a: *const u8,
            a_len: usize,
            b: *const u8,
            b_len: usize,
            out: *mut u8,
            out_len: usize,
        ) -> u32;
        pub fn probe_join(
            n: usize,
            a: *const u8,
            a_len: usize,
            b: *const u8,
            b_len: usize,
            out: *mut u8,
            out_len: usize,
        ) -> u32;
        pub fn probe_prefer(
            n: usize,
            a: *const u8,
            a_len: usize,
            b: *const u8,
            b_len: usize,
            out: *mut u8,
            out_len: usize,
        ) -> usize;
        pub fn probe_place(x: u8, y: u8) -> u32;
        pub fn probe_quotient(
            n: usize,
            arities: *const u8,
            arities_len: usize,
            cells: *const u8,
            cells_len: usize,
            map: *const u8,
            map_len: usize,
            out: *mut u8,
            out_len: usize,
        ) -> u32;
        pub fn probe_certify(
            n: usize,
            arities: *const u8,
            arities_len: usize,
            cells: *const u8,
            cells_len: usize,
            maps: *const u8,
            maps_len: usize,
        ) -> u32;
        pub fn probe_bench_start(n: usize, image: *mut u8, image_len: usize) -> u32;
        pub fn probe_bench_add(
            image: *mut u8,
            image_len: usize,
            n: usize,
            arities: *const u8,
            arities_len: usize,
            cells: *const u8,
            cells_len: usize,
            sheet: usize,
            x: usize,
            y: usize,
        ) -> u32;
        pub fn probe_bench_clear(image: *mut u8, image_len: usize, sheet: usize) -> u32;
        pub fn probe_bench_set(
            image: *mut u8,
            image_len: usize,
            sheet: usize,
            name: *const u8,
            name_len: usize,
        ) -> u32;
        pub fn probe_bench_return(
            image: *mut u8,
            image_len: usize,
            sheet: usize,
            name: *const u8,
            name_len: usize,
        ) -> u32;
        pub fn probe_bench_forget(
            image: *mut u8,
            image_len: usize,
            sheet: usize,
            name: *const u8,
            name_len: usize,
        ) -> u32;
        pub fn probe_bench_convert(old: *const u8, old_len: usize, image: *mut u8, image_len: usize) -> u32;
    }
}
