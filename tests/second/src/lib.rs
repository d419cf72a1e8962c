//! Document 01's rules and document 02's orders 1, 2, 3 and 5 to 8 once more, with no code of the product, and inputs for them:
//! at every edge, and at random from a seed.
pub mod arcminutes;
pub mod edges;
pub mod float;
pub mod float_edges;
pub mod float_random;
pub mod float_requests;
pub mod halves;
pub mod map;
pub mod note;
pub mod note_cases;
pub mod note_random;
pub mod note_request;
pub mod note_requests;
pub mod record;
pub mod record_cases;
pub mod record_random;
pub mod reproject;
pub mod reproject_cases;
pub mod request;
pub mod requests;
pub mod rounding;
pub mod session;
pub mod sine;
pub mod stations;
pub mod table;
pub mod text;
pub mod text_cases;
pub mod text_random;
pub mod text_request;
pub mod text_requests;
pub mod torn;
pub mod torn_cases;
pub mod torn_random;
pub mod torn_sorts;
pub mod wide;

/// Stops where the second program has something else than the documents' table and record, another half-width of kinds 3 and 4,
/// another side's refusal, another sine, another text, another note, another neighbour of a half, or takes something else of a torn
/// file.
pub fn check() {
    sine::check();
    table::check();
    map::check();
    halves::check();
    float::check();
    record::check();
    reproject::check();
    text::check();
    note::check();
    note_cases::check();
    torn::check();
}
