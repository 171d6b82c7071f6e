//! A second, independent planner for tram yard sheets, written from the documents alone.

pub mod dealing;
pub mod folded;
pub mod kind;
pub mod listing;
pub mod run;
pub mod sheet;

/// The listing of a sheet, or the line that tells its slip.
pub fn plan(bytes: &[u8]) -> String {
    match sheet::read(bytes) {
        Err(slip) => listing::refusal(slip),
        Ok(sheet) => {
            let dealing = dealing::deal(&sheet);
            let closing = run::run(&sheet, &dealing);
            listing::listing(&sheet, &dealing, &closing)
        }
    }
}
