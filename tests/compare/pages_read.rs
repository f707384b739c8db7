//! W-207: how many pages a search may read in a store reached from a format, and how many were read.
use model::paper::PaperLog;
use script::calls::{Outputs, Window};
use std::collections::BTreeMap;

const BLOOM_PAGES: u64 = 2;
const TREE_PAGES: u64 = 9;

/// "It is at most S/8 rounded up, plus 3, in any store reached from a format."
fn most_header_pages(slots: u64) -> u64 {
    slots.div_ceil(8) + 3
}

/// The accepted searches that were held to the bounds.
#[derive(Default)]
pub struct PagesRead {
    searches: u64,
    with_header_pages: u64,
    with_bloom_pages: u64,
    /// With more Bloom pages than closed segments, so with both of one segment.
    with_both_bloom_pages: u64,
    /// The most header pages of a search, by S.
    most_header_pages: BTreeMap<u64, u64>,
}

impl PagesRead {
    /// Holds an accepted search to the bounds. No paper log knows which segments it goes through: no more than are closed.
    pub fn check(&mut self, log: &PaperLog, window: &Window, outputs: &Outputs) -> Result<(), String> {
        let pages: Vec<u64> = outputs.values().skip(1).collect();
        let [header, bloom, tree] = pages[..] else { return Err("no counts of pages read".into()) };
        let (slots, closed) = (log.slots(), log.closed_segments());
        let tries_bits = window.k1 == window.k2;
        let most_bloom_pages = if tries_bits { BLOOM_PAGES * closed } else { 0 };
        within("header", header, most_header_pages(slots))?;
        within("Bloom", bloom, most_bloom_pages)?;
        within("tree", tree, TREE_PAGES * closed)?;
        self.searches += 1;
        self.with_header_pages += u64::from(header > 0);
        self.with_bloom_pages += u64::from(bloom > 0);
        self.with_both_bloom_pages += u64::from(bloom > closed);
        let most = self.most_header_pages.entry(slots).or_default();
        *most = header.max(*most);
        Ok(())
    }

    pub fn print(&self) {
        println!(
            "searches held to the bounds of pages read {}, with header pages {}, with Bloom pages {}, with both of one \
             segment {}",
            self.searches, self.with_header_pages, self.with_bloom_pages, self.with_both_bloom_pages
        );
        let most = self.most_header_pages.iter();
        let most: Vec<String> =
            most.map(|(slots, most)| format!("S = {slots} {most} of {}", most_header_pages(*slots))).collect();
        println!("most header pages of a search: {}", most.join(", "));
    }
}

fn within(kind: &str, pages: u64, most: u64) -> Result<(), String> {
    if pages > most {
        return Err(format!("{pages} {kind} pages read, at most {most} by the paper log"));
    }
    Ok(())
}
