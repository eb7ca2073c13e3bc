//! Single calls of the two entries, each beside the unchanged Rust and the model of the refusals.

use crate::{
    lent::Lent,
    library::{self, DistanceAnswer, RegionAnswer},
};
use oracle::{
    field::{Field, Settings},
    refusals::{self, Refusal},
    run,
};

/// What is lent to the two entries.
#[derive(Clone)]
pub struct Call {
    pub field: Field,
    pub raw_len: usize,
    pub blurred_len: usize,
    pub distances: Vec<u16>,
    pub max_distance: u16,
    pub settings: Settings,
    pub workspace_len: usize,
    pub ids_len: usize,
}

impl Call {
    /// Lists of the lengths that the field asks for.
    pub fn fitting(
        field: Field,
        distances: Vec<u16>,
        max_distance: u16,
        settings: Settings,
    ) -> Self {
        let n = field.spans();
        Self {
            field,
            raw_len: n,
            blurred_len: n,
            distances,
            max_distance,
            settings,
            workspace_len: refusals::workspace_needed(n),
            ids_len: n,
        }
    }

    /// Calls the distance entry. Gives the answer's sort, or what differs.
    pub fn compare_distances(&self) -> Result<String, String> {
        let (mut raw, mut blurred) = (Lent::new(self.raw_len), Lent::new(self.blurred_len));
        let lent = self.field.clone();
        let answer = library::distances(&lent, raw.lend(), blurred.lend());
        let expected = refusals::distance_entry(&self.field, self.raw_len, self.blurred_len)
            .and_then(|()| run::distances(&self.field));
        let numbers = match &expected {
            Ok(done) => DistanceAnswer {
                refusal: 0,
                max_distance: done.max_distance,
            },
            Err(refusal) => DistanceAnswer {
                refusal: *refusal as u16,
                max_distance: 0,
            },
        };
        same(answer, numbers)?;
        inputs_are_kept(lent == self.field)?;
        match expected {
            Ok(done) => {
                raw.holds("raw", &done.raw)?;
                blurred.holds("blurred", &done.blurred)?;
                Ok("distances".to_owned())
            }
            Err(refusal) => {
                raw.is_kept("raw")?;
                blurred.is_kept("blurred")?;
                Ok(refusal.to_string())
            }
        }
    }

    /// Calls the region entry in both forms: the compared one beside the Rust, the dense one beside what the oracle makes of it. Gives the
    /// answer's sort, or what differs.
    pub fn compare_regions(&self) -> Result<String, String> {
        let expected = self.regions();
        let dense = expected.clone().map(run::Regions::dense);
        self.compare_form(library::regions, dense)
            .map_err(|what| format!("dense form: {what}"))?;
        self.compare_form(library::regions_compared, expected)
    }

    fn compare_form(
        &self,
        entry: fn(&Field, &[u16], u16, Settings, &mut [u16], &mut [u16]) -> RegionAnswer,
        expected: Result<run::Regions, Refusal>,
    ) -> Result<String, String> {
        let (mut workspace, mut ids) = (Lent::new(self.workspace_len), Lent::new(self.ids_len));
        let (lent, lent_distances) = (self.field.clone(), self.distances.clone());
        let answer = entry(
            &lent,
            &lent_distances,
            self.max_distance,
            self.settings,
            workspace.lend(),
            ids.lend(),
        );
        let numbers = match &expected {
            Ok(done) => RegionAnswer {
                refusal: 0,
                max_region: done.max_region,
                overlaps: u16::try_from(done.overlaps).map_err(|_| "too many overlaps")?,
                cut: u16::try_from(done.cut).map_err(|_| "too many contours cut short")?,
            },
            Err(refusal) => RegionAnswer {
                refusal: *refusal as u16,
                max_region: 0,
                overlaps: 0,
                cut: 0,
            },
        };
        same(answer, numbers)?;
        inputs_are_kept(lent == self.field && lent_distances == self.distances)?;
        match expected {
            Ok(done) => {
                ids.holds("ids", &done.ids)?;
                workspace.holds_zeros("workspace")?;
                let overlaps = if done.overlaps > 0 {
                    " with overlaps"
                } else {
                    ""
                };
                let cut = if done.cut > 0 {
                    format!(", {} cut short", done.cut)
                } else {
                    String::new()
                };
                Ok(format!("regions{overlaps}{cut}"))
            }
            // "the id list is as before the call and the workspace is zeroed"
            Err(refusal @ (Refusal::IdsRunOut | Refusal::SumTooGreat)) => {
                ids.is_kept("ids")?;
                workspace.holds_zeros("workspace")?;
                Ok(refusal.to_string())
            }
            Err(refusal) => {
                ids.is_kept("ids")?;
                workspace.is_kept("workspace")?;
                Ok(refusal.to_string())
            }
        }
    }

    /// What the Rust answers, and the model beside it.
    pub fn regions(&self) -> Result<run::Regions, Refusal> {
        refusals::region_entry(
            &self.field,
            &self.distances,
            self.max_distance,
            self.ids_len,
            self.workspace_len,
        )?;
        run::regions(
            &self.field,
            &self.distances,
            self.max_distance,
            self.settings,
        )
    }
}

fn same<A: PartialEq + std::fmt::Debug>(found: A, expected: A) -> Result<(), String> {
    if found == expected {
        Ok(())
    } else {
        Err(format!("{found:?}, not {expected:?}"))
    }
}

fn inputs_are_kept(kept: bool) -> Result<(), String> {
    if kept {
        Ok(())
    } else {
        Err("a list that is lent for reading was changed".to_owned())
    }
}
