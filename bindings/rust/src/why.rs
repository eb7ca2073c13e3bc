//! Why a span has its number, or none.

use crate::{accepted, sys, Field, Refusal, Sizes};

/// What the rules did to a span: the first of these that applies.
#[derive(Debug, Clone, Copy, PartialEq, Eq, Hash)]
pub enum Reason {
    /// Its area is 0: no room.
    NotWalkable,
    /// The border paints it: no room.
    Painted {
        /// 1 for the left columns, 2 for the right columns, 3 for the low rows, 4 for the high rows.
        strip: u16,
    },
    /// No flood kept it, and no expansion reached it: no room.
    NeverReached,
    /// The filter removed its region: no room.
    FilteredOut {
        /// How many spans the regions have that were gathered and held against the least area.
        group_count: u16,
        /// The least area.
        least_area: u16,
    },
    /// A flood gave it its id.
    Flooded {
        /// The flood's id, before any merge.
        grown_id: u16,
        /// The id that [`build_regions`](crate::build_regions) gives the span.
        number: u16,
    },
    /// It took the id of a neighbour in an expansion.
    Expanded {
        /// The id that it took: that of a flood, before any merge.
        grown_id: u16,
        /// The span whose id it took.
        from_span: usize,
        /// The id that [`build_regions`](crate::build_regions) gives the span.
        number: u16,
    },
}

/// A flood that reached a span and gave it back.
#[derive(Debug, Clone, Copy, PartialEq, Eq, Hash)]
pub struct GaveBack {
    /// The flood's id. If the flood failed, another may have the id afterwards.
    pub id: u16,
    /// The span whose other id made the flood give it back: a neighbour or a corner neighbour.
    pub objecting_span: usize,
}

/// What is told of a span.
#[derive(Debug, Clone, Copy, PartialEq, Eq)]
pub struct Explanation<'a> {
    /// The reason.
    pub reason: Reason,
    /// For [`Reason::Flooded`] and [`Reason::Expanded`] the flood's id, then each id that it became by a merge, to the last; empty for the others.
    /// It is the beginning of the list that was lent.
    pub trail: &'a [u16],
    /// The last flood that reached the span and gave it back, whatever the reason.
    pub gave_back: Option<GaveBack>,
}

/// Tells why a span has no room, or which it has and how: what the rules did to it in the build that [`build_regions`](crate::build_regions) makes of
/// the same lists and sizes. It takes as long as that build.
///
/// `trail` has one number a span; after the trail it holds zeros. The workspace is that of [`build_regions`](crate::build_regions).
///
/// ```
/// use gussetraft::{build_distance_field, explain_span, workspace_len, Field, Reason, Refusal, Sizes};
///
/// // 3 by 3 cells with one span each, all joined: one flood fills them.
/// let mut con = Vec::new();
/// for z in 0..3 {
///     for x in 0..3 {
///         for inside in [x > 0, z < 2, x < 2, z > 0] {
///             con.push(if inside { 0 } else { 255 });
///         }
///     }
/// }
/// let index = [0, 1, 2, 3, 4, 5, 6, 7, 8];
/// let field = Field { w: 3, h: 3, index: &index, count: &[1; 9], area: &[1; 9], con: &con };
/// let (mut raw, mut blurred) = ([0; 9], [0; 9]);
/// let most = build_distance_field(&field, &mut raw, &mut blurred)?;
/// let (mut workspace, mut trail) = (vec![0; workspace_len(9)], [0; 9]);
///
/// let told = explain_span(&field, &blurred, most, &Sizes::default(), &mut workspace, 8, &mut trail)?;
/// assert_eq!(told.reason, Reason::Flooded { grown_id: 1, number: 1 });
/// assert_eq!((told.trail, told.gave_back), (&[1][..], None));
///
/// // Nine spans are fewer than ten.
/// let sizes = Sizes { min_region_area: 10, ..Sizes::default() };
/// let told = explain_span(&field, &blurred, most, &sizes, &mut workspace, 8, &mut trail)?;
/// assert_eq!(told.reason, Reason::FilteredOut { group_count: 9, least_area: 10 });
///
/// let refused = explain_span(&field, &blurred, most, &sizes, &mut workspace, 9, &mut trail);
/// assert_eq!(refused, Err(Refusal::NoSuchSpan));
/// # Ok::<(), Refusal>(())
/// ```
///
/// # Errors
///
/// Refusals 1 to 8, 3 also for a trail that is not one number a span; 14 if there is no such span. The workspace and the trail then hold what they
/// held before. Then 12 and 13: the trail holds what it held before, the workspace zeros.
pub fn explain_span<'a>(
    field: &Field<'_>,
    distances: &[u16],
    max_distance: u16,
    sizes: &Sizes,
    workspace: &mut [u16],
    span: usize,
    trail: &'a mut [u16],
) -> Result<Explanation<'a>, Refusal> {
    // no field has a span of the greatest number
    let asked = u32::try_from(span).unwrap_or(u32::MAX);
    let [refusal, reason, strip, group_count, least_area, grown_id, from, length, number, id, objecting] =
        sys::explain(
            field,
            distances,
            max_distance,
            sizes,
            workspace,
            asked,
            trail,
        );
    accepted(refusal)?;
    let reason = match reason {
        1 => Reason::NotWalkable,
        2 => Reason::Painted { strip },
        3 => Reason::NeverReached,
        4 => Reason::FilteredOut {
            group_count,
            least_area,
        },
        5 => Reason::Flooded { grown_id, number },
        6 => Reason::Expanded {
            grown_id,
            from_span: usize::from(from),
            number,
        },
        _ => panic!("libgussetraft.a is not that of this crate"),
    };
    Ok(Explanation {
        reason,
        trail: &trail[..usize::from(length)],
        gave_back: (id != 0).then_some(GaveBack {
            id,
            objecting_span: usize::from(objecting),
        }),
    })
}
