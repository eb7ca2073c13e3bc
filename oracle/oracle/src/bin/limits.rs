//! What the Rattle program `limits` must print: the two entries on sample fields and at their limits, from the unchanged
//! Rust and the model of the refusals. The calls are those of `crates/limits/src/main.rt`, in its order.

use oracle::{
    field::{Field, Settings},
    refusals::{self, Refusal},
    run,
};

/// The lists of a call, and the lengths of the two that the entry writes.
struct Call {
    name: &'static str,
    field: Field,
    raws: usize,
    blurs: usize,
}

/// The number that the lent lists hold before the call.
const LENT: u16 = 7;

fn main() {
    for call in calls() {
        print!("{}", answer(&call));
    }
    for call in region_calls() {
        print!("{}", region_answer(&call));
    }
}

/// A call of the region entry on the open field of 3 by 3.
struct RegionCall {
    name: &'static str,
    distances: &'static [u16],
    max_distance: u16,
    border_size: u16,
    least_area: u16,
    workspace: usize,
}

fn region_calls() -> Vec<RegionCall> {
    const OWN: &[u16] = &[0, 0, 0, 0, 2, 0, 0, 0, 0];
    const ABOVE: &[u16] = &[0, 0, 0, 0, 3, 0, 0, 0, 0];
    let call = |name, distances, max_distance, border_size, least_area, workspace| RegionCall {
        name,
        distances,
        max_distance,
        border_size,
        least_area,
        workspace,
    };
    vec![
        call("regions", OWN, 2, 0, 0, 5_248),
        call("border 1", OWN, 2, 1, 0, 5_248),
        call("least area 9", OWN, 2, 0, 9, 5_248),
        call("least area 10", OWN, 2, 0, 10, 5_248),
        call("workspace longer", OWN, 2, 0, 0, 5_300),
        call("workspace one short", OWN, 2, 0, 0, 5_247),
        call(
            "max_distance 510",
            &[0, 0, 0, 0, 510, 0, 0, 0, 0],
            510,
            0,
            0,
            5_248,
        ),
        call("max_distance 511", OWN, 511, 0, 0, 5_248),
        call("distance above", ABOVE, 2, 0, 0, 5_248),
        call("7 before 8", ABOVE, 2, 0, 0, 5_247),
        call("distances short", &ABOVE[..8], 2, 0, 0, 5_247),
    ]
}

fn region_answer(call: &RegionCall) -> String {
    let field = open_three();
    let settings = Settings {
        border_size: call.border_size,
        least_area: call.least_area,
        merge_area: 0,
    };
    let result = refusals::region_entry(
        &field,
        call.distances,
        call.max_distance,
        field.spans(),
        call.workspace,
    )
    .and_then(|()| run::regions(&field, call.distances, call.max_distance, settings))
    .map(run::Regions::dense);
    let (line, ids, workspace) = match result {
        Ok(done) => (
            format!(
                "max_region {} overlaps {} cut {}",
                done.max_region, done.overlaps, done.cut
            ),
            done.ids,
            vec![0; call.workspace],
        ),
        Err(refusal) => (line(refusal), vec![LENT; 9], vec![LENT; call.workspace]),
    };
    format!(
        "{}: {line}\n{}{}",
        call.name,
        list("ids", &ids),
        list("workspace", &workspace)
    )
}

fn answer(call: &Call) -> String {
    let result = refusals::distance_entry(&call.field, call.raws, call.blurs)
        .and_then(|()| run::distances(&call.field));
    let (line, raw, blurred) = match result {
        Ok(done) => (
            format!("max_distance {}", done.max_distance),
            done.raw,
            done.blurred,
        ),
        Err(refusal) => (line(refusal), vec![LENT; call.raws], vec![LENT; call.blurs]),
    };
    format!(
        "{}: {line}\n{}{}",
        call.name,
        list("raw", &raw),
        list("blurred", &blurred)
    )
}

fn line(refusal: Refusal) -> String {
    refusal.to_string()
}

/// The numbers of a short list; of a long one its length and a digest.
fn list(name: &str, numbers: &[u16]) -> String {
    if numbers.len() > 64 {
        let digest = numbers.iter().fold(0, |digest, &number| {
            (digest * 31 + u64::from(number) + 1) % 65_521
        });
        return format!("{name} length {} digest {digest}\n", numbers.len());
    }
    let numbers: String = numbers.iter().map(|number| format!(" {number}")).collect();
    format!("{name}{numbers}\n")
}

fn calls() -> Vec<Call> {
    let three = |edit: fn(&mut Field)| {
        let mut field = open_three();
        edit(&mut field);
        field
    };
    let call = |name, field: Field| {
        let spans = field.spans();
        Call {
            name,
            field,
            raws: spans,
            blurs: spans,
        }
    };
    let lent = |name, raws, blurs| Call {
        name,
        field: open_three(),
        raws,
        blurs,
    };
    vec![
        call("open 3 by 3", three(|_| ())),
        call("area 0", three(|field| field.area = vec![0; 9])),
        call(
            "two areas",
            three(|field| field.area = vec![1, 1, 2, 1, 1, 2, 1, 1, 2]),
        ),
        call("no cells", Field::default()),
        call("layers", layers()),
        call("w 256", empty_cells(256, 1)),
        call("w 257", empty_cells(257, 1)),
        call("h 256", empty_cells(1, 256)),
        call("h 257", empty_cells(1, 257)),
        call("n 65,000", alone(65_000)),
        call("n 65,001", alone(65_001)),
        call("index short", three(|field| field.index.truncate(8))),
        call("count short", three(|field| field.count.truncate(8))),
        call("con short", three(|field| field.con.truncate(35))),
        lent("raw short", 8, 9),
        lent("blurred short", 9, 8),
        call("index long", three(|field| field.index = vec![0; 10])),
        call("count long", three(|field| field.count = vec![1; 10])),
        call("con long", three(|field| field.con = vec![255; 37])),
        lent("raw long", 10, 9),
        lent("blurred long", 9, 10),
        call("count 63", tower(63)),
        call("count 64", tower(64)),
        call("index off by one", three(|field| field.index[4] = 5)),
        call("counts sum to 10", three(|field| field.count[8] = 2)),
        call("off the grid", three(|field| field.con[0] = 0)),
        call("missing layer", three(|field| field.con[2] = 1)),
        call("one way", three(|field| field.con[2] = 255)),
    ]
}

/// 3 by 3 cells with a span each, all connected.
fn open_three() -> Field {
    let side = |inside: bool| if inside { 0 } else { 255 };
    let con = (0..9)
        .flat_map(|cell| {
            let (x, z) = (cell % 3, cell / 3);
            [side(x > 0), side(z < 2), side(x < 2), side(z > 0)]
        })
        .collect();
    Field {
        w: 3,
        h: 3,
        index: (0..9).collect(),
        count: vec![1; 9],
        area: vec![1; 9],
        con,
    }
}

/// 4 by 3 cells with up to three layers, one span not walkable.
fn layers() -> Field {
    Field {
        w: 4,
        h: 3,
        index: vec![0, 2, 3, 6, 7, 9, 11, 12, 14, 15, 17, 19],
        count: vec![2, 1, 3, 1, 2, 2, 1, 2, 1, 2, 2, 1],
        area: vec![1, 1, 1, 1, 1, 0, 1, 1, 1, 1, 1, 1, 1, 1, 1, 1, 1, 1, 1, 1],
        con: vec![
            255, 0, 0, 255, 255, 1, 255, 255, 0, 0, 0, 255, 0, 0, 0, 255, 255, 255, 255, 255, 255,
            255, 255, 255, 0, 0, 255, 255, 255, 0, 0, 0, 255, 255, 1, 1, 0, 0, 0, 0, 1, 1, 255,
            255, 0, 0, 0, 0, 0, 0, 255, 0, 255, 255, 255, 255, 255, 255, 0, 0, 0, 255, 0, 0, 255,
            255, 1, 1, 0, 255, 0, 0, 1, 255, 255, 255, 0, 255, 255, 0,
        ],
    }
}

fn empty_cells(w: u16, h: u16) -> Field {
    let cells = usize::from(w) * usize::from(h);
    Field {
        w,
        h,
        index: vec![0; cells],
        count: vec![0; cells],
        ..Field::default()
    }
}

/// 250 by 128 cells of a span each, none connected, and lists for so many spans.
fn alone(spans: usize) -> Field {
    Field {
        w: 250,
        h: 130,
        index: (0..32_500).map(|cell| 2 * cell).collect(),
        count: vec![2; 32_500],
        area: vec![1; spans],
        con: vec![255; 4 * spans],
    }
}

/// One cell of so many spans that lead nowhere.
fn tower(spans: u8) -> Field {
    let n = usize::from(spans);
    Field {
        w: 1,
        h: 1,
        index: vec![0],
        count: vec![spans],
        area: vec![1; n],
        con: vec![255; 4 * n],
    }
}
