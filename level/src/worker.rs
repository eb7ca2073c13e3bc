//! One worker: the lists of a field and of its answer, made once and used for every file.

use gussetraft::{
    Field, Lists, Loaded, Loader, Regions, build_distance_field, build_regions, workspace_len,
};
use std::{
    fs::File,
    io::{ErrorKind, Read},
    path::Path,
};

/// The most that the library takes, and so the loader here.
const MOST_CELLS: usize = 256 * 256;
const MOST_SPANS: usize = 65_000;

/// So much of a file is read at a time.
const PIECE: usize = 64 * 1_024;

/// Why there is no output for a file.
#[derive(Debug)]
pub enum Trouble {
    /// The library refused it.
    Refused(String),
    /// It could not be read, or its output could not be written.
    Failed(String),
}

impl Trouble {
    /// Something that the system would not do.
    pub fn failed(what: &str, path: &Path, error: impl std::fmt::Display) -> Self {
        Self::Failed(format!("{what} {}: {error}", path.display()))
    }
}

/// The regions of a field.
pub struct Answer<'a> {
    pub field: Field<'a>,
    pub max_distance: u16,
    pub regions: Regions,
    pub ids: &'a [u16],
}

/// The lists, kept from file to file. The workspace has as many numbers as the largest field so far asked for.
pub struct Worker {
    index: Vec<u32>,
    count: Vec<u8>,
    area: Vec<u8>,
    con: Vec<u8>,
    raw: Vec<u16>,
    blurred: Vec<u16>,
    ids: Vec<u16>,
    workspace: Vec<u16>,
    piece: Vec<u8>,
}

impl Worker {
    pub fn new() -> Self {
        Self {
            index: vec![0; MOST_CELLS],
            count: vec![0; MOST_CELLS],
            area: vec![0; MOST_SPANS],
            con: vec![0; 4 * MOST_SPANS],
            raw: vec![0; MOST_SPANS],
            blurred: vec![0; MOST_SPANS],
            ids: vec![0; MOST_SPANS],
            workspace: Vec::new(),
            piece: vec![0; PIECE],
        }
    }

    fn lists(&mut self) -> Lists<'_> {
        Lists {
            index: &mut self.index,
            count: &mut self.count,
            area: &mut self.area,
            con: &mut self.con,
        }
    }

    /// A file into the lists, a piece at a time; what is past a refusal is not read.
    pub fn load(&mut self, path: &Path) -> Result<Loaded, Trouble> {
        let mut file =
            File::open(path).map_err(|error| Trouble::failed("can't read", path, error))?;
        let mut loader = Loader::new(MOST_CELLS as u32, MOST_SPANS as u32);
        let mut piece = std::mem::take(&mut self.piece);
        let read = loop {
            match file.read(&mut piece) {
                Ok(0) => break Ok(()),
                Ok(length) => {
                    if loader.piece(&piece[..length], &mut self.lists()).is_err() {
                        // the end tells it, too
                        break Ok(());
                    }
                }
                Err(error) if error.kind() == ErrorKind::Interrupted => {}
                Err(error) => break Err(Trouble::failed("can't read", path, error)),
            }
        };
        self.piece = piece;
        read?;
        loader
            .end()
            .map_err(|refusal| Trouble::Refused(refusal.to_string()))
    }

    /// Distances and regions of the field that was loaded last.
    pub fn build(&mut self, loaded: &Loaded) -> Result<Answer<'_>, Trouble> {
        let n = loaded.spans;
        if self.workspace.len() < workspace_len(n) {
            self.workspace.resize(workspace_len(n), 0);
        }
        let cells = usize::from(loaded.w) * usize::from(loaded.h);
        let field = Field {
            w: loaded.w,
            h: loaded.h,
            index: &self.index[..cells],
            count: &self.count[..cells],
            area: &self.area[..n],
            con: &self.con[..4 * n],
        };
        let refused = |refusal: gussetraft::Refusal| Trouble::Refused(refusal.to_string());
        let max_distance = build_distance_field(&field, &mut self.raw[..n], &mut self.blurred[..n])
            .map_err(refused)?;
        // no more of the workspace than is needed: a call leaves zeros in all that it is lent
        let regions = build_regions(
            &field,
            &self.blurred[..n],
            max_distance,
            &loaded.sizes,
            &mut self.workspace[..workspace_len(n)],
            &mut self.ids[..n],
        )
        .map_err(refused)?;
        Ok(Answer {
            field,
            max_distance,
            regions,
            ids: &self.ids[..n],
        })
    }
}
