//! Makes field files, sound ones and damaged ones.

use oracle::{
    damage::{self, DAMAGES, Damage},
    file,
    levels::{self, KINDS, Kind, Size},
};
use std::{
    env, fs,
    io::{self, Write},
    path::{Path, PathBuf},
    process::ExitCode,
};

const HELP: &str = "\
usage: make [--kind KIND] [--size small|medium|large] [--seed S] [--count N] [--out DIR]

Makes field files. Without --out, one file goes to standard output. With --out,
N files of the seeds S, S+1, .. go to DIR as KIND-SEED.field.

  --kind KIND  make this kind only; without it all kinds take turns
  --size SIZE  small (up to 1,024 cells and 200 spans; without --size), medium
               or large (up to 256 by 256 cells and 32,000 or 65,000 spans;
               sound kinds only)
  --seed S     the first seed (without it 0)
  --count N    how many files (without it 1)
  --list       list the kinds
  --help       print this
";

/// What a file is made of.
#[derive(Clone, Copy)]
enum Recipe {
    Sound(&'static Kind),
    Damaged(&'static Damage),
}

impl Recipe {
    fn find(name: &str) -> Option<Self> {
        let sound = levels::kind(name).map(Self::Sound);
        sound.or_else(|| damage::damage(name).map(Self::Damaged))
    }

    fn all(size: Size) -> Vec<Self> {
        let sound = KINDS.iter().map(Self::Sound);
        match size {
            Size::Small => sound.chain(DAMAGES.iter().map(Self::Damaged)).collect(),
            Size::Medium | Size::Large => sound.collect(),
        }
    }

    fn name(self) -> &'static str {
        match self {
            Self::Sound(kind) => kind.name,
            Self::Damaged(damage) => damage.name,
        }
    }

    fn make(self, size: Size, seed: u64) -> Vec<u8> {
        match self {
            Self::Sound(kind) => file::write(&kind.make(size, seed)),
            Self::Damaged(damage) => damage.make(seed),
        }
    }
}

struct Order {
    recipe: Option<Recipe>,
    size: Size,
    seed: u64,
    count: u64,
    out: Option<PathBuf>,
}

fn main() -> ExitCode {
    match run() {
        Ok(()) => ExitCode::SUCCESS,
        Err(message) => {
            eprintln!("make: {message}");
            ExitCode::FAILURE
        }
    }
}

fn run() -> Result<(), String> {
    let mut order = Order {
        recipe: None,
        size: Size::Small,
        seed: 0,
        count: 1,
        out: None,
    };
    let mut arguments = env::args().skip(1);
    while let Some(option) = arguments.next() {
        match option.as_str() {
            "--help" => return print(HELP.as_bytes()),
            "--list" => return print(list().as_bytes()),
            _ => {
                let value = arguments.next().ok_or(format!(
                    "{option} is unknown or lacks its value; see --help"
                ))?;
                order.set(&option, &value)?;
            }
        }
    }
    order.fill()
}

impl Order {
    fn set(&mut self, option: &str, value: &str) -> Result<(), String> {
        match option {
            "--kind" => {
                self.recipe =
                    Some(Recipe::find(value).ok_or(format!("no kind {value}; see --list"))?)
            }
            "--size" => self.size = size(value)?,
            "--seed" => self.seed = number(value)?,
            "--count" => self.count = number(value)?,
            "--out" => self.out = Some(value.into()),
            _ => return Err(format!("unknown option {option}; see --help")),
        }
        Ok(())
    }

    fn fill(&self) -> Result<(), String> {
        if let (Some(Recipe::Damaged(damage)), Size::Medium | Size::Large) =
            (self.recipe, self.size)
        {
            return Err(format!("{} is always small", damage.name));
        }
        let recipes = self
            .recipe
            .map_or_else(|| Recipe::all(self.size), |recipe| vec![recipe]);
        match &self.out {
            Some(folder) => self.fill_folder(folder, &recipes),
            None if self.count == 1 => print(&recipes[0].make(self.size, self.seed)),
            None => Err("several files need --out".to_owned()),
        }
    }

    fn fill_folder(&self, folder: &Path, recipes: &[Recipe]) -> Result<(), String> {
        fs::create_dir_all(folder)
            .map_err(|error| format!("can't make {}: {error}", folder.display()))?;
        for (seed, recipe) in (self.seed..)
            .zip(recipes.iter().cycle())
            .take(self.count as usize)
        {
            let path = folder.join(format!("{}-{seed}.field", recipe.name()));
            fs::write(&path, recipe.make(self.size, seed))
                .map_err(|error| format!("can't write {}: {error}", path.display()))?;
        }
        Ok(())
    }
}

fn size(value: &str) -> Result<Size, String> {
    match value {
        "small" => Ok(Size::Small),
        "medium" => Ok(Size::Medium),
        "large" => Ok(Size::Large),
        _ => Err(format!("{value} is not a size; see --help")),
    }
}

fn number(value: &str) -> Result<u64, String> {
    value
        .parse()
        .map_err(|_| format!("{value} is not a number"))
}

fn list() -> String {
    let sound = KINDS
        .iter()
        .map(|kind| format!("{:16}{}\n", kind.name, kind.about));
    let damaged = DAMAGES
        .iter()
        .map(|damage| format!("{:16}{} ({})\n", damage.name, damage.about, damage.refusal));
    sound.chain(damaged).collect()
}

fn print(bytes: &[u8]) -> Result<(), String> {
    io::stdout()
        .write_all(bytes)
        .map_err(|error| format!("can't write: {error}"))
}
