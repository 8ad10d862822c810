//! Runs micromath's kernels beside ours, word for word, and says how many words were tried and how many differ. Or answers
//! frames by them, and holds a program that does so, for frames or for recipe lines, to those answers.

mod columns;
mod double_judge;
mod double_laws;
mod double_list;
mod double_rows;
mod double_speed;
mod doubles;
mod edges;
mod frames;
mod frames_speed;
mod gates;
mod grain;
mod kernels;
mod lines;
mod marks;
mod offsets;
mod order;
mod products;
mod reader;
mod recipe;
mod recipe_lines;
mod recipe_list;
mod recipes;
mod refusals;
mod remainder;
mod soft;
mod soft_judge;
mod soft_list;
mod soft_pairs;
mod soft_rows;
mod speed;
mod steps;
mod strips;
mod strips_speed;
mod sweep;
mod vectors;
mod words;

use kernels::Kernel;
use reader::Reader;
use std::io::{stdin, stdout, BufReader, BufWriter};
use std::path::Path;
use std::process::exit;
use sweep::Count;

/// What is to be done with lines.
enum Lines {
    /// Answer the frames of standard input.
    Read,
    /// Write the stored list of frames to a folder.
    Vectors(String),
    /// Hold a program to the reader.
    Frames(String),
    /// Time a program.
    FramesSpeed(String),
    /// Hold a program to the judge of recipes.
    Recipes(String),
    /// Write the recorded list of recipes to a folder.
    RecipeList(String),
    /// Write the recorded list of the engine without floats to a folder.
    SoftList(String),
    /// Write the recorded list of doubles to a folder.
    DoubleList(String),
}

struct Wanted {
    every: bool,
    speed: bool,
    /// The table of strips, and no other time.
    strips: bool,
    /// Operation numbers, and names of what has none; empty for all.
    only: Vec<String>,
    lines: Option<Lines>,
}

fn wanted() -> Result<Wanted, String> {
    let mut wanted = Wanted { every: false, speed: false, strips: false, only: Vec::new(), lines: None };
    let mut args = std::env::args().skip(1);
    while let Some(arg) = args.next() {
        match arg.as_str() {
            "--every" => wanted.every = true,
            "--speed" => wanted.speed = true,
            "--strips" => wanted.strips = true,
            "--only" => wanted.only.extend(args.next().unwrap_or_default().split(',').map(String::from)),
            "--read" => wanted.lines = Some(Lines::Read),
            "--vectors" => wanted.lines = Some(Lines::Vectors(args.next().unwrap_or_default())),
            "--frames" => wanted.lines = Some(Lines::Frames(args.next().unwrap_or_default())),
            "--frames-speed" => wanted.lines = Some(Lines::FramesSpeed(args.next().unwrap_or_default())),
            "--recipes" => wanted.lines = Some(Lines::Recipes(args.next().unwrap_or_default())),
            "--recipe-list" => wanted.lines = Some(Lines::RecipeList(args.next().unwrap_or_default())),
            "--soft-list" => wanted.lines = Some(Lines::SoftList(args.next().unwrap_or_default())),
            "--double-list" => wanted.lines = Some(Lines::DoubleList(args.next().unwrap_or_default())),
            _ => return Err(format!("no such option: {arg}")),
        }
    }
    Ok(wanted)
}

/// Does what is wanted with lines, and gives the exit status.
fn lines(lines: &Lines) -> i32 {
    const BUFFER: usize = 1 << 16;
    let reader = Reader::new();
    let (what, done) = match lines {
        Lines::Read => {
            let (input, output) = (BufReader::with_capacity(BUFFER, stdin()), BufWriter::with_capacity(BUFFER, stdout()));
            ("frames", reader.answers(input, output).map(|()| true))
        }
        Lines::Vectors(folder) => (folder.as_str(), vectors::write(&reader, Path::new(folder)).map(|()| true)),
        Lines::Frames(program) => (program.as_str(), frames::compare(&reader, program)),
        Lines::FramesSpeed(program) => (program.as_str(), frames_speed::speed(&reader, program)),
        Lines::Recipes(program) => (program.as_str(), recipes::compare(program)),
        Lines::RecipeList(folder) => (folder.as_str(), recipes::write(Path::new(folder)).map(|()| true)),
        Lines::SoftList(folder) => (folder.as_str(), soft_list::write(Path::new(folder)).map(|()| true)),
        Lines::DoubleList(folder) => (folder.as_str(), double_list::write(Path::new(folder)).map(|()| true)),
    };
    match done {
        Ok(agree) => !agree as i32,
        Err(why) => {
            eprintln!("compare: {what}: {why}");
            2
        }
    }
}

/// Says how long the chosen kernels take, and, where these are wanted, an offer of grain, recipes, the calls without floats and
/// those on doubles.
fn measure(all: &[Kernel], chosen: &[&Kernel], [wants_grain, wants_recipes, wants_soft, wants_doubles]: [bool; 4]) {
    let raw = |kernel: &Kernel| all.iter().find(|k| kernel.is_guarded() && !k.is_guarded() && k.name == kernel.name);
    if !chosen.is_empty() {
        println!("{}", speed::heading());
    }
    for kernel in chosen {
        println!("{}", speed::line(kernel, raw(kernel)));
    }
    for line in chosen.iter().filter_map(|kernel| speed::long(kernel, raw(kernel))) {
        println!("{line}");
    }
    if wants_grain {
        println!("{}", grain::speed());
    }
    if wants_recipes {
        recipes::speed().iter().for_each(|line| println!("{line}"));
    }
    if wants_soft {
        soft::speed().iter().for_each(|line| println!("{line}"));
    }
    if wants_doubles {
        double_speed::speed().iter().for_each(|line| println!("{line}"));
    }
}

fn main() {
    let wanted = wanted().unwrap_or_else(|why| {
        eprintln!("compare: {why}");
        exit(2)
    });
    if let Some(of) = &wanted.lines {
        exit(lines(of));
    }
    let mut all = if wanted.speed || wanted.strips { kernels::beside_the_crate() } else { kernels::all() };
    all.retain(|kernel| !wanted.strips || kernel.number().is_some());
    // what is no kernel: strips are timed with each, and no other is timed with strips
    let keys = match (wanted.strips, wanted.speed) {
        (true, _) => vec![],
        (_, true) => vec![grain::KEY, recipes::KEY, soft::KEY, doubles::KEY],
        _ => vec![products::KEY, order::KEY, strips::KEY, grain::KEY, recipes::KEY, soft::KEY, doubles::KEY],
    };
    if let Some(key) = wanted.only.iter().find(|key| !keys.contains(&key.as_str()) && !all.iter().any(|k| k.key() == **key)) {
        eprintln!("compare: nothing here has the number or name {key:?}");
        exit(2);
    }
    let wants = |kernel: &Kernel| wanted.only.is_empty() || wanted.only.contains(&kernel.key());
    let chosen: Vec<&Kernel> = all.iter().filter(|k| wants(k)).collect();
    let wants_key = |key: &str| wanted.only.is_empty() || wanted.only.iter().any(|only| only == key);
    let [wants_products, wants_order, wants_strips, wants_grain, wants_recipes, wants_soft, wants_doubles] =
        [products::KEY, order::KEY, strips::KEY, grain::KEY, recipes::KEY, soft::KEY, doubles::KEY].map(wants_key);

    if wanted.strips {
        println!("{}", strips_speed::heading());
        return chosen.iter().filter_map(|kernel| strips_speed::rows(kernel)).flatten().for_each(|row| println!("{row}"));
    }
    if wanted.speed {
        return measure(&all, &chosen, [wants_grain, wants_recipes, wants_soft, wants_doubles]);
    }
    let mut total = Count::default();
    let mut report = |label: &str, count: Count| {
        println!("{}", sweep::line(label, &count));
        sweep::others(&count).for_each(|line| println!("{line}"));
        total.add(&count);
    };
    for kernel in &chosen {
        report(&kernel.label(), sweep::sweep(kernel, wanted.every));
    }
    if chosen.iter().any(|k| k.is_guarded()) {
        report("edges of the gates, by hand", edges::edges(wants));
    }
    if wanted.only.is_empty() {
        report("refusals of the call by number", refusals::refusals());
    }
    if wants_products {
        products::products(wanted.every, &mut report);
    }
    if wants_order {
        order::order(wanted.every, &mut report);
    }
    if wants_strips {
        strips::strips(wanted.every, &mut report);
    }
    if wants_grain {
        for (label, count) in grain::grain(wanted.every) {
            report(label, count);
        }
    }
    if wants_recipes {
        recipes::recipes(wanted.every, &mut report);
    }
    if wants_soft {
        soft::soft(wanted.every, &mut report);
    }
    if wants_doubles {
        doubles::doubles(wanted.every, &mut report);
    }
    println!("{}", sweep::line("in all", &total));
    exit(if total.differ == 0 { 0 } else { 1 });
}
