//! Runs the program of a file over the image of another, prints the listing, and writes the new image where the run was done.

fn main() {
    let names: Vec<String> = std::env::args().skip(1).collect();
    let [program, image] = names.as_slice() else {
        eprintln!("usage: example PROGRAM IMAGE");
        std::process::exit(2);
    };
    let code = std::fs::read(program).expect("the program can be read");
    let tasks = std::fs::read(image).unwrap_or_default();
    let mut memory = vec![0; 65_536];
    let mut new_image = vec![0; 1_048_576];
    let mut listing = vec![0; 4_096];
    let mut ran = rafenuma::run(&mut memory, &tasks, &code, &mut new_image, &mut listing, 1_000_000);
    if let Err(needed) = ran.listing {
        listing = vec![0; needed];
        ran = rafenuma::run(&mut memory, &tasks, &code, &mut new_image, &mut listing, 1_000_000);
    }
    print!("{}", std::str::from_utf8(&listing[..ran.listing.unwrap_or(0)]).expect("a listing is UTF-8"));
    if ran.outcome == rafenuma::Outcome::Done && ran.refusal.is_none() {
        std::fs::write(image, &new_image[..ran.new_image]).expect("the image can be written");
    }
}
