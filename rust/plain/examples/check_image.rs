//! The verdict on standard input, in one line: `accepted pages 2` or `refused 21 page 5`.

use std::io::Read;

fn main() {
    let mut image = Vec::new();
    std::io::stdin().read_to_end(&mut image).expect("standard input is read");
    if image.len() > 65536 {
        println!("refused 13 page 0");
        return;
    }
    let mut kinds = [0; 4096];
    let mut namers = [0; 4096];
    let mut steps = [0; 4096];
    match plain::verdict::verdict(&image, &mut kinds, &mut namers, &mut steps) {
        Ok(accepted) => println!("accepted pages {}", accepted.pages),
        Err(refusal) => println!("refused {} page {}", refusal.number, refusal.page),
    }
}
