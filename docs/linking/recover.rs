// Recovers an image from Rust: a fresh one with 7 in cell 5, and one that is too short. Built and run by docs/linking/run.
extern "C" {
    // A slice of the library's is a pointer to its first element and its length.
    fn region_machine_recover(image: *const u64, words: usize, cells: *mut u64, room: usize) -> u64;
}

fn recover(image: &[u64], cells: &mut [u64]) -> u64 {
    unsafe { region_machine_recover(image.as_ptr(), image.len(), cells.as_mut_ptr(), cells.len()) }
}

fn main() {
    let (mut image, mut cells) = ([0u64; 1156], [0u64; 128]);
    image[128..132].fill(1);
    image[5] = 7;
    println!("answer={} cell=5 holds={}", recover(&image, &mut cells), cells[5]);
    println!("answer={}", recover(&image[1..], &mut cells));
}
