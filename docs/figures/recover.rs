// Times recovery beside a plain Rust engine that does the same, on a full image and on a usual one. Built and run by docs/figures/run.
use std::hint::black_box;
use std::time::Instant;

extern "C" {
    fn region_machine_recover(image: *const u64, words: usize, cells: *mut u64, room: usize) -> u64;
}

fn proved(image: &[u64], cells: &mut [u64]) -> u64 {
    unsafe { region_machine_recover(image.as_ptr(), image.len(), cells.as_mut_ptr(), cells.len()) }
}

// The four words of a thread's entry with this LSN: kind, place, value, LSN.
fn entry(image: &[u64], thread: usize, lsn: u64) -> &[u64] {
    &image[132 + thread * 256 + (lsn % 64) as usize * 4..][..4]
}

fn is_bad(kind: u64, place: u64, value: u64) -> bool {
    match kind {
        1 => place > 127,
        2 | 3 => place > 7 || value > 4_000_000,
        _ => true,
    }
}

// Keeps of each lock 1 and the largest count among each thread's ACQUIREs that are left, 0 for none; of each entry, what its thread had before it.
fn plain(image: &[u64], cells: &mut [u64]) -> u64 {
    if image.len() != 1156 || cells.len() != 128 {
        return 21;
    }
    if image[128..132].iter().any(|head| *head == 0 || *head > 1_000_001) {
        return 22;
    }
    let (mut left, mut latest, mut earlier) = ([0usize; 4], [[0u64; 4]; 8], [[0u64; 64]; 4]);
    for thread in 0..4 {
        let head = image[128 + thread];
        while left[thread] < 64 {
            let lsn = head + left[thread] as u64;
            let words = entry(image, thread, lsn);
            if words[3] != lsn || lsn > 1_000_000 {
                break;
            }
            if is_bad(words[0], words[1], words[2]) {
                return 23;
            }
            if words[0] == 2 {
                let row = &mut latest[words[1] as usize][thread];
                earlier[thread][left[thread]] = *row;
                *row = (*row).max(words[2] + 1);
            }
            left[thread] += 1;
        }
    }
    let mut undone = [0u64; 128];
    undone.copy_from_slice(&image[..128]);
    while let Some(thread) = (0..4).find(|&thread| {
        let last = left[thread].checked_sub(1).map(|index| entry(image, thread, image[128 + thread] + index as u64));
        last.is_some_and(|words| words[0] != 3 || latest[words[1] as usize].iter().all(|count| *count <= words[2] + 1))
    }) {
        left[thread] -= 1;
        let words = entry(image, thread, image[128 + thread] + left[thread] as u64);
        match words[0] {
            1 => undone[words[1] as usize] = words[2],
            2 => latest[words[1] as usize][thread] = earlier[thread][left[thread]],
            _ => {}
        }
    }
    if left != [0; 4] {
        return 24;
    }
    cells.copy_from_slice(&undone);
    0
}

// An image in which each thread has so many regions: ACQUIRE, STOREs, RELEASE. The threads take one lock in turn, or each its own.
fn image(regions: u64, stores: u64, shared: bool) -> Vec<u64> {
    let mut image = vec![0u64; 1156];
    image[128..132].fill(1);
    for thread in 0..4u64 {
        let mut lsn = 1;
        for region in 0..regions {
            let (lock, count) = if shared { (0, region * 4 + thread) } else { (thread, region) };
            let kinds = (0..stores + 2).map(|index| match index {
                0 => [2, lock, count],
                index if index <= stores => [1, (thread * 32 + region * stores + index) % 128, index],
                _ => [3, lock, count],
            });
            for words in kinds {
                let at = 132 + thread as usize * 256 + (lsn % 64) as usize * 4;
                image[at..at + 3].copy_from_slice(&words);
                image[at + 3] = lsn;
                lsn += 1;
            }
        }
    }
    image
}

// Microseconds a call: the median of 41 times 20,000 calls.
fn time(recover: fn(&[u64], &mut [u64]) -> u64, image: &[u64]) -> f64 {
    let mut cells = [0u64; 128];
    let mut times: Vec<f64> = (0..41)
        .map(|_| {
            let began = Instant::now();
            for _ in 0..20_000 {
                assert_eq!(recover(black_box(image), black_box(&mut cells)), 0);
            }
            began.elapsed().as_secs_f64() * 1e6 / 20_000.0
        })
        .collect();
    times.sort_by(f64::total_cmp);
    times[20]
}

fn main() {
    for (name, image) in [("full", image(16, 2, true)), ("usual", image(1, 4, false))] {
        let (mut ours, mut theirs) = ([0u64; 128], [0u64; 128]);
        assert_eq!(proved(&image, &mut ours), plain(&image, &mut theirs));
        assert_eq!(ours, theirs);
        let (ours, theirs) = (time(proved, &image), time(plain, &image));
        println!("recover, {name} image: {ours:.2} us, {:.1} times plain Rust ({theirs:.2} us)", ours / theirs);
    }
}
