//! Offline zones take no part (02, item 4): no call changes one, and what stands in one changes no answer and no other byte.

use crate::array::{Answer, Array};
use crate::script::{run, stream, Command, Outcome};

/// The offline zones, each by its drive and number.
fn offline_zones(array: &Array) -> Vec<(usize, usize)> {
    let p = &array.p;
    let all = (0..p.n).flat_map(|d| (0..p.z).map(move |z| (d, z)));
    all.filter(|&(d, z)| !array.good(d, z)).collect()
}

/// Bytes of one zone in the image, and of its pointer.
fn zone_bytes(array: &Array, (d, z): (usize, usize)) -> (std::ops::Range<usize>, std::ops::Range<usize>) {
    let p = &array.p;
    let from = array.at(d, z, 0);
    let pointer = 4 * (d * p.z + z);
    (from..from + p.cap * p.stride(), pointer..pointer + 4)
}

/// The array with other bytes and pointers in its offline zones.
fn junked(array: &Array, seed: u64) -> Array {
    let mut twin = array.clone();
    for (i, zone) in offline_zones(array).into_iter().enumerate() {
        let (image, pointer) = zone_bytes(array, zone);
        let seed = seed.wrapping_add(2 * i as u64);
        stream(seed, &mut twin.image[image]);
        // A pointer within the capacity looks most like one that counts.
        let to = match seed % 3 {
            0 => seed >> 8,
            _ => (seed >> 8) % (array.p.cap as u64 + 1),
        };
        twin.pointers[pointer].copy_from_slice(&(to as u32).to_be_bytes());
    }
    twin
}

/// Copies the offline zones of one array over those of another.
fn put_back(to: &mut Array, from: &Array) {
    for zone in offline_zones(from) {
        let (image, pointer) = zone_bytes(from, zone);
        to.image[image.clone()].copy_from_slice(&from.image[image]);
        to.pointers[pointer.clone()].copy_from_slice(&from.pointers[pointer]);
    }
}

/// Whether a call left the offline zones as they were.
fn untouched(before: &Array, after: &Array) -> bool {
    offline_zones(before).into_iter().all(|zone| {
        let (image, pointer) = zone_bytes(before, zone);
        before.image[image.clone()] == after.image[image] && before.pointers[pointer.clone()] == after.pointers[pointer]
    })
}

fn call(array: &mut Array, command: &Command) -> Option<(Answer, Option<Vec<u8>>)> {
    match run(array, command) {
        Outcome::Answer(answer, filled) => Some((answer, filled)),
        _ => None,
    }
}

/// Runs a command on the array and on a twin that differs in offline zones alone; both must answer and store the same.
pub fn both(array: &mut Array, command: &Command, seed: u64) -> Result<Option<Answer>, String> {
    let before = array.clone();
    let twin_before = junked(array, seed);
    let mut twin = twin_before.clone();
    let Some(answer) = call(array, command) else {
        return Ok(None);
    };
    let other = call(&mut twin, command);
    if !untouched(&before, array) || !untouched(&twin_before, &twin) {
        return Err(format!("{command} changes an offline zone"));
    }
    if other != Some(answer.clone()) {
        return Err(format!(
            "{command} answers {:?}, and {other:?} with other bytes in offline zones",
            answer.0
        ));
    }
    put_back(&mut twin, array);
    if twin.buffers() != array.buffers() || format!("{:?}", twin.state) != format!("{:?}", array.state) {
        return Err(format!("{command} leaves other bytes where offline zones hold others"));
    }
    Ok(Some(answer.0))
}
