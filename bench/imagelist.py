"""Loads and unloads a second, and walks a second beside a writer, of the image list and of plain lists of the standard library.

    python3 bench/imagelist.py [PROGRAM [EARLIER]]

PROGRAM is the proved program, by default crates/plcr_race/out/plcr_race (`rt run` in crates/plcr_race leaves it), and
EARLIER that of an earlier commit, to stand beside it: one that has no word for the nodes of a walk walks a list of 128
nodes alone, and one that has none for a place unloads the oldest image alone. The last lines tell how many times the
changes of the earlier the image list makes beside readers. The yardsticks are a Mutex round a Vec, and a Vec that each change
copies, behind an `RwLock` round an `Arc`: plain Rust, compiled by `rustc -O` into a temporary folder, and skipped where
rustc is missing. Each line tells the best of five runs of each program, which are run by turns, and in brackets the
least of them.
"""
import os
import re
import shutil
import subprocess
import sys
import tempfile

from measuring import HERE, measured

PLACES = [(1, 1), (100, 1), (4096, 1), (4096, 2048), (4096, 4096)]
WALK_NODES = [128, 4096]
READERS = [1, 2, 4]
CHANGE_ROUNDS = {1: 200000, 100: 200000, 4096: 20000}
WALK_ROUNDS = 1000000
TIMES = 5
YARDSTICK = r"""
use std::sync::atomic::{AtomicBool, Ordering};
use std::sync::{Arc, Mutex, RwLock};
use std::time::Instant;

#[derive(Clone)]
struct Image { header: u64, _name: Arc<[u8]> }

trait List: Sync {
    fn open(room: usize) -> Self;
    fn load(&self, header: u64);
    fn unload(&self, header: u64) -> bool;
    fn meet(&self, met: &mut Vec<u64>);
}

fn image(header: u64) -> Image {
    Image { header, _name: b"/usr/lib/libSystem.dylib".as_slice().into() }
}

fn take(images: &mut Vec<Image>, header: u64) -> bool {
    match images.iter().position(|image| image.header == header) {
        Some(at) => { images.remove(at); true }
        None => false,
    }
}

impl List for Mutex<Vec<Image>> {
    fn open(room: usize) -> Self { Mutex::new(Vec::with_capacity(room)) }
    fn load(&self, header: u64) {
        let image = image(header);
        self.lock().unwrap().push(image);
    }
    fn unload(&self, header: u64) -> bool { take(&mut self.lock().unwrap(), header) }
    fn meet(&self, met: &mut Vec<u64>) {
        for image in self.lock().unwrap().iter() { met.push(image.header); }
    }
}

// Each change copies the list; a reader takes what is there and reads it without a lock.
impl List for RwLock<Arc<Vec<Image>>> {
    fn open(room: usize) -> Self { RwLock::new(Arc::new(Vec::with_capacity(room))) }
    fn load(&self, header: u64) {
        let mut images = Vec::clone(&self.read().unwrap());
        images.push(image(header));
        *self.write().unwrap() = Arc::new(images);
    }
    fn unload(&self, header: u64) -> bool {
        let mut images = Vec::clone(&self.read().unwrap());
        let taken = take(&mut images, header);
        *self.write().unwrap() = Arc::new(images);
        taken
    }
    fn meet(&self, met: &mut Vec<u64>) {
        let images = Arc::clone(&self.read().unwrap());
        for image in images.iter() { met.push(image.header); }
    }
}

fn changes<L: List>(nodes: u64, place: u64, rounds: u64) {
    let list = L::open(nodes as usize);
    let start = Instant::now();
    for header in 1..nodes { list.load(header); }
    println!("{} loads {} ns", nodes - 1, start.elapsed().as_nanos());
    let start = Instant::now();
    let mut made = 0;
    for round in 0..rounds {
        list.load(round + nodes);
        made += 1 + list.unload(round + place) as u64;
    }
    println!("{} changes {} ns", made, start.elapsed().as_nanos());
}

fn walk<L: List>(list: &L, rounds: u64) -> u64 {
    let mut met = Vec::with_capacity(128);
    let mut images = 0;
    for _ in 0..rounds {
        met.clear();
        list.meet(&mut met);
        images += std::hint::black_box(&met).len() as u64;
    }
    images
}

fn change_until<L: List>(list: &L, ended: &AtomicBool) -> u64 {
    let mut made = 0;
    let mut oldest = 1;
    while !ended.load(Ordering::SeqCst) {
        list.load(oldest + 100);
        list.unload(oldest);
        oldest += 1;
        made += 2;
    }
    made
}

fn walks<L: List>(nodes: u64, readers: u64, rounds: u64) {
    let list = L::open(nodes as usize);
    for header in 1..101 { list.load(header); }
    let ended = AtomicBool::new(false);
    let start = Instant::now();
    let (met, made) = std::thread::scope(|scope| {
        let writer = scope.spawn(|| change_until(&list, &ended));
        let all: Vec<_> = (0..readers).map(|_| scope.spawn(|| walk(&list, rounds))).collect();
        let met: u64 = all.into_iter().map(|reader| reader.join().unwrap()).sum();
        ended.store(true, Ordering::SeqCst);
        (met, writer.join().unwrap())
    });
    println!("{} walks {} ns", readers * rounds, start.elapsed().as_nanos());
    println!("{met} images met, {made} changes made");
}

fn run<L: List>(words: &[String]) {
    let numbers: Vec<u64> = words[1..].iter().map(|word| word.parse().unwrap()).collect();
    let [nodes, second, rounds] = numbers[..] else { panic!("three numbers") };
    if words[0] == "changes" { changes::<L>(nodes, second, rounds) } else { walks::<L>(nodes, second, rounds) }
}

fn main() {
    let words: Vec<String> = std::env::args().skip(1).collect();
    if words.len() == 1 { return println!("changes NODES PLACE ROUNDS\nwalks NODES READERS ROUNDS"); }
    if words[0] == "locked" { run::<Mutex<Vec<Image>>>(&words[1..]) } else { run::<RwLock<Arc<Vec<Image>>>>(&words[1..]) }
}
"""


def built(folder):
    """The yardsticks' program, or None where it can't be built."""
    if not shutil.which("rustc"):
        print("rustc is missing: no yardstick")
        return None
    source, program = os.path.join(folder, "yardstick.rs"), os.path.join(folder, "yardstick")
    with open(source, "w") as file:
        file.write(YARDSTICK)
    subprocess.run(["rustc", "-O", "-o", program, source], check=True)
    return program


def run(command, folder):
    """The four numbers that a run prints."""
    _, _, status, said = measured(command, folder, keeps=True)
    if status != 0:
        sys.exit("%s: status %d, %s" % (command, status, said))
    return [int(number) for number in re.findall(r"\d+", said)]


def a_second(count, nanoseconds):
    return count * 1e9 / nanoseconds


def has_word(program, folder, word):
    _, _, _, said = measured(program, folder, keeps=True)
    return word in said


def changes(program, folder, counts):
    """Loads and unloads a second in a list with room for one more, loads a second while it fills, and nanoseconds of a
    load and an unload; or None where the program has no word for the place."""
    nodes, place = counts
    rounds = CHANGE_ROUNDS[nodes]
    if has_word(program, folder, "changes NODES PLACE"):
        words = ["changes", str(nodes), str(place), str(rounds)]
    elif place == 1:
        words = ["changes", str(nodes), str(rounds)]
    else:
        return None
    loads, filling, made, changing = run(program + words, folder)
    if (loads, made) != (nodes - 1, 2 * rounds):
        sys.exit("%s: %d of %d changes were made" % (program, made, 2 * rounds))
    return [a_second(made, changing), a_second(loads, filling), 2 * changing / made]


def walks_of(program, folder, nodes, readers):
    """The program's words for so many readers of a list of so many nodes, or None where it has none."""
    rounds = str(WALK_ROUNDS // readers)
    if has_word(program, folder, "walks NODES"):
        return ["walks", str(nodes), str(readers), rounds]
    return ["walks", str(readers), rounds] if nodes == 128 else None


def walks(program, folder, counts):
    """Walks a second of all readers, and changes a second meanwhile."""
    nodes, readers = counts
    words = walks_of(program, folder, nodes, readers)
    if words is None:
        return None
    made, walking, met, changed = run(program + words, folder)
    # no walk meets more images than there are nodes, nor fewer than the 100 without those for which there are nodes
    if met < made * max(0, 200 - nodes) or met > made * nodes:
        sys.exit("%s: %d images met in %d walks" % (program, met, made))
    return [a_second(made, walking), a_second(changed, walking)]


def runs(measure, programs, folder, count):
    """For each program the numbers of its best run, by the first of them, and that first number of its worst; None where
    it has none."""
    rows = [[measure(program, folder, count) for program in programs] for _ in range(TIMES)]
    return [max(found) + [min(found)[0]] if all(found) else None for found in zip(*rows)]


def tell_changes(counts, name, made, loads, both, least):
    print("%4d nodes, image %4d  %-11s  %9.0f (%9.0f) loads and unloads a second, %6.0f ns for both%s" % (
        *counts, name, made, least, both, ", %9.0f loads a second while it fills" % loads if loads else ""))


def tell_walks(counts, name, made, changed, least):
    print("%4d nodes, %d readers  %-11s  %9.0f (%9.0f) walks a second, %9.0f changes a second meanwhile" % (
        *counts, name, made, least, changed))


def main():
    named = sys.argv[1:3] or [os.path.join(HERE, "..", "crates", "plcr_race", "out", "plcr_race")]
    with tempfile.TemporaryDirectory() as folder:
        yardstick = built(folder)
        rows = [(name, [os.path.abspath(path)]) for name, path in zip(["image list", "the earlier"], named)]
        if yardstick:
            rows += [("Mutex<Vec>", [yardstick, "locked"]), ("Arc<Vec>", [yardstick, "copied"])]
        names, programs = zip(*rows)
        print("%d cores, load %.1f" % (os.cpu_count(), os.getloadavg()[0]))
        both = [(nodes, readers) for nodes in WALK_NODES for readers in READERS]
        beside = {}
        for measure, tell, counts in [(changes, tell_changes, PLACES), (walks, tell_walks, both)]:
            for count in counts:
                for name, row in zip(names, runs(measure, programs, folder, count)):
                    if row:
                        tell(count, name, *row)
                        if measure is walks:
                            beside[count, name] = row
        for (count, name), row in beside.items():
            earlier = beside.get((count, "the earlier"))
            if name == "image list" and earlier:
                print("%4d nodes, %d readers: %.0f times the changes of the earlier, %.1f times its walks" % (
                    *count, row[1] / max(earlier[1], 1), row[0] / earlier[0]))
        print("load %.1f at the end" % os.getloadavg()[0])


if __name__ == "__main__":
    main()
