// Settles one job from Rust: a triangle of three stations, whose marked tree (links 0 and 1) is not cheapest.
// Built and run by examples/run.

#[repr(C)]
struct Link {
    end1: u32,
    end2: u32,
    cost: u32,
    mark: u32,
}

extern "C" {
    fn ist_judge_list(stations: u32, links: *const Link, count: usize) -> i32;
    fn ist_answer_list(
        stations: u32,
        links: *const Link,
        count: usize,
        area: *mut u8,
        area_len: usize,
        written: *mut usize,
    ) -> i32;
    fn ist_write_job(
        stations: u32,
        links: *const Link,
        count: usize,
        area: *mut u8,
        area_len: usize,
        written: *mut usize,
    ) -> i32;
    fn ist_read_answer(
        job: *const u8,
        job_len: usize,
        answer: *const u8,
        answer_len: usize,
        costs: *mut u32,
        costs_len: usize,
        pairs: *mut u32,
        pairs_len: usize,
        steps: *mut u32,
        cost_count: *mut usize,
        pair_count: *mut usize,
    ) -> i32;
}

const JOB_MOST: usize = 1539;
const ANSWER_MOST: usize = 1025;
const LINKS_MOST: usize = 256;
const PAIRS_MOST: usize = 63;

/// Is the marked tree cheapest? Or the number of the refusal.
fn judge(stations: u32, links: &[Link]) -> Result<bool, i32> {
    // A slice of Rust is never null, is aligned, and stays as it is during the call.
    match unsafe { ist_judge_list(stations, links.as_ptr(), links.len()) } {
        0 => Ok(true),
        -1 => Ok(false),
        refusal => Err(refusal),
    }
}

/// The answer frame, or the number of the refusal.
fn answer(stations: u32, links: &[Link]) -> Result<Vec<u8>, i32> {
    let mut area = vec![0; ANSWER_MOST];
    let mut written = 0;
    let refusal = unsafe {
        ist_answer_list(stations, links.as_ptr(), links.len(), area.as_mut_ptr(), area.len(), &mut written)
    };
    area.truncate(written);
    if refusal == 0 { Ok(area) } else { Err(refusal) }
}

/// The job frame of a list, or the number of the refusal.
fn write_job(stations: u32, links: &[Link]) -> Result<Vec<u8>, i32> {
    let mut area = vec![0; JOB_MOST];
    let mut written = 0;
    let refusal = unsafe {
        ist_write_job(stations, links.as_ptr(), links.len(), area.as_mut_ptr(), area.len(), &mut written)
    };
    area.truncate(written);
    if refusal == 0 { Ok(area) } else { Err(refusal) }
}

/// What an answer frame says: the steps, the new costs in link order, the pairs of a tree link and a spare link.
struct Answer {
    steps: u32,
    costs: Vec<u32>,
    pairs: Vec<(u32, u32)>,
}

/// Judges a frame as an answer to a job frame and reads it. -1 if it is none, else the number of the refusal.
fn read_answer(job: &[u8], answer: &[u8]) -> Result<Answer, i32> {
    let (mut costs, mut pairs) = (vec![0; LINKS_MOST], vec![0; 2 * PAIRS_MOST]);
    let (mut steps, mut cost_count, mut pair_count) = (0, 0, 0);
    let verdict = unsafe {
        ist_read_answer(
            job.as_ptr(),
            job.len(),
            answer.as_ptr(),
            answer.len(),
            costs.as_mut_ptr(),
            costs.len(),
            pairs.as_mut_ptr(),
            pairs.len(),
            &mut steps,
            &mut cost_count,
            &mut pair_count,
        )
    };
    costs.truncate(cost_count);
    let pairs = pairs.chunks(2).take(pair_count).map(|pair| (pair[0], pair[1])).collect();
    if verdict == 0 { Ok(Answer { steps, costs, pairs }) } else { Err(verdict) }
}

fn main() {
    let mut links = [
        Link { end1: 0, end2: 1, cost: 5, mark: 1 },
        Link { end1: 1, end2: 2, cost: 4, mark: 1 },
        Link { end1: 0, end2: 2, cost: 2, mark: 0 },
    ];
    println!("cheapest before: {:?}", judge(3, &links));
    links[2].mark = 2;
    println!("with link 2 unplugged: {:?}", judge(3, &links));
    links[2].mark = 0;

    let job = write_job(3, &links).expect("an accepted job");
    let frame = answer(3, &links).expect("an accepted job");
    let answer = read_answer(&job, &frame).expect("an answer");
    println!("steps: {}", answer.steps);
    println!("pairs: {:?}", answer.pairs);
    for (link, new) in links.iter_mut().zip(&answer.costs) {
        println!("{} - {}: cost {} becomes {}", link.end1, link.end2, link.cost, new);
        link.cost = *new;
    }
    println!("cheapest after: {:?}", judge(3, &links));

    links[2].mark = 3;
    println!("with a mark of 3: {:?}", judge(3, &links));
}
