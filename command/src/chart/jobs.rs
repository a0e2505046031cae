//! The jobs of each task, from the reports that `ticks` was given and what it answered.

use crate::listing::Tick;
use crate::words::ticks::Report;

/// A job by its ticks; what has not come yet is `None`.
#[derive(Debug, Clone, Copy, PartialEq, Eq)]
pub struct Job {
    pub released: u32,
    pub started: Option<u32>,
    pub finished: Option<u32>,
    pub late: bool,
}

/// The jobs of each task, first task and first job first. All rows are taken: none of them is refused.
pub fn jobs(tasks: usize, reports: &[Report], answered: &[Tick]) -> Vec<Vec<Job>> {
    (0..tasks).map(|at| jobs_of(1 << at, reports, answered)).collect()
}

fn jobs_of(own: u32, reports: &[Report], answered: &[Tick]) -> Vec<Job> {
    let mut jobs: Vec<Job> = Vec::new();
    for (&(released, _), row) in reports.iter().zip(answered) {
        let at = row.tick as u32;
        if let Some(job) = jobs.last_mut() {
            job.finished = job.finished.or((row.finished & own != 0).then_some(at));
            job.late |= row.late & own != 0;
        }
        if released & own != 0 {
            jobs.push(Job { released: at, started: None, finished: None, late: false });
        }
        if let Some(job) = jobs.last_mut() {
            job.started = job.started.or((row.started & own != 0).then_some(at));
        }
    }
    jobs
}

#[cfg(test)]
mod tests {
    use super::*;

    #[test]
    fn one_job_after_another() {
        let row = |tick, finished, late, started| Tick { tick, refused: 0, finished, late, started };
        let rows = [row(0, 0, 0, 1), row(1, 0, 0, 0), row(2, 1, 2, 3)];
        let job = |released, started, finished, late| Job { released, started, finished, late };
        let wanted = vec![
            vec![job(0, Some(0), Some(2), false), job(2, Some(2), None, false)],
            vec![job(0, Some(2), None, true)],
        ];
        assert_eq!(jobs(2, &[(3, 0), (0, 0), (1, 1)], &rows), wanted);
    }
}
