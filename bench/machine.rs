//! What Linux tells of processes and of the machine, in /proc.

use crate::Failure;

/// How many ticks of /proc make a second, on every Linux of today.
const TICKS: f64 = 100.0;

/// Seconds of processor time that were used.
pub struct Usage {
    /// By the process.
    pub process: f64,
    /// By all of the machine, the idle left out.
    pub machine: f64,
}

impl Usage {
    /// What a process, by its number or `self`, and the machine have used up to now.
    pub fn now(process: &str) -> Result<Usage, Failure> {
        let stat = std::fs::read_to_string(format!("/proc/{process}/stat"))?;
        // The name of the program, in parentheses, may have blanks; user and system time are the 12th and 13th after.
        let after = stat.rsplit(')').next().unwrap_or("");
        let own: f64 = after.split_whitespace().skip(11).take(2).filter_map(|text| text.parse::<f64>().ok()).sum();
        let all = std::fs::read_to_string("/proc/stat")?;
        let line = all.lines().next().unwrap_or("");
        let times: Vec<f64> = line.split_whitespace().skip(1).filter_map(|text| text.parse().ok()).collect();
        let [user, nice, system, _idle, _waiting, hard, soft, ..] = times[..] else {
            return Err("/proc/stat can't be read".into());
        };
        Ok(Usage {
            process: own / TICKS,
            machine: (user + nice + system + hard + soft) / TICKS,
        })
    }

    pub fn since(&self, before: &Usage) -> Usage {
        Usage {
            process: self.process - before.process,
            machine: self.machine - before.machine,
        }
    }
}

/// The load average of the last minute.
pub fn load() -> Result<f64, Failure> {
    let text = std::fs::read_to_string("/proc/loadavg")?;
    Ok(text.split_whitespace().next().unwrap_or("").parse()?)
}

/// The memory of a process that stands in the machine, in megabytes.
pub fn memory(process: u32) -> Result<f64, Failure> {
    let text = std::fs::read_to_string(format!("/proc/{process}/status"))?;
    let line = text.lines().find_map(|line| line.strip_prefix("VmRSS:")).unwrap_or("");
    let kilobytes: f64 = line.trim().trim_end_matches(" kB").parse()?;
    Ok(kilobytes / 1_024.0)
}
