//! The program `cases`: the compiled kernel played on files of lines, and what it prints held to what it must print.
use std::path::{Path, PathBuf};
use std::process::Command;

/// The program reads so many bytes of a file, and its answer to one line has to fit in as many.
const FILE: usize = 65_536;

/// A line for the program.
pub struct Line {
    pub text: String,
    /// What must be printed after the line and a colon. None: a line that writes the kernel or sets what later lines
    /// use, which is only done.
    pub answer: Option<String>,
    /// How many commands were compared before the line.
    pub commands: u64,
}

/// A line where the two sides do not agree: its place, and the first lines that differ.
pub struct Difference {
    pub at: usize,
    pub original: String,
    pub kernel: String,
}

pub struct Program {
    pub path: PathBuf,
    /// Where the files of lines are written.
    pub room: PathBuf,
}

impl Program {
    /// Runs the program on the lines and compares what it prints. An error is one of the machine.
    pub fn compare(&self, lines: &[Line]) -> Result<Option<Difference>, String> {
        if let Some(long) = lines.iter().find(|l| l.printed().len() >= FILE) {
            return Err(format!("an answer is longer than the program prints: {}", long.text));
        }
        let files = self.write(lines).map_err(|e| format!("{}: {e}", self.room.display()))?;
        let ended = Command::new(&self.path).arg("/dev/null").args(&files).output();
        let ended = ended.map_err(|e| format!("{}: {e}", self.path.display()))?;
        if !ended.status.success() {
            return Err(format!("{} ended with {}", self.path.display(), ended.status));
        }
        // the heading of each file names it; nothing else that is printed starts so
        let printed = String::from_utf8_lossy(&ended.stdout);
        let printed: Vec<&str> = printed.lines().filter(|l| !l.starts_with("== ")).collect();
        Ok(compare(lines, &printed))
    }

    /// Writes the lines to files that the program reads whole; a kernel goes on from file to file.
    fn write(&self, lines: &[Line]) -> std::io::Result<Vec<PathBuf>> {
        std::fs::create_dir_all(&self.room)?;
        let mut files = Vec::new();
        let mut text = String::new();
        for line in lines {
            if text.len() + line.text.len() + 1 > FILE {
                save(&self.room, &mut files, &mut text)?;
            }
            text += &line.text;
            text.push('\n');
        }
        save(&self.room, &mut files, &mut text)?;
        Ok(files)
    }
}

/// Writes a file and empties the text.
fn save(room: &Path, files: &mut Vec<PathBuf>, text: &mut String) -> std::io::Result<()> {
    let path = room.join(format!("lines{:04}", files.len()));
    std::fs::write(&path, std::mem::take(text))?;
    files.push(path);
    Ok(())
}

/// What the program printed against the lines' answers.
fn compare(lines: &[Line], printed: &[&str]) -> Option<Difference> {
    let mut place = 0;
    for (at, line) in lines.iter().enumerate() {
        for original in line.printed().split('\n') {
            let kernel = printed.get(place).copied().unwrap_or("nothing: the program had ended");
            if !agree(line, original, kernel) {
                return Some(Difference { at, original: original.to_string(), kernel: kernel.to_string() });
            }
            place += 1;
        }
    }
    let kernel = printed.get(place)?.to_string();
    Some(Difference { at: lines.len() - 1, original: "the end".to_string(), kernel })
}

/// A line without an answer to compare is done, whether it changed something or not.
fn agree(line: &Line, original: &str, kernel: &str) -> bool {
    match line.answer {
        Some(_) => original == kernel,
        None => kernel.strip_prefix(original).is_some_and(|rest| ["", ", changed", ", unchanged"].contains(&rest)),
    }
}

impl Line {
    /// What the program must print.
    fn printed(&self) -> String {
        format!("{}: {}", self.text, self.answer.as_deref().unwrap_or("done"))
    }
}
