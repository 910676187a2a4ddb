//! The lister: a program that reads an image from standard input and prints its lines.
use std::io::Write;
use std::process::{Command, Stdio};

pub fn print(words: &[String], image: &[u8]) -> Result<String, String> {
    let broken = |_| "the lister cannot be run".to_string();
    let mut child = Command::new(&words[0])
        .args(&words[1..])
        .stdin(Stdio::piped())
        .stdout(Stdio::piped())
        .stderr(Stdio::piped())
        .spawn()
        .map_err(broken)?;
    let mut to = child.stdin.take().ok_or("the lister takes nothing")?;
    let bytes = image.to_vec();
    // beside the reading of its lines, so that neither waits for the other
    let writer = std::thread::spawn(move || to.write_all(&bytes));
    let said = child
        .wait_with_output()
        .map_err(|_| "the lister broke off".to_string())?;
    // one that refuses may have read only a part
    let _ = writer.join();
    if !said.stderr.is_empty() {
        // without the program's name
        let line = String::from_utf8_lossy(&said.stderr).trim_end().to_string();
        return Err(line.split_once(": ").map_or(line.clone(), |(_, why)| why.to_string()));
    }
    if !said.status.success() {
        return Err("the lister broke off".to_string());
    }
    String::from_utf8(said.stdout).map_err(|_| "the listing is no text".to_string())
}
