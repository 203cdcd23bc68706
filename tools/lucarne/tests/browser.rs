//! Chromium without a window, led over a pipe by its own protocol: messages of JSON that end in a zero byte.

use lucarne::serde_json::{self, json, Value};
use std::fmt;
use std::fs;
use std::io::{BufRead, BufReader, Write};
use std::path::{Path, PathBuf};
use std::process::{Child, ChildStdin, Command, Stdio};
use std::sync::mpsc::{channel, Receiver, RecvTimeoutError};
use std::thread;
use std::time::{Duration, Instant};

/// The pipe's ends are the numbers 3 and 4 for the browser. Neither root nor many a container can have its sandbox; what it opens here is our own.
const START: &str = "exec \"$0\" --headless --no-sandbox --remote-debugging-pipe --user-data-dir=\"$1\" --no-first-run --disable-gpu \
    --disable-dev-shm-usage --disable-background-networking --disable-component-update --disable-sync --disable-extensions --disable-breakpad \
    --disable-background-timer-throttling --disable-backgrounding-occluded-windows --disable-renderer-backgrounding --hide-scrollbars \
    --in-process-gpu --no-zygote --disable-default-apps --metrics-recording-only --password-store=basic --disable-features=Translate,MediaRouter \
    about:blank 3<&0 4>&1 </dev/null >\"$2\" 2>&1";
/// A browser that says nothing for so long is given up, and so is a page that is not there by then.
const PATIENCE: Duration = Duration::from_secs(60);
/// So long a browser has to end by itself.
const LEAVE: Duration = Duration::from_secs(5);
/// So many lines are told of what a browser wrote.
const LAST_WORDS: usize = 3;

/// Why a browser is of no more use: it does not start, it has ended, it says nothing, or it refuses a command.
#[derive(Debug)]
pub struct Lost(String);

impl fmt::Display for Lost {
    fn fmt(&self, out: &mut fmt::Formatter) -> fmt::Result {
        out.write_str(&self.0)
    }
}

pub struct Browser {
    child: Child,
    input: ChildStdin,
    messages: Receiver<Value>,
    /// What the browser said of itself, such as requests and errors.
    pub events: Vec<Value>,
    folder: PathBuf,
    session: String,
    last: u64,
    opened: usize,
}

impl Browser {
    /// Starts the program with a folder of its own, which is its home too. It is made anew, since a browser that was ended leaves a lock there.
    pub fn start(program: &str, folder: &Path) -> Result<Browser, Lost> {
        drop(fs::remove_dir_all(folder));
        let trouble = |error| Lost(format!("the browser cannot be started: {}", error));
        fs::create_dir_all(folder).map_err(trouble)?;
        let command = Command::new("sh")
            .args(["-c", START, program])
            .args([folder.join("profile"), words_of(folder)])
            .envs(["HOME", "XDG_CONFIG_HOME", "XDG_CACHE_HOME"].iter().map(|name| (name, folder)))
            .stdin(Stdio::piped())
            .stdout(Stdio::piped())
            .spawn();
        let mut child = command.map_err(trouble)?;
        let input = child.stdin.take().expect("a pipe");
        let messages = messages_of(&mut child);
        let folder = folder.to_path_buf();
        let mut browser = Browser { child, input, messages, events: Vec::new(), folder, session: String::new(), last: 0, opened: 0 };
        browser.open_tab()?;
        Ok(browser)
    }

    /// Sends a command; its answer is not waited for, but a fault in it is noticed.
    pub fn post(&mut self, method: &str, params: &str) -> Result<(), Lost> {
        self.last += 1;
        let session = if self.session.is_empty() { String::new() } else { format!(",\"sessionId\":{}", json!(self.session)) };
        let message = format!("{{\"id\":{},\"method\":{},\"params\":{}{}}}\0", self.last, json!(method), params, session);
        let written = self.input.write_all(message.as_bytes());
        written.map_err(|_| self.lost(&format!("listens no more: {}", method)))
    }

    /// Sends a command and waits for its answer.
    pub fn send(&mut self, method: &str, params: &str) -> Result<Value, Lost> {
        let answer = self.answer(method, params)?;
        self.refuse_fault(&answer, method)?;
        Ok(answer.get("result").cloned().unwrap_or(Value::Null))
    }

    /// The whole answer to a command, which may tell a fault.
    fn answer(&mut self, method: &str, params: &str) -> Result<Value, Lost> {
        self.post(method, params)?;
        loop {
            let message = self.take(method)?;
            if message.get("id") == Some(&json!(self.last)) {
                return Ok(message);
            }
            self.refuse_fault(&message, method)?;
        }
    }

    fn refuse_fault(&self, message: &Value, awaited: &str) -> Result<(), Lost> {
        let fault = message.get("error").and_then(|error| error.get("message")).and_then(Value::as_str);
        fault.map_or(Ok(()), |fault| Err(self.lost(&format!("refuses a command: {}: {}", awaited, fault))))
    }

    /// The next message; events are kept.
    fn take(&mut self, awaited: &str) -> Result<Value, Lost> {
        let message = self.messages.recv_timeout(PATIENCE).map_err(|error| match error {
            RecvTimeoutError::Timeout => self.lost(&format!("said nothing for {} s: {}", PATIENCE.as_secs(), awaited)),
            RecvTimeoutError::Disconnected => self.lost(&format!("says no more: {}", awaited)),
        })?;
        if message.get("id").is_none() {
            self.events.push(message.clone());
        }
        if self.has_event("Inspector.targetCrashed") {
            return Err(self.lost(&format!("lost the page's process: {}", awaited)));
        }
        Ok(message)
    }

    /// What went wrong, with what the browser wrote last.
    pub fn lost(&self, what: &str) -> Lost {
        let words = fs::read(words_of(&self.folder)).unwrap_or_default();
        let words = String::from_utf8_lossy(&words);
        // That there is no bus to other programs it says everywhere.
        let mut last: Vec<&str> = words.lines().rev().filter(|line| !line.contains("dbus")).take(LAST_WORDS).collect();
        last.reverse();
        Lost(format!("the browser {}{}{}", what, if last.is_empty() { "" } else { "; it wrote: " }, last.join(" ")))
    }

    /// A tab for all pages.
    fn open_tab(&mut self) -> Result<(), Lost> {
        let target = self.send("Target.createTarget", "{\"url\":\"about:blank\"}")?;
        let target = target.get("targetId").and_then(Value::as_str).unwrap_or_default();
        let session = self.send("Target.attachToTarget", &format!("{{\"targetId\":{},\"flatten\":true}}", json!(target)))?;
        self.session = session.get("sessionId").and_then(Value::as_str).unwrap_or_default().to_string();
        // Each is waited for: the first page goes to another process, and what is not enabled by then may come too late for the page's own news.
        for domain in ["Inspector", "Page", "Runtime", "Network", "Log"] {
            self.send(&format!("{}.enable", domain), "{}")?;
        }
        Ok(())
    }

    /// Opens a page and waits until it is there. Events of earlier ones are forgotten. What stands behind # may follow the address.
    pub fn open(&mut self, url: &str, question: &str) -> Result<(), Lost> {
        // The browser takes an address that differs from the last one behind # alone for the same page.
        self.opened += 1;
        let url = format!("{}?{}{}", url, self.opened, question);
        self.events.clear();
        let answer = self.send("Page.navigate", &format!("{{\"url\":{}}}", json!(url)))?;
        if let Some(fault) = answer.get("errorText").and_then(Value::as_str) {
            return Err(self.lost(&format!("does not open {}: {}", url, fault)));
        }
        let start = Instant::now();
        while !self.is_there()? {
            if start.elapsed() > PATIENCE {
                return Err(self.lost(&format!("did not load {} within {} s", url, PATIENCE.as_secs())));
            }
            thread::sleep(Duration::from_millis(5));
        }
        if self.events_of("Network.requestWillBeSent").is_empty() {
            return Err(self.lost(&format!("tells of no request for {}", url)));
        }
        Ok(())
    }

    /// Whether the page that was opened last is loaded. The page itself is asked, since news of it may be missed; in between there is nobody to ask.
    fn is_there(&mut self) -> Result<bool, Lost> {
        let script = format!("location.search === '?{}' && document.readyState === 'complete'", self.opened);
        let answer = self.answer("Runtime.evaluate", &format!("{{\"expression\":{}}}", json!(script)))?;
        let value = answer.get("result").and_then(|answer| answer.get("result")).and_then(|result| result.get("value"));
        Ok(value == Some(&Value::Bool(true)))
    }

    fn has_event(&self, method: &str) -> bool {
        self.events.iter().any(|event| event.get("method").and_then(Value::as_str) == Some(method))
    }

    /// The parameters of the events of this kind.
    pub fn events_of(&self, method: &str) -> Vec<Value> {
        let fitting = self.events.iter().filter(|event| event.get("method").and_then(Value::as_str) == Some(method));
        fitting.map(|event| event.get("params").cloned().unwrap_or(Value::Null)).collect()
    }

    /// What an expression of JavaScript gives, by way of JSON. Events that wait come first.
    pub fn evaluate(&mut self, expression: &str) -> Result<Value, Lost> {
        let script = format!("new Promise((done) => setTimeout(done, 5)).then(() => JSON.stringify({}))", expression);
        let params = format!("{{\"expression\":{},\"awaitPromise\":true,\"returnByValue\":true}}", json!(script));
        let answer = self.send("Runtime.evaluate", &params)?;
        assert!(answer.get("exceptionDetails").is_none(), "{} fails: {:?}", expression, answer);
        let text = answer.get("result").and_then(|result| result.get("value")).and_then(Value::as_str).unwrap_or("null").to_string();
        Ok(serde_json::from_str(&text).expect("JSON"))
    }

    /// A click at this place of the window. It is done when the answer comes.
    pub fn click(&mut self, x: f64, y: f64) -> Result<(), Lost> {
        self.click_with(x, y, 0)
    }

    /// The same with keys that are held, as the protocol numbers them: 8 is Shift.
    pub fn click_with(&mut self, x: f64, y: f64, held: u32) -> Result<(), Lost> {
        let mouse = |kind: &str| {
            format!("{{\"type\":\"{}\",\"x\":{},\"y\":{},\"button\":\"left\",\"clickCount\":1,\"modifiers\":{}}}", kind, x, y, held)
        };
        self.post("Input.dispatchMouseEvent", &mouse("mousePressed"))?;
        self.send("Input.dispatchMouseEvent", &mouse("mouseReleased")).map(drop)
    }

    /// The pointer at this place of the window.
    pub fn hover(&mut self, x: f64, y: f64) -> Result<(), Lost> {
        self.send("Input.dispatchMouseEvent", &format!("{{\"type\":\"mouseMoved\",\"x\":{},\"y\":{}}}", x, y)).map(drop)
    }

    /// A key, by its name and number, with the text that it writes.
    pub fn press(&mut self, key: &str, number: u32, text: &str) -> Result<(), Lost> {
        let key = format!("\"key\":{},\"windowsVirtualKeyCode\":{}", json!(key), number);
        let text = if text.is_empty() { String::new() } else { format!(",\"text\":{}", json!(text)) };
        self.post("Input.dispatchKeyEvent", &format!("{{\"type\":\"keyDown\",{}{}}}", key, text))?;
        self.send("Input.dispatchKeyEvent", &format!("{{\"type\":\"keyUp\",{}}}", key)).map(drop)
    }
}

/// What the browser writes, for people.
fn words_of(folder: &Path) -> PathBuf {
    folder.join("words")
}

/// The browser's messages, as they come, until it has ended or is not understood.
fn messages_of(child: &mut Child) -> Receiver<Value> {
    let (sender, messages) = channel();
    let output = BufReader::new(child.stdout.take().expect("a pipe"));
    thread::spawn(move || {
        for message in output.split(0).map_while(Result::ok) {
            let value = serde_json::from_slice(&message);
            if value.map_or(true, |value| sender.send(value).is_err()) {
                break;
            }
        }
    });
    messages
}

impl Drop for Browser {
    fn drop(&mut self) {
        // It ends by itself once it is told to, with all that it has started; where it does not, it is ended.
        drop(self.input.write_all(b"{\"id\":0,\"method\":\"Browser.close\"}\0"));
        let start = Instant::now();
        while !matches!(self.child.try_wait(), Ok(Some(_))) && start.elapsed() < LEAVE {
            thread::sleep(Duration::from_millis(20));
        }
        drop(self.child.kill());
        drop(self.child.wait());
        drop(fs::remove_dir_all(&self.folder));
    }
}
