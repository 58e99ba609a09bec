//! Runs scripts through the original and prints every answer, in the format of docs/SCRIPTS.md.
//!
//! Beyond that format: `panic "TEXT"` ends a script whose line made the original panic, and `poisoned` follows where every
//! later call panics too; `stuck` ends the program where a line does not come back within half a second.

mod compositor;
mod table;
mod words;

use compositor::Compositor;
use std::cell::RefCell;
use std::collections::VecDeque;
use std::os::fd::{AsRawFd, OwnedFd, RawFd};
use std::panic::{catch_unwind, resume_unwind, AssertUnwindSafe};
use std::sync::atomic::{AtomicU64, Ordering};
use std::sync::Arc;
use std::time::Duration;
use table::Table;
use wayland_backend::protocol::{Argument, Message};
use wayland_backend::rs::client::{Backend, ObjectData, ObjectId, ReadEventsGuard, WaylandError};
use words::{decode, hex, name, quoted, text, unhex};

/// What a script has in hand. The callbacks reach it too, so it is borrowed for a moment at a time.
#[derive(Default)]
struct Script {
    lines: VecDeque<(usize, String)>,
    table: Table,
    handles: Vec<ObjectId>,
    compositor: Option<Compositor>,
    intents: VecDeque<ReadEventsGuard>,
    /// A `settle` whose answer is not printed yet: the original has not accepted its data so far.
    settling: bool,
}

thread_local! {
    static SCRIPT: RefCell<Script> = RefCell::default();
    static PANIC: RefCell<String> = RefCell::default();
}

/// The lines begun so far, or 0 where none is under way.
static PROGRESS: AtomicU64 = AtomicU64::new(0);

fn with<T>(f: impl FnOnce(&mut Script) -> T) -> T {
    SCRIPT.with_borrow_mut(f)
}

/// The end of a script inside a callback.
struct Ended;

/// A data number.
struct Data(u64);

impl ObjectData for Data {
    fn event(self: Arc<Self>, backend: &Backend, msg: Message<ObjectId, OwnedFd>) -> Option<Arc<dyn ObjectData>> {
        settled();
        let sender = shown(&msg.sender_id);
        let args: String = msg.args.iter().map(|a| format!(" {}", argument(a, shown))).collect();
        println!("event {sender} {}{args}", msg.opcode);
        let data = run(backend, true);
        with(|s| s.settling = true);
        data
    }

    fn destroyed(&self, id: ObjectId) {
        settled();
        println!("notice {} {}", shown(&id), self.0);
    }
}

fn settled() {
    if with(|s| std::mem::take(&mut s.settling)) {
        println!("settle ok");
    }
}

/// `NUMBER/SERIAL/INTERFACE`. The serial is not public, but the debug form ends with it.
fn bare(id: &ObjectId) -> String {
    let debug = format!("{id:?}");
    let serial = debug.rsplit([' ', ')']).nth(1).unwrap_or_default();
    format!("{}/{}/{}", id.protocol_id(), serial, name(id.interface().name.as_bytes()))
}

/// A handle as it is printed, which takes the next K.
fn shown(id: &ObjectId) -> String {
    if id.is_null() {
        return "h0".to_string();
    }
    let k = with(|s| {
        s.handles.push(id.clone());
        s.handles.len() - 1
    });
    format!("h{k}={}", bare(id))
}

fn argument<Id, Fd>(arg: &Argument<Id, Fd>, show: impl Fn(&Id) -> String) -> String {
    match arg {
        Argument::Int(v) => format!("i:{v}"),
        Argument::Uint(v) => format!("u:{v}"),
        Argument::Fixed(v) => format!("f:{v}"),
        Argument::Str(None) => "s:null".to_string(),
        Argument::Str(Some(v)) => format!("s:{}", text(v.to_bytes())),
        Argument::Object(id) => format!("o:{}", show(id)),
        Argument::NewId(id) => format!("n:{}", show(id)),
        Argument::Array(v) => format!("a:{}", hex(v)),
        Argument::Fd(_) => "h".to_string(),
    }
}

fn fault(e: &WaylandError) -> String {
    match e {
        WaylandError::Io(e) => format!("io {}", e.raw_os_error().unwrap_or(0)),
        WaylandError::Protocol(e) => {
            let interface = if e.object_interface.is_empty() { "-".to_string() } else { name(e.object_interface.as_bytes()) };
            format!("protocol {} {} {} \"{}\"", e.code, e.object_id, interface, quoted(e.message.as_bytes()))
        }
    }
}

/// The handle that a word names, unless it was not given yet.
fn handle(word: &str) -> Result<ObjectId, String> {
    let k: usize = number(word.strip_prefix('h').unwrap_or(""))?;
    with(|s| s.handles.get(k).cloned()).ok_or_else(|| "no such handle".to_string())
}

fn number<T: std::str::FromStr>(word: &str) -> Result<T, String> {
    word.parse().map_err(|_| format!("script error: not a number: {word}"))
}

fn request_argument(word: &str, fd: RawFd) -> Result<Argument<ObjectId, RawFd>, String> {
    let (kind, value) = word.split_once(':').unwrap_or((word, ""));
    Ok(match kind {
        "i" => Argument::Int(number(value)?),
        "u" => Argument::Uint(number(value)?),
        "f" => Argument::Fixed(number(value)?),
        "s" if value == "null" => Argument::Str(None),
        "s" => Argument::Str(Some(Box::new(decode(value)?))),
        "o" => Argument::Object(handle(value)?),
        "n" if value == "null" => Argument::NewId(ObjectId::null()),
        "n" => Argument::NewId(handle(value)?),
        "a" => Argument::Array(Box::new(unhex(value)?)),
        "h" => Argument::Fd(fd),
        _ => return Err(format!("script error: no argument: {word}")),
    })
}

fn data(word: &str) -> Result<Option<Arc<dyn ObjectData>>, String> {
    let n = number(word)?;
    Ok((n != 0).then(|| Arc::new(Data(n)) as Arc<dyn ObjectData>))
}

fn send(backend: &Backend, words: &[&str]) -> Result<String, String> {
    let [sender, opcode, content, child, args @ ..] = words else {
        return Err("script error: send".to_string());
    };
    let sender_id = handle(sender)?;
    let opcode: u16 = number(opcode)?;
    let child = match child.split_once(':') {
        None => None,
        Some((i, version)) => Some((with(|s| s.table.get(i))?, number(version)?)),
    };
    let null = std::fs::File::open("/dev/null").map_err(|e| e.to_string())?;
    let args = args.iter().map(|w| request_argument(w, null.as_raw_fd())).collect::<Result<_, _>>()?;
    let signature = sender_id.interface().requests.get(usize::from(opcode)).map(|m| m.signature);
    Ok(match backend.send_request(Message { sender_id, opcode, args }, data(content)?, child) {
        Ok(id) => {
            with(|s| s.compositor.as_mut().unwrap().expect(signature.unwrap()));
            format!("send {}", shown(&id))
        }
        Err(_) => "send refused 1".to_string(),
    })
}

fn content(backend: &Backend, id: ObjectId) -> String {
    match backend.get_data(id) {
        // the original's own data, before there is any, counts as 0
        Ok(data) => data.downcast_ref::<Data>().map_or(0, |d| d.0).to_string(),
        Err(_) => "refused 1".to_string(),
    }
}

fn info(backend: &Backend, id: ObjectId) -> String {
    match backend.info(id) {
        Ok(i) => format!("{} {} {}", i.id, name(i.interface.name.as_bytes()), i.version),
        Err(_) => "refused 1".to_string(),
    }
}

fn refused(word: &str, ok: bool) -> String {
    format!("{word} {}", if ok { "ok" } else { "refused 1" })
}

/// One line that is neither `settle` nor `connect`; what it answers.
fn command(backend: &Backend, words: &[&str]) -> Result<String, String> {
    Ok(match words {
        ["queue", sender, opcode, args @ ..] => {
            with(|s| s.compositor.as_mut().unwrap().queue(number(sender)?, number(opcode)?, args))?;
            "queue ok".to_string()
        }
        ["hangup"] => {
            with(|s| s.compositor.as_mut().unwrap().hang_up());
            "hangup ok".to_string()
        }
        ["prepare"] => {
            let intent = backend.prepare_read().unwrap();
            with(|s| s.intents.push_back(intent));
            "prepare ok".to_string()
        }
        ["cancel"] => match with(|s| s.intents.pop_front()) {
            None => "cancel none".to_string(),
            Some(intent) => {
                drop(intent);
                "cancel ok".to_string()
            }
        },
        ["read"] => match with(|s| s.intents.pop_front()) {
            None => "read none".to_string(),
            Some(intent) => {
                let over = intent.read();
                settled();
                match over {
                    Ok(count) => format!("over {count}"),
                    Err(e) => format!("over {}", fault(&e)),
                }
            }
        },
        ["resume"] => "resume none".to_string(),
        ["send", rest @ ..] => send(backend, rest)?,
        ["destroy", h] => refused("destroy", backend.destroy_object(&handle(h)?).is_ok()),
        ["get", h] => format!("get {}", content(backend, handle(h)?)),
        ["set", h, content] => {
            let Some(content) = data(content)? else {
                return Err("script error: set without data".to_string());
            };
            refused("set", backend.set_data(handle(h)?, content).is_ok())
        }
        ["info", h] => format!("info {}", info(backend, handle(h)?)),
        ["flush"] => {
            let told = match backend.flush() {
                Ok(()) => "flush ok".to_string(),
                Err(e) => format!("flush {}", fault(&e)),
            };
            let sent = with(|s| s.compositor.as_mut().unwrap().collect());
            std::iter::once(told).chain(sent).collect::<Vec<_>>().join("\n")
        }
        _ => return Err(format!("script error: {}", words.join(" "))),
    })
}

/// Lines until the script ends, or, inside an event, until `settle`, whose data it returns.
fn run(backend: &Backend, inside: bool) -> Option<Arc<dyn ObjectData>> {
    while let Some((n, line)) = with(|s| s.lines.pop_front()) {
        PROGRESS.fetch_add(1, Ordering::SeqCst);
        let words: Vec<&str> = line.split(' ').collect();
        let told = match words[..] {
            ["settle", content] if inside => match data(content) {
                Ok(data) => return data,
                Err(e) => Err(e),
            },
            ["settle", _] => Ok("settle none".to_string()),
            _ => command(backend, &words),
        };
        match told {
            Ok(told) => println!("{told}"),
            Err(e) if e == "no such handle" => println!("{e}"),
            Err(e) => {
                println!("{} at line {n}", e);
                break;
            }
        }
    }
    if inside {
        println!("unsettled");
        end(backend);
        resume_unwind(Box::new(Ended));
    }
    end(backend);
    None
}

fn end(backend: &Backend) {
    println!("last {}", backend.last_error().map_or("none".to_string(), |e| fault(&e)));
    let handles = with(|s| s.handles[2..].to_vec());
    for (k, id) in handles.into_iter().enumerate() {
        println!("end h{}={} get {} info {}", k + 2, bare(&id), content(backend, id.clone()), info(backend, id));
    }
}

fn script(lines: VecDeque<(usize, String)>) {
    SCRIPT.set(Script { lines, ..Script::default() });
    while let Some((n, line)) = with(|s| s.lines.pop_front()) {
        if line.split(' ').next() == Some("connect") {
            break;
        }
        if let Err(e) = with(|s| s.table.read(&line)) {
            println!("script error at line {n}: {e}");
            return;
        }
    }
    let (compositor, client) = Compositor::new();
    let backend = Backend::connect(client).unwrap();
    with(|s| {
        s.table.finish();
        s.compositor = Some(compositor);
        s.handles = vec![ObjectId::null(), backend.display_id()];
    });
    println!("connect ok");
    if let Err(why) = catch_unwind(AssertUnwindSafe(|| run(&backend, false))) {
        if !why.is::<Ended>() {
            println!("panic \"{}\"", quoted(PANIC.take().as_bytes()));
            if catch_unwind(AssertUnwindSafe(|| backend.last_error())).is_err() {
                println!("poisoned");
            }
        }
    }
    // behind a panic the intents find their lock poisoned
    for intent in with(|s| std::mem::take(&mut s.intents)) {
        let _ = catch_unwind(AssertUnwindSafe(|| drop(intent)));
    }
}

fn watch() {
    let mut before = 0;
    loop {
        std::thread::sleep(Duration::from_millis(500));
        let now = PROGRESS.load(Ordering::SeqCst);
        if now == before {
            println!("stuck");
            std::process::exit(3);
        }
        before = now;
    }
}

fn main() {
    std::panic::set_hook(Box::new(|info| {
        let payload = info.payload();
        let text = payload.downcast_ref::<String>().map(String::as_str).or(payload.downcast_ref::<&str>().copied());
        PANIC.set(text.unwrap_or("").to_string());
    }));
    let input = std::io::read_to_string(std::io::stdin()).expect("the scripts are UTF-8");
    std::thread::spawn(watch);
    let mut lines = VecDeque::new();
    let numbered = input.lines().enumerate().map(|(n, l)| (n + 1, l.to_string()));
    for (n, line) in numbered.filter(|(_, l)| !l.is_empty() && !l.starts_with('#')) {
        if line.starts_with("script ") {
            if !lines.is_empty() {
                script(std::mem::take(&mut lines));
            }
            println!("{line}");
        } else {
            lines.push_back((n, line));
        }
    }
    script(lines);
}
