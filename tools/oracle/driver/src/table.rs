//! The script's table of interfaces, as descriptions that live for ever.

use crate::words::bytes;
use wayland_backend::core_interfaces::{WL_CALLBACK_INTERFACE, WL_DISPLAY_INTERFACE, WL_REGISTRY_INTERFACE};
use wayland_backend::protocol::{AllowNull, ArgumentType, Interface, MessageDesc, ANONYMOUS_INTERFACE};

/// A message as declared; its interfaces are numbers, since later ones may not be there yet.
struct Declared {
    signature: Vec<ArgumentType>,
    is_destructor: bool,
    child: Option<usize>,
    args: Vec<usize>,
}

#[derive(Default)]
struct Draft {
    name: String,
    requests: Vec<Declared>,
    events: Vec<Declared>,
}

#[derive(Default)]
pub struct Table {
    drafts: Vec<Draft>,
    interfaces: Vec<&'static Interface>,
}

fn signature(word: &str) -> Result<Vec<ArgumentType>, String> {
    let mut null = AllowNull::No;
    let mut out = Vec::new();
    for c in word.chars().filter(|&c| c != '-') {
        let nullable = std::mem::replace(&mut null, AllowNull::No);
        out.push(match c {
            '?' => {
                null = AllowNull::Yes;
                continue;
            }
            'i' => ArgumentType::Int,
            'u' => ArgumentType::Uint,
            'f' => ArgumentType::Fixed,
            's' => ArgumentType::Str(nullable),
            'o' => ArgumentType::Object(nullable),
            'n' => ArgumentType::NewId,
            'a' => ArgumentType::Array,
            'h' => ArgumentType::Fd,
            _ => return Err(format!("no signature: {word}")),
        });
    }
    Ok(out)
}

impl Table {
    /// A line `interface`, `request` or `event`.
    pub fn read(&mut self, line: &str) -> Result<(), String> {
        let words: Vec<&str> = line.split(' ').collect();
        if let ["interface", name] = words[..] {
            let name = String::from_utf8(bytes(name)?).map_err(|e| e.to_string())?;
            self.drafts.push(Draft { name, ..Draft::default() });
            return Ok(());
        }
        let (["request" | "event", sig, options @ ..], Some(draft)) = (&words[..], self.drafts.last_mut()) else {
            return Err(line.to_string());
        };
        let request = words[0] == "request";
        let signature = signature(sig)?;
        let objects = signature.iter().filter(|a| matches!(a, ArgumentType::Object(_))).count();
        let args = if request { vec![3; objects] } else { vec![] };
        let mut message = Declared { signature, is_destructor: false, child: None, args };
        let place = |w: &str| w.parse().map_err(|_| format!("no interface: {w}"));
        for option in options {
            match option.split_once('=').unwrap_or((option, "")) {
                ("destructor", "") => message.is_destructor = true,
                ("child", "generic") => {}
                ("child", i) => message.child = Some(place(i)?),
                ("args", list) => {
                    let numbers = list.split(',').filter(|w| !w.is_empty());
                    message.args = numbers.map(place).collect::<Result<_, _>>()?
                }
                _ => return Err(line.to_string()),
            }
        }
        if request { &mut draft.requests } else { &mut draft.events }.push(message);
        Ok(())
    }

    /// Makes the descriptions. They point at each other, so each gets its place first and its messages after that.
    pub fn finish(&mut self) {
        let drafts = std::mem::take(&mut self.drafts);
        let empty = |name: &str| Interface {
            name: name.to_string().leak(),
            version: 1,
            requests: &[],
            events: &[],
            c_ptr: None,
        };
        let places: Vec<*mut Interface> =
            drafts.iter().map(|d| Box::leak(Box::new(empty(&d.name))) as *mut Interface).collect();
        let core = [&WL_DISPLAY_INTERFACE, &WL_REGISTRY_INTERFACE, &WL_CALLBACK_INTERFACE, &ANONYMOUS_INTERFACE];
        self.interfaces = core.into_iter().chain(places.iter().map(|&p| unsafe { &*p })).collect();
        for (&place, draft) in places.iter().zip(drafts) {
            // nobody has read these two fields yet
            unsafe {
                (&raw mut (*place).requests).write(self.described(draft.requests));
                (&raw mut (*place).events).write(self.described(draft.events));
            }
        }
    }

    fn described(&self, messages: Vec<Declared>) -> &'static [MessageDesc] {
        let one = |m: Declared| MessageDesc {
            name: "message",
            signature: m.signature.leak(),
            since: 1,
            is_destructor: m.is_destructor,
            child_interface: m.child.map(|i| self.interfaces[i]),
            arg_interfaces: m.args.iter().map(|&i| self.interfaces[i]).collect::<Vec<_>>().leak(),
        };
        messages.into_iter().map(one).collect::<Vec<_>>().leak()
    }

    pub fn get(&self, word: &str) -> Result<&'static Interface, String> {
        let place = word.parse().ok().and_then(|i: usize| self.interfaces.get(i));
        place.copied().ok_or_else(|| format!("script error: no interface: {word}"))
    }
}
