//! A server without proofs, which `bench/run` measures `mf2d pipe` against: each line is read into a JSON value, a message
//! is looked up in a map, and the reply is written from a JSON value. It knows no grammar and no plural rules, checks no
//! field, and gives no parts: `{$name}` in a source is replaced by the argument, and all else stands.
use serde_json::{json, Map, Value};
use std::collections::HashMap;
use std::io::{self, BufRead, BufWriter, Write};

#[derive(Default)]
struct Server {
    edition: u64,
    messages: HashMap<(String, String), String>,
}

impl Server {
    fn reply(&mut self, line: &str) -> Value {
        let Ok(request) = serde_json::from_str::<Value>(line) else {
            return json!({"error": "bad-json"});
        };
        match request["op"].as_str() {
            Some("publish") => self.publish(&request),
            Some("format") => self.format(&request),
            _ => json!({"error": "bad-request", "field": "op"}),
        }
    }

    fn publish(&mut self, request: &Value) -> Value {
        let locale = request["locale"].as_str().unwrap_or("und");
        for (id, source) in request["messages"].as_object().into_iter().flatten() {
            let source = source.as_str().unwrap_or("");
            self.messages.insert((locale.to_string(), id.clone()), source.to_string());
        }
        self.edition += 1;
        json!({"edition": self.edition, "ok": "publish"})
    }

    fn format(&self, request: &Value) -> Value {
        let locale = request["locale"].as_str().unwrap_or("und").to_string();
        let id = request["id"].as_str().unwrap_or("").to_string();
        let key = (locale, id);
        match self.messages.get(&key) {
            Some(source) => {
                let text = filled(source, request["args"].as_object());
                json!({"edition": self.edition, "errors": [], "locale": key.0, "ok": "format", "text": text})
            }
            None => json!({"edition": self.edition, "error": "no-message"}),
        }
    }
}

/// The source with each `{$name}` replaced by the argument of that name.
fn filled(source: &str, arguments: Option<&Map<String, Value>>) -> String {
    let mut text = String::with_capacity(source.len());
    let mut rest = source;
    while let Some((before, behind)) = rest.split_once("{$") {
        text.push_str(before);
        let Some((name, after)) = behind.split_once('}') else {
            text.push_str("{$");
            rest = behind;
            continue;
        };
        match arguments.and_then(|arguments| arguments.get(name)) {
            Some(Value::String(value)) => text.push_str(value),
            Some(value) => text.push_str(&value.to_string()),
            None => text.push_str(name),
        }
        rest = after;
    }
    text.push_str(rest);
    text
}

fn main() -> io::Result<()> {
    let mut server = Server::default();
    let mut input = io::stdin().lock();
    let mut output = BufWriter::new(io::stdout().lock());
    let mut line = String::new();
    while input.read_line(&mut line)? > 0 {
        serde_json::to_writer(&mut output, &server.reply(&line))?;
        output.write_all(b"\n")?;
        line.clear();
    }
    output.flush()
}
