//! The head of a request, as `docs/API.md` has it.

use std::net::Ipv6Addr;

/// The most bytes of a head, of fields in it, and of a body.
pub const LIMIT: usize = 16_384;
const FIELDS: usize = 64;
const BODY_LIMIT: usize = 4_194_304;

/// The status and the body of a refusal, and whether the body is left out.
pub type Refusal = (&'static str, &'static [u8], bool);
pub const TOO_LARGE: Refusal = ("431 Request Header Fields Too Large", br#"{"code":"T04"}"#, false);
const MALFORMED: Refusal = ("400 Bad Request", br#"{"code":"T01"}"#, false);
const CODING: Refusal = ("501 Not Implemented", br#"{"code":"T05"}"#, false);
const NO_LENGTH: Refusal = ("411 Length Required", br#"{"code":"T02"}"#, false);
const TOO_LONG: Refusal = ("413 Payload Too Large", br#"{"code":"T03"}"#, false);

/// What is asked for. `Method`: by a method that it does not have, and the field with those that it has.
#[derive(Clone, Copy, PartialEq)]
pub enum Route {
    Period,
    Sale,
    Method(&'static str),
    None,
}

#[derive(Clone, Copy)]
pub struct Head {
    pub route: Route,
    pub body: usize,
    pub tokens: usize,
    pub bare: bool,
    pub closes: bool,
    pub expects: bool,
}

impl Head {
    /// Whether the body is kept for the answer.
    pub fn is_kept(&self) -> bool {
        self.route == Route::Sale
    }
}

/// A table of the bytes that are letters, digits or among these.
const fn table(others: &[u8]) -> [bool; 256] {
    let mut is_in = [false; 256];
    let mut at = 0;
    while at < 256 {
        is_in[at] = (at as u8).is_ascii_alphanumeric();
        at += 1;
    }
    at = 0;
    while at < others.len() {
        is_in[others[at] as usize] = true;
        at += 1;
    }
    is_in
}

/// A table of the bytes from this one on, but for DEL.
const fn table_from(first: u8) -> [bool; 256] {
    let mut is_in = [false; 256];
    let mut at = first as usize;
    while at < 256 {
        is_in[at] = at != 0x7F;
        at += 1;
    }
    is_in
}

static TOKEN: [bool; 256] = table(b"!#$%&'*+-.^_`|~");
static NAME: [bool; 256] = table(b"-._~!$&'()*+,;=");
static TARGET: [bool; 256] = table_from(b'!');
static VALUE: [bool; 256] = {
    let mut is_in = table_from(b' ');
    is_in[b'\t' as usize] = true;
    is_in
};

fn all_in(table: &[bool; 256], text: &[u8]) -> bool {
    text.iter().all(|byte| table[usize::from(*byte)])
}

unsafe extern "C" {
    fn memchr(bytes: *const u8, byte: i32, len: usize) -> *const u8;
}

fn find(text: &[u8], byte: u8) -> Option<usize> {
    let found = unsafe { memchr(text.as_ptr(), i32::from(byte), text.len()) };
    (!found.is_null()).then(|| found as usize - text.as_ptr() as usize)
}

/// How many bytes of empty lines are in front.
fn empty_lines(text: &[u8]) -> usize {
    let mut at = 0;
    loop {
        match text[at..] {
            [b'\n', ..] => at += 1,
            [b'\r', b'\n', ..] => at += 2,
            _ => return at,
        }
    }
}

/// Where the head ends: behind the first empty line after the request line, where that is within the limit. No end is in
/// the first `searched` bytes.
pub fn find_end(text: &[u8], searched: usize) -> Option<usize> {
    let text = &text[..text.len().min(LIMIT)];
    let mut from = empty_lines(text).max(searched.saturating_sub(2));
    while let Some(at) = find(&text[from..], b'\n') {
        let next = from + at + 1;
        match text[next..] {
            [b'\n', ..] => return Some(next + 1),
            [b'\r', b'\n', ..] => return Some(next + 2),
            _ => from = next,
        }
    }
    None
}

fn is_percent_name(text: &[u8]) -> bool {
    let mut parts = text.split(|byte| *byte == b'%');
    parts.next().is_some_and(|part| all_in(&NAME, part))
        && parts.all(|part| part.len() > 1 && part[..2].iter().all(u8::is_ascii_hexdigit) && all_in(&NAME, part))
}

fn is_literal(text: &[u8]) -> bool {
    let Some((version, address)) = text.strip_prefix(b"v").or(text.strip_prefix(b"V")).and_then(|text| {
        let dot = find(text, b'.')?;
        Some((&text[..dot], &text[dot + 1..]))
    }) else {
        return std::str::from_utf8(text).is_ok_and(|text| text.parse::<Ipv6Addr>().is_ok());
    };
    let is_later = |byte: &u8| *byte == b':' || NAME[usize::from(*byte)];
    !version.is_empty() && version.iter().all(u8::is_ascii_hexdigit) && !address.is_empty() && address.iter().all(is_later)
}

/// Whether the text is a host, with a port or without.
fn is_host(text: &[u8]) -> bool {
    let (is_right, rest) = match text {
        [b'[', inner @ ..] => match find(inner, b']') {
            Some(end) => (is_literal(&inner[..end]), &inner[end + 1..]),
            None => return false,
        },
        _ => {
            let (name, rest) = text.split_at(find(text, b':').unwrap_or(text.len()));
            (all_in(&NAME, name) || is_percent_name(name), rest)
        }
    };
    is_right && rest.strip_prefix(b":").unwrap_or(rest).iter().all(u8::is_ascii_digit) && (rest.is_empty() || rest[0] == b':')
}

/// The number of the digits, cut above the limit.
fn length(text: &[u8]) -> Option<usize> {
    if text.is_empty() {
        return None;
    }
    text.iter().try_fold(0, |length: usize, byte| {
        byte.is_ascii_digit().then(|| (length * 10 + usize::from(byte - b'0')).min(BODY_LIMIT + 1))
    })
}

fn route(method: &[u8], target: &[u8]) -> Route {
    let path = target.split(|byte| *byte == b'?').next().unwrap_or(target);
    let Some(path) = path.strip_prefix(b"/agents/") else { return Route::None };
    let Some((agent, rest)) = path.split_at_checked(8) else { return Route::None };
    if !agent.iter().all(u8::is_ascii_digit) {
        return Route::None;
    }
    match (rest, rest.strip_prefix(b"/periods/")) {
        (b"/ret", _) if method == b"POST" => Route::Sale,
        (b"/ret", _) => Route::Method("\r\nAllow: POST"),
        (_, Some(period)) if period.len() == 5 && period.iter().all(u8::is_ascii_digit) => match method {
            b"GET" => Route::Period,
            _ => Route::Method("\r\nAllow: GET"),
        },
        _ => Route::None,
    }
}

/// What the fields of a head say.
#[derive(Default)]
struct Fields {
    count: usize,
    hosts: usize,
    is_host: bool,
    codings: usize,
    lengths: usize,
    length: Option<usize>,
    tokens: usize,
    closes: bool,
    expects: bool,
}

impl Fields {
    fn note(&mut self, name: &[u8], value: &[u8]) {
        if name.eq_ignore_ascii_case(b"host") {
            self.hosts += 1;
            self.is_host = is_host(value);
        } else if name.eq_ignore_ascii_case(b"bsp-token") {
            self.tokens += 1;
        } else if name.eq_ignore_ascii_case(b"content-length") {
            self.lengths += 1;
            self.length = length(value);
        } else if name.eq_ignore_ascii_case(b"transfer-encoding") {
            self.codings += 1;
        } else if name.eq_ignore_ascii_case(b"expect") {
            self.expects |= value.eq_ignore_ascii_case(b"100-continue");
        } else if name.eq_ignore_ascii_case(b"connection") {
            self.closes |= value.split(|byte| *byte == b',').any(|it| it.trim_ascii().eq_ignore_ascii_case(b"close"));
        }
    }

    /// The fields of these lines.
    fn read(text: &[u8]) -> Result<Fields, Refusal> {
        let (mut fields, mut rest) = (Fields::default(), text);
        while let Some(end) = find(rest, b'\n') {
            let line = rest[..end].strip_suffix(b"\r").unwrap_or(&rest[..end]);
            if line.is_empty() {
                break;
            }
            rest = &rest[end + 1..];
            if fields.count == FIELDS {
                return Err(TOO_LARGE);
            }
            fields.count += 1;
            let colon = line.iter().position(|byte| !TOKEN[usize::from(*byte)]).unwrap_or(0);
            let value = line[colon + 1..].trim_ascii();
            if colon == 0 || line[colon] != b':' || !all_in(&VALUE, value) {
                return Err(MALFORMED);
            }
            fields.note(&line[..colon], value);
        }
        Ok(fields)
    }

    /// The length of the body, by whether it is a POST on HTTP/1.1 or 1.0.
    fn length(&self, is_post: bool, is_later: bool) -> Result<usize, Refusal> {
        let is_malformed = if self.hosts == 0 { is_later } else { self.hosts > 1 || !self.is_host };
        match (self.lengths, self.length) {
            _ if is_malformed => Err(MALFORMED),
            _ if self.codings > 0 => Err(CODING),
            (0, _) if is_post => Err(NO_LENGTH),
            (0, _) => Ok(0),
            (1, Some(length)) if length > BODY_LIMIT => Err(TOO_LONG),
            (1, Some(length)) => Ok(length),
            _ => Err(MALFORMED),
        }
    }
}

/// Reads the head that the text is.
pub fn read_head(text: &[u8]) -> Result<Head, Refusal> {
    let text = &text[empty_lines(text)..];
    let end = find(text, b'\n').ok_or(MALFORMED)?;
    let line = text[..end].strip_suffix(b"\r").unwrap_or(&text[..end]);
    let space = find(line, b' ').ok_or(MALFORMED)?;
    let (method, rest) = (&line[..space], &line[space + 1..]);
    let space = find(rest, b' ').ok_or(MALFORMED)?;
    let (target, version) = (&rest[..space], &rest[space + 1..]);
    let is_later = version == b"HTTP/1.1";
    let is_target = !target.is_empty() && all_in(&TARGET, target);
    if method.is_empty() || !all_in(&TOKEN, method) || !is_target || !is_later && version != b"HTTP/1.0" {
        return Err(MALFORMED);
    }
    let bare = method == b"HEAD";
    let fields = Fields::read(&text[end + 1..])?;
    let body = fields.length(method == b"POST", is_later).map_err(|(status, body, _)| (status, body, bare))?;
    Ok(Head {
        route: route(method, target),
        body,
        tokens: fields.tokens,
        bare,
        closes: fields.closes || !is_later,
        expects: fields.expects && is_later && body > 0,
    })
}
