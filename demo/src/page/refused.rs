//! What the page's server does not do, each with its status.

use std::fmt;

/// No answer repeats anything of the request: there might be a key in it.
#[derive(Clone, Copy, Debug, PartialEq, Eq)]
pub enum Refused {
    Malformed(&'static str),
    Origin,
    Path,
    /// The method that the path takes.
    Method(&'static str),
    Slow,
    Length,
    Body,
    FirstLine,
    Host,
    Line,
    Full,
    Version,
}

impl Refused {
    pub fn status(self) -> &'static str {
        match self {
            Refused::Malformed(_) => "400 Bad Request",
            Refused::Origin => "403 Forbidden",
            Refused::Path => "404 Not Found",
            Refused::Method(_) => "405 Method Not Allowed",
            Refused::Slow => "408 Request Timeout",
            Refused::Length => "411 Length Required",
            Refused::Body => "413 Content Too Large",
            Refused::FirstLine => "414 URI Too Long",
            Refused::Host => "421 Misdirected Request",
            Refused::Line => "431 Request Header Fields Too Large",
            Refused::Full => "503 Service Unavailable",
            Refused::Version => "505 HTTP Version Not Supported",
        }
    }
}

impl fmt::Display for Refused {
    fn fmt(&self, f: &mut fmt::Formatter) -> fmt::Result {
        f.write_str(match self {
            Refused::Malformed(what) => what,
            Refused::Origin => "another page asks",
            Refused::Path => "there is nothing here; the page is at /",
            Refused::Method("POST") => "only POST is taken here",
            Refused::Method(_) => "only GET is taken here",
            Refused::Slow => "it took too long to come",
            Refused::Length => "a body has to say its length",
            Refused::Body => "the body is too long",
            Refused::FirstLine => "the first line is too long",
            Refused::Host => "Host is not this page's address",
            Refused::Line => "a line is too long, or there are too many",
            Refused::Full => "too many ask at once; try again",
            Refused::Version => "HTTP/1.1 is spoken here",
        })
    }
}
