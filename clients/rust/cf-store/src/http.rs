//! Questions to a server by HTTP/1.1, each a `POST` of JSON: as much of it as etcd's gateway takes. A connection is used again and again.
use std::io::{self, BufRead, BufReader, ErrorKind, Read, Write};
use std::net::{TcpStream, ToSocketAddrs};
use std::time::Duration;

/// How long a line of a head may be, in bytes.
const LONGEST_LINE: u64 = 65_536;

/// A connection to a server.
#[derive(Debug)]
pub(crate) struct HttpConnection {
    address: String,
    stream: BufReader<TcpStream>,
}

/// How the end of an answer's body is told.
enum Body {
    Sized(u64),
    InChunks,
    UntilClosed,
}

impl HttpConnection {
    /// Connects to an address of a host and a port. Each step of a question takes so long at most.
    pub(crate) fn new(address: &str, silence: Duration) -> io::Result<HttpConnection> {
        let mut last = io::Error::new(ErrorKind::NotFound, "it has no address");
        for it in address.to_socket_addrs()? {
            match TcpStream::connect_timeout(&it, silence) {
                Ok(stream) => {
                    stream.set_nodelay(true)?;
                    stream.set_read_timeout(Some(silence))?;
                    stream.set_write_timeout(Some(silence))?;
                    return Ok(HttpConnection { address: address.to_owned(), stream: BufReader::new(stream) });
                }
                Err(error) => last = error,
            }
        }
        Err(last)
    }

    /// Asks, and gives the answer's status and body.
    pub(crate) fn post(&mut self, path: &str, body: &[u8]) -> io::Result<(u16, Vec<u8>)> {
        self.send(path, body, "keep-alive")?;
        let (status, ends) = self.head()?;
        let mut told = Vec::new();
        match ends {
            Body::Sized(size) => self.read(size, &mut told)?,
            Body::InChunks => while self.chunk(&mut told)? {},
            Body::UntilClosed => drop(self.stream.read_to_end(&mut told)?),
        }
        Ok((status, told))
    }

    /// Asks for an answer without an end, and waits for its first part. The connection is of no other use then.
    pub(crate) fn stream(&mut self, path: &str, body: &[u8]) -> io::Result<()> {
        self.send(path, body, "close")?;
        match self.head()? {
            (200, Body::InChunks) if self.chunk(&mut Vec::new())? => Ok(()),
            (status, _) => Err(broken(format!("it answers {status}, and not by a stream"))),
        }
    }

    /// Waits until more of that answer comes, for so long at most. Whether it came; an error where the answer has ended.
    pub(crate) fn more(&mut self, wait: Duration) -> io::Result<bool> {
        self.stream.get_ref().set_read_timeout(Some(wait.max(Duration::from_millis(1))))?;
        match self.stream.fill_buf().map(<[u8]>::len) {
            Ok(0) => Err(ErrorKind::UnexpectedEof.into()),
            Ok(many) => {
                self.stream.consume(many);
                Ok(true)
            }
            Err(error) if matches!(error.kind(), ErrorKind::WouldBlock | ErrorKind::TimedOut | ErrorKind::Interrupted) => Ok(false),
            Err(error) => Err(error),
        }
    }

    fn send(&mut self, path: &str, body: &[u8], connection: &str) -> io::Result<()> {
        let (host, size) = (&self.address, body.len());
        let head = format!(
            "POST {path} HTTP/1.1\r\nHost: {host}\r\nConnection: {connection}\r\nContent-Type: application/json\r\nContent-Length: {size}\r\n\r\n"
        );
        self.stream.get_mut().write_all(&[head.as_bytes(), body].concat())
    }

    /// The status of an answer, and how its body ends.
    fn head(&mut self) -> io::Result<(u16, Body)> {
        let first = self.line()?;
        let status = first.strip_prefix("HTTP/1.").and_then(|it| it.get(2..5)).and_then(|it| it.parse().ok());
        let status = status.ok_or_else(|| broken(format!("it answers {first:?}")))?;
        let mut ends = Body::UntilClosed;
        loop {
            let line = self.line()?;
            let Some((name, value)) = line.split_once(':') else { break };
            let value = value.trim();
            if name.eq_ignore_ascii_case("transfer-encoding") && value.eq_ignore_ascii_case("chunked") {
                ends = Body::InChunks;
            } else if name.eq_ignore_ascii_case("content-length") {
                ends = Body::Sized(value.parse().map_err(|_| broken(format!("it answers {line:?}")))?);
            }
        }
        Ok((status, ends))
    }

    /// Reads the next chunk of a body; whether there is one more behind it.
    fn chunk(&mut self, told: &mut Vec<u8>) -> io::Result<bool> {
        let line = self.line()?;
        let size = u64::from_str_radix(line.split(';').next().unwrap_or_default().trim(), 16).map_err(|_| broken(format!("a chunk of {line:?}")))?;
        self.read(size, told)?;
        while !self.line()?.is_empty() {} // (behind the last one a server may put more of its head)
        Ok(size > 0)
    }

    fn read(&mut self, size: u64, told: &mut Vec<u8>) -> io::Result<()> {
        if (&mut self.stream).take(size).read_to_end(told)? as u64 == size {
            Ok(())
        } else {
            Err(ErrorKind::UnexpectedEof.into())
        }
    }

    fn line(&mut self) -> io::Result<String> {
        let mut line = Vec::new();
        (&mut self.stream).take(LONGEST_LINE).read_until(b'\n', &mut line)?;
        if line.pop() != Some(b'\n') {
            return Err(ErrorKind::UnexpectedEof.into());
        }
        String::from_utf8(line).map(|it| it.trim_end_matches('\r').to_owned()).map_err(|_| broken("its head is no text".to_owned()))
    }
}

fn broken(why: String) -> io::Error {
    io::Error::new(ErrorKind::InvalidData, why)
}
