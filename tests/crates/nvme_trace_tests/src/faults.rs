// Each fault of a text, with its line.
use crate::examples::CHANGED;
use nvme_trace::{Checked, TraceError, check};
use std::alloc::Global;
use std::io::{Error, ErrorKind, Read};
use std::test::*;

const HEAD: &str = "{\"version\":1,\"mechanism\":\"weighted\",\"cdw11\":0}";

// The text of the error.
fn error_of(alloc: Global, text: &[u8]) -> Result<String, Fail> {
    match check(alloc, text) {
        Ok(checked) => Ok(checked.to_string(alloc)?),
        Err(error) => Ok(error.to_string(alloc)?),
    }
}

// Texts whose first line is no head.
const OTHER_TEXTS: [(&str, &str); 11] = [
    (
        "",
        "no head: wanted a line with version, mechanism and cdw11",
    ),
    (
        "\n \t\r\n",
        "no head: wanted a line with version, mechanism and cdw11",
    ),
    (
        "{",
        "not JSON: byte 1, wanted an object with version, mechanism and cdw11; one object on each line (jq -c . makes them)",
    ),
    (
        "[",
        "not JSON: byte 1, wanted an object with version, mechanism and cdw11; one object on each line (jq -c '.[]' makes them)",
    ),
    (
        "[{\"version\":1}]",
        "no object: found [{\"version\":1}], wanted an object with version, mechanism and cdw11; one object on each line (jq -c '.[]' makes them)",
    ),
    (
        "\u{feff}{\"version\":1,\"mechanism\":\"weighted\",\"cdw11\":0}",
        "not JSON: begins with a byte order mark (EF BB BF); save it without",
    ),
    (
        "# A queue.",
        "not JSON: byte 1, wanted an object with version, mechanism and cdw11",
    ),
    (
        "[[queue]]",
        "not JSON: byte 3, wanted an object with version, mechanism and cdw11",
    ),
    (
        "version = 1",
        "not JSON: byte 1, wanted an object with version, mechanism and cdw11",
    ),
    (
        "version: 1",
        "not JSON: byte 1, wanted an object with version, mechanism and cdw11",
    ),
    (
        "[1]",
        "no object: found [1], wanted an object with version, mechanism and cdw11",
    ),
];

// Heads whose version is missing or wrong.
const VERSIONS: [(&str, &str); 7] = [
    ("{}", "missing version: wanted 1"),
    (
        "{\"mechanism\":\"weighted\",\"cdw11\":0}",
        "missing version: wanted 1",
    ),
    ("{\"version\":2}", "bad version: found 2, wanted 1"),
    ("{\"version\":0}", "bad version: found 0, wanted 1"),
    ("{\"version\":1.0}", "bad version: found 1.0, wanted 1"),
    ("{\"version\": 1e2 }", "bad version: found 1e2, wanted 1"),
    (
        "{\"version\":1,\"version\":[2 , \"],\"]}",
        "bad version: found [2 , \"],\"], wanted 1",
    ),
];

// Heads at fault behind the version.
const OTHER_HEADS: [(&str, &str); 6] = [
    (
        "{\"version\":1}",
        "missing mechanism: wanted \"round-robin\" or \"weighted\"",
    ),
    (
        "{\"version\":1,\"mechanism\":\"wrr\"}",
        "bad mechanism: found \"wrr\", wanted \"round-robin\" or \"weighted\"",
    ),
    (
        "{\"version\":1,\"mechanism\":\"weighted\"}",
        "missing cdw11: wanted a whole number from 0 to 4294967295",
    ),
    (
        "{\"version\":1,\"mechanism\":\"weighted\",\"cdw11\":4294967296}",
        "bad cdw11: found 4294967296, wanted a whole number from 0 to 4294967295",
    ),
    (
        "{\"version\":1,\"mechanism\":\"weighted\",\"cdw11\":0,\"x\":0,\"t\":5,\"x_t\":1}",
        "unknown field: \"t\", wanted version, mechanism, cdw11 and, from the middle, last and used; fields that begin with x_ are ignored",
    ),
    (
        "{\"version\":1,\"mechanism\":\"weighted\",\"cdw11\":0,\"room\":1}",
        "unknown field: \"room\", wanted version, mechanism, cdw11 and, from the middle, last and used; fields that begin with x_ are ignored",
    ),
];

// Heads that tell a state in which no arbiter can be.
const STATES: [(&str, &str); 17] = [
    (
        "{\"version\":1,\"mechanism\":\"weighted\",\"cdw11\":0,\"last\":5}",
        "bad last: found 5, wanted an object with identifiers that can be served last: all (round robin), or admin, urgent, high, medium, low (weighted)",
    ),
    (
        "{\"version\":1,\"mechanism\":\"weighted\",\"cdw11\":0,\"last\":[]}",
        "bad last: found [], wanted an object with identifiers that can be served last: all (round robin), or admin, urgent, high, medium, low (weighted)",
    ),
    (
        "{\"version\":1,\"mechanism\":\"weighted\",\"cdw11\":0,\"last\":{\"all\":1}}",
        "bad last: found {\"all\":1}, wanted an object with identifiers that can be served last: all (round robin), or admin, urgent, high, medium, low (weighted)",
    ),
    (
        "{\"version\":1,\"mechanism\":\"weighted\",\"cdw11\":0,\"last\":{\"admin\":1}}",
        "bad last: found {\"admin\":1}, wanted an object with identifiers that can be served last: all (round robin), or admin, urgent, high, medium, low (weighted)",
    ),
    (
        "{\"version\":1,\"mechanism\":\"weighted\",\"cdw11\":0,\"last\":{\"urgent\":0}}",
        "bad last: found {\"urgent\":0}, wanted an object with identifiers that can be served last: all (round robin), or admin, urgent, high, medium, low (weighted)",
    ),
    (
        "{\"version\":1,\"mechanism\":\"weighted\",\"cdw11\":0,\"last\":{\"high\":65}}",
        "bad last: found {\"high\":65}, wanted an object with identifiers that can be served last: all (round robin), or admin, urgent, high, medium, low (weighted)",
    ),
    (
        "{\"version\":1,\"mechanism\":\"weighted\",\"cdw11\":0,\"last\":{\"low\":1.0}}",
        "bad last: found {\"low\":1.0}, wanted an object with identifiers that can be served last: all (round robin), or admin, urgent, high, medium, low (weighted)",
    ),
    (
        "{\"version\":1,\"mechanism\":\"weighted\",\"cdw11\":0,\"last\":{\"medium\":1,\"High\":1}}",
        "bad last: found {\"medium\":1,\"High\":1}, wanted an object with identifiers that can be served last: all (round robin), or admin, urgent, high, medium, low (weighted)",
    ),
    (
        "{\"version\":1,\"mechanism\":\"weighted\",\"cdw11\":0,\"last\":{\"high\":1},\"used\":{\"high\":2}}",
        "bad used: found {\"high\":2}, wanted an object with high, medium, low, each at most its weight, and 0 where no queue of the level was served (weighted)",
    ),
    (
        "{\"version\":1,\"mechanism\":\"weighted\",\"cdw11\":0,\"last\":{\"high\":1},\"used\":{\"low\":1}}",
        "bad used: found {\"low\":1}, wanted an object with high, medium, low, each at most its weight, and 0 where no queue of the level was served (weighted)",
    ),
    (
        "{\"version\":1,\"mechanism\":\"weighted\",\"cdw11\":0,\"used\":{\"medium\":1}}",
        "bad used: found {\"medium\":1}, wanted an object with high, medium, low, each at most its weight, and 0 where no queue of the level was served (weighted)",
    ),
    (
        "{\"version\":1,\"mechanism\":\"weighted\",\"cdw11\":0,\"last\":{\"high\":1},\"used\":{\"high\":1,\"all\":1}}",
        "bad used: found {\"high\":1,\"all\":1}, wanted an object with high, medium, low, each at most its weight, and 0 where no queue of the level was served (weighted)",
    ),
    (
        "{\"version\":1,\"mechanism\":\"weighted\",\"cdw11\":0,\"used\":3,\"last\":{\"high\":65}}",
        "bad last: found {\"high\":65}, wanted an object with identifiers that can be served last: all (round robin), or admin, urgent, high, medium, low (weighted)",
    ),
    (
        "{\"version\":1,\"mechanism\":\"weighted\",\"cdw11\":0,\"used\":true}",
        "bad used: found true, wanted an object with high, medium, low, each at most its weight, and 0 where no queue of the level was served (weighted)",
    ),
    (
        "{\"version\":1,\"mechanism\":\"round-robin\",\"cdw11\":0,\"last\":{\"high\":1}}",
        "bad last: found {\"high\":1}, wanted an object with identifiers that can be served last: all (round robin), or admin, urgent, high, medium, low (weighted)",
    ),
    (
        "{\"version\":1,\"mechanism\":\"round-robin\",\"cdw11\":0,\"last\":{\"all\":65}}",
        "bad last: found {\"all\":65}, wanted an object with identifiers that can be served last: all (round robin), or admin, urgent, high, medium, low (weighted)",
    ),
    (
        "{\"version\":1,\"mechanism\":\"round-robin\",\"cdw11\":0,\"last\":{\"all\":1},\"used\":{\"high\":1}}",
        "bad used: found {\"high\":1}, wanted an object with high, medium, low, each at most its weight, and 0 where no queue of the level was served (weighted)",
    ),
];

// Lines that are no event.
const NO_EVENTS: [(&str, &str); 6] = [
    ("{}", "missing pick: wanted a whole number from 0 to 65535"),
    (
        "[]",
        "no object: found [], wanted an object with pick, n, fresh and seen",
    ),
    (
        "\"pick\"",
        "no object: found \"pick\", wanted an object with pick, n, fresh and seen",
    ),
    (
        "{\"pick\":1,}",
        "not JSON: byte 11, wanted an object with pick, n, fresh and seen",
    ),
    (
        "{\"set\":-1}",
        "bad set: found -1, wanted a whole number from 0 to 4294967295",
    ),
    (
        "{\"set\":0,\"pick\":1}",
        "unknown field: \"pick\", wanted set alone; fields that begin with x_ are ignored",
    ),
];

// Picks whose queue or number is missing or wrong.
const NUMBERS: [(&str, &str); 6] = [
    (
        "{\"pick\":65536}",
        "bad pick: found 65536, wanted a whole number from 0 to 65535",
    ),
    (
        "{\"pick\":1}",
        "missing n: wanted a whole number from 0 to 65535",
    ),
    (
        "{\"pick\":1,\"n\":2.0}",
        "bad n: found 2.0, wanted a whole number from 0 to 65535",
    ),
    (
        "{\"pick\":1,\"n\":-0,\"x_n\":7}",
        "bad n: found -0, wanted a whole number from 0 to 65535",
    ),
    (
        "{\"pick\":1,\"n\":\"\u{202e}\u{9b}é\"}",
        "bad n: found \"\\u{202e}\\u{9b}é\", wanted a whole number from 0 to 65535",
    ),
    (
        "{\"pick\":1,\"n\":\"0123456789012345678901234567890123456789\"}",
        "bad n: found \"012345678901234567890123456789012345678.., wanted a whole number from 0 to 65535",
    ),
];

// Lines at fault behind the number.
const OTHER_PICKS: [(&str, &str); 12] = [
    (
        "{\"pick\":1,\"room\":0}",
        "missing n: wanted a whole number from 0 to 65535",
    ),
    (
        "{\"pick\":1,\"n\":0,\"room\":0}",
        "bad room: found 0, wanted a whole number from 1 to 65535; without a limit leave it out",
    ),
    (
        "{\"pick\":1,\"n\":1,\"room\":65536}",
        "bad room: found 65536, wanted a whole number from 1 to 65535; without a limit leave it out",
    ),
    (
        "{\"pick\":1,\"n\":3,\"room\":\"3\",\"fresh\":0}",
        "bad room: found \"3\", wanted a whole number from 1 to 65535; without a limit leave it out",
    ),
    (
        "{\"pick\":1,\"n\":1,\"room\":null}",
        "bad room: found null, wanted a whole number from 1 to 65535; without a limit leave it out",
    ),
    (
        "{\"pick\":1,\"n\":1,\"room\":1}",
        "missing fresh: wanted true or false; with --spec it may be left out",
    ),
    (
        "{\"pick\":1,\"n\":1,\"room\":1,\"fresh\":false,\"seen\":[],\"rooms\":1}",
        "unknown field: \"rooms\", wanted pick, n, fresh, seen and, with a limit, room; fields that begin with x_ are ignored",
    ),
    (
        "{\"set\":0,\"room\":1}",
        "unknown field: \"room\", wanted set alone; fields that begin with x_ are ignored",
    ),
    (
        "{\"pick\":1,\"n\":1}",
        "missing fresh: wanted true or false; with --spec it may be left out",
    ),
    (
        "{\"pick\":1,\"n\":1,\"fresh\":0}",
        "bad fresh: found 0, wanted true or false",
    ),
    (
        "{\"pick\":1,\"n\":1,\"fresh\":false}",
        "missing seen: wanted an array of the open submission queues",
    ),
    (
        "{\"pick\":1,\"n\":1,\"fresh\":false,\"seen\":[],\"x_a\":0,\"x\":0}",
        "unknown field: \"x\", wanted pick, n, fresh, seen and, with a limit, room; fields that begin with x_ are ignored",
    ),
];

// What is told of the first of these heads of which another fault is told than here.
fn other_head_fault(alloc: Global, heads: &[(&str, &str)]) -> Result<Option<String>, Fail> {
    for (text, want) in heads {
        let told = error_of(alloc, text.as_bytes())?;
        let want = format!(in alloc; "trace: line 1: {want}")?;
        if told.as_str() != want.as_str() {
            return Ok(Some(told));
        }
    }
    Ok(None)
}

#[test]
fn heads(rt: HostRuntime) -> Result<(), Fail> {
    assert_eq!(rt; other_head_fault(rt.alloc(), &OTHER_TEXTS)?, None);
    assert_eq!(rt; other_head_fault(rt.alloc(), &VERSIONS)?, None);
    assert_eq!(rt; other_head_fault(rt.alloc(), &OTHER_HEADS)?, None);
    assert_eq!(rt; other_head_fault(rt.alloc(), &STATES)?, None);
    Ok(())
}

// What is told of a line behind a head and a change of the settings.
fn told_of(alloc: Global, line: &str) -> Result<String, Fail> {
    let text = format!(in alloc; "{HEAD}\n{{\"set\":0}}\n{line}\n")?;
    error_of(alloc, text.as_bytes())
}

// What is told of the first of these lines of which another fault is told than here.
fn other_line_fault(alloc: Global, lines: &[(&str, &str)]) -> Result<Option<String>, Fail> {
    for (line, want) in lines {
        let told = told_of(alloc, line)?;
        let want = format!(in alloc; "trace: line 3: {want}")?;
        if told.as_str() != want.as_str() {
            return Ok(Some(told));
        }
    }
    Ok(None)
}

#[test]
fn events(rt: HostRuntime) -> Result<(), Fail> {
    assert_eq!(rt; other_line_fault(rt.alloc(), &NO_EVENTS)?, None);
    assert_eq!(rt; other_line_fault(rt.alloc(), &NUMBERS)?, None);
    assert_eq!(rt; other_line_fault(rt.alloc(), &OTHER_PICKS)?, None);
    Ok(())
}

#[test]
fn texts_that_are_no_json(rt: HostRuntime) -> Result<(), Fail> {
    let alloc = rt.alloc();
    for line in ["1e400", "\"\\ud800\"", "{\"pick\":1", "{}{}"] {
        let told = told_of(alloc, line)?;
        assert!(rt;
            told.as_str().starts_with("trace: line 3: not JSON: byte "),
            "at {line}"
        );
    }
    for line in ["5", "null"] {
        let want = format!(in alloc;
            "trace: line 3: no object: found {line}, wanted an object with pick, n, fresh and seen"
        )?;
        assert_eq!(rt; told_of(alloc, line)?.as_str(), want.as_str());
    }
    Ok(())
}

// Arrays that are no observation.
const OBSERVATIONS: [(&str, &str); 10] = [
    (
        "1",
        "found 1, wanted an array of the open submission queues",
    ),
    (
        "[[1,\"high\"]]",
        "seen[0]: found [1,\"high\"], wanted an array of identifier, class and count",
    ),
    (
        "[[1,\"high\",1,1]]",
        "seen[0]: found [1,\"high\",1,1], wanted an array of identifier, class and count",
    ),
    (
        "[[1,\"high\",1],[2, \"high\", 1e0]]",
        "seen[1]: count 1e0, wanted 0 to 256; write 256 where more wait",
    ),
    (
        "[[1,\"high\",1],[65,\"high\",1]]",
        "seen[1]: identifier 65, wanted 0 to 64; queues above 64 can't be judged",
    ),
    (
        "[[1,\"High\",1]]",
        "seen[0]: class \"High\", wanted \"admin\", \"urgent\", \"high\", \"medium\" or \"low\"",
    ),
    (
        "[[1,\"high\",1],[2,\"high\",1],[3,\"low\",300]]",
        "seen[2]: count 300, wanted 0 to 256; write 256 where more wait",
    ),
    (
        "[[1,\"admin\",1]]",
        "seen[0]: class \"admin\" of queue 1, wanted another: it is that of queue 0 alone",
    ),
    (
        "[[0,\"high\",1]]",
        "seen[0]: class \"high\" of queue 0, wanted \"admin\" for queue 0",
    ),
    (
        "[[2,\"low\",1],[1,\"low\",1]]",
        "seen[1]: identifier 1 behind 2, wanted ascending identifiers, each once",
    ),
];

#[test]
fn observations(rt: HostRuntime) -> Result<(), Fail> {
    let alloc = rt.alloc();
    for (seen, want) in OBSERVATIONS {
        let line = format!(in alloc; "{{\"pick\":1,\"n\":1,\"fresh\":false,\"seen\":{seen}}}")?;
        let want = format!(in alloc; "trace: line 3: seen is no observation: {want}")?;
        assert_eq!(rt;
            told_of(alloc, line.as_str())?.as_str(),
            want.as_str(),
            "at {line}"
        );
    }
    Ok(())
}

#[test]
fn too_many_queues(rt: HostRuntime) -> Result<(), Fail> {
    let alloc = rt.alloc();
    let mut seen = format!(in alloc; "[0,\"admin\",0]")?;
    for qid in 1..=65 {
        let queue = format!(in alloc; ",[{qid},\"low\",0]")?;
        seen.push_str(queue.as_str())?;
    }
    let line = format!(in alloc; "{{\"pick\":1,\"n\":1,\"fresh\":false,\"seen\":[{seen}]}}")?;
    assert_eq!(rt;
        told_of(alloc, line.as_str())?.as_str(),
        "trace: line 3: seen is no observation: found 66 queues, wanted at most 65"
    );
    Ok(())
}

#[test]
fn blank_lines_and_own_fields_pass(rt: HostRuntime) -> Result<(), Fail> {
    let alloc = rt.alloc();
    let text =
        "\n{\"version\":1,\"mechanism\":\"round-robin\",\"cdw11\":0,\"x_core\":[1]}\n \t\n{\"set\":0,\"x_\":1}\r\n\r\n{\"pick\":1,\"n\":1,\"x_t\":5,\"fresh\":false,\"seen\":[[1,\"low\",1]]}\n\n\n";
    assert_eq!(rt;
        error_of(alloc, text.as_bytes())?.as_str(),
        "lawful: 1 pick"
    );
    let differs = format!(in alloc; "{text}{{\"set\":1}}\n\n{{\"pick\":1}}")?;
    assert_eq!(rt;
        error_of(alloc, differs.as_bytes())?.as_str(),
        "trace: line 11: missing n: wanted a whole number from 0 to 65535"
    );
    Ok(())
}

// A head, and then a line of `count` bytes.
fn with_line(alloc: Global, count: usize, byte: u8) -> Result<Vec<u8>, Fail> {
    let mut text = Vec::new(alloc);
    text.extend_from_slice(HEAD.as_bytes())?;
    text.extend_from_slice(b"\n{\"set\":0}")?;
    for _ in 9..count {
        text.push(byte)?;
    }
    Ok(text)
}

#[test]
fn bytes(rt: HostRuntime) -> Result<(), Fail> {
    for (count, byte, want) in [
        (4_096, b' ', "lawful: 0 picks"),
        (4_097, b' ', "trace: line 2: more than 4096 bytes"),
        (100_000, 0xff, "trace: line 2: more than 4096 bytes"),
        (10, 0xff, "trace: line 2: not UTF-8"),
    ] {
        let text = with_line(rt.alloc(), count, byte)?;
        assert_eq!(rt;
            error_of(rt.alloc(), text.as_slice())?.as_str(),
            want,
            "at {count}"
        );
    }
    Ok(())
}

// A reader that gives a head and then fails.
#[derive(Drop)]
struct Fails(bool);

impl Read for Fails {
    fn read(&mut self, buf: &mut [u8]) -> std::io::Result<usize> {
        if self.0 {
            return Err(Error::from(ErrorKind::Other));
        }
        self.0 = true;
        let head = HEAD.as_bytes();
        let count = head.len().min(buf.len());
        buf[..count].copy_from_slice(&head[..count]);
        Ok(count)
    }
}

#[test]
fn reader_fails(rt: HostRuntime) {
    assert_eq!(rt; check(rt.alloc(), Fails(true)), Err(TraceError::Read));
    assert_eq!(rt; check(rt.alloc(), Fails(false)), Err(TraceError::Read));
}

// A reader of a text of which a signal interrupts each other read.
#[derive(Drop)]
struct Interrupted<'a> {
    text: &'a [u8],
    is_next: bool,
}

impl Read for Interrupted<'_> {
    fn read(&mut self, buf: &mut [u8]) -> std::io::Result<usize> {
        self.is_next = !self.is_next;
        if self.is_next {
            return Err(Error::from(ErrorKind::Interrupted));
        }
        let count = self.text.len().min(buf.len()).min(7);
        buf[..count].copy_from_slice(&self.text[..count]);
        self.text = &self.text[count..];
        Ok(count)
    }
}

#[test]
fn interrupted_reads_are_made_again(rt: HostRuntime) -> Result<(), Fail> {
    let reader = Interrupted {
        text: CHANGED.as_bytes(),
        is_next: false,
    };
    assert_eq!(rt; check(rt.alloc(), reader), Ok(Checked::Lawful { picks: 3 }));
    Ok(())
}
